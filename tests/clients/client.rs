//! client TORRENT OUT SEED PORT PORT: as client.py, over the crate `btcheck`.
use btcheck::{Ask, Error, Hash, Session, BLOCK};
use std::fs::File;
use std::io::{Read, Result, Write};
use std::net::TcpStream;
use std::os::unix::fs::FileExt;

/// A connection to a peer, after both handshakes.
struct Peer(TcpStream);

impl Peer {
    fn new(port: &str, info_hash: &Hash) -> Result<Self> {
        let mut stream = TcpStream::connect(format!("127.0.0.1:{port}"))?;
        let greeting = [&b"\x13BitTorrent protocol"[..], &[0; 8], &info_hash[..20], &[0; 20]].concat();
        stream.write_all(&greeting)?;
        let mut theirs = [0; 68];
        stream.read_exact(&mut theirs)?;
        assert_eq!(theirs[28..48], info_hash[..20]);
        Ok(Peer(stream))
    }

    /// Sends a message, and waits for one of this kind.
    fn answer(&mut self, body: &[u8], kind: u8) -> Result<Vec<u8>> {
        self.0.write_all(&[&(body.len() as u32).to_be_bytes(), body].concat())?;
        loop {
            let mut size = [0; 4];
            self.0.read_exact(&mut size)?;
            let mut found = vec![0; u32::from_be_bytes(size) as usize];
            self.0.read_exact(&mut found)?;
            if found.first() == Some(&kind) {
                return Ok(found);
            }
        }
    }
}

fn message(kind: u8, root: &[u8], numbers: &[u32]) -> Vec<u8> {
    let fields: Vec<_> = numbers.iter().flat_map(|it| it.to_be_bytes()).collect();
    [&[kind], root, &fields].concat()
}

/// A block: where it stands in OUT and in its file, its size, its file's first piece, and its tree.
struct Block {
    before: u64,
    at: u64,
    size: u64,
    first_piece: u64,
    tree: usize,
}

struct Client {
    session: Session,
    peers: Vec<Peer>,
    of_hashes: u64,
    of_blocks: u64,
}

impl Client {
    /// Learns the leaf of a block.
    fn learn(&mut self, mut peer: usize, tree: usize, block: u64) -> Result<()> {
        while let Some(ask) = self.session.want(tree, block).expect("a block of the torrent") {
            let Ask { root, base, index, length, proof } = ask;
            self.session.note(&ask).expect("memory");
            let request = message(21, &root, &[base, index, length, proof]);
            let body = self.peers[peer].answer(&request, 22)?;
            assert_eq!(body[1..49], request[1..49]);
            let hashes: Vec<Hash> = body[49..].chunks(32).map(|it| it.try_into().unwrap()).collect();
            if let Err(Error::Hashes(_)) = self.session.take_answer(&ask, &hashes) {
                self.of_hashes += 1;
                peer ^= 1;
            }
        }
        Ok(())
    }

    /// Loads a block.
    fn load(&mut self, mut peer: usize, index: u32, begin: u32, size: u32) -> Result<Vec<u8>> {
        loop {
            let body = self.peers[peer].answer(&message(6, &[], &[index, begin, size]), 7)?;
            if self.session.take_block(index, begin, &body[9..]).is_ok() {
                return Ok(body[9..].to_vec());
            }
            self.of_blocks += 1;
            peer ^= 1;
        }
    }
}

fn blocks(session: &Session) -> Vec<Block> {
    let (mut found, mut before) = (Vec::new(), 0);
    for file in session.files().map(|file| file.expect("a file of the torrent")) {
        for at in (0..file.length).step_by(BLOCK) {
            let size = (file.length - at).min(BLOCK as u64);
            let (tree, _) = file.tree.expect("a tree");
            found.push(Block { before, at, size, first_piece: file.first_piece, tree });
        }
        before += file.length;
    }
    found
}

/// A simple generator of numbers.
fn draw(state: &mut u64) -> usize {
    *state = state.wrapping_mul(6364136223846793005).wrapping_add(1442695040888963407);
    (*state >> 33) as usize
}

fn main() -> Result<()> {
    let words: Vec<String> = std::env::args().collect();
    let session = Session::open(std::fs::read(&words[1])?, true).expect("a torrent");
    let info_hash = session.info_hashes().expect("info-hashes").v2;
    let peers = words[4..].iter().map(|port| Peer::new(port, &info_hash)).collect::<Result<_>>()?;
    let (mut order, length) = (blocks(&session), session.piece_length().expect("a length"));
    let mut client = Client { session, peers, of_hashes: 0, of_blocks: 0 };
    let (mut seed, mut verified, count) = (words[3].parse().unwrap(), 0, order.len());
    let out = File::create(&words[2])?;
    while !order.is_empty() {
        let it = order.swap_remove(draw(&mut seed) % order.len());
        let (peer, block) = (draw(&mut seed) % 2, it.at / BLOCK as u64);
        client.learn(peer, it.tree, block)?;
        let index = it.first_piece + it.at / length;
        let bytes = client.load(peer, index as u32, (it.at % length) as u32, it.size as u32)?;
        verified += client.session.is_marked(it.tree, block).expect("a block") as u64;
        out.write_all_at(&bytes, it.before + it.at)?;
    }
    let (of_hashes, of_blocks) = (client.of_hashes, client.of_blocks);
    println!("verified {verified} of {count}, refused {of_hashes} hashes and {of_blocks} blocks");
    Ok(())
}
