//! exchange serve TORRENT CONTENT pieces|blocks, exchange learn TORRENT: as exchange.py, over the crate `btcheck`.
use btcheck::{Ask, Hash, Holdings, Session, Verdict, BLOCK};
use std::io::{stdin, stdout, Read, Result, Write};

/// The next frame; none at the end.
fn next() -> Option<Vec<u8>> {
    let mut size = [0; 4];
    stdin().read_exact(&mut size).ok()?;
    let mut body = vec![0; u32::from_be_bytes(size) as usize];
    stdin().read_exact(&mut body).expect("a whole frame");
    Some(body)
}

fn say(kind: u8, ask: &Ask, hashes: &[Hash]) -> Result<()> {
    let numbers: Vec<u8> = [ask.base, ask.index, ask.length, ask.proof].iter().flat_map(|it| it.to_be_bytes()).collect();
    let body = [&[kind][..], &ask.root, &numbers, &hashes.concat()].concat();
    stdout().write_all(&[&(body.len() as u32).to_be_bytes()[..], &body].concat())?;
    stdout().flush()
}

fn take(session: &mut Session, content: &[u8], by_blocks: bool) {
    let mut holdings = Holdings::new(session, 0).expect("memory");
    let (length, mut before) = (session.piece_length().expect("a length") as usize, 0);
    let files: Vec<_> = session.files().map(|file| file.expect("a file of the torrent")).collect();
    for file in files {
        for (number, piece) in content[before..before + file.length as usize].chunks(length).enumerate() {
            let index = file.first_piece as u32 + number as u32;
            if !by_blocks {
                session.take_piece(index, piece).expect("a piece of the torrent");
                continue;
            }
            for (at, block) in piece.chunks(BLOCK).enumerate() {
                session.hold(&mut holdings, index, (at * BLOCK) as u32, block).expect("a block of the torrent");
            }
            while session.settle(&mut holdings).expect("memory").is_some() {}
        }
        before += file.length as usize;
    }
}

fn serve(session: &Session) -> Result<()> {
    while let Some(body) = next() {
        let number = |at: usize| u32::from_be_bytes(body[at..at + 4].try_into().unwrap());
        let root = body[1..33].try_into().unwrap();
        let ask = Ask { root, base: number(33), index: number(37), length: number(41), proof: number(45) };
        match session.answer(&ask) {
            Ok(hashes) => say(22, &ask, &hashes)?,
            Err(_) => say(23, &ask, &[])?,
        }
    }
    Ok(())
}

fn learn(session: &mut Session) -> Result<()> {
    let mut asked = 0;
    let files: Vec<_> = session.files().map(|file| file.expect("a file of the torrent")).collect();
    for file in files {
        for block in (0..file.length.div_ceil(BLOCK as u64)).rev() {
            let (tree, _) = file.tree.expect("a tree");
            while let Some(ask) = session.want(tree, block).expect("a block of the torrent") {
                say(21, &ask, &[])?;
                let verdict = session.frame(&next().expect("an answer")).expect("true hashes");
                assert!(matches!(verdict, Verdict::Stored(_)));
                asked += 1;
            }
        }
    }
    eprintln!("asked {asked}");
    Ok(())
}

fn main() -> Result<()> {
    let words: Vec<String> = std::env::args().collect();
    let mut session = Session::open(std::fs::read(&words[2])?, words[1] == "serve").expect("a torrent");
    if words[1] == "learn" {
        return learn(&mut session);
    }
    take(&mut session, &std::fs::read(&words[3])?, words[4] == "blocks");
    serve(&session)
}
