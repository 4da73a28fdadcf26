// client TORRENT OUT SEED PORT PORT: as client.py, over the classes of btcheck.hpp.
#include <btcheck.hpp>

#include <arpa/inet.h>
#include <sys/socket.h>
#include <unistd.h>

#include <cstdio>
#include <cstdlib>
#include <fstream>
#include <iterator>
#include <random>
#include <stdexcept>

namespace {

void put(std::string &text, uint32_t number) {
  for (int shift = 24; shift >= 0; shift -= 8) text.push_back(char(number >> shift));
}

// A connection to a peer, after both handshakes.
class Peer {
public:
  Peer(const char *port, const btcheck::Hash &info_hash) : socket_(socket(AF_INET, SOCK_STREAM, 0)) {
    sockaddr_in there{};
    there.sin_family = AF_INET;
    there.sin_addr.s_addr = htonl(INADDR_LOOPBACK);
    there.sin_port = htons(uint16_t(std::atoi(port)));
    if (connect(socket_, reinterpret_cast<sockaddr *>(&there), sizeof there) != 0) throw std::runtime_error("connect");
    std::string name(info_hash.begin(), info_hash.begin() + 20);
    write("\x13" "BitTorrent protocol" + std::string(8, '\0') + name + std::string(20, '\0'));
    if (read(68).substr(28, 20) != name) throw std::runtime_error("handshake");
  }

  // Sends a message, and waits for one of this kind.
  std::string answer(const std::string &body, uint8_t kind) {
    std::string frame;
    put(frame, uint32_t(body.size()));
    write(frame + body);
    for (;;) {
      std::string size = read(4), found;
      uint32_t length = 0;
      for (char each : size) length = length << 8 | uint8_t(each);
      found = read(length);
      if (!found.empty() && uint8_t(found[0]) == kind) return found;
    }
  }

private:
  void write(const std::string &bytes) {
    if (send(socket_, bytes.data(), bytes.size(), 0) != ssize_t(bytes.size())) throw std::runtime_error("send");
  }
  std::string read(size_t size) {
    std::string found(size, '\0');
    if (size > 0 && recv(socket_, found.data(), size, MSG_WAITALL) != ssize_t(size)) throw std::runtime_error("recv");
    return found;
  }
  int socket_;
};

struct Client {
  btcheck::Session session;
  std::vector<Peer> peers;
  uint64_t of_hashes = 0, of_blocks = 0;

  // Learns the leaf of a block.
  void learn(size_t at, size_t tree, uint64_t block) {
    while (auto ask = session.want(tree, block)) {
      session.note(*ask);
      std::string request = "\x15" + std::string(reinterpret_cast<const char *>(ask->root), sizeof ask->root);
      for (uint32_t field : {ask->base, ask->index, ask->length, ask->proof}) put(request, field);
      std::string body = peers[at].answer(request, 22);
      if (body.compare(1, 48, request, 1, 48) != 0) throw std::runtime_error("another answer");
      std::vector<btcheck::Hash> hashes((body.size() - 49) / 32);
      for (size_t each = 0; each < hashes.size(); each++)
        std::copy_n(body.data() + 49 + 32 * each, 32, hashes[each].begin());
      try {
        session.take_answer(*ask, hashes);
      } catch (const btcheck::Refused &) {
        of_hashes++, at ^= 1;
      }
    }
  }

  // Loads a block.
  std::string load(size_t at, uint32_t index, uint32_t begin, uint32_t size) {
    std::string request = "\6";
    for (uint32_t field : {index, begin, size}) put(request, field);
    for (;;) {
      std::string block = peers[at].answer(request, 7).substr(9);
      try {
        session.take_block(index, begin, block);
        return block;
      } catch (const btcheck::Refused &) {
        of_blocks++, at ^= 1;
      }
    }
  }
};

// A block: where it stands in OUT, in its file and in its piece's file.
struct Block {
  uint64_t before, at, size, first_piece;
  size_t tree;
};

} // namespace

int main(int, char **words) {
  std::ifstream in(words[1], std::ios::binary);
  Client client{btcheck::Session(std::string{std::istreambuf_iterator<char>(in), {}}), {}};
  btcheck::Hash info_hash = client.session.info_hashes().first;
  for (int at : {4, 5}) client.peers.emplace_back(words[at], info_hash);
  std::vector<Block> order;
  uint64_t before = 0, verified = 0, length = client.session.piece_length();
  for (const btcheck::File &file : client.session.files()) {
    for (uint64_t at = 0; at < file.length; at += BTCHECK_BLOCK)
      order.push_back({before, at, std::min<uint64_t>(BTCHECK_BLOCK, file.length - at), file.first_piece, size_t(*file.tree)});
    before += file.length;
  }
  std::mt19937 draw(unsigned(std::atoi(words[3])));
  std::shuffle(order.begin(), order.end(), draw);
  std::ofstream out(words[2], std::ios::binary);
  for (const Block &it : order) {
    size_t peer = draw() % 2;
    client.learn(peer, it.tree, it.at / BTCHECK_BLOCK);
    std::string block = client.load(peer, uint32_t(it.first_piece + it.at / length), uint32_t(it.at % length), uint32_t(it.size));
    verified += client.session.is_marked(it.tree, it.at / BTCHECK_BLOCK);
    out.seekp(std::streamoff(it.before + it.at)).write(block.data(), std::streamsize(block.size()));
  }
  std::printf("verified %llu of %zu, refused %llu hashes and %llu blocks\n", (unsigned long long)verified, order.size(),
              (unsigned long long)client.of_hashes, (unsigned long long)client.of_blocks);
}
