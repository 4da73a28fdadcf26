// exchange serve TORRENT CONTENT pieces|blocks, exchange learn TORRENT: as exchange.py, over the classes of btcheck.hpp.
#include <btcheck.hpp>

#include <algorithm>
#include <cstdio>
#include <fstream>
#include <iterator>
#include <stdexcept>

namespace {

std::string whole(const char *path) {
  std::ifstream in(path, std::ios::binary);
  return std::string{std::istreambuf_iterator<char>(in), {}};
}

uint32_t number_at(const std::string &text, size_t at) {
  uint32_t number = 0;
  for (size_t each = at; each < at + 4; each++) number = number << 8 | uint8_t(text[each]);
  return number;
}

void put(std::string &text, uint32_t number) {
  for (int shift = 24; shift >= 0; shift -= 8) text.push_back(char(number >> shift));
}

// The next frame; nothing at the end.
std::string next() {
  std::string size(4, '\0');
  if (std::fread(size.data(), 1, 4, stdin) < 4) return {};
  std::string body(number_at(size, 0), '\0');
  if (std::fread(body.data(), 1, body.size(), stdin) < body.size()) throw std::runtime_error("a cut frame");
  return body;
}

void say(char kind, const btcheck::Ask &ask, const std::vector<btcheck::Hash> &hashes = {}) {
  std::string frame;
  put(frame, uint32_t(49 + 32 * hashes.size()));
  frame += kind + std::string(reinterpret_cast<const char *>(ask.root), sizeof ask.root);
  for (uint32_t field : {ask.base, ask.index, ask.length, ask.proof}) put(frame, field);
  for (const btcheck::Hash &hash : hashes) frame.append(hash.begin(), hash.end());
  std::fwrite(frame.data(), 1, frame.size(), stdout);
  std::fflush(stdout);
}

void take(btcheck::Session &session, const std::string &content, bool by_blocks) {
  btcheck::Holdings holdings(session, 0);
  uint64_t before = 0, length = session.piece_length();
  for (const btcheck::File &file : session.files()) {
    for (uint64_t at = 0; at < file.length; at += length) {
      uint32_t index = uint32_t(file.first_piece + at / length);
      std::string piece = content.substr(before + at, std::min(length, file.length - at));
      if (!by_blocks) session.take_piece(index, piece);
      for (size_t begin = 0; by_blocks && begin < piece.size(); begin += BTCHECK_BLOCK)
        session.hold(holdings, index, uint32_t(begin), piece.substr(begin, BTCHECK_BLOCK));
      while (by_blocks && session.settle(holdings)) {}
    }
    before += file.length;
  }
}

void serve(btcheck::Session &session) {
  for (std::string body; !(body = next()).empty();) {
    btcheck::Ask ask{{}, number_at(body, 33), number_at(body, 37), number_at(body, 41), number_at(body, 45)};
    std::copy_n(body.data() + 1, 32, ask.root);
    if (auto hashes = session.answer(ask))
      say(22, ask, *hashes);
    else
      say(23, ask);
  }
}

void learn(btcheck::Session &session) {
  unsigned asked = 0;
  for (const btcheck::File &file : session.files())
    for (uint64_t left = (file.length + BTCHECK_BLOCK - 1) / BTCHECK_BLOCK; left > 0; left--)
      while (auto ask = session.want(*file.tree, left - 1)) {
        say(21, *ask);
        if (session.frame(next()).kind != BTCHECK_STORED) throw std::runtime_error("no answer");
        asked++;
      }
  std::fprintf(stderr, "asked %u\n", asked);
}

} // namespace

int main(int count, char **words) {
  btcheck::Session session(whole(words[2]), count == 5);
  if (count < 5) return learn(session), 0;
  take(session, whole(words[3]), std::string(words[4]) == "blocks");
  serve(session);
}
