// keep [--ask] TORRENT FOLDER SECONDS HOST:PORT..: stands between a client of BitTorrent and its peers, and writes into FOLDER what
// the C library verifies of all that they send, and nothing else. For each peer it prints a line `PORT for HOST:PORT`:
// let the client connect to that port of this machine. It ends when all blocks are written, with status 0, or after
// SECONDS, with 1; the last line says what was written, and what was refused. With --ask it asks the peers for the hashes of
// blocks, which clients seldom do.
#include "relay.hpp"

#include <cstdio>
#include <cstdlib>
#include <cstring>
#include <exception>
#include <fstream>
#include <iterator>

int main(int count, char **words) try {
  bool asks = count > 1 && std::strcmp(words[1], "--ask") == 0;
  if (asks) count--, words++;
  if (count < 5) {
    std::fprintf(stderr, "usage: keep [--ask] TORRENT FOLDER SECONDS HOST:PORT..\n");
    return 2;
  }
  std::ifstream in(words[1], std::ios::binary);
  std::string torrent{std::istreambuf_iterator<char>(in), {}};
  keep::Session session(std::move(torrent), keep::Keeper::most_waiting);
  keep::Keeper keeper(session, words[2]);
  keep::Relay relay(session, keeper, asks);
  for (int at = 4; at < count; at++) {
    std::string peer = words[at];
    size_t colon = peer.rfind(':');
    if (colon == std::string::npos) throw std::runtime_error("no port: " + peer);
    std::printf("%u for %s\n", unsigned(relay.add_peer(peer.substr(0, colon), peer.substr(colon + 1))), words[at]);
  }
  std::fflush(stdout);
  relay.run(std::atof(words[3]));
  std::printf("%s\n", keeper.summary().c_str());
  return keeper.is_whole() ? 0 : 1;
} catch (const btcheck::Refused &refused) {
  std::fprintf(stderr, "fault: refused: %s\n", refused.what());
  return 2;
} catch (const std::exception &error) {
  std::fprintf(stderr, "fault: %s\n", error.what());
  return 2;
}
