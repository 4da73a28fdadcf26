// Passes connections on between a client and its peers, frame by frame, and shows what comes from the peers.
#pragma once

#include "keeper.hpp"

#include <memory>
#include <optional>
#include <set>
#include <string>
#include <vector>

namespace keep {

// One side of a connection: what came from there and is not a whole frame yet, and what is still to be sent there.
struct End {
  int fd = -1;
  std::string in, out;
  bool has_greeted = false;
};

// A range of at most 512 leaves of a tree, by a block whose leaf is not known, and who was asked for it and failed.
struct Gap {
  size_t tree;
  uint64_t block;
  bool is_known = false;
  int asked = -1; // the link that is asked now
  std::set<int> failed;
};

// What was asked of a peer for ourselves: the client does not see the answer.
struct Asked {
  btcheck_ask ask;
  size_t gap;
};

// A client's connection, and ours to the peer behind it.
struct Link {
  int number;
  End client, peer;
  std::vector<Asked> asked;
};

class Relay {
public:
  // `asks`: asks peers itself for the hashes of blocks, so that each block can be judged when it comes.
  Relay(Session &session, Keeper &keeper, bool asks);
  ~Relay();

  // Listens on a port of this machine for connections to this peer, and gives the port.
  uint16_t add_peer(const std::string &host, const std::string &port);
  // Passes on until all is written, or until this time is over.
  void run(double seconds);

private:
  struct Door {
    int fd;
    std::string host, port;
  };

  void accept_at(const Door &door);
  void close_link(Link &link);
  bool read_from(Link &link, End &from, End &to);
  bool pass_frames(Link &link, End &from, End &to);
  bool shows(Link &link, const std::string &frame);
  bool show_hashes(Link &link, const std::string &frame);
  std::optional<size_t> own_gap(Link &link, const btcheck_ask &ask);
  void ask_for_gaps(Link &link);

  Session &session_;
  Keeper &keeper_;
  std::vector<Door> doors_;
  std::vector<std::unique_ptr<Link>> links_;
  std::vector<Gap> gaps_;
  int count_ = 0;
};

} // namespace keep
