// What is kept of a download: the blocks that the session has verified.
#pragma once

#include "session.hpp"

#include <map>
#include <string>
#include <utility>
#include <vector>

namespace keep {

// Writes verified blocks, and nothing else, into files below a folder. Blocks that cannot be proved yet wait in memory until
// their piece is whole. At most `most_waiting` do, or as many as the longest piece has; the piece goes first whose newest
// block came longest ago, since the client asks for it again if it is missed.
class Keeper {
public:
  Keeper(Session &session, const std::string &folder);
  ~Keeper();

  // The content of one piece message: one block, or several in a row.
  void take_blocks(uint32_t index, uint32_t begin, const uint8_t *bytes, size_t len);
  // New hashes of the tree with this root are known: looks at the blocks that wait for them.
  void look_again(const uint8_t root[BTCHECK_HASH]);
  void refused_hashes(btcheck_status status) { refused_[status]++; }

  bool is_whole() const { return written_count_ == blocks_; }
  std::string summary() const;

  static constexpr size_t most_waiting = 4096;

private:
  void take_block(uint32_t index, uint32_t begin, const uint8_t *bytes, size_t len);
  size_t without_padding(uint32_t index, const uint8_t *bytes, size_t len) const;
  void settle();
  void write_run(const btcheck_run &run);
  size_t forget(const btcheck_run &run);
  void write(Place place, const uint8_t *bytes, size_t len);

  Session &session_;
  std::vector<File> files_;
  std::vector<int> outs_;
  std::vector<std::vector<bool>> written_;
  std::map<std::pair<uint64_t, uint64_t>, std::vector<uint8_t>> waiting_; // by tree and block
  std::map<btcheck_status, uint64_t> refused_;
  uint64_t blocks_ = 0, written_count_ = 0, again_ = 0, padded_ = 0, dropped_ = 0, false_ = 0;
};

} // namespace keep
