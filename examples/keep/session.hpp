// A session of the C library with what is held beside it, by the classes of btcheck.hpp. Peers lie, so a refusal is a
// status here and not an exception.
#pragma once

#include <btcheck.hpp>

#include <string>
#include <vector>

namespace keep {

using btcheck::Hash;

// A block: which file's, and which of its blocks.
using Place = btcheck::Place;

// What the library says of one block: why its message is refused, or which block it is, what is made of it, and which
// blocks gave way for it.
struct BlockVerdict {
  btcheck_status status;
  Place place; // where the message is taken
  btcheck_run dropped;
};

// A file of the torrent: its path below the folder, its length, and its tree; an empty one has none, UINT64_MAX.
struct File {
  std::string path;
  uint64_t length, first_piece, tree;
  Hash root;

  uint64_t blocks() const { return (length + BTCHECK_BLOCK - 1) / BTCHECK_BLOCK; }

  // Bytes of one of its blocks.
  size_t size_of(uint64_t block) const {
    uint64_t left = length - block * BTCHECK_BLOCK;
    return left < BTCHECK_BLOCK ? size_t(left) : size_t(BTCHECK_BLOCK);
  }
};

// The status of a call.
template <class Call> btcheck_status status_of(Call call) {
  try {
    call();
  } catch (const btcheck::Refused &refused) {
    return refused.status();
  }
  return BTCHECK_OK;
}

// It holds the digests of at most `bound` blocks that cannot be proved yet, or of as many as the longest piece has.
class Session {
public:
  Session(std::string torrent, size_t bound) : session_(std::move(torrent)), holdings_(session_, bound) {}

  // The files of the torrent, in its order. No path leads outside the folder in which it is looked up.
  std::vector<File> files() {
    std::vector<File> found;
    for (const btcheck::File &file : session_.files())
      found.push_back(File{file.path, file.length, file.first_piece, file.tree.value_or(UINT64_MAX), file.root});
    return found;
  }

  // One block. BTCHECK_HELD: it cannot be proved yet; `settle` says what becomes of it.
  BlockVerdict hold(uint32_t index, uint32_t begin, const uint8_t *bytes, size_t len) {
    btcheck::HeldBlocks held;
    btcheck_status status = status_of([&] { held = session_.hold(holdings_, index, begin, {bytes, len}); });
    if (status != BTCHECK_OK) return BlockVerdict{status, {}, {UINT64_MAX, 0, 0}};
    return BlockVerdict{held.blocks.statuses[0], {held.blocks.file, held.blocks.first}, held.dropped[0]};
  }

  // BTCHECK_OK: these blocks, which were held, are proved. BTCHECK_BAD_PIECE: they are false. BTCHECK_NOTHING: that was
  // all.
  btcheck_status settle(btcheck_run &run) {
    std::optional<btcheck::Settled> settled;
    btcheck_status status = status_of([&] { settled = session_.settle(holdings_); });
    if (status != BTCHECK_OK) return status;
    if (!settled) return BTCHECK_NOTHING;
    run = settled->run;
    return settled->is_proved ? BTCHECK_OK : BTCHECK_BAD_PIECE;
  }

  // Hashes of a tree are known: `settle` looks at all that is held of it.
  void look_at(uint64_t tree) { holdings_.look_at(tree); }

  btcheck_status take_hashes(const btcheck_ask &ask, const std::vector<Hash> &hashes) {
    return status_of([&] { session_.take_hashes(ask, hashes); });
  }

  btcheck_status take_answer(const btcheck_ask &ask, const std::vector<Hash> &hashes) {
    return status_of([&] { session_.take_answer(ask, hashes); });
  }

  // What to ask for to learn the leaf of a block: BTCHECK_NOTHING if it is known, BTCHECK_NO_SUCH if there is none.
  btcheck_status want(size_t tree, uint64_t block, btcheck_ask &ask) {
    std::optional<btcheck::Ask> wanted;
    btcheck_status status = status_of([&] { wanted = session_.want(tree, block); });
    if (wanted) ask = *wanted;
    if (status == BTCHECK_OK && !wanted) return BTCHECK_NOTHING;
    return status;
  }

  btcheck_status note(const btcheck_ask &ask) {
    return status_of([&] { session_.note(ask); });
  }

private:
  btcheck::Session session_;
  btcheck::Holdings holdings_;
};

} // namespace keep
