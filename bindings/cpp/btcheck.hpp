// btcheck.hpp - thin classes over btcheck.h for C++17. Each owns one handle, and frees it.
//
// Names are those of btcheck.h. What that says of threads, memory and pointers holds here too. A call that is refused
// throws Refused with the status, and has changed nothing. An object may be moved and moved into another one, which frees
// what that held; one that was moved from holds nothing, and its calls are refused with BTCHECK_WRONG_HANDLE. Calls that
// only read are const, but those on one object must not overlap either.
#pragma once

#include <btcheck.h>

#include <algorithm>
#include <array>
#include <cstring>
#include <exception>
#include <filesystem>
#include <fstream>
#include <memory>
#include <optional>
#include <stdexcept>
#include <string>
#include <type_traits>
#include <utility>
#include <vector>

namespace btcheck {

using Hash = std::array<uint8_t, BTCHECK_HASH>;
using Ask = btcheck_ask;
using Blocks = btcheck_blocks;
using Verdict = btcheck_verdict;
using Taken = btcheck_taken;
using HeldBlocks = btcheck_held;
using Run = btcheck_run;
using Cursor = btcheck_cursor;
using Piece = btcheck_piece;
using PieceRange = btcheck_piece_range;

// A call was refused, and nothing has changed.
class Refused : public std::exception {
public:
  explicit Refused(btcheck_status status) : status_(status) {}
  btcheck_status status() const { return status_; }
  const char *what() const noexcept override { return btcheck_status_text(status_); }

private:
  btcheck_status status_;
};

// Bytes are no torrent that can be checked: with the fault of bencoding and where it is, or the key, if it has them.
class TorrentRefused : public Refused {
public:
  TorrentRefused(btcheck_status status, const btcheck_refusal &more)
      : Refused(status), more_(more), sentence_(btcheck_status_text(status)) {
    if (more.fault || more.key) sentence_.back() = ':';
    if (more.fault) sentence_ += " " + std::string(btcheck_fault_text(more.fault)) + " at byte " + std::to_string(more.offset) + ".";
    if (more.key) sentence_ += " " + std::string(btcheck_key_text(more.key)) + ".";
  }
  uint32_t fault() const { return more_.fault; }
  uint64_t offset() const { return more_.offset; }
  uint32_t key() const { return more_.key; }
  const char *what() const noexcept override { return sentence_.c_str(); }

private:
  btcheck_refusal more_;
  std::string sentence_;
};

// Throws what a status says.
inline void see(btcheck_status status) {
  if (status != BTCHECK_OK) throw Refused(status);
}

// Whether a call says yes by BTCHECK_OK, where BTCHECK_NOTHING is no.
inline bool is(btcheck_status status) {
  if (status == BTCHECK_NOTHING) return false;
  see(status);
  return true;
}

// What a call writes into a room, which is made larger as the call says.
template <class Call> inline std::string text(Call call) {
  std::string room(256, '\0');
  for (;;) {
    uint64_t length;
    btcheck_status status = call(reinterpret_cast<uint8_t *>(room.data()), room.size(), &length);
    if (status != BTCHECK_TOO_SMALL) see(status);
    room.resize(size_t(length));
    if (status == BTCHECK_OK) return room;
  }
}

// Bytes that a call reads: those of a string, a vector, an array or the like. Its pointer is never null.
class Bytes {
public:
  Bytes(const void *data, size_t size) : data_(static_cast<const uint8_t *>(size ? data : "")), size_(size) {}
  template <class Content, class = std::enable_if_t<sizeof(*std::declval<const Content &>().data()) == 1>>
  Bytes(const Content &content) : Bytes(content.data(), content.size()) {}
  Bytes(const char *text) : Bytes(text, std::strlen(text)) {}
  const uint8_t *data() const { return data_; }
  size_t size() const { return size_; }

private:
  const uint8_t *data_;
  size_t size_;
};

// Bits that a check writes: bit 0, the highest of the first byte, is that of the first piece that is checked.
using Bits = std::vector<uint8_t>;

// A handle of one kind, and what frees it.
template <class Handle, void (*free)(Handle *)> class Owner {
public:
  Owner() = default;
  Owner(Owner &&other) noexcept : handle_(std::exchange(other.handle_, Handle BTCHECK_INIT)) {}
  Owner &operator=(Owner &&other) noexcept {
    if (this == std::addressof(other)) return *this;
    free(&handle_);
    handle_ = std::exchange(other.handle_, Handle BTCHECK_INIT);
    return *this;
  }
  ~Owner() { free(&handle_); }
  Handle *operator&() const { return &handle_; }

private:
  mutable Handle handle_ = BTCHECK_INIT; // (a call that only reads writes to it and back)
};

// A block: which file's, and which of its blocks, from 0.
struct Place {
  uint64_t file, block;
};

// A file of a torrent.
struct File {
  std::string path; // its components joined by `/`; it leads to no place outside the folder in which it is looked up
  uint64_t length, first_piece;
  std::optional<uint64_t> tree; // the number of its tree; an empty file has none
  Hash root;                    // of an empty file zeros
};

// Version of the library that is linked, a byte for each of its three numbers; and as text, "1.1.0" say.
inline uint32_t version() { return btcheck_version(); }
inline std::string version_text() {
  char text[BTCHECK_VERSION_TEXT];
  return btcheck_version_text(text);
}

// The whole frame of a hash request, and of a hash reject, with the four bytes of its length.
inline std::string request_frame(const Ask &ask) {
  std::string frame(BTCHECK_ASK_FRAME, '\0');
  btcheck_request_frame(&ask, reinterpret_cast<uint8_t *>(frame.data()));
  return frame;
}
inline std::string reject_frame(const Ask &ask) {
  std::string frame(BTCHECK_ASK_FRAME, '\0');
  btcheck_reject_frame(&ask, reinterpret_cast<uint8_t *>(frame.data()));
  return frame;
}

// The root of a file, from its bytes in parts of any size.
class Root {
public:
  struct Found {
    uint64_t length;
    Hash hash;
  };

  Root() { see(btcheck_root_new(&handle_)); }

  // Length and root of these bytes.
  static Found of(Bytes content) {
    Root root;
    root.push(content);
    return root.finish();
  }

  void push(Bytes part) { see(btcheck_root_push(&handle_, part.data(), part.size())); }
  Found finish() {
    Found found;
    see(btcheck_root_finish(&handle_, &found.length, found.hash.data()));
    return found;
  }

private:
  Owner<btcheck_root, btcheck_root_free> handle_;
};

class Session;

// A run of blocks of a tree that were held: they are proved and marked now, or false and given up.
struct Settled {
  bool is_proved;
  Run run;
};

// The digests of blocks that cannot be proved yet: at most `bound`, and no fewer than the longest piece has.
class Holdings {
public:
  Holdings(const Session &session, size_t bound);

  // Hashes of this tree were taken: settle looks at its held pieces.
  void look_at(size_t tree) { see(btcheck_holdings_look_at(&handle_, tree)); }

  // How many blocks are held.
  uint64_t held() const {
    uint64_t count;
    see(btcheck_session_held(&handle_, &count));
    return count;
  }

private:
  friend class Session;
  Owner<btcheck_holdings, btcheck_holdings_free> handle_;
};

// What a client knows of a torrent's hash trees, and what it makes of messages of peers.
class Session {
public:
  // Opens a torrent file of version 2, of which it keeps the bytes.
  explicit Session(std::string torrent, bool layers = true)
      : torrent_(std::make_shared<const std::string>(std::move(torrent))) {
    Bytes bytes = *torrent_;
    btcheck_refusal more;
    btcheck_status status = btcheck_session_open_explained(&handle_, bytes.data(), bytes.size(), layers, &more);
    if (status / 100 == 1) throw TorrentRefused(status, more);
    see(status);
  }

  // The same of any bytes, those of a vector say, which are copied.
  template <class Content, class = std::enable_if_t<std::is_convertible_v<const Content &, Bytes> &&
                                                    !std::is_convertible_v<const Content &, std::string>>>
  explicit Session(const Content &torrent, bool layers = true) : Session(text_of(torrent), layers) {}

  Session(Session &&) = default;
  Session &operator=(Session &&other) noexcept {
    handle_ = std::move(other.handle_); // (what is freed may still look at its own torrent)
    torrent_ = std::move(other.torrent_);
    return *this;
  }

  // Bytes of a piece, and how many pieces all files have together.
  uint64_t piece_length() const { return number(btcheck_session_piece_length); }
  uint64_t pieces() const { return number(btcheck_session_pieces); }

  // A piece, numbered from 0 through all files.
  Piece piece(uint32_t index) const {
    Piece found;
    see(btcheck_session_piece(&handle_, index, &found));
    return found;
  }

  // The first piece of a file, and how many pieces it has.
  std::pair<uint64_t, uint64_t> file_pieces(size_t number) const {
    std::pair<uint64_t, uint64_t> found;
    see(btcheck_session_file_pieces(&handle_, number, &found.first, &found.second));
    return found;
  }

  // Where bytes of a file lie: the piece, where they begin in it, and how many they are.
  PieceRange map_file(size_t number, uint64_t offset, uint64_t length) const {
    PieceRange found;
    see(btcheck_session_map_file(&handle_, number, offset, length, &found));
    return found;
  }

  std::string name() const {
    return text([&](uint8_t *room, size_t size, uint64_t *length) {
      return btcheck_session_name(&handle_, room, size, length);
    });
  }

  bool is_hybrid() const { return is(btcheck_session_is_hybrid(&handle_)); }

  size_t file_count() const { return size_t(counts_of_all().first); }
  size_t tree_count() const { return size_t(counts_of_all().second); }

  // The files of the torrent, in its order.
  std::vector<File> files() const {
    std::vector<File> found;
    for (size_t number = 0, count = file_count(); number < count; number++) found.push_back(file(number));
    return found;
  }

  File file(size_t number) const {
    btcheck_file info;
    see(btcheck_session_file(&handle_, number, &info));
    File found{path(number), info.length, info.first_piece, {}, {}};
    if (info.length > 0) found.tree = info.tree;
    std::copy(info.root, info.root + sizeof info.root, found.root.begin());
    return found;
  }

  std::string path(size_t number) const {
    return text([&](uint8_t *room, size_t size, uint64_t *length) {
      return btcheck_session_path(&handle_, number, room, size, length);
    });
  }

  // Info-hashes of version 2 and of version 1. A torrent that is no hybrid is known by the first one alone.
  std::pair<Hash, std::array<uint8_t, 20>> info_hashes() const {
    std::pair<Hash, std::array<uint8_t, 20>> found;
    see(btcheck_session_info_hashes(&handle_, found.first.data(), found.second.data()));
    return found;
  }

  // The info-hash by which clients of version 1 know a hybrid; nothing of another torrent.
  std::optional<std::array<uint8_t, 20>> info_hash_v1() const {
    if (!is_hybrid()) return {};
    return info_hashes().second;
  }

  // How many places of a tree are known, and how many leaves are marked as verified.
  std::pair<uint64_t, uint64_t> counts(size_t tree) const {
    std::pair<uint64_t, uint64_t> found;
    see(btcheck_session_counts(&handle_, tree, &found.first, &found.second));
    return found;
  }

  bool is_marked(size_t tree, uint64_t block) const { return is(btcheck_session_is_marked(&handle_, tree, block)); }

  // How many blocks of a file are marked as verified, and how many it has.
  std::pair<uint64_t, uint64_t> file_counts(size_t number) const {
    std::pair<uint64_t, uint64_t> found;
    see(btcheck_session_file_counts(&handle_, number, &found.first, &found.second));
    return found;
  }

  // The bitfield of the pieces whose blocks are all marked (BEP 3).
  Bits bitfield() const {
    std::string bits = text([&](uint8_t *room, size_t size, uint64_t *length) {
      return btcheck_session_bitfield(&handle_, room, size, length);
    });
    return {bits.begin(), bits.end()};
  }

  // How many places are newly known.
  uint64_t take_hashes(const Ask &ask, const std::vector<Hash> &hashes) {
    uint64_t places;
    see(btcheck_session_take_hashes(&handle_, ask.root, ask.base, ask.index, ask.length, ask.proof, rows(hashes),
                                    hashes.size(), &places));
    return places;
  }

  Place take_block(uint32_t index, uint32_t begin, Bytes block) {
    Place place;
    see(btcheck_session_take_block(&handle_, index, begin, block.data(), block.size(), &place.file, &place.block));
    return place;
  }

  Blocks take_blocks(uint32_t index, uint32_t begin, Bytes content) {
    Blocks blocks;
    see(btcheck_session_take_blocks(&handle_, index, begin, content.data(), content.size(), &blocks));
    return blocks;
  }

  Place take_piece(uint32_t index, Bytes piece) {
    Place place;
    see(btcheck_session_take_piece(&handle_, index, piece.data(), piece.size(), &place.file, &place.block));
    return place;
  }

  // As take_blocks, but a block that cannot be proved yet is held: its status is BTCHECK_HELD. Call settle afterwards.
  HeldBlocks hold(Holdings &holdings, uint32_t index, uint32_t begin, Bytes content) {
    HeldBlocks held;
    see(btcheck_session_hold(&handle_, &holdings.handle_, index, begin, content.data(), content.size(), &held));
    return held;
  }

  // What became of held blocks, until there is nothing more.
  std::optional<Settled> settle(Holdings &holdings) {
    Settled found{};
    btcheck_status status = btcheck_session_settle(&handle_, &holdings.handle_, &found.run);
    found.is_proved = status == BTCHECK_OK;
    if (status != BTCHECK_BAD_PIECE && !is(status)) return {};
    return found;
  }

  // The body of one frame as it came. Of the verdict only what its kind names is set.
  Verdict frame(Bytes body) {
    Verdict verdict{};
    see(btcheck_session_frame(&handle_, body.data(), body.size(), &verdict));
    return verdict;
  }

  // One whole frame as it came, its four bytes of length and its body. Of the verdict and of the five fields only what
  // its kind names is set. If `asked`, hashes must answer a noted request, as by take_answer.
  Taken take_frame(Bytes frame, bool asked = false) {
    Taken taken{};
    see(btcheck_session_take_frame(&handle_, frame.data(), frame.size(), asked, &taken));
    return taken;
  }

  // As take_frame, but a block that cannot be proved yet is held. Call settle afterwards: it looks at the pieces of these
  // blocks, or, after hashes that were joined, at all pieces of their tree.
  Taken hold_frame(Holdings &holdings, Bytes frame, bool asked = false) {
    Taken taken{};
    see(btcheck_session_hold_frame(&handle_, &holdings.handle_, frame.data(), frame.size(), asked, &taken));
    return taken;
  }

  // What to ask for to learn the leaf of a block; nothing if it is known.
  std::optional<Ask> want(size_t tree, uint64_t block) const {
    Ask ask;
    if (!is(btcheck_session_want(&handle_, tree, block, &ask))) return {};
    return ask;
  }

  void note(const Ask &ask) { see(btcheck_session_note(&handle_, &ask)); }

  uint64_t take_answer(const Ask &ask, const std::vector<Hash> &hashes) {
    uint64_t places;
    see(btcheck_session_take_answer(&handle_, &ask, rows(hashes), hashes.size(), &places));
    return places;
  }

  // The hashes that answer a peer's request; nothing if it has to be rejected.
  std::optional<std::vector<Hash>> answer(const Ask &ask) const {
    std::vector<Hash> room(1);
    for (;;) {
      uint64_t count;
      btcheck_status status = btcheck_session_answer(&handle_, &ask, rows(room), room.size(), &count);
      if (status != BTCHECK_TOO_SMALL && !is(status)) return {};
      room.resize(size_t(count));
      if (status == BTCHECK_OK) return room;
    }
  }

  // The whole frame that answers a peer's request, with the four bytes of its length: of the hashes, or of a reject if
  // they are not known.
  std::string answer_frame(const Ask &ask) const {
    return text([&](uint8_t *room, size_t size, uint64_t *length) {
      btcheck_status status = btcheck_session_answer_frame(&handle_, &ask, room, size, length);
      return status == BTCHECK_NOTHING ? btcheck_status(BTCHECK_OK) : status;
    });
  }

  // The leaves that are known first from the cursor on, as the whole frame of a hashes message, and moves the cursor
  // behind them; nothing if no leaf is known. Begin with `Cursor{}`. `take_frame` of any session of the torrent
  // takes it.
  std::optional<std::string> export_leaves(Cursor &cursor) const {
    std::string room(BTCHECK_MOST_EXPORTED, '\0');
    uint64_t length;
    if (!is(btcheck_session_export(&handle_, &cursor, reinterpret_cast<uint8_t *>(room.data()), room.size(), &length)))
      return {};
    room.resize(size_t(length));
    return room;
  }

  // Takes a whole layer of a tree, 0 for the leaves, without the pads past the file's end.
  uint64_t fill(size_t tree, uint32_t layer, const std::vector<Hash> &hashes) {
    uint64_t places;
    see(btcheck_session_fill(&handle_, tree, layer, rows(hashes), hashes.size(), &places));
    return places;
  }

  bool can_answer(const Ask &ask) const { return is(btcheck_session_can_answer(&handle_, &ask)); }

private:
  friend class Check;
  friend class Holdings;

  uint64_t number(btcheck_status (*call)(const btcheck_session *, uint64_t *)) const {
    uint64_t found;
    see(call(&handle_, &found));
    return found;
  }

  std::pair<uint64_t, uint64_t> counts_of_all() const {
    std::pair<uint64_t, uint64_t> found;
    see(btcheck_session_files(&handle_, &found.first, &found.second));
    return found;
  }

  static std::string text_of(Bytes bytes) { return {reinterpret_cast<const char *>(bytes.data()), bytes.size()}; }

  static const uint8_t (*rows(const std::vector<Hash> &hashes))[32] {
    static const Hash none{};
    return BTCHECK_HASHES(hashes.empty() ? none.data() : hashes[0].data());
  }
  static uint8_t (*rows(std::vector<Hash> &hashes))[32] { return reinterpret_cast<uint8_t(*)[32]>(hashes[0].data()); }

  std::shared_ptr<const std::string> torrent_;
  Owner<btcheck_session, btcheck_session_free> handle_;
};

inline Holdings::Holdings(const Session &session, size_t bound) {
  see(btcheck_holdings_new(&handle_, &session.handle_, bound));
}

// The check of a file's bytes, or of those of the pieces `from` up to `to` of it, which come in parts of any size. It
// may outlive its session: several threads check one file, each with its own.
class Check {
public:
  Check(const Session &session, size_t file) : torrent_(session.torrent_) {
    see(btcheck_check_new(&handle_, &session.handle_, file));
  }
  Check(const Session &session, size_t file, uint64_t from, uint64_t to) : torrent_(session.torrent_) {
    see(btcheck_check_new_pieces(&handle_, &session.handle_, file, from, to));
  }

  Check(Check &&) = default;
  Check &operator=(Check &&other) noexcept {
    handle_ = std::move(other.handle_); // (what is freed may still look at its own torrent)
    torrent_ = std::move(other.torrent_);
    return *this;
  }

  void push(Bytes part) { see(btcheck_check_push(&handle_, part.data(), part.size())); }

  // As push, and sets the bit of each piece that is complete and good.
  void push_bits(Bytes part, Bits &good) {
    see(btcheck_check_push_bits(&handle_, part.data(), part.size(), room(good), good.size()));
  }

  // The first piece that is not the torrent's, from 0 in the file; nothing if each is.
  std::optional<uint64_t> finish() {
    uint64_t piece;
    return first_bad(btcheck_check_finish(&handle_, &piece), piece);
  }

  // As finish, and sets the last piece's bit too. BTCHECK_TOO_SHORT is thrown where the content ends early; the bits
  // are set then as well.
  std::optional<uint64_t> finish_bits(Bits &good) {
    uint64_t piece;
    return first_bad(btcheck_check_finish_bits(&handle_, &piece, room(good), good.size()), piece);
  }

private:
  // (no pointer may be null, and that of an empty vector is)
  static uint8_t *room(Bits &good) {
    static uint8_t none;
    return good.empty() ? &none : good.data();
  }

  static std::optional<uint64_t> first_bad(btcheck_status status, const uint64_t &piece) {
    if (status == BTCHECK_BAD_PIECE) return piece;
    see(status);
    return {};
  }

  std::shared_ptr<const std::string> torrent_;
  Owner<btcheck_check, btcheck_check_free> handle_;
};

class Draft;

// A file for a draft, whose bytes come in parts of any size. Different files may come in different threads.
class DraftFile {
public:
  explicit DraftFile(const Draft &draft);

  void push(Bytes part) { see(btcheck_draft_file_push(&handle_, part.data(), part.size())); }

private:
  friend class Draft;
  Owner<btcheck_draft_file, btcheck_draft_file_free> handle_;
};

// The draft of a torrent, to which files are added in any order.
class Draft {
public:
  Draft(Bytes name, uint64_t piece_length, bool hybrid = false) {
    see(btcheck_draft_new(&handle_, name.data(), name.size(), piece_length, hybrid));
  }

  // Adds the file under this path, its components joined by `/`. The file then begins anew. If the path is refused, the
  // file can be added under another one.
  void add(DraftFile &file, Bytes path) {
    see(btcheck_draft_add(&handle_, &file.handle_, path.data(), path.size()));
  }

  // The torrent file: the one that `btcheck create` writes for a folder with these files.
  std::string finish() const {
    return text([&](uint8_t *room, size_t size, uint64_t *length) {
      return btcheck_draft_finish(&handle_, room, size, length);
    });
  }

private:
  friend class DraftFile;
  Owner<btcheck_draft, btcheck_draft_free> handle_;
};

inline DraftFile::DraftFile(const Draft &draft) { see(btcheck_draft_file_new(&handle_, &draft.handle_)); }

// The torrent of all files below a folder, hidden ones too: the bytes that `btcheck create` writes. What is neither a file
// nor a folder, a symlink too, is refused with std::invalid_argument; what cannot be read, with std::filesystem's error or
// std::ios_base::failure. Else it throws what Draft throws.
inline std::string create(const std::filesystem::path &folder, Bytes name, uint64_t piece_length, bool hybrid = false) {
  Draft draft(name, piece_length, hybrid);
  DraftFile file(draft);
  std::vector<char> part(size_t{1} << 20);
  for (const auto &entry : std::filesystem::recursive_directory_iterator(folder)) {
    std::filesystem::file_status found = entry.symlink_status();
    if (std::filesystem::is_directory(found)) continue;
    std::string path = entry.path().lexically_relative(folder).generic_string();
    if (!std::filesystem::is_regular_file(found)) throw std::invalid_argument("not a file or folder: " + path);
    std::ifstream content(entry.path(), std::ios::binary);
    content.exceptions(std::ios::badbit);
    if (!content) throw std::ios_base::failure("cannot read " + path);
    while (content.read(part.data(), std::streamsize(part.size())), content.gcount() > 0)
      file.push(Bytes(part.data(), size_t(content.gcount())));
    draft.add(file, path);
  }
  return draft.finish();
}

} // namespace btcheck
