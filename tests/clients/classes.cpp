// classes TORRENT CONTENT: the classes of btcheck.hpp on the pair of the examples. It prints nothing.
#include <btcheck.hpp>

#include <cstdio>
#include <cstdlib>
#include <fstream>
#include <iterator>

namespace {

std::string all_of(const char *path) {
  std::ifstream in(path, std::ios::binary);
  return std::string{std::istreambuf_iterator<char>(in), {}};
}

void must(bool is, int line) {
  if (!is) std::fprintf(stderr, "line %d\n", line), std::exit(1);
}
#define MUST(it) must(it, __LINE__)

template <class Call> btcheck_status refused(Call call) {
  try {
    call();
  } catch (const btcheck::Refused &refused) {
    MUST(std::string(refused.what()).back() == '.');
    return refused.status();
  }
  return BTCHECK_OK;
}

void says_what_the_torrent_says(btcheck::Session &session) {
  std::vector<btcheck::File> files = session.files();
  MUST(files.size() == 2 && files[1].path == "c" && files[1].first_piece == 1 && *files[0].tree == 0);
  MUST(session.tree_count() == 2 && session.name() == "pair" && session.is_hybrid());
  MUST(session.piece_length() == 2 * BTCHECK_BLOCK && session.pieces() == 2);
  btcheck::Piece piece = session.piece(1);
  MUST(piece.length == 3 && piece.file == 1 && piece.block == 0 && piece.offset == 0);
  MUST(session.file_pieces(1) == std::make_pair(uint64_t{1}, uint64_t{1}));
  btcheck::PieceRange range = session.map_file(0, BTCHECK_BLOCK, 9);
  MUST(range.piece == 0 && range.begin == BTCHECK_BLOCK && range.length == 1);
  MUST(session.file_counts(0) == std::make_pair(uint64_t{0}, uint64_t{2}) && session.bitfield() == btcheck::Bits{0});
  MUST(refused([&] { session.piece(2); }) == BTCHECK_NO_SUCH && refused([&] { session.map_file(1, 3, 1); }) == BTCHECK_NO_SUCH);
  MUST(session.info_hashes().first[0] == 0x4d && btcheck::version() == BTCHECK_VERSION);
  MUST(refused([&] { session.file(2); }) == BTCHECK_NO_SUCH && refused([&] { session.path(2); }) == BTCHECK_NO_SUCH);
}

void checks(btcheck::Session &session, const std::string &content) {
  btcheck::Root root;
  MUST(refused([&] { root.finish(); }) == BTCHECK_NO_ROOT);
  root.push(content);
  btcheck::Root::Found found = root.finish();
  MUST(found.length == content.size() && found.hash == session.file(0).root);
  btcheck::Check whole(session, 0), row(session, 0, 0, 1);
  whole.push(content);
  MUST(refused([&] { whole.push(content); }) == BTCHECK_TOO_LONG && !whole.finish());
  std::string wrong = content;
  wrong[0] ^= 1;
  btcheck::Bits good(1), none;
  row.push_bits(content, good);
  MUST(!row.finish_bits(good) && good[0] == 0x80);
  row.push_bits(wrong, none);
  MUST(*row.finish_bits(none) == 0);
  MUST(refused([&] { row.finish_bits(good); }) == BTCHECK_TOO_SHORT);
}

void holds(btcheck::Session &session, const std::string &content) {
  btcheck::Holdings holdings(session, 10);
  for (bool is_true : {false, true}) {
    std::string sent = content;
    sent[0] = char(sent[0] ^ !is_true);
    btcheck::Bytes front(sent.data(), BTCHECK_BLOCK), back(sent.data() + BTCHECK_BLOCK, sent.size() - BTCHECK_BLOCK);
    btcheck::HeldBlocks held = session.hold(holdings, 0, BTCHECK_BLOCK, back);
    MUST(held.blocks.first == 1 && held.blocks.statuses[0] == BTCHECK_HELD && held.dropped[0].tree == UINT64_MAX);
    MUST(!session.settle(holdings));
    session.hold(holdings, 0, 0, front);
    MUST(holdings.held() == 2 && session.is_marked(0, 0) == false);
    std::optional<btcheck::Settled> settled = session.settle(holdings);
    MUST(settled && settled->is_proved == is_true && settled->run.first == 0 && settled->run.last == 1);
    MUST(!session.settle(holdings) && session.is_marked(0, 0) == is_true);
  }
  holdings.look_at(0);
  MUST(holdings.held() == 0);
}

void asks(btcheck::Session &session, const std::string &content) {
  std::optional<btcheck::Ask> ask = session.want(0, 1);
  MUST(ask && ask->length == 2 && !session.can_answer(*ask) && !session.answer(*ask));
  std::string request = btcheck::request_frame(*ask), reject = btcheck::reject_frame(*ask);
  MUST(request.size() == BTCHECK_ASK_FRAME && request[4] == 21 && reject[4] == 23 && session.answer_frame(*ask) == reject);
  std::vector<btcheck::Hash> leaves;
  for (size_t at = 0; at < content.size(); at += BTCHECK_BLOCK) {
    btcheck::Root root;
    root.push(content.substr(at, BTCHECK_BLOCK));
    leaves.push_back(root.finish().hash);
  }
  MUST(refused([&] { session.take_answer(*ask, leaves); }) == BTCHECK_H8_UNASKED);
  session.note(*ask);
  MUST(refused([&] { session.take_answer(*ask, {}); }) == BTCHECK_H3_BAD_COUNT);
  MUST(session.take_answer(*ask, leaves) == 2 && session.answer(*ask) == leaves && !session.want(0, 1));
  MUST(session.take_hashes(*ask, leaves) == 0);
  MUST(refused([&] { session.take_block(0, 0, std::string(BTCHECK_BLOCK, 'a')); }) == BTCHECK_P4_BAD_BLOCK);
  MUST(session.take_block(0, BTCHECK_BLOCK, content.substr(BTCHECK_BLOCK)).block == 1);
  MUST(session.take_blocks(0, 0, content).count == 2 && session.take_piece(0, content).block == 0);
  MUST(session.file_counts(0).first == 2 && session.bitfield() == btcheck::Bits{0x80});
  std::string answer = session.answer_frame(*ask);
  MUST(answer.size() == 4 + 49 + 2 * 32 && answer[4] == 22 && answer.substr(5, 48) == request.substr(5));
  MUST(session.counts(0).second == 2 && session.frame(std::string()).kind == BTCHECK_KEEP_ALIVE);
}

// Frames as they came: the second block of a piece is held until the first one comes; what is asked for; and what is no frame.
void frames(const std::string &torrent, const std::string &content) {
  btcheck::Session session(torrent), other(torrent);
  btcheck::Holdings holdings(session, 0);
  auto frame = [](const std::string &body) {
    return std::string{0, char(body.size() >> 16), char(body.size() >> 8), char(body.size())} + body;
  };
  std::string front = frame(std::string("\7\0\0\0\0\0\0\0\0", 9) + content.substr(0, BTCHECK_BLOCK));
  std::string back = frame(std::string("\7\0\0\0\0\0\0\x40\0", 9) + content.substr(BTCHECK_BLOCK));
  MUST(session.take_frame(back).verdict.blocks.statuses[0] == BTCHECK_P3_UNPROVED);
  btcheck::Taken taken = session.hold_frame(holdings, back);
  MUST(taken.verdict.kind == BTCHECK_BLOCKS && taken.verdict.blocks.statuses[0] == BTCHECK_HELD && taken.dropped[0].tree == UINT64_MAX);
  MUST(!session.settle(holdings) && session.hold_frame(holdings, front).verdict.blocks.first == 0);
  std::optional<btcheck::Settled> settled = session.settle(holdings);
  MUST(settled && settled->is_proved && settled->run.first == 0 && settled->run.last == 1);
  btcheck::Cursor cursor{};
  std::string message = *session.export_leaves(cursor), request = message.substr(0, 4 + 49);
  request[3] = 49, request[2] = 0, request[4] = 21;
  MUST(other.take_frame(request).verdict.kind == BTCHECK_REJECTED);
  MUST(refused([&] { other.take_frame(message, true); }) == BTCHECK_H8_UNASKED && other.take_frame(message).verdict.places == 2);
  taken = other.hold_frame(holdings, request);
  MUST(taken.verdict.kind == BTCHECK_ANSWERED && other.answer(taken.ask)->size() == 2);
  MUST(refused([&] { other.take_frame(front.substr(0, front.size() - 1)); }) == BTCHECK_TOO_SHORT);
  MUST(refused([&] { other.take_frame(front + "a"); }) == BTCHECK_TOO_LONG);
  MUST(refused([&] { other.take_frame(frame("\7")); }) == BTCHECK_BAD_SIZE);
}

// What one session knows goes to another one, and a whole layer does.
void keeps(btcheck::Session &session, const std::string &torrent) {
  btcheck::Session other(torrent, false), third(torrent, false);
  btcheck::Cursor cursor{};
  std::optional<std::string> message = session.export_leaves(cursor);
  MUST(message && message->size() == 4 + 49 + 2 * 32 && !session.export_leaves(cursor));
  MUST(other.frame(btcheck::Bytes(message->data() + 4, message->size() - 4)).places == 2);
  MUST(other.counts(0).first == session.counts(0).first && other.counts(0).second == 0);
  std::vector<btcheck::Hash> leaves = *session.answer(btcheck::Ask(*third.want(0, 0)));
  MUST(refused([&] { third.fill(0, 0, {}); }) == BTCHECK_H3_BAD_COUNT && third.fill(0, 0, leaves) == 2);
}

// The torrent of the example's two files, which come in the other order and in parts; a name that clashes, and another kind.
void makes(const std::string &torrent, const std::string &content) {
  btcheck::Draft draft("pair", 2 * BTCHECK_BLOCK, true), other(std::string("pair"), 2 * BTCHECK_BLOCK);
  MUST(refused([] { btcheck::Draft("pair", 1); }) == BTCHECK_TORRENT_PIECE_LENGTH);
  MUST(refused([&] { draft.finish(); }) == BTCHECK_TORRENT_NO_FILES);
  btcheck::DraftFile first(draft), file(std::move(first));
  MUST(refused([&] { first.push(content); }) == BTCHECK_WRONG_HANDLE);
  file.push(std::string("abc"));
  MUST(refused([&] { other.add(file, "c"); }) == BTCHECK_WRONG_HANDLE);
  MUST(refused([&] { draft.add(file, ".."); }) == BTCHECK_TORRENT_PATH);
  draft.add(file, "c");
  file.push(content.substr(0, 100));
  file.push(content.substr(100));
  MUST(refused([&] { draft.add(file, "c/a"); }) == BTCHECK_TORRENT_PATH_CLASH);
  draft.add(file, std::string("a"));
  MUST(draft.finish() == torrent && draft.finish() == torrent);
}

// What is moved into another object frees what that held; calls that only read are const; a torrent is any bytes.
void moves(const std::string &torrent, const std::string &content) {
  btcheck::Session session(std::vector<uint8_t>(torrent.begin(), torrent.end())), other(torrent, false);
  btcheck::Check check(other, 1);
  check = btcheck::Check(session, 0);
  other = std::move(session);
  const btcheck::Session &seen = other;
  MUST(seen.pieces() == 2 && seen.want(0, 1) && seen.info_hash_v1() == seen.info_hashes().second && seen.counts(0).first > 0);
  MUST(refused([&] { session.pieces(); }) == BTCHECK_WRONG_HANDLE);
  check.push(content);
  MUST(!check.finish());
  btcheck::Holdings holdings(seen, 1);
  holdings = btcheck::Holdings(seen, 2);
  std::vector<btcheck::Session> all;
  all.push_back(std::move(other));
  all.emplace_back(torrent);
  all.erase(all.begin());
  MUST(all[0].pieces() == 2 && btcheck::version_text() == "1.1.0");
  btcheck::Root::Found found = btcheck::Root::of(content);
  MUST(found.length == content.size() && found.hash == all[0].file(0).root);
}

// A refusal has its fault or its key, and so has its sentence.
void explains() {
  try {
    btcheck::Session(std::string("d1:a1:be!"));
    MUST(false);
  } catch (const btcheck::TorrentRefused &refused) {
    MUST(refused.fault() == BTCHECK_FAULT_TRAILING && refused.offset() == 8 && refused.key() == 0);
    MUST(refused.what() == std::string("The bytes are not canonical bencoding: Trailing at byte 8."));
  }
  try {
    btcheck::Session(std::string("d4:infodee"));
    MUST(false);
  } catch (const btcheck::TorrentRefused &refused) {
    MUST(refused.key() == BTCHECK_KEY_META_VERSION && refused.fault() == 0);
    MUST(refused.what() == std::string("A key of the torrent is missing: meta version."));
  }
}

} // namespace

int main(int, char **words) {
  std::string torrent = all_of(words[1]), content = all_of(words[2]);
  MUST(refused([] { btcheck::Session(std::string("abc")); }) == BTCHECK_TORRENT_NOT_BENCODE);
  btcheck::Session first(torrent), session(std::move(first)), other(torrent);
  MUST(refused([&] { first.counts(0); }) == BTCHECK_WRONG_HANDLE);
  says_what_the_torrent_says(session);
  checks(session, content);
  holds(session, content);
  asks(other, content);
  keeps(other, torrent);
  frames(torrent, content);
  makes(torrent, content);
  MUST(btcheck::create(std::filesystem::path(words[2]).parent_path(), "pair", 2 * BTCHECK_BLOCK, true) == torrent);
  moves(torrent, content);
  explains();
}
