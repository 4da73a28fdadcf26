/* Each call, done and refused, by a thread with a stack of STACK bytes; 0: as large as usual.
   usage: each_call STACK CONTENT TORRENT .. where CONTENT is the first torrent's first file, of 8 blocks at most */
#include "btcheck.h"
#include "want.h"

#include <pthread.h>
#include <stdlib.h>

static uint8_t torrent[1 << 21], content[8 * BTCHECK_BLOCK];
static size_t len, size;

/* The leaf of a block is the root of a file of that block alone. */
static void leaves_of(uint8_t (*leaves)[32]) {
  btcheck_root root = BTCHECK_INIT;
  uint64_t length;
  WANT(btcheck_root_new(&root), BTCHECK_OK);
  memset(leaves, 0, 8 * 32);
  for (size_t at = 0; at < size; at += BTCHECK_BLOCK) {
    WANT(btcheck_root_push(&root, content + at, size - at < BTCHECK_BLOCK ? size - at : BTCHECK_BLOCK), BTCHECK_OK);
    WANT(btcheck_root_finish(&root, &length, leaves[at / BTCHECK_BLOCK]), BTCHECK_OK);
  }
  WANT(btcheck_root_finish(&root, &length, leaves[0]), BTCHECK_NO_ROOT);
  btcheck_root_free(&root);
}

/* A root and a check are the same however their bytes come: each by itself, in parts around the length of a block, and all
   that is left. */
static void any_parts(btcheck_session *session, const uint8_t *wanted) {
  static const size_t parts[] = {1, BTCHECK_BLOCK - 1, BTCHECK_BLOCK, BTCHECK_BLOCK + 1, 8 * BTCHECK_BLOCK - 1, 8 * BTCHECK_BLOCK};
  for (size_t first = 0; first < sizeof parts / sizeof *parts; first++) {
    btcheck_root root = BTCHECK_INIT;
    btcheck_check check = BTCHECK_INIT;
    uint8_t found[32];
    uint64_t length, piece;
    WANT(btcheck_root_new(&root), BTCHECK_OK);
    WANT(btcheck_check_new(&check, session, 0), BTCHECK_OK);
    for (size_t at = 0, turn = first; at < size; turn++) {
      size_t part = parts[turn % (sizeof parts / sizeof *parts)];
      if (part > size - at) part = size - at;
      WANT(btcheck_root_push(&root, content + at, part), BTCHECK_OK);
      WANT(btcheck_check_push(&check, content + at, part), BTCHECK_OK);
      at += part;
    }
    WANT(btcheck_check_finish(&check, &piece), BTCHECK_OK);
    WANT(btcheck_root_finish(&root, &length, found), BTCHECK_OK);
    CHECK(length == size && !memcmp(found, wanted, sizeof found));
    btcheck_root_free(&root);
    btcheck_check_free(&check);
  }
}

/* All that a check of the first file does: on true content, on one with a bad byte, and on a part of it. */
static void checks(btcheck_session *session) {
  static uint8_t bits[4];
  uint64_t piece;
  btcheck_check check = BTCHECK_INIT;
  WANT(btcheck_check_new(&check, session, 0), BTCHECK_OK);
  WANT(btcheck_check_push_bits(&check, content, size, bits, sizeof bits), BTCHECK_OK);
  WANT(btcheck_check_push(&check, content, 1), BTCHECK_TOO_LONG);
  WANT(btcheck_check_finish(&check, &piece), BTCHECK_OK);
  content[0] ^= 1;
  WANT(btcheck_check_push(&check, content, size), BTCHECK_OK);
  WANT(btcheck_check_finish_bits(&check, &piece, bits, sizeof bits), BTCHECK_BAD_PIECE);
  content[0] ^= 1;
  WANT(btcheck_check_push_bits(&check, content, size - 1, bits, sizeof bits), BTCHECK_OK);
  WANT(btcheck_check_finish(&check, &piece), BTCHECK_TOO_SHORT);
  WANT(btcheck_check_finish_bits(&check, &piece, bits, sizeof bits), BTCHECK_TOO_SHORT);
  btcheck_check_free(&check);
  WANT(btcheck_check_new_pieces(&check, session, 0, 0, 1), BTCHECK_OK);
  WANT(btcheck_check_finish(&check, &piece), BTCHECK_TOO_SHORT);
  btcheck_check_free(&check);
  WANT(btcheck_check_new_pieces(&check, session, 0, 1, 1), BTCHECK_NO_SUCH);
}

/* What is known goes to a session that knows the roots alone, but not where a byte was changed; and a whole layer is taken. */
static void keeps(btcheck_session *session, const uint8_t (*leaves)[32]) {
  static uint8_t room[BTCHECK_MOST_EXPORTED], none[1][32];
  static btcheck_verdict verdict;
  btcheck_session other = BTCHECK_INIT;
  btcheck_cursor cursor = {0, 0};
  uint64_t length, known, found, marked, leaf_count = (size + BTCHECK_BLOCK - 1) / BTCHECK_BLOCK;
  WANT(btcheck_session_counts(session, 0, &known, &marked), BTCHECK_OK);
  WANT(btcheck_session_open(&other, torrent, len, false), BTCHECK_OK);
  WANT(btcheck_session_export(&other, &cursor, room, sizeof room, &length), BTCHECK_NOTHING);
  WANT(btcheck_session_export(session, &cursor, room, 1, &length), BTCHECK_TOO_SMALL);
  CHECK(cursor.tree == 0 && cursor.block == 0 && length <= sizeof room);
  WANT(btcheck_session_export(session, &cursor, room, sizeof room, &length), BTCHECK_OK);
  CHECK(cursor.block == 8 && length == 4 + 49 + 8 * 32 && room[4] == 22);
  room[4 + 49] ^= 1;
  WANT(btcheck_session_frame(&other, room + 4, length - 4, &verdict), BTCHECK_H6_MISMATCH);
  room[4 + 49] ^= 1;
  WANT(btcheck_session_frame(&other, room + 4, length - 4, &verdict), BTCHECK_OK);
  WANT(btcheck_session_counts(&other, 0, &found, &marked), BTCHECK_OK);
  CHECK(found == known && marked == 0);
  WANT(btcheck_session_export(session, &cursor, room, sizeof room, &length), BTCHECK_NOTHING);
  btcheck_session_free(&other);
  WANT(btcheck_session_open(&other, torrent, len, false), BTCHECK_OK);
  WANT(btcheck_session_fill(&other, SIZE_MAX, 0, leaves, leaf_count, &found), BTCHECK_NO_SUCH);
  WANT(btcheck_session_fill(&other, 0, 99, leaves, leaf_count, &found), BTCHECK_H2_BAD_RANGE);
  WANT(btcheck_session_fill(&other, 0, 0, leaves, 1, &found), BTCHECK_H3_BAD_COUNT);
  WANT(btcheck_session_fill(&other, 0, 3, (const uint8_t(*)[32])none, 1, &found), BTCHECK_H6_MISMATCH);
  WANT(btcheck_session_fill(&other, 0, 0, leaves, leaf_count, &found), BTCHECK_OK);
  CHECK(found == known - 1);
  btcheck_session_free(&other);
}

/* The frames of a request, of a reject and of an answer, as another session takes them. */
static void written_frames(btcheck_session *session, const btcheck_ask *ask) {
  static uint8_t room[4 + 49 + 8 * 32 + 1], request[BTCHECK_ASK_FRAME], reject[BTCHECK_ASK_FRAME];
  static btcheck_verdict verdict;
  btcheck_session other = BTCHECK_INIT;
  uint64_t length;
  WANT(btcheck_session_open(&other, torrent, len, false), BTCHECK_OK);
  btcheck_request_frame(ask, request);
  btcheck_reject_frame(ask, reject);
  CHECK(!memcmp(request, "\0\0\0\61\25", 5) && !memcmp(reject, "\0\0\0\61\27", 5) && !memcmp(request + 5, reject + 5, 48));
  WANT(btcheck_session_frame(session, request + 4, sizeof request - 4, &verdict), BTCHECK_OK);
  CHECK(verdict.kind == BTCHECK_ANSWERED);
  WANT(btcheck_session_frame(&other, reject + 4, sizeof reject - 4, &verdict), BTCHECK_OK);
  CHECK(verdict.kind == BTCHECK_REJECT_NOTED);
  memset(room, 1, sizeof room);
  WANT(btcheck_session_answer_frame(session, ask, room, sizeof room - 2, &length), BTCHECK_TOO_SMALL);
  CHECK(length == sizeof room - 1 && room[0] == 1);
  WANT(btcheck_session_answer_frame(&other, ask, room, sizeof reject - 1, &length), BTCHECK_TOO_SMALL);
  CHECK(length == sizeof reject && room[0] == 1);
  WANT(btcheck_session_answer_frame(&other, ask, room, sizeof room, &length), BTCHECK_NOTHING);
  CHECK(length == sizeof reject && !memcmp(room, reject, sizeof reject) && room[length] == 1);
  WANT(btcheck_session_answer_frame(session, ask, room, sizeof room, &length), BTCHECK_OK);
  CHECK(length == sizeof room - 1 && room[length] == 1);
  WANT(btcheck_session_frame(&other, room + 4, length - 4, &verdict), BTCHECK_OK);
  CHECK(verdict.kind == BTCHECK_STORED);
  btcheck_session_free(&other);
}

/* Where the pieces of the first file lie, and which of them are whole; each of two blocks. */
static void places(btcheck_session *session, uint64_t whole) {
  static uint8_t room[64];
  btcheck_piece piece;
  btcheck_piece_range range;
  uint64_t first, count, marked, blocks, pieces, length;
  WANT(btcheck_session_pieces(session, &pieces), BTCHECK_OK);
  WANT(btcheck_session_file_pieces(session, 0, &first, &count), BTCHECK_OK);
  CHECK(first == 0 && count == (size + 2 * BTCHECK_BLOCK - 1) / (2 * BTCHECK_BLOCK));
  WANT(btcheck_session_file_pieces(session, SIZE_MAX, &first, &count), BTCHECK_NO_SUCH);
  WANT(btcheck_session_piece(session, (uint32_t)count - 1, &piece), BTCHECK_OK);
  CHECK(piece.file == 0 && piece.block == 2 * count - 2 && piece.offset == piece.block * BTCHECK_BLOCK && piece.length == size - piece.offset);
  WANT(btcheck_session_piece(session, (uint32_t)pieces, &piece), BTCHECK_NO_SUCH);
  WANT(btcheck_session_piece(session, UINT32_MAX, &piece), BTCHECK_NO_SUCH);
  WANT(btcheck_session_map_file(session, 0, size - 1, UINT64_MAX, &range), BTCHECK_OK);
  CHECK(range.piece == count - 1 && range.begin == (size - 1) % (2 * BTCHECK_BLOCK) && range.length == 1);
  WANT(btcheck_session_map_file(session, 0, size, 0, &range), BTCHECK_NO_SUCH);
  WANT(btcheck_session_map_file(session, 0, UINT64_MAX, UINT64_MAX, &range), BTCHECK_NO_SUCH);
  WANT(btcheck_session_map_file(session, SIZE_MAX, 0, 1, &range), BTCHECK_NO_SUCH);
  WANT(btcheck_session_file_counts(session, 0, &marked, &blocks), BTCHECK_OK);
  CHECK(marked == 2 * whole && blocks == (size + BTCHECK_BLOCK - 1) / BTCHECK_BLOCK);
  WANT(btcheck_session_file_counts(session, SIZE_MAX, &marked, &blocks), BTCHECK_NO_SUCH);
  memset(room, 1, sizeof room);
  WANT(btcheck_session_bitfield(session, room, 0, &length), BTCHECK_TOO_SMALL);
  CHECK(length == (pieces + 7) / 8 && room[0] == 1);
  WANT(btcheck_session_bitfield(session, room, sizeof room, &length), BTCHECK_OK);
  CHECK(length == (pieces + 7) / 8 && room[0] == (whole ? 0x80 : 0) && room[length] == 1);
}

/* Hashes and blocks of the first file, false ones first. */
static void messages(btcheck_session *session, const btcheck_file *file) {
  static uint8_t leaves[8][32], room[16][32];
  static btcheck_blocks blocks;
  btcheck_ask ask = {{0}, 0, 0, 8, 0};
  uint64_t one, other;
  leaves_of(leaves);
  places(session, 0);
  memcpy(ask.root, file->root, 32);
  WANT(btcheck_session_take_hashes(session, ask.root, 0, 1, 8, 0, (const uint8_t(*)[32])leaves, 8, &one), BTCHECK_H2_BAD_RANGE);
  leaves[0][0] ^= 1;
  WANT(btcheck_session_take_hashes(session, ask.root, 0, 0, 8, 0, (const uint8_t(*)[32])leaves, 8, &one), BTCHECK_H6_MISMATCH);
  leaves[0][0] ^= 1;
  WANT(btcheck_session_take_answer(session, &ask, (const uint8_t(*)[32])leaves, 8, &one), BTCHECK_H8_UNASKED);
  WANT(btcheck_session_answer(session, &ask, room, 16, &one), BTCHECK_NOTHING);
  WANT(btcheck_session_take_block(session, 0, 0, content, BTCHECK_BLOCK, &one, &other), BTCHECK_P3_UNPROVED);
  WANT(btcheck_session_note(session, &ask), BTCHECK_OK);
  WANT(btcheck_session_take_answer(session, &ask, (const uint8_t(*)[32])leaves, 8, &one), BTCHECK_OK);
  WANT(btcheck_session_can_answer(session, &ask), BTCHECK_OK);
  WANT(btcheck_session_answer(session, &ask, room, 1, &one), BTCHECK_TOO_SMALL);
  WANT(btcheck_session_answer(session, &ask, room, 16, &one), BTCHECK_OK);
  WANT(btcheck_session_take_block(session, 0, 0, content, BTCHECK_BLOCK, &one, &other), BTCHECK_OK);
  WANT(btcheck_session_take_block(session, 0, 0, content + 1, BTCHECK_BLOCK, &one, &other), BTCHECK_P4_BAD_BLOCK);
  WANT(btcheck_session_take_blocks(session, 0, 0, content, 2 * BTCHECK_BLOCK, &blocks), BTCHECK_OK);
  WANT(btcheck_session_take_blocks(session, 77, 0, content, BTCHECK_BLOCK, &blocks), BTCHECK_P1_BAD_PLACE);
  WANT(btcheck_session_take_piece(session, 0, content + 1, 2 * BTCHECK_BLOCK, &one, &other), BTCHECK_P4_BAD_BLOCK);
  WANT(btcheck_session_take_piece(session, 0, content, 2 * BTCHECK_BLOCK, &one, &other), BTCHECK_OK);
  places(session, 1);
  written_frames(session, &ask);
  keeps(session, (const uint8_t(*)[32])leaves);
}

/* Blocks that are held until their piece is whole: a false one, then all of it; and what a bound drops. The piece has 2 blocks. */
static void holds(void) {
  static btcheck_held held;
  btcheck_session session = BTCHECK_INIT;
  btcheck_holdings holdings = BTCHECK_INIT;
  btcheck_run run;
  uint64_t count;
  WANT(btcheck_session_open(&session, torrent, len, true), BTCHECK_OK);
  WANT(btcheck_holdings_new(&holdings, &session, 0), BTCHECK_OK);
  WANT(btcheck_session_hold(&session, &holdings, 77, 0, content, BTCHECK_BLOCK, &held), BTCHECK_P1_BAD_PLACE);
  WANT(btcheck_session_hold(&session, &holdings, 0, 0, content + 1, 2 * BTCHECK_BLOCK, &held), BTCHECK_OK);
  CHECK(held.blocks.count == 2 && held.blocks.statuses[1] == BTCHECK_HELD && held.dropped[0].tree == UINT64_MAX);
  WANT(btcheck_session_settle(&session, &holdings, &run), BTCHECK_BAD_PIECE);
  CHECK(run.tree == 0 && run.first == 0 && run.last == 1);
  WANT(btcheck_session_settle(&session, &holdings, &run), BTCHECK_NOTHING);
  WANT(btcheck_session_hold(&session, &holdings, 1, 0, content, BTCHECK_BLOCK, &held), BTCHECK_OK);
  WANT(btcheck_session_hold(&session, &holdings, 0, 0, content, BTCHECK_BLOCK, &held), BTCHECK_OK);
  CHECK(held.dropped[0].tree == 0 && held.dropped[0].first == 2 && held.dropped[0].last == 3);
  WANT(btcheck_session_held(&holdings, &count), BTCHECK_OK);
  CHECK(count == 1);
  WANT(btcheck_session_hold(&session, &holdings, 0, BTCHECK_BLOCK, content + BTCHECK_BLOCK, BTCHECK_BLOCK, &held), BTCHECK_OK);
  WANT(btcheck_holdings_look_at(&holdings, 0), BTCHECK_OK);
  WANT(btcheck_session_settle(&session, &holdings, &run), BTCHECK_OK);
  CHECK(run.tree == 0 && run.first == 0 && run.last == 1);
  WANT(btcheck_session_is_marked(&session, 0, 1), BTCHECK_OK);
  btcheck_holdings_free(&holdings);
  btcheck_session_free(&session);
}

/* Whole frames: bytes that are none, and the two blocks of the first piece, which are proved when both are held. */
static void frames(void) {
  static const uint8_t keep_alive[5] = {0}, skipped[] = {0, 0, 0, 3, 4, 0, 0}, bad_piece[] = {0, 0, 0, 3, 7, 0, 0};
  static uint8_t frame[13 + BTCHECK_BLOCK] = {0, 0, 0x40, 9, 7};
  static btcheck_taken taken;
  btcheck_session session = BTCHECK_INIT;
  btcheck_holdings holdings = BTCHECK_INIT;
  btcheck_run run;
  WANT(btcheck_session_open(&session, torrent, len, true), BTCHECK_OK);
  WANT(btcheck_holdings_new(&holdings, &session, 0), BTCHECK_OK);
  WANT(btcheck_session_take_frame(&session, keep_alive, 3, false, &taken), BTCHECK_TOO_SHORT);
  WANT(btcheck_session_take_frame(&session, keep_alive, 5, false, &taken), BTCHECK_TOO_LONG);
  WANT(btcheck_session_take_frame(&session, bad_piece, 7, true, &taken), BTCHECK_BAD_SIZE);
  WANT(btcheck_session_hold_frame(&session, &holdings, bad_piece, 6, true, &taken), BTCHECK_TOO_SHORT);
  WANT(btcheck_session_hold_frame(&session, &holdings, bad_piece, 7, true, &taken), BTCHECK_BAD_SIZE);
  CHECK(taken.verdict.kind == 0);
  WANT(btcheck_session_hold_frame(&session, &holdings, keep_alive, 4, true, &taken), BTCHECK_OK);
  CHECK(taken.verdict.kind == BTCHECK_KEEP_ALIVE && taken.verdict.blocks.count == 0);
  WANT(btcheck_session_take_frame(&session, skipped, 7, true, &taken), BTCHECK_OK);
  CHECK(taken.verdict.kind == BTCHECK_SKIPPED && taken.verdict.id == 4);
  for (unsigned block = 0; block < 2; block++) {
    frame[11] = (uint8_t)(0x40 * block);
    memcpy(frame + 13, content + block * BTCHECK_BLOCK, BTCHECK_BLOCK);
    WANT(btcheck_session_take_frame(&session, frame, sizeof frame, true, &taken), BTCHECK_OK);
    CHECK(taken.verdict.kind == BTCHECK_BLOCKS && taken.verdict.blocks.statuses[0] == BTCHECK_P3_UNPROVED);
    WANT(btcheck_session_hold_frame(&session, &holdings, frame, sizeof frame, true, &taken), BTCHECK_OK);
    CHECK(taken.verdict.blocks.first == block && taken.verdict.blocks.statuses[0] == BTCHECK_HELD && taken.dropped[0].tree == UINT64_MAX);
    WANT(btcheck_session_settle(&session, &holdings, &run), block ? BTCHECK_OK : BTCHECK_NOTHING);
  }
  CHECK(run.tree == 0 && run.first == 0 && run.last == 1);
  frame[8] = 77;
  WANT(btcheck_session_hold_frame(&session, &holdings, frame, sizeof frame, true, &taken), BTCHECK_P1_BAD_PLACE);
  btcheck_holdings_free(&holdings);
  btcheck_session_free(&session);
}

/* A draft of the content under two paths, as it comes in parts; and each refusal of a draft that a caller can meet. */
static void drafts(bool hybrid) {
  static uint8_t room[1 << 16], again[1 << 16];
  btcheck_draft draft = BTCHECK_INIT, other = BTCHECK_INIT;
  btcheck_draft_file file = BTCHECK_INIT;
  btcheck_session made = BTCHECK_INIT;
  uint64_t length, files, trees;
  WANT(btcheck_draft_new(&draft, (const uint8_t *)"\377", 1, BTCHECK_BLOCK, hybrid), BTCHECK_TORRENT_WRONG_TYPE);
  WANT(btcheck_draft_new(&draft, (const uint8_t *)"x", 1, 3 * BTCHECK_BLOCK, hybrid), BTCHECK_TORRENT_PIECE_LENGTH);
  WANT(btcheck_draft_new(&draft, (const uint8_t *)"x", 1, BTCHECK_BLOCK, hybrid), BTCHECK_OK);
  WANT(btcheck_draft_new(&other, (const uint8_t *)"x", 1, BTCHECK_BLOCK, !hybrid), BTCHECK_OK);
  WANT(btcheck_draft_finish(&draft, room, sizeof room, &length), BTCHECK_TORRENT_NO_FILES);
  WANT(btcheck_draft_file_new(&file, &draft), BTCHECK_OK);
  WANT(btcheck_draft_add(&draft, &file, (const uint8_t *)"none", 4), BTCHECK_OK);
  WANT(btcheck_draft_file_push(&file, content, size / 2), BTCHECK_OK);
  WANT(btcheck_draft_file_push(&file, content + size / 2, size - size / 2), BTCHECK_OK);
  WANT(btcheck_draft_add(&other, &file, (const uint8_t *)"all", 3), BTCHECK_WRONG_HANDLE);
  WANT(btcheck_draft_add(&draft, &file, (const uint8_t *)"\377", 1), BTCHECK_TORRENT_PATH);
  WANT(btcheck_draft_file_push(&file, content, 0), BTCHECK_OK);
  WANT(btcheck_draft_add(&draft, &file, (const uint8_t *)"a/../b", 6), BTCHECK_TORRENT_PATH);
  WANT(btcheck_draft_file_push(&file, content, 1), BTCHECK_TOO_LONG);
  WANT(btcheck_draft_add(&draft, &file, (const uint8_t *)"none/x", 6), BTCHECK_TORRENT_PATH_CLASH);
  WANT(btcheck_draft_add(&draft, &file, (const uint8_t *)"all", 3), BTCHECK_OK);
  WANT(btcheck_draft_finish(&draft, room, 0, &length), BTCHECK_TOO_SMALL);
  WANT(btcheck_draft_finish(&draft, room, length - 1, &length), BTCHECK_TOO_SMALL);
  CHECK(length < sizeof room && room[0] == 0);
  WANT(btcheck_draft_finish(&draft, room, length, &length), BTCHECK_OK);
  WANT(btcheck_session_open(&made, room, length, true), BTCHECK_OK);
  WANT(btcheck_session_files(&made, &files, &trees), BTCHECK_OK);
  CHECK(files == 2 && trees == 1);
  btcheck_session_free(&made);
  /* The same text is written again, and one more file makes another. */
  memset(again, 1, sizeof again);
  WANT(btcheck_draft_finish(&draft, again, sizeof again, &files), BTCHECK_OK);
  CHECK(files == length && !memcmp(room, again, length) && again[length] == 1);
  WANT(btcheck_draft_file_push(&file, content, size), BTCHECK_OK);
  WANT(btcheck_draft_add(&draft, &file, (const uint8_t *)"twin", 4), BTCHECK_OK);
  WANT(btcheck_draft_finish(&draft, room, sizeof room, &length), BTCHECK_OK);
  CHECK(length > files);
  memset(room, 0, sizeof room);
  btcheck_draft_free(&draft);
  btcheck_draft_free(&other);
  btcheck_draft_file_free(&file);
}

/* Every call, on what opens; what does not is refused on the same stack. */
static void *calls(void *is_first) {
  static uint8_t room[64][32], small[20];
  static btcheck_file file;
  static btcheck_verdict verdict;
  uint64_t one, other;
  btcheck_ask ask;
  btcheck_session session = BTCHECK_INIT;
  btcheck_refusal refusal;
  btcheck_status status = btcheck_session_open_explained(&session, torrent, len, true, &refusal);
  CHECK((status == BTCHECK_TORRENT_NOT_BENCODE) == (refusal.fault != 0));
  CHECK((status == BTCHECK_TORRENT_MISSING || status == BTCHECK_TORRENT_WRONG_TYPE) == (refusal.key != 0));
  if (status != BTCHECK_OK) return is_first;
  btcheck_session_free(&session);
  WANT(btcheck_session_open(&session, torrent, len, true), BTCHECK_OK);
  WANT(btcheck_session_files(&session, &one, &other), BTCHECK_OK);
  WANT(btcheck_session_file(&session, 0, &file), BTCHECK_OK);
  WANT(btcheck_session_file(&session, SIZE_MAX, &file), BTCHECK_NO_SUCH);
  WANT(btcheck_session_path(&session, 0, room[0], 0, &one), BTCHECK_TOO_SMALL);
  WANT(btcheck_session_path(&session, 0, room[0], sizeof room, &one), BTCHECK_OK);
  WANT(btcheck_session_info_hashes(&session, room[0], small), BTCHECK_OK);
  WANT(btcheck_session_name(&session, room[0], 0, &one), BTCHECK_TOO_SMALL);
  WANT(btcheck_session_name(&session, room[0], sizeof room, &one), BTCHECK_OK);
  WANT(btcheck_session_piece_length(&session, &one), BTCHECK_OK);
  WANT(btcheck_session_pieces(&session, &one), BTCHECK_OK);
  WANT(btcheck_session_is_hybrid(&session), BTCHECK_NOTHING);
  WANT(btcheck_session_counts(&session, 0, &one, &other), BTCHECK_OK);
  WANT(btcheck_session_is_marked(&session, 0, 0), BTCHECK_NOTHING);
  if (btcheck_session_want(&session, 0, 0, &ask) == BTCHECK_OK) WANT(btcheck_session_can_answer(&session, &ask), BTCHECK_NOTHING);
  WANT(btcheck_session_frame(&session, (const uint8_t *)"\4\0\0", 3, &verdict), BTCHECK_OK);
  WANT(btcheck_session_frame(&session, (const uint8_t *)"\7\0\0", 3, &verdict), BTCHECK_BAD_SIZE);
  if (is_first) checks(&session), any_parts(&session, file.root), messages(&session, &file), holds(), frames(), drafts(false), drafts(true);
  btcheck_session_free(&session);
  return is_first;
}

int main(int argc, char **argv) {
  if (argc < 4) return 2;
  size = whole_file(argv[2], content, sizeof content);
  for (int at = 3; at < argc; at++) {
    len = whole_file(argv[at], torrent, sizeof torrent);
    if (!len) return 2;
    pthread_attr_t attributes;
    pthread_t thread;
    size_t stack = (size_t)atol(argv[1]);
    CHECK(pthread_attr_init(&attributes) == 0);
    CHECK(stack == 0 || pthread_attr_setstacksize(&attributes, stack) == 0);
    CHECK(pthread_create(&thread, &attributes, calls, at == 3 ? content : NULL) == 0 && pthread_join(thread, NULL) == 0);
    pthread_attr_destroy(&attributes);
  }
  return 0;
}
