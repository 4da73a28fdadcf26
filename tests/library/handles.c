/* Handles that are empty, full, of the other kind, freed, and freed twice: each status that a handle gives, and nothing written.
   usage: handles TORRENT */
#include "btcheck.h"
#include "want.h"

#include <stdlib.h>

static btcheck_ask ask;
static btcheck_file file;
static btcheck_piece piece;
static btcheck_piece_range range;
static btcheck_blocks blocks;
static btcheck_verdict verdict;
static btcheck_held held;
static btcheck_taken taken;
static btcheck_run run;
static btcheck_cursor cursor;
static btcheck_refusal refusal;
static uint8_t hash[1][32], small[20], bytes[1 << 20];
static uint64_t one, other;

/* Every call on a session but open. */
static void want_of_session(btcheck_session *session, btcheck_status status) {
  one = other = 7;
  WANT(btcheck_session_counts(session, 0, &one, &other), status);
  WANT(btcheck_session_take_hashes(session, hash[0], 0, 0, 2, 0, (const uint8_t(*)[32])hash, 1, &one), status);
  WANT(btcheck_session_take_block(session, 0, 0, hash[0], 32, &one, &other), status);
  WANT(btcheck_session_note(session, &ask), status);
  WANT(btcheck_session_take_answer(session, &ask, (const uint8_t(*)[32])hash, 1, &one), status);
  WANT(btcheck_session_answer(session, &ask, hash, 1, &one), status);
  WANT(btcheck_session_want(session, 0, 0, &ask), status);
  WANT(btcheck_session_can_answer(session, &ask), status);
  WANT(btcheck_session_is_marked(session, 0, 0), status);
  WANT(btcheck_session_files(session, &one, &other), status);
  WANT(btcheck_session_file(session, 0, &file), status);
  WANT(btcheck_session_path(session, 0, hash[0], 32, &one), status);
  WANT(btcheck_session_info_hashes(session, hash[0], small), status);
  WANT(btcheck_session_name(session, hash[0], 32, &one), status);
  WANT(btcheck_session_piece_length(session, &one), status);
  WANT(btcheck_session_pieces(session, &one), status);
  WANT(btcheck_session_is_hybrid(session), status);
  WANT(btcheck_session_piece(session, 0, &piece), status);
  WANT(btcheck_session_file_pieces(session, 0, &one, &other), status);
  WANT(btcheck_session_map_file(session, 0, 0, 1, &range), status);
  WANT(btcheck_session_file_counts(session, 0, &one, &other), status);
  WANT(btcheck_session_bitfield(session, hash[0], 32, &one), status);
  WANT(btcheck_session_answer_frame(session, &ask, hash[0], 32, &one), status);
  WANT(btcheck_session_take_blocks(session, 0, 0, hash[0], 32, &blocks), status);
  WANT(btcheck_session_take_piece(session, 0, hash[0], 32, &one, &other), status);
  WANT(btcheck_session_frame(session, hash[0], 32, &verdict), status);
  WANT(btcheck_session_take_frame(session, hash[0], 4, false, &taken), status);
  WANT(btcheck_session_export(session, &cursor, hash[0], 32, &one), status);
  WANT(btcheck_session_fill(session, 0, 0, (const uint8_t(*)[32])hash, 1, &one), status);
  CHECK(one == 7 && other == 7 && ask.length == 0 && file.length == 0 && blocks.count == 0 && verdict.kind == 0 && taken.verdict.kind == 0);
  CHECK(hash[0][0] == 0 && small[0] == 0 && piece.length == 0 && range.length == 0);
}

/* Every call on a check but new. */
static void want_of_check(btcheck_check *check, btcheck_status status) {
  one = 7;
  WANT(btcheck_check_push(check, hash[0], 1), status);
  WANT(btcheck_check_finish(check, &one), status);
  WANT(btcheck_check_push_bits(check, hash[0], 1, small, sizeof small), status);
  WANT(btcheck_check_finish_bits(check, &one, small, sizeof small), status);
  CHECK(one == 7 && small[0] == 0);
}

/* Every call on holdings but new, with a session that is one or is not. */
static void want_of_holdings(btcheck_session *session, btcheck_holdings *holdings, btcheck_status alone, btcheck_status both) {
  one = 7;
  WANT(btcheck_session_held(holdings, &one), alone);
  WANT(btcheck_holdings_look_at(holdings, 0), alone);
  WANT(btcheck_session_hold(session, holdings, 0, 0, hash[0], 32, &held), both);
  WANT(btcheck_session_hold_frame(session, holdings, hash[0], 4, false, &taken), both);
  WANT(btcheck_session_settle(session, holdings, &run), both);
  CHECK((one == 7) == (alone != BTCHECK_OK) && held.blocks.count == 0 && taken.verdict.kind == 0 && run.last == 0);
}

/* Every call on a builder but new. */
static void want_of_root(btcheck_root *root, btcheck_status status) {
  one = 7;
  WANT(btcheck_root_push(root, hash[0], 1), status);
  WANT(btcheck_root_finish(root, &one, hash[0]), status);
  CHECK(one == 7 && hash[0][0] == 0);
}

/* Every call on a draft but new, and on a file for one. */
static void want_of_draft(btcheck_draft *draft, btcheck_draft_file *made, btcheck_status of_draft, btcheck_status of_file, btcheck_status both) {
  one = 7;
  WANT(btcheck_draft_finish(draft, hash[0], 32, &one), of_draft);
  WANT(btcheck_draft_file_push(made, hash[0], 0), of_file);
  WANT(btcheck_draft_add(draft, made, (const uint8_t *)"a", 1), both);
  CHECK(one == 7 && hash[0][0] == 0);
}

int main(int argc, char **argv) {
  size_t len = argc == 2 ? whole_file(argv[1], bytes, sizeof bytes) : 0;
  if (!len) return 2;
  uint8_t *torrent = (uint8_t *)malloc(len);
  memcpy(torrent, bytes, len);
  btcheck_root root = BTCHECK_INIT;
  btcheck_check check = BTCHECK_INIT;
  btcheck_session session = BTCHECK_INIT, second = BTCHECK_INIT;
  btcheck_holdings holdings = BTCHECK_INIT;
  btcheck_draft draft = BTCHECK_INIT;
  btcheck_draft_file made = BTCHECK_INIT;
  const btcheck_status wrong = BTCHECK_WRONG_HANDLE;
  CHECK(btcheck_version() == BTCHECK_VERSION);
  want_of_root(&root, BTCHECK_WRONG_HANDLE);
  want_of_session(&session, BTCHECK_WRONG_HANDLE);
  want_of_holdings(&session, &holdings, BTCHECK_WRONG_HANDLE, BTCHECK_WRONG_HANDLE);
  WANT(btcheck_holdings_new(&holdings, &session, 1), BTCHECK_WRONG_HANDLE);
  for (int round = 0; round < 3; round++) {
    WANT(btcheck_root_new(&root), BTCHECK_OK);
    WANT(btcheck_root_new(&root), BTCHECK_WRONG_HANDLE);
    WANT(btcheck_root_finish(&root, &one, hash[0]), BTCHECK_NO_ROOT);
    WANT(btcheck_root_push(&root, hash[0], 0), BTCHECK_OK);
    WANT(btcheck_root_finish(&root, &one, hash[0]), BTCHECK_NO_ROOT);
    WANT(btcheck_session_open(&session, hash[0], 1, true), BTCHECK_TORRENT_NOT_BENCODE);
    WANT(btcheck_session_open_explained(&session, hash[0], 1, true, &refusal), BTCHECK_TORRENT_NOT_BENCODE);
    CHECK(refusal.fault == BTCHECK_FAULT_BAD_START && refusal.offset == 0 && refusal.key == 0);
    CHECK(!strcmp(btcheck_fault_text(refusal.fault), "BadStart") && !strcmp(btcheck_fault_text(0), "no fault"));
    WANT(btcheck_session_open_explained(&session, (const uint8_t *)"d4:infodee", 10, true, &refusal), BTCHECK_TORRENT_MISSING);
    CHECK(refusal.key == BTCHECK_KEY_META_VERSION && refusal.fault == 0 && refusal.offset == 0);
    CHECK(!strcmp(btcheck_key_text(refusal.key), "meta version") && !strcmp(btcheck_key_text(0), "no key"));
    WANT(btcheck_session_open_explained(&session, torrent, len, true, &refusal), BTCHECK_OK);
    CHECK(refusal.key == 0 && refusal.fault == 0);
    refusal.key = 1;
    WANT(btcheck_session_open_explained(&session, torrent, len, true, &refusal), BTCHECK_WRONG_HANDLE);
    CHECK(refusal.key == 0);
    WANT(btcheck_session_open(&session, torrent, len, true), BTCHECK_WRONG_HANDLE);
    WANT(btcheck_session_open(&second, torrent, len, false), BTCHECK_OK);
    WANT(btcheck_session_counts(&session, 0, &one, &other), BTCHECK_OK);
    WANT(btcheck_session_counts(&second, 1000, &one, &other), BTCHECK_NO_SUCH);
    want_of_check(&check, BTCHECK_WRONG_HANDLE);
    WANT(btcheck_check_new(&check, &session, 1000), BTCHECK_NO_SUCH);
    WANT(btcheck_check_new(&check, (btcheck_session *)(void *)&root, 0), BTCHECK_WRONG_HANDLE);
    WANT(btcheck_check_new_pieces(&check, (btcheck_session *)(void *)&root, 0, 0, 1), BTCHECK_WRONG_HANDLE);
    WANT(btcheck_check_new_pieces(&check, &session, 1000, 0, 1), BTCHECK_NO_SUCH);
    WANT(btcheck_check_new_pieces(&check, &session, 0, 1, 1), BTCHECK_NO_SUCH);
    WANT(btcheck_check_new_pieces(&check, &session, 0, 0, UINT64_MAX), BTCHECK_NO_SUCH);
    WANT(btcheck_check_new_pieces(&check, &session, 0, 0, 1), BTCHECK_OK);
    WANT(btcheck_check_new_pieces(&check, &session, 0, 0, 1), BTCHECK_WRONG_HANDLE);
    WANT(btcheck_check_finish_bits(&check, &one, small, sizeof small), BTCHECK_TOO_SHORT);
    btcheck_check_free(&check);
    WANT(btcheck_check_new(&check, &session, 0), BTCHECK_OK);
    WANT(btcheck_check_new(&check, &session, 0), BTCHECK_WRONG_HANDLE);
    WANT(btcheck_check_finish(&check, &one), BTCHECK_TOO_SHORT);
    want_of_session((btcheck_session *)(void *)&check, BTCHECK_WRONG_HANDLE);
    want_of_root((btcheck_root *)(void *)&check, BTCHECK_WRONG_HANDLE);
    want_of_check((btcheck_check *)(void *)&root, BTCHECK_WRONG_HANDLE);
    want_of_check((btcheck_check *)(void *)&session, BTCHECK_WRONG_HANDLE);
    btcheck_check_free(&check);
    btcheck_check_free(&check);
    want_of_holdings(&session, &holdings, BTCHECK_WRONG_HANDLE, BTCHECK_WRONG_HANDLE);
    WANT(btcheck_holdings_new(&holdings, (btcheck_session *)(void *)&root, 1), BTCHECK_WRONG_HANDLE);
    WANT(btcheck_holdings_new(&holdings, &session, 1), BTCHECK_OK);
    WANT(btcheck_holdings_new(&holdings, &session, 1), BTCHECK_WRONG_HANDLE);
    WANT(btcheck_session_settle(&session, &holdings, &run), BTCHECK_NOTHING);
    want_of_holdings((btcheck_session *)(void *)&root, &holdings, BTCHECK_OK, BTCHECK_WRONG_HANDLE);
    want_of_holdings(&session, (btcheck_holdings *)(void *)&root, BTCHECK_WRONG_HANDLE, BTCHECK_WRONG_HANDLE);
    want_of_holdings(&session, (btcheck_holdings *)(void *)&second, BTCHECK_WRONG_HANDLE, BTCHECK_WRONG_HANDLE);
    want_of_session((btcheck_session *)(void *)&holdings, BTCHECK_WRONG_HANDLE);
    want_of_root((btcheck_root *)(void *)&holdings, BTCHECK_WRONG_HANDLE);
    want_of_check((btcheck_check *)(void *)&holdings, BTCHECK_WRONG_HANDLE);
    WANT(btcheck_holdings_look_at(&holdings, 1000), BTCHECK_OK);
    WANT(btcheck_session_settle(&session, &holdings, &run), BTCHECK_NO_SUCH);
    btcheck_holdings_free(&holdings);
    btcheck_holdings_free(&holdings);
    want_of_draft(&draft, &made, wrong, wrong, wrong);
    WANT(btcheck_draft_file_new(&made, &draft), BTCHECK_WRONG_HANDLE);
    WANT(btcheck_draft_new(&draft, hash[0], 0, 16384, false), BTCHECK_OK);
    WANT(btcheck_draft_new(&draft, hash[0], 0, 16384, false), BTCHECK_WRONG_HANDLE);
    want_of_draft(&draft, &made, BTCHECK_TORRENT_NO_FILES, wrong, wrong);
    WANT(btcheck_draft_file_new(&made, (btcheck_draft *)(void *)&root), BTCHECK_WRONG_HANDLE);
    WANT(btcheck_draft_file_new(&made, &draft), BTCHECK_OK);
    WANT(btcheck_draft_file_new(&made, &draft), BTCHECK_WRONG_HANDLE);
    want_of_draft((btcheck_draft *)(void *)&root, &made, wrong, BTCHECK_OK, wrong);
    want_of_draft((btcheck_draft *)(void *)&made, (btcheck_draft_file *)(void *)&draft, wrong, wrong, wrong);
    want_of_draft(&draft, (btcheck_draft_file *)(void *)&session, BTCHECK_TORRENT_NO_FILES, wrong, wrong);
    want_of_root((btcheck_root *)(void *)&draft, BTCHECK_WRONG_HANDLE);
    want_of_root((btcheck_root *)(void *)&made, BTCHECK_WRONG_HANDLE);
    want_of_session((btcheck_session *)(void *)&draft, BTCHECK_WRONG_HANDLE);
    want_of_session((btcheck_session *)(void *)&made, BTCHECK_WRONG_HANDLE);
    want_of_check((btcheck_check *)(void *)&draft, BTCHECK_WRONG_HANDLE);
    want_of_holdings(&session, (btcheck_holdings *)(void *)&made, BTCHECK_WRONG_HANDLE, BTCHECK_WRONG_HANDLE);
    btcheck_draft_free(&draft);
    btcheck_draft_free(&draft);
    want_of_draft(&draft, &made, wrong, BTCHECK_OK, wrong);
    btcheck_draft_file_free(&made);
    btcheck_draft_file_free(&made);
    /* A handle of the other kind, as a cast gives it. */
    want_of_session((btcheck_session *)(void *)&root, BTCHECK_WRONG_HANDLE);
    want_of_root((btcheck_root *)(void *)&session, BTCHECK_WRONG_HANDLE);
    WANT(btcheck_root_new((btcheck_root *)(void *)&session), BTCHECK_WRONG_HANDLE);
    btcheck_session_free(&session);
    btcheck_session_free(&session);
    btcheck_session_free(&second);
    btcheck_root_free(&root);
    btcheck_root_free(&root);
    want_of_root(&root, BTCHECK_WRONG_HANDLE);
    want_of_session(&session, BTCHECK_WRONG_HANDLE);
  }
  free(torrent);
  return 0;
}
