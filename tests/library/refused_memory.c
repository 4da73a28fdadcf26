/* Memory is refused to each call that takes some, at each block in turn: the status says so, and nothing has changed.
   usage: refused_memory TORRENT HASHES (a root, and 8 hashes that answer a request for its first 8 leaves)
   Link with -Wl,--wrap=malloc,--wrap=realloc. */
#include "btcheck.h"
#include "want.h"

#ifdef __cplusplus
extern "C" {
#endif
void *__real_malloc(size_t size);
void *__real_realloc(void *block, size_t size);
void *__wrap_malloc(size_t size);
void *__wrap_realloc(void *block, size_t size);
#ifdef __cplusplus
}
#endif

static long left = -1; /* how many blocks may still be had; -1: any number */
static bool asked;     /* whether the last call asked for a block that it did not get */

static bool is_refused(void) {
  if (left > 0) left--;
  else if (left == 0) return asked = true;
  return false;
}

void *__wrap_malloc(size_t size) { return is_refused() ? NULL : __real_malloc(size); }

void *__wrap_realloc(void *block, size_t size) { return is_refused() ? NULL : __real_realloc(block, size); }

/* The status of a call that has `blocks` blocks of memory and no more. */
#define WITH(blocks, call) (left = (blocks), asked = false, status = (call), left = -1, status)

/* A call asks for no memory. */
#define WANT_FREE(call)              \
  do {                               \
    WANT(WITH(0, call), BTCHECK_OK); \
    CHECK(!asked);                   \
  } while (0)

static uint8_t torrent[1 << 20], hashes[9][32], room[8][32], whole[4 + 1 + 32 + 16 + 8 * 32], *const body = whole + 4;
static size_t len;
static btcheck_session session = BTCHECK_INIT;

/* Nothing is known but the root. */
static void want_unchanged(void) {
  uint64_t known = 0, marked = 0;
  WANT(btcheck_session_counts(&session, 0, &known, &marked), BTCHECK_OK);
  CHECK(known == 1 && marked == 0);
}

static void reopen(void) {
  btcheck_session_free(&session);
  WANT(btcheck_session_open(&session, torrent, len, false), BTCHECK_OK);
}

/* A call has no memory, then one block of it, then two: each time it is refused, until it has enough. */
#define WANT_EACH(call, refusal)                                              \
  do {                                                                        \
    for (long blocks = 0; WITH(blocks, call) != BTCHECK_OK; blocks++) {       \
      WANT(status, refusal);                                                  \
      want_unchanged();                                                       \
      refused++;                                                              \
    }                                                                         \
    CHECK(refused > 0);                                                       \
    refused = 0;                                                              \
  } while (0)

/* The frame of a hashes message: its length, and the body, which is its id, its root, four numbers of 32 bits, and the hashes. */
static void lay_out(void) {
  whole[2] = (sizeof whole - 4) >> 8;
  whole[3] = (sizeof whole - 4) & 255;
  body[0] = 22;
  memcpy(body + 1, hashes[0], 32);
  body[1 + 32 + 11] = 8;
  memcpy(body + 1 + 32 + 16, hashes[1], 8 * 32);
}

/* A draft of a hybrid takes nothing more or all of a call. A file whose digests have no room is lost, and comes again. */
static void drafts(void) {
  static uint8_t text[1 << 12], other[1 << 12];
  btcheck_draft draft = BTCHECK_INIT;
  btcheck_draft_file file = BTCHECK_INIT;
  btcheck_status status;
  uint64_t length = 7, before = 7;
  unsigned made = 0, pushes = 0, adds = 0, texts = 0, lost = 0;
  for (long blocks = 0; WITH(blocks, btcheck_draft_new(&draft, (const uint8_t *)"name", 4, BTCHECK_BLOCK, true)) != BTCHECK_OK; blocks++, made++)
    WANT(status, BTCHECK_NO_MEMORY);
  CHECK(made > 1);
  WANT(WITH(0, btcheck_draft_file_new(&file, &draft)), BTCHECK_NO_MEMORY);
  WANT(btcheck_draft_file_new(&file, &draft), BTCHECK_OK);
  WANT(btcheck_draft_add(&draft, &file, (const uint8_t *)"first", 5), BTCHECK_OK);
  WANT(btcheck_draft_finish(&draft, text, sizeof text, &before), BTCHECK_OK);
  for (long blocks = 0;; blocks++) {
    status = WITH(blocks, btcheck_draft_file_push(&file, torrent, 3 * BTCHECK_BLOCK + 7));
    if (status == BTCHECK_OK) break;
    WANT(status, BTCHECK_NO_MEMORY);
    WANT(btcheck_draft_file_push(&file, torrent, 0), BTCHECK_NO_MEMORY);
    WANT(btcheck_draft_add(&draft, &file, (const uint8_t *)"second", 6), BTCHECK_NO_MEMORY);
    btcheck_draft_file_free(&file);
    WANT(btcheck_draft_file_new(&file, &draft), BTCHECK_OK);
    pushes++;
  }
  CHECK(pushes > 1);
  for (long blocks = 0; WITH(blocks, btcheck_draft_add(&draft, &file, (const uint8_t *)"a/b", 3)) != BTCHECK_OK; blocks++, adds++) {
    WANT(status, BTCHECK_NO_MEMORY);
    WANT(btcheck_draft_finish(&draft, other, sizeof other, &length), BTCHECK_OK);
    CHECK(length == before && !memcmp(text, other, length));
    if (btcheck_draft_file_push(&file, torrent, 0) == BTCHECK_OK) continue;
    btcheck_draft_file_free(&file);
    WANT(btcheck_draft_file_new(&file, &draft), BTCHECK_OK);
    WANT(btcheck_draft_file_push(&file, torrent, 3 * BTCHECK_BLOCK + 7), BTCHECK_OK);
    lost++;
  }
  CHECK(adds > 2 && lost < adds);
  length = 7;
  for (long blocks = 0; WITH(blocks, btcheck_draft_finish(&draft, text, sizeof text, &length)) != BTCHECK_OK; blocks++, texts++) {
    WANT(status, BTCHECK_NO_MEMORY);
    CHECK(length == 7);
  }
  CHECK(texts > 0 && length > before);
  WANT(WITH(0, btcheck_draft_file_push(&file, torrent, 1)), BTCHECK_OK);
  btcheck_draft_file_free(&file);
  btcheck_draft_free(&draft);
}

int main(int argc, char **argv) {
  len = argc == 3 ? whole_file(argv[1], torrent, sizeof torrent) : 0;
  if (!len || whole_file(argv[2], hashes[0], sizeof hashes) != sizeof hashes) return 2;
  const uint8_t(*given)[32] = (const uint8_t(*)[32])(hashes + 1);
  btcheck_ask ask = {{0}, 0, 0, 8, 0};
  memcpy(ask.root, hashes[0], 32);
  lay_out();
  btcheck_root root = BTCHECK_INIT;
  btcheck_check check = BTCHECK_INIT;
  btcheck_verdict verdict;
  static btcheck_taken taken;
  uint64_t count = 7, known = 0, marked = 0;
  btcheck_status status;
  unsigned refused = 0, of_torrent = 0, of_session = 0;

  /* The room for the bytes of short pushes is taken at once: no later call takes memory. */
  for (long blocks = 0; WITH(blocks, btcheck_root_new(&root)) != BTCHECK_OK; blocks++, refused++) {
    WANT(status, BTCHECK_NO_MEMORY);
    WANT(btcheck_root_push(&root, hashes[0], 1), BTCHECK_WRONG_HANDLE);
  }
  CHECK(refused == 2);
  refused = 0;
  WANT_FREE(btcheck_root_push(&root, torrent, 1));
  WANT_FREE(btcheck_root_push(&root, torrent, sizeof torrent));
  WANT_FREE(btcheck_root_finish(&root, &count, room[0]));
  CHECK(count == 1 + sizeof torrent);
  count = 7;
  btcheck_root_free(&root);

  for (long blocks = 0; WITH(blocks, btcheck_session_open(&session, torrent, len, false)) != BTCHECK_OK; blocks++) {
    CHECK(status == BTCHECK_NO_MEMORY || status == BTCHECK_TORRENT_NO_MEMORY);
    if (status == BTCHECK_NO_MEMORY) of_session++;
    else of_torrent++;
    WANT(btcheck_session_counts(&session, 0, &known, &marked), BTCHECK_WRONG_HANDLE);
  }
  CHECK(of_torrent > 0 && of_session > 0);
  btcheck_refusal refusal = {7, 7, 7};
  btcheck_session second = BTCHECK_INIT;
  WANT(WITH(0, btcheck_session_open_explained(&second, torrent, len, false, &refusal)), BTCHECK_TORRENT_NO_MEMORY);
  CHECK(refusal.offset == 0 && refusal.fault == 0 && refusal.key == 0);

  for (long blocks = 0; WITH(blocks, btcheck_check_new(&check, &session, 0)) != BTCHECK_OK; blocks++, refused++) {
    WANT(status, BTCHECK_NO_MEMORY);
    WANT(btcheck_check_push(&check, hashes[0], 1), BTCHECK_WRONG_HANDLE);
  }
  CHECK(refused == 2);
  refused = 0;
  WANT(WITH(0, btcheck_check_new_pieces(&check, &session, 0, 0, 1)), BTCHECK_WRONG_HANDLE);
  WANT_FREE(btcheck_check_push(&check, hashes[0], 1));
  WANT(WITH(0, btcheck_check_finish_bits(&check, &known, room[0], 1)), BTCHECK_TOO_SHORT);
  known = 0;
  btcheck_check_free(&check);

  WANT_EACH(btcheck_session_take_hashes(&session, ask.root, 0, 0, 8, 0, given, 8, &count), BTCHECK_H7_NO_MEMORY);
  CHECK(count == 14);
  reopen();
  WANT_EACH(btcheck_session_frame(&session, body, sizeof whole - 4, &verdict), BTCHECK_H7_NO_MEMORY);
  CHECK(verdict.kind == BTCHECK_STORED && verdict.places == 14);
  reopen();
  WANT_EACH(btcheck_session_take_frame(&session, whole, sizeof whole, false, &taken), BTCHECK_H7_NO_MEMORY);
  CHECK(taken.verdict.kind == BTCHECK_STORED && taken.verdict.places == 14 && taken.ask.length == 8);
  reopen();
  count = 7;
  WANT_EACH(btcheck_session_note(&session, &ask), BTCHECK_NO_MEMORY);
  WANT(WITH(0, btcheck_session_note(&session, &ask)), BTCHECK_OK);
  WANT_EACH(btcheck_session_take_answer(&session, &ask, given, 8, &count), BTCHECK_H7_NO_MEMORY);
  CHECK(count == 14);
  count = 7;
  WANT(WITH(0, btcheck_session_answer(&session, &ask, room, 8, &count)), BTCHECK_NO_MEMORY);
  CHECK(count == 7);
  WANT(btcheck_session_answer(&session, &ask, room, 8, &count), BTCHECK_OK);
  CHECK(count == 8 && !memcmp(room, hashes + 1, sizeof room));
  static uint8_t answer[sizeof whole];
  count = 7;
  WANT(WITH(0, btcheck_session_answer_frame(&session, &ask, answer, sizeof answer, &count)), BTCHECK_NO_MEMORY);
  CHECK(count == 7 && answer[4] == 0);
  WANT(btcheck_session_answer_frame(&session, &ask, answer, sizeof answer, &count), BTCHECK_OK);
  CHECK(count == sizeof answer && !memcmp(answer, whole, sizeof whole));

  /* What is exported, and a whole layer. */
  static uint8_t frame[BTCHECK_MOST_EXPORTED];
  btcheck_cursor cursor = {0, 0};
  btcheck_file first;
  count = 7;
  WANT(WITH(0, btcheck_session_export(&session, &cursor, frame, sizeof frame, &count)), BTCHECK_NO_MEMORY);
  CHECK(count == 7 && cursor.block == 0 && frame[4] == 0);
  WANT(btcheck_session_export(&session, &cursor, frame, sizeof frame, &count), BTCHECK_OK);
  CHECK(count == sizeof whole && !memcmp(frame + 4 + 49, hashes + 1, sizeof room) && cursor.block == 8);
  WANT(WITH(0, btcheck_session_export(&session, &cursor, frame, sizeof frame, &count)), BTCHECK_NOTHING);
  WANT(btcheck_session_file(&session, 0, &first), BTCHECK_OK);
  reopen();
  WANT_EACH(btcheck_session_fill(&session, 0, 0, given, (first.length + BTCHECK_BLOCK - 1) / BTCHECK_BLOCK, &count), BTCHECK_H7_NO_MEMORY);
  CHECK(count == 14);

  drafts();

  /* What is held stays as it is too. A file's blocks are the bytes 0 of each here, so they are false. */
  static uint8_t zeros[2 * BTCHECK_BLOCK];
  static btcheck_held held;
  btcheck_holdings holdings = BTCHECK_INIT;
  btcheck_run run;
  reopen();
  refused = 0;
  for (long blocks = 0; WITH(blocks, btcheck_holdings_new(&holdings, &session, 100)) != BTCHECK_OK; blocks++, refused++) {
    WANT(status, BTCHECK_NO_MEMORY);
    WANT(btcheck_session_held(&holdings, &count), BTCHECK_WRONG_HANDLE);
    want_unchanged();
  }
  CHECK(refused > 1);
  refused = 0;
  WANT(WITH(0, btcheck_session_hold(&session, &holdings, 0, 0, zeros, sizeof zeros, &held)), BTCHECK_OK);
  CHECK(held.blocks.statuses[0] == BTCHECK_HELD && held.blocks.statuses[1] == BTCHECK_HELD);
  WANT(WITH(0, btcheck_session_settle(&session, &holdings, &run)), BTCHECK_NOTHING);
  WANT(WITH(0, btcheck_session_held(&holdings, &count)), BTCHECK_OK);
  CHECK(count == 2);
  taken.verdict.kind = 0;
  WANT_EACH(btcheck_session_hold_frame(&session, &holdings, whole, sizeof whole, false, &taken), BTCHECK_H7_NO_MEMORY);
  CHECK(taken.verdict.kind == BTCHECK_STORED && taken.verdict.places == 14);
  for (int block = 0; block < 2; block++) {
    WANT(WITH(0, btcheck_session_settle(&session, &holdings, &run)), BTCHECK_BAD_PIECE);
    CHECK(run.first == (uint64_t)block && run.last == (uint64_t)block);
  }
  WANT(WITH(0, btcheck_session_settle(&session, &holdings, &run)), BTCHECK_NOTHING);
  btcheck_holdings_free(&holdings);

  /* These take no memory. */
  btcheck_file file;
  WANT_FREE(btcheck_session_can_answer(&session, &ask));
  WANT(WITH(0, btcheck_session_want(&session, 0, 0, &ask)), BTCHECK_NOTHING);
  WANT(WITH(0, btcheck_session_is_marked(&session, 0, 0)), BTCHECK_NOTHING);
  WANT(WITH(0, btcheck_session_take_block(&session, 0, 0, body, 1, &known, &marked)), BTCHECK_P2_BAD_SIZE);
  WANT_FREE(btcheck_session_file(&session, 0, &file));
  WANT_FREE(btcheck_session_path(&session, 0, body, sizeof whole - 4, &count));
  WANT_FREE(btcheck_session_name(&session, body, sizeof whole - 4, &count));
  WANT_FREE(btcheck_session_piece_length(&session, &count));
  WANT_FREE(btcheck_session_pieces(&session, &count));
  WANT(WITH(0, btcheck_session_is_hybrid(&session)), BTCHECK_NOTHING);
  btcheck_session_free(&session);
  return 0;
}
