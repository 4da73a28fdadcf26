/* Handles that move between threads: one thread fills them, others go on with them, and another one frees them. Each step of
   each set of handles runs in a thread of its own; at last all threads share one set, by a lock.
   usage: threads TORRENT FILE (the torrent's first file) */
#include "btcheck.h"
#include "want.h"

#include <pthread.h>

enum { SETS = 8, STEPS = 6, ROUNDS = 100 };

typedef struct set {
  btcheck_root root;
  btcheck_session session;
  btcheck_check check;
  btcheck_holdings holdings;
  btcheck_draft draft;
  btcheck_draft_file file;
  int step, added;
} set;

static uint8_t torrent[1 << 20], content[1 << 20];
static size_t torrent_len, content_len;
static set sets[SETS];
static pthread_mutex_t lock = PTHREAD_MUTEX_INITIALIZER;

static void fill(set *s) {
  WANT(btcheck_root_new(&s->root), BTCHECK_OK);
  WANT(btcheck_session_open(&s->session, torrent, torrent_len, false), BTCHECK_OK);
  WANT(btcheck_check_new(&s->check, &s->session, 0), BTCHECK_OK);
  WANT(btcheck_holdings_new(&s->holdings, &s->session, 100), BTCHECK_OK);
  WANT(btcheck_draft_new(&s->draft, (const uint8_t *)"name", 4, 2 * BTCHECK_BLOCK, true), BTCHECK_OK);
  WANT(btcheck_draft_file_new(&s->file, &s->draft), BTCHECK_OK);
}

static void push(set *s, size_t from, size_t to) {
  WANT(btcheck_root_push(&s->root, content + from, to - from), BTCHECK_OK);
  WANT(btcheck_check_push(&s->check, content + from, to - from), BTCHECK_OK);
  WANT(btcheck_draft_file_push(&s->file, content + from, to - from), BTCHECK_OK);
}

static void note(set *s) {
  btcheck_ask ask;
  WANT(btcheck_session_want(&s->session, 0, 0, &ask), BTCHECK_OK);
  WANT(btcheck_session_note(&s->session, &ask), BTCHECK_OK);
  btcheck_held held;
  btcheck_run run;
  WANT(btcheck_session_hold(&s->session, &s->holdings, 0, 0, content, BTCHECK_BLOCK, &held), BTCHECK_OK);
  WANT(btcheck_session_settle(&s->session, &s->holdings, &run), BTCHECK_NOTHING);
  static const uint8_t keep_alive[4] = {0};
  btcheck_taken taken;
  WANT(btcheck_session_take_frame(&s->session, keep_alive, 4, true, &taken), BTCHECK_OK);
  WANT(btcheck_session_hold_frame(&s->session, &s->holdings, keep_alive, 4, true, &taken), BTCHECK_OK);
  uint8_t room[BTCHECK_MOST_EXPORTED];
  uint64_t length;
  btcheck_cursor cursor = {0, 0};
  WANT(btcheck_session_bitfield(&s->session, room, sizeof room, &length), BTCHECK_OK);
  WANT(btcheck_session_answer_frame(&s->session, &ask, room, sizeof room, &length), BTCHECK_NOTHING);
  WANT(btcheck_session_export(&s->session, &cursor, room, sizeof room, &length), BTCHECK_NOTHING);
  WANT(btcheck_session_fill(&s->session, 0, 0, (const uint8_t(*)[32])ask.root, 1, &length), BTCHECK_H3_BAD_COUNT);
}

static void finish(set *s) {
  uint64_t length, piece;
  uint8_t hash[32];
  btcheck_file file;
  WANT(btcheck_root_finish(&s->root, &length, hash), BTCHECK_OK);
  WANT(btcheck_check_finish(&s->check, &piece), BTCHECK_OK);
  WANT(btcheck_session_file(&s->session, 0, &file), BTCHECK_OK);
  CHECK(length == file.length && !memcmp(hash, file.root, 32));
  uint8_t path[8], room[4096];
  snprintf((char *)path, sizeof path, "%07d", s->added++);
  WANT(btcheck_draft_add(&s->draft, &s->file, path, 7), BTCHECK_OK);
  if (s->added == 1) WANT(btcheck_draft_finish(&s->draft, room, sizeof room, &length), BTCHECK_OK);
}

static void empty(set *s) {
  btcheck_draft_file_free(&s->file);
  btcheck_draft_free(&s->draft);
  s->added = 0;
  btcheck_holdings_free(&s->holdings);
  btcheck_check_free(&s->check);
  btcheck_session_free(&s->session);
  btcheck_root_free(&s->root);
}

static void *one_step(void *given) {
  set *s = (set *)given;
  switch (s->step++) {
    case 0: fill(s); break;
    case 1: push(s, 0, content_len / 2); break;
    case 2: note(s); break;
    case 3: push(s, content_len / 2, content_len); break;
    case 4: finish(s); break;
    default: empty(s);
  }
  return NULL;
}

/* All threads at once, each time by the lock. */
static void *many_steps(void *given) {
  set *s = (set *)given;
  for (int round = 0; round < ROUNDS; round++) {
    pthread_mutex_lock(&lock);
    push(s, 0, content_len);
    note(s);
    finish(s);
    pthread_mutex_unlock(&lock);
  }
  return NULL;
}

static void in_threads(void *(*run)(void *), int apart) {
  pthread_t threads[SETS];
  for (int i = 0; i < SETS; i++) CHECK(!pthread_create(&threads[i], NULL, run, &sets[apart * i]));
  for (int i = 0; i < SETS; i++) CHECK(!pthread_join(threads[i], NULL));
}

int main(int argc, char **argv) {
  if (argc != 3) return 2;
  torrent_len = whole_file(argv[1], torrent, sizeof torrent);
  content_len = whole_file(argv[2], content, sizeof content);
  if (!torrent_len || !content_len) return 2;
  for (int step = 0; step < STEPS; step++) in_threads(one_step, 1);
  fill(&sets[0]);
  in_threads(many_steps, 0);
  empty(&sets[0]);
  return 0;
}
