/* exchange serve TORRENT CONTENT pieces|blocks, exchange learn TORRENT: as exchange.py, over btcheck.h alone. */
#include <btcheck.h>

#include <stdio.h>
#include <stdlib.h>
#include <string.h>

enum { MOST_HASHES = 544, LARGEST = 49 + 32 * MOST_HASHES };

static btcheck_session session = BTCHECK_INIT;
static uint8_t body[LARGEST];

static void must(const char *what, int is) {
  if (!is) fprintf(stderr, "fault: %s\n", what), exit(2);
}

static uint8_t *put(uint8_t *to, uint32_t number) {
  for (int shift = 24; shift >= 0; shift -= 8) *to++ = (uint8_t)(number >> shift);
  return to;
}

static uint32_t number_at(const uint8_t *from) {
  return (uint32_t)from[0] << 24 | (uint32_t)from[1] << 16 | (uint32_t)from[2] << 8 | from[3];
}

/* Reads a frame into `body`, and gives its size; 0 at the end. */
static size_t next(void) {
  uint8_t size[4];
  if (fread(size, 1, 4, stdin) < 4) return 0;
  must("a large frame", number_at(size) <= LARGEST);
  must("a cut frame", fread(body, 1, number_at(size), stdin) == number_at(size));
  return number_at(size);
}

static void say(uint8_t kind, const btcheck_ask *ask, const uint8_t (*hashes)[32], size_t count) {
  uint8_t frame[53], *to = put(frame, (uint32_t)(49 + 32 * count));
  *to++ = kind;
  memcpy(to, ask->root, 32);
  put(put(put(put(to + 32, ask->base), ask->index), ask->length), ask->proof);
  must("write", fwrite(frame, 1, 53, stdout) == 53);
  must("write hashes", count == 0 || fwrite(hashes, 32, count, stdout) == count);
  must("flush", fflush(stdout) == 0);
}

/* A piece whose blocks come one by one: they are held, and then proved. */
static void hold(btcheck_holdings *holdings, uint32_t index, const uint8_t *piece, size_t size) {
  btcheck_held held;
  btcheck_run run;
  for (size_t begin = 0; begin < size; begin += BTCHECK_BLOCK) {
    size_t left = size - begin, len = left < BTCHECK_BLOCK ? left : BTCHECK_BLOCK;
    must("hold", btcheck_session_hold(&session, holdings, index, (uint32_t)begin, piece + begin, len, &held) == BTCHECK_OK);
  }
  btcheck_status status;
  while ((status = btcheck_session_settle(&session, holdings, &run)) == BTCHECK_OK) {}
  must("settle", status == BTCHECK_NOTHING);
}

static void take(const uint8_t *content, int by_blocks) {
  btcheck_holdings holdings = BTCHECK_INIT;
  uint64_t files, trees, length, place[2];
  must("holdings", btcheck_holdings_new(&holdings, &session, 0) == BTCHECK_OK);
  must("length", btcheck_session_piece_length(&session, &length) == BTCHECK_OK);
  must("files", btcheck_session_files(&session, &files, &trees) == BTCHECK_OK);
  for (uint64_t each = 0; each < files; each++) {
    btcheck_file file;
    must("file", btcheck_session_file(&session, each, &file) == BTCHECK_OK);
    for (uint64_t at = 0; at < file.length; at += length) {
      uint64_t left = file.length - at;
      uint32_t index = (uint32_t)(file.first_piece + at / length);
      size_t size = (size_t)(left < length ? left : length);
      if (by_blocks)
        hold(&holdings, index, content + at, size);
      else
        must("piece", btcheck_session_take_piece(&session, index, content + at, size, place, place + 1) == BTCHECK_OK);
    }
    content += file.length;
  }
  btcheck_holdings_free(&holdings);
}

static void serve(void) {
  static uint8_t room[MOST_HASHES][32];
  while (next()) {
    btcheck_ask ask = {{0}, number_at(body + 33), number_at(body + 37), number_at(body + 41), number_at(body + 45)};
    uint64_t count;
    memcpy(ask.root, body + 1, 32);
    int is_answered = btcheck_session_answer(&session, &ask, room, MOST_HASHES, &count) == BTCHECK_OK;
    say(is_answered ? 22 : 23, &ask, (const uint8_t(*)[32])room, is_answered ? (size_t)count : 0);
  }
}

static void learn(void) {
  uint64_t files, trees, asked = 0;
  must("files", btcheck_session_files(&session, &files, &trees) == BTCHECK_OK);
  for (uint64_t each = 0; each < files; each++) {
    btcheck_file file;
    btcheck_ask ask;
    btcheck_verdict verdict;
    must("file", btcheck_session_file(&session, each, &file) == BTCHECK_OK);
    for (uint64_t left = (file.length + BTCHECK_BLOCK - 1) / BTCHECK_BLOCK; left > 0; left--)
      while (btcheck_session_want(&session, file.tree, left - 1, &ask) == BTCHECK_OK) {
        say(21, &ask, NULL, 0);
        size_t size = next();
        must("an answer", btcheck_session_frame(&session, body, size, &verdict) == BTCHECK_OK && verdict.kind == BTCHECK_STORED);
        asked++;
      }
  }
  fprintf(stderr, "asked %llu\n", (unsigned long long)asked);
}

static uint8_t *whole(const char *path, size_t *len) {
  FILE *in = fopen(path, "rb");
  uint8_t *found = malloc(1 << 26);
  must(path, in && found);
  *len = fread(found, 1, 1 << 26, in);
  fclose(in);
  return found;
}

int main(int words, char **word) {
  must("usage: exchange serve TORRENT CONTENT pieces|blocks | learn TORRENT", words == 5 || words == 3);
  size_t len;
  uint8_t *torrent = whole(word[2], &len), *content = words == 5 ? whole(word[3], &(size_t){0}) : NULL;
  must("open", btcheck_session_open(&session, torrent, len, content != NULL) == BTCHECK_OK);
  if (content) {
    take(content, strcmp(word[4], "blocks") == 0);
    serve();
  } else {
    learn();
  }
  btcheck_session_free(&session);
  free(torrent);
  free(content);
  return 0;
}
