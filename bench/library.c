/* Hands the hashes messages and the blocks of a record of form 1 to a session of the C library, with the roots alone at
   first, and prints how many blocks were verified and how many places became known.
   usage: library TORRENT RECORD */
#include "btcheck.h"

#include <stdio.h>
#include <stdlib.h>
#include <string.h>

enum { PIECE = 7, HASHES = 22, LARGEST = 1 << 20 };

static uint32_t number_at(const uint8_t *at) {
  return (uint32_t)at[0] << 24 | (uint32_t)at[1] << 16 | (uint32_t)at[2] << 8 | at[3];
}

static uint8_t *whole_file(const char *path, size_t *len) {
  FILE *file = fopen(path, "rb");
  if (!file || fseek(file, 0, SEEK_END)) exit(2);
  *len = (size_t)ftell(file);
  rewind(file);
  uint8_t *bytes = malloc(*len + 1);
  if (!bytes || fread(bytes, 1, *len, file) != *len) exit(2);
  fclose(file);
  return bytes;
}

static uint64_t verified, stored;

static void take_blocks(btcheck_session *session, const uint8_t *body, size_t len) {
  uint64_t file, block;
  for (size_t at = 9; at < len; at += BTCHECK_BLOCK) {
    size_t part = len - at < BTCHECK_BLOCK ? len - at : BTCHECK_BLOCK;
    uint32_t begin = number_at(body + 5) + (uint32_t)(at - 9);
    if (btcheck_session_take_block(session, number_at(body + 1), begin, body + at, part, &file, &block) == BTCHECK_OK) verified++;
  }
}

static void take_hashes(btcheck_session *session, const uint8_t *body, size_t len) {
  uint64_t places;
  if (btcheck_session_take_hashes(session, body + 1, number_at(body + 33), number_at(body + 37), number_at(body + 41),
                                  number_at(body + 45), (const uint8_t(*)[32])(body + 49), (len - 49) / 32,
                                  &places) == BTCHECK_OK)
    stored += places;
}

int main(int argc, char **argv) {
  static uint8_t body[LARGEST];
  uint8_t head[4];
  size_t len, size;
  FILE *record = argc == 3 ? fopen(argv[2], "rb") : NULL;
  if (!record) return 2;
  uint8_t *torrent = whole_file(argv[1], &len);
  btcheck_session session = BTCHECK_INIT;
  if (btcheck_session_open(&session, torrent, len, false) != BTCHECK_OK) return 2;
  while (fread(head, 1, 4, record) == 4) {
    size = number_at(head);
    if (size > LARGEST || fread(body, 1, size, record) != size) return 2;
    if (size > 9 && body[0] == PIECE) take_blocks(&session, body, size);
    if (size >= 49 && body[0] == HASHES) take_hashes(&session, body, size);
  }
  printf("%llu %llu\n", (unsigned long long)verified, (unsigned long long)stored);
  btcheck_session_free(&session);
  free(torrent);
  return 0;
}
