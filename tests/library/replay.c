/* Replays a record of form 1 through the C library, and prints what `btcheck replay` prints. A piece message is one block; with
   --pieces it may be several, at most BOUND blocks are held, and all is printed that `replay --pieces` prints.
   usage: replay [--info-only] [--pieces BOUND] TORRENT RECORD */
#include "printed.h"

#include <string.h>

enum { PIECE = 7, REQUEST = 21, HASHES = 22, REJECT = 23 };

static btcheck_holdings holdings = BTCHECK_INIT;
static bool holds;

static uint8_t *whole_file(const char *path, size_t *len) {
  FILE *file = fopen(path, "rb");
  size_t room = 1 << 16, got;
  uint8_t *bytes = file ? (uint8_t *)malloc(room) : NULL;
  *len = 0;
  while (bytes && (got = fread(bytes + *len, 1, room - *len, file)) > 0) {
    *len += got;
    if (*len == room) bytes = (uint8_t *)realloc(bytes, room *= 2);
  }
  if (file) fclose(file);
  return bytes;
}

/* Each tells whether the message was taken. */
static bool take_block(btcheck_session *session, const uint8_t *body, size_t len, unsigned long frame) {
  uint64_t file, block;
  btcheck_status status =
      btcheck_session_take_block(session, number_at(body + 1), number_at(body + 5), body + 9, len - 9, &file, &block);
  if (status == BTCHECK_OK) {
    printf("%lu verified %llu %llu\n", frame, (unsigned long long)file, (unsigned long long)block);
    return true;
  }
  return print_refusal(frame, status);
}

static bool take_hashes(btcheck_session *session, const uint8_t *body, size_t len, unsigned long frame) {
  uint64_t places;
  size_t count = (len - 49) / 32;
  uint8_t(*hashes)[32] = (uint8_t(*)[32])malloc(count * 32 + 1);
  memcpy(hashes, body + 49, count * 32);
  btcheck_status status = btcheck_session_take_hashes(session, body + 1, number_at(body + 33), number_at(body + 37), number_at(body + 41),
                                                      number_at(body + 45), (const uint8_t(*)[32])hashes, count, &places);
  free(hashes);
  if (status == BTCHECK_OK) {
    printf("%lu stored %llu\n", frame, (unsigned long long)places);
    return true;
  }
  return print_refusal(frame, status);
}

static bool hold(btcheck_session *session, const uint8_t *body, size_t len, unsigned long frame) {
  static btcheck_held held;
  btcheck_status status =
      btcheck_session_hold(session, &holdings, number_at(body + 1), number_at(body + 5), body + 9, len - 9, &held);
  if (status != BTCHECK_OK) return print_refusal(frame, status);
  bool all = print_blocks(session, frame, &held.blocks, held.dropped);
  return print_settled(session, &holdings, frame, held.blocks.file) && all;
}

/* What hashes make provable, after they were taken. */
static bool settle_tree(btcheck_session *session, const uint8_t root[32], unsigned long frame) {
  btcheck_file file;
  for (size_t number = 0; btcheck_session_file(session, number, &file) == BTCHECK_OK; number++) {
    if (file.tree == UINT64_MAX || memcmp(file.root, root, 32)) continue;
    if (btcheck_holdings_look_at(&holdings, file.tree) != BTCHECK_OK) exit(2);
    return print_settled(session, &holdings, frame, UINT64_MAX);
  }
  return true;
}

static void answer(btcheck_session *session, const uint8_t *body, unsigned long frame) {
  static uint8_t room[8224][32];
  uint64_t count;
  btcheck_ask ask;
  memcpy(ask.root, body + 1, 32);
  ask.base = number_at(body + 33);
  ask.index = number_at(body + 37);
  ask.length = number_at(body + 41);
  ask.proof = number_at(body + 45);
  printf("%lu %s\n", frame, btcheck_session_answer(session, &ask, room, 8224, &count) == BTCHECK_OK ? "answered" : "rejected");
}

/* Takes one message, and tells whether it was taken. */
static bool take(btcheck_session *session, const uint8_t *body, size_t len, unsigned long frame) {
  if (len == 0) {
    printf("%lu keep-alive\n", frame);
  } else if (body[0] == PIECE) {
    return (holds ? hold : take_block)(session, body, len, frame);
  } else if (body[0] == HASHES) {
    bool is_taken = take_hashes(session, body, len, frame);
    return is_taken && holds ? settle_tree(session, body + 1, frame) : is_taken;
  } else if (body[0] == REQUEST) {
    answer(session, body, frame);
  } else if (body[0] == REJECT) {
    printf("%lu reject noted\n", frame);
  } else {
    printf("%lu skipped %u\n", frame, body[0]);
  }
  return true;
}

int main(int argc, char **argv) {
  bool layers = true, refused = false;
  uint64_t held = 0, bound = 0;
  if (argc > 1 && !strcmp(argv[1], "--info-only")) layers = false, argc--, argv++;
  if (argc > 2 && !strcmp(argv[1], "--pieces")) holds = true, bound = strtoull(argv[2], NULL, 10), argc -= 2, argv += 2;
  if (argc != 3) return 2;
  size_t len, size, at = 0, count = 0;
  uint8_t *torrent = whole_file(argv[1], &len), *record = whole_file(argv[2], &size);
  if (!torrent || !record) return 2;
  btcheck_session session = BTCHECK_INIT;
  btcheck_status status = btcheck_session_open(&session, torrent, len, layers);
  if (status != BTCHECK_OK) return 2;
  if (holds && btcheck_holdings_new(&holdings, &session, bound) != BTCHECK_OK) return 2;
  for (unsigned long frame = 1; at + 4 <= size && at + 4 + (count = number_at(record + at)) <= size; frame++) {
    if (!take(&session, record + at + 4, count, frame)) refused = true;
    at += 4 + count;
  }
  if (holds && btcheck_session_held(&holdings, &held) != BTCHECK_OK) return 2;
  if (held) printf("held %llu\n", (unsigned long long)held);
  puts(at == size ? "end" : "fault Truncated");
  btcheck_holdings_free(&holdings);
  btcheck_session_free(&session);
  free(torrent);
  free(record);
  return at == size ? refused || held : 2;
}
