/* client TORRENT OUT SEED PORT PORT: as client.py, over btcheck.h alone. */
#include <btcheck.h>

#include <arpa/inet.h>
#include <stdio.h>
#include <stdlib.h>
#include <string.h>
#include <sys/socket.h>
#include <unistd.h>

enum { MOST_HASHES = 600, LARGEST = 49 + 32 * MOST_HASHES };

/* A block: where it stands in OUT and in its file, its size, its file's first piece, and its tree. */
struct block {
  uint64_t before, at, size, first_piece, tree;
};

static btcheck_session session = BTCHECK_INIT;
static int peers[2];
static unsigned of_hashes, of_blocks;
static uint8_t body[4 + LARGEST];

static void must(const char *what, int is) {
  if (!is) fprintf(stderr, "fault: %s\n", what), exit(2);
}

static uint8_t *put(uint8_t *to, uint32_t number) {
  for (int shift = 24; shift >= 0; shift -= 8) *to++ = (uint8_t)(number >> shift);
  return to;
}

static uint32_t number_at(const uint8_t *from) {
  return (uint32_t)from[0] << 24 | (uint32_t)from[1] << 16 | (uint32_t)from[2] << 8 | from[3];
}

static void read_all(int peer, uint8_t *to, size_t size) {
  must("recv", size == 0 || recv(peer, to, size, MSG_WAITALL) == (ssize_t)size);
}

/* A connection to a peer, after both handshakes. */
static int connected(const char *port, const uint8_t info_hash[32]) {
  struct sockaddr_in there = {0};
  uint8_t ours[68] = "\x13" "BitTorrent protocol", theirs[68];
  int peer = socket(AF_INET, SOCK_STREAM, 0);
  there.sin_family = AF_INET;
  there.sin_addr.s_addr = htonl(INADDR_LOOPBACK);
  there.sin_port = htons((uint16_t)atoi(port));
  must("connect", connect(peer, (struct sockaddr *)&there, sizeof there) == 0);
  memcpy(ours + 28, info_hash, 20);
  must("send", send(peer, ours, sizeof ours, 0) == sizeof ours);
  read_all(peer, theirs, sizeof theirs);
  must("handshake", memcmp(theirs + 28, info_hash, 20) == 0);
  return peer;
}

/* Sends a message, and waits for one of this kind, whose body has room in `body`. Gives its size. */
static size_t answer(int peer, const uint8_t *frame, size_t size, uint8_t kind) {
  must("send", send(peer, frame, size, 0) == (ssize_t)size);
  for (;;) {
    uint8_t length[4];
    read_all(peer, length, 4);
    must("a large frame", number_at(length) <= LARGEST);
    read_all(peer, body, number_at(length));
    if (number_at(length) > 0 && body[0] == kind) return number_at(length);
  }
}

/* Learns the leaf of a block. */
static void learn(int from, uint64_t tree, uint64_t block) {
  btcheck_ask ask;
  static uint8_t hashes[MOST_HASHES][32];
  while (btcheck_session_want(&session, tree, block, &ask) == BTCHECK_OK) {
    uint8_t frame[53], *to = put(frame, 49);
    uint64_t places;
    must("note", btcheck_session_note(&session, &ask) == BTCHECK_OK);
    *to++ = 21;
    memcpy(to, ask.root, 32);
    put(put(put(put(to + 32, ask.base), ask.index), ask.length), ask.proof);
    size_t size = answer(peers[from], frame, sizeof frame, 22), count = (size - 49) / 32;
    must("another answer", memcmp(body + 1, frame + 5, 48) == 0);
    memcpy(hashes, body + 49, 32 * count);
    btcheck_status status = btcheck_session_take_answer(&session, &ask, (const uint8_t(*)[32])hashes, count, &places);
    if (status != BTCHECK_OK) of_hashes++, from ^= 1;
  }
}

/* Loads a block into the end of `body`, and gives it. */
static const uint8_t *load(int from, uint32_t index, uint32_t begin, uint32_t size) {
  uint8_t frame[17];
  uint64_t file, number;
  put(frame, 13), frame[4] = 6;
  put(put(put(frame + 5, index), begin), size);
  for (;;) {
    size_t length = answer(peers[from], frame, sizeof frame, 7) - 9;
    if (btcheck_session_take_block(&session, index, begin, body + 9, length, &file, &number) == BTCHECK_OK) return body + 9;
    of_blocks++, from ^= 1;
  }
}

/* The blocks of all files, and how many they are. */
static struct block *blocks(size_t *count) {
  uint64_t files, trees, before = 0;
  struct block *found = NULL;
  must("files", btcheck_session_files(&session, &files, &trees) == BTCHECK_OK);
  for (uint64_t each = 0; each < files; each++) {
    btcheck_file file;
    must("file", btcheck_session_file(&session, each, &file) == BTCHECK_OK);
    for (uint64_t at = 0; at < file.length; at += BTCHECK_BLOCK) {
      uint64_t left = file.length - at;
      struct block it = {before, at, left < BTCHECK_BLOCK ? left : BTCHECK_BLOCK, file.first_piece, file.tree};
      found = realloc(found, (*count + 1) * sizeof it);
      must("memory", found != NULL);
      found[(*count)++] = it;
    }
    before += file.length;
  }
  return found;
}

int main(int words, char **word) {
  static uint8_t torrent[1 << 20], info_hash[32], v1[20];
  FILE *in = fopen(word[1], "rb"), *out = fopen(word[2], "wb");
  must("usage: client TORRENT OUT SEED PORT PORT", words == 6 && in && out);
  size_t len = fread(torrent, 1, sizeof torrent, in), count = 0, verified = 0;
  btcheck_status status = btcheck_session_open(&session, torrent, len, true);
  if (status != BTCHECK_OK) must(btcheck_status_text(status), 0);
  uint64_t length;
  must("length", btcheck_session_piece_length(&session, &length) == BTCHECK_OK);
  btcheck_session_info_hashes(&session, info_hash, v1);
  for (int each = 0; each < 2; each++) peers[each] = connected(word[4 + each], info_hash);
  struct block *order = blocks(&count);
  srand((unsigned)atoi(word[3]));
  for (size_t left = count; left > 0; left--) {
    size_t drawn = (size_t)rand() % left;
    struct block it = order[drawn];
    order[drawn] = order[left - 1];
    int from = rand() % 2;
    learn(from, it.tree, it.at / BTCHECK_BLOCK);
    const uint8_t *block = load(from, (uint32_t)(it.first_piece + it.at / length), (uint32_t)(it.at % length), (uint32_t)it.size);
    verified += btcheck_session_is_marked(&session, it.tree, it.at / BTCHECK_BLOCK) == BTCHECK_OK;
    must("write", fseek(out, (long)(it.before + it.at), SEEK_SET) == 0 && fwrite(block, 1, it.size, out) == it.size);
  }
  printf("verified %zu of %zu, refused %u hashes and %u blocks\n", verified, count, of_hashes, of_blocks);
  free(order);
  btcheck_session_free(&session);
  return fclose(in) || fclose(out);
}
