/* Hands each piece of a torrent of one file to a session of the C library, and prints how many leaves are marked then. The
   content is mapped, so that what is measured is the library and not a copy.
   usage: pieces TORRENT CONTENT PIECE_LENGTH */
#include "btcheck.h"

#include <fcntl.h>
#include <stdio.h>
#include <stdlib.h>
#include <sys/mman.h>
#include <sys/stat.h>

int main(int argc, char **argv) {
  static uint8_t torrent[1 << 26];
  struct stat stat;
  FILE *in = argc == 4 ? fopen(argv[1], "rb") : NULL;
  int content = argc == 4 ? open(argv[2], O_RDONLY) : -1;
  if (!in || content < 0 || fstat(content, &stat)) return 2;
  size_t len = fread(torrent, 1, sizeof torrent, in), piece_length = (size_t)atol(argv[3]), left = (size_t)stat.st_size;
  const uint8_t *piece = mmap(NULL, left, PROT_READ, MAP_PRIVATE, content, 0);
  btcheck_session session = BTCHECK_INIT;
  if (piece == MAP_FAILED || btcheck_session_open(&session, torrent, len, true) != BTCHECK_OK) return 2;
  uint64_t file, block, known, marked;
  for (uint32_t index = 0; left > 0; index++) {
    size_t size = left < piece_length ? left : piece_length;
    if (btcheck_session_take_piece(&session, index, piece, size, &file, &block) != BTCHECK_OK) return 1;
    piece += size;
    left -= size;
  }
  if (btcheck_session_counts(&session, 0, &known, &marked) != BTCHECK_OK) return 2;
  printf("%llu\n", (unsigned long long)marked);
  btcheck_session_free(&session);
  return fclose(in) != 0;
}
