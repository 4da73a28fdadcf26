/* What the test programs share. */
#ifndef WANT_H
#define WANT_H

#include <stdint.h>
#include <stdio.h>
#include <stdlib.h>
#include <string.h>

#define CHECK(fact) ((fact) ? (void)0 : (printf("%s:%d: %s\n", __FILE__, __LINE__, #fact), exit(1)))

#define WANT(call, status) want((call), (status), __FILE__, __LINE__)

static void want(unsigned got, unsigned wanted, const char *file, int line) {
  if (got == wanted) return;
  printf("%s:%d: status %u, not %u\n", file, line, got, wanted);
  exit(1);
}

/* Reads a file, and returns how many bytes it has. */
static size_t whole_file(const char *path, uint8_t *bytes, size_t room) {
  FILE *file = fopen(path, "rb");
  size_t len = file ? fread(bytes, 1, room, file) : 0;
  if (file) fclose(file);
  return len;
}

#endif
