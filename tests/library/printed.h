/* The lines of `btcheck replay`, as the test programs that replay a record print them. */
#ifndef PRINTED_H
#define PRINTED_H

#include "btcheck.h"

#include <stdio.h>
#include <stdlib.h>

static const char *const hash_refusals[] = {"", "UnknownRoot", "BadRange", "BadCount", "BadPad", "Unanchored", "Mismatch", "NoMemory", "Unasked"};
static const char *const block_refusals[] = {"", "BadPlace", "BadSize", "Unproved", "BadBlock"};

static uint32_t number_at(const uint8_t *at) {
  return (uint32_t)at[0] << 24 | (uint32_t)at[1] << 16 | (uint32_t)at[2] << 8 | at[3];
}

/* A refusal of hashes or of blocks; false. */
static bool print_refusal(unsigned long frame, btcheck_status status) {
  if (status < BTCHECK_P1_BAD_PLACE) printf("%lu refused H%u %s\n", frame, (unsigned)status - 200, hash_refusals[status - 200]);
  else printf("%lu refused P%u %s\n", frame, (unsigned)status - 300, block_refusals[status - 300]);
  return false;
}

/* The file that is named for a tree: the one at hand if it has that tree, or the first that has it. */
static unsigned long long file_of(btcheck_session *session, uint64_t tree, uint64_t near) {
  btcheck_file file;
  if (near != UINT64_MAX && btcheck_session_file(session, near, &file) == BTCHECK_OK && file.tree == tree) return near;
  for (size_t number = 0; btcheck_session_file(session, number, &file) == BTCHECK_OK; number++)
    if (file.tree == tree) return number;
  return UINT64_MAX;
}

static void print_run(btcheck_session *session, unsigned long frame, const char *word, const btcheck_run *run, uint64_t near) {
  printf("%lu %s %llu %llu %llu\n", frame, word, file_of(session, run->tree, near), (unsigned long long)run->first,
         (unsigned long long)run->last);
}

/* The blocks of a message, and what gave way for them. Tells whether none was refused and nothing gave way. */
static bool print_blocks(btcheck_session *session, unsigned long frame, const btcheck_blocks *blocks, const btcheck_run *dropped) {
  bool all = true;
  for (unsigned entry = 0; entry < blocks->count; entry++) {
    unsigned long long file = blocks->file, block = blocks->first + entry;
    btcheck_status status = blocks->statuses[entry];
    if (dropped[entry].tree != UINT64_MAX) print_run(session, frame, "dropped", &dropped[entry], file), all = false;
    if (status == BTCHECK_OK) {
      printf("%lu verified %llu %llu\n", frame, file, block);
    } else if (status == BTCHECK_HELD) {
      printf("%lu held %llu %llu\n", frame, file, block);
    } else {
      printf("%lu refused P%u %s", frame, (unsigned)status - 300, block_refusals[status - 300]);
      if (blocks->count > 1) printf(" %llu %llu", file, block);
      puts("");
      all = false;
    }
  }
  return all;
}

/* What is settled, until there is nothing more. Tells whether nothing of it was false. */
static bool print_settled(btcheck_session *session, btcheck_holdings *holdings, unsigned long frame, uint64_t near) {
  btcheck_run run;
  bool all = true;
  for (btcheck_status status; (status = btcheck_session_settle(session, holdings, &run)) != BTCHECK_NOTHING;) {
    if (status != BTCHECK_OK && status != BTCHECK_BAD_PIECE) exit(2);
    print_run(session, frame, status == BTCHECK_OK ? "proved" : "false", &run, near);
    all = all && status == BTCHECK_OK;
  }
  return all;
}

#endif
