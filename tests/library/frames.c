/* Passes a recorded talk of peers to the library as it came, frame by frame, and prints what `btcheck replay --pieces` prints.
   In a record of form 2 requests that went out are noted, and hashes must answer one.
   usage: frames [--info-only] BOUND TORRENT RECORD */
#include "printed.h"
#include "want.h"

enum { REQUEST = 21, IN = 0 };

static const uint8_t form_2[8] = {255, 255, 255, 255, 'B', 'T', 'H', '2'};

static uint8_t torrent[1 << 21], record[1 << 24];
static btcheck_session session = BTCHECK_INIT;
static btcheck_holdings holdings = BTCHECK_INIT;

/* A request has the five fields that answering takes. */
static void answer(const btcheck_ask *ask, btcheck_status wanted) {
  static uint8_t room[8224][32];
  uint64_t count;
  WANT(btcheck_session_answer(&session, ask, room, 8224, &count), wanted);
}

/* Each tells whether nothing was refused. */
static bool print_taken(const btcheck_taken *taken, unsigned long number) {
  const btcheck_verdict *verdict = &taken->verdict;
  switch (verdict->kind) {
    case BTCHECK_BLOCKS: return print_blocks(&session, number, &verdict->blocks, taken->dropped);
    case BTCHECK_STORED: return printf("%lu stored %llu\n", number, (unsigned long long)verdict->places) > 0;
    case BTCHECK_ANSWERED: answer(&taken->ask, BTCHECK_OK); return printf("%lu answered\n", number) > 0;
    case BTCHECK_REJECTED: answer(&taken->ask, BTCHECK_NOTHING); return printf("%lu rejected\n", number) > 0;
    case BTCHECK_REJECT_NOTED: return printf("%lu reject noted\n", number) > 0;
    case BTCHECK_KEEP_ALIVE: return printf("%lu keep-alive\n", number) > 0;
    default: return printf("%lu skipped %u\n", number, (unsigned)verdict->id) > 0;
  }
}

static bool came(const uint8_t *frame, size_t len, bool asked, unsigned long number) {
  static btcheck_taken taken;
  btcheck_status status = btcheck_session_hold_frame(&session, &holdings, frame, len, asked, &taken);
  if (status == BTCHECK_BAD_SIZE) return printf("%lu bad frame %u %u\n", number, frame[4], (unsigned)len - 4) < 0;
  if (status != BTCHECK_OK) return print_refusal(number, status);
  bool all = print_taken(&taken, number);
  return print_settled(&session, &holdings, number, taken.verdict.kind == BTCHECK_BLOCKS ? taken.verdict.blocks.file : UINT64_MAX) && all;
}

/* What went out is noted if it is a request: a taken frame of one has its fields. */
static bool went(const uint8_t *frame, size_t len, unsigned long number) {
  static btcheck_taken taken;
  if (len > 4 && frame[4] == REQUEST) {
    WANT(btcheck_session_take_frame(&session, frame, len, true, &taken), BTCHECK_OK);
    WANT(btcheck_session_note(&session, &taken.ask), BTCHECK_OK);
  }
  return printf("%lu sent%s\n", number, len > 4 && frame[4] == REQUEST ? " request" : "") > 0;
}

int main(int argc, char **argv) {
  bool layers = argc == 4, refused = false;
  if (argc != 4 && (argc != 5 || strcmp(argv[1], "--info-only"))) return 2;
  argv += argc - 4;
  size_t len = whole_file(argv[2], torrent, sizeof torrent), size = whole_file(argv[3], record, sizeof record), count = 0;
  bool directed = size >= sizeof form_2 && !memcmp(record, form_2, sizeof form_2);
  size_t at = directed ? sizeof form_2 : 0;
  uint64_t held;
  WANT(btcheck_session_open(&session, torrent, len, layers), BTCHECK_OK);
  WANT(btcheck_holdings_new(&holdings, &session, strtoull(argv[1], NULL, 10)), BTCHECK_OK);
  for (unsigned long number = 1; at < size; number++, at += count) {
    const uint8_t *frame = record + at + directed;
    if (size - at < 4u + directed || (count = directed + 4 + (size_t)number_at(frame)) > size - at) break;
    bool is_in = !directed || record[at] == IN;
    if (!(is_in ? came(frame, count - directed, directed, number) : went(frame, count - directed, number))) refused = true;
  }
  WANT(btcheck_session_held(&holdings, &held), BTCHECK_OK);
  if (held) printf("held %llu\n", (unsigned long long)held);
  puts(at == size ? "end" : "fault Truncated");
  btcheck_holdings_free(&holdings);
  btcheck_session_free(&session);
  return at == size ? refused || held : 2;
}
