/*
 * btcheck.h - BitTorrent version 2 hash trees, checked by proved code.
 *
 * A session of a torrent takes the hashes messages and the blocks that peers
 * send, and says which blocks are the torrent's own. The root of a file is
 * computed from its bytes in parts of any size. docs/LIBRARY.md has a first
 * program; docs/CLAUSES.md says what is proved of each call.
 *
 * Handles. A handle is a small struct of the caller's. Zero bytes are a handle
 * that holds nothing: begin with BTCHECK_INIT. Its fields belong to the
 * library: do not read, change or copy them. A call named ..._free empties a
 * handle; it may be called on an empty one, and twice. A call that takes a
 * pointer to a const handle only reads what that holds; it may write to the
 * handle meanwhile and back, so define no handle as const.
 *
 * Threads. Different handles may be used by different threads at once. No call
 * comes in the forked child of a process that has threads. Calls
 * on one handle, also those that only read, must not overlap. A handle may move
 * to another thread by a lock, or by the start or the end of a thread.
 *
 * Memory. Blocks come from malloc, realloc and free. No call aborts, exits,
 * prints, waits or opens anything. A call that is refused changes nothing. What
 * it would write through a pointer it writes only at BTCHECK_OK, or where it
 * says so. Of a room or a struct it writes what it names, and no more. A call
 * needs less than 64 KiB of stack.
 *
 * Costs. Nearly all that a call costs is hashing: of a block, of a piece, of the pairs of a hashes
 * message. Only btcheck_session_open and btcheck_session_bitfield take longer where the torrent is larger, and so
 * do btcheck_draft_finish and btcheck_draft_add where the draft is. Pushes of a root or a
 * check may be short: a handle keeps their bytes until eight blocks of them are hashed side by side,
 * in 128 KiB of room that the call named ..._new takes. Only a piece whose bit is due is not kept:
 * with btcheck_check_push_bits, pieces of less than 128 KiB are hashed faster in pushes of that much.
 *
 * Pointers. No pointer may be null, also with a length of 0, and what the
 * pointers of one call lead to must not overlap.
 */
#ifndef BTCHECK_H
#define BTCHECK_H

#include <stdbool.h>
#include <stddef.h>
#include <stdint.h>

#ifdef __cplusplus
extern "C" {
#endif

/* What each call returns that may be refused. */
typedef uint32_t btcheck_status;

enum {
  BTCHECK_OK = 0,
  BTCHECK_WRONG_HANDLE = 1, /* it holds nothing or something else; for new and open: it is full */
  BTCHECK_NO_MEMORY = 2,
  BTCHECK_TOO_LONG = 3,  /* more than 2^46 bytes, or than the file or the frame has; or a body of 2^32 or more */
  BTCHECK_NO_ROOT = 4,   /* an empty file has none */
  BTCHECK_NO_SUCH = 5,   /* no such tree, block or file */
  BTCHECK_NOTHING = 6,   /* nothing to ask for, to answer with or to export, or not marked */
  BTCHECK_TOO_SMALL = 7, /* the caller's room has too few places */
  BTCHECK_BAD_SIZE = 8,  /* a message of id 7, 21, 22 or 23 has a wrong size */
  BTCHECK_TOO_SHORT = 9, /* bytes of the file or of the frame are still to come */
  BTCHECK_BAD_PIECE = 10, /* a piece is not the torrent's, or blocks that were held are not */
  BTCHECK_HELD = 11,      /* of one block alone: its digest is held until the block can be proved */

  /* Refusals of a torrent: 100 and the number that `btcheck show` prints. */
  BTCHECK_TORRENT_TOO_LARGE = 101,
  BTCHECK_TORRENT_NOT_BENCODE = 102,
  BTCHECK_TORRENT_MISSING = 103,
  BTCHECK_TORRENT_WRONG_TYPE = 104,
  BTCHECK_TORRENT_VERSION = 105,
  BTCHECK_TORRENT_PIECE_LENGTH = 106,
  BTCHECK_TORRENT_SHAPE = 107,
  BTCHECK_TORRENT_PATH = 108,
  BTCHECK_TORRENT_SYMLINK = 109,
  BTCHECK_TORRENT_LENGTH = 110,
  BTCHECK_TORRENT_ROOT = 111,
  BTCHECK_TORRENT_ROOT_REUSED = 112,
  BTCHECK_TORRENT_NO_FILES = 113,
  BTCHECK_TORRENT_TOO_MANY_PIECES = 114,
  BTCHECK_TORRENT_LAYER_MISSING = 115,
  BTCHECK_TORRENT_LAYER_SIZE = 116,
  BTCHECK_TORRENT_LAYER_MISMATCH = 117,
  BTCHECK_TORRENT_HYBRID_FILES = 118,
  BTCHECK_TORRENT_HYBRID_ALIGN = 119,
  BTCHECK_TORRENT_HYBRID_PIECES = 120,
  BTCHECK_TORRENT_NO_MEMORY = 121,
  BTCHECK_TORRENT_PATH_CLASH = 122, /* of a draft alone */

  /* Refusals of a hashes message: 200 and n of Hn. */
  BTCHECK_H1_UNKNOWN_ROOT = 201,
  BTCHECK_H2_BAD_RANGE = 202,
  BTCHECK_H3_BAD_COUNT = 203,
  BTCHECK_H4_BAD_PAD = 204,
  BTCHECK_H5_UNANCHORED = 205,
  BTCHECK_H6_MISMATCH = 206,
  BTCHECK_H7_NO_MEMORY = 207,
  BTCHECK_H8_UNASKED = 208,

  /* Refusals of a block: 300 and n of Pn. */
  BTCHECK_P1_BAD_PLACE = 301,
  BTCHECK_P2_BAD_SIZE = 302,
  BTCHECK_P3_UNPROVED = 303,
  BTCHECK_P4_BAD_BLOCK = 304
};

/* What a status says, as a sentence in English without its number; never null. It is in this header
   alone: the library has no such symbol. */
static inline const char *btcheck_status_text(btcheck_status status) {
  switch (status) {
    case BTCHECK_OK: return "The call did what it says.";
    case BTCHECK_WRONG_HANDLE:
      return "The handle holds nothing, or something of another kind; or it is full where it should be empty.";
    case BTCHECK_NO_MEMORY: return "Memory was refused.";
    case BTCHECK_TOO_LONG:
      return "There are more than 2^46 bytes, more than the file, its pieces or the frame have, or 2^32 or more in a body.";
    case BTCHECK_NO_ROOT: return "An empty file has no root.";
    case BTCHECK_NO_SUCH: return "The torrent has no such tree, block, file or piece.";
    case BTCHECK_NOTHING: return "There is nothing to ask for or to answer with, or the block is not marked.";
    case BTCHECK_TOO_SMALL: return "The room is too small.";
    case BTCHECK_BAD_SIZE: return "A message of id 7, 21, 22 or 23 has a wrong size.";
    case BTCHECK_TOO_SHORT: return "Bytes of the file, of its pieces or of the frame are still to come.";
    case BTCHECK_BAD_PIECE: return "A piece is not the torrent's.";
    case BTCHECK_HELD: return "The block is held until its hash is known.";
    case BTCHECK_TORRENT_TOO_LARGE: return "The torrent file has more than 67,108,864 bytes.";
    case BTCHECK_TORRENT_NOT_BENCODE: return "The bytes are not canonical bencoding.";
    case BTCHECK_TORRENT_MISSING: return "A key of the torrent is missing.";
    case BTCHECK_TORRENT_WRONG_TYPE: return "A value of the torrent is of another kind.";
    case BTCHECK_TORRENT_VERSION: return "The meta version is not 2.";
    case BTCHECK_TORRENT_PIECE_LENGTH: return "The piece length is not a power of two from 16,384 to 2^30.";
    case BTCHECK_TORRENT_SHAPE: return "The file tree has a wrong shape.";
    case BTCHECK_TORRENT_PATH: return "A component of a path is ., .. or not UTF-8, or has a / or a zero byte.";
    case BTCHECK_TORRENT_SYMLINK: return "A file is a symlink.";
    case BTCHECK_TORRENT_LENGTH: return "The length of a file is missing, no integer, below 0 or above 2^46.";
    case BTCHECK_TORRENT_ROOT: return "The root of a file is missing, or has not 32 bytes.";
    case BTCHECK_TORRENT_ROOT_REUSED: return "Two files have one root and different lengths.";
    case BTCHECK_TORRENT_NO_FILES: return "There is no file.";
    case BTCHECK_TORRENT_TOO_MANY_PIECES: return "The files have more than 2^32 - 1 pieces.";
    case BTCHECK_TORRENT_LAYER_MISSING: return "A file longer than a piece has no piece layer.";
    case BTCHECK_TORRENT_LAYER_SIZE: return "A piece layer has not one hash for each piece.";
    case BTCHECK_TORRENT_LAYER_MISMATCH: return "The tree over a piece layer has another root.";
    case BTCHECK_TORRENT_HYBRID_FILES: return "The version 1 list is malformed, or is not that of the file tree.";
    case BTCHECK_TORRENT_HYBRID_ALIGN: return "A file is not at its place in the version 1 stream.";
    case BTCHECK_TORRENT_HYBRID_PIECES: return "The version 1 digests are not one for each piece of the stream.";
    case BTCHECK_TORRENT_NO_MEMORY: return "Memory for the torrent was refused.";
    case BTCHECK_TORRENT_PATH_CLASH: return "The path is there already, or one of two paths is a prefix of the other.";
    case BTCHECK_H1_UNKNOWN_ROOT: return "No tree of the torrent has this root.";
    case BTCHECK_H2_BAD_RANGE: return "The hashes are for no range of the tree.";
    case BTCHECK_H3_BAD_COUNT: return "The number of hashes is wrong.";
    case BTCHECK_H4_BAD_PAD: return "A hash past the end of the file is not the one over pads.";
    case BTCHECK_H5_UNANCHORED: return "The hashes lead to no known node.";
    case BTCHECK_H6_MISMATCH: return "A hash differs from a known one.";
    case BTCHECK_H7_NO_MEMORY: return "Memory for the hashes was refused.";
    case BTCHECK_H8_UNASKED: return "Nobody asked for the hashes.";
    case BTCHECK_P1_BAD_PLACE: return "No block or piece lies there.";
    case BTCHECK_P2_BAD_SIZE: return "The bytes are not as many as the block or the piece has.";
    case BTCHECK_P3_UNPROVED: return "The hash that covers the block or the piece is not known yet.";
    case BTCHECK_P4_BAD_BLOCK: return "The bytes are not that block or piece of the torrent.";
    default: return "An unknown status.";
  }
}

/* The version of this header: a byte for each of its three numbers, here 1.1.0. */
#define BTCHECK_VERSION 0x010100

/* The version of the library that is linked, in the same form. */
uint32_t btcheck_version(void);

/* Bytes of a version as text, with the zero byte at its end. */
#define BTCHECK_VERSION_TEXT 12

/* The version of the library that is linked as text, "1.1.0" say: writes it with its zero byte, and
   returns where it stands. It is in this header alone. */
static inline const char *btcheck_version_text(char text[BTCHECK_VERSION_TEXT]) {
  uint32_t version = btcheck_version();
  char *end = text;
  for (int shift = 16; shift >= 0; shift -= 8) {
    unsigned number = (version >> shift) & 255;
    if (number > 99) *end++ = (char)('0' + number / 100);
    if (number > 9) *end++ = (char)('0' + number / 10 % 10);
    *end++ = (char)('0' + number % 10);
    *end++ = shift > 0 ? '.' : '\0';
  }
  return text;
}

/* Bytes of a block that is not its file's last, and of a hash. */
#define BTCHECK_BLOCK 16384
#define BTCHECK_HASH 32

/* Hashes as calls take them: of 32 bytes each, one behind the other, from a pointer to them of any
   type, as uint8_t * or uint8_t (*)[32], without a warning. */
#define BTCHECK_HASHES(hashes) ((const uint8_t(*)[BTCHECK_HASH])(hashes))

/* Handles: of the builder of a root, of a session, of the check of a file, of what is held beside a
   session, of the draft of a torrent, and of a file for one. */
typedef struct btcheck_root {
  bool full;
  void *at;
} btcheck_root;
typedef struct btcheck_session {
  bool full;
  void *at;
} btcheck_session;
typedef struct btcheck_check {
  bool full;
  void *at;
} btcheck_check;
typedef struct btcheck_holdings {
  bool full;
  void *at;
} btcheck_holdings;
typedef struct btcheck_draft {
  bool full;
  void *at;
} btcheck_draft;
typedef struct btcheck_draft_file {
  bool full;
  void *at;
} btcheck_draft_file;

#ifdef __cplusplus
#define BTCHECK_INIT {}
#else
#define BTCHECK_INIT {0}
#endif

/* ---- the root of a file (BEP 52, "pieces root") */

/* A builder that was given nothing, in an empty handle. No later call on it takes memory. */
btcheck_status btcheck_root_new(btcheck_root *root);

/* The file's next bytes, in parts of any size. BTCHECK_TOO_LONG: past 2^46, and nothing was taken. */
btcheck_status btcheck_root_push(btcheck_root *root, const uint8_t *bytes, size_t len);

/* Length and root of what was pushed; the builder begins anew. BTCHECK_NO_ROOT:
   nothing was pushed. */
btcheck_status btcheck_root_finish(btcheck_root *root, uint64_t *length, uint8_t hash[32]);

void btcheck_root_free(btcheck_root *root);

/* ---- the session of a torrent */

/* Opens a torrent file of version 2 in an empty handle. The bytes must stay
   unchanged until the handle is freed. With layers the session begins with the
   torrent's piece layers, else with the roots alone. */
btcheck_status btcheck_session_open(btcheck_session *session, const uint8_t *torrent, size_t len,
                                    bool layers);

/* What the first fault of bytes is that are no canonical bencoding (BEP 3). */
enum {
  BTCHECK_FAULT_TRUNCATED = 1,     /* the bytes end inside an item, or where one is due */
  BTCHECK_FAULT_BAD_START = 2,     /* no value begins with this byte, or no key does */
  BTCHECK_FAULT_BAD_INTEGER = 3,   /* an integer is not in its one form */
  BTCHECK_FAULT_INTEGER_RANGE = 4, /* an integer does not fit 64 bits */
  BTCHECK_FAULT_BAD_LENGTH = 5,    /* the length of a byte string is not in its one form */
  BTCHECK_FAULT_KEY_ORDER = 6,     /* a key is not above the key before it */
  BTCHECK_FAULT_TRAILING = 7,      /* bytes follow the top value */
  BTCHECK_FAULT_TOO_DEEP = 8       /* a list or dictionary begins while 128 are open */
};

/* A key of a torrent file, which a refusal is about. */
enum {
  BTCHECK_KEY_TOP = 1, /* no key: the top value itself */
  BTCHECK_KEY_INFO = 2,
  BTCHECK_KEY_META_VERSION = 3,
  BTCHECK_KEY_FILE_TREE = 4,
  BTCHECK_KEY_NAME = 5,
  BTCHECK_KEY_PIECE_LENGTH = 6,
  BTCHECK_KEY_PIECE_LAYERS = 7
};

/* What a refusal of a torrent has beside its status. */
typedef struct btcheck_refusal {
  uint64_t offset; /* of a fault: where the failing item begins, in bytes */
  uint32_t fault;  /* of BTCHECK_TORRENT_NOT_BENCODE: the kind of the fault; else 0 */
  uint32_t key;    /* of BTCHECK_TORRENT_MISSING and _WRONG_TYPE: the key; else 0 */
} btcheck_refusal;

/* As btcheck_session_open, and writes what a refusal has: at each status, zeros where there is
   neither a fault nor a key. */
btcheck_status btcheck_session_open_explained(btcheck_session *session, const uint8_t *torrent,
                                              size_t len, bool layers, btcheck_refusal *refusal);

/* The name of a kind of fault, as `btcheck show` prints it; never null. As btcheck_status_text, it is
   in this header alone. */
static inline const char *btcheck_fault_text(uint32_t fault) {
  switch (fault) {
    case BTCHECK_FAULT_TRUNCATED: return "Truncated";
    case BTCHECK_FAULT_BAD_START: return "BadStart";
    case BTCHECK_FAULT_BAD_INTEGER: return "BadInteger";
    case BTCHECK_FAULT_INTEGER_RANGE: return "IntegerRange";
    case BTCHECK_FAULT_BAD_LENGTH: return "BadLength";
    case BTCHECK_FAULT_KEY_ORDER: return "KeyOrder";
    case BTCHECK_FAULT_TRAILING: return "Trailing";
    case BTCHECK_FAULT_TOO_DEEP: return "TooDeep";
    default: return "no fault";
  }
}

/* A key as a torrent file spells it, and `top` for the top value; never null. */
static inline const char *btcheck_key_text(uint32_t key) {
  switch (key) {
    case BTCHECK_KEY_TOP: return "top";
    case BTCHECK_KEY_INFO: return "info";
    case BTCHECK_KEY_META_VERSION: return "meta version";
    case BTCHECK_KEY_FILE_TREE: return "file tree";
    case BTCHECK_KEY_NAME: return "name";
    case BTCHECK_KEY_PIECE_LENGTH: return "piece length";
    case BTCHECK_KEY_PIECE_LAYERS: return "piece layers";
    default: return "no key";
  }
}

void btcheck_session_free(btcheck_session *session);

/* How many files and how many trees the torrent has. Trees are its distinct roots, numbered from 0
   in the order of first use. */
btcheck_status btcheck_session_files(const btcheck_session *session, uint64_t *files, uint64_t *trees);

/* A file of a torrent. */
typedef struct btcheck_file {
  uint64_t length;      /* in bytes */
  uint64_t first_piece; /* the piece at which it begins; if it is empty, the next file's */
  uint64_t tree;        /* the number of its tree; if it is empty, UINT64_MAX: it has none */
  uint8_t root[32];     /* its root; if it is empty, zeros */
} btcheck_file;

/* File `number`, from 0, in the order of the torrent. BTCHECK_NO_SUCH: there are fewer. */
btcheck_status btcheck_session_file(const btcheck_session *session, size_t number, btcheck_file *file);

/* A file's path at the front of the room, its components joined by `/`, without a zero byte, and how
   many bytes it has. It leads to no place outside the folder in which it is looked up.
   BTCHECK_TOO_SMALL: `length` is how many bytes the room must have, and nothing goes there. */
btcheck_status btcheck_session_path(const btcheck_session *session, size_t number, uint8_t *room,
                                    size_t size, uint64_t *length);

/* The torrent's name at the front of the room, as _path has a path. It is UTF-8, but may be any text:
   look it up in no folder. */
btcheck_status btcheck_session_name(const btcheck_session *session, uint8_t *room, size_t size,
                                    uint64_t *length);

/* How many bytes a piece has that is not its file's last. */
btcheck_status btcheck_session_piece_length(const btcheck_session *session, uint64_t *length);

/* How many pieces the files have together. Pieces have the numbers from 0 up to, but without,
   `pieces`. */
btcheck_status btcheck_session_pieces(const btcheck_session *session, uint64_t *pieces);

/* A piece of a torrent. */
typedef struct btcheck_piece {
  uint64_t length; /* in bytes; a file's last piece may be shorter than the others */
  uint64_t file;   /* the file in which it lies: each file begins with a piece of its own */
  uint64_t block;  /* its first block there */
  uint64_t offset; /* its first byte there */
} btcheck_piece;

/* Piece `index`, from 0 through all files. BTCHECK_NO_SUCH: there are fewer. */
btcheck_status btcheck_session_piece(const btcheck_session *session, uint32_t index,
                                     btcheck_piece *piece);

/* The first piece of file `number`, and how many pieces it has; an empty file has none.
   BTCHECK_NO_SUCH: there are fewer files. */
btcheck_status btcheck_session_file_pieces(const btcheck_session *session, size_t number,
                                           uint64_t *first, uint64_t *count);

/* Bytes of a file as a request has them (BEP 3): the piece, where they begin in it, and how many they
   are. They may go on in the pieces behind it. */
typedef struct btcheck_piece_range {
  uint64_t piece, begin, length;
} btcheck_piece_range;

/* Where the bytes of file `number` lie from `offset` on: `length` of them, or fewer where the file ends.
   BTCHECK_NO_SUCH: there is no such file, or it has no byte at the offset. */
btcheck_status btcheck_session_map_file(const btcheck_session *session, size_t number, uint64_t offset,
                                        uint64_t length, btcheck_piece_range *range);

/* BTCHECK_OK if the torrent is a hybrid, which clients of version 1 can use too. BTCHECK_NOTHING: it
   is of version 2 alone. */
btcheck_status btcheck_session_is_hybrid(const btcheck_session *session);

/* The info-hashes: SHA-256 (BEP 52) and SHA-1 (BEP 3) of the info dictionary. A torrent of version 2
   alone has the first one: its `v1` is that SHA-1, but no client of version 1 knows the torrent by it.
   A hybrid has both; btcheck_session_is_hybrid says which it is. */
btcheck_status btcheck_session_info_hashes(const btcheck_session *session, uint8_t v2[32],
                                           uint8_t v1[20]);

/* How many places of a tree are known, and how many leaves are marked as verified. */
btcheck_status btcheck_session_counts(const btcheck_session *session, size_t tree, uint64_t *known,
                                      uint64_t *marked);

/* BTCHECK_OK if the leaf of a block of a tree is marked as verified. BTCHECK_NOTHING: it is not.
   BTCHECK_NO_SUCH: there is no such tree, or its files have no such block. */
btcheck_status btcheck_session_is_marked(const btcheck_session *session, size_t tree, uint64_t block);

/* How many blocks of file `number` are marked as verified, and how many it has. Files of one tree have
   their marks together. BTCHECK_NO_SUCH: there is no such file. */
btcheck_status btcheck_session_file_counts(const btcheck_session *session, size_t number,
                                           uint64_t *marked, uint64_t *blocks);

/* The bitfield of the torrent's pieces (BEP 3) at the front of the room, and how many bytes it has: bit
   0, the highest of the first byte, is that of piece 0. A bit is set if each block of its piece is marked
   as verified; those past the last piece are clear. It looks at the blocks one after the other, in each
   piece up to the first that is not marked. BTCHECK_TOO_SMALL: `length` is how many bytes the room must
   have, and nothing goes there. */
btcheck_status btcheck_session_bitfield(const btcheck_session *session, uint8_t *room, size_t size,
                                        uint64_t *length);

/* ---- the check of a file's bytes, or of those of some of its pieces, which the caller reads as it
   likes */

/* Begins the check of file `number` of the session's torrent in an empty handle. The torrent's bytes
   must stay unchanged until this handle is freed too; the session's may be freed before. No later
   call on the check takes memory. BTCHECK_NO_ROOT: the file is empty. BTCHECK_NO_SUCH: there is no
   such file. */
btcheck_status btcheck_check_new(btcheck_check *check, const btcheck_session *session, size_t number);

/* Begins the check of the pieces `from` up to, but without, `to` of a file, from 0 in the file, as
   btcheck_check_new does of all of them. So several threads check one file, each with a handle, and
   a piece is checked by itself. BTCHECK_NO_SUCH: there is no such file, or not 0 <= from < to <= its
   pieces. */
btcheck_status btcheck_check_new_pieces(btcheck_check *check, const btcheck_session *session,
                                        size_t number, uint64_t from, uint64_t to);

/* The next bytes, in parts of any size. BTCHECK_TOO_LONG: fewer are still to come, and nothing was
   taken. */
btcheck_status btcheck_check_push(btcheck_check *check, const uint8_t *bytes, size_t len);

/* As btcheck_check_push, and sets the bit of each piece that is complete and good, as a bitfield has
   it (BEP 3): bit 0, the highest of the first byte, is that of the first piece that is checked. The
   bits are clear at first and the same at each call of one check; bits that the bitmap does not have
   are left out. */
btcheck_status btcheck_check_push_bits(btcheck_check *check, const uint8_t *bytes, size_t len,
                                       uint8_t *good, size_t good_len);

/* Ends the check of a whole file, or of all bytes of its pieces, which then begins anew. BTCHECK_OK:
   each piece is the torrent's. BTCHECK_BAD_PIECE: `piece` is the first that is not, from 0 in the
   file. BTCHECK_TOO_SHORT: bytes are still to come, and the check goes on. */
btcheck_status btcheck_check_finish(btcheck_check *check, uint64_t *piece);

/* As btcheck_check_finish, and sets the last piece's bit too, if that is good. BTCHECK_TOO_SHORT: the
   content ends here. The bits then tell which pieces are there whole and good, a last one that is cut
   is not, and the check begins anew. */
btcheck_status btcheck_check_finish_bits(btcheck_check *check, uint64_t *piece, uint8_t *good,
                                         size_t good_len);

void btcheck_check_free(btcheck_check *check);

/* ---- messages of peers */

/* A hashes message (BEP 52): its five fields, and `count` hashes of 32 bytes,
   uncles last. BTCHECK_OK: all are joined to the tree, and `places` is how many
   places are newly known. Else 201 to 207. */
btcheck_status btcheck_session_take_hashes(btcheck_session *session, const uint8_t root[32],
                                           uint32_t base, uint32_t index, uint32_t length,
                                           uint32_t proof, const uint8_t (*hashes)[32],
                                           size_t count, uint64_t *places);

/* One block of a piece message (BEP 3). BTCHECK_OK: its digest is its known leaf;
   `file` and `block` say which it is, from 0. Else 301 to 304. */
btcheck_status btcheck_session_take_block(btcheck_session *session, uint32_t index, uint32_t begin,
                                          const uint8_t *bytes, size_t len, uint64_t *file,
                                          uint64_t *block);

/* Blocks of one piece message: consecutive blocks of a file, from the first one on. */
typedef struct btcheck_blocks {
  uint64_t file, first, count;  /* count: 1 to 17 */
  btcheck_status statuses[17]; /* of each block: 0, or 302 to 304; past count BTCHECK_NO_SUCH */
} btcheck_blocks;

/* All blocks of a piece message (BEP 3), which may be several. BTCHECK_OK: `blocks` says of each
   whether it is verified. 301 or 302: the whole message is refused. */
btcheck_status btcheck_session_take_blocks(btcheck_session *session, uint32_t index,
                                           uint32_t begin, const uint8_t *bytes, size_t len,
                                           btcheck_blocks *blocks);

/* The bytes of one whole piece, as a client has them once all its blocks came; a file's last piece
   may be shorter. BTCHECK_OK: its leaves lead to the known node of the piece, or to the root of a
   file of one piece. They are known and marked then, each block as by take_block, and `file` and
   `block` say where the piece begins. 301: no piece has the number. 302: other bytes than the piece
   has. 303: its node is not known. 304: they lead to another node. BTCHECK_NO_MEMORY. */
btcheck_status btcheck_session_take_piece(btcheck_session *session, uint32_t index,
                                          const uint8_t *bytes, size_t len, uint64_t *file,
                                          uint64_t *block);

/* ---- blocks that cannot be proved yet

   Most clients ask for the nodes of pieces and seldom for leaves, so most blocks come while their own
   leaf is not known. Of such a block the digest is held, 32 bytes and no copy, the newest one for each
   place. When all blocks of a piece are held or known and its node is known, they are tried as the
   leaves of that piece. */

/* Holdings beside a session, in an empty handle. They hold `bound` blocks at most, but never fewer
   than the longest piece has. Free them before or after the session; use them with sessions of the
   same torrent alone. All memory for what they hold is asked for here, and is not written before
   blocks come. BTCHECK_NO_MEMORY: it was refused. */
btcheck_status btcheck_holdings_new(btcheck_holdings *holdings, const btcheck_session *session,
                                    size_t bound);

void btcheck_holdings_free(btcheck_holdings *holdings);

/* Blocks of a tree, from the first to the last, from 0. */
typedef struct btcheck_run {
  uint64_t tree, first, last;
} btcheck_run;

/* What was made of the blocks of a message. */
typedef struct btcheck_held {
  btcheck_blocks blocks;   /* as take_blocks has them, but a block that cannot be proved yet is
                              BTCHECK_HELD, or BTCHECK_NO_MEMORY: its digest could not be held */
  btcheck_run dropped[17]; /* of each block: all blocks of the piece that gave way for it, the one
                              whose newest block came longest ago; if none did, tree is UINT64_MAX */
} btcheck_held;

/* As take_blocks, and holds the blocks that cannot be proved yet. Then call settle until it answers
   BTCHECK_NOTHING. 301 or 302: the whole message is refused. */
btcheck_status btcheck_session_hold(btcheck_session *session, btcheck_holdings *holdings,
                                    uint32_t index, uint32_t begin, const uint8_t *bytes,
                                    size_t len, btcheck_held *held);

/* What became of blocks that were held, one run of a piece in each call. It looks at the pieces that
   have a block of the last message that hold took. BTCHECK_OK: the blocks of `run` are proved and
   marked. BTCHECK_BAD_PIECE: they are false and given up, and can come again. BTCHECK_NOTHING: nothing
   is left to settle. BTCHECK_NO_MEMORY: memory was refused for one piece, which stays held; go on with
   the next. BTCHECK_NO_SUCH: the session's torrent has no such tree. */
btcheck_status btcheck_session_settle(btcheck_session *session, btcheck_holdings *holdings,
                                      btcheck_run *run);

/* Has settle look at all pieces of a tree: call it when hashes of that tree were taken. */
btcheck_status btcheck_holdings_look_at(btcheck_holdings *holdings, size_t tree);

/* How many blocks are held. */
btcheck_status btcheck_session_held(const btcheck_holdings *holdings, uint64_t *held);

/* ---- whole frames

   A frame is four bytes, the length of its body, highest first, and that body (BEP 3, "peer messages").
   Calls that take or write a frame mean all of it, the four bytes too; btcheck_session_frame alone takes
   a body. */

/* What a message was, and what was made of it. */
enum {
  BTCHECK_STORED = 1,      /* hashes, which are joined: `places` are newly known */
  BTCHECK_BLOCKS = 2,      /* blocks, as `blocks` says */
  BTCHECK_ANSWERED = 3,    /* a hash request that answer would give hashes for */
  BTCHECK_REJECTED = 4,    /* a hash request to be rejected */
  BTCHECK_REJECT_NOTED = 5, /* a reject of our request */
  BTCHECK_KEEP_ALIVE = 6,  /* an empty body */
  BTCHECK_SKIPPED = 7      /* a message of another kind: `id` says which */
};

typedef struct btcheck_verdict {
  uint32_t kind, id;
  uint64_t places;
  btcheck_blocks blocks;
} btcheck_verdict;

/* The body of one frame of the peer protocol as it came, without the four bytes of its length: for
   clients that pass messages on. Hashes are taken as by take_hashes, blocks as by take_blocks; a
   request is not answered, but `kind` says whether it can be. Only what `kind` says is written, and
   all else in the struct stays.
   BTCHECK_BAD_SIZE: a wrong size for its id. BTCHECK_TOO_LONG: 2^32 bytes or more. 201 to 207,
   301 or 302: the message is refused. */
btcheck_status btcheck_session_frame(btcheck_session *session, const uint8_t *body, size_t len,
                                     btcheck_verdict *verdict);

/* The five fields of a hash request (BEP 52). */
typedef struct btcheck_ask {
  uint8_t root[32];
  uint32_t base, index, length, proof;
} btcheck_ask;

/* What a whole frame was, and what was made of it. */
typedef struct btcheck_taken {
  btcheck_verdict verdict; /* as btcheck_session_frame has it */
  btcheck_ask ask;         /* of hashes, of a hash request and of a reject: its five fields */
  btcheck_run dropped[17]; /* of blocks, by hold_frame alone: as btcheck_held has it */
} btcheck_taken;

/* One whole frame of the peer protocol as it came. Hashes are taken as by take_hashes, but if `asked` as by
   take_answer, so that they must answer a noted request, which they close: else 208. Blocks are taken as
   by take_blocks. A request is not answered: `verdict.kind` says whether answer has hashes for `ask`. Only
   what `verdict.kind` says is written, and all else in the struct stays.
   BTCHECK_TOO_SHORT: bytes of the frame are still to come. BTCHECK_TOO_LONG: bytes follow it.
   BTCHECK_BAD_SIZE: a wrong size for its id. 201 to 208, 301 or 302: the message is refused. At each of
   them nothing is written. */
btcheck_status btcheck_session_take_frame(btcheck_session *session, const uint8_t *frame, size_t len,
                                          bool asked, btcheck_taken *taken);

/* As take_frame, but blocks are taken as by hold: the status of one that cannot be proved yet is
   BTCHECK_HELD, or BTCHECK_NO_MEMORY, and `dropped` is what gave way. Then call settle until it answers
   BTCHECK_NOTHING: it looks at the pieces of these blocks, or after hashes that were joined at all pieces
   of their tree. Both together do with each frame what `btcheck replay --pieces` does. */
btcheck_status btcheck_session_hold_frame(btcheck_session *session, btcheck_holdings *holdings,
                                          const uint8_t *frame, size_t len, bool asked,
                                          btcheck_taken *taken);

/* ---- requests for hashes */

/* What to ask for next to learn the leaf of a block of a tree: at most 512 leaves, with
   proof up to the root. BTCHECK_NOTHING: the leaf is known. BTCHECK_NO_SUCH: there is no such
   tree, or its files have no such block. */
btcheck_status btcheck_session_want(const btcheck_session *session, size_t tree, uint64_t block,
                                    btcheck_ask *ask);

/* Notes that a request with these fields was sent: its ask is open until hashes
   answer it. BTCHECK_NO_MEMORY: it is not noted. */
btcheck_status btcheck_session_note(btcheck_session *session, const btcheck_ask *ask);

/* A hashes message that must answer a noted request, which it then closes. As
   take_hashes, but 208 comes before all other refusals if no such ask is open. */
btcheck_status btcheck_session_take_answer(btcheck_session *session, const btcheck_ask *ask,
                                           const uint8_t (*hashes)[32], size_t count,
                                           uint64_t *places);

/* The hashes that answer a peer's request, at the front of the room, and how many
   they are. BTCHECK_TOO_SMALL: `count` is how many places the room must have.
   BTCHECK_NOTHING: reject the request. BTCHECK_NO_MEMORY: memory was refused. */
btcheck_status btcheck_session_answer(const btcheck_session *session, const btcheck_ask *ask,
                                      uint8_t (*room)[32], size_t places, uint64_t *count);

/* BTCHECK_OK if answer would give hashes for this request. BTCHECK_NOTHING: it has to be
   rejected. */
btcheck_status btcheck_session_can_answer(const btcheck_session *session, const btcheck_ask *ask);

/* Bytes of the frame of a hash request, and of a hash reject: the four of its length, its id and the
   five fields. Frames that are written all begin with their length; what follows is the body. */
#define BTCHECK_ASK_FRAME 53

/* The frame of a hash request with these fields, as want gives them. */
void btcheck_request_frame(const btcheck_ask *ask, uint8_t frame[53]);

/* The frame of a hash reject: no hashes come for a request with these fields. */
void btcheck_reject_frame(const btcheck_ask *ask, uint8_t frame[53]);

/* The frame that answers a peer's request, at the front of the room, and how many bytes it has.
   BTCHECK_OK: it has the hashes that answer would give. BTCHECK_NOTHING: they are not known, and the
   frame is a reject, which is written too. BTCHECK_TOO_SMALL: `length` is how many bytes the room must
   have, and nothing goes there. BTCHECK_NO_MEMORY: memory was refused. */
btcheck_status btcheck_session_answer_frame(const btcheck_session *session, const btcheck_ask *ask,
                                            uint8_t *room, size_t size, uint64_t *length);

/* ---- what is known, kept between two runs of a program

   A session that was ended knows its leaves again when it takes them back: as messages that another
   session wrote, or as a whole layer. Both prove themselves when they are taken, so a file that was
   changed does no harm: it is refused. What is marked is not kept, since only bytes make marks. */

/* A block of a tree, from which an export goes on. Zeros are the beginning. */
typedef struct btcheck_cursor {
  uint64_t tree, block;
} btcheck_cursor;

/* The most bytes that one message of an export has. */
#define BTCHECK_MOST_EXPORTED 17461

/* Writes the leaves that are known first from the cursor on, at most 512 of them in one hashes
   message with its proof up to the root (BEP 52): the whole frame, its four bytes of length and its
   body of id 22, at the front of the room; `length` is how many bytes it has. The cursor then stands
   behind them. Each frame is taken by btcheck_session_take_frame of any session of the torrent, also
   one that was opened without layers. From a cursor of zeros on until BTCHECK_NOTHING, each known leaf is
   in a message, but for that of a file of one block, which is its root. BTCHECK_TOO_SMALL: `length`
   is how many bytes the room must have, never more than BTCHECK_MOST_EXPORTED; the cursor stays.
   BTCHECK_NOTHING: no leaf is known from the cursor on. BTCHECK_NO_MEMORY: the cursor stays. */
btcheck_status btcheck_session_export(const btcheck_session *session, btcheck_cursor *cursor,
                                      uint8_t *room, size_t size, uint64_t *length);

/* Takes a whole layer of a tree, 0 for the leaves, without the pads past the file's end, and writes
   how many places are newly known. BTCHECK_NO_SUCH: there is no such tree. 202: the layer is above
   the root. 203: the layer has another number of hashes. 206: a hash, or one that follows from them,
   differs from a known one. 207: memory was refused. */
btcheck_status btcheck_session_fill(btcheck_session *session, size_t tree, uint32_t layer,
                                    const uint8_t (*hashes)[32], size_t count, uint64_t *places);

/* ---- making torrents (BEP 52, "metainfo files"; of hybrids BEP 3 and BEP 47 too)

   A draft takes files in any order, and its torrent has them in the order of the file tree. The text
   is the one that `btcheck create` writes for a folder with these files. A program that reads files by
   itself, or has their bytes from elsewhere, pushes them here; different files may come in different
   threads at once, each with its handle. */

/* A draft without files, in an empty handle. The name is `len` bytes of UTF-8, and may be any text; the
   piece length is a power of two from 16,384 to 2^30. A hybrid can be used by clients of version 1
   too. BTCHECK_TORRENT_WRONG_TYPE: the name is not UTF-8. BTCHECK_TORRENT_PIECE_LENGTH: it is none.
   BTCHECK_NO_MEMORY. */
btcheck_status btcheck_draft_new(btcheck_draft *draft, const uint8_t *name, size_t len,
                                 uint64_t piece_length, bool hybrid);

/* A file for the draft, in an empty handle, of which nothing came yet. It can be added to each draft
   of that piece length that is a hybrid as this one is, or is not, and may outlive it.
   BTCHECK_NO_MEMORY. */
btcheck_status btcheck_draft_file_new(btcheck_draft_file *file, const btcheck_draft *draft);

/* The file's next bytes, in parts of any size; an empty file needs no push. Parts of 128 KiB are hashed
   faster than shorter ones, and for a hybrid those of eight pieces of at most 4 MiB. For pieces of 8 and
   16 MiB a file takes 29 and 58 MiB when its third piece begins; if these are refused it does without.
   BTCHECK_TOO_LONG: past 2^46, or a draft refused the file, so that it has all its bytes; nothing was
   taken. BTCHECK_NO_MEMORY: the file's digests have no room; each later call on it returns this too,
   so free it. */
btcheck_status btcheck_draft_file_push(btcheck_draft_file *file, const uint8_t *bytes, size_t len);

/* Adds the file to the draft under a path, as btcheck_session_path writes one: its components, joined
   by `/`. Then the file begins anew, for the next one. BTCHECK_TORRENT_PATH: the path is not UTF-8, it
   has more than 124 components, or one that is empty, `.` or `..`, or has a zero byte.
   BTCHECK_TORRENT_LENGTH does not come, since pushes are refused first. BTCHECK_TORRENT_ROOT_REUSED: a
   file of another length has its root. BTCHECK_TORRENT_TOO_MANY_PIECES: they would be more than
   2^32 - 1 in all. BTCHECK_TORRENT_PATH_CLASH: the path is there, or one path is a prefix of the other.
   At these the draft is as before, and the file takes no more bytes, but it can be added under another
   path. BTCHECK_NO_MEMORY: the draft is as before; if the next call on the file returns this too, its
   digests have no room. BTCHECK_WRONG_HANDLE: also if the file is for drafts of another piece length or
   kind. */
btcheck_status btcheck_draft_add(btcheck_draft *draft, btcheck_draft_file *file,
                                 const uint8_t *path, size_t len);

/* The torrent file of the draft at the front of the room, and how many bytes it has. More files can be
   added afterwards. BTCHECK_TOO_SMALL: `length` is how many bytes the room must have, and nothing goes
   there. BTCHECK_TORRENT_NO_FILES: no file was added. BTCHECK_TORRENT_TOO_LARGE: it would have more than
   67,108,864 bytes, so that nobody opens it: take longer pieces. BTCHECK_NO_MEMORY. */
btcheck_status btcheck_draft_finish(const btcheck_draft *draft, uint8_t *room, size_t size,
                                    uint64_t *length);

void btcheck_draft_file_free(btcheck_draft_file *file);

void btcheck_draft_free(btcheck_draft *draft);

#ifdef __cplusplus
}
#endif
#endif
