/*
 * Andelura: the USX text of a tape file, windows of it, a checker of finished text, the names of a tape, and a writer of tapes. For x86-64 Linux.
 *
 * Each function is proved to meet its contract in crates/api (in the words of specs/Told.antt in crates/told and crates/told_texts, and crates/steps/specs/Numbers.antt), for every content of what it is lent. None allocates,
 * none keeps a pointer, none reads or writes anything but what it is lent, and each may be called by several threads at once on slices of their own.
 *
 * What the caller sees to, since no proof can:
 *   - a pointer is not null and aligned for its type, and as many elements as its length says may be read there (and written, where it is not const), also where the
 *     length is 0: then nothing is read, and any address of something of that type will do;
 *   - no two slices of one call overlap;
 *   - the calling thread has 640 KiB of stack left (scripts/stack and rust/andelura/tests/stack.rs measure it; no theorem bounds it).
 *
 * Lent numbers: a function that tells several numbers stores each at its place of `numbers`, as far as `numbers_len` reaches, and changes no other.
 * docs/REFUSALS.md says of each refusal what was found and what to do.
 */
#ifndef ANDELURA_H
#define ANDELURA_H

#include <stddef.h>
#include <stdint.h>

#ifdef __cplusplus
extern "C" {
#endif

/* What a call gives: done, or one of document 01's numbers, the lowest that applies. */
enum {
    ANDELURA_DONE = 0,
    /* of a tape file */
    ANDELURA_NOT_A_TAPE = 1,  /* shorter than its header, not format 1, or its sections do not fill it */
    ANDELURA_OVER_LIMITS = 2, /* no node, or more nodes, entries, name bytes or source bytes than a tape may have */
    ANDELURA_NOT_UTF8 = 3,    /* the source is not UTF-8 */
    ANDELURA_BAD_TABLE = 4,   /* a name byte, an entry's name, a category or an element is wrong */
    ANDELURA_BAD_NODE = 5,    /* a node's kind, flags or span is wrong, or Root is not node 0 alone */
    ANDELURA_TOO_DEEP = 6,    /* over 64 containers are open */
    ANDELURA_BAD_NESTING = 7, /* links do not nest */
    ANDELURA_NO_ROOM = 8,     /* the buffer is too short; the length needed is told */
    /* of a finished text */
    ANDELURA_NOT_TAGS = 11,  /* not in tag form */
    ANDELURA_TOO_HIGH = 12,  /* some height is over 160 */
    ANDELURA_NO_TREE = 13,   /* not one usx tree */
    ANDELURA_BAD_MARKS = 14, /* chapter or verse milestones do not pair and nest */
    /* of a step of the tape writer */
    ANDELURA_OUT_OF_STEP = 16 /* before start, after finish, or a state that no step gave */
};

/* The most that a tape file may hold, and how long it may be. */
enum {
    ANDELURA_MOST_NODES = 262144,
    ANDELURA_MOST_ENTRIES = 1024,
    ANDELURA_MOST_NAME_BYTES = 16384,
    ANDELURA_MOST_SOURCE_BYTES = 4194304,
    ANDELURA_LONGEST_TAPE = 36 + 16 * ANDELURA_MOST_NODES + 8 * ANDELURA_MOST_ENTRIES + ANDELURA_MOST_NAME_BYTES + ANDELURA_MOST_SOURCE_BYTES
};

/* ---- the text of a tape file */

/* Of andelura_serialize: how many numbers it tells, and the place of each. */
enum { ANDELURA_SERIALIZE_NUMBERS = 1, ANDELURA_SERIALIZE_LENGTH = 0 };

/*
 * Writes the USX text of a tape file at the front of `out`, and no byte behind it. Gives 0, or 1 to 8, and then no byte of `out` is written.
 * ANDELURA_SERIALIZE_LENGTH: the length of the text; where 8 is given, the length needed; where 1 to 7 is given, 0.
 */
uint32_t andelura_serialize(const uint8_t *file, size_t file_len, uint8_t *out, size_t out_len, uint64_t *numbers, size_t numbers_len);

/* Of andelura_window. */
enum { ANDELURA_WINDOW_NUMBERS = 2, ANDELURA_WINDOW_BYTES = 0, ANDELURA_WINDOW_WHOLE = 1 };

/*
 * Writes the bytes of that text from number `from` on to the front of `out`, as many as there are and as it has room for, and no other byte. Gives 0, or 1 to 7, and then
 * no byte is written. A call with no room measures the text.
 * ANDELURA_WINDOW_BYTES: how many bytes are written; ANDELURA_WINDOW_WHOLE: the length of the whole text; both 0 where the file is refused.
 */
uint32_t andelura_window(const uint8_t *file, size_t file_len, size_t from, uint8_t *out, size_t out_len, uint64_t *numbers, size_t numbers_len);

/* ---- a finished text */

/* Of andelura_check. */
enum { ANDELURA_CHECK_NUMBERS = 4, ANDELURA_CHECK_CHAPTERS = 0, ANDELURA_CHECK_VERSES = 1, ANDELURA_CHECK_PLACE = 2, ANDELURA_CHECK_LINE = 3 };

/*
 * Checks a finished text: whether its chapter and verse milestones pair and nest. Gives 0, or 11 to 14.
 * ANDELURA_CHECK_CHAPTERS, ANDELURA_CHECK_VERSES: how many chapters and verses start; 0 where the text is refused.
 * ANDELURA_CHECK_PLACE, ANDELURA_CHECK_LINE: how many bytes stand before the place where the rule broke, and its line from 1; 0 where the text is accepted.
 */
uint32_t andelura_check(const uint8_t *text, size_t text_len, uint64_t *numbers, size_t numbers_len);

/* ---- the names of a tape file */

/* Of andelura_find_names, and what a name is. */
enum {
    ANDELURA_NAMES_NUMBERS = 5,
    ANDELURA_NAMES_WHAT = 0,
    ANDELURA_NAMES_NODE = 1,
    ANDELURA_NAMES_START = 2,
    ANDELURA_NAMES_BYTES = 3,
    ANDELURA_NAMES_LINE = 4
};
enum { ANDELURA_KEPT = 0, ANDELURA_BOOK_CODE = 1, ANDELURA_LABEL = 2, ANDELURA_MARKER_NAME = 3, ANDELURA_KEY = 4 };

/*
 * Looks for the first book code, verse label, marker name or attribute key that holds & < > or a double quote. Gives 0, or 1 to 7. Where there is none, andelura_check accepts
 * the file's text, and every verse's end names that verse (docs/IDENTIFIERS.md).
 * ANDELURA_NAMES_WHAT: what the name is, ANDELURA_KEPT where there is none; ANDELURA_NAMES_NODE: its node; ANDELURA_NAMES_START and ANDELURA_NAMES_BYTES: its first byte of the
 * source, which is the file's last section, and how many bytes it has; ANDELURA_NAMES_LINE: its line of the source from 1. All are 0 where there is none or the file is refused.
 */
uint32_t andelura_find_names(const uint8_t *file, size_t file_len, uint64_t *numbers, size_t numbers_len);

/* ---- writing a tape (docs/WRITER.md) */

/*
 * The state of writing: eight numbers, zeros at first, of which the caller reads two. A call with fewer gives 16 and writes nothing.
 * ANDELURA_STATE_NAMES: how many name bytes there are, which is where a new name starts; ANDELURA_STATE_LENGTH: behind each call the length of the file with this step where it
 * gives 0, the length needed where it gives 8, else 0.
 */
enum { ANDELURA_STATE_NUMBERS = 8, ANDELURA_STATE_NAMES = 3, ANDELURA_STATE_LENGTH = 7 };

/* Flags of a node, to be added; the marker of a node that has none; what closes a container. */
enum { ANDELURA_SYNTHETIC = 1, ANDELURA_NESTED = 2, ANDELURA_NO_MARKER = 65535 };
enum { ANDELURA_MARKER_CLOSE = 0, ANDELURA_BLOCK_END = 1 };

/*
 * Each step gives 0, or 16, or the lowest of 2 to 8 that it would cause; then state and buffer are as they were. A span is `start` and `len`, in bytes of the source added so far.
 */

/* Begins a tape. */
uint32_t andelura_tape_start(uint64_t *state, size_t state_len, uint8_t *buf, size_t buf_len);

/* Adds an entry before the first node: name bytes, and the place of its own name among them all. */
uint32_t andelura_tape_entry(uint64_t *state, size_t state_len, uint8_t *buf, size_t buf_len, const uint8_t *names, size_t names_len, uint32_t start, uint16_t len, uint8_t category, uint8_t element);

/* Adds a piece of the source, UTF-8 by itself. */
uint32_t andelura_tape_source(uint64_t *state, size_t state_len, uint8_t *buf, size_t buf_len, const uint8_t *piece, size_t piece_len);

/* Opens a container: the nodes that follow stand in it. */
uint32_t andelura_tape_open(uint64_t *state, size_t state_len, uint8_t *buf, size_t buf_len, uint8_t flags, uint16_t marker, uint32_t start, uint32_t len);

/* Adds a marker that holds nothing and is closed by nothing. */
uint32_t andelura_tape_leaf(uint64_t *state, size_t state_len, uint8_t *buf, size_t buf_len, uint8_t flags, uint16_t marker, uint32_t start, uint32_t len);

/* Closes the innermost open container, by a BlockEnd where `block` is ANDELURA_BLOCK_END and else by a MarkerClose. */
uint32_t andelura_tape_close(uint64_t *state, size_t state_len, uint8_t *buf, size_t buf_len, uint8_t block, uint8_t flags, uint16_t marker, uint32_t start, uint32_t len);

/* Adds a Text. */
uint32_t andelura_tape_text(uint64_t *state, size_t state_len, uint8_t *buf, size_t buf_len, uint8_t flags, uint32_t start, uint32_t len);

/* Adds an Attribute. */
uint32_t andelura_tape_attribute(uint64_t *state, size_t state_len, uint8_t *buf, size_t buf_len, uint8_t flags, uint32_t start, uint32_t len);

/* Adds an Error. */
uint32_t andelura_tape_error(uint64_t *state, size_t state_len, uint8_t *buf, size_t buf_len, uint8_t flags, uint32_t start, uint32_t len);

/* Adds a Chapter. */
uint32_t andelura_tape_chapter(uint64_t *state, size_t state_len, uint8_t *buf, size_t buf_len, uint8_t flags, uint16_t marker, uint32_t number, uint32_t start, uint32_t len);

/* Adds a Verse. */
uint32_t andelura_tape_verse(uint64_t *state, size_t state_len, uint8_t *buf, size_t buf_len, uint8_t flags, uint16_t marker, uint32_t number, uint32_t start, uint32_t len);

/* Finishes the tape: the file is the buffer's front, as long as ANDELURA_STATE_LENGTH says, and every function above admits it. */
uint32_t andelura_tape_finish(uint64_t *state, size_t state_len, uint8_t *buf, size_t buf_len);

#ifdef __cplusplus
}
#endif

#endif
