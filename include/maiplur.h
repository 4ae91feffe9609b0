/* Maiplur for C: plan files, level maps, listings and sessions.
 *
 * Link with target/staticlib/libplanner_c.a, which `tools/build planner_c` makes (x86-64 Linux).
 *
 * Every function returns 0, or the number of a refusal (MAIPLUR_SHORT_FILE and so on), and leaves three values in `values`. If
 * it refuses, they are the row and the entry position, both from 0, and 0, and every other lent buffer is untouched.
 * Otherwise the comment at the function says what they are. A value that it does not name is 0.
 *
 * No function keeps a pointer, allocates, or has state of its own, and each returns on every input. The caller must ensure
 * what no function can check: each pointer points to as many elements as its length says (it is not NULL, even at length 0),
 * and nothing that a call writes overlaps anything else that it is lent.
 *
 * A level count is a uint8_t and a node number a uint16_t. C silently truncates a larger number before the call: 257 levels
 * arrive as 1.
 *
 * The values are of type size_t, which must have 64 bits: an overrun (maiplur_session_time) can exceed 32.
 *
 * docs/SPEC.md defines the terms, what is computed, and the order of each call's checks.
 *
 * maiplur_list and maiplur_session_time make every round of the completion time test, and an entry can have up to 10^9
 * rounds. A station's plan is listed in less than a millisecond. But one node of 64 levels with the tasks (C/T/D, with r, B
 * and J 0) 1/2/2, 1/3/3, 1/7/7, 1/43/43, 1/1807/1807 and 59 of 1/1000000000/1000000000 took half a minute, so a plan of 32
 * such nodes would take a quarter of an hour. The search for a map skips most rounds, but a node whose entries miss their
 * deadlines by little can take a second or two (docs/BENCHMARKS.md); so can a change of a session, which searches for its
 * map. A running call cannot be stopped: a caller that takes plans from others should make it in a process of its own.
 */
#ifndef MAIPLUR_H
#define MAIPLUR_H

#include <stddef.h>
#include <stdint.h>

#if SIZE_MAX < UINT64_MAX
#error "maiplur.h: size_t must have 64 bits"
#endif

#ifdef __cplusplus
extern "C" {
#endif

/* The refusals. */
enum {
    MAIPLUR_SHORT_FILE = 1,     /* fewer than 8 bytes, or the contents cut off */
    MAIPLUR_OPENING_BYTES = 2,  /* of neither edition; to the writer: no such edition; to the converter: of the edition asked for */
    MAIPLUR_NODE_COUNT = 3,     /* no node, more than 32, or one of bytes 5 to 7 is not 0 */
    MAIPLUR_ROW = 4,            /* node numbers that do not rise, no level or more than 64, more than 64 entries */
    MAIPLUR_OFFSET = 5,
    MAIPLUR_FILE_LENGTH = 6,    /* to the writer: more or fewer entries than the rows count */
    MAIPLUR_KIND = 7,           /* an unknown kind, more than 15 calls, a section with a call */
    MAIPLUR_TIMES = 8,          /* not 1 <= C <= D <= T <= 1,000,000,000, or B above 1,000,000,000 */
    MAIPLUR_NO_SUCH_NODE = 9,
    MAIPLUR_SHORT_BUFFER = 10,
    MAIPLUR_NO_MAP = 11,
    MAIPLUR_OUTSIDE_LIST = 12,  /* a position or a group outside the session's list */
    MAIPLUR_FULL_LIST = 13,     /* insert into 64 entries */
    MAIPLUR_JITTER = 14,        /* J above D - C; to the writer: J above 0 in the first edition */
    MAIPLUR_JITTER_LOST = 15,   /* J above 0 in a file that is converted back to edition 1 */
    MAIPLUR_REPEAT = 16         /* an entry with the number of one before it in its node; in a session, of another one */
};

/* Buffers of these sizes always suffice. */
enum {
    MAIPLUR_MOST_ROWS = 32,      /* rows of a plan, a word each */
    MAIPLUR_MOST_WORDS = 12288,  /* words of a plan's entries, six each */
    MAIPLUR_MOST_FILE = 49416,   /* bytes of a plan file, of either edition */
    MAIPLUR_MOST_FIRST = 41224,  /* bytes of a plan file of edition 1 */
    MAIPLUR_MOST_LEVELS = 64,    /* bytes of a map */
    MAIPLUR_MOST_TEXT = 115625   /* bytes of a listing */
};

/* An entry is a task, or a global critical section: a critical section of another node's task that runs on this node. It has
 * a number from 0 to 65,535, a kind (1 for a task, 2 for a section), and the following. Times are whole ticks, of any one
 * length.
 *
 *   C  the longest run (worst-case execution time)            1 <= C <= D
 *   T  the period                                             D <= T <= 1,000,000,000
 *   D  the deadline, counted from the start of the period     C <= D <= T
 *   B  how long less urgent work can block it                 0 <= B <= 1,000,000,000
 *   J  how late a job may start after its period does         0 <= J <= D - C
 *   r  the remote sections that it calls in a period          0 <= r <= 15 for a task, 0 for a section
 *
 * A node is a controller: a number from 0 to 65,535, 1 to 64 priority levels, and up to 64 entries, most urgent first. No
 * two entries of a node have the same number (16); entries of different nodes may. A plan is a row for each of 1 to 32
 * nodes, with rising numbers, and their entries.
 *
 * A plan in memory is words of 32 bits. A row is one word: the node number in its low 16 bits, then the levels and the entry
 * count in 8 bits each. An entry is six words. The first has the number in its low 16 bits, then the kind and r in 8 bits
 * each; the others are C, T, D, B and J. The entries of all nodes follow one another, in the order of the rows.
 *
 * A plan file is of edition 1, which has no J, or of edition 2. In memory both are the same: an entry read from a file of
 * edition 1 has J 0.
 */

/* Accepts a plan file of either edition, or refuses it (1 to 8, 14, 16) with the first of its checks that is met. It returns
 * 0 exactly for the files of plans within the limits.
 */
uint32_t maiplur_check(const uint8_t *file, size_t file_length, size_t values[3]);

/* Reads a plan file into `rows` and `entries`, from their starts, and keeps what lies beyond. Values: how many rows, how
 * many entries, and the edition, 1 or 2. Refuses as maiplur_check does, then a buffer that is too short (10): `row_count`
 * must be at least one word for each row, `word_count` at least six for each entry. maiplur_write turns what it filled into
 * the same bytes again, in that edition.
 */
uint32_t maiplur_read(const uint8_t *file, size_t file_length, uint32_t *rows, size_t row_count, uint32_t *entries,
                      size_t word_count, size_t values[3]);

/* Writes a plan as a file of edition 1 or 2 from the start of `file`, and keeps what lies beyond. Values: the file's length
 * in bytes. Refuses another edition (2), 3, 4 row by row, 6 if `word_count` is not six for each entry that the rows count,
 * then row by row 7, 8 and 14 entry by entry and 16, then a buffer that is too short (10). In edition 1, a J above 0 is 14.
 * maiplur_read turns what it wrote into the same words and the same edition again.
 */
uint32_t maiplur_write(uint32_t edition, const uint32_t *rows, size_t row_count, const uint32_t *entries,
                       size_t word_count, uint8_t *file, size_t file_length, size_t values[3]);

/* Writes the plan of a file of edition 1 in edition 2, with every J 0, from the start of `out`, and keeps what lies beyond.
 * Values: the new file's length in bytes, 4 more for each entry. Refuses as maiplur_check does, then a file of edition 2 (2),
 * and a buffer that is too short (10). Both files list and map alike. From what it wrote, maiplur_convert_back gives the lent
 * file again, byte for byte. MAIPLUR_MOST_FILE bytes always suffice.
 */
uint32_t maiplur_convert_forward(const uint8_t *file, size_t file_length, uint8_t *out, size_t out_length,
                                 size_t values[3]);

/* Writes the plan of a file of edition 2 whose every J is 0 in edition 1, likewise; the new file has 4 bytes less for each
 * entry. Refuses as maiplur_check does, then a file of edition 1 (2), the first entry with a J above 0 (15), row by row, and a
 * buffer that is too short (10). From what it wrote, maiplur_convert_forward gives the lent file again, byte for byte.
 * MAIPLUR_MOST_FIRST bytes always suffice.
 */
uint32_t maiplur_convert_back(const uint8_t *file, size_t file_length, uint8_t *out, size_t out_length, size_t values[3]);

/* Maps the node with the given number: fills `levels` from its start with the level of each entry, one byte per entry, and
 * keeps what lies beyond. Values: how many levels the map uses. Refuses as maiplur_check does, then a number that the plan
 * does not have (9), a buffer with less than one byte per entry (10), and a node that has no map (11).
 */
uint32_t maiplur_map(const uint8_t *file, size_t file_length, uint16_t number, uint8_t *levels, size_t level_count,
                     size_t values[3]);

/* Writes the listing of a plan file, or the one refusal line of a refused file, from the start of `text`, and keeps what
 * lies beyond. No zero byte follows the text. Values: the text's length in bytes. Refuses only a buffer that is too short
 * for the text (10). It takes less than 128 KiB of stack.
 */
uint32_t maiplur_list(const uint8_t *file, size_t file_length, uint8_t *text, size_t text_length, size_t values[3]);

/* A session: one node that is changed entry by entry, with its map and the completion times under it. The caller owns the
 * struct and lends it to each call. A zeroed struct is a session that is not open: every function except
 * maiplur_session_open refuses it (4).
 *
 * Each function except maiplur_session_open first checks the session as a node of a file: 4 if its level count or its entry
 * count is outside the limits, then 7, 8 and 14 entry by entry, then 16, with row 0 and the entry's position. A session that
 * was opened and changed by these functions always passes. Then come the function's own checks, in the order of its comment.
 *
 * The last four fields are the store: the map of the session, or that there is none, and each entry's completion time under
 * it. If there is no map, the store is all zeros; that of an empty node has `mapped` 1 and `used` 0.
 *
 * Only the functions should write the struct. Opening, inserting, removing and replacing leave the store that belongs to the
 * entries and the level count, whatever it held before; setting the level count goes by what the store says, and no check
 * looks at the store. maiplur_session_map and maiplur_session_map_time answer from it: it has a map if `mapped` is 1 and
 * `used` at most `levels`. So if a caller writes the struct by hand, they answer for whatever the store holds, which may be
 * wrong until the next opening, insert, remove or replace that is not refused. A struct may be copied whole.
 *
 * A change that inserts, removes or replaces an entry searches for the map and finds the times: some microseconds for the
 * nodes of a station. It makes no round that the load rules out, so that the node named at the top, whose listing takes half
 * a minute, takes milliseconds; but a node whose entries miss their deadlines by little can take a second or two. Setting the
 * level count searches only if the session has no map and gets more levels, and then takes as long as such a change. Asking
 * searches nothing.
 */
typedef struct {
    uint32_t levels;      /* 1 to 64 */
    uint32_t count;       /* entries, 0 to 64 */
    uint32_t words[384];  /* six to an entry, as above; zero beyond the entries */
    uint32_t mapped;      /* 1 if the session has a map, else 0 */
    uint32_t used;        /* how many levels that map uses */
    uint32_t map[64];     /* the level of each entry under it; 0 beyond the entries */
    uint32_t times[64];   /* the completion time of each entry under it; 0 beyond the entries */
} maiplur_session;

/* Opens a session, whatever the struct holds: an empty node with `levels` levels. Refuses levels that are not 1 to 64 (4).
 */
uint32_t maiplur_session_open(maiplur_session *session, uint8_t levels, size_t values[3]);

/* Sets the level count. A map that uses no more levels stays; one that uses more is lost (11 when asked for). A session
 * without a map is searched for one if the count rises. Refuses levels that are not 1 to 64 (4).
 */
uint32_t maiplur_session_set_levels(maiplur_session *session, uint8_t levels, size_t values[3]);

/* Inserts an entry, given by its six words, before a position; the position just after the last entry appends. Refuses a
 * position beyond that (12), a list of 64 entries (13), then the entry (7, 8, 14) and a number that another entry has (16),
 * with row 0 and the position. `entry` must lie outside the session.
 */
uint32_t maiplur_session_insert(maiplur_session *session, size_t position, const uint32_t entry[6], size_t values[3]);

/* Removes the entry at a position. Refuses a position that has no entry (12). */
uint32_t maiplur_session_remove(maiplur_session *session, size_t position, size_t values[3]);

/* Replaces the entry at a position; `entry` as for maiplur_session_insert. Refuses a position that has no entry (12), then
 * the entry (7, 8, 14) and a number that an entry at another position has (16), with row 0 and the position. So the number
 * of the replaced entry may be kept.
 */
uint32_t maiplur_session_replace(maiplur_session *session, size_t position, const uint32_t entry[6], size_t values[3]);

/* Times the entry at `i` in the group from `first` to `last`; the entries before the group are more urgent. Values: the
 * completion time, without the entry's own J, or 0 if the entry is late (no completion time is 0); the rounds; and the
 * overrun, or 0 if the entry is on time (no overrun is 0). The overrun is by how much a late entry's demand at D - J exceeds
 * D - J. An entry whose D were longer by its overrun may still be late (docs/API.md, 'By how much an entry is late'). Refuses
 * anything but first <= i <= last with `last` in the list (12).
 */
uint32_t maiplur_session_time(const maiplur_session *session, size_t first, size_t last, size_t i, size_t values[3]);

/* Gives the stored map, which is that of maiplur_map for the same node: fills `levels` from its start with the level of each
 * entry, one byte per entry, and keeps what lies beyond. Values: how many levels the map uses. Refuses a buffer with less than
 * one byte per entry (10), and a node that has no map (11).
 */
uint32_t maiplur_session_map(const maiplur_session *session, uint8_t *levels, size_t level_count, size_t values[3]);

/* Gives the stored completion time of the entry at `i` under the map, without the entry's own J: the time that
 * maiplur_session_time gives for it in the group of its level. Values: that time. Refuses a position that has no entry (12),
 * and a node that has no map (11).
 */
uint32_t maiplur_session_map_time(const maiplur_session *session, size_t i, size_t values[3]);

#ifdef __cplusplus
}
#endif

#endif
