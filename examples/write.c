/* Writes the plan file of case P (docs/SPEC.md) to standard output, after the library has checked it and read it back. With
 * the argument 2, the third task may start 12 ticks late, and the file is of the second edition (samples/p_jitter_12.plan).
 *
 * gcc -Iinclude examples/write.c target/staticlib/libplanner_c.a -o write && ./write > p.plan
 */
#include "maiplur.h"

#include <stdio.h>
#include <string.h>

enum { TASK = 1, ENTRIES = 3, ENTRY_WORDS = 6, WORDS = ENTRY_WORDS * ENTRIES };

/* Packs a row (number, levels, entry count), or the first word of an entry (number, kind, r). */
static uint32_t packed(uint32_t number, uint32_t middle, uint32_t high) {
    return number | middle << 16 | high << 24;
}

/* Sets a task with r = 0, B = 0 and J = 0. */
static void set_task(uint32_t entry[ENTRY_WORDS], uint32_t number, uint32_t run, uint32_t period, uint32_t deadline) {
    entry[0] = packed(number, TASK, 0);
    entry[1] = run;
    entry[2] = period;
    entry[3] = deadline;
    entry[4] = 0;
    entry[5] = 0;
}

static int turned_back(const char *call, uint32_t refused, const size_t values[3]) {
    fprintf(stderr, "%s: refused %u row %zu entry %zu\n", call, (unsigned)refused, values[0], values[1]);
    return 1;
}

/* Whether the library refuses to write these entries in the first edition, and names the third one: that edition has no room
 * for its J. The file is then untouched. */
static int needs_second_edition(uint32_t row, const uint32_t entries[WORDS], uint8_t *file, size_t room) {
    size_t values[3];
    uint32_t refused = maiplur_write(1, &row, 1, entries, WORDS, file, room, values);
    return refused == MAIPLUR_JITTER && values[0] == 0 && values[1] == 2;
}

/* Whether a file of this edition holds exactly one row and these entries. */
static int reads_back(const uint8_t *file, size_t length, uint32_t edition, uint32_t row, const uint32_t entries[WORDS]) {
    uint32_t rows[MAIPLUR_MOST_ROWS];
    static uint32_t words[MAIPLUR_MOST_WORDS];
    size_t values[3];
    uint32_t refused = maiplur_read(file, length, rows, MAIPLUR_MOST_ROWS, words, MAIPLUR_MOST_WORDS, values);
    if (refused) {
        turned_back("read", refused, values);
        return 0;
    }
    return values[0] == 1 && values[1] == ENTRIES && values[2] == edition && rows[0] == row &&
           memcmp(words, entries, sizeof(uint32_t) * WORDS) == 0;
}

int main(int count, char **arguments) {
    static uint8_t file[MAIPLUR_MOST_FILE];
    uint32_t edition = count > 1 && strcmp(arguments[1], "2") == 0 ? 2 : 1;
    uint32_t row = packed(7, 2, ENTRIES);
    uint32_t entries[WORDS];
    size_t values[3];
    set_task(entries, 1, 20, 100, 100);
    set_task(entries + ENTRY_WORDS, 2, 30, 145, 145);
    set_task(entries + 2 * ENTRY_WORDS, 3, 68, 150, 150);
    if (edition == 2) {
        entries[WORDS - 1] = 12; /* J of the third task */
        if (!needs_second_edition(row, entries, file, sizeof file)) {
            return 4; /* never: a J above 0 is not dropped */
        }
    }
    uint32_t refused = maiplur_write(edition, &row, 1, entries, WORDS, file, sizeof file, values);
    if (refused) {
        return turned_back("write", refused, values);
    }
    size_t length = values[0];
    refused = maiplur_check(file, length, values);
    if (refused) {
        return turned_back("check", refused, values);
    }
    if (!reads_back(file, length, edition, row, entries)) {
        return 2; /* never: what was written is read back */
    }
    return fwrite(file, 1, length, stdout) == length && fflush(stdout) == 0 ? 0 : 3;
}
