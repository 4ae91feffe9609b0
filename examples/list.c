/* Lists the plan file on standard input, and prints for each node how many levels its map uses.
 *
 * gcc -Iinclude examples/list.c target/staticlib/libplanner_c.a -o list && ./list < plan
 */
#include "maiplur.h"

#include <stdio.h>

/* One byte more than the longest plan file, so that a longer input is refused for its length. */
static uint8_t file[MAIPLUR_MOST_FILE + 1];
static uint8_t text[MAIPLUR_MOST_TEXT];

static void show_map(size_t length, uint16_t node) {
    uint8_t levels[MAIPLUR_MOST_LEVELS];
    size_t values[3];
    uint32_t refused = maiplur_map(file, length, node, levels, sizeof levels, values);
    if (refused) {
        printf("map of %u: refused %u\n", (unsigned)node, (unsigned)refused);
        return;
    }
    printf("map of %u: %zu levels\n", (unsigned)node, values[0]);
}

int main(void) {
    uint32_t rows[MAIPLUR_MOST_ROWS];
    static uint32_t entries[MAIPLUR_MOST_WORDS];
    size_t values[3];
    size_t length = fread(file, 1, sizeof file, stdin);
    if (maiplur_list(file, length, text, sizeof text, values)) {
        return 1; /* never: the text fits */
    }
    fwrite(text, 1, values[0], stdout);
    if (maiplur_read(file, length, rows, MAIPLUR_MOST_ROWS, entries, MAIPLUR_MOST_WORDS, values)) {
        return 2;
    }
    for (size_t row = 0, count = values[0]; row < count; row++) {
        show_map(length, (uint16_t)(rows[row] & 0xFFFF));
    }
    return 0;
}
