/* Converts the plan file on standard input to the other edition: `convert forward` from the first to the second, `convert
 * back` from the second to the first. The status is 1 if the plan is refused, which standard error then says, and 2 if
 * something else fails.
 *
 * gcc -Iinclude examples/convert.c target/staticlib/libplanner_c.a -o convert && ./convert forward < old.plan > new.plan
 */
#include "maiplur.h"

#include <stdio.h>
#include <string.h>

/* One byte more than the longest plan file, so that a longer input is refused for its length. */
static uint8_t file[MAIPLUR_MOST_FILE + 1];

/* Puts the new file on standard output, or says why there is none. */
static int finish(uint32_t refused, const uint8_t *out, const size_t values[3]) {
    if (refused) {
        fprintf(stderr, "refused %u row %zu entry %zu\n", (unsigned)refused, values[0], values[1]);
        return 1;
    }
    return fwrite(out, 1, values[0], stdout) == values[0] && fflush(stdout) == 0 ? 0 : 2;
}

static int forward(size_t length) {
    static uint8_t second[MAIPLUR_MOST_FILE];
    size_t values[3];
    uint32_t refused = maiplur_convert_forward(file, length, second, sizeof second, values);
    return finish(refused, second, values);
}

static int back(size_t length) {
    static uint8_t first[MAIPLUR_MOST_FIRST];
    size_t values[3];
    uint32_t refused = maiplur_convert_back(file, length, first, sizeof first, values);
    return finish(refused, first, values);
}

int main(int count, char **arguments) {
    const char *way = count == 2 ? arguments[1] : "";
    int is_forward = strcmp(way, "forward") == 0;
    if (!is_forward && strcmp(way, "back") != 0) {
        fprintf(stderr, "usage: convert forward|back\n");
        return 2;
    }
    size_t length = fread(file, 1, sizeof file, stdin);
    if (ferror(stdin)) {
        return 2;
    }
    return is_forward ? forward(length) : back(length);
}
