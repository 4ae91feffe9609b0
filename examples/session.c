/* Tries changes to one controller. Does it still have a map if its third task must end a little earlier? And if its
 * second task then moves elsewhere? The session stores its map and the times under it, so that asking again costs little.
 *
 * gcc -Iinclude examples/session.c target/staticlib/libplanner_c.a -o session && ./session
 */
#include "maiplur.h"

#include <stdio.h>

enum { TASK = 1 << 16 }; /* kind 1 in the first word of an entry, above its number */

static void show_map(const maiplur_session *session) {
    uint8_t levels[MAIPLUR_MOST_LEVELS];
    size_t values[3];
    uint32_t refused = maiplur_session_map(session, levels, sizeof levels, values);
    if (refused) {
        printf("map: refused %u\n", (unsigned)refused);
        return;
    }
    printf("map: %zu levels,", values[0]);
    for (uint32_t i = 0; i < session->count; i++) {
        printf(" %u", (unsigned)levels[i]);
    }
    printf("\n");
}

/* When the entry at `i` ends under the map; the first time and again, the answer comes from the session's store. */
static void show_map_time(const maiplur_session *session, size_t i) {
    size_t values[3], again[3];
    uint32_t refused = maiplur_session_map_time(session, i, values);
    if (maiplur_session_map_time(session, i, again) != refused || again[0] != values[0]) {
        printf("another answer\n");
    } else if (refused) {
        printf("entry %zu: refused %u\n", i, (unsigned)refused);
    } else {
        printf("entry %zu: time %zu\n", i, values[0]);
    }
}

static void show_map_times(const maiplur_session *session) {
    show_map(session);
    for (size_t i = 0; i < session->count; i++) {
        show_map_time(session, i);
    }
}

/* Times the third entry, on one level with the second and after the first. */
static void show_time(const maiplur_session *session) {
    size_t values[3];
    uint32_t refused = maiplur_session_time(session, 1, 2, 2, values);
    if (refused) {
        printf("time: refused %u\n", (unsigned)refused);
    } else if (values[0] == 0) {
        printf("time: late by %zu, rounds %zu\n", values[2], values[1]);
    } else {
        printf("time: %zu, rounds %zu\n", values[0], values[1]);
    }
}

static void show_change(const char *change, uint32_t refused, const size_t values[3]) {
    if (refused) {
        printf("%s: refused %u row %zu entry %zu\n", change, (unsigned)refused, values[0], values[1]);
    } else {
        printf("%s: done\n", change);
    }
}

/* One level is too few for the map, which is there again with two. */
static void try_levels(maiplur_session *session) {
    size_t values[3];
    show_change("set levels", maiplur_session_set_levels(session, 1, values), values);
    show_map_times(session);
    show_change("set levels", maiplur_session_set_levels(session, 2, values), values);
    show_map_times(session);
}

/* The third task must end earlier; then the second goes, and one level is left. */
static void try_changes(maiplur_session *session) {
    static const uint32_t earlier[6] = {TASK + 3, 68, 150, 137, 0, 0};
    size_t values[3];
    show_change("replace", maiplur_session_replace(session, 2, earlier, values), values);
    show_map_times(session);
    show_time(session);
    show_change("remove", maiplur_session_remove(session, 1, values), values);
    show_change("set levels", maiplur_session_set_levels(session, 1, values), values);
    show_map_times(session);
    show_time(session);
}

/* The last task may start late, as long as its jitter leaves it time to run. */
static void try_jitter(maiplur_session *session) {
    static const uint32_t starts_late[6] = {TASK + 3, 68, 150, 137, 0, 49};
    static const uint32_t too_late[6] = {TASK + 3, 68, 150, 137, 0, 70};
    size_t values[3];
    show_change("replace", maiplur_session_replace(session, 1, starts_late, values), values);
    show_map(session);
    show_change("replace", maiplur_session_replace(session, 1, too_late, values), values);
}

/* A copied row keeps its number, so the copy is refused until it gets one of its own. */
static void try_copy(maiplur_session *session) {
    static const uint32_t copied[6] = {TASK + 1, 1, 500, 500, 0, 0};
    static const uint32_t renumbered[6] = {TASK + 4, 1, 500, 500, 0, 0};
    size_t values[3];
    show_change("insert", maiplur_session_insert(session, 2, copied, values), values);
    show_change("insert", maiplur_session_insert(session, 2, renumbered, values), values);
    show_change("replace", maiplur_session_replace(session, 2, renumbered, values), values);
    show_change("replace", maiplur_session_replace(session, 2, copied, values), values);
    show_change("remove", maiplur_session_remove(session, 2, values), values);
}

/* Refused changes leave the session as it is. */
static void try_refused(maiplur_session *session) {
    static const uint32_t long_run[6] = {TASK + 4, 6, 10, 5, 0, 0};
    size_t values[3];
    show_change("insert", maiplur_session_insert(session, 1, long_run, values), values);
    show_change("remove", maiplur_session_remove(session, 2, values), values);
    show_change("set levels", maiplur_session_set_levels(session, 0, values), values);
    show_map_times(session);
    show_map_time(session, session->count);
}

int main(void) {
    /* Number and kind, C, T, D, B and J. */
    static const uint32_t entries[3][6] = {
        {TASK + 1, 20, 100, 100, 0, 0},
        {TASK + 2, 30, 145, 145, 0, 0},
        {TASK + 3, 68, 150, 150, 0, 0},
    };
    static maiplur_session session;
    size_t values[3];
    if (maiplur_session_open(&session, 2, values)) {
        return 1;
    }
    for (size_t i = 0; i < 3; i++) {
        if (maiplur_session_insert(&session, i, entries[i], values)) {
            return 1;
        }
    }
    show_map_times(&session);
    show_time(&session);
    try_levels(&session);
    try_changes(&session);
    try_jitter(&session);
    try_copy(&session);
    try_refused(&session);
    return 0;
}
