/* A portal that keeps a tree: starts it from a job file, runs script after script over it, and publishes their boards.

       make lib
       cc -std=c11 -Wall -Wextra -I include examples/standing.c include/libportal.a -o standing
       ./standing job-file script-file ..

   A script file holds a bare script section. The boards go to standard output, for the public, and only those of runs that have finished. How each run ended
   goes to standard error, for the house. What a stopped script did to the tree is undone: where it stopped may depend on house numbers, and the next script
   could print what the stop left. A job that is stopped has left no tree to go on with.

   Exit status: 0 every board is out; 1 a run was turned back or stopped; 2 a wrong call, a file that cannot be read, a board that cannot be written. */
#include <inttypes.h>
#include <stdio.h>

#include "portal.h"

enum { PUBLIC = 0, BUDGET = 100000, LINES = 256 };

/* What the portal keeps between calls; a copy of it is as good. */
struct standing {
    uint32_t table[PORTAL_MAX_WORDS];
    uint8_t levels[PORTAL_MAX_VARIABLES];
    int32_t values[PORTAL_MAX_VARIABLES];
    size_t variables;
};

static int fail(const char *what) {
    fprintf(stderr, "standing: %s\n", what);
    return 2;
}

/* Reads a file, or as much of it as there is room for; -1 where it cannot be read. */
static long load(const char *name, uint8_t *bytes, size_t room) {
    FILE *file = fopen(name, "rb");
    if (file == NULL) {
        return -1;
    }
    size_t length = fread(bytes, 1, room, file);
    int unread = ferror(file);
    fclose(file);
    return unread ? -1 : (long)length;
}

/* Says how a run ended, and publishes its board where it has finished. Whether it has. */
static int show(const char *name, uint64_t answer, const uint8_t *lines) {
    int ending = portal_ending(answer);
    fprintf(stderr, "%s: ending %d %s\n", name, ending, portal_ending_name(ending));
    if (ending != PORTAL_FINISHED) {
        return 0;
    }
    printf("board of %s\n", name);
    for (size_t i = 0; i < portal_lines(answer); i++) {
        if (portal_sees(PUBLIC, portal_readers(lines, i))) { /* the others are for their readers alone */
            printf("%" PRId32 "\n", portal_line(lines, i));
        }
    }
    return 1;
}

int main(int argc, char **argv) {
    static uint8_t bytes[PORTAL_MAX_JOB + 1]; /* one byte more, so that a longer job is seen */
    static uint8_t lines[PORTAL_LINE_BYTES * LINES];
    static struct standing now, before;
    if (argc < 2) {
        return fail("usage: standing JOB-FILE SCRIPT-FILE..");
    }
    long length = load(argv[1], bytes, sizeof bytes);
    if (length < 0) {
        return fail("the job file cannot be read");
    }
    uint64_t answer = portal_start(bytes, (size_t)length, BUDGET, now.table, PORTAL_MAX_WORDS, now.levels, PORTAL_MAX_VARIABLES, now.values,
                                   PORTAL_MAX_VARIABLES, lines, sizeof lines);
    if (!show(argv[1], answer, lines)) {
        return 1;
    }
    now.variables = portal_variables(bytes, (size_t)length);

    int finished = 1;
    for (int i = 2; i < argc; i++) {
        length = load(argv[i], bytes, sizeof bytes);
        if (length < 0) {
            return fail("a script file cannot be read");
        }
        before = now;
        answer = portal_follow(bytes, (size_t)length, BUDGET, now.table, PORTAL_MAX_WORDS, now.levels, now.variables, now.values, now.variables, lines,
                               sizeof lines);
        if (!show(argv[i], answer, lines)) {
            now = before;
            finished = 0;
        }
    }
    /* A board that is lost to a full disk is a failure, too. */
    if (fflush(stdout) != 0 || ferror(stdout)) {
        return fail("the board cannot be written");
    }
    return finished ? 0 : 1;
}
