/* A portal that moves its tree each week: writes it as a job, loads that into a fresh table, and goes on.

       make lib
       cc -std=c11 -Wall -Wextra -I include examples/moving.c include/libportal.a -o moving
       ./moving archive-file job-file script-file ..

   The archive file is the job of the last week, and is written anew after each script: with it, this program goes on where it ended. In a fresh table the nodes
   stand close together again, whatever removals have left of the old one. The boards go to standard output, for the public, and only those of runs that have
   finished. How each run ended, and how long the written job is, goes to standard error, for the house, and the archive has its numbers. A run that is stopped
   ends the season: examples/standing.c shows how to go on.

   Exit status: 0 every board is out; 1 a run was turned back or stopped; 2 a wrong call, a file that cannot be read or written, a board that cannot be written. */
#include <inttypes.h>
#include <stdio.h>

#include "portal.h"

enum { PUBLIC = 0, BUDGET = 100000, LINES = 256 };

/* What the portal keeps between calls. */
struct standing {
    uint32_t table[PORTAL_MAX_WORDS];
    uint8_t levels[PORTAL_MAX_VARIABLES];
    int32_t values[PORTAL_MAX_VARIABLES];
    size_t variables;
};

static uint8_t bytes[PORTAL_MAX_JOB + 1]; /* one byte more, so that a longer job is seen */
static uint8_t lines[PORTAL_LINE_BYTES * LINES];

static int fail(const char *what) {
    fprintf(stderr, "moving: %s\n", what);
    return 2;
}

/* Reads a file, or as much of it as there is room for; -1 where it cannot be read. */
static long load(const char *name) {
    FILE *file = fopen(name, "rb");
    if (file == NULL) {
        return -1;
    }
    size_t length = fread(bytes, 1, sizeof bytes, file);
    int unread = ferror(file);
    fclose(file);
    return unread ? -1 : (long)length;
}

/* Whether all of it was written. */
static int store(const char *name, const uint8_t *data, size_t length) {
    FILE *file = fopen(name, "wb");
    if (file == NULL) {
        return 0;
    }
    size_t put = fwrite(data, 1, length, file);
    return fclose(file) == 0 && put == length;
}

/* Says how a run ended, and publishes its board where it has finished. Whether it has. */
static int show(const char *name, uint64_t answer) {
    int ending = portal_ending(answer);
    fprintf(stderr, "%s: ending %d %s\n", name, ending, portal_ending_name(ending));
    if (ending != PORTAL_FINISHED) {
        return 0;
    }
    printf("board of %s\n", name);
    for (size_t i = 0; i < portal_lines(answer); i++) {
        if (portal_sees(PUBLIC, portal_readers(lines, i))) { /* the others are for their readers alone */
            printf("%" PRId32 "\n", portal_line(lines, i));
        }
    }
    return 1;
}

/* A job, into a table that may hold anything. */
static uint64_t start(struct standing *now, const uint8_t *job, size_t length) {
    now->variables = portal_variables(job, length);
    return portal_start(job, length, BUDGET, now->table, PORTAL_MAX_WORDS, now->levels, PORTAL_MAX_VARIABLES, now->values, PORTAL_MAX_VARIABLES, lines,
                        sizeof lines);
}

/* Writes what stands to the archive, and moves it to a fresh table. Whether it stands there. */
static int move(const char *archive, const struct standing *now, struct standing *fresh) {
    static uint8_t job[PORTAL_MAX_WRITTEN];
    uint64_t length = portal_write(now->table, PORTAL_MAX_WORDS, now->levels, now->variables, now->values, now->variables, job, sizeof job);
    if (!portal_wrote(length) || !store(archive, job, (size_t)length)) {
        return 0;
    }
    fprintf(stderr, "moved: %" PRIu64 " bytes\n", length);
    return portal_ending(start(fresh, job, (size_t)length)) == PORTAL_FINISHED;
}

int main(int argc, char **argv) {
    static struct standing tables[2];
    if (argc < 3) {
        return fail("usage: moving ARCHIVE-FILE JOB-FILE SCRIPT-FILE..");
    }
    long length = load(argv[2]);
    if (length < 0) {
        return fail("the job file cannot be read");
    }
    if (!show(argv[2], start(&tables[0], bytes, (size_t)length))) {
        return 1;
    }
    for (int i = 3; i < argc; i++) {
        struct standing *now = &tables[(i - 3) % 2], *fresh = &tables[(i - 2) % 2];
        length = load(argv[i]);
        if (length < 0) {
            return fail("a script file cannot be read");
        }
        uint64_t answer = portal_follow(bytes, (size_t)length, BUDGET, now->table, PORTAL_MAX_WORDS, now->levels, now->variables, now->values, now->variables,
                                        lines, sizeof lines);
        if (!show(argv[i], answer)) {
            return 1;
        }
        if (!move(argv[1], now, fresh)) {
            return fail("the archive file cannot be written");
        }
    }
    /* A board that is lost to a full disk is a failure, too. */
    if (fflush(stdout) != 0 || ferror(stdout)) {
        return fail("the board cannot be written");
    }
    return 0;
}
