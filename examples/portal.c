/* A small portal: loads a job from a file, runs it, and publishes its board.

       make lib
       cc -std=c11 -Wall -Wextra -I include examples/portal.c include/libportal.a -o portal
       ./portal job-file

   The board goes to standard output, for the public, and only where the run has finished: where an unfinished board ends may depend on house numbers. How
   the run ended goes to standard error, for the house. With --unfinished the lines of a stopped run are put out, too: for the house, to look into a stop.

   Exit status: 0 the board is out; 1 the job was turned back or stopped; 2 a wrong call, a file that cannot be read, a board that cannot be written. */
#include <inttypes.h>
#include <stdio.h>
#include <string.h>

#include "portal.h"

enum { PUBLIC = 0, BUDGET = 100000, LINES = 256 };

static int fail(const char *what) {
    fprintf(stderr, "portal: %s\n", what);
    return 2;
}

int main(int argc, char **argv) {
    static uint8_t job[PORTAL_MAX_JOB + 1]; /* one byte more, so that a longer job is seen */
    static uint8_t lines[PORTAL_LINE_BYTES * LINES];
    int unfinished = argc == 3 && strcmp(argv[1], "--unfinished") == 0;
    if (argc != 2 + unfinished) {
        return fail("usage: portal [--unfinished] JOB-FILE");
    }
    FILE *file = fopen(argv[argc - 1], "rb");
    if (file == NULL) {
        return fail("there is no such file, or it cannot be opened");
    }
    size_t length = fread(job, 1, sizeof job, file);
    int unread = ferror(file);
    fclose(file);
    if (unread) {
        return fail("the file cannot be read");
    }

    uint64_t answer = portal_run(job, length, BUDGET, lines, sizeof lines);
    int ending = portal_ending(answer);
    fprintf(stderr, "ending %d %s\n", ending, portal_ending_name(ending));
    if (ending == PORTAL_FINISHED || unfinished) {
        for (size_t i = 0; i < portal_lines(answer); i++) {
            if (portal_sees(PUBLIC, portal_readers(lines, i))) { /* the others are for their readers alone */
                printf("%" PRId32 "\n", portal_line(lines, i));
            }
        }
    }
    /* A board that is lost to a full disk is a failure, too. */
    if (fflush(stdout) != 0 || ferror(stdout)) {
        return fail("the board cannot be written");
    }
    return ending == PORTAL_FINISHED ? 0 : 1;
}
