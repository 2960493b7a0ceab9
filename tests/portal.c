/* The call portal_run from C: endings, lines, and that nothing else of the area is written. The jobs are those of the paper. */
#include <stdio.h>
#include <stdlib.h>
#include <string.h>

#include "portal.h"

enum { ROOM = 64, MARK = 0xa5 };

static uint8_t area[ROOM];
static int checked;

static void fail(const char *what, const char *part, long long expected, long long got) {
    fprintf(stderr, "FAILED: %s: %s: expected %lld, got %lld\n", what, part, expected, got);
    exit(1);
}

static void same(const char *what, const char *part, long long expected, long long got) {
    if (expected != got) {
        fail(what, part, expected, got);
    }
    checked++;
}

/* Runs a job with the first room bytes of the area, which are marked before; the lines are all to be 10. */
static void expect(const char *what, const uint8_t *job, size_t length, uint64_t budget, size_t room, int ending, size_t lines) {
    memset(area, MARK, sizeof area);
    uint64_t answer = portal_run(job, length, budget, area, room);
    same(what, "ending", ending, portal_ending(answer));
    same(what, "lines", (long long)lines, (long long)portal_lines(answer));
    same(what, "answer", (long long)((uint64_t)ending * 4294967296u + lines), (long long)answer);
    for (size_t i = 0; i < lines; i++) {
        same(what, "line", 10, portal_line(area, i));
        same(what, "readers", 0, portal_readers(area, i));
    }
    for (size_t i = PORTAL_LINE_BYTES * lines; i < sizeof area; i++) {
        same(what, "a byte behind the lines", MARK, area[i]);
    }
}

/* No variables, a root of value 10, command 6 of value: the paper's example. */
static const uint8_t example[36] = {0xff, 0xff, 0, 0, 0, 0, 0, 0, 10, 0, 0, 0, 6, 0, 0, 2, 0, 0, 0, 0, 0, 0, 0, 0, 0, 0, 0, 0, 0, 0, 0, 0, 12, 0, 28, 0};

/* The same root; while 1, command 6 of value, end. */
static const uint8_t forever[68] = {
    0xff, 0xff, 0, 0, 0, 0, 0, 0, 10, 0, 0, 0,
    4, 0, 0, 0, 0, 0, 0, 0, 1, 0, 0, 0, 0, 0, 0, 0,
    6, 0, 0, 2, 0, 0, 0, 0, 0, 0, 0, 0, 0, 0, 0, 0,
    5, 0, 0, 0, 0, 0, 0, 0, 0, 0, 0, 0, 0, 0, 0, 0,
    0, 0, 0, 0, 12, 0, 60, 0};

/* A node that hangs below record 1 and stands behind record 2. */
static const uint8_t astray[56] = {
    0xff, 0xff, 0, 0, 0, 0, 0, 0, 10, 0, 0, 0, /* the root */
    0, 0, 0, 0, 0, 0, 0, 0, 1, 0, 0, 0,
    0, 0, 0, 0, 0, 0, 0, 0, 2, 0, 0, 0,
    1, 0, 0, 0, 0, 0, 0, 0, 3, 0, 0, 0,
    0, 0, 0, 0, 48, 0, 48, 0};

/* The same root; command 6 of value for parties 2 and 3. */
static void for_readers(void) {
    uint8_t job[sizeof example];
    memcpy(job, example, sizeof job);
    job[13] = 6;
    memset(area, MARK, sizeof area);
    uint64_t answer = portal_run(job, sizeof job, 1, area, ROOM);
    same("a line for two parties", "answer", 1, (long long)answer);
    same("a line for two parties", "number", 10, portal_line(area, 0));
    same("a line for two parties", "readers", 6, portal_readers(area, 0));
    same("a line for two parties", "the byte behind", MARK, area[5]);
}

/* An area that is not there, of length 0. */
static void no_area(void) {
    uint64_t answer = portal_run(example, sizeof example, 1, NULL, 0);
    same("no area", "ending", PORTAL_BOARD_FULL, portal_ending(answer));
    same("no area", "lines", 0, (long long)portal_lines(answer));
    answer = portal_run(NULL, 0, 0, NULL, 0);
    same("neither job nor area", "ending", PORTAL_WRONG_SIZE, portal_ending(answer));
}

/* Each ending has a name of its own; what is none has not. */
static void names(void) {
    int named = 0;
    for (int ending = -1; ending <= 40; ending++) {
        int known = ending == 0 || (1 <= ending && ending <= 15) || (21 <= ending && ending <= 25) || ending == 27;
        same("portal_ending_name", "known", known, strcmp(portal_ending_name(ending), "unknown") != 0);
        named += known;
        for (int other = 0; known && other < ending; other++) {
            same("portal_ending_name", "another name", 1, strcmp(portal_ending_name(ending), portal_ending_name(other)) != 0);
        }
    }
    same("portal_ending_name", "how many", 22, named);
    same("portal_ending_name", "finished", 0, strcmp(portal_ending_name(PORTAL_FINISHED), "finished"));
}

static void versions(void) {
    char text[32];
    snprintf(text, sizeof text, "%d.%d.%d", PORTAL_VERSION_MAJOR, PORTAL_VERSION_MINOR, PORTAL_VERSION_PATCH);
    same("PORTAL_VERSION", "its numbers", 0, strcmp(text, PORTAL_VERSION));
    same("PORTAL_MAX_LINES", "number", 1000000, PORTAL_MAX_LINES);
    same("PORTAL_LINE_BYTES", "number", 5, PORTAL_LINE_BYTES);
    same("PORTAL_MAX_SCRIPT", "number", 16384, PORTAL_MAX_SCRIPT);
    same("PORTAL_MAX_WORDS", "number", 5120, PORTAL_MAX_WORDS);
}

int main(void) {
    static const uint8_t zeros[23049];
    expect("the paper's example", example, sizeof example, 100000, ROOM, PORTAL_FINISHED, 1);
    expect("room for one line", example, sizeof example, 1, 5, PORTAL_FINISHED, 1);
    expect("9 bytes of room", example, sizeof example, 1, 9, PORTAL_FINISHED, 1);
    expect("4 bytes of room", example, sizeof example, 1, 4, PORTAL_BOARD_FULL, 0);
    expect("no room", example, sizeof example, 1, 0, PORTAL_BOARD_FULL, 0);
    expect("room for three lines and 4 bytes", forever, sizeof forever, 100, 19, PORTAL_BOARD_FULL, 3);
    expect("a budget of 5", forever, sizeof forever, 5, ROOM, PORTAL_BUDGET_USED_UP, 2);
    expect("a budget of 0", example, sizeof example, 0, ROOM, PORTAL_BAD_BUDGET, 0);
    expect("a budget of 1000000", example, sizeof example, 1000000, ROOM, PORTAL_FINISHED, 1);
    expect("a budget of 1000001", example, sizeof example, 1000001, ROOM, PORTAL_BAD_BUDGET, 0);
    expect("a budget of 2^32 + 1", example, sizeof example, 4294967297u, ROOM, PORTAL_BAD_BUDGET, 0);
    expect("the largest budget", example, sizeof example, UINT64_MAX, ROOM, PORTAL_BAD_BUDGET, 0);
    expect("7 bytes", example, 7, 1, ROOM, PORTAL_WRONG_SIZE, 0);
    expect("no bytes", example, 0, 1, ROOM, PORTAL_WRONG_SIZE, 0);
    expect("23049 bytes", zeros, 23049, 1, ROOM, PORTAL_WRONG_SIZE, 0);
    expect("23048 zero bytes", zeros, 23048, 1, ROOM, PORTAL_BROKEN_LAYOUT, 0);
    expect("8 zero bytes", zeros, 8, 1, ROOM, PORTAL_BAD_COUNT, 0);
    expect("a node behind the subtree of its parent", astray, sizeof astray, 1, ROOM, PORTAL_BAD_ORDER, 0);
    expect("the largest budget that is allowed", example, sizeof example, PORTAL_MAX_BUDGET, ROOM, PORTAL_FINISHED, 1);
    expect("a budget above", example, sizeof example, PORTAL_MAX_BUDGET + 1, ROOM, PORTAL_BAD_BUDGET, 0);
    expect("the largest size", zeros, PORTAL_MAX_JOB, 1, ROOM, PORTAL_BROKEN_LAYOUT, 0);
    expect("a size above", zeros, PORTAL_MAX_JOB + 1, 1, ROOM, PORTAL_WRONG_SIZE, 0);
    expect("no job at all", NULL, 0, 1, ROOM, PORTAL_WRONG_SIZE, 0);
    no_area();
    names();
    versions();

    static const uint8_t ends[20] = {0, 0, 0, 0x80, 0, 0xff, 0xff, 0xff, 0x7f, 6, 0xff, 0xff, 0xff, 0xff, 255, 1, 2, 3, 4, 1};
    same("portal_line", "the least", -2147483647 - 1, portal_line(ends, 0));
    same("portal_line", "the greatest", 2147483647, portal_line(ends, 1));
    same("portal_line", "minus one", -1, portal_line(ends, 2));
    same("portal_line", "four bytes", 0x04030201, portal_line(ends, 3));
    same("portal_readers", "everyone", 0, portal_readers(ends, 0));
    same("portal_readers", "two parties", 6, portal_readers(ends, 1));
    same("portal_readers", "all parties", 255, portal_readers(ends, 2));
    same("portal_sees", "the public, a line for everyone", 1, portal_sees(0, 0));
    same("portal_sees", "the public, a line of a party", 0, portal_sees(0, 2));
    same("portal_sees", "one of two parties", 0, portal_sees(2, 6));
    same("portal_sees", "both of them", 1, portal_sees(6, 6));
    same("portal_sees", "another party", 0, portal_sees(1, 2));
    for_readers();
    printf("portal: %d comparisons in C\n", checked);
    return 0;
}
