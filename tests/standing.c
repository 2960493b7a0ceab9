/* portal_start, portal_follow and portal_write from C. Every lent area lies between two pages that nobody may touch, and touches one of them. First come endings and
   lines, each way in which a table holds no tree, and a job that is written; then so many rounds with table and variables filled with random numbers, and as many
   with what a job and a script left, as it is or changed in one place; in each of them what stands is written, too. What a table must be is written here once more,
   from the paper.

       standing ROUNDS

   All of it runs on a stack of 64 kilobytes. */
#define _GNU_SOURCE
#include <pthread.h>
#include <stdio.h>
#include <stdlib.h>
#include <string.h>
#include <sys/mman.h>

#include "portal.h"

enum { PAGE = 4096, MARK = 0xa5, NONE = 65535, STACK = 64 * 1024, PLACE = 4 * PORTAL_PLACE_WORDS };
enum { FIRST, RIGHT, PARENT, EXISTENCE, VALUE, CHILDREN, CONTENT, LIST, LEFT, LAST };

static long checked;
static const char *doing = "nothing yet";

static void same(const char *part, long long expected, long long got) {
    if (expected != got) {
        fprintf(stderr, "FAILED: %s: %s: expected %lld, got %lld\n", doing, part, expected, got);
        exit(1);
    }
    checked++;
}

/* An area in a room of some pages, between two pages that nobody may touch, and a copy of the room. */
struct area {
    size_t room, length;
    uint8_t *all, *copy, *at;
};

static struct area script = {.room = 6 * PAGE}, table = {.room = 6 * PAGE}, levels = {.room = PAGE}, values = {.room = PAGE}, lines = {.room = PAGE};
static struct area output = {.room = 2 * PAGE};
static struct area *const areas[] = {&script, &table, &levels, &values, &lines, &output};

static void build(struct area *a) {
    uint8_t *pages = mmap(NULL, a->room + 2 * PAGE, PROT_NONE, MAP_PRIVATE | MAP_ANONYMOUS, -1, 0);
    a->copy = malloc(a->room);
    if (pages == MAP_FAILED || a->copy == NULL || mprotect(pages + PAGE, a->room, PROT_READ | PROT_WRITE) != 0) {
        perror("mmap");
        exit(2);
    }
    a->all = a->at = pages + PAGE;
    memset(a->all, MARK, a->room);
}

/* The area gets so many bytes, at the end of its room or at the beginning; what it held before stays in it, as far as there is room. */
static void cut(struct area *a, size_t length, int at_end) {
    uint8_t *at = at_end ? a->all + a->room - length : a->all;
    memmove(at, a->at, length < a->length ? length : a->length);
    a->at = at;
    a->length = length;
}

static void fill(struct area *a, const void *from, size_t length, int at_end) {
    cut(a, length, at_end);
    if (length != 0) {
        memcpy(a->at, from, length);
    }
}

/* Nothing in the room has changed but the first so many bytes of the area. */
static void stays(const char *part, const struct area *a, size_t but) {
    size_t from = (size_t)(a->at - a->all);
    same(part, 0, memcmp(a->all, a->copy, from));
    same(part, 0, memcmp(a->at + but, a->copy + from + but, a->room - from - but));
}

static uint32_t *place(size_t x) { return (uint32_t *)(void *)table.at + PORTAL_PLACE_WORDS * x; }

static int32_t *variables(void) { return (int32_t *)(void *)values.at; }

static uint64_t start(uint64_t budget) {
    return portal_start(script.length ? script.at : NULL, script.length, budget, table.length ? place(0) : NULL, table.length / 4,
                        levels.length ? levels.at : NULL, levels.length, values.length ? variables() : NULL, values.length / 4,
                        lines.length ? lines.at : NULL, lines.length);
}

static uint64_t follow(uint64_t budget) {
    return portal_follow(script.length ? script.at : NULL, script.length, budget, table.length ? place(0) : NULL, table.length / 4,
                         levels.length ? levels.at : NULL, levels.length, values.length ? variables() : NULL, values.length / 4,
                         lines.length ? lines.at : NULL, lines.length);
}

/* A call over what stands in the areas. Whatever that is, the ending is one of the list, and nothing has changed that may not. */
static uint64_t run(uint64_t (*call)(uint64_t), uint64_t budget) {
    for (size_t i = 0; i < sizeof areas / sizeof areas[0]; i++) {
        memcpy(areas[i]->copy, areas[i]->all, areas[i]->room);
    }
    uint64_t answer = call(budget);
    int ending = portal_ending(answer);
    int turned_back = 0 < ending && ending < PORTAL_FLOW;
    size_t put_out = portal_lines(answer), named = call == start ? portal_variables(script.at, script.length) : levels.length;
    same("an ending that there is", 1, strcmp(portal_ending_name(ending), "unknown") != 0);
    same("lines that there is room for", 1, turned_back ? put_out == 0 : put_out <= lines.length / PORTAL_LINE_BYTES);
    stays("the script", &script, 0);
    stays("the table", &table, turned_back ? 0 : table.length / PLACE * PLACE);
    stays("the levels", &levels, turned_back || call == follow ? 0 : named);
    stays("the values", &values, turned_back ? 0 : 4 * named);
    stays("the lines", &lines, PORTAL_LINE_BYTES * put_out);
    stays("the area", &output, 0);
    return answer;
}

/* What stands, written as a job into an area of so many bytes: the answer. Nothing has changed but the job's bytes. */
static uint64_t write_back(size_t room, int at_end) {
    memset(output.all, MARK, output.room);
    cut(&output, room, at_end);
    for (size_t i = 0; i < sizeof areas / sizeof areas[0]; i++) {
        memcpy(areas[i]->copy, areas[i]->all, areas[i]->room);
    }
    uint64_t answer = portal_write(table.length ? place(0) : NULL, table.length / 4, levels.length ? levels.at : NULL, levels.length,
                                   values.length ? variables() : NULL, values.length / 4, output.length ? output.at : NULL, output.length);
    for (size_t i = 0; areas[i] != &output; i++) {
        stays("what is read only", areas[i], 0);
    }
    stays("the area", &output, portal_wrote(answer) ? (size_t)answer : 0);
    return answer;
}

static void ends(const char *what, uint64_t (*call)(uint64_t), uint64_t budget, int ending, size_t count) {
    doing = what;
    uint64_t answer = run(call, budget);
    same("ending", ending, portal_ending(answer));
    same("lines", (long long)count, (long long)portal_lines(answer));
}

/* Jobs and scripts. */
static uint8_t text[PORTAL_MAX_JOB + 1];
static size_t written;

static void put(uint32_t number, int count) {
    for (int i = 0; i < count; i++) {
        text[written++] = (uint8_t)(number >> 8 * i);
    }
}

static void record(int command, int target, int operator, int left_kind, int right_kind, int32_t left, int32_t right) {
    put((uint32_t)command, 1);
    put((uint32_t)target, 1);
    put((uint32_t)operator, 1);
    put((uint32_t)left_kind, 1);
    put((uint32_t)right_kind, 4);
    put((uint32_t)left, 4);
    put((uint32_t)right, 4);
}

static void node(uint32_t parent, uint32_t existence, uint32_t content, uint32_t list, uint32_t value) {
    put(parent, 2);
    put(existence, 1);
    put(content, 1);
    put(list, 4);
    put(value, 4);
}

static void trailer(size_t nodes_at, size_t script_at) {
    size_t end = written;
    put(0, 2);
    put((uint32_t)nodes_at, 2);
    put((uint32_t)script_at, 2);
    put((uint32_t)end, 2);
}

/* What was written becomes the script or the job of the next call. */
static void give(int at_end) {
    fill(&script, text, written, at_end);
    written = 0;
}

/* The sets that the last record joins, in its bytes 5 and 6. */
static void joins(uint8_t content, uint8_t list) {
    text[written - 11] = content;
    text[written - 10] = list;
}

enum { CONSTANT, VARIABLE, NODE_VALUE, NODE_CHILDREN };

static void command(int number) { record(number, 0, 0, 0, 0, 0, 0); }
static void print(int kind, int32_t number) { record(6, 0, 0, kind, 0, number, 0); }

/* Two variables, count of 0 and the house's beds of 40; a root of value 10; the script prints it. */
static void small_job(void) {
    put(0, 8);
    put(1, 4);
    put(40, 4);
    node(NONE, 0, 0, 0, 10);
    print(NODE_VALUE, 0);
    trailer(16, 28);
    give(1);
}

static void lend(size_t table_words, size_t level_count, size_t value_count, size_t line_bytes) {
    cut(&table, 4 * table_words, 1);
    cut(&levels, level_count, 1);
    cut(&values, 4 * value_count, 1);
    cut(&lines, line_bytes, 1);
}

static void starts(void) {
    small_job();
    cut(&lines, PORTAL_LINE_BYTES, 1);
    same("portal_run on this stack", 1, (long long)portal_run(script.at, script.length, 1, lines.at, lines.length));
    static const struct {
        const char *what;
        size_t words, levels, values, lines;
        int ending;
    } cases[] = {
        {"one place", 10, 2, 2, 5, PORTAL_FINISHED},
        {"one place, and nine words more", 19, 2, 2, 9, PORTAL_FINISHED},
        {"nine words", 9, 2, 2, 5, PORTAL_BAD_BUFFERS},
        {"no table", 0, 2, 2, 5, PORTAL_BAD_BUFFERS},
        {"512 places", 5120, 2, 2, 5, PORTAL_FINISHED},
        {"512 places, and nine words more", 5129, 2, 2, 5, PORTAL_FINISHED},
        {"513 places", 5130, 2, 2, 5, PORTAL_BAD_BUFFERS},
        {"a level for one variable", 10, 1, 2, 5, PORTAL_BAD_BUFFERS},
        {"a value for one variable", 10, 2, 1, 5, PORTAL_BAD_BUFFERS},
        {"no variables", 10, 0, 0, 5, PORTAL_BAD_BUFFERS},
        {"more than enough variables", 10, 64, 65, 5, PORTAL_FINISHED},
        {"no room for a line", 10, 2, 2, 4, PORTAL_BOARD_FULL},
        {"no area", 10, 2, 2, 0, PORTAL_BOARD_FULL},
    };
    for (size_t i = 0; i < sizeof cases / sizeof cases[0]; i++) {
        lend(cases[i].words, cases[i].levels, cases[i].values, cases[i].lines);
        ends(cases[i].what, start, 1, cases[i].ending, cases[i].ending == PORTAL_FINISHED);
    }
    lend(10, 2, 2, PORTAL_LINE_BYTES);
    ends("a start with no budget", start, 0, PORTAL_BAD_BUDGET, 0);
    ends("a start with a budget of 1,000,001", start, 1000001, PORTAL_BAD_BUDGET, 0);
    cut(&script, 7, 1);
    ends("7 bytes", start, 1, PORTAL_WRONG_SIZE, 0);
    cut(&script, 0, 1);
    ends("no bytes", start, 1, PORTAL_WRONG_SIZE, 0);
    same("variables of no bytes", 0, (long long)portal_variables(NULL, 0));
    static const uint8_t full[8] = {0, 0, 0, 2}, above[8] = {0, 0, 8, 2};
    same("variables, the most", 64, (long long)portal_variables(full, 8));
    same("variables, more than the most", 0, (long long)portal_variables(above, 8));
}

/* Script after script over one tree. The lines are worked out by hand. */
static void history(void) {
    lend(4 * PORTAL_PLACE_WORDS, 64, 64, 64);
    small_job();
    same("variables", 2, (long long)portal_variables(script.at, script.length));
    ends("the job", start, 10, PORTAL_FINISHED, 1);
    same("the root's value", 10, portal_line(lines.at, 0));
    cut(&levels, 2, 1);
    cut(&values, 8, 1);
    same("levels", 0x0100, levels.at[0] + 256 * levels.at[1]);
    same("beds", 40, variables()[1]);

    give(1);
    ends("an empty script", follow, 1, PORTAL_FINISHED, 0);
    record(11, 0, 0, CONSTANT, 0, 5, 0);
    print(NODE_CHILDREN, 0);
    give(1);
    ends("a new child", follow, 10, PORTAL_FINISHED, 1);
    same("children", 1, portal_line(lines.at, 0));

    command(9);
    print(NODE_VALUE, 0);
    record(12, 0, 1, NODE_VALUE, CONSTANT, 0, 1);
    give(1);
    ends("a new sibling", follow, 10, PORTAL_FINISHED, 1);
    same("the child's value", 5, portal_line(lines.at, 0));

    print(NODE_CHILDREN, 0);
    command(9);
    command(10);
    print(NODE_VALUE, 0);
    give(1);
    ends("both", follow, 10, PORTAL_FINISHED, 2);
    same("children", 2, portal_line(lines.at, 0));
    same("the sibling's value", 6, portal_line(lines.at, 1));
    ends("a budget of its own", follow, 3, PORTAL_BUDGET_USED_UP, 1);

    command(13);
    print(NODE_CHILDREN, 0);
    for (int i = 0; i < 3; i++) {
        record(11, 0, 0, CONSTANT, 0, 7, 0);
        print(NODE_CHILDREN, 0);
    }
    give(1);
    ends("the child is removed, and four places are full", follow, 100, PORTAL_TABLE_FULL, 3);
    same("one is left", 1, portal_line(lines.at, 0));
    same("and two are new", 3, portal_line(lines.at, 2));

    record(4, 0, 4, VARIABLE, CONSTANT, 0, 100);
    record(1, 0, 1, VARIABLE, CONSTANT, 0, 1);
    record(2, 0, 3, VARIABLE, VARIABLE, 0, 1);
    command(8);
    command(5);
    command(5);
    give(1);
    ends("a count that stops at a house number", follow, 1000, PORTAL_NO_NODE, 0);
    same("what the stop left", 40, variables()[0]);

    record(15, 0, 0, CONSTANT, 0, -1, 0);
    give(1);
    ends("the root is changed", follow, 1, PORTAL_FINISHED, 0);
    cut(&table, 600 * PORTAL_PLACE_WORDS, 0);
    print(NODE_VALUE, 0);
    print(VARIABLE, 0);
    print(VARIABLE, 1);
    give(0);
    ends("more places, and another address", follow, 10, PORTAL_FLOW, 2);
    same("the root's value", -1, portal_line(lines.at, 0));
    same("the count", 40, portal_line(lines.at, 1));
}

/* The checks, in the order 11, 7, 8, 9, 10. */
static void refusals(void) {
    lend(PORTAL_PLACE_WORDS, 64, 64, PORTAL_LINE_BYTES);
    small_job();
    ends("the job", start, 10, PORTAL_FINISHED, 1);
    lend(PORTAL_PLACE_WORDS, 2, 2, PORTAL_LINE_BYTES);

    memset(text, 0, sizeof text);
    for (size_t length = 0; length <= 16400; length += length < 32 || length > 16380 ? 1 : 16) {
        written = length;
        give(1);
        int whole = length % 16 == 0 && length <= PORTAL_MAX_SCRIPT;
        ends("a script of so many zeros", follow, 1024, whole ? PORTAL_FINISHED : PORTAL_BAD_FOLLOW_ON, 0);
    }
    written = 15;
    give(1);
    ends("no whole record, and no budget", follow, 0, PORTAL_BAD_FOLLOW_ON, 0);
    command(2);
    command(20);
    give(1);
    ends("no such command, an open block, and no budget", follow, 0, PORTAL_BAD_FIELD, 0);
    record(1, 2, 0, CONSTANT, 0, 0, 0);
    give(1);
    ends("no third variable", follow, 1, PORTAL_BAD_FIELD, 0);
    command(2);
    give(1);
    ends("an open block, and no budget", follow, 0, PORTAL_BAD_BLOCKS, 0);
    cut(&table, 513 * PLACE, 1);
    give(1);
    ends("no budget, and 513 places", follow, 0, PORTAL_BAD_BUDGET, 0);
    ends("a budget of 1,000,001", follow, 1000001, PORTAL_BAD_BUDGET, 0);
    ends("513 places", follow, 1, PORTAL_BAD_BUFFERS, 0);
    cut(&table, 512 * PLACE, 1);
    ends("512 places", follow, 1, PORTAL_FINISHED, 0);
    cut(&table, 9 * 4, 1);
    ends("nine words", follow, 1, PORTAL_BAD_FOLLOW_ON, 0);
    cut(&table, 0, 1);
    ends("no table", follow, 1, PORTAL_BAD_FOLLOW_ON, 0);
}

/* Variables, over a tree that stands. */
static void lent_variables(void) {
    lend(PORTAL_PLACE_WORDS, 64, 64, PORTAL_LINE_BYTES);
    small_job();
    ends("the job", start, 10, PORTAL_FINISHED, 1);
    give(1);
    memset(levels.at, 0, 64);
    for (size_t n = 0; n <= 66; n++) {
        cut(&levels, n, 1);
        cut(&values, 4 * n, 1);
        memset(levels.at, n % 2, n);
        ends("so many variables", follow, 1, n <= 64 ? PORTAL_FINISHED : PORTAL_BAD_FOLLOW_ON, 0);
        cut(&levels, n + 1, 1);
        ends("a level more", follow, 1, PORTAL_BAD_FOLLOW_ON, 0);
        cut(&levels, n, 1);
        if (n != 0) {
            levels.at[n - 1] = 255; /* every byte is a set of parties */
            ends("a level of 255", follow, 1, n <= 64 ? PORTAL_FINISHED : PORTAL_BAD_FOLLOW_ON, 0);
            cut(&levels, n - 1, 1);
            ends("a value more", follow, 1, PORTAL_BAD_FOLLOW_ON, 0);
        }
    }
}

/* A table, by hand. Place 3 is free. The tree: the root with north and, of the house, east; below north a hut. */
enum { NORTH = 4, EAST = 1, HUT = 2, PLACES = 5 };
static const uint32_t by_hand[PLACES][PORTAL_PLACE_WORDS] = {
    [0] = {[FIRST] = NORTH, [RIGHT] = NONE, [PARENT] = NONE, [LEFT] = NONE, [LAST] = EAST, [CHILDREN] = 2, [LIST] = 1, [VALUE] = 10},
    [NORTH] = {[FIRST] = HUT, [RIGHT] = EAST, [PARENT] = 0, [LEFT] = NONE, [LAST] = HUT, [CHILDREN] = 1},
    [EAST] = {[FIRST] = NONE, [RIGHT] = NONE, [PARENT] = 0, [LEFT] = NORTH, [LAST] = NONE, [EXISTENCE] = 1, [CONTENT] = 3, [LIST] = 5},
    [HUT] = {[FIRST] = NONE, [RIGHT] = NONE, [PARENT] = NORTH, [LEFT] = NONE, [LAST] = NONE, [CONTENT] = 0xa0, [VALUE] = 0xffffffff},
    [3] = {77, 78, 79, 80, 81, 82, 83, 84, 85, 86},
};

static void lent_tables(void) {
    static const struct {
        const char *what;
        int place, word;
        uint32_t number;
        int ending;
    } cases[] = {
        {"the value of the root", 0, VALUE, 0x80000000, PORTAL_FINISHED},
        {"a free place", 3, FIRST, 3, PORTAL_FINISHED},
        {"the hut's value is public", HUT, CONTENT, 0, PORTAL_FINISHED},
        {"north's list is the house's, so that the script must stop", NORTH, LIST, 1, PORTAL_FLOW},
        {"the root is its own child", 0, FIRST, 0, PORTAL_BAD_FOLLOW_ON},
        {"a free place that leads back to nowhere", 3, LEFT, 0xffffffff, PORTAL_FINISHED},
        {"a free place with a last child", 3, LAST, EAST, PORTAL_FINISHED},
        {"the root has a left sibling", 0, LEFT, 3, PORTAL_BAD_FOLLOW_ON},
        {"the root's last child is the first", 0, LAST, NORTH, PORTAL_BAD_FOLLOW_ON},
        {"the root has no last child", 0, LAST, NONE, PORTAL_BAD_FOLLOW_ON},
        {"the root's last child is another's", 0, LAST, HUT, PORTAL_BAD_FOLLOW_ON},
        {"the root's last child is no place", 0, LAST, 65536 + EAST, PORTAL_BAD_FOLLOW_ON},
        {"a first child with a left sibling", NORTH, LEFT, EAST, PORTAL_BAD_FOLLOW_ON},
        {"a first child left of itself", NORTH, LEFT, NORTH, PORTAL_BAD_FOLLOW_ON},
        {"a second child with no left sibling", EAST, LEFT, NONE, PORTAL_BAD_FOLLOW_ON},
        {"a second child left of itself", EAST, LEFT, EAST, PORTAL_BAD_FOLLOW_ON},
        {"a left sibling that is the parent", EAST, LEFT, 0, PORTAL_BAD_FOLLOW_ON},
        {"a left sibling that is no place", EAST, LEFT, 65536 + NORTH, PORTAL_BAD_FOLLOW_ON},
        {"a leaf with a last child", HUT, LAST, HUT, PORTAL_BAD_FOLLOW_ON},
        {"a last child of 2^32 - 1", HUT, LAST, 0xffffffff, PORTAL_BAD_FOLLOW_ON},
        {"the root has no child", 0, FIRST, NONE, PORTAL_BAD_FOLLOW_ON},
        {"the root's first child is the second", 0, FIRST, EAST, PORTAL_BAD_FOLLOW_ON},
        {"the root has a sibling", 0, RIGHT, 3, PORTAL_BAD_FOLLOW_ON},
        {"the root has a parent", 0, PARENT, 0, PORTAL_BAD_FOLLOW_ON},
        {"the root has three children", 0, CHILDREN, 3, PORTAL_BAD_FOLLOW_ON},
        {"the root has one child", 0, CHILDREN, 1, PORTAL_BAD_FOLLOW_ON},
        {"the root has 2^32 - 1 children", 0, CHILDREN, 0xffffffff, PORTAL_BAD_FOLLOW_ON},
        {"the root is the house's", 0, EXISTENCE, 1, PORTAL_BAD_FOLLOW_ON},
        {"the root's list is public, and east is not", 0, LIST, 0, PORTAL_BAD_FOLLOW_ON},
        {"a child link to the number of places", HUT, FIRST, PLACES, PORTAL_BAD_FOLLOW_ON},
        {"a child link to 65,534", HUT, FIRST, 65534, PORTAL_BAD_FOLLOW_ON},
        {"a child link to 65,536", HUT, FIRST, 65536, PORTAL_BAD_FOLLOW_ON},
        {"a child link to 2^32 - 1", HUT, FIRST, 0xffffffff, PORTAL_BAD_FOLLOW_ON},
        {"a sibling link to 2^32 - 1", HUT, RIGHT, 0xffffffff, PORTAL_BAD_FOLLOW_ON},
        {"a child link up", HUT, FIRST, 0, PORTAL_BAD_FOLLOW_ON},
        {"a child link to a node that is another's child", HUT, FIRST, EAST, PORTAL_BAD_FOLLOW_ON},
        {"a child link to the node itself", EAST, FIRST, EAST, PORTAL_BAD_FOLLOW_ON},
        {"a sibling link to the node itself", EAST, RIGHT, EAST, PORTAL_BAD_FOLLOW_ON},
        {"a sibling link back", EAST, RIGHT, NORTH, PORTAL_BAD_FOLLOW_ON},
        {"a sibling link to a free place", EAST, RIGHT, 3, PORTAL_BAD_FOLLOW_ON},
        {"a sibling lost", NORTH, RIGHT, NONE, PORTAL_BAD_FOLLOW_ON},
        {"another parent", HUT, PARENT, 0, PORTAL_BAD_FOLLOW_ON},
        {"no parent", HUT, PARENT, NONE, PORTAL_BAD_FOLLOW_ON},
        {"a child that nobody counts", NORTH, CHILDREN, 0, PORTAL_BAD_FOLLOW_ON},
        {"a content of the second party", HUT, CONTENT, 2, PORTAL_FINISHED},
        {"a content of all parties", HUT, CONTENT, 255, PORTAL_FINISHED},
        {"a content that lacks the first party, below an existence that has it", EAST, CONTENT, 254, PORTAL_BAD_FOLLOW_ON},
        {"a list that lacks the first party, below an existence that has it", EAST, LIST, 2, PORTAL_BAD_FOLLOW_ON},
        {"a level of 256", HUT, CONTENT, 256, PORTAL_BAD_FOLLOW_ON},
        {"a list level of 257", HUT, LIST, 257, PORTAL_BAD_FOLLOW_ON},
        {"an existence of 256", HUT, EXISTENCE, 256, PORTAL_BAD_FOLLOW_ON},
        {"content below existence", EAST, CONTENT, 0, PORTAL_BAD_FOLLOW_ON},
        {"a list below existence", EAST, LIST, 0, PORTAL_BAD_FOLLOW_ON},
        {"a house child below a public list", HUT, EXISTENCE, 1, PORTAL_BAD_FOLLOW_ON},
        {"a public sibling behind one of the house", NORTH, EXISTENCE, 1, PORTAL_BAD_FOLLOW_ON},
    };
    lend(PLACES * PORTAL_PLACE_WORDS, 0, 0, PORTAL_LINE_BYTES);
    command(9);
    command(9);
    command(8);
    print(NODE_CHILDREN, 0);
    give(1);
    fill(&table, by_hand, sizeof by_hand, 1);
    ends("a table by hand", follow, 10, PORTAL_FINISHED, 1);
    same("a hut", 1, portal_line(lines.at, 0));
    for (size_t i = 0; i < sizeof cases / sizeof cases[0]; i++) {
        fill(&table, by_hand, sizeof by_hand, 1);
        place((size_t)cases[i].place)[cases[i].word] = cases[i].number;
        ends(cases[i].what, follow, 10, cases[i].ending, cases[i].ending == PORTAL_FINISHED);
    }
    fill(&table, by_hand, sizeof by_hand, 1);
    cut(&table, (PLACES - 1) * PLACE, 1);
    ends("a table that is cut shorter", follow, 10, PORTAL_BAD_FOLLOW_ON, 0);
    memset(table.at, 0, table.length);
    ends("a blank table", follow, 10, PORTAL_BAD_FOLLOW_ON, 0);
    memset(table.at, 0xff, table.length);
    ends("a table of ones", follow, 10, PORTAL_BAD_FOLLOW_ON, 0);

    /* A row of children below the root, one to each place. */
    for (size_t n = 511; n <= 513; n++) {
        cut(&table, n * PLACE, 1);
        memset(table.at, 0, n * PLACE);
        for (size_t i = 0; i < n; i++) {
            place(i)[FIRST] = i == 0 ? 1 : NONE;
            place(i)[RIGHT] = i == 0 || i + 1 == n ? NONE : (uint32_t)i + 1;
            place(i)[PARENT] = i == 0 ? NONE : 0;
            place(i)[LEFT] = i < 2 ? NONE : (uint32_t)i - 1;
            place(i)[LAST] = i == 0 ? (uint32_t)n - 1 : NONE;
        }
        place(0)[CHILDREN] = (uint32_t)n - 1;
        give(1);
        ends("a table that is full", follow, 10, n <= 512 ? PORTAL_FINISHED : PORTAL_BAD_FOLLOW_ON, 0);
        place(0)[FIRST] = (uint32_t)n - 1;
        place(0)[CHILDREN] = 1;
        place(n - 1)[LEFT] = NONE;
        ends("the last place alone", follow, 10, n <= 512 ? PORTAL_FINISHED : PORTAL_BAD_BUFFERS, 0);
    }
}

/* Whether a tree stands in the table: what first and right reach from place 0, level after level. How many nodes it has goes to live. */
static size_t live;

/* Whether each party of a level is one of another. */
static int within(uint32_t level, uint32_t other) { return (level & ~other) == 0; }

static int tree_stands(void) {
    static uint32_t queue[PORTAL_MAX_PLACES];
    static uint8_t seen[PORTAL_MAX_PLACES + 1];
    size_t places = table.length / PLACE, next = 0, found = 1;
    memset(seen, 0, sizeof seen);
    if (places == 0 || place(0)[RIGHT] != NONE || place(0)[PARENT] != NONE || place(0)[LEFT] != NONE || place(0)[EXISTENCE] != 0 ||
        place(0)[CONTENT] > 255 || place(0)[LIST] > 255) {
        return 0;
    }
    queue[0] = 0;
    seen[0] = 1;
    while (next < found) {
        uint32_t up = queue[next++], least = place(up)[EXISTENCE], count = 0, last = NONE;
        for (uint32_t x = place(up)[FIRST]; x != NONE; x = place(x)[RIGHT]) {
            if (x >= places || seen[x] || found == PORTAL_MAX_PLACES) {
                return 0;
            }
            const uint32_t *here = place(x);
            if (here[PARENT] != up || here[LEFT] != last || !within(least, here[EXISTENCE]) || !within(here[EXISTENCE], place(up)[LIST]) ||
                !within(here[EXISTENCE], here[CONTENT]) || !within(here[EXISTENCE], here[LIST]) || here[CONTENT] > 255 || here[LIST] > 255) {
                return 0;
            }
            seen[x] = 1;
            least = here[EXISTENCE];
            queue[found++] = x;
            count++;
            last = x;
        }
        if (place(up)[CHILDREN] != count || place(up)[LAST] != last) {
            return 0;
        }
    }
    live = found;
    return 1;
}

static int variables_stand(void) {
    return levels.length <= PORTAL_MAX_VARIABLES && values.length == 4 * levels.length;
}

/* A fresh table and variables, into which a written job is loaded. */
static uint32_t fresh[PORTAL_MAX_WORDS];
static uint8_t fresh_levels[PORTAL_MAX_VARIABLES];
static int32_t fresh_values[PORTAL_MAX_VARIABLES];

/* The node behind a node of a tree, each before its children; NONE behind the last. */
static uint32_t onward(const uint32_t *words, uint32_t x) {
    if (words[PORTAL_PLACE_WORDS * x + FIRST] != NONE) {
        return words[PORTAL_PLACE_WORDS * x + FIRST];
    }
    while (x != NONE && words[PORTAL_PLACE_WORDS * x + RIGHT] == NONE) {
        x = words[PORTAL_PLACE_WORDS * x + PARENT];
    }
    return x == NONE ? NONE : words[PORTAL_PLACE_WORDS * x + RIGHT];
}

/* The written job is accepted, and leaves the same variables and the same tree in a fresh table, which give the same bytes. */
static void loads(size_t length) {
    static uint8_t again[PORTAL_MAX_WRITTEN];
    static const int fields[] = {EXISTENCE, CONTENT, LIST, VALUE, CHILDREN};
    size_t vars = levels.length;
    uint64_t answer = portal_start(output.at, length, 1, fresh, PORTAL_MAX_WORDS, fresh_levels, PORTAL_MAX_VARIABLES, fresh_values, PORTAL_MAX_VARIABLES, NULL, 0);
    same("a written job's answer", 0, (long long)answer);
    same("its variables", (long long)vars, (long long)portal_variables(output.at, length));
    same("its levels", 0, vars == 0 ? 0 : memcmp(fresh_levels, levels.at, vars));
    same("its values", 0, vars == 0 ? 0 : memcmp(fresh_values, values.at, 4 * vars));
    uint32_t x = 0, y = 0;
    while (x != NONE && y != NONE) {
        for (size_t i = 0; i < sizeof fields / sizeof fields[0]; i++) {
            same("a node of the fresh table", place(x)[fields[i]], fresh[PORTAL_PLACE_WORDS * y + (size_t)fields[i]]);
        }
        x = onward(place(0), x);
        y = onward(fresh, y);
    }
    same("as many nodes", x, y);
    answer = portal_write(fresh, PORTAL_MAX_WORDS, fresh_levels, vars, fresh_values, vars, again, sizeof again);
    same("as long when it is written again", (long long)length, (long long)answer);
    same("the same bytes", 0, memcmp(again, output.at, length));
}

/* The tree by hand, whose places are scattered, byte for byte. */
static void written_by_hand(void) {
    doing = "a tree written by hand";
    put(0, 4);
    put(0xffffffff, 4);
    put(0x81, 4);
    put(7, 4);
    node(NONE, 0, 0, 1, 10);
    node(0, 0, 0, 0, 0);
    node(1, 0, 0xa0, 0, 0xffffffff);
    node(0, 1, 3, 5, 0);
    trailer(16, 64);
    static uint8_t expected[72];
    same("the job's length", sizeof expected, (long long)written);
    memcpy(expected, text, written);
    written = 0;
    static const uint8_t two[2] = {0, 0x81};
    static const int32_t numbers[2] = {-1, 7};
    fill(&table, by_hand, sizeof by_hand, 1);
    fill(&levels, two, sizeof two, 1);
    fill(&values, numbers, sizeof numbers, 1);
    for (size_t room = 0; room < 80; room++) {
        uint64_t answer = write_back(room, room % 2 == 0);
        same("answer", room < sizeof expected ? PORTAL_BAD_AREA : (long long)sizeof expected, (long long)answer);
        if (portal_wrote(answer)) {
            same("bytes", 0, memcmp(output.at, expected, sizeof expected));
        }
    }
    loads(sizeof expected);
    doing = "what is turned back, whatever the area";
    for (size_t room = 0; room < 200; room += 100) {
        cut(&table, 513 * PLACE, 1);
        memcpy(table.at, by_hand, sizeof by_hand);
        same("513 places", PORTAL_BAD_BUFFERS, (long long)write_back(room, 1));
        place(0)[CHILDREN] = 3;
        same("a wrong count, and 513 places", PORTAL_BAD_FOLLOW_ON, (long long)write_back(room, 1));
        fill(&table, by_hand, sizeof by_hand, 1);
        cut(&levels, 1, 1);
        same("a level for one of two values", PORTAL_BAD_FOLLOW_ON, (long long)write_back(room, 1));
        fill(&levels, two, sizeof two, 1);
        cut(&table, 9 * 4, 1);
        same("nine words", PORTAL_BAD_FOLLOW_ON, (long long)write_back(room, 1));
        cut(&table, 0, 1);
        same("no table", PORTAL_BAD_FOLLOW_ON, (long long)write_back(room, 1));
        fill(&table, by_hand, sizeof by_hand, 1);
    }
}

/* Random numbers: xorshift, from a fixed seed. */
static uint64_t seed = 0x9e3779b97f4a7c15u;

static uint32_t any(void) {
    seed ^= seed << 13;
    seed ^= seed >> 7;
    seed ^= seed << 17;
    return (uint32_t)(seed >> 16);
}

static uint32_t below(uint32_t n) { return any() % n; }

/* One in n. */
static int one_in(uint32_t n) { return below(n) == 0; }

/* A level: often one that others are too. */
static uint8_t some_set(void) {
    uint32_t sets[] = {0, 1, 3, 1u << below(8), any(), 255};
    return (uint8_t)sets[below(6)];
}

/* A number such as links, counts and levels are, or not. */
static uint32_t some_number(void) {
    uint32_t near = (uint32_t)(table.length / PLACE) + 1 + below(2);
    uint32_t numbers[] = {below(4), below(near), near - 1, NONE, NONE, NONE + 1, 256 + below(2), some_set(), any()};
    return numbers[below(9)];
}

/* A job with an empty script, whose tree keeps the rules. Each node hangs below the record before it or above that. */
static void random_job(size_t vars, size_t nodes) {
    static uint8_t existence[PORTAL_MAX_PLACES], list[PORTAL_MAX_PLACES], last[PORTAL_MAX_PLACES];
    static size_t parent[PORTAL_MAX_PLACES];
    for (size_t i = 0; i < vars; i++) {
        put(some_set(), 4);
        put(any(), 4);
    }
    for (size_t i = 0; i < nodes; i++) {
        size_t up = i == 0 ? 0 : i - 1;
        while (up != 0 && one_in(2)) {
            up = parent[up];
        }
        parent[i] = up;
        uint8_t least = i == 0 ? 0 : last[up], most = i == 0 ? 0 : list[up];
        existence[i] = last[i] = (uint8_t)(least | (most & some_set()));
        list[i] = existence[i] | some_set();
        last[up] = existence[i];
        node(i == 0 ? NONE : (uint32_t)up, existence[i], existence[i] | some_set(), list[i], any());
    }
    trailer(8 * vars, 8 * vars + 12 * nodes);
}

static int reads_expression(int number) {
    return number == 1 || number == 2 || number == 4 || number == 6 || number == 11 || number == 12 || number == 15 ||
           number == 17;
}

/* What is not read is zero. */
static void random_expression(int number, int target, int vars) {
    int operator = (int)below(6), kinds[2] = {0, 0};
    int32_t numbers[2] = {0, 0};
    for (int i = 0; i < (operator == 0 ? 1 : 2); i++) {
        kinds[i] = vars == 0 && one_in(2) ? NODE_VALUE : (int)below(4);
        kinds[i] = vars == 0 && kinds[i] == VARIABLE ? CONSTANT : kinds[i];
        if (kinds[i] == VARIABLE) {
            numbers[i] = (int32_t)below((uint32_t)vars);
        } else if (kinds[i] == CONSTANT) {
            numbers[i] = (int32_t)below(7) - 2;
        }
    }
    record(number, target, operator, kinds[0], kinds[1], numbers[0], numbers[1]);
}

/* A script that the checks 7, 12 and 8 let pass, but for a few. */
static void random_script(int vars) {
    int open = 0;
    for (uint32_t i = below(14); i > 0; i--) {
        int number = (int)below(22);
        number = number > 19 ? 6 : number;
        if (number == 2 || number == 4 || number == 17) {
            open++;
        }
        if (number == 3 || (number == 5 && open == 0) || (number == 1 && vars == 0)) {
            number = 9 + (int)below(4);
        }
        if (number == 5) {
            open--;
        }
        if (!reads_expression(number)) {
            command(number);
        } else {
            int target = number == 1 ? (int)below((uint32_t)vars) : number == 6 ? some_set() : number == 11 || number == 12 ? (int)below(4) : 0;
            random_expression(number, target, vars);
        }
        if (number == 11 || number == 12 || number == 16) {
            joins(some_set(), number == 16 ? 0 : some_set());
        }
    }
    while (open-- > 0 && !one_in(20)) {
        command(5);
    }
    if (written != 0 && one_in(20)) {
        text[below((uint32_t)written)] = (uint8_t)any();
    }
}

/* What stands is written, or turned back where it must be and nowhere else. Which number came, or 0. */
static int writes(uint32_t choice, int at_end) {
    int whole = tree_stands() && variables_stand();
    size_t length = whole ? 8 * levels.length + 12 * live + 8 : 20;
    size_t room = choice == 0 ? length - 1 : choice == 1 ? length : choice == 2 ? below((uint32_t)length) : PORTAL_MAX_WRITTEN;
    uint64_t answer = write_back(room, at_end);
    uint64_t expected = !whole ? PORTAL_BAD_FOLLOW_ON : table.length / PLACE > PORTAL_MAX_PLACES ? PORTAL_BAD_BUFFERS : room < length ? PORTAL_BAD_AREA : length;
    same("what writing answers", (long long)expected, (long long)answer);
    if (!portal_wrote(answer)) {
        return (int)answer;
    }
    loads((size_t)answer);
    return 0;
}

/* How often what stands was written, at 0, and turned back with each number. */
static long turned_away[PORTAL_BAD_AREA + 1];

/* A script over what is lent, right or wrong: turned back with 11 where it must be and nowhere else. Which ending came. */
static int follows(int at_end) {
    if (one_in(12)) {
        written = below((uint32_t)written + 17);
    }
    give(at_end);
    turned_away[writes(below(4), at_end)]++;
    int whole = script.length % 16 == 0 && tree_stands() && variables_stand();
    int ending = portal_ending(run(follow, one_in(20) ? 0 : 1 + below(60)));
    same("turned back with 11", !whole, ending == PORTAL_BAD_FOLLOW_ON);
    if (whole) {
        same("a tree stands behind the call", 1, tree_stands());
    }
    return ending;
}

/* Table and variables are filled with random numbers. */
static int random_round(void) {
    int at_end = one_in(2), wild = one_in(2);
    uint32_t vars = below(one_in(8) ? 67 : 4);
    cut(&table, 4 * below(one_in(32) ? 513 * PORTAL_PLACE_WORDS + 1 : 4 * PORTAL_PLACE_WORDS + 1), at_end);
    cut(&levels, vars, at_end);
    cut(&values, 4 * (one_in(8) ? below(67) : vars), at_end);
    cut(&lines, below(16), at_end);
    for (size_t i = 0; i < table.length / 4; i++) {
        place(0)[i] = wild ? any() : some_number();
    }
    for (size_t i = 0; i < levels.length; i++) {
        levels.at[i] = wild ? (uint8_t)any() : some_set();
    }
    for (size_t i = 0; i < values.length / 4; i++) {
        variables()[i] = (int32_t)any();
    }
    random_script((int)vars);
    return follows(at_end);
}

/* One thing about what is lent is changed, or none. */
static void change(uint32_t vars, uint32_t nodes, int at_end) {
    switch (below(6)) {
    case 0:
        break;
    case 1:
        if (vars != 0) {
            levels.at[below(vars)] = some_set();
        }
        break;
    case 2:
        cut(one_in(2) ? &levels : &values, 4 * below(vars + 2), at_end);
        break;
    case 3:
        cut(&table, one_in(5) ? 513 * PLACE : 4 * below(PORTAL_PLACE_WORDS * (nodes + 1)), at_end);
        break;
    default:
        place(below((uint32_t)(table.length / PLACE)))[below(PORTAL_PLACE_WORDS)] = some_number();
    }
}

/* A tree and variables that a job and a script left, with one change. */
static int changed_round(void) {
    int at_end = one_in(2);
    uint32_t vars = one_in(16) ? 60 + below(5) : below(4), nodes = 1 + below(one_in(24) ? 512 : 9), places = nodes + below(4);
    cut(&table, (places <= PORTAL_MAX_PLACES ? places : nodes) * PLACE, at_end);
    cut(&levels, vars, at_end);
    cut(&values, 4 * vars, at_end);
    cut(&lines, below(16), at_end);
    random_job(vars, nodes);
    give(at_end);
    same("a job's ending", PORTAL_FINISHED, portal_ending(run(start, 1)));
    random_script((int)vars);
    give(at_end);
    run(follow, 1 + below(60));
    same("a tree stands behind a script", 1, tree_stands() && variables_stand());
    change(vars, nodes, at_end);
    random_script((int)vars);
    return follows(at_end);
}

static long rounds;

static void *all(void *unused) {
    static long came[32];
    for (size_t i = 0; i < sizeof areas / sizeof areas[0]; i++) {
        build(areas[i]);
    }
    starts();
    history();
    refusals();
    lent_variables();
    lent_tables();
    written_by_hand();
    doing = "random numbers";
    for (long i = 0; i < rounds; i++) {
        came[random_round()]++;
    }
    doing = "one change";
    for (long i = 0; i < rounds; i++) {
        came[changed_round()]++;
    }
    static const int must[] = {0, 7, 8, 9, 10, 11, 12, 21, 22, 23, 24, 25};
    for (size_t i = 0; rounds >= 10000 && i < sizeof must / sizeof must[0]; i++) {
        same("an ending came often", 1, came[must[i]] >= rounds / 1000);
    }
    static const int answers[] = {0, PORTAL_BAD_BUFFERS, PORTAL_BAD_FOLLOW_ON, PORTAL_BAD_AREA};
    for (size_t i = 0; rounds >= 10000 && i < sizeof answers / sizeof answers[0]; i++) {
        same("an answer of writing came often", 1, turned_away[answers[i]] >= rounds / 1000);
    }
    printf("standing: %ld comparisons in C, %ld rounds of each kind\n", checked, rounds);
    return unused;
}

int main(int argc, char **argv) {
    pthread_attr_t small;
    pthread_t thread;
    rounds = argc == 2 ? atol(argv[1]) : 0;
    if (pthread_attr_init(&small) != 0 || pthread_attr_setstacksize(&small, STACK) != 0 || pthread_create(&thread, &small, all, NULL) != 0 ||
        pthread_join(thread, NULL) != 0) {
        perror("pthread");
        return 2;
    }
    return 0;
}
