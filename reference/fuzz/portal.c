/* Coverage-guided fuzzing of portal_run with libFuzzer.
 *
 * libportal.a has no coverage counters, so what guides the fuzzer comes from two other sources.
 * 1. Breakpoints: the file that PORTAL_BLOCKS names has the address of each basic block of libportal.a in this program. Each gets a breakpoint. The first
 *    input that comes to a block sets off its breakpoint, which is then removed and counted as new coverage. A block costs one trap in a whole session.
 * 2. A mirror: the fast Rust version, built with counters and compares, runs each input too. It tells the fuzzer of edges and of how near a compare was.
 *
 * An input is 4 bytes that choose the budget and the length of the area, then the job. Each run must give an ending of the list, the same answer and area
 * as the mirror, leave the job and the rest of the area alone, and touch nothing beyond either: both end, or start, at a page that nobody may touch. */
#define _GNU_SOURCE
#include <signal.h>
#include <stdint.h>
#include <stdio.h>
#include <stdlib.h>
#include <string.h>
#include <sys/mman.h>
#include <ucontext.h>

uint64_t portal_run(const uint8_t *job, size_t job_len, uint64_t budget, uint8_t *lines, size_t lines_len);
uint64_t fast_portal_run(const uint8_t *job, size_t job_len, uint64_t budget, uint8_t *lines, size_t lines_len);
size_t LLVMFuzzerMutate(uint8_t *data, size_t size, size_t max_size);

enum { CHOICES = 4, TRAILER = 8, PAGE = 4096, ROOM = 16 * PAGE, MOST_AREA = 2048, MOST_BLOCKS = 1 << 14 };

/* Breakpoints. */

static uintptr_t block[MOST_BLOCKS];
static uint8_t covered_byte[MOST_BLOCKS];
static size_t blocks, reached;

__attribute__((section("__libfuzzer_extra_counters"))) static uint8_t counter[MOST_BLOCKS];

static void on_trap(int number, siginfo_t *info, void *context)
{
    (void)number;
    (void)info;
    ucontext_t *machine = context;
    uintptr_t at = (uintptr_t)machine->uc_mcontext.gregs[REG_RIP] - 1;
    size_t low = 0, high = blocks;
    while (low < high) {
        size_t middle = low + (high - low) / 2;
        if (block[middle] < at)
            low = middle + 1;
        else
            high = middle;
    }
    if (low == blocks || block[low] != at)
        abort();
    *(volatile uint8_t *)at = covered_byte[low];
    machine->uc_mcontext.gregs[REG_RIP] = (greg_t)at;
    counter[low] = 1;
    reached++;
}

static int ascending(const void *left, const void *right)
{
    uintptr_t a = *(const uintptr_t *)left, b = *(const uintptr_t *)right;
    return (a > b) - (a < b);
}

static void set_breakpoints(const char *path)
{
    FILE *file = fopen(path, "r");
    if (!file) {
        perror(path);
        exit(2);
    }
    unsigned long at;
    while (fscanf(file, "%lx", &at) == 1) {
        if (blocks == MOST_BLOCKS) {
            fprintf(stderr, "%s: more than %d blocks\n", path, MOST_BLOCKS);
            exit(2);
        }
        block[blocks++] = at;
    }
    fclose(file);
    qsort(block, blocks, sizeof block[0], ascending);
    struct sigaction action = {.sa_sigaction = on_trap, .sa_flags = SA_SIGINFO};
    sigaction(SIGTRAP, &action, NULL);
    for (size_t i = 0; i < blocks; i++) {
        void *page = (void *)(block[i] & ~(uintptr_t)(PAGE - 1));
        if (mprotect(page, PAGE, PROT_READ | PROT_WRITE | PROT_EXEC) != 0) {
            perror("mprotect");
            exit(2);
        }
        covered_byte[i] = *(uint8_t *)block[i];
        *(volatile uint8_t *)block[i] = 0xcc;
    }
}

static void say_reached(void)
{
    fprintf(stderr, "blocks of libportal.a reached: %zu of %zu\n", reached, blocks);
    for (size_t i = 0; i < blocks; i++)
        if (*(volatile uint8_t *)block[i] == 0xcc && covered_byte[i] != 0xcc)
            fprintf(stderr, "block never reached: %lx\n", (unsigned long)block[i]);
}

/* Memory between two pages that nobody may touch. */

static uint8_t *fenced(void)
{
    uint8_t *all = mmap(NULL, ROOM + 2 * PAGE, PROT_NONE, MAP_PRIVATE | MAP_ANONYMOUS, -1, 0);
    if (all == MAP_FAILED || mprotect(all + PAGE, ROOM, PROT_READ | PROT_WRITE) != 0) {
        perror("mmap");
        exit(2);
    }
    return all + PAGE;
}

static uint8_t *job_room, *area_room;

int LLVMFuzzerInitialize(int *argc, char ***argv)
{
    (void)argc;
    (void)argv;
    job_room = fenced();
    area_room = fenced();
    const char *path = getenv("PORTAL_BLOCKS");
    if (path) {
        set_breakpoints(path);
        atexit(say_reached);
    }
    return 0;
}

static int listed(uint64_t ending)
{
    return ending <= 10 || ending == 12 || ending == 13 || (ending >= 21 && ending <= 25) || ending == 27;
}

static void fail(const char *what, uint64_t ours, uint64_t mirror, uint64_t budget, size_t area_len)
{
    fprintf(stderr, "%s: portal_run gives ending %llu, %u lines; the mirror ending %llu, %u lines; budget %llu, area of %zu bytes\n", what,
            (unsigned long long)(ours >> 32), (unsigned)ours, (unsigned long long)(mirror >> 32), (unsigned)mirror, (unsigned long long)budget, area_len);
    abort();
}

/* Mostly few steps, so that a second has many inputs; now and then an edge. */
static uint64_t budget_of(unsigned choice)
{
    static const uint64_t edges[] = {0, 1000000, 1000001, 1ull << 32, (1ull << 32) + 1, UINT64_MAX};
    if (choice >= 0xff00)
        return edges[choice % (sizeof edges / sizeof edges[0])];
    return choice % 5000;
}

int LLVMFuzzerTestOneInput(const uint8_t *data, size_t size)
{
    static uint8_t wanted[MOST_AREA];
    if (size < CHOICES || size - CHOICES > ROOM)
        return -1;
    uint64_t budget = budget_of(data[0] | data[1] << 8);
    size_t area_len = (size_t)(data[2] | data[3] << 8) % (MOST_AREA + 1);
    int at_end = data[3] < 128;
    const uint8_t *bytes = data + CHOICES;
    size_t length = size - CHOICES;
    uint8_t *job = at_end ? job_room + ROOM - length : job_room;
    uint8_t *area = at_end ? area_room + ROOM - area_len : area_room;
    memcpy(job, bytes, length);
    memset(area, 0xa5, area_len);
    memset(wanted, 0xa5, area_len);
    uint64_t mirror = fast_portal_run(bytes, length, budget, wanted, area_len);
    uint64_t ours = portal_run(job, length, budget, area, area_len);
#ifdef PLANTED_MISTAKE /* to see that the fuzzer finds one: a full table is given as a rule broken */
    if (ours >> 32 == 23)
        ours -= 2ull << 32;
#endif
    if (!listed(ours >> 32))
        fail("an ending that is not listed", ours, mirror, budget, area_len);
    if (ours != mirror)
        fail("another answer", ours, mirror, budget, area_len);
    if (memcmp(area, wanted, area_len) != 0)
        fail("another area", ours, mirror, budget, area_len);
    if (memcmp(job, bytes, length) != 0)
        fail("the job was changed", ours, mirror, budget, area_len);
    return 0;
}

/* Mutations of raw bytes; after most of them the trailer is made to fit again, since a job whose offsets do not fit is turned back by check 2. */
size_t LLVMFuzzerCustomMutator(uint8_t *data, size_t size, size_t max_size, unsigned seed)
{
    size_t variables = 0, nodes = 1;
    if (size >= CHOICES + TRAILER) {
        const uint8_t *trailer = data + size - TRAILER;
        size_t nodes_at = trailer[2] | trailer[3] << 8, script_at = trailer[4] | trailer[5] << 8;
        variables = nodes_at / 8;
        nodes = script_at > nodes_at ? (script_at - nodes_at) / 12 : 1;
    }
    size = LLVMFuzzerMutate(data, size, max_size);
    if (seed % 8 == 0)
        return size;
    if (seed % 8 == 1)
        variables += seed / 8 % 3 - 1;
    if (seed % 8 == 2)
        nodes += seed / 8 % 3 - 1;
    size_t least = CHOICES + 8 * variables + 12 * nodes + TRAILER;
    if (variables > 65 || nodes > 513 || least > max_size || size < CHOICES)
        return size;
    if (size < least) {
        memset(data + size, 0, least - size);
        size = least;
    }
    size -= (size - least) % 16;
    size_t end = size - CHOICES - TRAILER;
    size_t offset[4] = {0, 8 * variables, 8 * variables + 12 * nodes, end};
    for (int i = 0; i < 4; i++) {
        data[CHOICES + end + 2 * i] = (uint8_t)offset[i];
        data[CHOICES + end + 2 * i + 1] = (uint8_t)(offset[i] >> 8);
    }
    return size;
}
