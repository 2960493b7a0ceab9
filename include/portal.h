/* The monitor, for a portal in C or C++: hand over a job, get its board lines and how it ended. Or keep the job's tree, run script after script over it, and write
   it as a job again.

   `make lib` builds libportal.a beside this file; `make install` puts both where a compiler finds them. To compile and link, in the repository or after
   an installation:

       cc -I include my_portal.c include/libportal.a
       cc my_portal.c $(pkg-config --cflags --libs portal)

   The library is for x86-64. It keeps nothing from one call to the next and allocates nothing, so calls from several threads are fine as long as none
   writes what another one is lent. A call takes less than 64 kilobytes of stack.

   What to show. Each line is for a set of parties: hand a reader the lines for which portal_sees(reader, portal_readers(lines, i)) holds, in their order, and
   no others; the public is the reader 0. The ending and the number of lines are for the house: never publish them, nor how long a call took. The lines of a
   reader hold no number of other parties, but where they end may depend on one: a script can count to 100, put each number out, and stop itself where the count
   equals a number of somebody else's. So hand out lines only where portal_ending(answer) is PORTAL_FINISHED. What a reader gets of two finished runs of the same
   script, over parts that are the same to them, is always the same. docs/GUARANTEE.md has the example and the figures. A tree that is kept asks for one thing
   more: see portal_follow. */
#ifndef PORTAL_H
#define PORTAL_H

#include <stddef.h>
#include <stdint.h>

/* The version of this header and of the library beside it. The first number changes where a program must be changed. */
#define PORTAL_VERSION "2.1.0"
#define PORTAL_VERSION_MAJOR 2
#define PORTAL_VERSION_MINOR 1
#define PORTAL_VERSION_PATCH 0

/* The largest job, in bytes. Read up to one byte more, so that a longer one is seen and turned back. */
#define PORTAL_MAX_JOB 23048

/* The largest budget, in steps. */
#define PORTAL_MAX_BUDGET 1000000

/* A line has five bytes: a little-endian number of four, and the set of its readers. */
#define PORTAL_LINE_BYTES 5

/* No run has more lines than steps, so an area of PORTAL_LINE_BYTES * PORTAL_MAX_LINES bytes is never full. */
#define PORTAL_MAX_LINES PORTAL_MAX_BUDGET

/* The largest follow-on script, in bytes: 1,024 records of 16. Read up to one byte more, as of a job. */
#define PORTAL_MAX_SCRIPT 16384

/* A table of nodes has PORTAL_PLACE_WORDS words for each place, and at most PORTAL_MAX_PLACES places. */
#define PORTAL_PLACE_WORDS 10
#define PORTAL_MAX_PLACES 512
#define PORTAL_MAX_WORDS (PORTAL_PLACE_WORDS * PORTAL_MAX_PLACES)

/* The most variables that a job may have. */
#define PORTAL_MAX_VARIABLES 64

/* The longest job that portal_write writes, in bytes: 64 variables of 8, 512 nodes of 12, and 8 more. */
#define PORTAL_MAX_WRITTEN 6664

/* A cast that both C and C++ take without a warning. */
#ifdef __cplusplus
#define PORTAL_CAST(type, number) static_cast<type>(number)
extern "C" {
#else
#define PORTAL_CAST(type, number) ((type)(number))
#endif

/* How a job or a follow-on script ended. Up to 20 it was turned back: it was not run, there are no lines and nothing was written. From 21 on it was stopped:
   the lines that it put out before stand in the area, and a kept tree is as the stop left it. */
enum {
    PORTAL_FINISHED = 0,            /* the script's end was reached */
    PORTAL_WRONG_SIZE = 1,          /* under 8 or over 23,048 bytes */
    PORTAL_BROKEN_LAYOUT = 2,       /* the trailer's offsets do not fit the job, or a section holds a part of a record */
    PORTAL_BAD_COUNT = 3,           /* more than 64 variables, 1,024 records or 512 nodes, or no node */
    PORTAL_BAD_VARIABLE_LEVEL = 4,  /* not given any more: every byte is a level, a set of eight parties */
    PORTAL_BAD_PARENT = 5,          /* a node's parent does not come before it, or record 0 is no root */
    PORTAL_BAD_TREE = 6,            /* a rule of the tree is broken */
    PORTAL_BAD_FIELD = 7,           /* a command above 19, or a field that it reads is out of range */
    PORTAL_BAD_BLOCKS = 8,          /* if, else, while and end do not match, or more than 16 of them are nested */
    PORTAL_BAD_BUDGET = 9,          /* the budget is not 1 to 1,000,000 */
    PORTAL_BAD_BUFFERS = 10,        /* more than 512 places; to portal_start also too few places or variables. portal_run has room for every job */
    PORTAL_BAD_FOLLOW_ON = 11,      /* the script is no whole records or more than 1,024, or no accepted job could hold what stands in table and variables */
    PORTAL_SPARE_BYTE = 12,         /* a byte that nobody reads is not zero */
    PORTAL_BAD_ORDER = 13,          /* a node's parent is neither the record before it nor above that record */
    PORTAL_BAD_AREA = 14,           /* from portal_write alone: the area is shorter than the job */
    PORTAL_NO_PLACE = 15,           /* from the program rounds alone: eight runs that take turns are unended */
    PORTAL_FLOW = 21,               /* a command would have let a party's data flow to others */
    PORTAL_NO_NODE = 22,            /* the node to go to, to remove or to come back to does not exist */
    PORTAL_TABLE_FULL = 23,         /* a new node, where there are as many as places */
    PORTAL_BOARD_FULL = 24,         /* a board line, where the area is full */
    PORTAL_BUDGET_USED_UP = 25,     /* as many steps as the budget allows */
    PORTAL_OUT_OF_RANGE = 27        /* a sum or a difference outside signed 32 bits */
};

/* Runs one job.

   job        the job's bytes
   job_len    how many there are; of any number, wrong ones come back as PORTAL_WRONG_SIZE
   budget     how many steps the job may take, 1 to PORTAL_MAX_BUDGET
   lines      an area for the board lines, PORTAL_LINE_BYTES each
   lines_len  how many bytes the area has: room for lines_len / PORTAL_LINE_BYTES lines

   Returns the ending and the number of lines: take them out with portal_ending and portal_lines. The lines stand at the beginning of the area, in the
   order in which the job put them out: read them with portal_line and portal_readers. Every byte behind the last line is as it was.

   NULL: job may be NULL where job_len is 0 (the answer is PORTAL_WRONG_SIZE), lines may be NULL where lines_len is 0 (room for no line). Otherwise each
   points to as many bytes as its length says.

   Overlap: the area must not overlap the job. The job is read while the lines are written, so nothing is promised for areas that share bytes. Two calls
   at the same time may read the same job. */
uint64_t portal_run(const uint8_t *job, size_t job_len, uint64_t budget, uint8_t *lines, size_t lines_len);

/* Runs one job, and leaves its tree and its variables with the portal, for follow-on scripts.

   job, job_len, budget    as for portal_run
   table       words for the tree, PORTAL_PLACE_WORDS for each place; they may hold anything
   table_len   how many words: a table of table_len / PORTAL_PLACE_WORDS places, 1 to PORTAL_MAX_PLACES and at least as many as the job has nodes. The more
               places, the more nodes can be added later
   levels      a byte for the level of each variable, a set of eight parties
   levels_len  how many bytes, at least as many as the job has variables: PORTAL_MAX_VARIABLES is always enough
   values      a number for the value of each variable
   values_len  how many numbers, at least as many as the job has variables
   lines, lines_len        as for portal_run

   Returns what portal_run returns. Too few words, levels or values come back as PORTAL_BAD_BUFFERS. Where the job was turned back, nothing that was lent has
   changed. Otherwise the tree stands in the table and the first portal_variables(job, job_len) of levels and values are the job's variables; levels, values and
   bytes of the area behind them are as they were, and so are words that make no whole place. What free places hold is open.

   What a portal keeps between calls: table, levels and values, as the last call left them. There is no address in them, so they may be copied, moved, and
   put away and brought back by the same version of this library. Nothing else is needed: each call looks the table over before it runs a script.

   NULL: each pointer may be NULL where its length is 0. Otherwise it points to as many numbers as its length says, aligned as C asks for.

   Overlap: what is written (table, levels, values, lines) must overlap nothing else that is lent.

   Threads: two trees may be worked on at the same time; of one tree, one call at a time. */
uint64_t portal_start(const uint8_t *job, size_t job_len, uint64_t budget, uint32_t *table, size_t table_len, uint8_t *levels, size_t levels_len,
                      int32_t *values, size_t values_len, uint8_t *lines, size_t lines_len);

/* Runs one script over a tree and variables that stand already: those that portal_start or the last call of portal_follow left. The script starts at the
   root, with a budget and an area for lines of its own.

   script      a bare script section: records of 16 bytes, as in a job, and nothing around them
   script_len  how many bytes: a multiple of 16, at most PORTAL_MAX_SCRIPT. 0 is a script that finishes at once
   budget      how many steps this script may take, 1 to PORTAL_MAX_BUDGET
   table       the table in which the tree stands
   table_len   how many words: not more than PORTAL_MAX_PLACES places. It may be another number than before, as long as every place of a node is there
   levels      the variables' levels, which are read only
   levels_len  how many variables there are: exactly portal_variables(job, job_len) of the job that began
   values      the variables' values
   values_len  the same number as levels_len
   lines, lines_len        as for portal_run

   Returns what portal_run returns. The table and the variables may hold anything, whoever wrote it: what no accepted job could hold comes back as
   PORTAL_BAD_FOLLOW_ON, and nothing outside is read or written. Where the script was turned back, nothing that was lent has changed. Otherwise the tree and
   the values are as the script left them, for the next one; free places serve again.

   What to show. A stopped script leaves the tree as its stop left it, and where it stops may depend on house numbers: a script that counts in a public
   variable and stops itself where the count equals a house number leaves that number to the next one, which may print it. So copy table and values before
   a call, and put them back where portal_ending(answer) is PORTAL_FLOW or more, as examples/standing.c does. Then the boards of finished scripts tell
   nothing of house numbers but which scripts finished. And where portal_start was stopped, show no board of that tree.

   NULL, overlap, threads: as for portal_start; script and levels are only read, and may overlap each other. */
uint64_t portal_follow(const uint8_t *script, size_t script_len, uint64_t budget, uint32_t *table, size_t table_len, const uint8_t *levels,
                       size_t levels_len, int32_t *values, size_t values_len, uint8_t *lines, size_t lines_len);

/* Writes the tree and the variables that stand as a job with an empty script: to put them away, to send them, or to load them into a fresh table with portal_start.
   The nodes are listed the way they hang, closed up, whatever places they stand at: the same tree and variables give the same bytes.

   table       the table in which the tree stands, which is read only
   table_len   how many words: not more than PORTAL_MAX_PLACES places, and every place of a node among them
   levels      the variables' levels, which are read only
   levels_len  how many variables there are: exactly portal_variables(job, job_len) of the job that began
   values      the variables' values, which are read only
   values_len  the same number as levels_len
   area        bytes for the job
   area_len    how many: PORTAL_MAX_WRITTEN is always enough. The job has 8 for each variable, 12 for each node and 8 more

   Returns how many bytes the job has, 20 or more, or below 20 the number by which the call was turned back: PORTAL_BAD_FOLLOW_ON where no accepted job could hold
   what stands in table and variables, then PORTAL_BAD_BUFFERS for more than PORTAL_MAX_PLACES places, then PORTAL_BAD_AREA where the area is shorter than the job.
   There is no budget and there are no lines: portal_ending is not for this answer, portal_wrote tells the two apart. The job stands at the beginning of the area;
   every byte behind it is as it was, and every byte where the call was turned back. portal_start accepts the job, and leaves the same variables and the same tree.

   What to show. The job has every house number. Its public parts depend on public parts alone.

   NULL: each pointer may be NULL where its length is 0. Otherwise it points to as many numbers as its length says, aligned as C asks for.

   Overlap: the area must overlap nothing else that is lent; the others may overlap each other.

   Threads: calls that only read a tree may go on at the same time. */
uint64_t portal_write(const uint32_t *table, size_t table_len, const uint8_t *levels, size_t levels_len, const int32_t *values, size_t values_len, uint8_t *area,
                      size_t area_len);

/* Whether portal_write wrote a job: the answer is its length then, else the number by which the call was turned back. */
static inline int portal_wrote(uint64_t answer) { return answer >= 20; }

/* How many variables a job has, if it is not turned back with 1 to 8: its trailer says where the nodes begin, and each variable before them has 8 bytes.
   For other bytes, some number up to PORTAL_MAX_VARIABLES. */
static inline size_t portal_variables(const uint8_t *job, size_t job_len) {
    size_t variables = job_len < 8 ? 0 : (job[job_len - 6] + 256u * job[job_len - 5]) / 8;
    return variables <= PORTAL_MAX_VARIABLES ? variables : 0;
}

/* How a job or a script ended: one of the numbers above. For the house alone. */
static inline int portal_ending(uint64_t answer) { return PORTAL_CAST(int, answer >> 32); }

/* How many lines it put out. */
static inline size_t portal_lines(uint64_t answer) { return answer & 0xffffffffu; }

/* Line number i, counted from 0. */
static inline int32_t portal_line(const uint8_t *lines, size_t i) {
    const uint8_t *at = lines + PORTAL_LINE_BYTES * i;
    uint32_t bits = at[0] | PORTAL_CAST(uint32_t, at[1]) << 8 | PORTAL_CAST(uint32_t, at[2]) << 16 | PORTAL_CAST(uint32_t, at[3]) << 24;
    return bits < 0x80000000u ? PORTAL_CAST(int32_t, bits) : -PORTAL_CAST(int32_t, 0xffffffffu - bits) - 1;
}

/* The readers of line number i: a bit for each party, 0 where the line is for everyone. */
static inline uint8_t portal_readers(const uint8_t *lines, size_t i) { return lines[PORTAL_LINE_BYTES * i + 4]; }

/* Whether a reader, as a set of parties, sees a line: where its readers are all among them. */
static inline int portal_sees(uint8_t reader, uint8_t readers) { return (readers & ~reader) == 0; }

/* What an ending is called, as `inspect` and `tools/job` call it; "unknown" for a number that is none. */
static inline const char *portal_ending_name(int ending) {
    switch (ending) {
    case PORTAL_FINISHED: return "finished";
    case PORTAL_WRONG_SIZE: return "wrong size";
    case PORTAL_BROKEN_LAYOUT: return "broken layout";
    case PORTAL_BAD_COUNT: return "count out of range";
    case PORTAL_BAD_VARIABLE_LEVEL: return "variable level out of range";
    case PORTAL_BAD_PARENT: return "parent rule broken";
    case PORTAL_BAD_TREE: return "tree rule broken";
    case PORTAL_BAD_FIELD: return "command or field out of range";
    case PORTAL_BAD_BLOCKS: return "blocks do not match";
    case PORTAL_BAD_BUDGET: return "budget out of range";
    case PORTAL_BAD_BUFFERS: return "buffers do not fit";
    case PORTAL_BAD_FOLLOW_ON: return "follow-on not whole";
    case PORTAL_SPARE_BYTE: return "spare byte not zero";
    case PORTAL_BAD_ORDER: return "node out of order";
    case PORTAL_BAD_AREA: return "area too short";
    case PORTAL_NO_PLACE: return "no place free";
    case PORTAL_FLOW: return "flow rule broken";
    case PORTAL_NO_NODE: return "node does not exist";
    case PORTAL_TABLE_FULL: return "table full";
    case PORTAL_BOARD_FULL: return "board full";
    case PORTAL_BUDGET_USED_UP: return "budget used up";
    case PORTAL_OUT_OF_RANGE: return "result out of range";
    default: return "unknown";
    }
}

#ifdef __cplusplus
}
#endif
#undef PORTAL_CAST

#endif
