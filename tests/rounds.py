"""Tries the program rounds. What it must write is worked out from the papers for each event."""
import struct

from frames import (CHILD, END, FOREVER, NEW_CHILD, PAPER, PAPER_ANSWER, PRINT, ROOT, TWO, answer, done, expect, job, one_by_one, record,
                    same_memory)

TURN = struct.pack("<IIIHH", 1, 0, 0, 0, 0)
NOTHING, UP = record(0), record(8)
TEN = "node 0 0 0 0 10\n"
COUNTER = bytes(8)  # a public variable, 0
LOOP = job(b"", ROOT, FOREVER, END)


def newcomer(data, budget=100, places=512, lines=256):
    return struct.pack("<IIIHH", 0, len(data), budget, places, lines) + data


def counting(times, *rest):
    """A loop that counts, 3 steps each time and 1 for its last guard, and what comes behind it."""
    guard = record(4, operator=4, left=(1, 0), right=(0, times))
    return job(COUNTER, ROOT, guard, record(1, operator=1, left=(1, 0), right=(0, 1)), END, *rest)


def counted(times):
    return f"variable 0 {times}\n" + TEN


def order(what, *parts):
    """Events, each with what it must print behind its head line."""
    data, want = b"", ""
    for k, (event, said) in enumerate(parts):
        data += event
        (kind,) = struct.unpack_from("<I", event)
        want += {0: "newcomer", 1: "turn"}.get(kind, "unknown") + f" {k}\n{said}"
    expect(what, data, want)


def took(run, steps, ended=""):
    return f"run {run} took {steps}\n{ended}"


TAKEN = "taken\n"
IDLE = (TURN, "idle\n")
LONG = (newcomer(LOOP, 1000000), TAKEN)

expect("no input", b"", "")
order("a turn of nobody", IDLE, IDLE)
order("the paper's job", (newcomer(PAPER), TAKEN), (TURN, took(0, 1, PAPER_ANSWER)), IDLE)
order("an empty script takes a place", (newcomer(job(TWO, ROOT + CHILD)), TAKEN),
      (TURN, took(0, 0, answer(0) + "variable 0 0\nvariable 1 -7\n" + TEN + "node 1 0 0 0 3\n")), IDLE)

# A circle: a newcomer joins at the back, an unended run goes to the back.
order("a circle", LONG, LONG, (TURN, took(0, 5000)), LONG, (TURN, took(1, 5000)), (TURN, took(0, 5000)), (TURN, took(3, 5000)), (TURN, took(1, 5000)),
      (newcomer(PAPER), TAKEN), (TURN, took(0, 5000)), (TURN, took(3, 5000)), (TURN, took(1, 5000)), (TURN, took(8, 1, PAPER_ANSWER)), (TURN, took(0, 5000)))

# The script's end at, before and behind a turn's last step: 1,666 times around are 4,999 steps.
for more, turns in [(0, [4999]), (1, [5000]), (2, [5000, 1]), (5001, [5000, 5000]), (5002, [5000, 5000, 1])]:
    times, rest = 1666 + more // 3, [NOTHING] * (more % 3)
    steps = 4999 + more
    said = [took(0, n) for n in turns[:-1]] + [took(0, turns[-1], answer(0, 0, steps) + counted(times))]
    order(f"a script of {steps} steps", (newcomer(counting(times, *rest), 1000000), TAKEN), *((TURN, text) for text in said), IDLE)

# The budget at the same steps; a loop of two records.
for budget, turns in [(1, [1]), (4999, [4999]), (5000, [5000]), (5001, [5000, 1]), (9999, [5000, 4999]), (10000, [5000, 5000]), (10001, [5000, 5000, 1])]:
    said = [took(0, n) for n in turns[:-1]] + [took(0, turns[-1], answer(25, budget % 2, budget) + TEN)]
    order(f"a budget of {budget}", (newcomer(LOOP, budget), TAKEN), *((TURN, text) for text in said), IDLE)
order("script's end and budget at once", (newcomer(counting(1666, NOTHING), 5000), TAKEN), (TURN, took(0, 5000, answer(0, 0, 5000) + counted(1666))), IDLE)

# Any other stop right behind step 5,000 is a matter of the next turn; with the budget used up it is 25, in that turn.
STOPS = counting(1666, NOTHING, UP)
order("a stop behind step 5,000", (newcomer(STOPS, 5001), TAKEN), (TURN, took(0, 5000)), (TURN, took(0, 0, answer(22, 4, 5000) + counted(1666))), IDLE)
order("a stop and the budget", (newcomer(STOPS, 5000), TAKEN), (TURN, took(0, 5000, answer(25, 4, 5000) + counted(1666))), IDLE)
order("a stop in step 5,000", (newcomer(counting(1666, UP), 5001), TAKEN), (TURN, took(0, 4999, answer(22, 3, 4999) + counted(1666))), IDLE)
for capacity, places, script, ending in [(0, 512, PRINT, 24), (256, 1, NEW_CHILD, 23)]:
    order(f"{ending} behind step 5,000", (newcomer(counting(1666, NOTHING, script), 9000, places, capacity), TAKEN), (TURN, took(0, 5000)),
          (TURN, took(0, 0, answer(ending, 4, 5000) + counted(1666))), IDLE)

# Lines, nodes and open blocks stay from turn to turn: a loop that prints and inserts, until there is no room. A time around is 4 steps.
BUSY = job(b"", ROOT, FOREVER, PRINT, record(11, left=(0, 4)), END)
order("lines of two turns", (newcomer(BUSY, 1000000, 512, 300), TAKEN),
      (TURN, took(0, 1201, answer(24, 1, 1201, 300) + "line 10 0\n" * 300 + TEN + "node 1 0 0 0 4\n" * 300)))
PRINTS = job(b"", ROOT, FOREVER, PRINT, END)
for capacity in [1666, 1667, 65535]:
    room = min(capacity, 3000)
    steps = 3 * room + 1 if room == capacity else 9000
    ended = answer(24, 1, steps, room) if room == capacity else answer(25, 0, steps, room)
    turns = [(TURN, took(0, 5000))] * ((steps - 1) // 5000)
    order(f"{capacity} lines", (newcomer(PRINTS, 9000, 512, capacity), TAKEN), *turns,
          (TURN, took(0, steps - 5000 * len(turns), ended + "line 10 0\n" * room + TEN)), IDLE)

# Whoever is turned back takes no place, and gets the number that the job gets alone; the body may be longer than any job.
BACK = [(newcomer(b""), answer(1)), (newcomer(bytes(8)), answer(3)), (newcomer(bytes(70000)), answer(1)), (newcomer(PAPER, 0), answer(9)),
        (newcomer(PAPER, 1000001), answer(9)), (newcomer(PAPER, 2**32 - 1), answer(9)), (newcomer(PAPER, 100, 0), answer(10)),
        (newcomer(PAPER, 100, 513), answer(10)), (newcomer(PAPER, 100, 65535), answer(10)), (newcomer(job(b"", ROOT, UP, END)), answer(8, 1)),
        (newcomer(job(b"", ROOT + b"\x05" * 12)), answer(5, 1))]
order("turned back", *BACK, IDLE, *BACK, (newcomer(PAPER), TAKEN), *BACK, (TURN, took(2 * len(BACK) + 1, 1, PAPER_ANSWER)), IDLE)

# Eight places. 15 comes before the job is read, and again until a run has ended; its place is used again, and only once.
FULL = [LONG] * 7 + BACK + [(newcomer(PAPER), TAKEN)]
NO_PLACE = [(event, answer(15)) for event, _ in [LONG, *BACK, (newcomer(job(b"", ROOT)), "")]]
LAST = len(FULL) - 1
order("eight places", *FULL, *NO_PLACE, *[(TURN, took(k, 5000)) for k in range(7)], *NO_PLACE, (TURN, took(LAST, 1, PAPER_ANSWER)), BACK[0],
      (newcomer(PAPER), TAKEN), *NO_PLACE, *[(TURN, took(k, 5000)) for k in range(7)],
      (TURN, took(LAST + 2 * len(NO_PLACE) + 10, 1, PAPER_ANSWER)), (newcomer(PAPER), TAKEN))
order("eight at once, again and again", *([(newcomer(PAPER), TAKEN)] * 8 + [(newcomer(PAPER), answer(15))] +
      [(TURN, took(k, 1, PAPER_ANSWER)) for k in range(8)]), *[IDLE] * 3, *([(newcomer(PAPER), TAKEN)] * 8 + [(newcomer(b""), answer(15))]),
      *[(TURN, took(k, 1, PAPER_ANSWER)) for k in range(20, 28)], IDLE)

# Eight that count to different numbers: each ends as it does alone, though all are under way.
TIMES = [4000, 1, 2500, 1667, 3333, 0, 1666, 5000]
STEPS = [3 * times + 1 for times in TIMES]
said, left, queue, k = [(newcomer(counting(times), 1000000), TAKEN) for times in TIMES], dict(enumerate(STEPS)), list(range(8)), 8
while queue:
    run = queue.pop(0)
    part = min(left[run], 5000)
    left[run] -= part
    said.append((TURN, took(run, part, "" if left[run] else answer(0, 0, STEPS[run]) + counted(TIMES[run]))))
    queue += [run] if left[run] else []
order("eight that count", *said, IDLE)

# Events of no kind; what a turn has besides its kind.
order("other kinds", *[(struct.pack("<IIIHH", kind, 24, 100, 512, 256) + bytes(24), "") for kind in (2, 3, 4, 255, 256)], IDLE, LONG,
      (struct.pack("<IIIHH", 1, 40, 7, 1, 1) + bytes(40), took(6, 5000)), (struct.pack("<IIIHH", 1, 70000, 0, 0, 0) + PAPER * 2 + bytes(69928), took(6, 5000)))

# Input that ends within a header or within a body.
for kind in range(3):
    whole = struct.pack("<IIIHH", kind, 24, 100, 512, 256) + bytes(24)
    for cut in [1, 4, 15, 16, 17, 24, 39]:
        expect(f"kind {kind} cut after {cut} bytes", newcomer(PAPER) + whole[:cut], "newcomer 0\ntaken\ntruncated\n")
    expect(f"a long body of kind {kind} cut", struct.pack("<IIIHH", kind, 80000, 0, 0, 0) + bytes(79999), "truncated\n")

# Many events, so that headers, bodies and answers fall on every edge of the blocks.
N = 30000
MANY = newcomer(PAPER) + TURN + newcomer(b"") + TURN
said = "".join(f"newcomer {k}\ntaken\nturn {k + 1}\n" + took(k, 1, PAPER_ANSWER) + f"newcomer {k + 2}\n{answer(1)}turn {k + 3}\nidle\n" for k in range(0, 4 * N, 4))
expect(f"{4 * N} events", MANY * N, said)
same_memory(MANY)
one_by_one([newcomer(PAPER), TURN] * 4, [text for k in range(0, 8, 2) for text in (f"newcomer {k}\ntaken\n", f"turn {k + 1}\n" + took(k, 1, PAPER_ANSWER))])
done()
