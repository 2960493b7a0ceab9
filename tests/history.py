"""Tries the program history. What it must write is worked out from the papers for each event."""
import struct

from frames import (CHILD, END, FOREVER, NEW_CHILD, PAPER, PAPER_ANSWER, PRINT, ROOT, TWO, answer, done, expect, job, node, one_by_one, output,
                    record, same, same_memory)

NONE = 65535
FIRST, RIGHT, PARENT, CHILDREN, VALUE, EXISTENCE, CONTENT, LIST, LEVEL, NUMBER, COUNT = range(11)
LEFT, LAST = 16, 17
FIELDS = (FIRST, RIGHT, PARENT, CHILDREN, VALUE, EXISTENCE, CONTENT, LIST, LEFT, LAST)
RECORD = "record {}" + " {}" * len(FIELDS) + "\n"


def event(kind, body=b"", budget=100, places=512, lines=256):
    return struct.pack("<IIIHH", kind, len(body), budget, places, lines) + body


def start(body, **lent):
    return event(0, body, **lent)


def script(*records, **lent):
    return event(1, b"".join(records), **lent)


def poke(*entries):
    return event(2, b"".join(struct.pack("<HHI", what, index, value % 2**32) for what, index, value in entries))


def dump(places):
    return event(3, places=places)


def write(area, places=512, body=b""):
    return event(4, body, budget=area, places=places)


def wrote(written, area):
    """What comes where these bytes are written into an area, or where a number turns what stands away."""
    turned_away = isinstance(written, int)
    data = b"" if turned_away else written
    return f"written K {written if turned_away else len(data)}\narea {data.hex()}{'aa' * (area - len(data))}\n"


def fields(place, *numbers):
    """The entries that set a whole record."""
    return [(what, place, number) for what, number in zip(FIELDS, numbers)]


def history(what, *pairs):
    """Events, each with what must come for it; K stands for its number."""
    expect(what, b"".join(data for data, _ in pairs), "".join(text.replace("K", str(k), 1) for k, (_, text) in enumerate(pairs)))


def came(ending, index=0, steps=0, lines="", left=""):
    """What comes for a script: its answer, its lines, the variables and the tree that it leaves."""
    return "script K\n" + answer(ending, index, steps, lines.count("line")) + lines + left


ROOT_TEN = "node 0 0 0 0 10\n"
FAMILY = "variable 0 0\nvariable 1 -7\n" + ROOT_TEN + "node 1 0 0 0 3\n"
FAMILY_JOB = (start(job(TWO, ROOT + CHILD)), "job K\n" + answer(0) + FAMILY)
PAPER_JOB = (start(PAPER), "job K\n" + PAPER_ANSWER)
STANDS = (script(), came(0, left=FAMILY))
POKED = "poke K\n"

# Before any job all is blank: no root stands there.
expect("no input", b"", "")
for places, shown in [(0, 0), (1, 1), (2, 2), (512, 512), (513, 513), (514, 513), (65535, 513)]:
    history(f"{places} blank records", (dump(places), "table K\n" + "".join(RECORD.format(p, *[0] * len(FIELDS)) for p in range(shown))))
for places in [0, 1, 2, 512, 513, 65535]:
    history(f"a script over {places} blank records", (script(places=places), came(11)), (script(PRINT, places=places, budget=0), came(11)))

# Script after script: each starts at the root with cursor level 0 and has its own steps and lines; what it leaves stands for the next, also where it stops.
NEW = "node 1 0 1 1 4\n"
history(
    "script after script",
    FAMILY_JOB,
    (script(record(9), record(15, left=(0, 5))), came(0, 0, 2, left=FAMILY.replace(" 3\n", " 5\n"))),
    (script(PRINT), came(0, 0, 1, "line 10 0\n", FAMILY.replace(" 3\n", " 5\n"))),
    (script(NEW_CHILD, record(1, left=(3, 0))), came(0, 0, 2, "", "variable 0 2\nvariable 1 -7\n" + ROOT_TEN + NEW + "node 1 0 0 0 5\n")),
    (script(record(13), record(1, operator=1, left=(1, 0), right=(0, 7)), record(1, left=(1, 1)), PRINT),
     came(21, 2, 2, "", "variable 0 9\nvariable 1 -7\n" + ROOT_TEN + "node 1 0 0 0 5\n")),
    (script(record(16), record(9)), came(0, 0, 2, "", "variable 0 9\nvariable 1 -7\n" + ROOT_TEN + "node 1 0 0 0 5\n")),
    (script(record(6, left=(1, 0)), record(9), PRINT, record(8), PRINT),
     came(0, 0, 5, "line 9 0\nline 5 0\nline 10 0\n", "variable 0 9\nvariable 1 -7\n" + ROOT_TEN + "node 1 0 0 0 5\n")),
    (script(FOREVER, END, budget=10), came(25, 0, 10, "", "variable 0 9\nvariable 1 -7\n" + ROOT_TEN + "node 1 0 0 0 5\n")),
)

# Of two places the second is free after a removal and serves again; with both in use there is none for a third node.
FULL = "variable 0 0\nvariable 1 -7\n" + ROOT_TEN + NEW
history(
    "two places",
    (start(job(TWO, ROOT + CHILD), places=2), FAMILY_JOB[1]),
    (script(record(13), NEW_CHILD, places=2), came(0, 0, 2, "", FULL)),
    (script(NEW_CHILD, places=2), came(23, 0, 0, "", FULL)),
    (script(NEW_CHILD, places=3), came(0, 0, 1, "", FULL + NEW)),
    (script(places=2), came(11)),
    (script(places=3), came(0, left=FULL + NEW)),
)

# An if that comes back, command 17, over a tree that stands. Its end brings the cursor and its level back, so that a public line may come; where its node was
# removed, the end is 22, though a new node stands in its place, and the next script goes on with the tree that the stop left. No script remembers what one
# before it did, also where that ended inside the block.
BACK = record(17, left=(0, 1))
BACK_HOUSE = record(17, left=(1, 1))
REPLACED = "variable 0 0\nvariable 1 -7\n" + ROOT_TEN + NEW
GROWN = REPLACED.replace(" 4\n", " 6\n") + "node 2 0 0 0 8\n"
history(
    "an if that comes back",
    FAMILY_JOB,
    (script(BACK_HOUSE, record(9), END, PRINT), came(0, 0, 4, "line 10 0\n", FAMILY)),
    (script(record(9), BACK_HOUSE, record(7), END, PRINT), came(0, 0, 5, "line 3 0\n", FAMILY)),
    (script(BACK, record(9), END, budget=2), came(25, 2, 2, "", FAMILY)),
    (script(record(9), BACK, record(8), record(13), NEW_CHILD, END), came(22, 5, 5, "", REPLACED)),
    (script(record(9), BACK, record(8), END, record(15, left=(0, 6)), record(11, left=(0, 8))), came(0, 0, 6, "", GROWN)),
    # One inside another: the inner one's node goes with the node above it, the outer one's stays.
    (script(BACK, record(9), record(9), BACK, record(7), record(13), END, END), came(22, 6, 6, "", "variable 0 0\nvariable 1 -7\n" + ROOT_TEN)),
    (script(BACK, NEW_CHILD, BACK, record(9), END, END, PRINT), came(0, 0, 7, "line 10 0\n", REPLACED)),
)

# Left sibling and last child, commands 18 and 19, over a tree that stands and grows: what one script adds or removes, the next one finds from behind.
LEFT_SIBLING, LAST_CHILD = record(18), record(19)
BOTH = "variable 0 0\nvariable 1 -7\n" + ROOT_TEN + "node 1 0 0 0 3\nnode 1 0 0 0 6\n"
history(
    "left sibling and last child",
    FAMILY_JOB,
    (script(LAST_CHILD, PRINT, LEFT_SIBLING), came(22, 2, 2, "line 3 0\n", FAMILY)),
    (script(LAST_CHILD, record(12, left=(0, 6))), came(0, 0, 2, "", BOTH)),
    (script(LAST_CHILD, PRINT, LEFT_SIBLING, PRINT), came(0, 0, 4, "line 6 0\nline 3 0\n", BOTH)),
    (script(record(13), LAST_CHILD, PRINT, LEFT_SIBLING), came(22, 3, 3, "line 6 0\n", BOTH.replace("node 1 0 0 0 3\n", ""))),
    # The list is the house's, so that where the last child stands is, too: a house child may stand there in another history.
    (start(job(b"", node(65535, 0, 0, 1, 10) + CHILD)), "job K\n" + answer(0) + "node 0 0 0 1 10\nnode 1 0 0 0 3\n"),
    (script(LAST_CHILD, PRINT), came(21, 1, 1, "", "node 0 0 0 1 10\nnode 1 0 0 0 3\n")),
    (script(record(9), PRINT), came(0, 0, 2, "line 3 0\n", "node 0 0 0 1 10\nnode 1 0 0 0 3\n")),
)

# A job that is turned back leaves everything; one that is run leaves its own tree and variables. The paper's job stops and finishes alike.
history(
    "job after job",
    FAMILY_JOB,
    (start(job(TWO, ROOT + CHILD), places=1), "job K\n" + answer(10)),
    (start(job(TWO, ROOT + CHILD), budget=0), "job K\n" + answer(9)),
    (start(b"1234567"), "job K\n" + answer(1)),
    STANDS,
    (start(job(TWO[:8], node(65535, 0, 1, 0, 7), PRINT)), "job K\n" + answer(21) + "variable 0 0\nnode 0 0 1 0 7\n"),
    (script(), came(0, left="variable 0 0\nnode 0 0 1 0 7\n")),
    PAPER_JOB,
    (script(PRINT), came(0, 0, 1, "line 10 0\n", ROOT_TEN)),
)

# Turned away in the order 11, 7, 12, 8, 9, 10, and nothing has changed. A section has whole records, at most 1,024.
STRANGE = record(20)
history(
    "turned away",
    FAMILY_JOB,
    (event(1, STRANGE[:15], budget=0, places=513), came(11)),
    (script(END, STRANGE, budget=0, places=1), came(11)),
    (script(END, STRANGE, budget=0, places=513), came(7, 1)),
    (script(record(0, target=1), STRANGE, budget=0, places=513), came(7, 1)),
    (script(END, record(0, target=1), budget=0, places=513), came(12, 1)),
    (script(record(0), record(6, left=(2, 1)), budget=0, places=513), came(12, 1)),
    (script(record(0), END, budget=0, places=513), came(8, 1)),
    (script(FOREVER, FOREVER, budget=0, places=513), came(8, 2)),
    (script(record(1, target=2), places=513), came(7, 0)),
    (script(record(0), budget=0, places=513), came(9)),
    (script(record(0), budget=1000001, places=513), came(9)),
    (script(record(0), budget=1000000, places=513), came(10)),
    (script(record(0), budget=1000000, places=65535), came(10)),
    (script(record(0), budget=1, places=512), came(0, 0, 1, "", FAMILY)),
    (script(*[record(0)] * 1024, budget=1024), came(0, 0, 1024, "", FAMILY)),
    (script(*[record(0)] * 1024, budget=1023), came(25, 1023, 1023, "", FAMILY)),
    (script(*[record(0)] * 1025, budget=1025), came(11)),
    (script(*[STRANGE] * 1025, budget=1025), came(11)),
    STANDS,
)

# Bodies that are longer than any section or job: they are read to their end, and the next event is found.
for size in [16400, 23040, 23048, 23049, 23056, 65536, 70000, 200000]:
    history(f"bodies of {size} bytes", FAMILY_JOB, (event(1, bytes(size)), came(11)), (start(bytes(size)), "job K\n" + answer(1 if size > 23048 else 2)),
            (event(3, bytes(size), places=0), "table K\nvariable 0 0\nvariable 1 -7\n"), (event(9, bytes(size)), "unknown K\n"), STANDS)
for kind in [5, 6, 2**32 - 1]:
    history(f"kind {kind}", FAMILY_JOB, (event(kind, bytes(24)), "unknown K\n"), (event(kind), "unknown K\n"), STANDS)

# Line capacities. Each turn of the loop takes three steps, so that the stop in turn n comes after 3 * (n - 1) + 1.
for capacity in [0, 1, 1024, 1025, 65535]:
    history(f"line capacity {capacity}", PAPER_JOB, (script(FOREVER, PRINT, END, budget=1000000, lines=capacity),
            came(24, 1, 3 * capacity + 1, "line 10 0\n" * capacity, ROOT_TEN)), (script(PRINT), came(0, 0, 1, "line 10 0\n", ROOT_TEN)))
    if capacity > 300:
        continue
    history(f"line capacity {capacity} of a job", (start(job(b"", ROOT, FOREVER, PRINT, END), lines=capacity),
            "job K\n" + answer(24, 1, 3 * capacity + 1, capacity) + "line 10 0\n" * capacity + ROOT_TEN), (script(), came(0, left=ROOT_TEN)))

# A table that is poked in, its nodes out of order: under the root, in place 0, those in places 5 and 3, under that in place 3 the one in place 1. In the
# free places stands what leads nowhere.
TABLE = [(5, NONE, NONE, 2, 10, 0, 0, 1, NONE, 3), (NONE, NONE, 3, 0, -2147483648, 1, 1, 1, NONE, NONE), (7, 7, 7, 7, 7, 255, 255, 255, 7, 7),
         (1, NONE, 0, 1, 2147483647, 1, 1, 1, 5, 1), (0, 0, 0, 0, 0, 0, 0, 0, 0, 0), (NONE, 3, 0, 0, -3, 0, 1, 0, NONE, NONE)]
TREE = "node 0 0 0 1 10\nnode 1 0 1 0 -3\nnode 1 1 1 1 2147483647\nnode 2 1 1 1 -2147483648\n"
VARIABLES = "variable 0 5\nvariable 1 -5\n"
WHOLE = poke(*[entry for place, numbers in enumerate(TABLE) for entry in fields(place, *numbers)],
             (LEVEL, 0, 0), (NUMBER, 0, 5), (LEVEL, 1, 1), (NUMBER, 1, -5), (COUNT, 0, 2))
RECORDS = [RECORD.format(place, *numbers) for place, numbers in enumerate(TABLE)]
PUT = (WHOLE, POKED)
RUNS = (script(places=6), came(0, left=VARIABLES + TREE))
history("a table that is put in", PUT, (dump(6), "table K\n" + "".join(RECORDS) + VARIABLES), (dump(2), "table K\n" + "".join(RECORDS[:2]) + VARIABLES), RUNS,
        (script(places=512), came(0, left=VARIABLES + TREE)), (script(places=513), came(10)), (script(places=5), came(11)), (script(places=0), came(11)))

# Each of these breaks it, so that no accepted job could hold it: links out of range, cycles, places that two links lead to, wrong parents, wrong counts,
# a root with a parent or a sibling, sets that do not contain each other, broken tree rules, variables. A script is turned away and leaves every record as it was.
for broken in [
    [(FIRST, 0, 6)], [(FIRST, 0, 65534)], [(FIRST, 0, 65536)], [(FIRST, 0, 2**32 - 1)], [(RIGHT, 3, 6)], [(RIGHT, 1, 70000)], [(FIRST, 5, 100)],
    [(FIRST, 5, 5), (CHILDREN, 5, 1)], [(FIRST, 1, 3), (CHILDREN, 1, 1)], [(FIRST, 1, 0), (CHILDREN, 1, 1)], [(RIGHT, 3, 5)], [(RIGHT, 3, 3)], [(FIRST, 0, 0)],
    [(FIRST, 5, 1), (CHILDREN, 5, 1)], [(RIGHT, 1, 3)],
    [(PARENT, 5, 3)], [(PARENT, 5, NONE)], [(PARENT, 1, 0)], [(PARENT, 3, 5)], [(PARENT, 0, 0)], [(PARENT, 0, 5)], [(RIGHT, 0, 2)], [(RIGHT, 0, 5)],
    [(CHILDREN, 0, 1)], [(CHILDREN, 0, 3)], [(CHILDREN, 1, 1)], [(CHILDREN, 3, 0)], [(CHILDREN, 0, 65538)],
    [(FIRST, 0, NONE)], [(RIGHT, 5, NONE)], [(FIRST, 3, NONE)],
    [(EXISTENCE, 0, 1), (CONTENT, 0, 1)], [(EXISTENCE, 5, 2)], [(CONTENT, 1, 2)], [(LIST, 3, 254)],
    [(CONTENT, 3, 0)], [(LIST, 3, 0)], [(EXISTENCE, 5, 1), (EXISTENCE, 3, 0)], [(EXISTENCE, 1, 0)], [(LIST, 0, 0)],
    [(COUNT, 0, 65)], [(COUNT, 0, 1000)],
    [(LEFT, 0, 0)], [(LEFT, 0, 2)], [(LEFT, 0, 65536)], [(LEFT, 5, 3)], [(LEFT, 5, 5)], [(LEFT, 5, 0)], [(LEFT, 3, NONE)], [(LEFT, 3, 3)], [(LEFT, 3, 0)],
    [(LEFT, 3, 2)], [(LEFT, 3, 65541)], [(LEFT, 1, 3)], [(LEFT, 1, 2**32 - 1)],
    [(LAST, 0, NONE)], [(LAST, 0, 5)], [(LAST, 0, 0)], [(LAST, 0, 1)], [(LAST, 0, 2)], [(LAST, 0, 65539)], [(LAST, 3, NONE)], [(LAST, 3, 5)], [(LAST, 1, 1)],
    [(LAST, 5, 3)], [(LAST, 5, 65534)],
]:
    changed = [list(numbers) for numbers in TABLE]
    variables = [[0, 5], [1, -5]] + [[0, 0]] * 63
    count = 2
    for what, index, number in broken:
        if what in FIELDS:
            changed[index][FIELDS.index(what)] = number
        elif what == COUNT:
            count = min(number, 65)
        else:
            variables[index][what - LEVEL] = number
    shown = "".join(RECORD.format(place, *numbers) for place, numbers in enumerate(changed))
    shown += "".join("variable {} {}\n".format(*variable) for variable in variables[:count])
    history(f"a broken table, {broken}", PUT, (poke(*broken), POKED), (script(NEW_CHILD, places=6), came(11)), (script(STRANGE, budget=0, places=6), came(11)),
            (write(100, places=6), wrote(11, 100)), (write(0, places=513), wrote(11, 0)),
            (dump(6), "table K\n" + shown), (poke((COUNT, 0, 2)), POKED), PUT, RUNS)

# These do not: what free places hold is nobody's business, and 64 variables are not too many.
for entries, left in [
    ([(FIRST, 2, 2**32 - 1), (PARENT, 4, 9), (EXISTENCE, 4, 9)], VARIABLES),
    ([(LEFT, 2, 2**32 - 1), (LAST, 2, 0), (LEFT, 4, 3), (LAST, 4, 5)], VARIABLES),
    ([(COUNT, 0, 0)], ""),
    ([(COUNT, 0, 64)], VARIABLES + "variable 0 0\n" * 62),
    ([(LEVEL, 64, 9), (NUMBER, 64, 9), (LEVEL, 2, 9)], VARIABLES),
]:
    history(f"a table that serves, {entries}", PUT, (poke(*entries), POKED), (script(places=6), came(0, left=left + TREE)))

# each live node's count is the number of its live children, after the load and after every script, also where subtrees were removed and their places
# serve again. Which places these are is the program's own affair, so what a dump shows is followed by its links. A wrong count at a live node is 11, and
# nothing has changed; one at a free place is nothing.
def told(*events):
    """What comes for each event, without its head."""
    lines, parts = output(b"".join(events)).splitlines(keepends=True), []
    for line in lines:
        if line.split()[0] in ("job", "script", "poke", "table"):
            parts.append("")
        else:
            parts[-1] += line
    return parts


def links(text):
    """Of each record first, right, parent and children."""
    return [[int(word) for word in line.split()[2:6]] for line in text.splitlines() if line.startswith("record")]


def row(records, link):
    """The places from a link on, one right of the other."""
    return [] if link == NONE else [link] + row(records, records[link][RIGHT])


def live(records, place=0):
    """The places of a node and of all below it."""
    return [place] + [at for child in row(records, records[place][FIRST]) for at in live(records, child)]


def of(records, places):
    return "".join(f"{place}: {records[place]}\n" for place in places)


LENT = 12
GROW = (NEW_CHILD, record(9), NEW_CHILD, NEW_CHILD, record(9), NEW_CHILD, record(12, target=3, left=(0, 4)))
KIDS = script(record(6, left=(3, 0)), places=LENT)
SEASON = [start(job(TWO, ROOT + CHILD * 3), places=LENT)] + [script(*records, places=LENT) for records in [
    GROW, (*GROW, record(7), record(9), record(13)), (record(13),), (record(9), NEW_CHILD, record(14), NEW_CHILD), (*GROW, record(8), record(8), record(13)),
    (NEW_CHILD,) * 20, (record(13),) * 4, (record(9), *GROW, record(8), record(13)), (record(13),) * 20, GROW]]
ENDINGS = ""
for events in range(1, len(SEASON) + 1):
    *_, ended, shown, kids = told(*SEASON[:events], dump(LENT), KIDS)
    ENDINGS += ended.splitlines(keepends=True)[0]
    stood = links(shown)
    alive = live(stood)
    line = f"line {len(row(stood, stood[0][FIRST]))} 0"
    same(f"children after event {events}", line, kids.splitlines()[1])
    for at in range(LENT):
        count = stood[at][CHILDREN]
        if at in alive:
            same(f"the count at {at} after event {events}", str(len(row(stood, stood[at][FIRST]))), str(count))
        for wrong in {count + 1, (count - 1) % 2**32, count + 65536, 2**32 - 1, 0} - {count}:
            *_, said, held = told(*SEASON[:events], poke((CHILDREN, at, wrong)), KIDS, dump(LENT))
            what = f"{wrong} children at {at} after event {events}"
            if at in alive:
                stands = [numbers[:CHILDREN] + [wrong] if place == at else numbers for place, numbers in enumerate(stood)]
                same(what, answer(11) + of(stands, range(LENT)), said + of(links(held), range(LENT)))
            else:
                same(what, line + "\n" + of(stood, alive), said.splitlines()[1] + "\n" + of(links(held), alive))
for number in [0, 22, 23]:
    same(f"a script that ends with {number}", "True", str(f"ending {number} " in ENDINGS))

# The most live nodes: 512. One more is too many for any job, with places enough.
CHAIN = [entry for place in range(513)
         for below in [place + 1 if place < 512 else NONE]
         for entry in fields(place, below, NONE, place - 1 if place else NONE, int(place < 512), 0, 0, 0, 0, NONE, below)]
DEEP = "".join(f"node {depth} 0 0 0 0\n" for depth in range(512))
history("512 nodes and 513", (poke(*CHAIN, (FIRST, 511, NONE), (LAST, 511, NONE), (CHILDREN, 511, 0)), POKED), (script(places=512), came(0, left=DEEP)), (script(places=513), came(10)),
        (poke(*CHAIN), POKED), (script(places=513), came(11)), (script(places=512), came(11)))

# A live node may stand in record 512: the tree could be held, so it is 10.
history("a node in record 512", (poke(*fields(0, 512, NONE, NONE, 1, 0, 0, 0, 0, NONE, 512), *fields(512, NONE, NONE, 0, 0, 1, 0, 0, 0, NONE, NONE)), POKED),
        (script(places=513), came(10)), (script(places=512), came(11)))

# An index that is not there, and what is nothing, is passed over; so is a part entry at the end.
SAME = "table K\n" + "".join(RECORDS) + VARIABLES
PASSED = [(what, 513, 1) for what in FIELDS] + [(FIRST, 65535, 1), (LEVEL, 65, 1), (NUMBER, 65, 1), (NUMBER, 65535, 1)]
PASSED += [(what, 0, 1) for what in [11, 12, 15, 18, 255, 256, 65535]]
PART = struct.pack("<HHI", NUMBER, 0, 6)
history("pokes that are passed over", PUT, (poke(*PASSED), POKED), (dump(6), SAME), (event(2), POKED), (event(2, PART[:7]), POKED), (dump(6), SAME),
        (event(2, PART + PART[:7]), POKED), (dump(6), SAME.replace("variable 0 5", "variable 0 6")))
history("a long poke", PUT, (poke(*[(NUMBER, 0, number) for number in range(10000)], (VALUE, 0, 11)), POKED),
        (script(places=6), came(0, left=(VARIABLES + TREE).replace("variable 0 5", "variable 0 9999").replace("0 1 10", "0 1 11"))))

# What stands, written as a job: the nodes the way they hang, closed up, zero in spare bytes. The rest of the area stays, and all of it where 11, 10 or 14 turns it away.
FAMILY_BYTES = job(TWO, ROOT + CHILD)
TABLE_BYTES = job(bytes.fromhex("00000000 05000000 01000000 fbffffff"),
                  node(65535, 0, 0, 1, 10) + node(0, 0, 1, 0, -3) + node(0, 1, 1, 1, 2147483647) + node(2, 1, 1, 1, -2147483648))
for area in [len(FAMILY_BYTES), len(FAMILY_BYTES) + 1, 200, 24000]:
    history(f"written into {area} bytes", FAMILY_JOB, (write(area), wrote(FAMILY_BYTES, area)), (write(area, 2), wrote(FAMILY_BYTES, area)), STANDS)
for area in [0, 1, 19, 20, len(FAMILY_BYTES) - 1]:
    history(f"no room in {area} bytes", FAMILY_JOB, (write(area), wrote(14, area)), STANDS)
for area in [24001, 2**32 - 1]:
    history(f"an area of {area} bytes", FAMILY_JOB, (write(area), wrote(FAMILY_BYTES, 24000)))
for area in [0, 100, 24000]:
    history("more than 512 places", FAMILY_JOB, (write(area, 513), wrote(10, area)), (write(area, 65535), wrote(10, area)), STANDS)
    history("nothing stands", (write(area), wrote(11, area)), (write(area, 0), wrote(11, area)), (write(area, 513), wrote(11, area)))
    history("a tree that is not lent whole", PUT, (write(area, 5), wrote(11, area)), (write(area, 0), wrote(11, area)), RUNS)
for size in [0, 1, 24, 70000]:
    history(f"a body of {size} bytes", FAMILY_JOB, (write(100, body=bytes(size)), wrote(FAMILY_BYTES, 100)), STANDS)
history("a root alone", (start(job(b"", ROOT)), "job K\n" + answer(0) + ROOT_TEN), (write(20), wrote(job(b"", ROOT), 20)), (write(20, 1), wrote(job(b"", ROOT), 20)))
history("nodes out of order", PUT, (write(90, 6), wrote(TABLE_BYTES, 90)), (write(72, 512), wrote(TABLE_BYTES, 72)), (write(71, 6), wrote(14, 71)), RUNS,
        (start(TABLE_BYTES, places=4), "job K\n" + answer(0) + VARIABLES + TREE), (write(72, 4), wrote(TABLE_BYTES, 72)))
# A removal, a node in the place that it freed, and a stop: what stands is written, loaded into a fresh table and gone on with.
AFTER = job(TWO, ROOT + node(0, 0, 1, 1, 4))
history("removals", FAMILY_JOB, (script(record(13), NEW_CHILD, record(8), places=2), came(22, 2, 2, left=FULL)), (write(100, 2), wrote(AFTER, 100)),
        (start(AFTER, places=2), "job K\n" + answer(0) + FULL), (script(record(13), places=2), came(0, 0, 1, left="variable 0 0\nvariable 1 -7\n" + ROOT_TEN)),
        (write(44, 2), wrote(job(TWO, ROOT), 44)))
MOST = job(bytes(8 * 64), ROOT + b"".join(node(i, 0, 0, 0, i) for i in range(511)))
MOST_LEFT = "variable 0 0\n" * 64 + ROOT_TEN + "".join(f"node {i + 1} 0 0 0 {i}\n" for i in range(511))
same("the longest job that is written", 6664, len(MOST))
history("the most of everything", (start(MOST), "job K\n" + answer(0) + MOST_LEFT), (write(6664), wrote(MOST, 6664)), (write(6663), wrote(14, 6663)))

# Behind the places lent, records stay; behind the last variable, variables do. The root stands in record 0.
expect("behind what is lent", WHOLE + poke((LEVEL, 2, 1), (NUMBER, 2, 77)) + start(PAPER, places=2) + poke((COUNT, 0, 3)) + dump(1),
       "poke 0\npoke 1\njob 2\n" + PAPER_ANSWER + "poke 3\ntable 4\nrecord 0 65535 65535 65535 0 10 0 0 0 65535 65535\n" + VARIABLES + "variable 1 77\n")
behind = output(WHOLE + start(PAPER, places=2) + script(NEW_CHILD, places=3) + dump(6)).splitlines(keepends=True)
same("records behind the places lent", "".join(RECORDS[3:]), "".join(behind[-3:]))

# Input that ends within a header or within a body.
for kind in range(6):
    whole = event(kind, bytes(24))
    for cut in [1, 4, 15, 16, 17, 24, 39]:
        expect(f"kind {kind} cut after {cut} bytes", start(PAPER) + whole[:cut], "job 0\n" + PAPER_ANSWER + "truncated\n")
    expect(f"a long body of kind {kind} cut", event(kind, bytes(80000))[:-1], "truncated\n")

# Many events, so that headers, bodies and answers fall on every edge of the blocks.
N = 30000
MANY = [start(PAPER), script(PRINT), poke((VALUE, 0, 10)), dump(1)]
SAID = ["job {}\n" + PAPER_ANSWER, "script {}\n" + PAPER_ANSWER, "poke {}\n", "table {}\nrecord 0 65535 65535 65535 0 10 0 0 0 65535 65535\n"]
expect(f"{4 * N} events", b"".join(MANY) * N, "".join(SAID[k % 4].format(k) for k in range(4 * N)))
same_memory(b"".join(MANY))
one_by_one(MANY * 3, [SAID[k % 4].format(k) for k in range(12)])
done()
