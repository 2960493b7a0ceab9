"""Tries the program replay. What it must write is worked out from the paper for each frame."""
import struct

from frames import (CHILD, END, FOREVER, NEW_CHILD, PAPER, PAPER_ANSWER, PRINT, ROOT, TWO, answer, done, expect, job, node, one_by_one,
                    same_memory)


def frame(job, budget=100, places=512, lines=256):
    return struct.pack("<IIHH", len(job), budget, places, lines) + job


EMPTY = job(TWO, ROOT + CHILD)
EMPTY_REST = "variable 0 0\nvariable 1 -7\nnode 0 0 0 0 10\nnode 1 0 0 0 3\n"

expect("no input", b"", "")
expect("the paper's job", frame(PAPER), "job 0\n" + PAPER_ANSWER)
expect("three jobs", frame(PAPER) * 3, "".join(f"job {k}\n" + PAPER_ANSWER for k in range(3)))

# Input that ends within a header, within a job, or within what is dropped of a long job.
expect("one byte", b"\x24", "truncated\n")
expect("eleven bytes", frame(PAPER)[:11], "truncated\n")
expect("a header alone", frame(PAPER)[:12], "truncated\n")
expect("a job without its last byte", frame(PAPER) + frame(PAPER)[:-1], "job 0\n" + PAPER_ANSWER + "truncated\n")
expect("a long job without its last byte", frame(bytes(70000))[:-1], "truncated\n")

# Both edges of the budget, of the places and of the line capacity. What is turned back shows no variables and no tree.
frames, want = b"", ""
for budget, places, lines, said in [
    (0, 512, 256, answer(9)),
    (1, 512, 256, answer(0) + EMPTY_REST),
    (1000000, 512, 256, answer(0) + EMPTY_REST),
    (1000001, 512, 256, answer(9)),
    (4294967295, 512, 256, answer(9)),
    (100, 0, 256, answer(10)),
    (100, 1, 256, answer(10)),
    (100, 2, 256, answer(0) + EMPTY_REST),
    (100, 512, 0, answer(0) + EMPTY_REST),
    (100, 513, 256, answer(10)),
    (100, 65535, 256, answer(10)),
]:
    want += f"job {frames.count(EMPTY)}\n" + said
    frames += frame(EMPTY, budget, places, lines)
expect("budgets, places, capacities", frames, want)

# Each turn of a loop around one record takes three steps, so that the stop in turn n comes after 3 * (n - 1) + 1.
BOARD = job(b"", ROOT, FOREVER, PRINT, END)
TREE = job(b"", ROOT, FOREVER, NEW_CHILD, END)
for capacity, room in [(0, 0), (1, 1), (1023, 1023), (1024, 1024), (1025, 1024), (65535, 1024)]:
    said = answer(24, 1, 3 * room + 1, room) + "line 10 0\n" * room + "node 0 0 0 0 10\n"
    expect(f"line capacity {capacity}", frame(BOARD, 1000000, 512, capacity), "job 0\n" + said)
for places in [1, 2, 511, 512]:
    said = answer(23, 1, 3 * (places - 1) + 1) + "node 0 0 0 0 10\n" + "node 1 0 1 1 4\n" * (places - 1)
    expect(f"{places} places", frame(TREE, 1000000, places), "job 0\n" + said)
expect("a budget of 10", frame(job(b"", ROOT, FOREVER, END), 10), "job 0\n" + answer(25, 0, 10) + "node 0 0 0 0 10\n")

# Jobs that are too long: the rest is dropped, and the next frame is found.
for n in [23049, 23050, 65536, 70000, 200000]:
    expect(f"a job of {n} bytes", frame(bytes(n)) + frame(PAPER), "job 0\n" + answer(1) + "job 1\n" + PAPER_ANSWER)
expect("a job of 23048 bytes", frame(bytes(23048)) + frame(PAPER), "job 0\n" + answer(2) + "job 1\n" + PAPER_ANSWER)
expect("a job of no bytes", frame(b"") + frame(PAPER), "job 0\n" + answer(1) + "job 1\n" + PAPER_ANSWER)

# A tree that is walked up by more than one step: under the root 1 the nodes 2 and 3, under 2 the node 4, under 4 the nodes 5 and 6.
NODES = b"".join(node(*fields) for fields in [
    (65535, 0, 0, 1, 1), (0, 0, 1, 1, 2), (1, 0, 0, 1, 4), (2, 0, 0, 0, -2147483648), (2, 1, 1, 1, 2147483647), (0, 1, 1, 1, -3)])
expect("a tree", frame(job(b"", NODES)), "job 0\n" + answer(0) +
       "node 0 0 0 1 1\nnode 1 0 1 1 2\nnode 2 0 0 1 4\nnode 3 0 0 0 -2147483648\nnode 3 1 1 1 2147483647\nnode 1 1 1 1 -3\n")

# Many jobs, so that frames and answers fall on every edge of the blocks.
N = 100000
expect(f"{N} jobs", frame(PAPER) * N, "".join(f"job {k}\n" + PAPER_ANSWER for k in range(N)))
same_memory(frame(PAPER))
one_by_one([frame(PAPER)] * 5, [f"job {k}\n" + PAPER_ANSWER for k in range(5)])
done()
