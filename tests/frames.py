"""What the tests of replay and history share: jobs by their parts, what an outcome says, and the program that is tried, whose path is the argument."""
import os
import struct
import subprocess
import sys

PROGRAM = sys.argv[1]
NAME = os.path.basename(PROGRAM)
checked = 0


def node(parent, existence, content, structure, value):
    return struct.pack("<HBBBBHi", parent, existence, content, structure, 0, 0, value)


def record(command, target=0, operator=0, left=(0, 0), right=(0, 0)):
    """A script record; left and right are a kind and a number."""
    return struct.pack("<BBBBBBHii", command, target, operator, left[0], right[0], 0, 0, left[1], right[1])


ROOT = node(65535, 0, 0, 0, 10)
CHILD = node(0, 0, 0, 0, 3)
TWO = bytes.fromhex("00000000 00000000 01000000 f9ffffff")  # public 0, house -7
PRINT = record(6, left=(2, 0))
END = record(5)
FOREVER = record(4, left=(0, 1))
NEW_CHILD = record(11, target=3, left=(0, 4))


def job(variables, nodes, *script):
    v, n, s = len(variables), len(variables) + len(nodes), len(variables) + len(nodes) + 16 * len(script)
    return variables + nodes + b"".join(script) + struct.pack("<HHHH", 0, v, n, s)


PAPER = job(b"", ROOT, PRINT)


def answer(ending, index=0, steps=0, lines=0):
    return f"ending {ending} index {index} steps {steps} lines {lines}\n"


PAPER_ANSWER = answer(0, 0, 1, 1) + "line 10 0\nnode 0 0 0 0 10\n"


def same(what, want, got):
    """Fails with both texts from some lines before the first that differs."""
    global checked
    if want != got:
        texts = [text.splitlines() for text in (want, got)]
        place = next((i for i, (a, b) in enumerate(zip(*texts)) if a != b), min(map(len, texts)))
        parts = ["\n".join(text[max(0, place - 5):place + 15]) for text in texts]
        sys.exit(f"FAILED: {what}, line {place + 1}\n--- expected\n{parts[0]}\n--- got\n{parts[1]}")
    checked += 1


def output(data):
    """Standard output; nothing may come on standard error, and the exit status is 0."""
    p = subprocess.run([PROGRAM], input=data, stdout=subprocess.PIPE, stderr=subprocess.PIPE)
    if p.stderr or p.returncode:
        sys.exit(f"FAILED: exit status {p.returncode}, standard error {p.stderr[:2000]}")
    return p.stdout.decode()


def expect(what, data, want):
    same(what, want, output(data))


def one_by_one(frames, wants):
    """Each frame is answered before the next is sent, though its bytes come one by one and the next frame may have begun."""
    with subprocess.Popen([PROGRAM], stdin=subprocess.PIPE, stdout=subprocess.PIPE) as p:
        begun = 0
        for k, (frame, want) in enumerate(zip(frames, wants)):
            for b in frame[begun:]:
                p.stdin.write(bytes([b]))
                p.stdin.flush()
            begun = k % 3
            if k + 1 < len(frames):
                p.stdin.write(frames[k + 1][:begun])
                p.stdin.flush()
            same(f"frame {k} alone", want, os.read(p.stdout.fileno(), 65536).decode())
        p.stdin.close()
        same("its end", "", p.stdout.read().decode())


def kilobytes(data):
    """The most memory that the program has had when it has come to the end of its input."""
    with subprocess.Popen([PROGRAM], stdin=subprocess.PIPE, stdout=subprocess.DEVNULL) as p:
        p.stdin.write(data)
        p.stdin.flush()
        with open(f"/proc/{p.pid}/status") as status:
            most = next(int(line.split()[1]) for line in status if line.startswith("VmHWM"))
        p.stdin.close()
    return most


def same_memory(frame):
    """The same for many frames as for few."""
    few, lots = kilobytes(frame * 2000), kilobytes(frame * 200000)
    if lots > few + 256:
        sys.exit(f"FAILED: memory grew from {few} to {lots} kilobytes")
    print(f"{NAME}: {few} kilobytes for 2,000 frames, {lots} for 200,000")


def done():
    print(f"{NAME}: {checked} comparisons")
