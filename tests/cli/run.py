#!/usr/bin/env python3
"""run.py: the command-line program on small records, each command and each refusal.

It runs crates/rsk/out/rsk and holds standard output and standard error to what stands here; some go through
bin/rsk as well, for the exit status. Build first: bin/rsk help.
"""
import os
import struct
import subprocess
import sys

ROOT = os.path.dirname(os.path.dirname(os.path.dirname(os.path.abspath(__file__))))
PROGRAM = os.path.join(ROOT, "crates", "rsk", "out", "rsk")
SCRIPT = os.path.join(ROOT, "bin", "rsk")

ADD, SUB, MUL = 0, 1, 2


def record(classes, nodes, edges, length=0, pairs=()):
    """A record's bytes: rows, (class, operation, constant), (from, to, delays), (start, r)."""
    made = b"RSK" + struct.pack("<HBBHH", 1, len(classes), len(nodes), len(edges), length)
    made += b"".join(struct.pack("<BBB", *row) for row in classes)
    made += b"".join(struct.pack("<BBI", *row) for row in nodes)
    made += b"".join(struct.pack("<BBB", *row) for row in edges)
    return made + b"".join(struct.pack("<HB", *row) for row in pairs)


CLASSES = [(1, 1, 0), (2, 1, 0)]
NODES = [(1, MUL, 3), (0, ADD, 1), (0, ADD, 0)]
EDGES = [(0, 1, 0), (1, 2, 0), (2, 0, 2)]


def small(length=0, pairs=()):
    return record(CLASSES, NODES, EDGES, length, pairs)


BARE = small()
GOOD = small(2, [(1, 1), (1, 0), (2, 0)])
FIRST = small(4, [(1, 0), (3, 0), (4, 0)])
ONCE = small(3, [(1, 1), (2, 0), (3, 0)])
WRONG = small(2, [(1, 0), (1, 0), (2, 0)])
APART = small(2, [(1, 0), (1, 0), (1, 0)])
KNOTTED = record([(1, 1, 0)], [(0, ADD, 0)] * 2, [(0, 1, 0), (1, 0, 0)], 2, [(1, 0), (2, 0)])
CROWDED = record([(1, 1, 0)], [(0, ADD, 0)] * 2, [], 2, [(2, 0), (2, 0)])
RING = record([(2, 2, 1)], [(0, ADD, 1)] * 2, [(0, 1, 0), (1, 0, 1)], 4, [(1, 0), (3, 0)])
BUSY = record([(3, 1, 0)], [(0, ADD, 1)] * 2, [], 6, [(1, 0), (4, 0)])
PIPED = record([(3, 2, 1)], [(0, ADD, 1)] * 2, [], 4, [(1, 0), (2, 0)])
CHAIN = record(
    [(8, 1, 0)],
    [(0, ADD, 0)] * 64,
    [(v, v + 1, 0) for v in range(63)] + [(63, 0, 1)],
    512,
    [(8 * v + 1, 0) for v in range(64)],
)


def changed(good, at, value):
    return good[:at] + bytes([value]) + good[at + 1:]


USAGE = b"""usage: rsk COMMAND, with a record at standard input
  judge | floor | list | table | help
  fit | first | rotate Z | search COUNT SIZE
  run K [FILE] | plain K [FILE]
"""

LIST = b"""RSK 1
nodes 3 edges 3 length 2 depth 1 floor 2 shortest
1: 0+1 1
2: 2
"""

TABLE = b"""class 0: latency 1, units 1, plain
class 1: latency 2, units 1, plain
  step |     0 |     1
     1 |     1 |   0+1
     2 |     2 |   [0]
floor 2, part a: the largest latency of a used class
shortest
"""

TABLE_FIRST = b"""class 0: latency 1, units 1, plain
class 1: latency 2, units 1, plain
  step |     0 |     1
     1 |     . |     0
     2 |     . |   [0]
     3 |     1 |     .
     4 |     2 |     .
floor 2, part a: the largest latency of a used class
open
"""

TABLE_RING = b"""class 0: latency 2, units 2, pipelined
  step |           0
     1 |     0     .
     2 |     .     .
     3 |     1     .
     4 |     .     .
floor 4, part c: the cycle of nodes 0 1
shortest
"""

ROOM = b"refused 18 Room: buffer %d is too short; 0 takes 15 start values for each node, 1 and 2 hold 262144 values, iterations times nodes\n"

# arguments, standard input, standard output, standard error; STARTS and SHORT are files of start values
CASES = [
    (["judge"], GOOD, b"legal\n", b""),
    (["floor"], GOOD, b"floor 2, part a: the largest latency of a used class\n", b""),
    (["floor"], BUSY, b"floor 6, part b: the units of class 0\n", b""),
    (["list"], GOOD, LIST, b""),
    (["table"], GOOD, TABLE, b""),
    (["table"], FIRST, TABLE_FIRST, b""),
    (["table"], RING, TABLE_RING, b""),
    (["first"], BARE, FIRST, b""),
    (["first"], GOOD, FIRST, b""),
    (["fit"], small(2, [(1, 0), (1, 0), (2, 0)]), GOOD, b""),
    (["rotate", "1"], FIRST, ONCE, b""),
    (["rotate", "0001"], FIRST, ONCE, b""),
    # refusals, one of each number
    (["judge"], GOOD[:2], b"", b"refused 1 Short: field at byte 0\n"),
    (["judge"], b"", b"", b"refused 1 Short: field at byte 0\n"),
    (["floor"], b"XSK" + GOOD[3:], b"", b"refused 2 Mark: field at byte 0\n"),
    (["fit"], changed(GOOD, 3, 2), b"", b"refused 3 Version: field at byte 3\n"),
    (["first"], changed(GOOD, 5, 5), b"", b"refused 4 Count: field at byte 5\n"),
    (["rotate", "1"], changed(GOOD, 11, 0), b"", b"refused 5 Machine: field at byte 11\n"),
    (["list"], changed(GOOD, 17, 2), b"", b"refused 6 Node: field at byte 17\n"),
    (["table"], changed(GOOD, 35, 3), b"", b"refused 7 Edge: field at byte 35\n"),
    (["judge"], changed(GOOD, 44, 0), b"", b"refused 8 Start: field at byte 44\n"),
    (["judge"], changed(GOOD, 46, 64), b"", b"refused 9 Retiming: field at byte 46\n"),
    (["judge"], GOOD + b"x", b"", b"refused 10 Tail: bytes left from byte 53\n"),
    (["judge"], GOOD + bytes(5000), b"", b"refused 10 Tail: bytes left from byte 53\n"),
    (["judge"], BARE, b"", b"refused 11 Bare: no schedule\n"),
    (["judge"], WRONG, b"", b"refused 13 Dependence: edge 0, from node 0 to node 1\n"),
    (["list"], WRONG, b"", b"refused 13 Dependence: edge 0, from node 0 to node 1\n"),
    (["table"], WRONG, b"", b"refused 13 Dependence: edge 0, from node 0 to node 1\n"),
    (["judge"], CROWDED, b"", b"refused 15 Units: step 2, class 0\n"),
    (["rotate", "0"], GOOD, b"", b"refused 16 Size: 0 steps\n"),
    (["rotate", "2"], GOOD, b"", b"refused 16 Size: 2 steps\n"),
    (["rotate", "65535"], GOOD, b"", b"refused 16 Size: 65535 steps\n"),
    (["rotate", "1"], CHAIN, b"", b"refused 17 Long: more than 512 steps\n"),
    # searches, runs and the plain loop
    (["search", "1", "5"], BARE, GOOD, b""),
    (["search", "0", "5"], BARE, FIRST, b""),
    (["search", "1", "0"], BARE, b"", b"refused 16 Size: 0 steps\n"),
    (["run", "0"], GOOD, b"run steps 2\n", b""),
    (["run", "3", "STARTS"], GOOD, b"run steps 8\nnode 0: 66\nnode 1: 67\nnode 2: 67\n", b""),
    (["plain", "3", "STARTS"], GOOD, b"node 0: 66\nnode 1: 67\nnode 2: 67\n", b""),
    (["plain", "3"], GOOD, b"node 0: 3\nnode 1: 4\nnode 2: 4\n", b""),
    (["run", "3", "SHORT"], GOOD, b"", ROOM % 0),
    (["run", "65535"], CHAIN, b"", ROOM % 1),
    (["plain", "65535"], CHAIN, b"", ROOM % 1),
    (["run", "3"], WRONG, b"", b"refused 19 Early: run step 1, node 1, edge 0\n"),
    (["run", "3"], CROWDED, b"", b"refused 20 Busy: run step 2, node 1, class 0\n"),
    (["run", "1", "/nowhere/at/all"], GOOD, b"", b"/nowhere/at/all: No such file or directory\n"),
    # bad usage
    ([], GOOD, b"", USAGE),
    (["Judge"], GOOD, b"", USAGE),
    (["judge", "x"], GOOD, b"", USAGE),
    (["rotate"], GOOD, b"", USAGE),
    (["rotate", ""], GOOD, b"", USAGE),
    (["rotate", "-1"], GOOD, b"", USAGE),
    (["rotate", "1x"], GOOD, b"", USAGE),
    (["rotate", "65536"], GOOD, b"", USAGE),
    (["rotate", "99999999999999999999"], GOOD, b"", USAGE),
    (["rotate", "1", "2"], GOOD, b"", USAGE),
    (["search", "1"], GOOD, b"", USAGE),
    (["search", "1", "2", "3"], GOOD, b"", USAGE),
    (["search", "x", "2"], GOOD, b"", USAGE),
    (["run"], GOOD, b"", USAGE),
    (["run", "1", "a", "b"], GOOD, b"", USAGE),
    (["plain", "y"], GOOD, b"", USAGE),
]

# cycles may begin at any of their edges
CYCLES = [
    (["judge"], KNOTTED, b"refused 12 Knot: cycle of edges", [0, 1]),
    (["first"], KNOTTED, b"refused 12 Knot: cycle of edges", [0, 1]),
    (["fit"], APART, b"refused 14 NoRetiming: cycle of edges", [0, 1, 2]),
]

def ran(program, words, given):
    done = subprocess.run([program] + words, input=given, stdout=subprocess.PIPE, stderr=subprocess.PIPE)
    return done.stdout, done.stderr, done.returncode


def turned(edges):
    return [edges[i:] + edges[:i] for i in range(len(edges))]


def main():
    failed = 0
    tried = 0

    def hold(what, got, wanted):
        nonlocal failed, tried
        tried += 1
        if got != wanted:
            failed += 1
            print(f"{what}: got {got!r}, wanted {wanted!r}")

    folder = os.path.join(ROOT, "target", "cli")
    os.makedirs(folder, exist_ok=True)
    starts = os.path.join(folder, "starts")
    short = os.path.join(folder, "short")
    with open(starts, "wb") as file:
        table = [0] * 45
        table[30], table[31] = 5, 7
        file.write(struct.pack("<45I", *table))
    with open(short, "wb") as file:
        file.write(bytes(4 * 44))

    for words, given, out, told in CASES:
        words = [{"STARTS": starts, "SHORT": short}.get(word, word) for word in words]
        hold(words, ran(PROGRAM, words, given), (out, told, 0))
        hold(["bin/rsk"] + words, ran(SCRIPT, words, given), (out, told, 1 if told else 0))
    for words, given, begins, edges in CYCLES:
        out, told, status = ran(PROGRAM, words, given)
        lines = [begins + b"".join(b" %d" % e for e in way) + b"\n" for way in turned(edges)]
        hold(words, (out, told in lines, status), (b"", True, 0))
    out, told, status = ran(PROGRAM, ["help"], b"")
    hold(["help"], (out.startswith(USAGE), b"262144" in out, told, status), (True, True, b"", 0))
    pipe = f"'{SCRIPT}' first | '{SCRIPT}' rotate 1 | '{SCRIPT}' rotate 2 | '{SCRIPT}' judge"
    done = subprocess.run(["sh", "-c", pipe], input=BARE, stdout=subprocess.PIPE, stderr=subprocess.PIPE, cwd="/")
    hold(pipe, (done.stdout, done.stderr, done.returncode), (b"legal\n", b"", 0))
    print(f"{tried - failed} passed, {failed} failed")
    sys.exit(1 if failed else 0)


main()
