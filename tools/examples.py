#!/usr/bin/env python3
"""Writes examples/*.rsk, one bare record for each loop (examples/*.loop) and board (examples/boards.txt), and
checks the loops against table I of Chao, LaPaugh and Sha (1997). Run from the repository's root.

A loop's file has a line `add NAME CONSTANT` (or sub, or mul) for each node, and `edge FROM TO DELAYS` for each edge;
the edges into a node are its operands in that order. What follows a # is a comment."""

import collections
import re
import sys

import model
from model import Form

OPERATIONS = {"add": 0, "sub": 1, "mul": 2}
MOST_UNITS = 8

# multiplications, additions, critical path and iteration bound, with additions of 1 and multiplications of 2 steps
TABLE_I = {
    "elliptic": (8, 26, 17, 16),
    "diffeq": (6, 5, 7, 6),
    "lattice": (15, 11, 10, 2),
    "allpole": (4, 11, 16, 8),
    "biquad": (8, 8, 7, 4),
}

Loop = collections.namedtuple("Loop", "nodes edges")  # nodes: (operation, constant); edges: (from, to, delays)
Board = collections.namedtuple("Board", "loop adders multipliers bound length stages")


def lines(path):
    """The words of each line that has any, comments dropped."""
    with open(path) as file:
        for line in file:
            words = line.partition("#")[0].split()
            if words:
                yield words


def read_loop(name):
    numbers, nodes, edges = {}, [], []
    for words in lines("examples/%s.loop" % name):
        if words[0] == "edge":
            edges.append((numbers[words[1]], numbers[words[2]], int(words[3])))
        else:
            numbers[words[1]] = len(nodes)
            nodes.append((OPERATIONS[words[0]], int(words[2]) % 2**32))
    return Loop(nodes, edges)


def read_boards():
    for words in lines("examples/boards.txt"):
        yield Board(*words[:3], *(None if word == "-" else int(word) for word in words[3:]))


def unit_shares(units, count):
    """A class has at most 8 units: more are split into classes, and the multiplications shared out to match."""
    shares = []
    left, nodes = units, count
    while left:
        here = min(left, MOST_UNITS)
        share = nodes * here // left
        shares.append((here, share))
        left, nodes = left - here, nodes - share
    return shares


def form_of(loop, board):
    """The bare form: class 0 has the adders, the others the multipliers."""
    units, kind = re.fullmatch(r"(\d+)(M|Mp|Mu)", board.multipliers).groups()
    latency, pipelined = (1 if kind == "Mu" else 2), int(kind == "Mp")
    classes, turn = [(1, int(board.adders[:-1]), 0)], []
    for here, share in unit_shares(int(units), sum(op == OPERATIONS["mul"] for op, _ in loop.nodes)):
        turn += [len(classes)] * share
        classes.append((latency, here, pipelined))
    turn = iter(turn)
    nodes = [(next(turn) if op == OPERATIONS["mul"] else 0, op, constant) for op, constant in loop.nodes]
    return Form(classes, nodes, loop.edges)


def critical_path(form):
    """The largest latency sum over a path of edges without delays."""
    edges = model.tight(form, [0] * len(form.nodes))
    longest = [form.latency(v) for v in range(len(form.nodes))]
    for _ in form.nodes:
        for u, v in edges:
            longest[v] = max(longest[v], longest[u] + form.latency(v))
    return max(longest)


def figures(loop):
    """The loop's row of table I."""
    form = form_of(loop, Board("", "1A", "1M", None, None, None))
    multiplications = sum(op == OPERATIONS["mul"] for op, _ in loop.nodes)
    return multiplications, len(loop.nodes) - multiplications, critical_path(form), model.shortest_pace(form)


def file_of(board):
    return "examples/%s-%s-%s.rsk" % (board.loop, board.adders, board.multipliers)


def main():
    boards = list(read_boards())
    loops = {name: read_loop(name) for name in dict.fromkeys(board.loop for board in boards)}
    wrong = 0
    for name, loop in loops.items():
        found, stated = figures(loop), TABLE_I.get(name)
        verdict = "not in table I" if stated is None else "as in table I" if found == stated else "table I has %d %d %d %d" % stated
        wrong += stated not in (None, found)
        print("%-9s multiplications %2d additions %2d critical path %2d iteration bound %2d: %s" % (name, *found, verdict))
    if wrong:
        sys.exit("%d loops differ from table I" % wrong)
    for board in boards:
        record = model.write(form_of(loops[board.loop], board))
        model.knot(model.read(record))
        with open(file_of(board), "wb") as file:
            file.write(record)
    print(len(boards), "records")


if __name__ == "__main__":
    main()
