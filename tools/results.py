#!/usr/bin/env python3
"""Writes docs/RESULTS.md: how short the loops of examples/ become, beside what Chao, LaPaugh and Sha (1997) report.

    python3 tools/results.py            asks the proved program, bin/rsk
    python3 tools/results.py --model    asks tools/model.py instead

Run from the repository's root, after tools/examples.py."""

import re
import subprocess
import sys

import examples
import model

MOST = 64  # rotations of one search


class Program:
    """bin/rsk: a record at standard input, a record or a line of text at standard output."""

    name = "the proved program, `bin/rsk`"

    def ask(self, record, *words):
        return subprocess.run(["bin/rsk", *map(str, words)], input=record, stdout=subprocess.PIPE, check=True).stdout

    def floor(self, record):
        return int(re.search(rb"\d+", self.ask(record, "floor")).group())

    def first(self, record):
        return self.ask(record, "first")

    def search(self, record, count, size):
        return self.ask(record, "search", count, size)


class Model:
    """tools/model.py, with the same answers."""

    name = "the model, `tools/model.py`, and not from the proved program (`--model`)"

    def floor(self, record):
        a, b, c = model.floor_parts(model.read(record))
        return max(a, c, *b)

    def first(self, record):
        return model.write(model.first(model.read(record)))

    def search(self, record, count, size):
        return model.write(model.search(model.read(record), count, size)[0])


def length_of(record):
    return int.from_bytes(record[9:11], "little")


def stages_of(record):
    """Stages as the paper counts them: one more than the depth."""
    return 1 + max(record[-3 * record[6]:][2::3])


def best_search(by, record, first):
    """The shortest record of all sizes below the first length with up to MOST rotations; of those with the
    fewest rotations, then the least size: (record, count, size), or the first schedule with count 0."""
    found = [(length_of(by.search(record, MOST, size)), size) for size in range(1, length_of(first))]
    shortest = min([length for length, _ in found], default=0)
    if not found or shortest >= length_of(first):
        return first, 0, 0
    count, size = min((fewest(by, record, size, shortest), size) for length, size in found if length == shortest)
    return by.search(record, count, size), count, size


def fewest(by, record, size, length):
    """The least count with which a search of this size reaches the length; more rotations never lose it."""
    low, high = 1, MOST
    while low < high:
        middle = (low + high) // 2
        if length_of(by.search(record, middle, size)) <= length:
            high = middle
        else:
            low = middle + 1
    return low


def whole_length(form):
    """The least length at which each class has room for its operations, none of which goes past the body's end."""
    def holds(length, c):
        latency, units, pipelined = form.classes[c]
        each = max(0, length - latency + 1) if pipelined else length // latency
        return units * each >= sum(row[0] == c for row in form.nodes)

    length = 1
    while not all(holds(length, c) for c in range(len(form.classes))):
        length += 1
    return length


def whole_search(form, size):
    """A search of this size until it comes back to a pair and a size that it has met, by the model: its
    rotations, and the shortest length on the way."""
    here, seen, z = model.first(form), set(), size
    shortest = here.length
    while True:
        while z >= here.length:
            z //= 2
        state = z, *here.starts, *here.retimings
        if z == 0 or state in seen:
            return len(seen), shortest
        seen.add(state)
        here = model.turned(here, z)
        shortest = min(shortest, here.length)


def most_rotations(boards, rows):
    """The most rotations of a whole search; none of them may be shorter than its row."""
    most = 0
    for board, line in zip(boards, rows):
        with open(examples.file_of(board), "rb") as file:
            form = model.read(file.read())
        for size in range(1, model.first(form).length):
            rotations, shortest = whole_search(form, size)
            most = max(most, rotations)
            if shortest < int(line[4].split()[0]):
                sys.exit("%s: more than %d rotations by %d give %d" % (examples.file_of(board), MOST, size, shortest))
    return most


def reasons(board, form, floor, best):
    """Why a row differs from the paper's."""
    if board.length is not None and best > board.length:
        if whole_length(form) == best:
            yield "wrap"
        else:
            yield "phases"
    if board.bound is not None and floor < board.bound:
        yield "bound"


def row(by, board):
    with open(examples.file_of(board), "rb") as file:
        record = file.read()
    first, floor = by.first(record), by.floor(record)
    best, count, size = best_search(by, record, first)
    length = length_of(best)
    paper = ["" if board.bound is None else str(board.bound),
             "" if board.length is None else "%d (%d)" % (board.length, board.stages)]
    return [board.loop, "%s %s" % (board.adders, board.multipliers), str(floor), str(length_of(first)),
            "%d (%d)" % (length, stages_of(best)), "%d by %d" % (count, size) if count else "none",
            "shortest" if length == floor else "open", *paper,
            ", ".join(reasons(board, model.read(record), floor, length))]


HEAD = ["Loop", "Board", "Floor", "First", "Best", "Search", "Verdict", "Paper's LB", "Paper's RS", "Differs by"]

TEXT = """# Results

How short the loops of `examples/` become, beside what Chao, LaPaugh and Sha report (Rotation Scheduling, 1997, tables II and III). Written by `tools/results.py`; the figures come from {name}.

- **Board**: A adders of 1 step, M multipliers of 2 steps, Mp pipelined ones, Mu of 1 step (the paper's figure 2). A class has at most 8 units, so 15M and 10M are two classes each, with the multiplications shared out.
- **First** is the first schedule's length. **Best** is the shortest that a search reaches, with its stages (one more than its depth, as the paper counts) in parentheses. **Search** is the least count of rotations that reaches it and, of those, the least size.
- Searched: every size from 1 to one less than the first length, with counts up to {most}. A larger size is halved to one of these before the first rotation, and each of these searches, taken on by the model, comes back to a pair that it has met after at most {repeats} rotations, without a shorter one on the way. So no count and no size does better.
- **LB** and **RS** are the paper's lower bound and what its heuristic reached.

{table}

{met} of the {compared} rows that the paper has are as short as the paper's. Where a row differs:

- **wrap**: operations here end within the body, while the paper lets one that takes several steps go on in the next repetition's first steps. So a plain multiplier takes one multiplication for each two whole steps, and a pipelined one begins none in the last step; the best length here is the least at which the multiplications find room in that way, and no shorter schedule is legal. The floor's part b counts busy steps over units only, so such a row stays "open".
- **phases**: a search here is one phase of rotations of one size from the first schedule, fitted afresh each time. The paper's second heuristic runs phases of falling sizes one after another, each from a new list schedule of the loop as retimed so far, and adds the rotations up. It says itself that `elliptic` on 2A 1Mp needs that: its first heuristic, which is like the search here, stays above 17. `lattice` is made to table I's figures and is not the paper's own graph (see `examples/lattice.loop`).
- **bound**: the paper's lower bound is taken from a report (its reference 4) and counts more than the floor's three parts: latency, busy steps over units, and cycles.
"""


def table(rows):
    lines = [HEAD, ["---"] * len(HEAD), *rows]
    return "\n".join("| " + " | ".join(line) + " |" for line in lines)


def main():
    by = Model() if "--model" in sys.argv[1:] else Program()
    boards = list(examples.read_boards())
    rows = [row(by, board) for board in boards]
    most = most_rotations(boards, rows)
    compared = [(board, line) for board, line in zip(boards, rows) if board.length is not None]
    met = sum(int(line[4].split()[0]) <= board.length for board, line in compared)
    with open("docs/RESULTS.md", "w") as file:
        file.write(TEXT.format(name=by.name, most=MOST, repeats=most, table=table(rows), met=met, compared=len(compared)))


if __name__ == "__main__":
    main()
