#!/usr/bin/env python3
"""Writes crates/cases/stdin and stdout: requests for the linked functions, and the answers that
tools/model.py gives. Run from the repository's root after a change of the cases."""

import examples
import model
from model import Form, Refused

REWRITE, JUDGE, FIT, FLOOR, LIST, FIRST, ROTATE, SEARCH, RUN, PLAIN = range(10)
LINKED = {REWRITE, JUDGE, FIT, FLOOR, LIST, FIRST, ROTATE, SEARCH, RUN, PLAIN}  # what crates/cases asks; cases of the others are left out
requests, answers = [], []


def told(what, record, numbers, room, line):
    """One request, and the line that answers it, where the function is linked."""
    if what in LINKED:
        numbers = (*numbers, 0, 0, 0, 0)[:4]
        requests.append(bytes([what, 0]) + b"".join(model.little(x, 2) for x in (*numbers, room, len(record))) + record)
        answers.append(line + "\n")


def numbers_line(number, details, cycle):
    details = (list(details) + [0, 0, 0])[:3]
    return " ".join(map(str, [number] + details + [len(cycle)] + list(cycle))) + " "


def ask(what, record, room=0, first=0, second=0):
    """A request that lends bytes."""
    out = b""
    try:
        number, details, cycle, out = answer(what, record, room, first, second)
    except Refused as refused:
        number, details, cycle = refused.number, refused.details, refused.cycle
    line = numbers_line(number, details, cycle)
    told(what, record, (first, second), room, line + (out + b"\xee" * (room - len(out))).hex())


def answer(what, record, room, first, second):
    if what == REWRITE:
        return written(model.read(record), room)
    if what == JUDGE:
        model.judge(model.read(record))
        return 0, [], [], b""
    if what == FIT:
        return written(model.fit(model.read(record)), room)
    if what == FLOOR:
        best, part, number, cycle = model.floor(model.read(record))
        return 0, [best, part, number], cycle, b""
    if what == LIST:
        text = model.listing(record)
        if room < len(text):
            raise Refused(model.ROOM, 0)
        return 0, [len(text)], [], text
    if what == FIRST:
        return written(model.first(model.read(record)), room)
    if what == ROTATE:
        return written(model.rotate(model.read(record), first), room)
    if what == SEARCH:
        best, done = model.search(model.read(record), first, second)
        number, details, cycle, out = written(best, room)
        return number, details + [done], cycle, out
    raise ValueError(what)


def start_table(seed, places):
    """The start table that a run is lent: 7 at place 31, and the seed more at each further place."""
    return [(7 + seed * (place - 31)) % 2**32 for place in range(places)]


def words_line(words):
    """Up to 64 words one by one, more as one number."""
    if len(words) <= 64:
        return "".join("%d " % word for word in words)
    total = 0
    for word in words:
        total = (total * 31 + word) % 2**32
    return "%d " % total


def ask_words(what, record, k, seed=2, places=None, room=None, finishes=None):
    """A request that lends words: by default as many as are needed."""
    n = record[6] if len(record) > 6 else 0
    places = 15 * n if places is None else places
    room = k * n if room is None else room
    finishes = (room if what == RUN else 0) if finishes is None else finishes
    starts, values, finish = start_table(seed, places), [238] * room, [238] * finishes
    number, details, cycle = 0, [], []
    try:
        form = model.read(record)
        if what == RUN:
            details = [model.run(form, k, starts, values, finish)]
        else:
            values[:k * n] = model.plain(form, k, starts, room)
    except Refused as refused:
        number, details, cycle = refused.number, refused.details, refused.cycle
    line = numbers_line(number, details, cycle) + words_line(values) + (words_line(finish) if what == RUN else "")
    told(what, record, (k, seed, places, finishes), room, line)


def written(form, room):
    record = model.write(form)
    if room < len(record):
        raise Refused(model.ROOM, 0)
    return 0, [len(record)], [], record


SMALL = Form([(1, 1, 0), (2, 1, 0)], [(1, 2, 3), (0, 0, 1), (0, 0, 0)], [(0, 1, 0), (1, 2, 0), (2, 0, 2)])
PAIR = SMALL.with_pair([1, 1, 2], 2, [1, 0, 0])


def set_byte(record, at, value):
    return record[:at] + bytes([value]) + record[at + 1:]


def widest():
    """64 nodes, 256 edges, 512 steps: the largest record there is."""
    classes = [(8, 8, 1), (1, 1, 0), (3, 2, 1), (8, 1, 0)]
    nodes = [(v % 4, v % 3, (v * 67108861) % 2**32) for v in range(64)]
    edges = [(e % 64, (e * 7) % 64, 1 + e % 15) for e in range(256)]
    return Form(classes, nodes, edges, 512, [1 + v * 7 for v in range(64)], [v % 64 for v in range(64)])


def record_cases():
    """Reading and writing: every boundary of every field, every place to stop short, Tail."""
    pair, bare = model.write(PAIR), model.write(SMALL)
    for record in (pair, bare):
        for size in range(len(record) + 1):
            ask(REWRITE, record[:size], len(record))
        ask(REWRITE, record + b"\0", len(record))
        ask(REWRITE, record + record, len(record))
        for room in (0, len(record) - 1, len(record), len(record) + 3):
            ask(REWRITE, record, room)
    # each field at its ends and one past: in the header, then in the first and last row of each table
    for at in range(len(pair)):
        for value in (0, 1, 2, 3, 4, 5, 8, 9, 15, 16, 63, 64, 65, 128, 255):
            if pair[at] != value:
                ask(REWRITE, set_byte(pair, at, value), 53)
    for at, width, values in ((3, 2, (0, 2, 256, 257)), (7, 2, (256, 257, 65535)), (9, 2, (512, 513, 65535))):
        for value in values:
            ask(REWRITE, pair[:at] + model.little(value, width) + pair[at + width:], 53)
    # no retiming is 0, with and without a byte left over; and a retiming out of range before that
    for retimings in ([1, 1, 1], [63, 1, 2], [64, 1, 1]):
        record = model.write(PAIR.with_pair([1, 1, 2], 2, retimings))
        ask(REWRITE, record, 53)
        ask(REWRITE, record + b"x", 53)
    # a start at the end of the body, and past it by its latency
    for start in (0, 1, 2, 3):
        ask(REWRITE, model.write(PAIR.with_pair([start, 1, 2], 3, [0, 0, 0])), 53)
        ask(REWRITE, model.write(PAIR.with_pair([1, start, 2], 2, [0, 0, 0])), 53)
    # an operation longer than the body
    ask(REWRITE, model.write(PAIR.with_pair([1, 1, 1], 1, [0, 0, 0])), 53)
    least = Form([(1, 1, 0)], [(0, 0, 0)], [])
    for form in (least, least.with_pair([1], 1, [0]), widest()):
        record = model.write(form)
        ask(REWRITE, record, len(record))
        ask(REWRITE, record, len(record) - 1)
        ask(REWRITE, record[:-1], len(record))
        ask(REWRITE, record + b"\0", len(record))


def plain(latency=1, units=1):
    return (latency, units, 0)


def ring(n, delays, latency=1, units=8):
    """n nodes in a ring; the last edge has the delays."""
    edges = [(v, (v + 1) % n, delays if v == n - 1 else 0) for v in range(n)]
    return Form([plain(latency, units)], [(0, 0, v) for v in range(n)], edges)


def crowd(n, units, starts, length, pipelined=0, latency=2):
    """n nodes of one class without edges."""
    return Form([(latency, units, pipelined)], [(0, 0, 0)] * n, [], length, starts, [0] * n)


def schedules():
    """Forms for the judge and the fit, good and bad, small enough that each cycle is the only one."""
    yield SMALL
    yield PAIR
    yield SMALL.with_pair([1, 1, 2], 2, [0, 0, 0])
    yield SMALL.with_pair([1, 1, 1], 2, [0, 0, 0])
    yield SMALL.with_pair([1, 3, 4], 4, [0, 0, 0])
    yield SMALL.with_pair([1, 3, 4], 9, [0, 0, 0])  # an idle end of the body
    for starts in ([1, 3, 4], [1, 2, 3], [3, 1, 2], [2, 2, 1], [1, 1, 2], [2, 1, 1], [3, 4, 4]):
        for retimings in ([0, 0, 0], [1, 0, 0], [2, 1, 0], [0, 1, 2], [63, 0, 1]):
            yield SMALL.with_pair(starts, 4, retimings)
    # self-edges, with and without delays; parallel edges, of which one binds
    for delays in (0, 1, 2, 15):
        yield Form([plain(3)], [(0, 0, 0)], [(0, 0, delays)], 3, [1], [0])
        yield Form([plain(3)], [(0, 0, 0)], [(0, 0, 15), (0, 0, delays)], 4, [2], [0])
    two = Form([plain(2, 2)], [(0, 0, 0), (0, 1, 0)], [(0, 1, 1), (0, 1, 0), (0, 1, 3), (1, 0, 2)])
    for starts in ([1, 3], [1, 2], [3, 1]):
        for retimings in ([0, 0], [1, 0], [0, 1]):
            yield two.with_pair(starts, 4, retimings)
    # knots of one edge, of two and of sixty-four, and the same rings with one delay
    for n in (1, 2, 64):
        for delays in (0, 1):
            form = ring(n, delays)
            yield form.with_pair([1] * n, 1, [0] * n)
            yield form.with_pair([1 + v for v in range(n)], n, [0] * n)
            yield form.with_pair([n - v for v in range(n)], n, [n - 1 - v for v in range(n)])
    # limit sums of exactly 0 and one below, on a ring of three with two delays
    for delays in (1, 2, 3):
        yield ring(3, delays).with_pair([1, 1, 1], 1, [0, 0, 0])
    # units exactly full and one over, plain and pipelined, at the beginning and in the middle
    for pipelined in (0, 1):
        for starts in ([1, 1, 2], [1, 2, 2], [1, 1, 3], [2, 2, 1], [3, 3, 3], [1, 3, 5], [4, 4, 5]):
            yield crowd(3, 2, starts, 6, pipelined)
    # pipelined beside plain: the lowest step, then the lowest class
    mixed = Form([(2, 1, 1), (2, 1, 0)], [(0, 0, 0), (0, 0, 0), (1, 0, 0), (1, 0, 0)], [])
    for starts in ([1, 2, 1, 3], [1, 1, 1, 3], [1, 2, 1, 2], [2, 2, 2, 2], [3, 3, 1, 2], [1, 2, 2, 3]):
        yield mixed.with_pair(starts, 4, [0] * 4)
    yield widest()
    yield wide_legal()


def wide_legal():
    """64 nodes and 256 edges, one after the other."""
    edges = [(e % 63, e % 63 + 1, 0) for e in range(252)] + [(63, 0, 15)] * 4
    return Form([plain(8, 1)], [(0, 0, 0)] * 64, edges, 512, [1 + 8 * v for v in range(64)], [0] * 64)


def judge_cases():
    for form in schedules():
        record = model.write(form)
        ask(JUDGE, record)
        ask(FIT, record, len(record))
    record = model.write(PAIR)
    for size in (0, 2, 3, 11, 52):
        ask(JUDGE, record[:size])
        ask(FIT, record[:size], 53)
    for room in (0, 52, 53, 60):
        ask(FIT, record, room)
    ask(JUDGE, record + b"\0")


def floors():
    """Forms for the floor: each part winning alone, ties, an unused class, the largest floor."""
    yield SMALL
    yield PAIR
    yield Form([plain(5, 8)], [(0, 0, 0)], [])  # a alone
    yield Form([plain(1, 2)], [(0, 0, 0)] * 5, [])  # b alone, rounded up
    yield Form([(4, 2, 1)], [(0, 0, 0)] * 9, [])  # b of a pipelined class
    yield Form([plain(1, 1), plain(1, 1), plain(8, 1)], [(1, 0, 0)] * 3 + [(0, 0, 0)] * 3, [])  # the lowest class; class 2 is not used
    yield ring(5, 1)  # c alone
    yield ring(5, 2)  # c rounded up
    yield Form([plain(2, 1)], [(0, 0, 0)], [])  # a and b
    yield Form([plain(3, 8)], [(0, 0, 0)], [(0, 0, 1)])  # a and c
    yield Form([plain(1, 1)], [(0, 0, 0)] * 3, [(0, 1, 0), (1, 2, 0), (2, 0, 1)])  # b and c
    for delays in (1, 2, 3, 15):
        yield Form([plain(8, 8)], [(0, 0, 0)], [(0, 0, delays)])
    yield ring(64, 1, 8)  # the largest floor
    yield ring(64, 15, 8)
    yield ring(3, 0)  # a knot


def floor_cases():
    for form in floors():
        ask(FLOOR, model.write(form))
    ask(FLOOR, b"RS")
    ask(FLOOR, model.write(PAIR) + b"x")


def list_cases():
    pair = model.write(PAIR)
    size = len(model.listing(pair))
    for room in (0, size - 1, size, size + 2):
        ask(LIST, pair, room)
    # every refusal that a record can get
    bad = [b"", b"ABC" + pair[3:], set_byte(pair, 3, 2), set_byte(pair, 5, 9), set_byte(pair, 11, 9), set_byte(pair, 17, 9),
           set_byte(pair, 35, 9), set_byte(pair, 44, 9), set_byte(pair, 46, 64), pair + b"x"]
    for record in bad:
        ask(LIST, record, 20)
    for form in (SMALL, ring(2, 0).with_pair([1, 2], 2, [0, 0]), SMALL.with_pair([1, 1, 2], 2, [0, 0, 0]),
                 crowd(64, 8, [1] * 64, 2)):
        ask(LIST, model.write(form), 20)
    ask(LIST, model.write(SMALL), 10)
    full = Form([plain(1, 8)] * 4, [(v % 4, 0, 0) for v in range(64)], [], 3, [1 + 2 * (v // 32) for v in range(64)], [v % 64 for v in range(64)])
    for form in (SMALL.with_pair([1, 3, 4], 9, [0, 0, 0]), full, wide_legal()):
        text = model.listing(model.write(form))
        ask(LIST, model.write(form), len(text))


def ask_record(what, form, first=0, second=0):
    """A form's record, with room for what is written: its schedule's rows too."""
    room = len(model.write(form.with_pair([1] * len(form.nodes), 1, [0] * len(form.nodes))))
    ask(what, model.write(form), room, first, second)


def solver(adder, multiplier):
    """The differential equation solver on one board."""
    loop = examples.read_loop("diffeq")
    nodes = [(int(operation == 2), operation, constant) for operation, constant in loop.nodes]
    return Form([adder, multiplier], nodes, loop.edges)


def example(name):
    with open("examples/%s.rsk" % name, "rb") as file:
        return model.read(file.read())


def chain(n, latency, back=1, units=1):
    """n nodes, each fed by the one before, and the first by the last."""
    return Form([plain(latency, units)], [(0, 0, 1)] * n, [(v, v + 1, 0) for v in range(n - 1)] + [(n - 1, 0, back)])


def lengthening():
    """A legal pair of 512 steps that a rotation by 1 takes past 512: node 0 then waits for the last node, which
    stays where it is, and ends after it."""
    form = Form([plain(8, 8)], [(0, 0, 0), (0, 0, 0)], [(0, 1, 0), (1, 0, 1)])
    return form.with_pair([1, 505], 512, [0, 0])


def long_search():
    """64 operations of latency 8 in a chain: the first schedule takes 512 steps, and a rotation more."""
    return chain(64, 8)


def loops():
    """Bare forms for first schedules, rotations and searches."""
    yield SMALL
    yield solver(plain(1), plain(1))
    yield solver(plain(1), plain(2))
    yield solver(plain(1), plain(2, 2))
    yield solver(plain(1), (2, 1, 1))
    yield example("elliptic-2A-1Mp")
    yield example("lattice-6A-15M")
    yield example("allpole-3A-2M")
    yield Form([plain(1)], [(0, 0, 0)], [])  # L of 1
    yield Form([plain(1, 8)], [(0, 0, 0)] * 8, [])
    yield Form([plain(8)], [(0, 0, 0)], [(0, 0, 1)])
    yield Form([plain(3)], [(0, 0, 0)], [(0, 0, 15), (0, 0, 2)])  # self-edges
    yield Form([plain(2, 2)], [(0, 0, 0), (0, 1, 0)], [(0, 1, 1), (0, 1, 0), (0, 1, 3), (1, 0, 2), (1, 1, 1)])  # parallel edges
    yield Form([(4, 1, 1)], [(0, 0, 0)] * 5, [(0, 4, 0), (1, 4, 0), (4, 4, 2)])  # pipelined, ended by their latency
    yield Form([plain(2), plain(3, 2), (2, 1, 1), plain(1)], [(v % 4, v % 3, v) for v in range(24)],
               [(v, v + 1, v % 2) for v in range(23)] + [(v, v + 6, v % 3) for v in range(18)] + [(23, 0, 3), (12, 2, 1)])
    yield ring(7, 2, 2, 3)
    yield Form(widest().classes, widest().nodes, widest().edges)  # 64 nodes, 256 edges, all delayed
    yield wide_bare()


def wide_bare():
    """64 nodes, 256 edges, a quarter of them without delays."""
    edges = [(e % 64, (e * 5 + 1) % 64, 0 if e % 64 < (e * 5 + 1) % 64 and e % 4 == 0 else 1 + e % 3) for e in range(256)]
    return Form([plain(1, 2), plain(2, 3), (3, 1, 1), plain(5, 8)], [(v % 4, v % 3, v) for v in range(64)], edges)


def first_cases():
    for form in loops():
        ask_record(FIRST, form)
        ask_record(FIRST, model.first(form))  # a schedule is ignored
    record = model.write(SMALL)
    for room in (0, 52, 53, 60):
        ask(FIRST, record, room)
    bad = [b"RS", set_byte(record, 0, 0), record + b"x", model.write(PAIR)[:-1], set_byte(model.write(PAIR), 46, 64)]
    for refused in bad:
        ask(FIRST, refused, 53)
    ask(FIRST, model.write(ring(2, 0)), 60)  # Knot, before Room
    ask(FIRST, model.write(ring(2, 0)), 0)
    ask_record(FIRST, long_search())  # 512 steps


def rotate_cases():
    for form in loops():
        here = model.first(form)
        for z in range(1, here.length) if here.length < 20 else (1, 2, here.length // 2, here.length - 1):
            ask_record(ROTATE, here, z)
        for z in (1, 2, 1, 3, 2):
            if z < here.length:
                ask_record(ROTATE, here, z)
                here = model.rotate(here, z)
    small = model.first(SMALL)
    for z in (0, 1, 3, 4, 5, 65535):  # Size with 0, and from L on
        ask_record(ROTATE, small, z)
    ask_record(ROTATE, PAIR, 2)
    ask_record(ROTATE, Form([plain(1)], [(0, 0, 0)], []).with_pair([1], 1, [0]), 1)
    ask_record(ROTATE, SMALL.with_pair([1, 3, 4], 4, [63, 63, 0]), 1)  # r of 64 before the fit
    ask_record(ROTATE, SMALL.with_pair([2, 4, 5], 9, [0, 0, 0]), 1)  # nothing starts by then
    ask_record(ROTATE, SMALL.with_pair([2, 4, 5], 9, [0, 0, 0]), 8)
    # the refusals, each with what would be refused after it as well
    record = model.write(PAIR)
    for refused in (b"RS", set_byte(record, 0, 0), record + b"x", set_byte(record, 46, 64)):
        ask(ROTATE, refused, 0, 0)
    ask(ROTATE, model.write(SMALL), 0, 0)
    ask(ROTATE, model.write(ring(2, 0)), 0, 0)  # Bare before Knot
    ask(ROTATE, model.write(ring(2, 0).with_pair([1, 1], 1, [0, 0])), 0, 0)
    crowded = Form([plain(1)], [(0, 0, 0)] * 2, [(0, 1, 0)])
    ask(ROTATE, model.write(crowded.with_pair([1, 1], 2, [0, 0])), 0, 0)  # Dependence before Units
    ask(ROTATE, model.write(crowded.with_pair([1, 1], 2, [1, 0])), 0, 0)  # Units before Size
    ask(ROTATE, model.write(lengthening()), 0, 0)  # Size before Long
    ask(ROTATE, model.write(lengthening()), 0, 512)
    ask(ROTATE, model.write(lengthening()), 0, 1)  # Long before Room
    ask_record(ROTATE, lengthening(), 1)
    ask_record(ROTATE, lengthening(), 504)
    ask_record(ROTATE, lengthening(), 505)
    for room in (0, 52, 53, 60):
        ask(ROTATE, model.write(small), room, 1)


def search_cases():
    for form in loops():
        for count, size in ((0, 1), (0, 5), (1, 1), (1, 2), (2, 1), (2, 6), (8, 1), (3, 7), (20, 3), (5, 65535)):
            ask_record(SEARCH, form, count, size)
    for size in (4, 5, 7, 8, 15, 16, 64, 1000, 32768, 65535):  # halved, on and on
        ask_record(SEARCH, SMALL, 3, size)
        ask_record(SEARCH, PAIR, 3, size)
    ask_record(SEARCH, SMALL, 65535, 1)
    ask_record(SEARCH, SMALL, 65535, 65535)
    ask_record(SEARCH, Form([plain(1)], [(0, 0, 0)], []), 65535, 65535)  # L of 1: no rotation
    for count, size in ((1, 1), (3, 1), (1, 511), (3, 511), (2, 65535), (40, 256)):  # Long ends the search
        ask_record(SEARCH, long_search(), count, size)
    record = model.write(SMALL)
    for refused in (b"RS", set_byte(record, 0, 0), record + b"x", set_byte(model.write(PAIR), 46, 64)):
        ask(SEARCH, refused, 0, 1, 0)
    ask(SEARCH, model.write(ring(2, 0)), 0, 1, 0)  # Knot before Size
    ask(SEARCH, model.write(ring(2, 0)), 0, 1, 1)
    ask(SEARCH, record, 0, 1, 0)  # Size before Room, also with count 0
    ask(SEARCH, record, 60, 0, 0)
    for room in (0, 52, 53, 60):
        ask(SEARCH, record, room, 2, 1)


def operations():
    """Every operation with no, one and several operands, and with what goes past 2^32."""
    constants = (0, 1, 2**32 - 1, 2**31, 3000000001)
    nodes = [(0, operation, constant) for constant in constants for operation in range(3)]
    source = len(nodes)
    nodes += [(0, 0, 4000000000), (0, 2, 2**32 - 5)]
    edges = []
    for v in range(source):
        edges += [(source, v, 1), (source + 1, v, 0), (source, v, 0)][:v // 3 % 4]
    edges += [(source, source, 1), (source + 1, source + 1, 2)]
    return model.first(Form([plain(1, 8)], nodes, edges))


def runs():
    """Records whose run ends well, with the iterations that they are run for."""
    for k in (0, 1, 2, 3, 7):
        yield PAIR, k
        yield model.first(SMALL), k
        yield SMALL.with_pair([2, 2, 1], 3, [2, 1, 0]), k
    yield operations(), 3
    yield Form([plain(1)], [(0, 1, 1)], [(0, 0, 15), (0, 0, 1), (0, 0, 1)], 2, [2], [0]), 40  # the fifteenth place
    yield Form([(3, 2, 1)], [(0, 2, 3), (0, 1, 4)], [(0, 1, 1), (0, 1, 1), (1, 0, 14), (0, 0, 3)], 4, [1, 1], [0, 0]), 20
    apart = Form(SMALL.classes, SMALL.nodes + [(0, 1, 9)], SMALL.edges)
    yield apart.with_pair([1, 1, 2, 3], 3, [63, 62, 62, 0]), 5  # a long prologue
    for name in ("diffeq-1A-2M", "biquad-2A-4M", "allpole-3A-2M", "lattice-3A-8M", "elliptic-3A-2M"):
        yield model.search(example(name), 3, 6)[0], 10
    yield model.first(wide_bare()), 4
    yield Form([plain(1)], [(0, 0, 1)], [(0, 0, 1)], 1, [1], [0]), 65535


def stuck():
    """Records whose run ends with Early or Busy, and such whose run is too short for that."""
    early = SMALL.with_pair([1, 1, 2], 2, [0, 0, 0])  # not yet issued, in the first repetition
    unfinished = Form([plain(3, 2)], [(0, 0, 1), (0, 0, 1)], [(0, 1, 0)], 5, [1, 3], [0, 0])
    later = Form([plain(2)], [(0, 0, 1), (0, 0, 1)], [(0, 0, 2), (1, 0, 1)], 4, [1, 3], [1, 0])  # once the table is left
    busy = crowd(3, 2, [1, 1, 2], 6)
    pipelined = crowd(3, 2, [2, 2, 2], 6, 1)
    both = Form([plain(1)], [(0, 0, 1), (0, 0, 1)], [(0, 1, 0)], 2, [1, 1], [0, 0])  # Early before Busy
    for form in (early, unfinished, later, busy, pipelined, both):
        for k in (0, 1, 2, 4):
            yield form, k
    deep = Form([plain(1, 2)], [(0, 0, 1), (0, 0, 2)], [(0, 1, 3)], 1, [1, 1], [0, 3])  # broken, and not stuck up to its depth
    for k in (2, 3, 4, 5, 19):
        yield deep, k
    for form in (ring(2, 0).with_pair([1, 2], 2, [0, 0]), ring(1, 0).with_pair([1], 1, [0])):  # knots
        for k in (0, 1):
            yield form, k


def machine_cases(what, forms):
    for form, k in forms:
        for seed in (2, 65535) if k < 1000 else (3,):
            ask_words(what, model.write(form), k, seed)
    record = model.write(PAIR)
    for refused in (b"RS", set_byte(record, 0, 0), record + b"x", set_byte(record, 46, 64)):
        ask_words(what, refused, 2, places=0, room=0)
    ask_words(what, model.write(SMALL), 2)  # Bare, or the plain loop's values
    ask_words(what, model.write(SMALL), 2, places=0, room=0)  # Bare before Room
    for k, places, room, finishes in ((2, 44, 0, 0), (0, 44, 0, 0), (2, 45, 5, 0), (2, 45, 6, 5), (2, 45, 6, 6),
                                      (2, 60, 9, 8), (0, 45, 3, 2), (2, 44, 6, 6), (2, 45, 5, 6)):
        ask_words(what, record, k, places=places, room=room, finishes=finishes)
    ask_words(what, model.write(ring(2, 0).with_pair([1, 2], 2, [0, 0])), 1, places=0, room=0)  # a knot, or Room
    wide = model.write(model.first(wide_bare()))
    ask_words(what, wide, 1, places=959)
    ask_words(what, wide, 1, places=960)


def worked():
    """The model itself against what is known by hand."""
    def pair(form):
        return form.starts, form.length, form.retimings

    first = model.first(SMALL)
    once = model.rotate(first, 1)
    assert pair(first) == ([1, 3, 4], 4, [0, 0, 0])
    assert pair(once) == ([1, 2, 3], 3, [1, 0, 0])
    assert pair(model.rotate(once, 1)) == ([3, 1, 2], 4, [1, 0, 0])
    assert pair(model.rotate(once, 2)) == ([2, 2, 1], 3, [2, 1, 0])
    best, done = model.search(SMALL, 1, 5)
    assert (pair(best), done) == (([1, 1, 2], 2, [1, 0, 0]), 1)
    assert pair(model.search(SMALL, 0, 5)[0]) == pair(first)
    values, finish = [238] * 9, [238] * 9
    assert model.run(PAIR, 3, start_table(2, 45), values, finish) == 8
    assert values == [21, 22, 22, 15, 16, 16, 66, 67, 67] and finish == [3, 4, 5, 5, 6, 7, 7, 8, 9]
    assert model.plain(PAIR, 3, start_table(2, 45)) == values
    unit, one, two = solver(plain(1), plain(1)), solver(plain(1), plain(2)), solver(plain(1), plain(2, 2))
    assert [model.first(form).length for form in (unit, one, two)] == [7, 13, 9]
    assert model.rotate(model.first(unit), 1).length == model.floor(unit)[0] == 6
    assert model.search(one, 2, 1)[0].length == model.floor(one)[0] == 12
    assert model.search(two, 8, 1)[0].length == 7
    assert model.search(two, 2, 6)[0].length == model.floor(two)[0] == 6


worked()
record_cases()
judge_cases()
floor_cases()
list_cases()
first_cases()
rotate_cases()
search_cases()
machine_cases(RUN, [*runs(), *stuck()])
machine_cases(PLAIN, [*runs(), *stuck()])
with open("crates/cases/stdin", "wb") as file:
    file.write(b"".join(requests))
with open("crates/cases/stdout", "w") as file:
    file.write("".join(answers))
print(len(requests), "cases")
