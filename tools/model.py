"""The scope's rules once more, written apart from the proved code: what the cases are held to.

Records are bytes. A refusal is raised as Refused(number, details, cycle). Cycles are searched for
by brute force on small loops only, so cases that hand one over have exactly one candidate.
"""

SHORT, MARK, VERSION, COUNT, MACHINE, NODE, EDGE, START, RETIMING, TAIL = range(1, 11)
BARE, KNOT, DEPENDENCE, NO_RETIMING, UNITS, SIZE, LONG, ROOM, EARLY, BUSY = range(11, 21)


class Refused(Exception):
    def __init__(self, number, *details, cycle=()):
        super().__init__(number)
        self.number, self.details, self.cycle = number, details, list(cycle)


class Form:
    """classes: (latency, units, pipelined); nodes: (class, operation, constant);
    edges: (from, to, delays); starts and retimings: lists, empty where length is 0."""

    def __init__(self, classes, nodes, edges, length=0, starts=(), retimings=()):
        self.classes, self.nodes, self.edges = list(classes), list(nodes), list(edges)
        self.length, self.starts, self.retimings = length, list(starts), list(retimings)

    def latency(self, v):
        return self.classes[self.nodes[v][0]][0]

    def hold(self, v):
        latency, _, pipelined = self.classes[self.nodes[v][0]]
        return 1 if pipelined else latency

    def with_pair(self, starts, length, retimings):
        return Form(self.classes, self.nodes, self.edges, length, starts, retimings)


def little(number, width):
    return number.to_bytes(width, "little")


def write(form):
    """The bytes of a form whose fields are in range."""
    out = b"RSK" + little(1, 2) + bytes([len(form.classes), len(form.nodes)])
    out += little(len(form.edges), 2) + little(form.length, 2)
    out += b"".join(bytes(row) for row in form.classes)
    out += b"".join(bytes(row[:2]) + little(row[2], 4) for row in form.nodes)
    out += b"".join(bytes(row) for row in form.edges)
    if form.length:
        out += b"".join(little(s, 2) + bytes([r]) for s, r in zip(form.starts, form.retimings))
    return out


def read(record):
    at = 0

    def field(width, low, high, refusal):
        nonlocal at
        if len(record) < at + width:
            raise Refused(SHORT, at)
        value = int.from_bytes(record[at:at + width], "little")
        if not low <= value <= high:
            raise Refused(refusal, at)
        at += width
        return value

    mark = int.from_bytes(b"RSK", "little")
    field(3, mark, mark, MARK)
    field(2, 1, 1, VERSION)
    c, n = field(1, 1, 4, COUNT), field(1, 1, 64, COUNT)
    e, length = field(2, 0, 256, COUNT), field(2, 0, 512, COUNT)
    classes = [(field(1, 1, 8, MACHINE), field(1, 1, 8, MACHINE), field(1, 0, 1, MACHINE)) for _ in range(c)]
    nodes = [(field(1, 0, c - 1, NODE), field(1, 0, 2, NODE), field(4, 0, 2**32 - 1, NODE)) for _ in range(n)]
    edges = [(field(1, 0, n - 1, EDGE), field(1, 0, n - 1, EDGE), field(1, 0, 15, EDGE)) for _ in range(e)]
    form = Form(classes, nodes, edges, length)
    if length:
        first = at + 2
        for v in range(n):
            form.starts.append(field(2, 1, length + 1 - form.latency(v), START))
            form.retimings.append(field(1, 0, 63, RETIMING))
        if 0 not in form.retimings:
            raise Refused(RETIMING, first)
    if at < len(record):
        raise Refused(TAIL, at)
    return form


def bare(form):
    if not form.length:
        raise Refused(BARE)


def cycles(form):
    """Every cycle through distinct nodes, begun at its lowest node, as lists of edge numbers."""
    found = []

    def extend(path, here, root, seen):
        for number, (u, v, _) in enumerate(form.edges):
            if u != here:
                continue
            if v == root:
                found.append(path + [number])
            elif v > root and v not in seen:
                extend(path + [number], v, root, seen | {v})

    for root in range(len(form.nodes)):
        extend([], root, root, {root})
    return found


def fewest(form, loses):
    """The losing cycles with the fewest edges."""
    losing = [c for c in cycles(form) if loses(c)]
    few = min((len(c) for c in losing), default=0)
    return [c for c in losing if len(c) == few]


def one(candidates, number):
    if candidates:
        if len(candidates) > 1:
            raise ValueError("a case's cycle has to be the only one")
        raise Refused(number, cycle=candidates[0])


def knot(form):
    if not acyclic(form, [d for _, _, d in form.edges]):
        one(fewest(form, lambda c: sum(form.edges[e][2] for e in c) == 0), KNOT)


def acyclic(form, delays):
    """Whether the edges of delay 0 have no cycle."""
    left = [(u, v) for (u, v, _), d in zip(form.edges, delays) if d == 0]
    alive = set(range(len(form.nodes)))
    while True:
        free = {v for v in alive if not any(w == v and u in alive for u, w in left)}
        if not free:
            return not alive
        alive -= free


def dependence(form):
    for number, (u, v, d) in enumerate(form.edges):
        delay = d + form.retimings[u] - form.retimings[v]
        if form.starts[v] + form.length * delay < form.starts[u] + form.latency(u):
            raise Refused(DEPENDENCE, number)


def units(form):
    for q in range(1, form.length + 1):
        for c, (_, free, _) in enumerate(form.classes):
            busy = sum(1 for v, row in enumerate(form.nodes)
                       if row[0] == c and form.starts[v] <= q < form.starts[v] + form.hold(v))
            if busy > free:
                raise Refused(UNITS, q, c)


def judge(form):
    bare(form)
    knot(form)
    dependence(form)
    units(form)


def limit(form, starts, e):
    u, v, d = form.edges[e]
    return d if starts[u] + form.latency(u) <= starts[v] else d - 1


def retiming(form, starts):
    """The retiming of least depth, node by node the largest; None where none fits."""
    n = len(form.nodes)
    x = [0] * n
    for _ in range(n):
        moved = False
        for e, (u, v, _) in enumerate(form.edges):
            if x[v] > x[u] + limit(form, starts, e):
                x[v], moved = x[u] + limit(form, starts, e), True
        if not moved:
            return [a - min(x) for a in x]
    return None


def fit(form):
    bare(form)
    knot(form)
    fitted = retiming(form, form.starts)
    if fitted is None:
        one(fewest(form, lambda c: sum(limit(form, form.starts, e) for e in c) < 0), NO_RETIMING)
    units(form)
    return form.with_pair(form.starts, form.length, fitted)


def shortest_pace(form):
    """The least length at which no cycle has a latency sum above length times delay sum."""
    n = len(form.nodes)
    for length in range(1, 513):
        y = [0] * n
        for _ in range(n):
            moved = False
            for u, v, d in form.edges:
                if y[u] + form.latency(u) - length * d > y[v]:
                    y[v], moved = y[u] + form.latency(u) - length * d, True
            if not moved:
                return length
    raise ValueError("a loop without a knot settles by 512")


def floor_parts(form):
    """Part a, part b for each class, and part c."""
    knot(form)
    a = max(form.latency(v) for v in range(len(form.nodes)))
    b = []
    for c, (latency, free, pipelined) in enumerate(form.classes):
        on = sum(1 for row in form.nodes if row[0] == c)
        b.append(-(-on * (1 if pipelined else latency) // free))
    return a, b, shortest_pace(form)


def floor(form):
    """The floor, its part (1 a, 2 b, 3 c), the class for b, the cycle for c."""
    a, b, c = floor_parts(form)
    best = max(a, max(b), c)
    if a == best:
        return best, 1, 0, []
    if best in b:
        return best, 2, b.index(best), []
    short = best - 1
    breaking = fewest(form, lambda k: sum(form.latency(form.edges[e][0]) for e in k)
                      > short * sum(form.edges[e][2] for e in k))
    if len(breaking) != 1:
        raise ValueError("a case's cycle has to be the only one")
    return best, 3, 0, breaking[0]


def tight(form, retimings):
    """The edges of retimed delay 0, as (from, to)."""
    return [(u, v) for u, v, d in form.edges if d + retimings[u] - retimings[v] == 0]


def weights(form, edges):
    """For each node the number of other nodes reached over these edges."""
    found = []
    for v in range(len(form.nodes)):
        reached, fresh = {v}, {v}
        while fresh:
            fresh = {b for a, b in edges if a in fresh} - reached
            reached |= fresh
        found.append(len(reached) - 1)
    return found


def list_rule(form, starts, retimings):
    """Starts for the nodes that have none (0), by the list rule; and the length."""
    starts, edges = list(starts), tight(form, retimings)
    weight, busy = weights(form, edges), {}

    def occupy(v):
        for q in range(starts[v], starts[v] + form.hold(v)):
            busy[form.nodes[v][0], q] = busy.get((form.nodes[v][0], q), 0) + 1

    def fits(v, p):
        c = form.nodes[v][0]
        return all(busy.get((c, q), 0) < form.classes[c][1] for q in range(p, p + form.hold(v)))

    for v in range(len(starts)):
        if starts[v]:
            occupy(v)
    p = 1
    while 0 in starts:
        ready = [v for v in range(len(starts)) if not starts[v] and all(
            starts[a] and starts[a] + form.latency(a) <= p for a, b in edges if b == v)]
        for v in sorted(ready, key=lambda v: (-weight[v], v)):
            if fits(v, p):
                starts[v] = p
                occupy(v)
        p += 1
    return starts, max(starts[v] + form.latency(v) - 1 for v in range(len(starts)))


def first(form):
    """The first schedule."""
    knot(form)
    none = [0] * len(form.nodes)
    starts, length = list_rule(form, none, none)
    return form.with_pair(starts, length, none)


def rotate(form, z):
    """The form's legal pair rotated by z steps."""
    judge(form)
    if z == 0 or z >= form.length:
        raise Refused(SIZE, z)
    return turned(form, z)


def turned(form, z):
    retimings = [r + (s <= z) for s, r in zip(form.starts, form.retimings)]
    starts, length = list_rule(form, [s - z if s > z else 0 for s in form.starts], retimings)
    if length > 512:
        raise Refused(LONG)
    return form.with_pair(starts, length, retiming(form, starts))


def search(form, count, size):
    """The shortest pair met, and the rotations completed."""
    knot(form)
    if size == 0:
        raise Refused(SIZE, 0)
    here = best = first(form)
    done, z, met = 0, size, set()
    while done < count:
        while z >= here.length:
            z //= 2
        if z == 0:
            break
        state = z, *here.starts, *here.retimings
        if state in met:
            return best, count  # from here on it goes round, with nothing new
        met.add(state)
        try:
            here = turned(here, z)
        except Refused:
            break
        done += 1
        if here.length < best.length:
            best = here
    return best, done


def computed(form, v, operands):
    """What node v makes of its operands, modulo 2^32."""
    _, operation, value = form.nodes[v]
    if operation == 0:
        value += sum(operands)
    elif operation == 1:
        value = (operands[0] if operands else 0) - sum(operands[1:]) - value
    else:
        for operand in operands:
            value = value * operand % 2**32
    return value % 2**32


def incoming(form):
    """For each node its incoming edges in edge order, as (edge, from, delays)."""
    into = [[] for _ in form.nodes]
    for number, (u, v, d) in enumerate(form.edges):
        into[v].append((number, u, d))
    return into


def room(*buffers):
    """Buffers are (length lent, length needed)."""
    for number, (lent, needed) in enumerate(buffers):
        if lent < needed:
            raise Refused(ROOM, number)


def run(form, k, starts, values, finish):
    """Runs k iterations on the machine; writes values and finish steps, gives the number of run steps."""
    bare(form)
    n, depth, length = len(form.nodes), max(form.retimings), form.length
    room((len(starts), 15 * n), (len(values), k * n), (len(finish), k * n))
    values[:k * n] = finish[:k * n] = [0] * (k * n)
    into, issued = incoming(form), [[] for _ in form.classes]
    beginning = [[v for v in range(n) if form.starts[v] == q] for q in range(length + 1)]
    for g in range(1, (k + depth) * length + 1):
        j, q = (g - 1) // length - depth, (g - 1) % length + 1
        for v in beginning[q]:
            i = j + form.retimings[v]
            if not 0 <= i < k:
                continue
            operands = []
            for number, u, d in into[v]:
                if i < d:
                    operands.append(starts[15 * u + d - i - 1])
                    continue
                place = (i - d) * n + u
                if not 0 < finish[place] <= g:
                    raise Refused(EARLY, g, v, number)
                operands.append(values[place])
            c = form.nodes[v][0]
            issued[c] = [h for h in issued[c] if g < h + form.hold(v)]
            if len(issued[c]) >= form.classes[c][1]:
                raise Refused(BUSY, g, v, c)
            issued[c].append(g)
            values[i * n + v], finish[i * n + v] = computed(form, v, operands), g + form.latency(v)
    return (k + depth) * length


def plain(form, k, starts, lent=None):
    """The values of k iterations of the plain loop; lent is the room for them, where it is limited."""
    knot(form)
    n = len(form.nodes)
    room((len(starts), 15 * n), (k * n if lent is None else lent, k * n))
    into, edges, values = incoming(form), tight(form, [0] * n), [0] * (k * n)
    weight = weights(form, edges)
    order = sorted(range(n), key=lambda v: -weight[v])  # a node reaches more nodes than any that it reaches
    for i in range(k):
        for v in order:
            values[i * n + v] = computed(form, v, [
                starts[15 * u + d - i - 1] if i < d else values[(i - d) * n + u] for _, u, d in into[v]])
    return values


def listing(record):
    try:
        form = read(record)
        judge(form)
    except Refused as refused:
        return b"refused %d\n" % refused.number
    best = floor(form)[0]
    lines = [b"RSK 1", b"nodes %d edges %d length %d depth %d floor %d %s" % (
        len(form.nodes), len(form.edges), form.length, max(form.retimings), best,
        b"shortest" if form.length == best else b"open")]
    for q in range(1, form.length + 1):
        names = [b"%d" % v + (b"+%d" % form.retimings[v] if form.retimings[v] else b"")
                 for v in range(len(form.nodes)) if form.starts[v] == q]
        lines.append(b"%d: " % q + (b" ".join(names) or b"-"))
    return b"".join(line + b"\n" for line in lines)
