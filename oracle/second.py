#!/usr/bin/env python3
"""second.py FILE...: a second reading of document 01 and of the changes, which answers the lines of vector files (`-` is standard input).

It is built differently from the Rust model: form is a loop with a stack of children still to come, a core is a flat list of
records in prefix order, negation is one forward pass with a stack of modes after a backward pass for sizes, and packets go through a core
all at once, as sets, in one forward pass with a stack of operators that wait for an operand.
"""
import sys
from itertools import accumulate, groupby

ARITY = [0] * 7 + [2] * 6 + [1] * 4 + [3, 2, 1] + [0] * 7
BITS = {5: (2, 5), 6: (2, 5), 18: (1,), 19: (1, 2, 3), 20: (1,), 21: (1, 6), 22: (1, 6), 23: (2, 3, 6), 24: (2, 3, 6),
        25: (2, 3, 4, 5, 6, 7), 26: (1, 4, 5, 6, 7)}
MAX_LITERAL = 192
MAX_RANGE_BITS = 128


class No(Exception):
    pass


def no(number, place):
    raise No(number, place)


class Rec:
    __slots__ = ("kind", "name", "start", "end", "pat", "num", "a", "b", "size")


class Reading:
    """Bytes that are read from the front. The refusal of what lacks or is wrong is at the record that is being read."""

    def __init__(self, data, base):
        self.data, self.base, self.at, self.place = data, base, 0, 0

    def no(self, number):
        no(self.base + number, self.place)

    def take(self, n):
        if len(self.data) - self.at < n:
            self.no(1)
        self.at += n
        return self.data[self.at - n:self.at]

    def number(self, width):
        return int.from_bytes(self.take(width), "little") or self.no(4)

    def literal(self):
        """Length and value."""
        length = self.number(1)
        if length > MAX_LITERAL:
            self.no(5)
        v = int.from_bytes(self.take(-(-length // 8)), "little")
        if v >> length:
            self.no(4)
        return length, v


def record(reading, core):
    """The record at the front."""
    m = reading.take(1)[0]
    r = Rec()
    r.kind = r.name = r.start = r.end = r.pat = r.num = 0
    r.a = r.b = (0, 0)  # length and value
    if m & 1:
        r.kind = reading.number(1)
        if r.kind > 26:
            reading.no(2)
        if core and r.kind > 15:
            reading.no(41)
    have = BITS.get(r.kind, ())
    if any(m >> bit & 1 and bit not in have for bit in range(1, 8)):
        reading.no(3)
    for bit, attr, width in ((1, "name", 2), (2, "start", 4), (3, "end", 4), (4, "pat", 1)):
        if m >> bit & 1:
            setattr(r, attr, reading.number(width))
    if r.pat > 3:
        reading.no(5)
    if r.kind in (25, 26):
        ok = [(), (5,), (7,), (7,)][r.pat]
        if any(m >> bit & 1 and bit not in ok for bit in (5, 7)):
            reading.no(3)
    if m >> 5 & 1:
        r.num = reading.number(1)
        if r.kind in (5, 6) and r.num != 1:
            reading.no(5)
    for bit, attr in ((6, "a"), (7, "b")):
        if m >> bit & 1:
            setattr(r, attr, reading.literal())
    return r


def form(data, base=0, core=False):
    """The records in written order, each with its subtree's size in records. A core has terms' form, with two limits of its own."""
    most, too_many = (65535, 42) if core else (4096, 6)
    recs = []
    open_ = [1]  # children still to come, per level
    parents = []
    reading = Reading(data, base)
    while open_:
        if open_[-1] == 0:
            open_.pop()
            if parents:
                i = parents.pop()
                recs[i].size = len(recs) - i
            continue
        open_[-1] -= 1
        reading.place = len(recs)
        if len(recs) == most:
            reading.no(too_many)
        if len(open_) > 256 and not core:
            reading.no(7)
        parents.append(len(recs))
        recs.append(record(reading, core))
        open_.append(ARITY[recs[-1].kind])
    reading.place = len(recs)
    if reading.at < len(data):
        reading.no(8)
    return recs


def record_bytes(kind, name=0, start=0, end=0, pat=0, num=0, a=(0, 0), b=(0, 0)):
    m = 0
    body = b""
    for bit, v, width in ((0, kind, 1), (1, name, 2), (2, start, 4), (3, end, 4), (4, pat, 1), (5, num, 1)):
        if v:
            m |= 1 << bit
            body += v.to_bytes(width, "little")
    for bit, (length, v) in ((6, a), (7, b)):
        if length:
            m |= 1 << bit
            body += bytes([length]) + v.to_bytes(-(-length // 8), "little")
    return bytes([m]) + body


def rec_bytes(r):
    return record_bytes(r.kind, r.name, r.start, r.end, r.pat, r.num, r.a, r.b)


# ---- cores: lists of (kind, field, value), prefix order

ONE = [(1, 0, 0)]


def chain(op, items):
    """items: single records, leaning right."""
    out = []
    for x in items[:-1]:
        out += [(op, 0, 0), x]
    return out + items[-1:] if items else ONE


def sizes_units(core):
    """Subtree sizes, and whether desugaring the subtree again gives One."""
    size = [1] * len(core)
    unit = [False] * len(core)
    stack = []
    for i in range(len(core) - 1, -1, -1):
        kind = core[i][0]
        kids = [stack.pop() for _ in range(ARITY[kind])]
        size[i] = 1 + sum(size[k] for k in kids)
        unit[i] = kind == 1 or kind == 11 and all(unit[k] for k in kids)
        stack.append(i)
    return size, unit


def negated(core):
    size, unit = sizes_units(core)
    out = []
    todo = [(0, "not")]
    while todo:
        i, mode = todo.pop()
        kind, f, v = core[i]
        if mode == "keep":
            out += core[i:i + size[i]]
            continue
        if mode == "again":
            if ARITY[kind] == 0:
                out.append(core[i])
                continue
            left, right = i + 1, i + 1 + size[i + 1]
            if kind == 11 and unit[left]:
                todo.append((right, "again"))
            elif kind == 11 and unit[right]:
                todo.append((left, "again"))
            else:
                out.append((kind, 0, 0))
                todo += [(right, "again"), (left, "again")]
            continue
        if kind == 0:
            out.append((1, 0, 0))
        elif kind == 1:
            out.append((0, 0, 0))
        elif kind == 6:
            out.append((6, f, 1 - v))
        elif kind == 9:
            out += [(10, 0, 0), (1, 0, 0)]
            todo.append((i, "keep"))
        else:
            out.append((8 if kind == 7 else 7, 0, 0))
            right = i + 1 + size[i + 1]
            todo += [(right, "again" if kind == 10 else "not"), (i + 1, "not")]
    return out


def is_test(core):
    return all(k in (0, 1, 6, 7, 8, 9, 10, 11) for k, _, _ in core)


def bit(v, i):
    return v >> i & 1


def leaf_rule(r, s, e):
    """Number of the rule that fails, or a pair: draw, and a maker of the core."""
    if e < s:
        return 14
    w = e - s
    (la, va), (lb, vb) = r.a, r.b

    def field_chain(kind, op, value, lo=0):
        return (2 * (w - lo) - 1 if w > lo else 1, lambda: chain(op, [(kind, s + i, bit(value, i)) for i in range(lo, w)]))

    if r.kind in (21, 22):
        if la > w:
            return 15
    elif r.kind in (23, 24):
        if la != w:
            return 16
    elif r.pat == 0:
        if la > w:
            return 15
        return field_chain(6, 8, va)
    elif r.pat == 1:
        if r.num > w:
            return 17
        if la != w:
            return 18
        return field_chain(6, 8, va, w - r.num)
    elif r.pat == 2:
        if la != w or lb != w:
            return 19
        t = [(6, s + i, bit(va, i)) for i in range(w) if not bit(vb, i)]
        return (max(1, 2 * len(t) - 1), lambda: chain(8, t))
    else:
        if w > MAX_RANGE_BITS or la > w or lb > w:
            return 20
        if va > vb:
            return 21
        if va == vb:
            return field_chain(6, 8, va)
        full = (1 << w) - 1
        if va == 0 and vb == full:
            return (1, lambda: ONE)

        def bound(v, stop):
            parts = []
            for i in range(w - 1, -1, -1):
                if bit(v, i) == stop:
                    parts.append(chain(8, [(6, s + j, bit(v, j)) for j in range(w - 1, i, -1)] + [(6, s + i, 1 - stop)]))
            parts.append(chain(8, [(6, s + j, bit(v, j)) for j in range(w - 1, -1, -1)]))
            out = []
            for p in parts[:-1]:
                out += [(7, 0, 0)] + p
            return out + parts[-1]
        if va == 0:
            c = bound(vb, 1)
        elif vb == full:
            c = bound(va, 0)
        else:
            c = [(8, 0, 0)] + bound(va, 0) + bound(vb, 1)
        return (len(c), lambda: c)
    if r.kind in (21, 23):
        return field_chain(5, 11, va)
    return field_chain(6, 8, va)


def walk(recs, allowance):
    """Check (allowance None: answers the sort) or Desugar (answers the core and the drawn total)."""
    check = allowance is None
    left = [allowance]

    def draw(place, n):
        if check:
            return
        if n > left[0]:
            no(24, place)
        left[0] -= n

    def go(i, vs, als):
        r = recs[i]
        k = r.kind
        kids = []
        j = i + 1
        for _ in range(ARITY[k]):
            kids.append(j)
            j += recs[j].size
        if k == 18:
            d = go(kids[0], vs, als)
            return go(kids[1], {**vs, r.name: d}, als)
        if k == 19:
            return go(kids[0], vs, {**als, r.name: (r.start, r.end)})
        x = [go(c, vs, als) for c in kids]
        if k == 20:
            if r.name in vs:
                v = vs[r.name]
                if not check:
                    draw(i, len(v))
                return v
            no(13 if r.name in als else 12, i)
        if k >= 21:
            if k in (21, 22, 26):
                if r.name not in als:
                    no(11, i)
                s, e = als[r.name]
            else:
                s, e = r.start, r.end
            got = leaf_rule(r, s, e)
            if isinstance(got, int):
                no(got, i)
            if check:
                return k not in (21, 23) or s == e
            draw(i, got[0])
            return got[1]()
        if check:
            if k in (0, 1, 6):
                return True
            if 7 <= k <= 11:
                return x[0] and x[1]
            if k == 16:
                return x[0] or no(22, i)
            if k == 17:
                return x[1] and x[2] if x[0] else no(23, i)
            return False
        if k <= 6:
            draw(i, 1)
            return [(k, r.start, r.num)]
        if k == 16:
            if not is_test(x[0]):
                no(22, i)
            c = negated(x[0])
            draw(i, len(c))
            return c
        if k == 17:
            if not is_test(x[0]):
                no(23, i)
            c = negated(x[0])
            draw(i, len(c) + 3)
            return [(7, 0, 0), (11, 0, 0)] + x[0] + x[1] + [(11, 0, 0)] + c + x[2]
        if k == 11:
            if x[0] == ONE:
                return x[1]
            if x[1] == ONE:
                return x[0]
        draw(i, 1)
        return [(k, 0, 0)] + [y for c in x for y in c]

    r = go(0, {}, {})
    return r if check else (r, allowance - left[0])


def desugar(t, allowance, work, out):
    if not 1 <= allowance <= 65535:
        no(9, 0)
    if work < 8 * allowance + 8192:
        no(10, 0)
    core, drawn = walk(form(t), allowance)
    b = b"".join(record_bytes(k, start=f, num=v) for k, f, v in core)
    if len(b) > out:
        no(26, 0)
    return f"ok {drawn} {len(b)} {b.hex() or '-'}"


def substitute(t, name, rep, out):
    t = form(t)
    rep = form(rep, 30)
    rdepth = max(depths(rep))
    rbytes = b"".join(map(rec_bytes, rep))
    records = depth = 0
    res = []
    d = depths(t)
    closed = [False] * len(t)
    for i, r in enumerate(t):
        if r.name == name and r.kind == 19:
            for j in range(i + 1, i + r.size):
                closed[j] = True
        if r.name == name and r.kind == 18:
            for j in range(i + 1 + t[i + 1].size, i + r.size):
                closed[j] = True
        if r.kind == 20 and r.name == name and not closed[i]:
            records += len(rep)
            depth = max(depth, d[i] + rdepth - 1)
            res.append(rbytes)
        else:
            records += 1
            depth = max(depth, d[i])
            res.append(rec_bytes(r))
    if records > 4096 or depth > 256:
        no(27, 0)
    b = b"".join(res)
    if len(b) > out:
        no(26, 0)
    return f"ok {len(b)} {b.hex()}"


def depths(recs):
    out = []
    ends = []
    for i, r in enumerate(recs):
        while ends and ends[-1] <= i:
            ends.pop()
        out.append(len(ends) + 1)
        ends.append(i + r.size)
    return out


def fragment(recs):
    bad = {2, 3, 4, 5, 12, 13, 14, 15, 17, 18, 19, 20, 21, 23}
    return not any(r.kind in bad for r in recs)


def fields(recs):
    top = 0
    for i, r in enumerate(recs):
        if r.kind in (5, 6):
            if r.start == 0xffffffff:
                no(25, i)
            top = max(top, r.start + 1)
        elif r.kind in (19, 23, 24, 25):
            top = max(top, r.end)
    return top


def core_records(core, room):
    """Document 02, change 1: the form and the field count of a term, then the list."""
    recs = form(core, core=True)
    count = fields(recs)
    if room < 3 * len(recs):
        no(10, 0)
    return recs, count


def read(core, room):
    recs, count = core_records(core, room)
    runs = ((key, len(list(run))) for key, run in groupby(f"{r.kind}:{r.start}:{r.num}" for r in recs))
    return f"ok {len(recs)} {count} " + ",".join(key if times == 1 else f"{key}*{times}" for key, times in runs)


# what the operators of tests make of two sets of packets
OPERATORS = {7: set.union, 8: set.intersection, 9: set.symmetric_difference, 10: set.difference, 11: set.intersection}


def passing(recs, packets):
    """The numbers of the packets that pass; a packet is one number."""
    everyone = set(range(len(packets)))
    waiting = []  # operators, each with its left operand once that is known
    for r in recs:
        if r.kind in OPERATORS:
            waiting.append([OPERATORS[r.kind]])
            continue
        known = {i for i in everyone if bit(packets[i], r.start) == r.num} if r.kind == 6 else everyone if r.kind else set()
        while waiting and len(waiting[-1]) == 2:
            operator, left = waiting.pop()
            known = operator(left, known)
        if waiting:
            waiting[-1].append(known)
    return known


def packets(core, room, data, lengths):
    """Document 02, change 8."""
    recs, count = core_records(core, room)
    if any(r.kind not in (0, 1, 6, *OPERATORS) for r in recs):
        no(48, 0)
    if not 0 < len(lengths) <= 64:
        no(49, 0)
    parts = [data[end - length:end] for end, length in zip(accumulate(lengths), lengths)]
    for i, part in enumerate(parts):
        if 8 * len(part) < count:
            no(50, i)
    mask = sum(1 << i for i in passing(recs, [int.from_bytes(part, "little") for part in parts]))
    return f"ok {mask:016x}"


def subrange(a, b, s, e):
    if s > e or a + e > b or a + s > 0xffffffff or a + e > 0xffffffff:
        no(28, 0)
    return f"ok {a + s} {a + e}"


def lent(bits, data):
    """The value of a lent literal; spare bits and further bytes do not count."""
    if bits > MAX_LITERAL:
        no(5, 0)
    if 8 * len(data) < bits:
        no(1, 0)
    return int.from_bytes(data, "little") % (1 << bits)


def compare(width, a_bits, a, b_bits, b):
    """Document 02, change 2; refused as the bounds of a range pattern."""
    a, b = lent(a_bits, a), lent(b_bits, b)
    if max(a_bits, b_bits) > width or width > MAX_RANGE_BITS:
        no(20, 0)
    equal_above = width - (a ^ b).bit_length()
    return f"ok {1 if a < b else 2 if a > b else 0} {min(width, equal_above + 1)}"


MAX_MADE = 100000  # nodes of a core that is made to be counted


def cost(start, end, pattern, number, a_bits, a, b_bits, b):
    """Document 02, change 5: the records of the match's core, made and counted; only a longer chain is not made."""
    if pattern > 3:
        no(5, 0)
    r = Rec()
    r.kind, r.pat, r.num = 25, pattern, number
    r.a = (a_bits, lent(a_bits, a))
    r.b = (b_bits, lent(b_bits, b)) if pattern >= 2 else (0, 0)
    got = leaf_rule(r, start, end)
    if isinstance(got, int):
        no(got, 0)
    draw, make = got
    return f"ok {draw if draw > MAX_MADE else len(make())}"


def program(t):
    if len(t) > 8192:
        return "long"
    try:
        _, drawn, length, core = desugar(t, 1000, 16192, 7000).split()
        return f"ok {drawn} {length} | {core}"
    except No as e:
        return f"no {e.args[0]} {e.args[1]}"


def unhex(s):
    groups = [] if s == "-" else [group.partition("*") for group in s.split(".")]
    return b"".join(bytes.fromhex(digits) * int(times or 1) for digits, _, times in groups)


def unlist(s):
    runs = [] if s == "-" else [run.partition("*") for run in s.split(",")]
    return [int(number) for number, _, times in runs for _ in range(int(times or 1))]


def answer(q):
    w = q.split(" ")
    try:
        if w[0] == "desugar":
            return desugar(unhex(w[1]), int(w[2]), int(w[3]), int(w[4]))
        if w[0] == "check":
            return f"ok {int(walk(form(unhex(w[1])), None))}"
        if w[0] == "substitute":
            return substitute(unhex(w[1]), int(w[2]), unhex(w[3]), int(w[4]))
        if w[0] == "fragment":
            return f"ok {int(fragment(form(unhex(w[1]))))}"
        if w[0] == "fields":
            return f"ok {fields(form(unhex(w[1])))}"
        if w[0] == "subrange":
            return subrange(*map(int, w[1:]))
        if w[0] == "compare":
            return compare(int(w[1]), int(w[2]), unhex(w[3]), int(w[4]), unhex(w[5]))
        if w[0] == "cost":
            return cost(*map(int, w[1:6]), unhex(w[6]), int(w[7]), unhex(w[8]))
        if w[0] == "read":
            return read(unhex(w[1]), int(w[2]))
        if w[0] == "packets":
            return packets(unhex(w[1]), int(w[2]), unhex(w[3]), unlist(w[4]))
        return program(unhex(w[0]))
    except No as e:
        return f"no {e.args[0]} {e.args[1]}"


def main():
    sys.setrecursionlimit(10000)
    bad = 0
    for f in sys.argv[1:]:
        good = wrong = 0
        for line in (sys.stdin if f == "-" else open(f)):
            line = line.rstrip("\n")
            if not line or line.startswith("#"):
                continue
            q, a = line.split(" => ")
            got = answer(q)
            if got == a:
                good += 1
            else:
                wrong += 1
                if wrong <= 5:
                    print("DIFFERENCE", line[:400], "\n    second reading", got[:400])
        print(f"{f}: {good} as expected, {wrong} not")
        bad += wrong
    sys.exit(bad > 0)


main()
