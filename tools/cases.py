#!/usr/bin/env python3
# cases.py VECTORS... > FILE: turns vector lines (docs/TESTS.md has their form) into the file that the program `replay` reads.
#
# A case is a head of 32 bytes, then the term, the replacement, and the bytes that a successful Substitute or Desugar must write. The
# head, numbers little-endian: operation (1 check, 2 fragment, 3 fields, 4 substitute, 5 desugar, 6 subrange, 7 compare, 8 cost, 9 read,
# 10 packets), 1 for success or 0 for a refusal, name (2 bytes), lengths of the term, of the replacement and of the answer buffer, allowance, length of work
# memory, then of a success the two values, of a refusal its number and place (4 bytes each). What an operation does not take is 0. The term
# of a subrange is its four numbers. A comparison has the bytes of its two bounds for term and replacement, the width for the allowance, and
# the bounds' lengths in bits for the lengths of work memory and answer buffer. A cost has for term six numbers (start, end, pattern, number,
# lengths of A and of B in bits) and behind them the bytes of A, for replacement the bytes of B, and for values the low and the high half.
# A core that is read has for term its bytes and for replacement those of its records, 12 each, both in groups: of each where it ends, its
# length (4 bytes each), and its bytes, which stand there over and over up to that end. The length of its list is that of the answer buffer.
# Packets have for term such a core, for replacement their lengths, as many as the allowance says, and behind them their bytes, and for values
# the low and the high half of the mask.
import struct, sys

CHECK, FRAGMENT, FIELDS, SUBSTITUTE, DESUGAR, SUBRANGE, COMPARE, COST, READ, PACKETS = 1, 2, 3, 4, 5, 6, 7, 8, 9, 10
WITH_ONE_VALUE = {"check": CHECK, "fragment": FRAGMENT, "fields": FIELDS}


def times(text):
    """What stands before a `*`, and the number behind it."""
    what, _, number = text.partition("*")
    return what, int(number or 1)


def groups(text):
    """The groups of a byte string, and how often each stands there."""
    return [] if text == "-" else [(bytes.fromhex(digits), number) for digits, number in map(times, text.split("."))]


def unhex(text):
    return b"".join(group * number for group, number in groups(text))


def halves(number):
    return number & 0xffffffff, number >> 32


def grouped(parts):
    """The bytes for groups and how often each stands there."""
    end, packed = 0, b""
    for group, number in parts:
        end += len(group) * number
        packed += struct.pack("<II", end, len(group)) + group
    return packed


def of_read(core, room, answer):
    ok = answer[0] == "ok"
    runs = map(times, answer[3].split(",")) if ok else []
    records = grouped((struct.pack("<III", *map(int, record.split(":"))), number) for record, number in runs)
    return case(READ, ok, grouped(groups(core)), int(answer[1]), int(answer[2]), replacement=records, room=room)


def of_packets(core, room, packets, lengths, answer):
    runs = [] if lengths == "-" else map(times, lengths.split(","))
    counts = [int(length) for length, number in runs for _ in range(number)]
    lent = struct.pack(f"<{len(counts)}I", *counts) + unhex(packets)
    ok = answer[0] == "ok"
    first, second = halves(int(answer[1], 16)) if ok else map(int, answer[1:3])
    return case(PACKETS, ok, grouped(groups(core)), first, second, replacement=lent, room=room, allowance=len(counts))


def case(operation, ok, term, first, second, name=0, replacement=b"", room=0, allowance=0, work=0, result=b""):
    head = struct.pack("<BBHIIIIIII", operation, ok, name, len(term), len(replacement), room, allowance, work, first, second)
    return head + term + replacement + result


def of_line(line):
    left, right = line.split(" => ")
    words, answer = left.split(), right.split()
    operation, ok = words[0], answer[0] == "ok"
    if operation == "subrange":
        return case(SUBRANGE, ok, struct.pack("<IIII", *map(int, words[1:5])), int(answer[1]), int(answer[2]))
    if operation == "compare":
        width, a_bits, b_bits = (int(words[i]) for i in (1, 2, 4))
        taken = {"replacement": unhex(words[5]), "allowance": width, "work": a_bits, "room": b_bits}
        return case(COMPARE, ok, unhex(words[3]), int(answer[1]), int(answer[2]), **taken)
    if operation == "cost":
        numbers = struct.pack("<6I", *(int(words[i]) for i in (1, 2, 3, 4, 5, 7)))
        first, second = halves(int(answer[1])) if ok else map(int, answer[1:3])
        return case(COST, ok, numbers + unhex(words[6]), first, second, replacement=unhex(words[8]))
    if operation == "read":
        return of_read(words[1], int(words[2]), answer)
    if operation == "packets":
        return of_packets(words[1], int(words[2]), words[3], words[4], answer)
    term = unhex(words[1])
    if operation in WITH_ONE_VALUE:
        second = 0 if ok else int(answer[2])
        return case(WITH_ONE_VALUE[operation], ok, term, int(answer[1]), second)
    if operation == "desugar":
        taken = dict(zip(("allowance", "work", "room"), map(int, words[2:5])))
    else:
        taken = {"name": int(words[2]), "replacement": unhex(words[3]), "room": int(words[4])}
    code = DESUGAR if operation == "desugar" else SUBSTITUTE
    if not ok:
        return case(code, 0, term, int(answer[1]), int(answer[2]), **taken)
    result = unhex(answer[-1])
    second = int(answer[1]) if operation == "desugar" else 0
    return case(code, 1, term, len(result), second, result=result, **taken)


for path in sys.argv[1:]:
    for line in open(path):
        if not line.startswith("#"):
            sys.stdout.buffer.write(of_line(line.strip()))
