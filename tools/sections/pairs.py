#!/usr/bin/env python3
"""Writes the list that the program `test_compare` shows, and what it is to print.

    tools/sections/pairs.py

Writes crates/test_compare/stdin and stdout. An entry of the list is what crates/test_compare/src/main.rt reads: two sections, or a table of rules and two
sections. Propositions are matched by two dictionaries, from the words of document 02's Slip 11.
"""
import os
import struct
import sys

sys.dont_write_bytecode = True
from make import TOP, counts_end, listed, marks
from sections import JOIN, NEG, OP, POS, Section, text

CRATE = os.path.join(TOP, "crates", "test_compare")
LENT = 8  # entries of each table of a section
FOUR = b"\x04" + b"".join(text(name) + bytes(numbers) for name, numbers in ((OP, (0, 1, 1, 2)), (POS, (1, 0, 0, 1)), (JOIN, (0, 2, 0, 2)), (NEG, (1, 0, 0, 0))))
OTHER = b"\x02" + text("prästbetyg".encode()) + bytes([1, 0, 1, 1]) + text(b"sekretess") + bytes([1, 0, 1, 0])

# of a proposition: no proof, one by a witness, an operation on a positive witness, on a negative one, on a join of both, on each
NONE, WITNESS, POSITIVE, NEGATIVE, BOTH, EACH = range(6)


def section(*propositions):
    """By kind, owner, scope, type, and what is proved of each."""
    s = Section()
    for kind, owner, scope, type_, _ in propositions:
        s.proposition(kind, owner, scope, type_)
    for number, (*_, proved) in enumerate(propositions):
        if proved in (WITNESS, POSITIVE):
            s.proof(POS, (), number)
        if proved in (NEGATIVE, EACH):
            s.proof(NEG, (), number)
        if proved == BOTH:
            s.proof(JOIN, (s.proof(POS, (), number), s.proof(NEG, (), number)), number)
        if proved in (POSITIVE, NEGATIVE, BOTH, EACH):
            s.proof(OP, (len(s.proofs) - 1,), number)
        if proved == EACH:
            s.proof(OP, (s.proof(POS, (), number),), number)
    return s


def authorised(s):
    """Of each proposition whether some proof of it has operation 1 and mark 1."""
    by = {p["proposition"] for p, mark in zip(s.proofs, marks(s)) if p["operation"] == 1 and mark == 1}
    return [int(number in by) for number in range(len(s.propositions))]


def told(s):
    keys = [(kind[2:], *numbers) for kind, *numbers in s.propositions]
    return dict(zip(keys, authorised(s)))


def verdicts(first, second):
    first, second = told(first), told(second)
    for key in sorted(first.keys() | second.keys()):
        if key not in second:
            yield 3
        elif key not in first:
            yield 4
        else:
            yield 1 if first[key] == second[key] else 2


def padded(table, length=LENT):
    return listed(table + [0] * (length - len(table)))


def accepted(first, second, lent):
    found = list(verdicts(first, second))
    totals = " ".join(str(found.count(verdict)) for verdict in (1, 2, 3, 4))
    tables = ";".join(padded(table)[1:] for s in (first, second) for table in (marks(s), authorised(s)))
    return f"compared {totals}{padded(found, lent)};{tables}\n"


def refused(whose, number, offset, lent):
    return f"{whose} refused {number} {offset}{padded([], lent)};" + ";".join([padded([])[1:]] * 4) + "\n"


ONE, OTHER_TYPE, THIRD = (b"k", 1, 2, 3), (b"k", 1, 2, 4), (b"l", 0, 0, 0)


def alike():
    """One proposition, proved in each way by either."""
    for proved in range(6):
        for again in range(6):
            yield section((*ONE, proved)), section((*ONE, again))


def apart():
    """Several propositions, in both or in one."""
    yield Section(), Section()
    whole = section((*ONE, POSITIVE), (*OTHER_TYPE, NEGATIVE), (*THIRD, WITNESS))
    for first in (Section(), section((*ONE, POSITIVE)), section((*OTHER_TYPE, BOTH)), section((*THIRD, EACH)), whole):
        yield first, whole
        yield whole, first
    # each field alone, a kind that begins as another, and bytes above 127
    keys = [ONE, (b"k", 1, 3, 0), (b"k", 2, 0, 0), (b"kk", 0, 0, 0), ("å".encode(), 0, 0, 0), ("\U0001f600".encode(), 2**32 - 1, 0, 0)]
    for key in keys:
        rest = [other for other in keys if other != key]
        yield section((*key, POSITIVE)), section(*((*other, NONE) for other in rest))
        yield section(*((*other, POSITIVE if other == rest[-1] else NONE) for other in keys)), section(*((*other, NONE) for other in rest))
    # eight on either side, all apart
    first, second = [POSITIVE, NONE] * 4, [BOTH, NONE, NONE, NONE] * 2
    yield section(*((b"k", n, 0, 0, proved) for n, proved in enumerate(first))), section(*((b"k", n, 0, 1, proved) for n, proved in enumerate(second)))


def with_source(data, at=0):
    """Another source set, by one bit of its last byte."""
    out = bytearray(data)
    out[at + 8 + 4 + 31] ^= 1
    return bytes(out)


def entries():
    """Rules or none, both sections, the second's cursor, lent verdicts, and what is printed."""
    for first, second in (*alike(), *apart()):
        count = len(list(verdicts(first, second)))
        yield b"", first.bytes(), second.bytes(), 0, count, accepted(first, second, count)
    for first, second in apart():
        count = len(list(verdicts(first, second)))
        yield FOUR, first.bytes(), b"before" + second.bytes() + b"after", 6, count + 3, accepted(first, second, count + 3)
        if count:
            yield b"", first.bytes(), second.bytes(), 0, count - 1, refused("pair", 61, 0, count - 1)
    s = section((*ONE, POSITIVE), (*OTHER_TYPE, BOTH))
    data, other = s.bytes(), with_source(s.bytes())
    for lent in (0, 1, 4):
        yield b"", data, other, 0, lent, refused("pair", 74, 12, lent)
        yield b"", data, b"before" + other, 6, lent, refused("pair", 74, 18, lent)
    # whose refusal: of the table of rules, of the first, of the second, of both
    schema = data[:8] + b"\x09" + data[9:]
    swapped = section((*OTHER_TYPE, NONE), (*ONE, NONE))
    place = counts_end(swapped) + 15
    yield FOUR + b"\0", schema, swapped.bytes(), 0, 5, refused("rules", 69, 0, 5)
    yield b"\x02" + FOUR[1:18] * 2, schema, b"", 0, 5, refused("rules", 70, 0, 5)
    yield b"", schema, swapped.bytes(), 0, 5, refused("first", 10, 10, 5)
    yield b"", swapped.bytes(), schema, 0, 5, refused("first", 16, place, 5)
    yield b"", data, schema, 0, 5, refused("second", 10, 10, 5)
    yield b"", other, schema, 0, 0, refused("second", 10, 10, 0)
    yield b"", data, swapped.bytes(), 0, 5, refused("second", 16, place, 5)
    yield b"", data, b"x" + data, 0, 5, refused("second", 1, 0, 5)
    # nine propositions, for which eight are lent: 61 after the counts, before 16
    nine = section(*((b"k", 0, 0, -n, NONE) for n in range(9)))
    yield b"", nine.bytes(), data, 0, 9, refused("first", 61, counts_end(nine), 9)
    yield b"", data, nine.bytes(), 0, 9, refused("second", 61, counts_end(nine), 9)
    # rules of one witness that are operations: positive for the first, negative for the second
    ours, theirs = section((*ONE, WITNESS)), section((*ONE, WITNESS))
    ours.proofs[0].update(rule=text("prästbetyg".encode()), operation=1)
    theirs.proofs[0].update(rule=text(b"sekretess"), operation=1)
    theirs.witnesses[0]["polarity"] = 0
    yield OTHER, ours.bytes(), theirs.bytes(), 0, 2, accepted(ours, theirs, 2)
    yield b"", ours.bytes(), theirs.bytes(), 0, 2, refused("first", 20, counts_end(ours) + 15, 2)


def main():
    made = list(entries())
    with open(os.path.join(CRATE, "stdin"), "wb") as out:
        for rules, first, second, cursor, lent, _ in made:
            out.write(struct.pack("<BBHHH", lent, cursor, len(rules), len(first), len(second)) + rules + first + second)
    with open(os.path.join(CRATE, "stdout"), "w") as out:
        out.writelines(told for *_, told in made)


if __name__ == "__main__":
    main()
