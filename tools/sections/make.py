#!/usr/bin/env python3
"""Writes the list that the program `test_sections` shows, and what it is to print.

    tools/sections/make.py

Writes crates/test_sections/stdin and stdout. An entry of the list is what crates/test_sections/src/main.rt reads. The marks are those of
document 02, by walking: the polarities at which the walks down from a proof end, each proof's found once.
"""
import os
import struct
import sys

sys.dont_write_bytecode = True
TOP = os.path.dirname(os.path.dirname(os.path.dirname(os.path.abspath(__file__))))
sys.path.append(os.path.join(TOP, "tools", "replay"))
from sections import JOIN, NEG, OP, POS, Section, wide

CRATE = os.path.join(TOP, "crates", "test_sections")


def section(*proofs):
    """By rule and parents."""
    s = Section().proposition(b"k")
    for rule, *parents in proofs:
        s.proof(rule, parents)
    return s


def ends(s):
    """For each proof, the polarities at which some walk down ends."""
    found = []
    for p in s.proofs:
        parents = s.parents[p["parent"] : p["parent"] + p["parents"]]
        found.append({s.witnesses[p["witness"]]["polarity"]} if not parents else set().union(*(found[q] for q in parents)))
    return found


def marks(s):
    return [1 if e == {1} else 2 if e == {0} else 3 for e in ends(s)]


def authorised(s):
    """Some proof of the first proposition has operation 1 and mark 1."""
    return any(p["proposition"] == 0 and p["operation"] == 1 and mark == 1 for p, mark in zip(s.proofs, marks(s)))


def counts_end(s):
    return 8 + 70 + len(s.policy) + len(s.issuer) + 16


def listed(table):
    return ":" + "".join(f" {mark}" for mark in table)


def accepted(s, lent):
    table = marks(s) + [0] * (lent - len(s.proofs))
    if not s.propositions:
        return "accepted" + listed(table) + "; refused 62" + listed([0] * lent) + "\n"
    return "accepted" + listed(table) + ("; authorised" if authorised(s) else "; not") + listed(table) + "\n"


def refused(number, offset, lent):
    zeros = listed([0] * lent)
    return f"refused {number} {offset}{zeros}; refused {number}{zeros}\n"


def entries():
    """Sections, lent marks, and what is printed."""
    both = [(POS,), (NEG,), (JOIN, 0, 1), (OP, 2), (OP, 3), (JOIN, 2, 4), (JOIN, 2, 5)]
    sides = [(POS,), (POS,), (NEG,), (NEG,), (JOIN, 0, 1), (JOIN, 2, 3), (JOIN, 1, 2), (OP, 4), (OP, 6), (JOIN, 7, 8), (JOIN, 4, 7)]
    upon = [(POS,), (POS,)] + [(JOIN, i, i + 1) for i in range(60)]
    mixed = section(*upon[1:2], (NEG,), *upon[2:])
    negative = section((NEG,), (OP, 0))
    beside = section((NEG,), (POS,), (OP, 0), (OP, 1))
    apart = section((NEG,), (POS,), (OP, 0))
    sections = [Section(), section(), section((POS,)), section((NEG,)), section(*both), section(*sides), section(*upon), mixed, negative, beside, apart]
    for s in sections:
        count = len(s.proofs)
        for lent in (count, count + 3):
            yield s.bytes(), lent, accepted(s, lent)
        # one mark is missing: 61, after the counts
        if count:
            yield s.bytes(), count - 1, refused(61, counts_end(s), count - 1)
    # a refusal leaves zeros: no tag, and a parent that does not rise
    s = section(*both)
    yield b"EVR1" + s.bytes()[4:], 9, refused(1, 0, 9)
    s.parents[-1] = 2
    yield s.bytes(), 9, refused(25, len(s.bytes()) - 4, 9)
    yield wide(s).bytes(), 9, refused(25, len(wide(s).bytes()) - 4, 9)
    # schema 2
    for s in (wide(section(*sides)), wide(beside), wide(negative)):
        count = len(s.proofs)
        yield s.bytes(), count + 1, accepted(s, count + 1)
        yield s.bytes(), count - 1, refused(61, counts_end(s), count - 1)


def main():
    made = list(entries())
    with open(os.path.join(CRATE, "stdin"), "wb") as out:
        for data, lent, _ in made:
            out.write(struct.pack("<BH", lent, len(data)) + data)
    with open(os.path.join(CRATE, "stdout"), "w") as out:
        out.writelines(text for _, _, text in made)


if __name__ == "__main__":
    main()
