#!/usr/bin/env python3
"""Writes the list that the program `test_rounds` shows, and what it is to print.

    tools/rounds/make.py

Writes crates/test_rounds/stdin and stdout. An entry of the list is what crates/test_rounds/src/main.rt reads. The rounds are those of the card,
made with a list of marks for each round; the decoder's answer is document 01's, proof by proof.
"""
import os
import struct
import sys

sys.dont_write_bytecode = True
TOP = os.path.dirname(os.path.dirname(os.path.dirname(os.path.abspath(__file__))))
sys.path.append(os.path.join(TOP, "tools", "replay"))
from sections import JOIN, NEG, OP, POS, Section, text, words

CRATE = os.path.join(TOP, "crates", "test_rounds")


class Wide(Section):
    """Schema 2: 8-byte span starts and ends."""

    def payload(self):
        front = Section()
        vars(front).update(vars(self), schema=2, counts=[len(t) for t in (self.propositions, self.proofs, self.witnesses, self.parents)])
        front.witnesses, front.parents, front.more = [], [], b""
        out = bytearray(Section.payload(front))
        for w in self.witnesses:
            out += words(w["number"], w["proposition"]) + bytes([w["polarity"]]) + w["zeros"] + bytes(range(32))
            out += struct.pack("<QQ", w["start"], w["end"]) + bytes(range(32, 64))
        return bytes(out) + words(*self.parents) + self.more


def section(*proofs, kind=Section):
    """By rule and parents."""
    s = kind()
    s.proposition(b"k")
    for rule, *parents in proofs:
        s.proof(rule, parents)
    return s


def chain(depth, *more, kind=Section):
    return section((POS,), *((OP, i) for i in range(depth - 1)), *more, kind=kind)


def cells_at(s):
    return len(s.bytes()) - 4 * len(s.parents)


def parents_of(s, p):
    return s.parents[p["parent"] : p["parent"] + p["parents"]]


# ---- The answers, as (number, offset) or a list of numbers


def kin(s, number):
    """25 and 26 of one proof."""
    p = s.proofs[number]
    least = 0
    for at, parent in enumerate(parents_of(s, p)):
        offset = cells_at(s) + 4 * (p["parent"] + at)
        if not least <= parent < number:
            return 25, offset
        if (s.proofs[parent]["proposition"], s.proofs[parent]["authority"]) != (p["proposition"], p["authority"]):
            return 26, offset
        least = parent + 1
    return None


def rounds(s):
    """In each round, counted from 1, it marks the proofs all of whose parents were marked in earlier rounds."""
    for number in range(len(s.proofs)):
        refused = kin(s, number)
        if refused:
            return refused
    marks = [0] * len(s.proofs)
    for r in range(1, 257):
        earlier = list(marks)
        for number, p in enumerate(s.proofs):
            if not earlier[number] and all(earlier[parent] for parent in parents_of(s, p)):
                marks[number] = r
    return (27, 8) if 0 in marks else marks


def depths(s):
    """Proof by proof: 25 and 26, the depth, the witness."""
    found = []
    for number, p in enumerate(s.proofs):
        refused = kin(s, number)
        if refused:
            return refused
        depth = 1 + max((found[parent] for parent in parents_of(s, p)), default=0)
        if depth > 256:
            return 27, 8
        for w in s.witnesses[p["witness"] : p["witness"] + p["witnesses"]]:
            if w["proposition"] != p["proposition"]:
                return 28, 8
            if w["polarity"] != int(p["rule"] == text(POS)):
                return 29, 8
        found.append(depth)
    return found


# ---- What is printed


def listed(numbers):
    return ":" + "".join(f" {n}" for n in numbers)


def shown(lent, answer, word, told):
    if isinstance(answer, tuple):
        return "refused {} {}".format(*answer) + listed([0] * lent)
    return word + told + listed(answer + [0] * (lent - len(answer)))


def printed(s, lent, by_rounds=None, by_decoder=None):
    """Both answers; those that are given go before 25."""
    first = by_rounds or rounds(s)
    second = by_decoder or depths(s)
    starts = (0, 0) if isinstance(first, tuple) else (len(s.propositions), len(s.proofs))
    told = f" {len(s.proofs)} {len(s.bytes())}"
    return shown(lent, first, "marked", told) + "; {} {}\n".format(*starts) + shown(lent, second, "accepted", "") + "\n"


def rule(name, witnesses, parents, operation, polarity):
    return text(name) + bytes([witnesses, parents, operation, polarity])


FOUR = b"\4" + rule(OP, 0, 1, 1, 2) + rule(JOIN, 0, 2, 0, 2) + rule(NEG, 1, 0, 0, 0) + rule(POS, 1, 0, 0, 1)


def same(s, lent, table=b"", early=None):
    return s.bytes(), lent, table, printed(s, lent, early, early)


def counts_end(s):
    return 8 + 70 + len(s.policy) + len(s.issuer) + 16


def entries():
    """Sections, lent rounds, table of rules, and what is printed."""
    both = [(POS,), (NEG,), (JOIN, 0, 1), (OP, 2), (OP, 3), (JOIN, 2, 4), (JOIN, 2, 5)]
    upon = [(POS,), (POS,)] + [(JOIN, i, i + 1) for i in range(20)]
    layers = [(POS,) for _ in range(4)] + [(JOIN, 4 * layer + i, 4 * layer + (i + 1) % 4) if i < 3 else (OP, 4 * layer + i) for layer in range(5) for i in range(4)]
    for kind in (Section, Wide):
        sections = [section(kind=kind), section((POS,), kind=kind), section(*both, kind=kind), section(*upon, kind=kind), section(*layers, kind=kind)]
        for s in sections:
            count = len(s.proofs)
            for lent in (count, count + 3):
                yield same(s, lent)
            yield same(s, count, FOUR)
            # one round is missing: 61, after the counts
            if count:
                yield same(s, count - 1, b"", (61, counts_end(s)))
    # the card's limit, in both methods
    for depth in (256, 257):
        yield same(chain(depth), depth + 1)
    yield same(chain(256, (POS,), (JOIN, 255, 256)), 258)
    yield same(chain(256, kind=Wide), 256)
    yield same(chain(257, kind=Wide), 257)
    # 25 or 26 of a later proof goes before an earlier proof's 27
    yield same(chain(257, (OP, 257)), 258)
    s = chain(257, (OP, 0))
    s.proofs[257]["authority"] = 8
    yield same(s, 258)
    # 26 of the first parent before 25 of the second; 25 of an earlier proof
    s = section(*both)
    s.proofs[0]["authority"] = 8
    s.parents[1] = 0
    yield same(s, 9)
    # 28 and 29 are left aside
    for name, value in (("proposition", 1), ("polarity", 0)):
        s = section(*both)
        s.proposition(b"l")
        s.witnesses[0][name] = value
        yield same(s, 7)
    # a refusal leaves zeros: no tag, a byte left over, a parent that does not rise, a table that is refused
    s = section(*both)
    yield b"EVR1" + s.bytes()[4:], 9, b"", printed(s, 9, (1, 0), (1, 0))
    s.more = b"\0"
    yield same(s, 9, b"", (24, len(s.bytes()) - 1))
    s = section(*both)
    s.parents[-1] = 2
    yield same(s, 9)
    s = section(*both)
    yield same(s, 9, b"\0", (69, 0))
    yield same(s, 9, b"\2" + rule(OP, 0, 1, 1, 2) * 2, (70, 0))


def main():
    made = list(entries())
    with open(os.path.join(CRATE, "stdin"), "wb") as out:
        for data, lent, table, _ in made:
            out.write(struct.pack("<HHH", lent, len(table), len(data)) + table + data)
    with open(os.path.join(CRATE, "stdout"), "w") as out:
        out.writelines(printed for *_, printed in made)


if __name__ == "__main__":
    main()
