#!/usr/bin/env python3
"""Writes the list that the program `test_rules` shows, and what it is to print.

    tools/rules/make.py

Writes crates/test_rules/stdin and stdout. An entry of the list is what crates/test_rules/src/main.rt reads: a table of rules and a section. Depths
are found by the parents; which refusal an entry gets stands beside it, from the words of document 02's Slip 8.
"""
import os
import struct
import sys

sys.dont_write_bytecode = True
TOP = os.path.dirname(os.path.dirname(os.path.dirname(os.path.abspath(__file__))))
sys.path.append(os.path.join(TOP, "tools", "replay"))
from sections import JOIN, OP, POS, Section, text, wide

CRATE = os.path.join(TOP, "crates", "test_rules")
LENT = 8  # entries of the table of depths
PAYLOAD = 8
NOT_ASKED = 2


class Rule:
    def __init__(self, name, witnesses, parents, operation, polarity):
        self.name = name.encode() if isinstance(name, str) else name
        self.numbers = [witnesses, parents, operation, polarity]

    def bytes(self):
        return text(self.name) + bytes(self.numbers)


def table(*rules):
    return bytes([len(rules)]) + b"".join(rule.bytes() for rule in rules)


FOUR = [Rule("POS-WITNESS-1", 1, 0, 0, 1), Rule("NEG-WITNESS-1", 1, 0, 0, 0), Rule("JOIN-SAME-P-1", 0, 2, 0, NOT_ASKED), Rule("OP-T-ONLY-1", 0, 1, 1, NOT_ASKED)]
DIOCESE = [Rule("prästbetyg", 1, 0, 0, 1), Rule("sekretess", 1, 0, 1, 0), Rule("samråd", 0, 2, 1, NOT_ASKED), Rule("avskrift", 0, 1, 0, NOT_ASKED)]
# 32 names of 64 bytes that share the first 62, in each shape
ALIKE = [Rule(f"{'n' * 62}{n:02}", *[(1, 0, 0, 1), (1, 0, 1, 0), (0, 1, 1, NOT_ASKED), (0, 2, 0, NOT_ASKED)][n % 4]) for n in range(32)]


def section(*proofs):
    """By rule and parents, each as the rule says."""
    s = Section().proposition(b"k")
    for rule, *parents in proofs:
        witnesses, _, operation, polarity = rule.numbers
        number = s.proof(POS if witnesses else JOIN if len(parents) == 2 else OP, parents)
        s.proofs[number].update(rule=text(rule.name), operation=operation)
        if witnesses:
            s.witnesses[-1]["polarity"] = polarity
    return s


def proof_start(s, number):
    """The place of a proof's record in the section."""
    records = sum(8 + len(p["rule"]) + 24 for p in s.proofs[:number])
    return PAYLOAD + 70 + len(s.policy) + len(s.issuer) + 16 + sum(len(kind) + 12 for kind, *_ in s.propositions) + records


def accepted(s):
    depths = []
    for p in s.proofs:
        parents = s.parents[p["parent"] : p["parent"] + p["parents"]]
        depths.append(1 + max((depths[q] for q in parents), default=0))
    return "accepted:" + "".join(f" {depth}" for depth in depths + [0] * (LENT - len(depths))) + "\n"


def refused(number, offset):
    return f"refused {number} {offset}:" + " 0" * LENT + "\n"


def by(rules):
    """A witness of each polarity, a join of both, a proof on that, and a join of the second and the last."""
    positive, negative, join, one = rules
    return section((positive,), (negative,), (join, 0, 1), (one, 2), (join, 1, 3))


def sections():
    """Tables, sections by their rules, and what is printed."""
    for rules in (FOUR, FOUR[::-1], [FOUR[i] for i in (2, 0, 3, 1)]):
        yield table(*rules), Section(), accepted(Section())
        yield table(*rules), by(FOUR), accepted(by(FOUR))
    yield table(*DIOCESE), by(DIOCESE), accepted(by(DIOCESE))
    for first in (0, 28):
        positive, negative, one, join = ALIKE[first : first + 4]
        s = by([positive, negative, join, one])
        yield table(*ALIKE), s, accepted(s)
    # a table decides: a rule that it does not have, other numbers, the other polarity
    s = by(FOUR)
    yield table(*DIOCESE), s, refused(20, proof_start(s, 0))
    yield table(*FOUR[:3]), s, refused(20, proof_start(s, 3))
    yield table(*FOUR[:3], Rule("OP-T-ONLY-1", 0, 1, 0, NOT_ASKED)), s, refused(21, proof_start(s, 3))
    yield table(Rule("POS-WITNESS-1", 1, 0, 0, 0), *FOUR[1:]), s, refused(29, PAYLOAD)
    yield table(FOUR[0], Rule("NEG-WITNESS-1", 1, 0, 0, 1), *FOUR[2:]), s, refused(29, PAYLOAD)
    s = section((ALIKE[0],), (Rule("n" * 62 + "32", 0, 1, 1, NOT_ASKED), 0))
    yield table(*ALIKE), s, refused(20, proof_start(s, 1))
    s = by(DIOCESE)
    s.parents[-1] = 4
    yield table(*DIOCESE), s, refused(25, len(s.bytes()) - 4)
    # schema 2
    yield table(*DIOCESE), wide(s), refused(25, len(wide(s).bytes()) - 4)
    yield table(*DIOCESE), wide(by(DIOCESE)), accepted(by(DIOCESE))
    yield table(*FOUR[::-1]), wide(by(FOUR)), accepted(by(FOUR))
    yield table(*DIOCESE), wide(by(FOUR)), refused(20, proof_start(s, 0))
    yield table(Rule("POS-WITNESS-1", 1, 0, 0, 0), *FOUR[1:]), wide(by(FOUR)), refused(29, PAYLOAD)


def tables():
    """Tables that are refused, before the section."""
    rule, whole = FOUR[0], table(*FOUR)
    outside = [Rule("b", *numbers) for numbers in ((1, 0, 0, 2), (1, 0, 2, 1), (1, 1, 0, 1), (0, 0, 0, 2), (0, 1, 0, 1), (0, 3, 0, 2), (2, 0, 0, 1))]
    outside += [Rule(name, 1, 0, 0, 1) for name in ("", "n" * 65, "å" * 33, b"\xff", "\x7f", "\x85")]
    for refusal, bytes_ in (
        (69, b""),
        (69, b"\0"),
        (69, b"\x21" + b"".join(r.bytes() for r in [*ALIKE, rule])),
        *((69, table(rule, wrong)) for wrong in outside),
        *((69, whole[:end]) for end in (1, 2, 3, 15, 16, 19, 20, len(whole) - 1)),
        (69, whole + b"\0"),
        (70, table(*FOUR, Rule("POS-WITNESS-1", 1, 0, 0, 0))),
        (70, table(rule, *DIOCESE, rule)),
        (70, b"\x03" + rule.bytes() * 2),
        (70, b"\x03" + rule.bytes() * 2 + outside[0].bytes()),
        (70, b"\x02" + rule.bytes() * 2 + b"\0"),
        (69, b"\x03" + rule.bytes() + outside[0].bytes() + rule.bytes()),
        (69, table(rule, Rule("POS-WITNESS-1", 1, 0, 0, 2))),
        (69, b"\x21" + rule.bytes() * 33),
    ):
        yield bytes_, by(FOUR), refused(refusal, 0)


def main():
    made = [(rules, s.bytes(), told) for rules, s, told in (*sections(), *tables())]
    with open(os.path.join(CRATE, "stdin"), "wb") as out:
        for rules, data, _ in made:
            out.write(struct.pack("<HH", len(rules), len(data)) + rules + data)
    with open(os.path.join(CRATE, "stdout"), "w", encoding="utf-8") as out:
        out.writelines(told for *_, told in made)


if __name__ == "__main__":
    main()
