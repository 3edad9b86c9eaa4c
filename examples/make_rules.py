#!/usr/bin/env python3
"""Writes the example tables of rules beside this file (document 02, Slip 8), and a section by the rules of one.

four.rules has the four rules of docs/01-scope.md; under it every answer is that of a call without a table. diocese.rules has names of its own:
two rules of one witness, one of which gives polarity 0 and the other 1, a join, and an operation on one parent. diocese.evr0 is a section by
them, in which a call without the table finds an unknown rule. twice.rules gives a name twice.
"""
import pathlib
import sys

sys.dont_write_bytecode = True
from make_sections import proof, proposition, section, text, witness


def rule(name, witnesses, parents, operation, polarity):
    return text(name.encode()) + bytes([witnesses, parents, operation, polarity])


def table(*rules):
    return bytes([len(rules)]) + b"".join(rules)


NOT_ASKED = 2
FOUR = (
    rule("POS-WITNESS-1", 1, 0, 0, 1),
    rule("NEG-WITNESS-1", 1, 0, 0, 0),
    rule("JOIN-SAME-P-1", 0, 2, 0, NOT_ASKED),
    rule("OP-T-ONLY-1", 0, 1, 1, NOT_ASKED),
)
DIOCESE = (
    rule("prästbetyg", 1, 0, 0, 1),
    rule("sekretess", 1, 0, 0, 0),
    rule("samråd", 0, 2, 0, NOT_ASKED),
    rule("utlämnande", 0, 1, 1, NOT_ASKED),
)


def by_them():
    """Two propositions: an operation on a positive proof, and one on a join of a positive and a negative proof."""
    return section(
        [proposition(b"baptism"), proposition(b"burial")],
        [
            proof(0, 0, "prästbetyg".encode(), 7, (0, 1), (0, 0), 0),
            proof(1, 0, "utlämnande".encode(), 7, (1, 0), (0, 1), 1),
            proof(2, 1, "prästbetyg".encode(), 7, (1, 1), (1, 0), 0),
            proof(3, 1, "sekretess".encode(), 7, (2, 1), (1, 0), 0),
            proof(4, 1, "samråd".encode(), 7, (3, 0), (1, 2), 0),
            proof(5, 1, "utlämnande".encode(), 7, (3, 0), (3, 1), 1),
        ],
        [witness(0, 0, 1), witness(1, 1, 1), witness(2, 1, 0)],
        [0, 2, 3, 4],
    )


here = pathlib.Path(__file__).parent
(here / "four.rules").write_bytes(table(*FOUR))
(here / "diocese.rules").write_bytes(table(*DIOCESE))
(here / "twice.rules").write_bytes(table(*DIOCESE[:2], DIOCESE[0]))
(here / "diocese.evr0").write_bytes(by_them())
