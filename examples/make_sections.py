#!/usr/bin/env python3
"""Writes the example sections beside this file: specimen 4 of docs/01-scope.md, which is accepted; specimen 5, which is refused; one in which
a positive and a negative proof are joined; two that differ, as of two compilers that translated the same sources; and one of schema 2, whose spans
are long.

What the specimens leave free (the digests, the epoch, owner, scope, type and the span) is zeros.
"""
import pathlib
import struct


def u16(n):
    return struct.pack("<H", n)


def u32(*numbers):
    return struct.pack("<%dI" % len(numbers), *numbers)


def text(s):
    return u16(len(s)) + s


DIGEST = bytes(32)


def proposition(kind, owner=0, scope=0, type_=0):
    return text(kind) + u32(owner, scope, type_)


def proof(number, proposition, rule, authority, witnesses, parents, operation):
    """witnesses and parents: the first one, and how many."""
    return u32(number, proposition) + text(rule) + u32(authority, *witnesses, *parents) + bytes([operation, 0, 0, 0])


def witness(number, proposition, polarity, file=DIGEST, span=(0, 0), origin=DIGEST, schema=1):
    start_and_end = struct.pack("<2Q" if schema == 2 else "<2I", *span)
    return u32(number, proposition) + bytes([polarity, 0, 0, 0]) + file + start_and_end + origin


def section(propositions, proofs, witnesses, parents, source_set=DIGEST, compiler=DIGEST, schema=1):
    flags, epoch = 0, 0
    payload = u16(schema) + u16(flags) + source_set + compiler + u16(epoch) + text(b"a") + text(b"b")
    payload += u32(len(propositions), len(proofs), len(witnesses), len(parents))
    payload += b"".join(propositions + proofs + witnesses) + u32(*parents)
    return b"EVR0" + u32(len(payload)) + payload


def specimen(parent):
    """A proposition, a proof of it by a witness, and an operation on the proof with the number `parent`."""
    return section(
        [proposition(b"k")],
        [
            proof(0, 0, b"POS-WITNESS-1", 7, (0, 1), (0, 0), 0),
            proof(1, 0, b"OP-T-ONLY-1", 7, (1, 0), (0, 1), 1),
        ],
        [witness(0, 0, 1)],
        [parent],
    )


def joined():
    """Two propositions: one with an operation on a join of a positive and a negative proof, and one with a proof by a witness."""
    digests = [bytes(range(first, first + 32)) for first in range(0, 192, 32)]
    return section(
        [proposition("baptism of Ægir".encode(), 3, 5, 8), proposition(b"burial", 3, 6, 8)],
        [
            proof(0, 0, b"POS-WITNESS-1", 7, (0, 1), (0, 0), 0),
            proof(1, 0, b"NEG-WITNESS-1", 7, (1, 1), (0, 0), 0),
            proof(2, 0, b"JOIN-SAME-P-1", 7, (2, 0), (0, 2), 0),
            proof(3, 0, b"OP-T-ONLY-1", 7, (2, 0), (2, 1), 1),
            proof(4, 1, b"POS-WITNESS-1", 9, (2, 1), (3, 0), 0),
        ],
        [
            witness(0, 0, 1, digests[0], (10, 20), digests[1]),
            witness(1, 0, 0, digests[2], (30, 30), digests[3]),
            witness(2, 1, 1, digests[4], (0, 99), digests[5]),
        ],
        [0, 1, 2],
    )


SOURCES = bytes(range(32))


def first():
    """A baptism that is authorised, another that is, a burial, and a wedding that has a proof but no operation."""
    return section(
        [proposition(b"baptism", 3, 5, 8), proposition(b"baptism", 3, 6, 8), proposition(b"burial", 4, 1, 2), proposition("wedding of Åsa".encode(), 9, 0, 1)],
        [
            proof(0, 0, b"POS-WITNESS-1", 7, (0, 1), (0, 0), 0),
            proof(1, 0, b"OP-T-ONLY-1", 7, (1, 0), (0, 1), 1),
            proof(2, 1, b"POS-WITNESS-1", 7, (1, 1), (1, 0), 0),
            proof(3, 1, b"OP-T-ONLY-1", 7, (2, 0), (1, 1), 1),
            proof(4, 3, b"POS-WITNESS-1", 7, (2, 1), (2, 0), 0),
        ],
        [witness(0, 0, 1), witness(1, 1, 1), witness(2, 3, 1)],
        [0, 2],
        SOURCES,
        bytes([1] * 32),
    )


def second():
    """The same baptisms, of which the second has its operation on a join of a positive and a negative proof; a burial of another type; and the wedding
    without a proof."""
    return section(
        [proposition(b"baptism", 3, 5, 8), proposition(b"baptism", 3, 6, 8), proposition(b"burial", 4, 1, 3), proposition("wedding of Åsa".encode(), 9, 0, 1)],
        [
            proof(0, 0, b"POS-WITNESS-1", 7, (0, 1), (0, 0), 0),
            proof(1, 0, b"OP-T-ONLY-1", 7, (1, 0), (0, 1), 1),
            proof(2, 1, b"POS-WITNESS-1", 7, (1, 1), (1, 0), 0),
            proof(3, 1, b"NEG-WITNESS-1", 7, (2, 1), (1, 0), 0),
            proof(4, 1, b"JOIN-SAME-P-1", 7, (3, 0), (1, 2), 0),
            proof(5, 1, b"OP-T-ONLY-1", 7, (3, 0), (3, 1), 1),
        ],
        [witness(0, 0, 1), witness(1, 1, 1), witness(2, 1, 0)],
        [0, 2, 3, 4],
        SOURCES,
        bytes([2] * 32),
    )


def long():
    """Schema 2: two propositions, with witnesses far inside a long scan, whose spans 32 bits do not hold."""
    digests = [bytes(range(first, first + 32)) for first in range(0, 128, 32)]
    return section(
        [proposition(b"marriage", 3, 5, 8), proposition(b"residence", 3, 6, 8)],
        [
            proof(0, 0, b"POS-WITNESS-1", 7, (0, 1), (0, 0), 0),
            proof(1, 0, b"OP-T-ONLY-1", 7, (1, 0), (0, 1), 1),
            proof(2, 1, b"NEG-WITNESS-1", 7, (1, 1), (1, 0), 0),
        ],
        [
            witness(0, 0, 1, digests[0], (2**32, 2**32 + 4096), digests[1], 2),
            witness(1, 1, 0, digests[2], (2**53 + 1, 2**64 - 1), digests[3], 2),
        ],
        [0],
        schema=2,
    )


if __name__ == "__main__":
    here = pathlib.Path(__file__).parent
    (here / "accepted.evr0").write_bytes(specimen(0))
    (here / "refused.evr0").write_bytes(specimen(1))
    (here / "joined.evr0").write_bytes(joined())
    (here / "first.evr0").write_bytes(first())
    (here / "second.evr0").write_bytes(second())
    (here / "long.evr0").write_bytes(long())
