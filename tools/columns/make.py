#!/usr/bin/env python3
"""Writes the list that the program `test_columns` shows, and what it is to print.

    tools/columns/make.py

Writes crates/test_columns/stdin and stdout. An entry of the list is what crates/test_columns/src/main.rt reads: a section that is written by column,
or columns that are taken back, and how long the output is. Columns are those of examples/make_columns.py, from the words of document 02's Slip 13;
which refusal an entry gets stands beside it.
"""
import os
import struct
import sys

sys.dont_write_bytecode = True
TOP = os.path.dirname(os.path.dirname(os.path.dirname(os.path.abspath(__file__))))
sys.path += [os.path.join(TOP, "tools", "replay"), os.path.join(TOP, "examples")]
from make_columns import columns_of, groups
from sections import JOIN, NEG, OP, POS, Section, grown, wide, with_propositions

CRATE = os.path.join(TOP, "crates", "test_columns")
WRITE, TAKE = 0, 1
LENT = 8  # entries of each of the three tables
HEAD = 78  # bytes that are copied
COUNTS = 82  # where the counts stand behind two texts of one byte


def written(output, lent):
    return f"written {len(output)}:" + shown(output + bytes(lent - len(output)))


def refused(number, offset, lent):
    return f"refused {number} {offset}:" + shown(bytes(lent))


def shown(output):
    return "".join(f" {byte}" for byte in output) + "\n"


def sections():
    """Accepted ones, of either schema; numbers of one to five groups, and of up to ten in a span of schema 2."""
    yield Section()
    yield grown((POS,), (OP, 0))
    yield grown((POS,), (NEG,), (JOIN, 0, 1), (OP, 2))
    s = Section()
    for kind, *numbers in ((b"k", 127, 128, 16383), (b"l" * 130, 16384, 2**21 - 1, 2**21), (b"\xc3\xa5", 2**28 - 1, 2**28, 2**32 - 1)):
        s.proposition(kind, *numbers)
    yield s
    yield wide(grown((POS,), (OP, 0)))
    for start, end in ((0, 2**32), (2**35, 2**49), (2**56 - 1, 2**63), (2**64 - 1, 2**64 - 1)):
        s = wide(grown((NEG,)))
        s.witnesses[0].update(start=start, end=end)
        yield s


def both_ways():
    for section in map(Section.bytes, sections()):
        columns = columns_of(section)
        for form, given, made in ((WRITE, section, columns), (TAKE, columns, section)):
            for lent in (len(made), len(made) + 3):
                yield form, given, lent, written(made, lent)
            yield form, given, len(made) - 1, refused(61, 0, len(made) - 1)
            yield form, given, 0, refused(61, 0, 0)


def numbers():
    """75: each number stands at a text's length or at the owner of a proposition; the place counts from its first byte."""
    of_2 = ("8000", 1), ("8100", 1), ("ff00", 1), ("808000", 2), ("ffff04", 2), ("ffff10", 2), ("ffff80", 2), ("ffff8301", 2)
    of_4 = ("8000", 1), ("808000", 2), ("8080808000", 4), ("ffffffff10", 4), ("ffffffff80", 4), ("ffffffff8f01", 4)
    columns = columns_of(with_propositions(b"k").bytes())
    for at, wrong in ((HEAD, of_2), (COUNTS, of_4), (COUNTS + 6, of_4)):
        for number, place in wrong:
            yield TAKE, columns[:at] + bytes.fromhex(number) + columns[at + 1 :], 5, refused(75, at + place, 5)
    s = wide(grown((POS,)))
    s.witnesses[0].update(start=0, end=0)
    columns = columns_of(s.bytes())
    for number, place in (("ff" * 9 + "02", 9), ("ff" * 9 + "80", 9), ("80" * 9 + "00", 9), ("80" * 8 + "00", 8)):
        yield TAKE, columns[:-33] + bytes.fromhex(number) + columns[-32:], 5, refused(75, len(columns) - 33 + place, 5)
    # a span has 4 bytes under a schema that no decoder reads
    s.schema, s.span = 3, 4
    columns = columns_of(s.bytes())
    yield TAKE, columns[:-33] + groups(2**32) + columns[-32:], 5, refused(75, len(columns) - 29, 5)
    yield TAKE, columns, len(s.bytes()), refused(10, 10, len(s.bytes()))


def cut_or_left_over():
    columns = columns_of(grown((POS,), (OP, 0)).bytes())
    for end in (0, 1, 4, 8, HEAD - 1, HEAD, HEAD + 1, COUNTS, COUNTS + 3, COUNTS + 4, len(columns) - 1):
        yield TAKE, columns[:end], 5, refused(76, end, 5)
    for more in (b"\0", b"\x80\x80"):
        yield TAKE, columns + more, 5, refused(76, len(columns), 5)
    # a number that is cut may yet be right; a byte that is not comes before the end
    yield TAKE, columns[:HEAD] + b"\x80", 5, refused(76, HEAD + 1, 5)
    yield TAKE, columns[:HEAD] + b"\xff\xff", 5, refused(76, HEAD + 2, 5)
    yield TAKE, columns[:HEAD] + b"\xff\xff\x80", 5, refused(75, HEAD + 2, 5)
    # counts of 2^32 - 1 with no columns
    for table in range(4):
        counts = [bytes(1)] * 4
        counts[table] = groups(2**32 - 1)
        file = columns[:COUNTS] + b"".join(counts)
        yield TAKE, file, 5, refused(76, len(file), 5)


def by_the_decoder():
    """Refusals of a section that is written, and of one that is rebuilt; then the output is asked first."""
    s = grown((POS,), (OP, 0))
    s.parents[-1] = 1
    parent, columns = len(s.bytes()) - 4, columns_of(s.bytes())
    yield WRITE, s.bytes(), 300, refused(25, parent, 300)
    yield WRITE, s.bytes(), 0, refused(25, parent, 0)
    yield TAKE, columns, len(s.bytes()), refused(25, parent, len(s.bytes()))
    yield TAKE, columns, len(s.bytes()) - 1, refused(61, 0, len(s.bytes()) - 1)
    right = grown((POS,), (OP, 0))
    length = len(right.bytes())
    for payload, number, offset in ((0, 3, 4), (1, 5, 8), (100, 13, 100), (length - 9, 5, length - 4), (length - 7, 4, 8), (4194305, 3, 4)):
        file = columns_of(right.bytes())
        file = file[:4] + struct.pack("<I", payload) + file[8:]
        yield TAKE, file, length, refused(number, offset, length)
    yield WRITE, b"", 5, refused(1, 0, 5)
    s = Section()
    s.policy = b"\0\0"
    yield TAKE, columns_of(s.bytes()), 99, refused(6, 80, 99)
    # nine propositions, where eight are lent: when writing before the output is asked, when taking back after it
    s = with_propositions(*(bytes([ord("a") + n]) for n in range(LENT + 1)))
    columns = columns_of(s.bytes())
    yield WRITE, s.bytes(), len(columns), refused(61, 100, len(columns))
    yield WRITE, s.bytes(), 0, refused(61, 100, 0)
    yield TAKE, columns, len(s.bytes()), refused(61, 100, len(s.bytes()))
    yield TAKE, columns, 4, refused(61, 0, 4)


def main():
    made = [*both_ways(), *numbers(), *cut_or_left_over(), *by_the_decoder()]
    with open(os.path.join(CRATE, "stdin"), "wb") as out:
        for form, data, lent, _ in made:
            out.write(struct.pack("<BHH", form, lent, len(data)) + data)
    with open(os.path.join(CRATE, "stdout"), "w") as out:
        out.writelines(text for *_, text in made)


if __name__ == "__main__":
    main()
