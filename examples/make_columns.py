#!/usr/bin/env python3
"""Writes the example column file beside this file (document 02, Slip 13; docs/COLUMNS.md): the columns of accepted.evr0.

The fields of a section, each as its kind and its size: "bytes" are copied, a "number" goes in groups of seven bits, and so does the length of a
"text", right before its bytes.
"""
import pathlib

TEXT = ("text", 2)


def copied(size):
    return ("bytes", size)


def number(size):
    return ("number", size)


HEAD = [copied(size) for size in (4, 4, 2, 2, 32, 32, 2)] + [TEXT, TEXT] + [number(4)] * 4
PROPOSITION = [TEXT] + [number(4)] * 3
PROOF = [number(4)] * 2 + [TEXT] + [number(4)] * 5 + [copied(1), copied(3)]
PARENT = [number(4)]


def witness(schema):
    span = number(8 if schema == 2 else 4)
    return [number(4), number(4), copied(1), copied(3), copied(32), span, span, copied(32)]


def groups(n):
    """Seven bits each, lowest first, the top bit set on all but the last; zero takes one."""
    count = max(1, -(-n.bit_length() // 7))
    return bytes((n >> 7 * i & 0x7F) | (0x80 if i < count - 1 else 0) for i in range(count))


def fields_of(section, at, fields):
    """The values of some fields that stand at a place, and the place after them: a text's value is its bytes."""
    values = []
    for kind, size in fields:
        if kind == "text":
            size, at = int.from_bytes(section[at : at + 2], "little"), at + 2
        values.append(section[at : at + size])
        at += size
    return values, at


def in_column(field, value):
    kind, _ = field
    if kind == "number":
        return groups(int.from_bytes(value, "little"))
    return (groups(len(value)) if kind == "text" else b"") + value


def tables_of(head):
    counts = [int.from_bytes(count, "little") for count in head[9:]]
    schema = int.from_bytes(head[2], "little")
    return zip(counts, (PROPOSITION, PROOF, witness(schema), PARENT))


def columns_of(section):
    """The columns of a section, of which all is there."""
    head, at = fields_of(section, 0, HEAD)
    out = b"".join(map(in_column, HEAD, head))
    for count, fields in tables_of(head):
        records = []
        for _ in range(count):
            values, at = fields_of(section, at, fields)
            records.append(values)
        for place, field in enumerate(fields):
            out += b"".join(in_column(field, record[place]) for record in records)
    assert at == len(section)
    return out


if __name__ == "__main__":
    here = pathlib.Path(__file__).parent
    (here / "accepted.columns").write_bytes(columns_of((here / "accepted.evr0").read_bytes()))
