#!/usr/bin/env python3
"""Writes the example block beside this file, of revision 22: two strings, two debug symbols, three paths, a signature
of two parameters and two bytes of instructions."""
import pathlib
import struct


def pack(layout, *numbers):
    return struct.pack("<" + layout, *numbers)


def string(s):
    return pack("H", len(s)) + s


def table(items):
    return pack("H", len(items)) + b"".join(items)


def symbol(pc, line, column):
    return pack("IIH", pc, line, column)


def path(event, root, components):
    return event + pack("I", root) + table(components)


FRAME_ENTRY = pack("BB", 0, 0)


def borrow_at(site):
    return pack("BBI", 0, 1, site)


def record_at(site):
    return pack("BBI", 1, 1, site)


def tuple_index(index):
    return pack("BH", 0, index)


def field(symbol):
    return pack("BI", 1, symbol)


def payload(variant, index):
    return pack("BIH", 2, variant, index)


def sequence(index):
    return pack("BI", 3, index)


block = table([string("lås".encode()), string(b"")])
block += b"DBG0" + table([symbol(0, 1, 5), symbol(12, 2, 1)])
block += b"OWN0" + table(
    [
        path(FRAME_ENTRY, 9, []),
        path(borrow_at(4), 10, [tuple_index(1), payload(6, 2)]),
        path(record_at(8), 11, [field(12), sequence(3)]),
    ]
)
TEXT, RECORD = 3, 12
block += b"SIG0" + table([pack("B", TEXT), pack("B", RECORD)])
block += b"\x01\x02"

here = pathlib.Path(__file__).parent
(here / "tables.block").write_bytes(block)
