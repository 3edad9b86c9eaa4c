#!/usr/bin/env python3
"""Writes the example file beside this one: the magic of revision 22, after which three functions stand from place 8 on. The first has strings,
debug symbols, paths and two parameters, the second one string, and the third nothing but instructions."""
import pathlib
import struct


def pack(layout, *numbers):
    return struct.pack("<" + layout, *numbers)


def text(s):
    return pack("H", len(s.encode())) + s.encode()


def table(items):
    return pack("H", len(items)) + b"".join(items)


def function(name, block):
    return text(name) + pack("I", len(block)) + block


def signature(*families):
    return b"SIG0" + table([pack("B", family) for family in families])


ON_ENTRY, AT_STORE = pack("BB", 0, 0), pack("BBI", 1, 0, 8)
FIELD = pack("BI", 1, 12)
TEXT, RECORD = 3, 12
SYMBOLS = [pack("IIH", 0, 1, 5), pack("IIH", 12, 2, 1)]
PATHS = [ON_ENTRY + pack("I", 9) + table([]), AT_STORE + pack("I", 11) + table([FIELD])]
NO_PATHS = b"OWN0" + table([])

file = b"SEMCOD21"
file += function("läs_post", table([text("lås"), text("")]) + b"DBG0" + table(SYMBOLS) + b"OWN0" + table(PATHS) + signature(TEXT, RECORD) + b"\x01\x02")
file += function("namn", table([text("Åsa")]) + NO_PATHS + signature() + b"\x03")
file += function("stäng", table([]) + NO_PATHS + signature() + b"\x04\x05\x06")

here = pathlib.Path(__file__).parent
(here / "functions.semcode").write_bytes(file)
