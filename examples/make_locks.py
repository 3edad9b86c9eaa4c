#!/usr/bin/env python3
"""Writes the example file beside this one: the magic of revision 22, after which three functions stand from place 8 on. One borrows a field of
root 9, one the whole of root 9, and one writes that field."""
import pathlib
import struct


def pack(layout, *numbers):
    return struct.pack("<" + layout, *numbers)


def text(s):
    return pack("H", len(s.encode())) + s.encode()


def table(items):
    return pack("H", len(items)) + b"".join(items)


def function(name, path):
    block = table([]) + b"OWN0" + table([path]) + b"SIG0" + table([])
    return text(name) + pack("I", len(block)) + block


ON_ENTRY, AT_STORE = pack("BB", 0, 0), pack("BBI", 1, 0, 8)
ROOT, FIELD = pack("I", 9), pack("BI", 1, 12)

file = b"SEMCOD21"
file += function("läs_namn", ON_ENTRY + ROOT + table([FIELD]))
file += function("läs_post", ON_ENTRY + ROOT + table([]))
file += function("rätta_namn", AT_STORE + ROOT + table([FIELD]))

here = pathlib.Path(__file__).parent
(here / "locks.semcode").write_bytes(file)
