"""Files of functions that the replayed list names one by one: accepted shapes, limits, and one or two faults at once.

An input is (bytes, cursor, revision, lengths of the lent tables of functions, strings, paths and families, or none).
"""
import itertools
import struct

from blocks import Block, Path, each_form
from sections import CONTROLS, ILL_FORMED, NO_CONTROLS, text

REVISIONS = (0, 19, 20, 21, 22, 65535)


def function(name, block, size=None):
    code = block if isinstance(block, bytes) else block.bytes()
    return name + struct.pack("<I", len(code) if size is None else size % 2**32) + code


def smaller(revision):
    b = Block(revision)
    b.strings, b.paths = [text(b"s")], [Path(0, b"\0" if revision >= 21 else b"")]
    b.families = b"\3" if revision >= 20 else b""
    return b


def three(revision):
    """A large block before smaller ones."""
    return [function(text(b"f"), each_form(revision)), function(text("g\n\xe9".encode()), smaller(revision)), function(text(b"h"), Block(revision))]


def shapes():
    for revision in REVISIONS:
        whole = three(revision)
        for order in itertools.permutations(whole):
            yield b"".join(order), 0, revision
        for count in range(3):
            yield b"\7" * count + b"".join(whole[:count]), count, revision
    file = b"".join(three(22))
    for cursor in (0, 1, len(file) - 1, len(file), len(file) + 1, 2**32, 2**63, 2**64 - 1):
        yield file, cursor, 22
    yield b"", 0, 22
    yield b"", 2**64 - 1, 22


def names():
    for data in ILL_FORMED + [c.encode("utf-8", "surrogatepass") for c in CONTROLS + NO_CONTROLS]:
        for whole in (data, b"x" + data, data + b"x"):
            yield function(text(b"f"), Block(19)) + function(text(whole), Block(19)), 0, 19
    for length in (0, 1, 1023, 1024, 1025, 65535):
        for there in (length, 3):
            yield function(text(b"n" * there, length), Block(19)), 0, 19


def limits():
    one = function(text(b"f"), Block(19))
    for count in (1023, 1024, 1025):
        yield one * count, 0, 19
    for more in (b"\1", b"\1\0", b"\0\0"):
        yield one * 1024 + more, 0, 19
    for size in (0, 1, 2, 3, 2**31, 2**32 - 1):
        yield function(text(b"f"), Block(19), size) + one, 0, 19
        yield one + function(text(b"f"), Block(19), size), 0, 19


def cuts():
    for revision in (19, 22):
        file = b"".join(three(revision)[1:])
        for end in range(len(file)):
            yield file[:end], 0, revision


def put(function, part, value):
    """In one of the three functions: its name (0), its block (1) or its code length (2)."""
    return lambda functions, tail: functions[function].__setitem__(part, value)


FAULTS = (
    [put(n, 0, name) for n in (0, 2) for name in (text(b""), text(b"\xff"), text(b"x", 1025), text(b"x", 900))]
    + [put(n, 1, block) for n in (0, 2) for block in (b"", b"\1\1", b"\0\0DBG0", b"\0\0OWN0\1\0\7")]
    + [put(n, 2, size) for n in (0, 1, 2) for size in (0, 1, 10**6)]
    + [lambda functions, tail, cut=cut: tail.extend(cut) for cut in (b"\1", text(b"x") + b"\0\0")]
)


def faulty(*faults):
    functions = [[text(b"f"), each_form(22).bytes(), None], [text(b"g"), smaller(22).bytes(), None], [text(b"h"), Block(22).bytes(), None]]
    tail = bytearray()
    for fault in faults:
        fault(functions, tail)
    return b"".join(function(*parts) for parts in functions) + bytes(tail), 0, 22


def pairs():
    for fault in FAULTS:
        yield faulty(fault)
    for one, other in itertools.combinations(FAULTS, 2):
        yield faulty(one, other)


def rooms():
    """Each lent table exact, one short and one longer, for the first, the second and the last function; with faults; and none."""
    for order in itertools.permutations(three(22)):
        file = b"".join(order)
        for lengths in itertools.product((0, 1, 2, 3, 4), (0, 1, 2, 3), (0, 1, 4, 5), (0, 2, 3, 4)):
            if (lengths[0] >= 3 and lengths[3] == 3) or lengths[1:] == (2, 4, 3) or lengths[:3] == (3, 2, 4):
                yield file, 0, 22, lengths
    for fault, lengths in itertools.product(FAULTS, ((3, 2, 4, 3), (2, 2, 4, 3), (3, 1, 4, 3), (3, 2, 3, 3), (3, 2, 4, 2), (0, 0, 0, 0))):
        yield *faulty(fault), lengths
    one = function(text(b"f"), Block(19))
    for entries in (1023, 1024, 1025):
        yield one * 1025, 0, 19, (entries, 0, 0, 0)


def inputs():
    for make in (shapes, names, limits, cuts, pairs):
        for file in make():
            yield *file, None
    yield from rooms()
