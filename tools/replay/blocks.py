"""Blocks that the replayed list names one by one: each form, limits, and one or two faults at once.

A block is a value of fields, written by document 01's layout. From revision 20 on a block has OWN0 and a
signature unless it is told otherwise. An input is (bytes, base, revision, lengths of the lent tables or none).
"""
import copy
import itertools
import struct

from sections import CONTROLS, ILL_FORMED, NO_CONTROLS, text, words

BASES = (0, 1000, 2**32 - 3, 2**64 - 40, 2**64 - 3, 2**64 - 2, 2**64 - 1)
TUPLE, FIELD, VARIANT, SEQUENCE = b"\0\5\0", b"\1\6\0\0\0", b"\2\7\0\0\0\1\0", b"\3\x08\0\0\0"
SITE = b"\x09\0\0\0"


def short(n):
    return struct.pack("<H", n)


class Block:
    def __init__(self, revision):
        self.revision = revision
        self.strings, self.symbols, self.paths = [], None, None
        self.signature, self.parameters = (b"SIG0", None) if revision >= 20 else (None, None)
        self.families, self.unowned = b"", False
        self.counts, self.tags, self.order = [None] * 3, [b"DBG0", b"OWN0"], (1, 2)
        self.more, self.end = b"", None

    def bytes(self):
        counts = [len(t or ()) if n is None else n for t, n in zip((self.strings, self.symbols, self.paths), self.counts)]
        symbols = b"" if self.symbols is None else self.tags[0] + short(counts[1])
        symbols += b"".join(words(pc, line) + short(column) for pc, line, column in self.symbols or ())
        signed = self.revision >= 20 and self.paths is None and not self.unowned
        paths = self.tags[1] + short(counts[2]) if signed or self.paths is not None else b""
        paths += b"".join(event + mode + words(root) + short(count) + parts for event, mode, root, count, parts in map(Path.fields, self.paths or ()))
        tables = (b"", symbols, paths)
        parameters = len(self.families) if self.parameters is None else self.parameters
        signature = b"" if self.signature is None else self.signature + short(parameters) + self.families
        out = short(counts[0]) + b"".join(self.strings) + b"".join(tables[n] for n in self.order) + signature + self.more
        return out[: self.end]


class Path:
    """An event's kind with its mode and site, and the components."""

    def __init__(self, event, mode, *components):
        self.event, self.mode, self.components, self.count, self.root = bytes([event]), mode, list(components), None, 9

    def fields(self):
        count = len(self.components) if self.count is None else self.count
        return self.event, self.mode, self.root, count, b"".join(self.components)


def each_form(revision):
    b = Block(revision)
    b.strings = [text(b""), text("k\x85\xe9".encode())]
    b.symbols = [(1, 2, 3), (2**32 - 1, 2**32 - 2, 65535)]
    b.families = b"\1\x0f\7" if revision >= 20 else b""
    late = [SEQUENCE] if revision >= 22 else []
    if revision < 21:
        b.paths = [Path(0, b"", TUPLE, FIELD), Path(1, b"", FIELD, TUPLE)]
    else:
        b.paths = [
            Path(0, b"\0", TUPLE, *late),
            Path(0, b"\1" + SITE, FIELD, *([VARIANT] if late else [])),
            Path(1, b"\0" + SITE, TUPLE, *late),
            Path(1, b"\1" + SITE),
        ]
    return b


def shapes():
    for revision in (0, 19, 20, 21, 22, 23, 65535):
        b = each_form(revision)
        yield b
        for order in ((2, 1), (2,), (1,), (1, 1), (2, 2), (1, 2, 1), (2, 1, 2)):  # OWN0 before DBG0, and twice
            other = copy.deepcopy(b)
            other.order = order
            yield other
        for tag, cut in itertools.product((0, 1), range(4)):
            other = copy.deepcopy(b)
            other.tags[tag] = other.tags[tag][:cut]
            other.symbols = [] if tag == 0 else other.symbols
            other.paths = []
            yield other
        for more in (b"DBG0", b"OWN0", b"SIG0", b"OWN", b"\0"):
            other = copy.deepcopy(b)
            other.more = more
            yield other
        empty = Block(revision)
        yield empty
        empty = Block(revision)
        empty.symbols, empty.paths = [], []
        yield empty
        for kind, mode in itertools.product((0, 1, 2, 7, 255), (b"", b"\0", b"\1", b"\2", b"\xff", b"\0" + SITE, b"\1" + SITE, b"\2" + SITE)):
            one = Block(revision)
            one.paths = [Path(kind, mode, TUPLE)]
            yield one
        for kind, component in itertools.product((0, 1, 7), (TUPLE, FIELD, VARIANT, SEQUENCE, b"\4\0\0\0\0", b"\xff\0\0\0\0")):
            one = Block(revision)
            mode = {0: b"\0", 1: b"\1" + SITE}.get(kind, b"") if revision >= 21 else b""
            one.paths = [Path(kind, mode, component, TUPLE), Path(kind, mode)]
            yield one


def signatures():
    for revision in (19, 20, 21, 22, 65535):
        for families in (b"", b"\1", bytes(range(1, 16)), b"\0", b"\x10", b"\xff", b"\1\0", b"\x0f\x10", b"S"):
            b = each_form(revision)
            b.signature, b.families = b"SIG0", families
            yield b
            b = copy.deepcopy(b)
            b.unowned, b.paths = True, None
            yield b
        for tag in (None, b"", b"S", b"SI", b"SIG", b"SIG1", b"sIG0"):
            b = each_form(revision)
            b.signature = tag
            yield b
            b = copy.deepcopy(b)
            b.more, b.parameters, b.families = b"", 0, b""
            yield b
        for count in (0, 1, 2, 4, 4095, 4096, 4097, 65535):
            b = each_form(revision)
            b.signature, b.parameters = b"SIG0", count
            yield b
        for count in (4095, 4096, 4097):
            b = each_form(revision)
            b.signature, b.families = b"SIG0", b"\5" * count
            yield b
        whole = each_form(revision)
        for end in range(1, 10):
            b = copy.deepcopy(whole)
            b.end = -end
            yield b


def texts():
    for data in ILL_FORMED + [c.encode("utf-8", "surrogatepass") for c in CONTROLS + NO_CONTROLS]:
        for whole in (data, b"x" + data, data + b"x"):
            b = Block(20)
            b.strings = [text(b"a"), text(whole)]
            yield b
    for length in (1023, 1024, 1025, 65535):
        for there in (length, 3):
            b = Block(20)
            b.strings = [text(b"\xff"[: length == 1025] + b"x" * (there - (length == 1025)), length)]
            yield b


def limits():
    for count in (255, 256, 257, 65535):
        b = Block(20)
        b.strings = [text(b"s")] * min(count, 257)
        b.counts[0] = count
        yield b
        b = copy.deepcopy(b)
        b.strings = []
        yield b
    for count in (8191, 8192, 8193, 65535):
        b = Block(20)
        b.symbols, b.counts[1] = [(1, 2, 3)], count
        yield b
    for symbol in ((0, 0, 0), (2**31, 2**31, 2**15), (2**32 - 1, 2**32 - 1, 65535), (1, 256, 256), (256, 1, 1)):
        b = Block(20)
        b.symbols = [symbol, symbol[::-1][1:] + (7,)]
        yield b
    for count in (1, 2, 65535):
        b = each_form(22)
        b.paths[0].count = count
        yield b
        b = each_form(22)
        b.counts[2] = count
        yield b


def full():
    """As many symbols as there may be."""
    b = Block(20)
    b.symbols = [(n, 2**32 - 1 - n, n) for n in range(8192)]
    yield b


def set_path(at, name, value):
    return lambda b: b.paths and setattr(b.paths[at], name, value)


def component(path, value):
    return lambda b: b.paths and b.paths[path].components.insert(0, value)


FAULTS = (
    [lambda b, n=n: b.counts.__setitem__(0, n) for n in (257, 1, 3)]
    + [lambda b, t=t: b.strings.__setitem__(1, t) for t in (text(b"x", 1025), text(b"\xff"), text(b"x", 900))]
    + [lambda b, n=n: b.counts.__setitem__(1, n) for n in (8193, 3, 1)]
    + [lambda b, n=n: b.counts.__setitem__(2, n) for n in (5, 65535)]
    + [lambda b, t=t: b.tags.__setitem__(t, b"DBG1") for t in (0, 1)]
    + [set_path(at, "event", kind) for at, kind in ((0, b"\7"), (1, b"\1"), (2, b"\0"), (3, b"\2"))]
    + [set_path(at, "mode", mode) for at, mode in ((0, b"\2"), (1, b"\xff" + SITE), (2, b"\2" + SITE), (3, b""))]
    + [set_path(at, "count", n) for at, n in ((0, 9), (3, 1))]
    + [component(at, c) for at in (0, 2, 3) for c in (VARIANT, SEQUENCE, b"\4", b"\xff\0\0\0\0")]
    + [lambda b, r=r: setattr(b, "revision", r) for r in (20, 21)]
    + [lambda b, n=n: setattr(b, "end", -n) for n in (1, 3, 6, 11, 16)]
    + [lambda b: (setattr(b, "paths", None), setattr(b, "unowned", True))]
    + [lambda b, t=t: setattr(b, "signature", t) for t in (None, b"SIG", b"SIG1")]
    + [lambda b, n=n: setattr(b, "parameters", n) for n in (2, 4, 4097)]
    + [lambda b, f=f: setattr(b, "families", f) for f in (b"\0", b"\1\x10")]
)


def pairs():
    for fault in FAULTS:
        b = each_form(22)
        fault(b)
        yield b
    for one, other in itertools.combinations(FAULTS, 2):
        b = each_form(22)
        one(b)
        other(b)
        yield b


def rooms():
    """Each lent table exact, one short or one longer, alone and together, at bases near 2^64 too; with other faults; and none."""
    for revision, base in ((22, 0), (22, 2**64 - 3), (22, 2**64 - 20), (20, 2**64 - 1), (21, 1000)):
        b = each_form(revision)
        exact = (len(b.strings), len(b.symbols), len(b.paths), len(b.families))
        for change in itertools.product((-1, 0, 1), repeat=4):
            if exact[3] == 0 and change[3] < 0:
                continue
            yield b.bytes(), base, revision, tuple(e + c for e, c in zip(exact, change))
    for base, lengths in itertools.product((0, 2**64 - 4), itertools.product((0, 1), (0, 1), (0, 1), (0, 3))):
        b = Block(22)
        yield b.bytes(), base, 22, lengths
        b.symbols, b.paths = [(1, 2, 3)], [Path(0, b"\0")]
        yield b.bytes(), base, 22, lengths
    for fault, lengths in itertools.product(FAULTS, ((1, 2, 4, 3), (2, 1, 4, 3), (2, 2, 3, 3), (2, 2, 4, 2), (2, 2, 4, 3), (0, 0, 0, 0))):
        b = each_form(22)
        fault(b)
        yield b.bytes(), 7, b.revision, lengths


def inputs():
    number = 0
    for make in (shapes, signatures, texts, limits, pairs, full):
        for b in make():
            yield b.bytes(), BASES[number % len(BASES)], b.revision, None
            number += 1
    for base in BASES:
        b = each_form(22)
        for end in (0, 1, 3, 5, 20, 60, None):
            yield b.bytes()[:end], base, 22, None
    yield from rooms()
