"""Sections that the replayed list names one by one: accepted shapes, limits, and one or two faults at once.

A section is a value of fields, written by document 01's layout, or by that of schema 2. An input is (bytes, cursor, lengths of the lent tables or none).
"""
import copy
import itertools
import struct

POS, NEG, JOIN, OP = b"POS-WITNESS-1", b"NEG-WITNESS-1", b"JOIN-SAME-P-1", b"OP-T-ONLY-1"
CONTROLS = ["\0", "\x01", "\x1f", "\x7f", "\x80", "\x85", "\x9f"]
NO_CONTROLS = [" ", "~", "\xa0", "\u2028", "\ud7ff", "\ue000", "\ufeff", "\uffff", "\U00010000", "\U0010ffff"]
ILL_FORMED = [
    bytes.fromhex(text)
    for text in "80 bf c080 c1bf c2 c27f c2c0 e09fbf e0a0 e180c0 eda080 edbfbf efbf f08fbfbf f09080 f180807f f4908080 f48fbf f5808080 ff 01ff".split()
]


def text(data, length=None):
    return struct.pack("<H", len(data) if length is None else length) + data


def words(*numbers):
    return struct.pack(f"<{len(numbers)}I", *(n % 2**32 for n in numbers))


class Section:
    def __init__(self):
        self.tag, self.schema, self.flags, self.epoch = b"EVR0", 1, 0, 9
        self.span = 4  # bytes of a span's start, and of its end
        self.policy, self.issuer = text(b"a"), text(b"b")
        self.propositions, self.proofs, self.witnesses, self.parents = [], [], [], []
        self.counts, self.length, self.more = [None] * 4, None, b""

    def proposition(self, kind, owner=1, scope=2, type_=3):
        self.propositions.append([text(kind), owner, scope, type_])
        return self

    def proof(self, rule, parents=(), proposition=0, authority=7):
        number, first = len(self.proofs), len(self.witnesses)
        witnesses = int(rule in (POS, NEG))
        self.proofs.append(
            dict(
                number=number, proposition=proposition, rule=text(rule), authority=authority, witness=first, witnesses=witnesses,
                parent=len(self.parents), parents=len(parents), operation=int(rule == OP), zeros=bytes(3),
            )
        )
        self.parents.extend(parents)
        if witnesses:
            self.witnesses.append(
                dict(number=first, proposition=proposition, polarity=int(rule == POS), zeros=bytes(3), start=4, end=4 + first)
            )
        return number

    def payload(self):
        out = bytearray(struct.pack("<HH", self.schema, self.flags) + bytes(range(64)) + struct.pack("<H", self.epoch) + self.policy + self.issuer)
        tables = (self.propositions, self.proofs, self.witnesses, self.parents)
        out += words(*(len(t) if n is None else n for t, n in zip(tables, self.counts)))
        for kind, *numbers in self.propositions:
            out += kind + words(*numbers)
        for p in self.proofs:
            out += words(p["number"], p["proposition"]) + p["rule"]
            out += words(*(p[name] for name in ("authority", "witness", "witnesses", "parent", "parents")))
            out += bytes([p["operation"]]) + p["zeros"]
        for w in self.witnesses:
            out += words(w["number"], w["proposition"]) + bytes([w["polarity"]]) + w["zeros"] + bytes(range(32))
            out += b"".join((w[name] % 256**self.span).to_bytes(self.span, "little") for name in ("start", "end")) + bytes(range(32, 64))
        return bytes(out + words(*self.parents) + self.more)

    def bytes(self):
        payload = self.payload()
        return self.tag + words(len(payload) if self.length is None else self.length) + payload


def wide(section):
    """The section in schema 2."""
    s = copy.deepcopy(section)
    s.schema, s.span = 2, 8
    return s


def with_propositions(*kinds):
    s = Section()
    for kind in kinds:
        s.proposition(kind)
    return s


# ---- Accepted shapes


def grown(*steps):
    """Proofs of one ruling: a rule alone, or a rule with its parents."""
    s = with_propositions(b"k")
    for rule, *parents in steps:
        s.proof(rule, parents)
    return s


def shapes():
    yield Section()
    yield with_propositions(b"k", b"l")
    for one, other in itertools.product((POS, NEG), repeat=2):
        yield grown((one,), (other,), (JOIN, 0, 1))
        yield grown((one,), (other,), (JOIN, 0, 1), (OP, 2), (JOIN, 0, 3), (JOIN, 3, 4), (OP, 5), (OP, 6))
    yield grown((POS,), (OP, 0), (NEG,), (JOIN, 1, 2))  # the first parent deeper
    yield grown((POS,), (NEG,), (OP, 1), (JOIN, 0, 2))  # the second deeper
    yield grown((POS,), (OP, 0), (OP, 1), (JOIN, 0, 2), (JOIN, 2, 3), (JOIN, 1, 4))
    yield grown((NEG,), (OP, 0), (OP, 0), (JOIN, 1, 2))
    three = [(POS,), (NEG,), (POS,), (NEG,), (JOIN, 0, 1), (JOIN, 2, 3), (JOIN, 1, 2), (JOIN, 4, 5), (JOIN, 5, 6), (JOIN, 7, 8)]
    yield grown(*three)
    yield grown(*three, (OP, 9), (JOIN, 4, 10), (JOIN, 9, 11))
    s = with_propositions(b"k", b"l")  # two propositions and two authorities, by turns
    for proposition, authority in ((0, 7), (1, 7), (0, 2**32 - 1), (1, 0)):
        first = s.proof(POS, (), proposition, authority)
        second = s.proof(NEG, (), proposition, authority)
        s.proof(OP, (s.proof(JOIN, (first, second), proposition, authority),), proposition, authority)
    yield s


def chain(depth, join_at=None, deep_first=True):
    """A witness proof and a proof of each further depth, an OP but for a join at one of them."""
    s = with_propositions(b"k")
    other = None if deep_first else s.proof(NEG)
    last = s.proof(POS)
    for d in range(2, depth + 1):
        if d == join_at:
            pair = (last, s.proof(NEG)) if deep_first else (other, last)
            last = s.proof(JOIN, pair)
        else:
            last = s.proof(OP, (last,))
    return s


def chains():
    for depth, first in itertools.product((255, 256, 257), (True, False)):
        yield chain(depth, depth, first)
    yield chain(257, 2)
    yield chain(257, 255, False)
    yield chain(257, 256)
    yield chain(256, 255)


# ---- Faults, one at a time. Two are put into one section; of a field that both change the later change stands.


def base():
    s = with_propositions(b"k", b"l")
    first, second = s.proof(POS), s.proof(NEG)
    s.proof(OP, (s.proof(JOIN, (first, second)),))
    return s


def put(name, value):
    return lambda s: setattr(s, name, value)


def count(index, value):
    return lambda s: s.counts.__setitem__(index, value)


def field(table, at, name, value):
    return lambda s: getattr(s, table)[at].__setitem__(name, value)


def cell(at, value):
    return lambda s: s.parents.__setitem__(at, value)


def more(table, item):
    return lambda s: getattr(s, table).append(item)


UNOWNED = dict(number=2, proposition=0, polarity=1, zeros=bytes(3), start=0, end=0)
HEAD = [
    put("tag", b"EVR1"),
    put("length", 0),
    put("length", 2**22 + 1),
    put("length", 2**22),
    put("schema", 3),
    put("flags", 1),
    put("policy", text(b"")),
    put("policy", text(b"a", 4097)),
    put("policy", text(b"\x01\xff")),
    put("policy", text(b"\x01")),
    put("issuer", text(b"")),
    put("issuer", text(b"\xff")),
    put("issuer", text(b"\x7f")),
    put("issuer", text(b"b", 4096)),
    count(0, 65537),
    count(1, 65537),
    count(2, 262145),
    count(3, 262145),
    count(0, 65536),
    count(3, 262144),
    lambda s: s.counts.__setitem__(0, 60),
]
PROOF = [
    ("number", 9),
    ("number", -1),
    ("proposition", 2),
    ("rule", text(b"")),
    ("rule", text(b"\xff")),
    ("rule", text(b"X")),
    ("witness", 9),
    ("parent", 9),
    ("witnesses", 3),
    ("witnesses", -1),
    ("parents", -1),
    ("operation", 2),
    ("zeros", b"\0\0\1"),
]
RECORDS = (
    [lambda s: s.propositions.reverse(), field("propositions", 1, 0, text(b"k")), field("propositions", 1, 0, text(b"\x80"))]
    + [field("propositions", 0, 0, text(b""))]
    + [field("proofs", at, name, value) for at in (1, 2) for name, value in PROOF]
    + [field("proofs", 0, "zeros", b"\1\0\0"), field("proofs", 3, "proposition", 1), field("proofs", 3, "authority", 8)]
    + [field("proofs", 1, "authority", 8), field("proofs", 0, "proposition", 1), field("proofs", 2, "authority", 8)]
    + [field("proofs", 0, "rule", text(NEG)), field("proofs", 3, "parents", 0), field("proofs", 0, "witnesses", 0)]
    + [
        field("witnesses", at, name, value)
        for at in (0, 1)
        for name, value in (("number", 5), ("proposition", 2), ("polarity", 2), ("end", 3), ("zeros", b"\0\1\0"), ("proposition", 1))
    ]
    + [field("witnesses", 0, "polarity", 0), field("witnesses", 1, "polarity", 1)]
    + [more("parents", 0), more("witnesses", UNOWNED), put("more", b"\0")]
    + [cell(0, 1), cell(0, 2), cell(1, 0), cell(1, 2), cell(0, 2**32 - 1), cell(2, 3), cell(2, 4), cell(2, 2**31)]
)
SOME = [  # of 9 and of each number from 16 to 29 but 27
    field("proofs", 0, "zeros", b"\1\0\0"),
    field("propositions", 1, 0, text(b"k")),
    field("proofs", 1, "number", 9),
    field("proofs", 1, "witness", 9),
    field("proofs", 1, "witnesses", 3),
    field("proofs", 1, "rule", text(b"X")),
    field("proofs", 1, "operation", 2),
    more("witnesses", UNOWNED),
    field("witnesses", 0, "polarity", 2),
    put("more", b"\0"),
    cell(0, 2),
    field("proofs", 1, "authority", 8),
    field("witnesses", 0, "proposition", 1),
    field("witnesses", 0, "polarity", 0),
]


def faulty(start, *faults):
    s = copy.deepcopy(start)
    for fault in faults:
        fault(s)
    return s


def pairs():
    for fault in HEAD + RECORDS:
        yield faulty(base(), fault)
    for one, other in itertools.combinations(HEAD, 2):
        yield faulty(base(), one, other)
    for one, other in itertools.product(HEAD, SOME):
        yield faulty(base(), one, other)
    for one, other in itertools.combinations(RECORDS, 2):
        yield faulty(base(), one, other)


def kin():
    """Every choice of two propositions, or of two authorities, for two witness proofs, their join and an OP on it."""
    for name, values in (("proposition", (0, 1)), ("authority", (7, 8))):
        for choice in itertools.product(values, repeat=4):
            s = base()
            for proof, value in zip(s.proofs, choice):
                proof[name] = value
            for witness, value in zip(s.witnesses, choice):
                witness["proposition"] = value if name == "proposition" else 0
            yield s


def cells():
    """Every two parents of a join, where one proof is of another proposition or authority: 25 and 26 in one cell, or in two, either first."""
    for name, other in (("proposition", 1), ("authority", 8)):
        for one, two, proof in itertools.product(range(4), repeat=3):
            s = faulty(base(), cell(0, one), cell(1, two), field("proofs", proof, name, other))
            if name == "proposition" and proof < 2:
                s.witnesses[proof]["proposition"] = other
            yield s


def deep_pairs():
    """Depth 257, and another fault before it, of it, or after it: in the head, in the records, or of a proof on the chain or beside it."""
    start = with_propositions(b"k", b"l")
    early, first = start.proof(POS), start.proof(NEG)
    before = start.proof(OP, (early,))
    last = start.proof(OP, (first,))
    for _ in range(255):
        last = start.proof(OP, (last,))
    after, late = start.proof(OP, (early,)), start.proof(POS)
    end = start.proof(JOIN, (early, late))
    yield start
    for proof in (before, before + 1, last, after, end):
        at = start.proofs[proof]["parent"]
        yield faulty(start, field("proofs", proof, "authority", 8))
        yield faulty(start, cell(at, proof))
        yield faulty(start, cell(at, 2**32 - 1))
    yield faulty(start, cell(len(start.parents) - 1, early))
    for witness in (0, 1, 2):
        yield faulty(start, field("witnesses", witness, "proposition", 1))
        yield faulty(start, field("witnesses", witness, "polarity", start.witnesses[witness]["polarity"] ^ 1))
    yield faulty(start, field("proofs", end, "operation", 1))
    yield faulty(start, field("proofs", end, "rule", text(JOIN, 4096)))
    for fault in HEAD + SOME:
        yield faulty(start, fault)


# ---- Limits and texts


def sized(kind=None, policy=None, issuer=None, rule=None):
    s = base()
    if kind is not None:
        s.propositions[1][0] = kind
    if policy is not None:
        s.policy = policy
    if issuer is not None:
        s.issuer = issuer
    if rule is not None:
        s.proofs[1]["rule"] = rule
    return s


def texts():
    for name in ("policy", "issuer", "kind", "rule"):
        for length in (4095, 4096, 4097):
            yield sized(**{name: text(b"x" * length)})
        for length in (0, 4096, 4097, 65535):
            yield sized(**{name: text(b"x", length)})
        for data in ILL_FORMED:
            yield sized(**{name: text(b"x" + data)})
            yield sized(**{name: text(data + b"x")})
        for c in CONTROLS + NO_CONTROLS:
            yield sized(**{name: text(b"x" + c.encode("utf-8", "surrogatepass") + b"y")})
    for rule in (POS, NEG, JOIN, OP):
        for other in (rule.lower(), rule.capitalize(), rule[:-1], rule + b"1", rule[:-1] + b"2", rule.replace(b"-", b"_"), b" " + rule):
            yield sized(rule=text(other))
            s = base()
            s.proofs[[POS, NEG, JOIN, OP].index(rule)]["rule"] = text(other)
            yield s
    for kinds in ((b"k", b"k\0"), (b"kk", b"k"), (b"k", b"kk"), (b"K", b"k"), (b"\xc3\xa9", b"z"), (b"z", b"\xc3\xa9"), (b"a" * 9, b"a" * 8 + b"b")):
        yield with_propositions(*kinds)
    for numbers in itertools.product((0, 1, 255, 256, 2**32 - 1), repeat=3):
        yield Section().proposition(b"k", 1, 256, 1).proposition(b"k", *numbers)


def numbers():
    for change in (-1, 0, 1):
        for index, limit in enumerate((65536, 65536, 262144, 262144)):
            s = base()
            s.counts[index] = limit + change
            yield s
        s = base()
        s.length = 2**22 + change
        yield s
        s = base()  # 13: least sizes against the rest
        s.counts = [0, 0, 0, (len(s.payload()) - 92) // 4 + change]
        s.more = bytes(2)
        yield s
        for least in ((15, 0, 0, 0), (0, 35, 0, 0), (0, 0, 84, 0), (0, 0, 0, 4), (15, 35, 84, 4)):
            s = Section()
            s.counts = [int(n > 0) for n in least]
            s.more = bytes(sum(least) + change)
            yield s
        s = grown((POS,))
        s.witnesses[0].update(start=5, end=5 + change)
        yield s
        s = grown((POS,), (OP, 0))
        s.parents[0] = 1 + change
        yield s
    for counts in itertools.product((None, "over"), repeat=4):
        s = base()
        s.counts = [None if c is None else limit + 1 for c, limit in zip(counts, (65536, 65536, 262144, 262144))]
        yield s
    for witness, parent in ((1, 0), (0, 1), (1, 1), (2, 2)):  # 19: sums that wrap in 32 bits
        s = grown((POS,), (NEG,), (JOIN, 0, 1), (OP, 2))
        at = 3 if parent else 1
        if witness:
            s.proofs[at]["witnesses"] = -s.proofs[at]["witness"] + witness - 1
        if parent:
            s.proofs[at]["parents"] = -s.proofs[at]["parent"] + parent - 1
        yield s
    for authority in (0, 1, 2**31, 2**32 - 1):
        s = grown((POS,), (NEG,), (JOIN, 0, 1))
        for p in s.proofs:
            p["authority"] = authority
        yield s
    for operation, polarity in itertools.product((0, 1, 2, 255), repeat=2):
        s = grown((POS,), (OP, 0))
        s.proofs[1]["operation"], s.witnesses[0]["polarity"] = operation, polarity
        yield s
    for witnesses, parents, operation in itertools.product((0, 1, 2), (0, 1, 2, 3), (0, 1)):  # each rule's numbers
        for rule in (POS, NEG, JOIN, OP):
            s = with_propositions(b"k")
            first = [s.proof(POS), s.proof(NEG), s.proof(POS)]
            number = s.proof(rule, first[:parents])
            s.proofs[number].update(witnesses=witnesses, operation=operation)
            del s.witnesses[3:]
            for _ in range(witnesses):
                s.witnesses.append(dict(UNOWNED, number=len(s.witnesses), polarity=int(rule != NEG)))
            yield s


# ---- Schema 2, and every other


def schemas():
    for schema in (0, 3, 4, 255, 256, 257, 258, 512, 513, 2**15 + 2, 2**16 - 1):
        for s in (Section(), base(), wide(base())):
            s.schema = schema
            yield s
    for schema, span in ((1, 8), (2, 4)):  # the layout of the other
        s = base()
        s.schema, s.span = schema, span
        yield s
    for s in (*shapes(), chain(256), chain(257)):
        yield wide(s)
    for fault in HEAD + RECORDS:
        yield faulty(wide(base()), fault)
    ends = (0, 1, 2**31, 2**32 - 1, 2**32, 2**32 + 1, 2**33, 2**63, 2**64 - 1)
    for start, end in itertools.product(ends, repeat=2):
        s = wide(grown((POS,)))
        s.witnesses[0].update(start=start, end=end)
        yield s
    for change in (-1, 0, 1):  # 13: 92 for a witness, and not 84
        for least in ((0, 0, 84, 0), (0, 0, 92, 0), (15, 35, 92, 4), (0, 0, 92 + 84, 0), (0, 0, 92 + 92, 0)):
            s = wide(Section())
            s.counts = [int(least[0] > 0), int(least[1] > 0), (least[2] + 91) // 92, int(least[3] > 0)]
            s.more = bytes(sum(least) + change)
            yield s


def payloads():
    """Payloads of a schema and a part of the flags; and each cut of a witness, where the kind is so long that 13 does not apply."""
    for schema in (1, 2, 3, 258, 513):
        for length in (1, 2, 3, 4):
            yield b"EVR0" + words(length) + struct.pack("<HH", schema, 0)[:length], 0, None
    for s in (grown((POS,)), wide(grown((POS,)))):
        s.propositions[0][0] = text(b"k" * 100)
        data = s.bytes()
        for end in range(len(data) - 76 - 2 * s.span, len(data)):
            yield data[:4] + words(end - 8) + data[8:end], 0, None


# ---- The frame, and the lent tables


def framed():
    """Sections that start inside a file, that bytes follow, and cursors that are far away."""
    data = base().bytes()
    for front in (1, 7, 300):
        yield bytes(front) + data + b"\xff" * 9, front, None
        yield bytes(front) + data[:-1], front, None
        yield bytes(front) + faulty(base(), cell(0, 2)).bytes(), front, None
        yield bytes(front) + data, front + 1, None
    for cursor in (len(data), len(data) + 1, 2**32, 2**63, 2**64 - 8, 2**64 - 1):
        yield data, cursor, None
    for end in range(9):
        yield data[:end], 0, None


def rooms():
    """Each lent table exact, one short or one longer, alone and together; with other faults; and none."""
    three = with_propositions(b"k", b"l", b"m")
    one, other = three.proof(POS), three.proof(NEG)
    three.proof(JOIN, (one, other))
    four = base()
    for s in (four, three, Section(), with_propositions(b"k"), chain(40)):
        exact = (len(s.propositions), len(s.proofs), len(s.proofs))
        for change in itertools.product((-1, 0, 1), repeat=3):
            lengths = tuple(e + c for e, c in zip(exact, change))
            if min(lengths) >= 0:
                yield s.bytes(), 0, lengths
    for fault in HEAD + RECORDS:
        for lengths in ((1, 4, 4), (2, 3, 4), (2, 4, 3), (2, 4, 4), (0, 0, 0)):
            if fault in HEAD or lengths in ((2, 3, 4), (2, 4, 4)):
                yield faulty(base(), fault).bytes(), 0, lengths
    for lengths in ((1, 4, 4), (2, 3, 4), (2, 4, 3), (2, 4, 4), (3, 5, 6)):
        yield wide(base()).bytes(), 0, lengths


def inputs():
    for make in (shapes, chains, pairs, kin, cells, deep_pairs, texts, numbers, schemas):
        for s in make():
            yield s.bytes(), 0, None
    yield from payloads()
    yield from framed()
    yield from rooms()
