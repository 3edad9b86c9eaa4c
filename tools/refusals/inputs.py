"""The inputs of docs/REFUSALS.md, as the tables there have them.

An input is a row's cell `WORDS` with what is asked after it (rev N, room A B C, string N, from N, claim N, set N, held N `WORDS`, as rules, by rounds, against
`WORDS`, as columns, by column, ..); docs/REFUSALS.md says how words are read.
"""
import dataclasses
import os
import re

TOP = os.path.dirname(os.path.dirname(os.path.dirname(os.path.abspath(__file__))))
DOCUMENT = os.path.join(TOP, "docs", "REFUSALS.md")
KINDS = ("Invalid", "Limit", "Strings", "Debug", "Ownership", "Added", "Truncated", "Name", "Signature")
BLOCK = (256, 8192, 65535, 4096)  # lent tables that are never too short
SECTION = (65536, 65536, 65536)
LONGEST = {"section": SECTION, "pair": SECTION, "rounds": SECTION, "block": BLOCK, "functions": (1024, *BLOCK), "locks": BLOCK, "rules": ()}
LONGEST["taken"] = LONGEST["written"] = (*SECTION, 1 << 22)  # with an output
OF_LOCKS = ("claim", "lock", "part")


@dataclasses.dataclass
class Case:
    line: int  # of the document
    form: str  # "section", "rounds", "pair" (at cursor 0), "block" (at base 0), "functions" (from cursor 0), "locks" (a block that is claimed, or a register), "rules",
    # "taken" (columns) or "written" (a section that is written by column)
    data: bytes
    second: bytes  # the section that a pair's first is compared with, or None
    rules: bytes  # the table of rules that a section comes with, or None
    revision: int  # of a block or file
    rooms: tuple  # lengths of the lent tables: propositions, proofs, depths and, by column, output; or functions, of a file, strings, symbols, paths, families
    marks: int  # length of the table of marks where it differs from that of depths, or None
    authorised: int  # length of the table of authorised where it differs from that of propositions, or None
    verdicts: int  # length of the table of verdicts, or None
    asked: tuple  # (what, number) of a record by number or of a claim, or None
    set: int  # each byte of the source set of the claim
    held: list  # (owner, block) of each claim before, under the set of zeros
    number: int
    kind: str
    offset: int

    def by_rules(self):
        """Whether it is a table of rules, or comes with one."""
        return self.form == "rules" or self.rules is not None

    def by_column(self):
        return self.form in ("taken", "written")

    def is_beside(self):
        """Whether neither the Rust nor the replayed list has its call."""
        return self.form in ("pair", "rounds") or self.by_column()


def replayed(case):
    """The lengths that an entry of the replayed list has: for a file those of functions, strings, paths and families."""
    return (*case.rooms[:2], *case.rooms[3:]) if case.form == "functions" else case.rooms


def number(n):
    return n.to_bytes(4, "little")


def turns(text, names):
    """[N: WORDS] stands for the words with 1, .., N for i and 0, .., N - 1 for j."""
    count, words = re.fullmatch(r"\[(\d+): (.*)\]", text).groups()
    return b"".join(read(words, {**names, "i": number(i), "j": number(i - 1)}) for i in range(1, int(count) + 1))


def read(text, names):
    parts = re.findall(r"\[[^\]]*\]|\S+", text)
    if parts == ["-"]:
        return b""
    out = b""
    for place, part in enumerate(parts):
        if part == "#":
            rest = read(" ".join(parts[place + 1 :]), names)
            return out + number(len(rest)) + rest
        if part.startswith("["):
            out += turns(part, names)
            continue
        word, _, times = part.partition("*")
        if word in names:
            piece = names[word]
        elif word.startswith("="):
            piece = number(int(word[1:]))
        else:
            piece = bytes.fromhex(word)
        out += piece * int(times or 1)
    return out


def cells(line):
    return [cell.strip() for cell in line.strip().strip("|").split("|")]


def asked_of(text):
    revision, rooms, asked, source, verdicts = 19, None, None, 0, None
    for what, numbers in re.findall(r"([a-z]+)((?: \d+)+)", text):
        numbers = [int(n) for n in numbers.split()]
        if what == "from":
            continue
        if what == "rev":
            (revision,) = numbers
        elif what == "set":
            (source,) = numbers
        elif what == "verdicts":
            (verdicts,) = numbers
        elif what == "room":
            rooms = tuple(numbers)
        else:
            asked = (what, *numbers)
    return revision, rooms, asked, source, verdicts


def cases():
    found, kinds, names, header = [], {}, {}, []
    with open(DOCUMENT, encoding="utf-8") as document:
        lines = list(enumerate(document, 1))
    for at, line in lines:
        if not line.startswith("|"):
            header = []
            continue
        row = cells(line)
        if not header:
            header = row
            continue
        if set(line.strip()) <= set("|-"):
            continue
        row = dict(zip(header, row, strict=True))
        if "Word" in row:
            for word, text in re.findall(r"`(\S+)` = `([^`]*)`", row["Word"]):
                names[word] = read(text, names)
        if "Kind" in row:
            kinds[int(row["Number"])] = row["Kind"]
        if not row.get("Input", "none").startswith("`"):
            continue
        text, rest = re.fullmatch(r"`([^`]*)`(.*)", row["Input"]).groups()
        rules, given = None, re.fullmatch(r" as rules of `([^`]*)`(.*)", rest)
        if given:
            rules = read(text, names)
            text, rest = given.groups()
        second, against = None, re.fullmatch(r" against `([^`]*)`(.*)", rest)
        if against:
            second, rest = read(against[1], names), against[2]
        held = [(int(owner), read(block, names)) for owner, block in re.findall(r"held (\d+) `([^`]*)`", rest)]
        revision, rooms, asked, source, verdicts = asked_of(re.sub(r"held \d+ `[^`]*`", "", rest))
        refused, offset = (int(n) for n in row["Answer"].split(" at "))
        form = "section" if given or refused <= 29 or text.startswith("EVR0") else "functions" if "from 0" in rest else "block"
        if asked and asked[0] in OF_LOCKS:
            form = "locks"
        if rest == " as rules":
            form = "rules"
        if against:
            form = "pair"
        if "by rounds" in rest:
            form = "rounds"
        for words, of in ((" as columns", "taken"), (" by column", "written")):
            if rest.startswith(words):
                form = of
        rooms, marks, authorised = rooms or LONGEST[form], None, None
        if form == "section" and len(rooms) > 4:
            *rooms, authorised = rooms
        if form == "section" and len(rooms) > 3:
            *rooms, marks = rooms
        data = read(text, names)
        lent = tuple(rooms), marks, authorised, verdicts
        found.append(Case(at, form, data, second, rules, revision, *lent, asked, source, held, refused, kinds[refused], offset))
    return found
