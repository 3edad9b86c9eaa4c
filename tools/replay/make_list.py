#!/usr/bin/env python3
"""Writes the list that the program `test_replay` replays: inputs with their answers.

    tools/replay/make_list.py RUST_FOLDER

RUST_FOLDER is a checkout of skulmakov-oss/Semantic at commit a38c216cab. The inputs are those of sections.py, blocks.py and functions.py beside this file,
those of docs/REFUSALS.md, and from tools/sample so many small ones for each refusal number and condition, accepted ones, and every cut and
one change of each byte of a few. The answers are the Rust's, but for sections of schema 2, whose answers are those of the model in tools/oracle,
and for 61, which neither has: short_section, short_block and short_functions say where that is due. The seed is fixed, so that a second run writes the same list.

Writes crates/test_replay/stdin and crates/test_replay/stdout. An entry of the list is what crates/test_replay/src/asked.rt reads, and then
the answer in the order in which crates/test_replay/src/section.rt, block.rt and functions.rt hold it against theirs: numbers of 4 bytes (offsets and
cursors of 8), digests as they are, and the entries of the lent tables, which are lent a few entries longer than they need to be where the
input does not say. The list is one of pages of 262,144 bytes, each of whole entries, filled up with bytes 255;
crates/test_replay/src/main.rt reads as many pages as PAGES.
"""
import os
import re
import struct
import subprocess
import sys

sys.dont_write_bytecode = True
TOP = os.path.dirname(os.path.dirname(os.path.dirname(os.path.abspath(__file__))))
sys.path.append(os.path.join(TOP, "tools", "refusals"))
import blocks
import functions
import inputs
import sections

SAMPLES = ("section 1 5 480 120", "wide 1 3 480 40", "block 1 12 300 120", "functions 1 3 400 30", "fixed")
KINDS = ("Invalid", "Limit", "Strings", "Debug", "Ownership", "Added", "Truncated", "Name", "Signature")
SECTION, BLOCK, FUNCTIONS = 0, 1, 2
PAGE, PAGES, END = 262144, 24, b"\xff"
LARGEST = 2**64 - 1


def sample(words, asked=None):
    command = ["cargo", "run", "--offline", "--release", "--quiet", "--package", "sample", "--", *words.split()]
    source = dict(os.environ, SEMANTIC_SRC=os.path.realpath(sys.argv[1]))
    tools = os.path.join(TOP, "tools")
    return subprocess.run(command, cwd=tools, env=source, check=True, input=asked, stdout=subprocess.PIPE, text=True).stdout.splitlines()


def numbers(*values):
    return struct.pack(f"<{len(values)}I", *values)


def listed(text):
    return [int(item) for item in text.split(",") if item]


def u16(data, at):
    return int.from_bytes(data[at : at + 2], "little")


def u32(data, at):
    return int.from_bytes(data[at : at + 4], "little")


# ---- 61: a lent table is shorter than its count. It comes after the other checks of the counts and before any record is read.


def refusal_of(answer):
    return int(answer.split(" ")[2]) if answer.startswith("refused") else 0


def short_section(data, cursor, rooms, answer):
    if 1 <= refusal_of(answer) <= 15 and not records_begun(data, cursor, answer):
        return answer
    after = counts_end(data, cursor)
    propositions, proofs = u32(data, after - 16), u32(data, after - 12)
    if rooms[0] < propositions or rooms[1] < proofs or rooms[2] < proofs:
        return f"refused Added 61 {after}"
    return answer


def counts_end(data, cursor):
    """After schema, flags, digests, epoch, two texts and four counts."""
    at = cursor + 8 + 70
    at += 2 + u16(data, at)
    return at + 2 + u16(data, at) + 16


def records_begun(data, cursor, answer):
    """Whether a refusal from 5 to 9 is one of a record: the counts are then passed, and its offset stands after them."""
    number, offset = refusal_of(answer), int(answer.split(" ")[3])
    return 5 <= number <= 9 and offset >= counts_end(data, cursor)


def short_block(data, base, revision, rooms, answer):
    """Strings, symbols, paths and families in turn: what is refused before a count is asked stays."""
    refused = refusal_of(answer)

    def short(place):
        return f"refused Added 61 {min(base + place, LARGEST)}"

    if refused in (30, 31):
        return answer
    at, strings = 2, u16(data, 0)
    if rooms[0] < strings:
        return short(at)
    if 30 <= refused <= 34:
        return answer
    for _ in range(strings):
        at += 2 + u16(data, at)
    if data[at : at + 4] == b"DBG0":
        if refused in (35, 36):
            return answer
        symbols = u16(data, at + 4)
        at += 6
        if rooms[1] < symbols:
            return short(at)
        at += 10 * symbols
    if refused in (37, 38, 39, 40):
        return answer
    if data[at : at + 4] == b"OWN0" and rooms[2] < u16(data, at + 4):
        return short(at + 6)
    if 30 <= refused <= 71 or revision < 20:
        return answer
    at = paths_end(data, at, revision) + 6
    if at > len(data) or u16(data, at - 2) > 4096:
        return answer
    return short(at) if rooms[3] < u16(data, at - 2) else answer


def paths_end(data, at, revision):
    """After the paths of a block that has OWN0 at a place, all of which read."""
    count, at = u16(data, at + 4), at + 6
    for _ in range(count):
        kind = data[at]
        at += 1
        if revision >= 21:
            at += 1 if (kind, data[at]) == (0, 0) else 5
        components, at = u16(data, at + 4), at + 6
        for _ in range(components):
            at += {0: 3, 2: 7}.get(data[at], 5)
    return at


def short_functions(data, cursor, revision, rooms, answer):
    """Of functions, strings, paths and families; there is room for all symbols. The refusal of the head or block that it stands in goes by turns with 61."""
    refused, offset = refusal_of(answer), int(answer.split(" ")[3]) if answer.startswith("refused") else 0
    at = cursor
    for number in range(1024):
        if at >= len(data):
            return answer
        if number >= rooms[0]:
            return f"refused Added 61 {at}"
        name = at + 2 + u16(data, at)
        code = name + 4
        if refused in (63, 64) and offset in (at, at + 2, name, code):
            return answer
        end = code + u32(data, name)
        block = answer if refused not in (0, 63, 64, 65) and code <= offset <= end else "ok"
        told = short_block(data[code:end], code, revision, (rooms[1], 8192, *rooms[2:]), block)
        if told != "ok":
            return told
        at = end
    return answer


# ---- Entries of the list


def asked(decoder, revision, origin, rooms, data):
    return struct.pack("<BHQHHHHI", decoder, revision, origin, *(*rooms, 0)[:4], len(data)) + data


def refused(answer):
    _, kind, number, offset = answer.split(" ")
    return numbers(int(number), KINDS.index(kind)) + struct.pack("<Q", int(offset))


def section(data, cursor, rooms, answer):
    if rooms:
        answer = short_section(data, cursor, rooms, answer)
    else:  # a proposition takes 15 bytes at least and a proof 35, and larger counts are refused before the lent lengths are asked
        more = len(data) % 3
        rooms = (len(data) // 15 + 1, len(data) // 35 + 1 + more, len(data) // 35 + 3 - more)
    if refusal_of(answer):
        told = refused(answer) + struct.pack("<Q", cursor) + bytes(64)
    else:
        f = dict(item.split("=", 1) for item in answer.split(" ")[1:])
        places = [int(f[name]) for name in ("epoch", "policy", "issuer", "policy_chars", "issuer_chars")]
        told = numbers(0, *places, *listed(f["counts"]))
        told += struct.pack("<Q", int(f["cursor"])) + bytes.fromhex(f["source_set"]) + bytes.fromhex(f["compiler_contract"])
        told += numbers(*listed(f["propositions"]), *listed(f["proofs"]), *listed(f["depths"]))
    return asked(SECTION, 0, cursor, rooms, data) + told


def path_count(data):
    """The count of paths of a block whose strings and symbols read."""
    at = 2
    for _ in range(u16(data, 0)):
        at += 2 + u16(data, at)
    if data[at : at + 4] == b"DBG0":
        at += 6 + 10 * u16(data, at + 4)
    return u16(data, at + 4) if data[at : at + 4] == b"OWN0" else 0


def layout(f):
    """Number 0, both tags, counts and places of a block."""
    strings, symbols, paths = listed(f["counts"])
    told = numbers(0, f["debug"] == "true", f["ownership"] == "true", f["signature"] == "true", strings, int(f["strings_end"]))
    told += numbers(symbols, int(f["symbols_start"]), paths, len(listed(f["families"])), int(f["families_start"]))
    return told + numbers(int(f["instructions"]))


def tables(f):
    """The starts of strings and paths, the families, and the symbols."""
    told = numbers(*(int(s.split(":")[0]) for s in f["strings"].split(",") if s))
    told += numbers(*(int(p.split(":")[0]) for p in re.findall(r"[^,\[]+\[[^\]]*\]", f["paths"])))
    told += bytes(listed(f["families"]))
    return told + numbers(*(int(n) for symbol in f["symbols"].split(",") if symbol for n in symbol.split(":")))


def fields(answer):
    return dict(re.findall(r"(\w+)=(.*?)(?= \w+=|$)", answer.strip()))


def block(data, base, revision, rooms, answer):
    if rooms:
        answer = short_block(data, base, revision, rooms, answer)
    else:
        more, number = len(data) % 3, refusal_of(answer)
        paths = path_count(data) if number == 0 or number > 40 else 0
        rooms = (256 + more, 8192, min(paths + more, 65535), 4096)
    if refusal_of(answer):
        told = refused(answer)
    else:
        f = fields(answer)
        told = layout(f) + tables(f)
    return asked(BLOCK, revision, base, rooms, data) + told


def most_paths(data, cursor):
    """The largest count of paths that a block of the file has, as far as heads are whole."""
    at, most = cursor, 0
    while at + 2 <= len(data) and at + 6 + u16(data, at) <= len(data):
        code = at + 6 + u16(data, at)
        at = code + u32(data, code - 4)
        most = max(most, path_count(data[code:at]))
    return most


def all_functions(data, cursor, revision, rooms, answer):
    if rooms is None:
        more = len(data) % 3
        rooms = (min(max(0, len(data) - cursor) // 9 + 1, 1024), 256 + more, min(most_paths(data, cursor) + more, 65535), 4096)
    answer = short_functions(data, cursor, revision, rooms, answer)
    if refusal_of(answer):
        told = refused(answer)
    else:
        f = fields(answer)
        heads = [[int(head.split(":")[n]) for n in (0, 3)] for head in f["functions"].split(",") if head]
        told = numbers(0, len(heads)) + struct.pack("<Q", int(f["cursor"])) + numbers(*(start for start, _ in heads))
        if heads:
            told += numbers(heads[-1][1]) + layout(f) + tables(f)
    return asked(FUNCTIONS, revision, cursor, rooms, data) + told


def entry(line, rooms=None):
    question, answer = line.split("\t")
    kind, text, *origin = question.split(" ")
    data, origin = bytes.fromhex(text), [int(n) for n in origin]
    return {"section": section, "block": block, "functions": all_functions}[kind](data, *origin, rooms, answer)


# ---- The inputs


def of_refusals():
    """The inputs of docs/REFUSALS.md that no record is asked of by its number, and no marks, that are no pair, no rounds and no columns and bring no table of rules."""
    for case in inputs.cases():
        if not case.asked and case.marks is None and not case.by_rules() and not case.is_beside():
            rooms = None if case.rooms == inputs.LONGEST[case.form] else inputs.replayed(case)
            yield (case.form, case.data, 0, *((case.revision,) if case.form != "section" else ()), rooms)


def given():
    """Each input once, with the lengths that it is lent."""
    found = [(form, *i) for form, of in (("section", sections), ("block", blocks), ("functions", functions)) for i in of.inputs()]
    found = list(dict.fromkeys(found + list(of_refusals())))
    lines = [" ".join([form, data.hex(), *map(str, origin)]) for form, data, *origin, _ in found]
    answers = sample("given", "\n".join(lines) + "\n")
    assert len(answers) == len(found)
    return [entry(line, rooms) for line, (*_, rooms) in zip(answers, found)]


def paged(entries):
    """Long entries first, so that pages are filled; then those that fit."""
    pages = [b""]
    for e in sorted(entries, key=len, reverse=True):
        assert len(e) <= PAGE
        place = next((n for n, page in enumerate(pages) if len(page) + len(e) <= PAGE), None)
        if place is None:
            pages.append(e)
        else:
            pages[place] += e
    assert len(pages) <= PAGES
    return b"".join(page.ljust(PAGE, END) for page in pages[:-1]) + pages[-1]


def main():
    if len(sys.argv) != 2:
        sys.exit(__doc__)
    entries = given() + [entry(line) for words in SAMPLES for line in sample(words)]
    entries = list(dict.fromkeys(entries))
    folder = os.path.join(TOP, "crates", "test_replay")
    with open(os.path.join(folder, "stdin"), "wb") as out:
        out.write(paged(entries))
    with open(os.path.join(folder, "stdout"), "w") as out:
        out.write(f"{len(entries)} answers agree\n")


if __name__ == "__main__":
    main()
