#!/usr/bin/env python3
"""Plants each misreading of faults.txt in a copy of the oracle, and sees that the replayed list has an input that shows it.

    tools/replay/find_faults.py RUST_FOLDER
"""
import os
import subprocess
import sys

sys.dont_write_bytecode = True
import make_list
from make_list import BLOCK, END, PAGE, SECTION, TOP, u16, u32


def block_end(page, at):
    """After an accepted block's layout and tables."""
    strings, _, symbols, _, paths, families = [u32(page, at + 16 + 4 * n) for n in range(6)]
    return at + 48 + 4 * (strings + paths + 3 * symbols) + families


def entries(page):
    """The entries of a page: bytes, the line that asks the oracle, and the lengths that are lent."""
    at = 0
    while at < len(page) and page[at : at + 1] != END:
        decoder, start = page[at], at + 23
        rooms = tuple(u16(page, at + 11 + 2 * n) for n in range(4))
        origin = int.from_bytes(page[at + 3 : at + 11], "little")
        told = start + u32(page, at + 19)
        data = page[start:told].hex()
        if decoder == SECTION:
            rooms = rooms[:3]
            counts = [u32(page, told + 24 + 4 * n) for n in range(2)]
            end = told + (40 + 72 + 4 * (counts[0] + 2 * counts[1]) if u32(page, told) == 0 else 16 + 72)
            line = f"section {data} {origin}"
        elif decoder == BLOCK:
            end = block_end(page, told) if u32(page, told) == 0 else told + 16
            line = f"block {data} {origin} {u16(page, at + 1)}"
        else:
            count, end = u32(page, told + 4), told + 16
            if u32(page, told) == 0 and count > 0:
                end = block_end(page, told + 16 + 4 * count + 4)
            line = f"functions {data} {origin} {u16(page, at + 1)}"
        yield page[at:end], line, rooms
        at = end


def otherwise(answer, rooms, stored):
    """Whether an answer is another than the stored one, as one is that a fault gives and that the bytes cannot have."""
    try:
        return make_list.entry(answer, rooms) != stored
    except IndexError:
        return True


def differ(listed):
    """How many of the entries the oracle answers otherwise: all, where a fault makes it break off."""
    source = dict(os.environ, SEMANTIC_SRC=os.path.realpath(sys.argv[1]))
    build = ["cargo", "build", "--offline", "--release", "--quiet", "--package", "sample"]
    subprocess.run(build, cwd=os.path.join(TOP, "tools"), env=source, check=True)
    try:
        answers = make_list.sample("given", "".join(line + "\n" for _, line, _ in listed))
    except subprocess.CalledProcessError:
        return len(listed)
    assert len(answers) == len(listed)
    return sum(otherwise(answer, rooms, stored) for answer, (stored, _, rooms) in zip(answers, listed))


def main():
    if len(sys.argv) != 2:
        sys.exit(__doc__)
    os.environ.update(CARGO_TARGET_DIR=os.path.join(TOP, "target", "replay-faults"), CARGO_PROFILE_RELEASE_OPT_LEVEL="0")  # quick to build
    with open(os.path.join(TOP, "crates", "test_replay", "stdin"), "rb") as source:
        data = source.read()
    listed = [e for at in range(0, len(data), PAGE) for e in entries(data[at : at + PAGE])]
    assert differ(listed) == 0, "the list is not the oracle's"
    missed = 0
    with open(os.path.join(TOP, "tools", "replay", "faults.txt")) as faults:
        for fault in (line.rstrip("\n") for line in faults if not line.startswith("#")):
            os.environ["ORACLE_FAULT"] = fault
            found = differ(listed)
            missed += found == 0
            print(f"{found or 'NONE'} of {len(listed)}: {fault}", flush=True)
    print(f"{missed} missed")
    sys.exit(missed > 0)


if __name__ == "__main__":
    main()
