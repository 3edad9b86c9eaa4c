#!/usr/bin/env python3
"""Spells the repository's own definitions and lemmas as the kit spells its own: words in snake case, types and modules in camel case.

usage: tools/respell/respell.py            at the top of the repository, once, after the kit's port.py
       tools/respell/respell.py --map      prints each name with its new spelling and changes nothing

A name in camel case, as sectionOf, becomes section_of; a lemma's dashes, as in of-set, become underscores. A lemma that would then
share a file with a definition of its name gets _lem. Names of the libraries, names that Rattle makes for a function's goals, and names
of src/ stay.
"""
import collections
import os
import re
import sys

NAME = r'[^\s(){}.;,"@«»\[\]|]+'
OTHERS = re.compile(r"^(?:Rattle\.std|Prim|mathlib|borrow|native|lib|logic|antt|seplogic)\b")
OWN = set()
FIXED = {"Is-list": "IsList", "Puts-components": "PutsComponents", "Puts-one": "PutsOne"}


def snake(name):
    if name in FIXED:
        return FIXED[name]
    name = name.replace("getD", "get_or")
    return re.sub(r"(?<=[a-z0-9])[A-Z]|(?<=[A-Z])[A-Z](?=[a-z])", lambda m: "_" + m[0].lower(), name).replace("-", "_")


def files(*endings):
    for folder, dirs, names in os.walk("crates"):
        dirs[:] = sorted(d for d in dirs if d != "out")
        for name in sorted(names):
            if name.endswith(endings):
                yield os.path.join(folder, name)


def bare(text):
    return re.sub(r"--.*", "", text)


def declared():
    """The names that the files of definitions and laws declare: definitions, fields, constructors."""
    found = collections.defaultdict(set)
    for path in files(".antt"):
        if path.endswith(("/Proof.antt", "/Answers.antt", "/Invariants.antt")):
            continue
        with open(path, encoding="utf-8") as f:
            text = bare(f.read())
        for line in text.split("\n"):
            head = re.match(rf"^(?:(?:abbrev|unfoldable|pub|ruleset)\s+)*((?:{NAME}\s+)*{NAME})\s*(?:\{{[^{{}}]*\}}\s*|\([^()]*\)\s*)*:(?=\s|$)", line.strip())
            if head:
                for name in head.group(1).split():
                    found[name].add(path)
            head = re.match(rf"^\s*(?:pub )?(?:data|record) ({NAME})", line)
            if head:
                found[head.group(1)].add(path)
    return found


def from_libraries(text):
    """The names that a file takes from a library."""
    names = set()
    for path, items in re.findall(r"\buse ([^\s;{]+?)\.?\{([^}]*)\}", text):
        if OTHERS.match(path):
            for item in items.split(","):
                names.update(item.split())
    return names


def spellings():
    names = declared()
    OWN.update(names)
    tokens = {}
    for path in files(".antt"):
        with open(path, encoding="utf-8") as f:
            tokens[path] = set(re.findall(NAME, bare(f.read())))
    wanted = {}
    for found in tokens.values():
        for name in found:
            if re.match(r"[a-z]\w*[A-Z]\w*$", name) and snake(name) != name:
                wanted[name] = snake(name)
    for name in names:
        if name in FIXED or re.match(r"[a-z_]", name) and re.search(r"-|[a-z0-9][A-Z]", name) and not re.search(r"[^\w'′-]", name):
            wanted[name] = snake(name)
    # two names that would fall together in a file: the lemma's gets _lem
    for path, found in sorted(tokens.items()):
        met = collections.defaultdict(set)
        for name in found:
            met[wanted.get(name, name)].add(name)
        for new, olds in met.items():
            if len(olds) < 2:
                continue
            for old in sorted(olds):
                if "-" in old and old in wanted:
                    wanted[old] = snake(old) + "_lem"
                elif old == new and old in names and all("/proofs/" in p for p in names[old]):
                    wanted[old] = old + "_lem"
    for path, found in sorted(tokens.items()):
        met = collections.defaultdict(set)
        for name in found:
            met[wanted.get(name, name)].add(name)
        for new, olds in met.items():
            if len(olds) > 1:
                print(f"together: {path}: {new}: {' '.join(sorted(olds))}", file=sys.stderr)
    return wanted


def turn_antt(text, wanted):
    kept = from_libraries(text)
    turned = {a: b for a, b in wanted.items() if a not in kept}
    word = re.compile(NAME)

    def line(row):
        at = row.find("--")
        while at > 0 and not row[at - 1].isspace():
            at = row.find("--", at + 2)
        code, said = (row, "") if at < 0 else (row[:at], row[at:])
        code = word.sub(lambda m: turned.get(m[0], m[0]), code)
        return code + turn_prose(said, wanted)

    return "\n".join(line(row) for row in text.split("\n"))


def turn_prose(text, wanted):
    """Names between backquotes, and names in camel case."""

    def spelled(m):
        name = m[0]
        if not re.search(r"-|[a-z0-9][A-Z]", name):
            return name
        new = snake(name)
        return wanted.get(name) or (wanted.get(new, new) if new in OWN else name)

    text = re.sub(r"`([^`\n]*)`", lambda m: "`" + re.sub(r"[A-Za-z_][\w'′]*(?:-[\w'′]+)*", spelled, m[1]) + "`", text)
    return re.sub(r"(?<![\w/.-])[a-z]\w*[a-z0-9][A-Z]\w*(?![\w/-])", spelled, text)


def turn_source(text, wanted):
    """Camel case stands in clauses alone."""
    out = []
    for row in text.split("\n"):
        if row.lstrip().startswith("//"):
            out.append(turn_prose(row, wanted))
            continue
        row = re.sub(r"(?<![\w\"'-])[a-z]\w*[a-z0-9][A-Z]\w*(?![\w-])", lambda m: wanted.get(m[0], m[0]), row)
        if row.startswith("ghost use"):
            row = re.sub(NAME, lambda m: wanted.get(m[0], m[0]), row)
        out.append(row)
    return "\n".join(out)


def write(path, turn, wanted):
    with open(path, encoding="utf-8") as f:
        text = f.read()
    new = turn(text, wanted)
    if new != text:
        with open(path, "w", encoding="utf-8") as f:
            f.write(new)


def main():
    wanted = spellings()
    if "--map" in sys.argv:
        for old, new in sorted(wanted.items()):
            print(f"{old}\t{new}")
        return
    for path in list(files(".antt")):
        write(path, turn_antt, wanted)
    for path in list(files(".rt")):
        write(path, turn_source, wanted)
    for path in list(files(".edit")):
        write(path, turn_source if "file: src/" in open(path, encoding="utf-8").read() else turn_antt, wanted)
    for folder, dirs, names in os.walk("docs"):
        for name in sorted(names):
            if name.endswith(".md") and name not in ("demands.md", "01-scope.md", "02-change-requests.md", "PORT.md"):
                write(os.path.join(folder, name), turn_prose, wanted)
    write("README.md", turn_prose, wanted)


if __name__ == "__main__":
    main()
