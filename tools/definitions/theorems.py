"""Writes a crate of theorems, each by computation: the definition gives the Rust's answer to one input.

usage: theorems.py section|wide|block|functions|ruled|compared|columns REPOSITORY < the lines of tools/sample"""
import glob
import os
import re
import sys

import blocks
import columns
import compared
import functions
import ruled
import sections


def unfoldable(repository, crate):
    """The definitions of a crate that a computation unfolds, as `use` lines and names."""
    uses, names = [], []
    for path in sorted(glob.glob(f"{repository}/crates/{crate}/specs/*.antt")):
        module = os.path.basename(path)[: -len(".antt")]
        found = re.findall(r"^ *unfoldable pub (\S+) :", open(path).read(), flags=re.M)
        if found:
            uses.append(f"use Rattle.{crate}.specs.{module} as {crate}_{module}")
            names += [f"{crate}_{module}.{name}" for name in found]
    return uses, names


def with_dependencies(repository, crate):
    """A crate and what it depends on, as crates.txt has it."""
    lines = open(f"{repository}/crates.txt").read().splitlines()
    (words,) = [line.split(":")[1] for line in lines if line.startswith(f"{crate}:")]
    return [*words.split(), crate]


def main():
    kind, repository = sys.argv[1:]
    form = {"section": sections, "wide": sections, "block": blocks, "functions": functions, "ruled": ruled, "compared": compared, "columns": columns}[kind]
    uses, names = [], list(form.NAMES)
    crates = with_dependencies(repository, form.CRATE)
    for crate in crates:
        more = unfoldable(repository, crate)
        uses += more[0]
        names += more[1]
    text = uses + [form.HEAD]
    cases = [line.rstrip("\n").split("\t") for line in sys.stdin]
    for number, (question, answer) in enumerate(cases):
        text.append(f"case{number} : {form.question(question)} ≡ {form.answer(answer)}")
        text.append(f"unfolding {' '.join(names)}")
        text.append(f"case{number} = refl\n")
    folder_of_cases = f"{repository}/crates/{kind}_cases"
    for folder, name, content in [
        ("src", "lib.rt", "// Theorems only.\n#![tactic(auto)]\n"),
        ("proofs", "Lib.antt", "pub mod Cases\n"),
        ("proofs", "Cases.antt", "\n".join(text)),
    ]:
        os.makedirs(f"{folder_of_cases}/{folder}", exist_ok=True)
        with open(f"{folder_of_cases}/{folder}/{name}", "w") as out:
            out.write(content)
    with open(f"{repository}/crates.txt", "a") as out:
        out.write(f"{kind}_cases: {' '.join(crates)}\n")
    print(f"{len(cases)} of {kind}")


main()
