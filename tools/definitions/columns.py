"""Column files: `rebuilt`, with 75 and 76, and of those that give a section `columns_of` of that. Both are held to the plain lines."""
from terms import listed

CRATE = "evr0_columns"
NAMES = ["zip"]
HEAD = """use mathlib.Core.Path.{◌≡◌, refl}
use mathlib.Core.List.{List, [], ◌∷◌, zip}
use Rattle.local_format.specs.Out.{Out, ok, refuse}
use Rattle.evr0_columns.specs.Columns.{columns_of, rebuilt}
"""


def read(word):
    return listed(b"" if word == "-" else bytes.fromhex(word))


def question(line):
    _, way, file = line.split(" ")
    return f"{way} {read(file)}"


def answer(line):
    first, *rest = line.split(" ")
    return f"ok {read(*rest)}" if first == "ok" else f"refuse {rest[1]} {rest[2]}"
