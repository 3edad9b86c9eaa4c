"""Files of functions: `decode_functions`, with each function's head."""
from terms import listed, refused

CRATE = "semcode_functions"
NAMES = ["told_function", "told", "rooms", "answer"]
HEAD = """use Prim.Native.Nat.{ℕ}
use mathlib.Core.Path.{◌≡◌, refl}
use mathlib.Core.List.{List, [], ◌∷◌, map}
use Rattle.local_format.specs.Out.{Out, ok, refused}
use Rattle.local_format.specs.Refusal.{Kind, limit, strings, debug, ownership, truncated, name, signature}
use Rattle.semcode_records.specs.Records.{Entry}
use Rattle.semcode_decode.specs.Block.{Rooms}
use Rattle.semcode_functions.specs.Function.{Function, decode_functions}

-- start, the name's place, length and characters, the block's place and length
pub data ToldFunction : Type 0 where
  function : ℕ → ℕ → ℕ → ℕ → ℕ → ℕ → ToldFunction

pub data Told : Type 0 where
  accepted : List ToldFunction → Told
  turned_back : Kind → ℕ → ℕ → Told

told_function : Entry Function → ToldFunction
told_function f =
    function f.start f.value.head.name.start f.value.head.name.len f.value.head.name.chars f.value.head.code
    f.value.head.size

told : Out (List (Entry Function)) → Told
told (ok fs) = accepted (map told_function fs)
told (refused r) = turned_back r.kind r.number r.offset

rooms : Rooms
rooms = record { strings = 256; symbols = 8192; paths = 65535; families = 4096 }

answer : List ℕ → ℕ → ℕ → Told
answer s cursor revision = told (decode_functions revision rooms 1024 s cursor)
"""


def question(line):
    _, file, cursor, revision = line.split(" ")
    return f"answer {listed(bytes.fromhex(file))} {cursor} {revision}"


def function(text):
    start, name, chars, code, size = text.split(":")
    return f"function {start} {int(start) + 2} {len(name) // 2} {chars} {code} {size}"


def answer(line):
    if line.startswith("refused"):
        return refused(line)
    found = line.split("functions=", 1)[1].split(" ", 1)[0]
    return f"accepted {listed(function(item) for item in found.split(',') if item)}"
