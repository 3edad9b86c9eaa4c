"""Sections: `decode_section`, with the cursor, the schema, the starts of propositions and proofs, the depths, the spans of the witnesses, and `marks_of`,
which the Rust does not have. Those of schema 2 are held to the model."""
from terms import listed, numbers, refused

CRATE = "evr0_section"
NAMES = ["start_of", "span_start_of", "span_end_of", "told", "room", "answer"]
HEAD = """use Prim.Native.Nat.{ℕ}
use mathlib.Core.Path.{◌≡◌, refl}
use mathlib.Core.List.{List, [], ◌∷◌, map}
use Rattle.local_format.specs.Out.{Out, ok, refused}
use Rattle.local_format.specs.Refusal.{Kind, invalid, limit}
use Rattle.evr0_section.specs.Head.{Room}
use Rattle.evr0_section.specs.Rows.{Entry}
use Rattle.evr0_section.specs.Section.{Section, decode_section}
use Rattle.evr0_section.specs.Witness.{WitnessRecord}
use Rattle.evr0_section.specs.Marks.{marks_of}

pub data Told : Type 0 where
  accepted : ℕ → ℕ → List ℕ → List ℕ → List ℕ → List ℕ → List ℕ → List ℕ → Told
  turned_back : Kind → ℕ → ℕ → Told

start_of : {A : Type 0} → Entry A → ℕ
start_of e = e.start

span_start_of : Entry WitnessRecord → ℕ
span_start_of e = e.item.span_start

span_end_of : Entry WitnessRecord → ℕ
span_end_of e = e.item.span_end

told : Out Section → Told
told (ok s) =
    accepted s.cursor s.tables.head.schema (map start_of s.tables.propositions.entries) (map start_of s.tables.proofs.entries) s.depths
    (marks_of s) (map span_start_of s.tables.witnesses.entries) (map span_end_of s.tables.witnesses.entries)
told (refused r) = turned_back r.kind r.number r.offset

room : Room
room = record { propositions = 65536; proofs = 65536; depths = 65536 }

answer : List ℕ → ℕ → Told
answer s cursor = told (decode_section room s cursor)
"""


def question(line):
    _, code, cursor = line.split(" ")
    return f"answer {listed(bytes.fromhex(code))} {cursor}"


def answer(line):
    if line.startswith("refused"):
        return refused(line)
    fields = dict(item.split("=", 1) for item in line.split(" ")[1:])
    tables = " ".join(numbers(fields[name]) for name in ["propositions", "proofs", "depths", "marks", "starts", "ends"])
    return f"accepted {fields['cursor']} {fields['schema']} {tables}"
