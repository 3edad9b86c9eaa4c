"""Pairs of sections: `compare_by` by the four, with the bytes of the list and the totals, or whose refusal it is; from the plain lines."""
from terms import listed, numbers, refused

CRATE = "evr0_compare"
NAMES = ["told", "room", "input", "answer"]
HEAD = """use Prim.Native.Nat.{ℕ}
use mathlib.Core.Path.{◌≡◌, refl}
use mathlib.Core.List.{List, [], ◌∷◌, map}
use Rattle.local_format.specs.Refusal.{Kind, invalid, limit, added}
use Rattle.evr0_section.specs.Head.{Room}
use Rattle.rule_table.specs.ByTable.{four}
use Rattle.evr0_compare.specs.Compare.{Input, Comparison, Answer, rules_refused, first_refused, second_refused, pair_refused, held}
use Rattle.evr0_compare.specs.Compare.{agreed, contradicted, first_only, second_only, codes, total, compare_by}

pub data Told : Type 0 where
  accepted : List ℕ → List ℕ → Told
  rules first second pair : Kind → ℕ → ℕ → Told

told : Answer Comparison → Told
told (held c) =
    accepted (codes c.list) (total agreed c.list ∷ total contradicted c.list ∷ total first_only c.list ∷ total second_only c.list ∷ [])
told (rules_refused r) = rules r.kind r.number r.offset
told (first_refused r) = first r.kind r.number r.offset
told (second_refused r) = second r.kind r.number r.offset
told (pair_refused r) = pair r.kind r.number r.offset

room : Room
room = record { propositions = 65536; proofs = 65536; depths = 65536 }

input : List ℕ → ℕ → Input
input s cursor = record { room = room; bytes = s; cursor = cursor }

answer : List ℕ → ℕ → List ℕ → ℕ → ℕ → Told
answer a at b place entries = told (compare_by four (input a at) (input b place) entries)
"""


def question(line):
    _, first, at, second, place, room = line.split(" ")
    return f"answer {listed(bytes.fromhex(first))} {at} {listed(bytes.fromhex(second))} {place} {room}"


def answer(line):
    whose, *rest = line.split(" ")
    if whose != "ok":
        return refused(" ".join(rest)).replace("turned_back", whose)
    fields = dict(item.split("=", 1) for item in rest)
    return f"accepted {numbers(fields['verdicts'])} {numbers(fields['totals'])}"
