"""Blocks: `decode_block`, with the tags, the places, and every string's start, symbol, path and family."""
import re

from terms import listed, numbers, refused

CRATE = "semcode_decode"
NAMES = ["start_of", "value_of", "told_symbol", "told_path", "told", "rooms", "answer"]
HEAD = """use Prim.Native.Nat.{ℕ}
use mathlib.Core.Path.{◌≡◌, refl}
use mathlib.Core.Bool.{Bool, true, false}
use mathlib.Core.List.{List, [], ◌∷◌, map}
use Rattle.local_format.specs.Out.{Out, ok, refused}
use Rattle.local_format.specs.Refusal.{Kind, limit, strings, debug, ownership, signature}
use Rattle.semcode_records.specs.Records.{Entry}
use Rattle.semcode_records.specs.Symbol.{Symbol}
use Rattle.semcode_records.specs.Component.{Component, tuple_index, field_symbol, variant, sequence_index}
use Rattle.semcode_records.specs.Path.{Path, Event, borrow, write}
use Rattle.semcode_records.specs.Path.{no_activation, frame_entry, borrow_store_site, no_execution, write_store_site, write_record_site}
use Rattle.semcode_decode.specs.Block.{Block, Rooms, decode_block}

pub data ToldSymbol : Type 0 where
  symbol : ℕ → ℕ → ℕ → ToldSymbol

pub data ToldPath : Type 0 where
  path : ℕ → Event → ℕ → List Component → ToldPath

pub data Told : Type 0 where
  accepted : Bool → Bool → Bool → ℕ → ℕ → ℕ → List ℕ → List ToldSymbol → List ToldPath → List ℕ → Told
  turned_back : Kind → ℕ → ℕ → Told

start_of : {A : Type 0} → Entry A → ℕ
start_of e = e.start

value_of : {A : Type 0} → Entry A → A
value_of e = e.value

told_symbol : Entry Symbol → ToldSymbol
told_symbol e = symbol e.value.pc e.value.line e.value.column

told_path : Entry Path → ToldPath
told_path e = path e.start e.value.event e.value.root (map value_of e.value.components.entries)

told : Out Block → Told
told (ok b) =
    accepted b.debug.found b.ownership.found b.signature.found b.strings.end b.signature.table.start b.signature.table.end
    (map start_of b.strings.entries) (map told_symbol b.debug.table.entries) (map told_path b.ownership.table.entries)
    (map value_of b.signature.table.entries)
told (refused r) = turned_back r.kind r.number r.offset

rooms : Rooms
rooms = record { strings = 256; symbols = 8192; paths = 65535; families = 4096 }

answer : List ℕ → ℕ → ℕ → Told
answer s base revision = told (decode_block base revision rooms s)
"""

EVENTS = {
    "borrow": "borrow no_activation",
    "borrow-frame-entry": "borrow frame_entry",
    "borrow-store-site": "borrow (borrow_store_site {})",
    "write": "write no_execution",
    "write-store-site": "write (write_store_site {})",
    "write-record-site": "write (write_record_site {})",
}
COMPONENTS = {"tuple": "tuple_index", "field": "field_symbol", "variant": "variant", "sequence": "sequence_index"}


def question(line):
    _, code, base, revision = line.split(" ")
    return f"answer {listed(bytes.fromhex(code))} {base} {revision}"


def event(text):
    name, site = re.fullmatch(r"(\D*?)(?:-(\d+))?", text).groups()
    return EVENTS[name].format(site)


def component(text):
    name, *values = text.split("-")
    return " ".join([COMPONENTS[name], *values])


def path(text):
    head, components = text.rstrip("]").split("[")
    start, name, root = head.split(":")
    return f"path {start} ({event(name)}) {root} {listed(component(c) for c in components.split())}"


def answer(line):
    if line.startswith("refused"):
        return refused(line)
    fields = dict(re.findall(r"(\w+)=(.*?)(?= \w+=|$)", line))
    strings = [item.split(":")[0] for item in fields["strings"].split(",") if item]
    symbols = ["symbol " + item.replace(":", " ") for item in fields["symbols"].split(",") if item]
    paths = [path(item) for item in re.findall(r"[^,\[]+\[[^\]]*\]", fields["paths"])]
    tags = f"{fields['debug']} {fields['ownership']} {fields['signature']}"
    places = f"{fields['strings_end']} {fields['families_start']} {fields['instructions']}"
    return f"accepted {tags} {places} {listed(strings)} {listed(symbols)} {listed(paths)} {numbers(fields['families'])}"
