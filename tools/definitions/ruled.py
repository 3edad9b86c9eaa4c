"""Sections by the rules of a table: `decode_by`, with all that is told of a section; the table's refusal comes before any of the section's."""
import sections
from terms import listed

CRATE = "rule_table"
NAMES = sections.NAMES
HEAD = (
    sections.HEAD.replace("{Kind, invalid, limit}", "{Kind, invalid, limit, added}")
    .replace("{Section, decode_section}", "{Section}")
    .replace("use Rattle.evr0_section.specs.Marks", "use Rattle.rule_table.specs.ByTable.{table, decode_by}\nuse Rattle.evr0_section.specs.Marks")
    .replace("answer : List ℕ → ℕ → Told\nanswer s cursor = told (decode_section room s cursor)", "answer : List ℕ → List ℕ → ℕ → Told\nanswer t s cursor = told (decode_by (table t) room s cursor)")
)
answer = sections.answer


def read(word):
    return listed(b"" if word == "-" else bytes.fromhex(word))


def question(line):
    _, table, file, cursor = line.split(" ")
    return f"answer {read(table)} {read(file)} {cursor}"
