//! What `--help` prints.

/// All commands.
pub const ALL: &str = "\
falgnust: evidence sections and function tables of SemCode, shown by proved functions

  falgnust section FILE        what an evidence section holds, as tables
  falgnust compare FILE FILE   two compilers' sections of the same sources, proposition by proposition
  falgnust rounds FILE         the depths of a section's proofs, by a method that fits on a card
  falgnust page FILE           a section as one HTML page, with a picture of each derivation
  falgnust columns WAY FILE    a section written by column, or taken back from columns
  falgnust functions FILE      the functions of a file, with their tables
  falgnust block FILE          the tables of one function's block
  falgnust locks SCRIPT        claims and releases, one after the other
  falgnust explain NUMBER      what a refusal means, where its offset points, its smallest input

FILE may be - for standard input. A number is decimal, or hexadecimal after 0x.
falgnust COMMAND --help has each command's options and examples.

Status: 0 accepted; 1 refused; 2 where the words after falgnust are no command, or reading or writing failed.
A refusal goes to standard error, with what it means and the bytes around its offset, the place in brackets;
with --json it goes to standard output. Colours are on a terminal alone; NO_COLOR=1 takes them away.

Examples
  falgnust section examples/joined.evr0
  falgnust section examples/refused.evr0
  falgnust compare examples/first.evr0 examples/second.evr0
  falgnust page examples/joined.evr0 > page.html
  falgnust functions examples/functions.semcode --revision 22
  falgnust explain 25
";

/// One command's.
pub fn of(command: &str) -> Option<&'static str> {
    Some(match command {
        "section" => {
            "\
falgnust section FILE [--at N] [--rules FILE] [--proposition N | --proof N] [--json]

What the evidence section at a place holds: schema and namespaces; propositions, each authorised or not; proofs with
rule, depth and mark, and the way down to a witness; witnesses with span and digests.

  --at N           the section's place in the file; 0 where it is not given
  --rules FILE     a table of rules in the place of the four; where it is refused, no section is looked at
  --proposition N  that proposition alone, with its proofs
  --proof N        that proof alone: its proposition, each move of the way down, the witness at its end
  --json           for scripts, on standard output, a refusal too; a number of a span above 2^53 - 1 is text there

A proof's mark says how the walks down from it end, by any parents until none is left: positive, where each ends at a
positive witness; negative, where each ends at a negative one; both, otherwise. A proposition is authorised where some
proof of it has operation 1 and a positive mark. The way down always takes the first parent.

Each answer is asked of the proved functions, a way down for every proof anew; on a section of tens of thousands the
part done is shown on a terminal.

Examples
  falgnust section examples/joined.evr0
  falgnust section examples/joined.evr0 --proof 3
  falgnust section examples/joined.evr0 --json
  falgnust section examples/diocese.evr0 --rules examples/diocese.rules
  cat examples/refused.evr0 | falgnust section -
"
        }
        "rounds" => {
            "\
falgnust rounds FILE [--at N] [--rules FILE] [--json]

The depths of a section's proofs by rounds. In each round, counted from 1, the proofs are marked all of whose parents were
marked in earlier rounds; a proof's depth is the round in which it is marked.

  --at N        the section's place in the file; 0 where it is not given
  --rules FILE  a table of rules in the place of the four; where it is refused, no section is looked at
  --json        for scripts, on standard output, a refusal too

It refuses as falgnust section would without 27 to 29, then with 27 where a proof is unmarked after 256 rounds. Witnesses
are not asked, so a section that is refused with 28 or 29 has its rounds.

Examples
  falgnust rounds examples/joined.evr0
  falgnust rounds examples/joined.evr0 --json
  falgnust rounds examples/diocese.evr0 --rules examples/diocese.rules
"
        }
        "compare" => {
            "\
falgnust compare FIRST SECOND [--at N] [--second-at N] [--rules FILE] [--json]

Two sections of one source set held against each other. Propositions are matched on kind, owner, scope and type, and are
listed in their order: agreed, where they are authorised in both or in neither; contradicted; first only; second only.

  --at N         the first section's place in its file; 0 where it is not given
  --second-at N  the second section's place in its file; 0 where it is not given
  --rules FILE   a table of rules in the place of the four, for both
  --json         for scripts, on standard output, a refusal too, with whose it is

The first section's refusal goes first, then the second's, then 74, that the source sets differ. The status is 0 wherever
both are compared, whatever they say. One of the two files may be -.

Examples
  falgnust compare examples/first.evr0 examples/second.evr0
  falgnust compare examples/first.evr0 examples/second.evr0 --json
  falgnust compare examples/diocese.evr0 examples/diocese.evr0 --rules examples/diocese.rules
"
        }
        "page" => {
            "\
falgnust page FILE [--at N] [--rules FILE] > page.html

The section at a place as one HTML page, for a browser: the propositions with search, in pages; a proposition's proofs;
of one proof at a time a picture of its derivation, down to the witnesses. The page holds all that it needs, and loads
nothing.

  --at N        the section's place in the file; 0 where it is not given
  --rules FILE  a table of rules in the place of the four

Example
  falgnust page examples/joined.evr0 > page.html
"
        }
        "columns" => {
            "\
falgnust columns write FILE [--at N] [--rules FILE] > columns
falgnust columns take FILE [--rules FILE] > section

The section at a place written by column: its head, then all kinds, all owners, and on, with numbers in groups of seven
bits; or the section that a column file is of, byte for byte. docs/COLUMNS.md has the layout.

  --at N        the section's place in the file; 0 where it is not given; columns start where their file does
  --rules FILE  a table of rules in the place of the four

A refusal of columns, 75 or 76, has a place in them. Any other is of the section that was rebuilt from them, and so is
its place; no file has that section.

Examples
  falgnust columns write examples/joined.evr0 > columns
  falgnust columns take examples/accepted.columns > section
"
        }
        "functions" => {
            "\
falgnust functions FILE --revision N [--at N] [--function N] [--json]

All functions from a place to the end of the file: name, places, strings, debug symbols, the paths that each borrows or
writes, and from revision 20 on its parameters.

  --revision N  of the file: one more than the number in its magic, so 22 behind SEMCOD21
  --at N        where the first function stands; 8, behind the magic, where it is not given
  --function N  that function alone
  --json        for scripts, on standard output, a refusal too

Examples
  falgnust functions examples/functions.semcode --revision 22
  falgnust functions examples/functions.semcode --revision 22 --function 0 --json
"
        }
        "block" => {
            "\
falgnust block FILE --revision N [--json]

The tables of a file that is one function's block: strings, debug symbols, the paths that are borrowed or written, and from
revision 20 on the parameters.

  --revision N  of the file that the block was in: one more than the number in its magic
  --json        for scripts, on standard output, a refusal too

Example
  falgnust block examples/tables.block --revision 22
"
        }
        "locks" => {
            "\
falgnust locks SCRIPT [--json]

Claims and releases of locks, one after the other, from a register in which nothing is held: whether each claim is
accepted, and what is held at the end. The status is 1 where some claim was refused; a refused claim changes nothing.

  --json  for scripts

A script has a line for each step; empty lines and those that start with # are passed over.
  revision N                 the files after it are of that revision: one more than the number in their magic
  source DIGITS              the files after it are of that source set, 64 hexadecimal digits; zeros where none is named
  claim OWNER FUNCTION FILE  an owner, a number, claims all paths of a function, by its number in the file
  release OWNER              drops all that an owner holds

Example
  falgnust locks examples/locks.txt
"
        }
        "explain" => {
            "\
falgnust explain NUMBER [--bytes]

What a refusal's number means, what its offset is the place of, and the smallest input that shows it, in the words of
docs/REFUSALS.md and as hexadecimal; and where another fault is there too, why this one is named.

  --bytes  that input alone, as it is, for a file or another command

Examples
  falgnust explain 25
  falgnust explain 25 --bytes | falgnust section -
"
        }
        _ => return None,
    })
}
