//! Two sections compared: against the Rust's decoder and plain lines by two ordered maps, in the Rust's columns; and, in the rows whose names begin with
//! "against", against the port's decoder with marks on both sections, and of every proposition authorised against that decoder on one.

use crate::rows::{Calls, Plan, Row, calls, plan};
use crate::sections::{Make, SHAPES};
use falgnust::calls::{self as port, Lent, SectionTables};
use inputs::compared::ops_over_propositions;
use inputs::random::Random;
use inputs::shapes;
use oracle::compare::{compare, totals};
use oracle::section::section;
use std::cell::RefCell;
use std::hint::black_box;

const LONG_KINDS: Make = |r| shapes::many_propositions(r, 65_536, 49);
const OPS: Make = |r| ops_over_propositions(r, 35_600, 65_536, 11_000);

/// Each section is compared with itself in other bytes, so that every kind is compared to its end.
pub fn rows() -> Vec<Plan> {
    let mut all: Vec<(String, Make)> = vec![("specimen 4".to_string(), shapes::two_proofs)];
    all.extend(SHAPES.map(|(name, make)| (format!("40,000 proofs, {name}"), make)));
    all.push(("65,536 propositions of equal long kinds".into(), LONG_KINDS));
    all.push(("35,600 OPs over 65,536 propositions".into(), OPS));
    let mut rows = Vec::new();
    for (name, make) in &all {
        let (name, make) = (format!("sections compared, {name}, tables fitted"), *make);
        rows.push(plan(&name, move |name| plain(name, make)));
    }
    for (name, make) in &all {
        let name = format!("against both decoded with marks, compared, {name}");
        rows.push(against(&name, *make, Both::decoded, Both::compared));
    }
    for (name, make) in &all {
        let name = format!("against the decoder with marks, authorised of all, {name}");
        rows.push(against(&name, *make, Both::first, Both::authorised));
    }
    rows
}

fn file(make: Make) -> Vec<u8> {
    make(&mut Random::new(1)).bytes()
}

/// How many are agreed: by the Rust and plain lines, and by the port.
fn plain(name: String, make: Make) -> Row {
    let file = file(make);
    let both = Both::new(&file);
    Row {
        name,
        bytes: 2 * file.len(),
        port: both.calls(Both::compared),
        rust: calls(move || {
            let [first, second] = [&file, &file].map(|file| {
                let answer = section(black_box(file), 0);
                answer.map(|(_, decoded)| decoded)
            });
            let list = compare(&first, &second, 0, usize::MAX).expect("one section twice");
            totals(&list)[0] as u64
        }),
    }
}

/// The port twice: the second is what the row is about.
fn against(name: &str, make: Make, first: Call, second: Call) -> Plan {
    plan(name, move |name| {
        let file = file(make);
        Row {
            name,
            bytes: file.len(),
            rust: Both::new(&file).calls(first),
            port: Both::new(&file).calls(second),
        }
    })
}

/// A call of the port: how many propositions there are, or are agreed.
type Call = fn(&mut Both) -> u64;

/// A section and its tables, as long as its counts.
struct One {
    bytes: Vec<u8>,
    tables: [Vec<u64>; 3],
    marks: Vec<u8>,
    authorised: Vec<u8>,
}

/// A section twice, and a table of verdicts.
struct Both {
    first: One,
    second: One,
    verdicts: Vec<u8>,
}

impl One {
    fn new(file: &[u8]) -> Self {
        let (section, _) = section(file, 0).expect("an accepted section");
        let [propositions, proofs, ..] = section.head.counts;
        One {
            bytes: file.to_vec(),
            tables: [propositions, proofs, proofs].map(|room| vec![0; room]),
            marks: vec![0; proofs],
            authorised: vec![0; propositions],
        }
    }

    fn lent(&mut self) -> Lent<'_> {
        let [propositions, proofs, depths] = &mut self.tables;
        Lent {
            bytes: black_box(&self.bytes),
            cursor: 0,
            tables: SectionTables {
                propositions,
                proofs,
                depths,
            },
            marks: &mut self.marks,
            authorised: &mut self.authorised,
        }
    }

    fn decoded(&mut self) -> u64 {
        let lent = self.lent();
        port::decode_evr0_section(lent.bytes, 0, lent.tables, lent.marks).propositions as u64
    }
}

impl Both {
    fn new(file: &[u8]) -> Self {
        let one = One::new(file);
        Both {
            verdicts: vec![0; one.authorised.len()],
            first: one,
            second: One::new(file),
        }
    }

    fn calls(self, call: Call) -> Calls {
        let both = RefCell::new(self);
        calls(move || call(&mut both.borrow_mut()))
    }

    fn decoded(&mut self) -> u64 {
        self.first.decoded().min(self.second.decoded())
    }

    fn first(&mut self) -> u64 {
        self.first.decoded()
    }

    fn authorised(&mut self) -> u64 {
        port::authorised_table(self.first.lent()).propositions as u64
    }

    fn compared(&mut self) -> u64 {
        let (first, second) = (self.first.lent(), self.second.lent());
        port::compare_sections(first, second, &mut self.verdicts).agreed as u64
    }
}
