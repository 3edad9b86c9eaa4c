//! Two sections compared, and which propositions of one are authorised: through the crate and in lent tables.

use crate::written::{Proof, framed, op, section, witnessed};
use falgnust::calls::{self, Lent, SectionTables};
use falgnust::evr0::{
    self, CompareError, RuleTable, Verdict, authorised, authorised_table, compare_sections,
};
use falgnust::raw;
use std::collections::BTreeMap;

const FIRST: &[u8] = include_bytes!("../../../../examples/first.evr0");
const SECOND: &[u8] = include_bytes!("../../../../examples/second.evr0");

/// Kind, owner, scope and type.
type Key = (&'static str, u32, u32, u32);

/// Whether a proposition is authorised, and how it is not.
#[derive(Clone, Copy, PartialEq)]
enum Of {
    Nothing,
    Positive,
    Negative,
}

/// A section of this source set with these propositions, each with an operation on a witness of its own, or with no proof.
fn written(source_set: u8, propositions: &[(Key, Of)]) -> Vec<u8> {
    let mut payload = vec![1, 0, 0, 0];
    payload.extend([source_set; 32]);
    payload.extend([0; 32 + 2]);
    payload.extend(b"\x01\x00a\x01\x00b");
    let number = |payload: &mut Vec<u8>, number: u32| payload.extend(number.to_le_bytes());
    let proved: Vec<(u32, Of)> = (0..)
        .zip(propositions)
        .map(|(index, (_, of))| (index, *of))
        .filter(|(_, of)| *of != Of::Nothing)
        .collect();
    let witnesses = proved.len() as u32;
    for count in [
        propositions.len() as u32,
        2 * witnesses,
        witnesses,
        witnesses,
    ] {
        number(&mut payload, count);
    }
    let text = |payload: &mut Vec<u8>, text: &str| {
        payload.extend((text.len() as u16).to_le_bytes());
        payload.extend(text.as_bytes());
    };
    for ((kind, owner, scope, obligation), _) in propositions {
        text(&mut payload, kind);
        for field in [*owner, *scope, *obligation] {
            number(&mut payload, field);
        }
    }
    for (place, (index, of)) in (0..).zip(&proved) {
        let rule = match of {
            Of::Positive => "POS-WITNESS-1",
            _ => "NEG-WITNESS-1",
        };
        let on_a_witness = [2 * place, *index, 7, place, 1, place, 0];
        let on_that = [2 * place + 1, *index, 7, place + 1, 0, place, 1];
        for (rule, operation, fields) in [(rule, 0, on_a_witness), ("OP-T-ONLY-1", 1, on_that)] {
            for (at, field) in fields.into_iter().enumerate() {
                if at == 2 {
                    text(&mut payload, rule);
                }
                number(&mut payload, field);
            }
            payload.extend([operation, 0, 0, 0]);
        }
    }
    for (place, (index, of)) in (0..).zip(&proved) {
        number(&mut payload, place);
        number(&mut payload, *index);
        payload.extend([u8::from(*of == Of::Positive), 0, 0, 0]);
        payload.extend([0; 32 + 8 + 32]);
    }
    for place in 0..witnesses {
        number(&mut payload, 2 * place);
    }
    framed(&payload)
}

/// Some of a pool of propositions that differ in each field, the last field of two alone.
const POOL: [Key; 7] = [
    ("a", 1, 1, 1),
    ("a", 1, 1, 2),
    ("a", 1, 2, 0),
    ("a", 2, 0, 0),
    ("aa", 0, 0, 0),
    ("b", 0, 0, 0),
    ("\u{e5}", 0, 0, 0),
];

const SIDES: [Of; 3] = [Of::Nothing, Of::Positive, Of::Negative];

/// Of each of the pool, none or one of the three: `number` in base four.
fn some(number: usize) -> Vec<(Key, Of)> {
    let digit = |place: usize| number / 4usize.pow(place as u32) % 4;
    let chosen = (0..POOL.len()).filter(|place| digit(*place) > 0);
    chosen
        .map(|place| (POOL[place], SIDES[digit(place) - 1]))
        .collect()
}

/// By two ordered maps.
fn due(first: &[(Key, Of)], second: &[(Key, Of)]) -> Vec<(Key, Verdict)> {
    let map = |of: &[(Key, Of)]| -> BTreeMap<Key, bool> {
        of.iter()
            .map(|(key, of)| (*key, *of == Of::Positive))
            .collect()
    };
    let (first, second) = (map(first), map(second));
    let mut keys: Vec<Key> = first.keys().chain(second.keys()).copied().collect();
    keys.sort();
    keys.dedup();
    let verdict = |key: &Key| match (first.get(key), second.get(key)) {
        (Some(a), Some(b)) if a == b => Verdict::Agreed,
        (Some(_), Some(_)) => Verdict::Contradicted,
        (Some(_), None) => Verdict::FirstOnly,
        _ => Verdict::SecondOnly,
    };
    keys.iter().map(|key| (*key, verdict(key))).collect()
}

#[test]
fn sections_of_one_pool() {
    let numbers: Vec<usize> = (0..40).map(|n| n * 2017 % 4usize.pow(7)).collect();
    for a in &numbers {
        for b in &numbers {
            let (first, second) = (some(*a), some(*b));
            let (ours, theirs) = (written(7, &first), written(7, &second));
            let found = compare_sections(&ours, 0, &theirs, 0).unwrap();
            let told: Vec<_> = found
                .entries
                .iter()
                .map(|entry| {
                    let p = &entry.proposition;
                    let numbers = (p.ast_owner_id, p.semantic_scope_id, p.type_obligation_id);
                    (p.kind.as_str(), numbers, entry.verdict)
                })
                .collect();
            let due: Vec<_> = due(&first, &second)
                .into_iter()
                .map(|((kind, a, b, c), verdict)| (kind, (a, b, c), verdict))
                .collect();
            assert_eq!(told, due);
            let count = |verdict| due.iter().filter(|entry| entry.2 == verdict).count();
            assert_eq!(found.agreed, count(Verdict::Agreed));
            assert_eq!(found.contradicted, count(Verdict::Contradicted));
            assert_eq!(found.first_only, count(Verdict::FirstOnly));
            assert_eq!(found.second_only, count(Verdict::SecondOnly));
            let both = found.agreed + found.contradicted;
            assert_eq!(both + found.first_only, first.len());
            assert_eq!(both + found.second_only, second.len());

            let four = RuleTable::load(RuleTable::FOUR).unwrap();
            assert_eq!(four.compare_sections(&ours, 0, &theirs, 0), Ok(found));
        }
    }
}

#[test]
fn the_examples() {
    let found = compare_sections(FIRST, 0, SECOND, 0).unwrap();
    let verdicts: Vec<_> = found.entries.iter().map(|entry| entry.verdict).collect();
    assert_eq!(
        verdicts,
        [
            Verdict::Agreed,
            Verdict::Contradicted,
            Verdict::FirstOnly,
            Verdict::SecondOnly,
            Verdict::Agreed,
        ]
    );
}

/// 1,000 propositions on either side, in bytes before and after which others stand.
#[test]
fn many_propositions() {
    let of = |kept: fn(u32) -> bool| -> Vec<(Key, Of)> {
        let all = (0..1000).filter(|n| kept(*n));
        all.map(|n| (("k", n / 7, n % 7, 0), SIDES[n as usize % 3]))
            .collect()
    };
    let (first, second) = (of(|n| n % 5 != 0), of(|n| n % 4 != 0));
    let mut ours = b"before".to_vec();
    ours.extend(written(7, &first));
    let mut theirs = b"longer before".to_vec();
    theirs.extend(written(7, &second));
    theirs.extend(b"after");
    let found = compare_sections(&ours, 6, &theirs, 13).unwrap();
    assert_eq!((found.agreed, found.contradicted), (600, 0));
    assert_eq!((found.first_only, found.second_only), (200, 150));
    assert_eq!(found.entries.len(), 950);
    for (entry, (key, verdict)) in found.entries.iter().zip(due(&first, &second)) {
        let p = &entry.proposition;
        assert_eq!((p.ast_owner_id, p.semantic_scope_id), (key.1, key.2));
        assert_eq!(entry.verdict, verdict);
    }
}

#[test]
fn no_propositions() {
    let none = written(7, &[]);
    let one = written(7, &[(POOL[0], Of::Positive)]);
    assert!(
        compare_sections(&none, 0, &none, 0)
            .unwrap()
            .entries
            .is_empty()
    );
    assert_eq!(compare_sections(&none, 0, &one, 0).unwrap().second_only, 1);
    assert_eq!(compare_sections(&one, 0, &none, 0).unwrap().first_only, 1);
}

/// One part of bytes with two sections in it.
#[test]
fn both_in_one_file() {
    let mut file = written(7, &[(POOL[0], Of::Positive)]);
    let second = file.len();
    file.extend(written(7, &[(POOL[0], Of::Negative)]));
    let found = compare_sections(&file, 0, &file, second).unwrap();
    assert_eq!(found.contradicted, 1);
}

/// Whose refusal it is.
#[derive(Debug, PartialEq)]
enum Whose {
    First,
    Second,
    Both,
}

fn error(whose: Whose, number: u8, offset: usize, error: CompareError) {
    let found = match &error {
        CompareError::First(_) => Whose::First,
        CompareError::Second(_) => Whose::Second,
        CompareError::SourceSets { .. } => Whose::Both,
    };
    assert_eq!(
        (found, error.number(), error.offset()),
        (whose, Some(number), offset)
    );
}

/// The first's, then the second's, then 74.
#[test]
fn whose_refusal() {
    let whole = written(7, &[(POOL[0], Of::Positive)]);
    let other = written(8, &[(POOL[0], Of::Positive)]);
    let mut schema = whole.clone();
    schema[8] = 9;
    let mut before = b"before".to_vec();
    before.extend(&other);
    let fails = |a: &[u8], b: &[u8]| compare_sections(a, 0, b, 0).unwrap_err();
    error(Whose::First, 10, 10, fails(&schema, b""));
    error(Whose::First, 1, 0, fails(b"", &schema));
    error(Whose::Second, 10, 10, fails(&whole, &schema));
    error(Whose::Second, 10, 10, fails(&other, &schema));
    error(Whose::Both, 74, 12, fails(&whole, &other));
    let found = compare_sections(&whole, 0, &before, 6).unwrap_err();
    assert_eq!(found.to_string(), "source sets differ at 18 of the second");
    error(Whose::Both, 74, 18, found);
    assert_eq!(
        fails(&whole, &schema).to_string(),
        "second section: unsupported EVR0 schema at 10"
    );
    // the last of the 32 bytes, and no byte of the other digest, the epoch or the namespaces
    let mut last = whole.clone();
    last[8 + 4 + 31] ^= 1;
    error(Whose::Both, 74, 12, fails(&last, &whole));
    let mut others = whole.clone();
    others[8 + 4 + 32] ^= 1;
    others[8 + 4 + 64] ^= 1;
    others[8 + 4 + 68] = b'z';
    assert_eq!(compare_sections(&whole, 0, &others, 0).unwrap().agreed, 1);
}

/// The tables of a section: numbers, and bytes.
type Five = ([Vec<u64>; 3], [Vec<u8>; 2]);

/// Eleven tables of these lengths, which hold other bytes before the call.
struct Eleven {
    sections: [Five; 2],
    verdicts: Vec<u8>,
}

impl Eleven {
    fn new(rooms: [[usize; 5]; 2], verdicts: usize) -> Self {
        Eleven {
            sections: rooms.map(|[a, b, c, d, e]| {
                (
                    [a, b, c].map(|room| vec![OLD; room]),
                    [d, e].map(|room| vec![0xA5; room]),
                )
            }),
            verdicts: vec![0xA5; verdicts],
        }
    }

    fn compare(&mut self, files: [&[u8]; 2]) -> raw::Comparison {
        let [first, second] = &mut self.sections;
        let lent = |(tables, bytes), file| lent(tables, bytes, file);
        let (first, second) = (
            lent(as_mut(first), files[0]),
            lent(as_mut(second), files[1]),
        );
        calls::compare_sections(first, second, &mut self.verdicts)
    }

    fn is_zeros(&self) -> bool {
        let zeros = |(tables, bytes): &Five| {
            tables.iter().flatten().all(|entry| *entry == 0)
                && bytes.iter().flatten().all(|entry| *entry == 0)
        };
        self.sections.iter().all(zeros) && self.verdicts.iter().all(|entry| *entry == 0)
    }
}

const OLD: u64 = 0xA5A5_A5A5_A5A5_A5A5;

fn as_mut<A, B>(pair: &mut (A, B)) -> (&mut A, &mut B) {
    (&mut pair.0, &mut pair.1)
}

fn lent<'a>(
    tables: &'a mut [Vec<u64>; 3],
    bytes: &'a mut [Vec<u8>; 2],
    file: &'a [u8],
) -> Lent<'a> {
    let [propositions, proofs, depths] = tables;
    let [marks, authorised] = bytes;
    Lent {
        bytes: file,
        cursor: 0,
        tables: SectionTables {
            propositions,
            proofs,
            depths,
        },
        marks,
        authorised,
    }
}

/// A table of verdicts that is one short, exact and longer, and each other table one short; after a refusal all eleven are zeros.
#[test]
fn lent_tables() {
    let ours = written(7, &[(POOL[0], Of::Positive), (POOL[2], Of::Nothing)]);
    let theirs = written(7, &[(POOL[0], Of::Negative), (POOL[1], Of::Positive)]);
    let exact = [[2, 2, 2, 2, 2], [2, 4, 4, 4, 2]];
    for (room, left) in [(3, vec![2, 4, 3]), (5, vec![2, 4, 3, 0, 0])] {
        let mut tables = Eleven::new(exact, room);
        let answer = tables.compare([&ours, &theirs]);
        let due = raw::Comparison {
            accepted: true,
            contradicted: 1,
            first_only: 1,
            second_only: 1,
            ..Default::default()
        };
        assert_eq!((answer, tables.verdicts), (due, left));
        let [(first, of_first), (second, of_second)] = tables.sections;
        assert_eq!(of_first, [vec![1, 1], vec![1, 0]]);
        assert_eq!(of_second, [vec![2, 2, 1, 1], vec![0, 1]]);
        assert_eq!(first[2], [1, 2]);
        assert_eq!(second[2], [1, 2, 1, 2]);
        assert!(first[0].iter().chain(&second[0]).all(|start| *start != OLD));
    }
    let refused = |whose, number, offset| raw::Comparison {
        whose,
        refusal: raw::Refusal {
            kind: 5,
            number,
            offset,
        },
        ..Default::default()
    };
    for room in [0, 2] {
        let mut tables = Eleven::new(exact, room);
        let answer = tables.compare([&ours, &theirs]);
        assert_eq!(answer, refused(4, 61, 0));
        assert!(tables.is_zeros());
    }
    for of in 0..2 {
        for table in 0..5 {
            let mut rooms = exact;
            rooms[of][table] -= 1;
            let mut tables = Eleven::new(rooms, 2);
            let answer = tables.compare([&ours, &theirs]);
            assert_eq!(answer, refused(2 + of as u8, 61, 8 + 92));
            assert!(tables.is_zeros());
        }
    }
    // 74 before a short table of verdicts
    let other = written(8, &[(POOL[0], Of::Negative), (POOL[1], Of::Positive)]);
    let mut tables = Eleven::new(exact, 0);
    assert_eq!(tables.compare([&ours, &other]), refused(4, 74, 12));
    assert!(tables.is_zeros());
}

/// A table of rules that is refused comes before both sections, and leaves zeros.
#[test]
fn a_refused_table_of_rules() {
    let mut tables = Eleven::new([[3; 5]; 2], 3);
    let [first, second] = &mut tables.sections;
    let (first, second) = (as_mut(first), as_mut(second));
    let answer = calls::compare_sections_by_rules(
        &[],
        lent(first.0, first.1, b"EVR1"),
        lent(second.0, second.1, b""),
        &mut tables.verdicts,
    );
    let due = raw::Comparison {
        whose: 1,
        refusal: raw::Refusal {
            kind: 5,
            number: 69,
            offset: 0,
        },
        ..Default::default()
    };
    assert_eq!(answer, due);
    assert!(tables.is_zeros());
}

#[test]
fn by_other_rules() {
    let file = include_bytes!("../../../../examples/diocese.evr0");
    let rules = include_bytes!("../../../../examples/diocese.rules");
    let rules = RuleTable::load(rules).unwrap();
    let found = rules.compare_sections(file, 0, file, 0).unwrap();
    assert_eq!((found.agreed, found.entries.len()), (2, 2));
    assert_eq!(rules.authorised_table(file, 0), Ok(vec![true, false]));
    let alone = evr0::decode_evr0_section(file, &mut 0).unwrap_err();
    let found = compare_sections(file, 0, file, 0).unwrap_err();
    error(Whose::First, 20, alone.offset, found);
}

/// What the table says of a proposition is what the question says.
#[test]
fn authorised_of_each() {
    let negative = || Proof {
        rule: "NEG-WITNESS-1",
        ..witnessed(0)
    };
    for file in [
        section(&[]),
        section(&[witnessed(1), op(0)]),
        section(&[negative(), op(0)]),
        section(&[negative(), op(0), witnessed(1), op(2)]),
        section(&[witnessed(1)]),
        written(7, &some(27)),
        written(7, &some(9999)),
    ] {
        let table = authorised_table(&file, 0).unwrap();
        let decoded = evr0::decode_evr0_section(&file, &mut 0).unwrap();
        assert_eq!(table.len(), decoded.propositions.len());
        for (number, told) in (0..).zip(table) {
            assert_eq!(authorised(&file, 0, number), Ok(Some(told)));
        }
    }
    let refused = section(&[witnessed(0)]);
    assert_eq!(
        authorised_table(&refused, 0).unwrap_err().number(),
        Some(29)
    );
}

/// The table of authorised is one short where that of propositions would be, and a longer one ends in zeros.
#[test]
fn authorised_in_a_lent_table() {
    let file = written(7, &[(POOL[0], Of::Positive), (POOL[1], Of::Negative)]);
    for (room, number, left) in [
        (2, 0, vec![1, 0]),
        (4, 0, vec![1, 0, 0, 0]),
        (1, 61, vec![0]),
        (0, 61, vec![]),
    ] {
        let mut tables = [2, 4, 4].map(|room| vec![OLD; room]);
        let mut bytes = [4, room].map(|room| vec![0xA5; room]);
        let answer = calls::authorised_table(lent(&mut tables, &mut bytes, &file));
        assert_eq!((answer.refusal.number, &bytes[1]), (number, &left));
        if number == 61 {
            assert_eq!(answer.refusal.offset, 8 + 92);
            assert_eq!(tables, [2, 4, 4].map(|room| vec![0; room]));
            assert_eq!(bytes[0], [0; 4]);
        } else {
            assert_eq!(bytes[0], [1, 1, 2, 2]);
            assert_eq!(answer.proofs, 4);
        }
    }
}
