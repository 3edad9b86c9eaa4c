//! Tables of rules: which load, and sections by the rules of one.

use crate::written::{Proof, chain, op, section, witnessed};
use falgnust::calls::{self, SectionTables};
use falgnust::evr0::{self, RuleTable, WayDown, decode_evr0_section};
use falgnust::raw;

const DIOCESE: &[u8] = include_bytes!("../../../../examples/diocese.rules");
const SECTION: &[u8] = include_bytes!("../../../../examples/diocese.evr0");

fn rule(name: &str, numbers: [u8; 4]) -> Vec<u8> {
    let mut rule = (name.len() as u16).to_le_bytes().to_vec();
    rule.extend(name.as_bytes());
    rule.extend(numbers);
    rule
}

fn table(rules: &[Vec<u8>]) -> Vec<u8> {
    let mut table = vec![rules.len() as u8];
    table.extend(rules.concat());
    table
}

fn four() -> Vec<Vec<u8>> {
    vec![
        rule("POS-WITNESS-1", [1, 0, 0, 1]),
        rule("NEG-WITNESS-1", [1, 0, 0, 0]),
        rule("JOIN-SAME-P-1", [0, 2, 0, 2]),
        rule("OP-T-ONLY-1", [0, 1, 1, 2]),
    ]
}

/// 0 for a table that loads.
fn number(table: &[u8]) -> u8 {
    match RuleTable::load(table) {
        Ok(rules) => {
            assert_eq!(rules.bytes(), table);
            assert_eq!(rules.count(), usize::from(table[0]));
            0
        }
        Err(error) => {
            assert_eq!(error.offset, 0);
            error.number().expect("a number of the loader")
        }
    }
}

#[test]
fn the_four_as_bytes() {
    assert_eq!(RuleTable::FOUR, table(&four()));
    assert_eq!(number(RuleTable::FOUR), 0);
}

#[test]
fn counts() {
    let rules: Vec<Vec<u8>> = (0..33)
        .map(|i| rule(&format!("r{i}"), [1, 0, 0, 1]))
        .collect();
    for (count, due) in [(0, 69), (1, 0), (31, 0), (32, 0), (33, 69)] {
        assert_eq!(number(&table(&rules[..count])), due);
    }
    assert_eq!(number(&[]), 69);
}

#[test]
fn names() {
    let of = |name: &str| number(&table(&[rule(name, [1, 0, 0, 1])]));
    for (name, due) in [
        ("", 69),
        ("å", 0),
        (&"n".repeat(64), 0),
        (&"n".repeat(65), 69),
        (&"å".repeat(32), 0),
        (&"å".repeat(33), 69),
        ("a\u{7f}", 69),
        ("a\u{85}", 69),
    ] {
        assert_eq!(of(name), due, "{name:?}");
    }
    assert_eq!(number(b"\x01\x01\x00\xff\x01\x00\x00\x01"), 69);
}

#[test]
fn numbers() {
    for witnesses in 0..4 {
        for parents in 0..4 {
            for operation in 0..3 {
                for polarity in 0..4 {
                    let numbers = [witnesses, parents, operation, polarity];
                    let shaped = match (witnesses, parents) {
                        (1, 0) => polarity < 2,
                        (0, 1 | 2) => polarity == 2,
                        _ => false,
                    };
                    let due = if shaped && operation < 2 { 0 } else { 69 };
                    assert_eq!(number(&table(&[rule("r", numbers)])), due, "{numbers:?}");
                }
            }
        }
    }
}

/// 69 and 70 in one table: the count first, then rule by rule with 69 before 70, what is left over last.
#[test]
fn order_of_the_refusals() {
    let [a, b] = [rule("a", [1, 0, 0, 1]), rule("b", [1, 0, 0, 1])];
    let (again, wrong) = (rule("a", [1, 0, 0, 0]), rule("a", [1, 0, 0, 2]));
    assert_eq!(number(&table(&[a.clone(), again.clone()])), 70);
    assert_eq!(number(&table(&[a.clone(), b.clone(), again.clone()])), 70);
    assert_eq!(number(&table(&[a.clone(), wrong.clone()])), 69);
    assert_eq!(
        number(&table(&[a.clone(), again.clone(), wrong.clone()])),
        70
    );
    assert_eq!(number(&table(&[a.clone(), again[..5].to_vec()])), 69);
    let mut more = table(&[a.clone(), again.clone()]);
    more[0] = 3;
    assert_eq!(number(&more), 70);
    more[0] = 33;
    assert_eq!(number(&more), 69);
    let mut left_over = table(&[a, again]);
    left_over.push(0);
    assert_eq!(number(&left_over), 70);
    let mut left_over = table(&[b]);
    left_over.push(0);
    assert_eq!(number(&left_over), 69);
}

/// With the four loaded, in any order, the answers are those without a table.
#[test]
fn the_four_in_any_order() {
    let negative = Proof {
        rule: "NEG-WITNESS-1",
        ..witnessed(0)
    };
    let join = Proof {
        rule: "JOIN-SAME-P-1",
        parents: vec![0, 1],
        ..op(0)
    };
    let other = Proof {
        rule: "POS-WITNESS",
        ..witnessed(1)
    };
    let files = [
        section(&[]),
        section(&[witnessed(1), op(0)]),
        section(&[witnessed(1), negative, join, op(2)]),
        section(&[witnessed(0)]),
        section(&[other]),
        section(&[witnessed(1), op(1)]),
        chain(256),
        chain(257),
    ];
    for order in [[0, 1, 2, 3], [3, 2, 1, 0], [2, 0, 3, 1]] {
        let rules = RuleTable::load(&table(&order.map(|i| four()[i].clone()))).unwrap();
        for file in &files {
            let (mut by_rules, mut by_four) = (0, 0);
            assert_eq!(
                rules.decode(file, &mut by_rules),
                decode_evr0_section(file, &mut by_four)
            );
            assert_eq!(by_rules, by_four);
            assert_eq!(rules.marks(file, 0), evr0::marks(file, 0));
            for i in [0, 1, 255] {
                assert_eq!(rules.authorised(file, 0, i), evr0::authorised(file, 0, i));
                assert_eq!(
                    rules.way_down(file, 0, i, 255),
                    evr0::way_down(file, 0, i, 255)
                );
                assert_eq!(
                    rules.proposition_number(file, 0, i),
                    evr0::proposition_number(file, 0, i)
                );
                assert_eq!(
                    rules.proof_number(file, 0, i),
                    evr0::proof_number(file, 0, i)
                );
                assert_eq!(
                    rules.witness_number(file, 0, i),
                    evr0::witness_number(file, 0, i)
                );
                assert_eq!(
                    rules.parent_number(file, 0, i),
                    evr0::parent_number(file, 0, i)
                );
            }
        }
    }
}

#[test]
fn other_names() {
    let error = decode_evr0_section(SECTION, &mut 0).unwrap_err();
    assert_eq!(error.number(), Some(20));
    let rules = RuleTable::load(DIOCESE).unwrap();
    let decoded = rules.decode(SECTION, &mut 0).unwrap();
    let names: Vec<&str> = decoded.proofs.iter().map(|p| p.rule_id.as_str()).collect();
    let witness = "prästbetyg";
    assert_eq!(names[..3], [witness, "utlämnande", witness]);
    assert_eq!(names[3..], ["sekretess", "samråd", "utlämnande"]);
    assert_eq!(rules.marks(SECTION, 0), Ok(vec![1, 1, 1, 2, 3, 3]));
    assert_eq!(rules.authorised(SECTION, 0, 0), Ok(Some(true)));
    assert_eq!(rules.authorised(SECTION, 0, 1), Ok(Some(false)));
    assert_eq!(rules.authorised(SECTION, 0, 2), Ok(None));
    let end = WayDown::Witness {
        witness: 1,
        moves: 2,
    };
    assert_eq!(rules.way_down(SECTION, 0, 5, 255), Ok(Some(end)));
    let spent = WayDown::Spent { proof: 5 };
    assert_eq!(rules.way_down(SECTION, 0, 5, 0), Ok(Some(spent)));
    assert_eq!(
        rules.proof_number(SECTION, 0, 4),
        Ok(Some(decoded.proofs[4].clone()))
    );
    assert_eq!(rules.parent_number(SECTION, 0, 4), Ok(None));
}

/// A rule of the four that the table gives other numbers, and one that it does not have.
#[test]
fn the_table_decides() {
    let rules = table(&[rule("POS-WITNESS-1", [1, 0, 0, 0])]);
    let rules = RuleTable::load(&rules).unwrap();
    let number = |proofs: &[Proof]| {
        let decoded = rules.decode(&section(proofs), &mut 0);
        decoded.map_or_else(|error| error.number(), |_| None)
    };
    assert_eq!(number(&[witnessed(0)]), None);
    assert_eq!(number(&[witnessed(1)]), Some(29));
    assert_eq!(number(&[witnessed(0), op(0)]), Some(20));
    assert_eq!(rules.marks(&section(&[witnessed(0)]), 0), Ok(vec![2]));
}

/// A table that is refused leaves zeros, and nothing is said of the section.
#[test]
fn a_refused_table_before_any_section() {
    let file = section(&[witnessed(1), op(0)]);
    let empty: &[u8] = &[];
    let twice = table(&[rule("a", [1, 0, 0, 1]), rule("a", [1, 0, 0, 1])]);
    for (rules, number) in [(empty, 69), (&twice, 70)] {
        for (bytes, cursor) in [(&file[..], 0), (empty, 7)] {
            let mut tables = [[7; 3]; 3];
            let mut marks = [7; 3];
            let [propositions, proofs, depths] = &mut tables;
            let lent = SectionTables {
                propositions,
                proofs,
                depths,
            };
            let answer =
                calls::decode_evr0_section_by_rules(rules, bytes, cursor, lent, &mut marks);
            let due = raw::Section {
                refusal: raw::Refusal {
                    kind: 5,
                    number,
                    offset: 0,
                },
                cursor,
                ..Default::default()
            };
            assert_eq!((answer, tables, marks), (due, [[0; 3]; 3], [0; 3]));
        }
    }
}
