//! Marks: of witnesses, of joins of like and of unlike proofs, of operations on them, and of joins upon joins; and what they authorise.

use crate::written::{Proof, op, section, witnessed};
use falgnust::calls::{self, SectionTables};
use falgnust::evr0::{authorised, marks};

fn negative() -> Proof {
    Proof {
        rule: "NEG-WITNESS-1",
        ..witnessed(0)
    }
}

fn join(first: u32, second: u32) -> Proof {
    Proof {
        rule: "JOIN-SAME-P-1",
        parents: vec![first, second],
        ..op(0)
    }
}

#[test]
fn of_each_form() {
    let [positive, other] = [witnessed(1), witnessed(1)];
    let proofs = [
        positive,
        negative(),
        other,
        join(0, 1),
        join(0, 2),
        op(3),
        op(4),
        op(1),
    ];
    assert_eq!(
        marks(&section(&proofs), 0),
        Ok(vec![1, 2, 1, 3, 1, 3, 1, 2])
    );
    assert_eq!(marks(&section(&[]), 0), Ok(vec![]));
}

/// Two joins in each layer, each of both below: the ways down double 200 times.
#[test]
fn of_joins_upon_joins() {
    for (second, mark) in [(witnessed(1), 1), (negative(), 3)] {
        let mut proofs = vec![witnessed(1), second];
        for layer in 0..200 {
            let below = 2 * layer;
            proofs.extend([join(below, below + 1), join(below, below + 1)]);
        }
        let found = marks(&section(&proofs), 0).unwrap();
        assert_eq!(found.len(), 402);
        assert!(found[2..].iter().all(|found| *found == mark));
    }
}

#[test]
fn of_a_refused_section() {
    let file = section(&[witnessed(0)]);
    assert_eq!(marks(&file, 0).unwrap_err().number(), Some(29));
}

/// A table that is longer ends in zeros, one that is shorter leaves zeros in all, and so does a refusal.
#[test]
fn in_a_lent_table() {
    let file = section(&[witnessed(1), op(0)]);
    let refused = section(&[witnessed(0), op(0)]);
    for (file, room, number, left) in [
        (&file, 4, 0, vec![1, 1, 0, 0]),
        (&file, 2, 0, vec![1, 1]),
        (&file, 1, 61, vec![0]),
        (&file, 0, 61, vec![]),
        (&refused, 4, 29, vec![0; 4]),
    ] {
        let mut tables = [[7; 3]; 3];
        let [propositions, proofs, depths] = &mut tables;
        let lent = SectionTables {
            propositions,
            proofs,
            depths,
        };
        let mut marks = vec![0xAA; room];
        let answer = calls::decode_evr0_section(file, 0, lent, &mut marks);
        assert_eq!((answer.refusal.number, marks), (number, left));
        assert_eq!(tables == [[0; 3]; 3], number != 0);
    }
}

/// An operation counts where its own proof has mark 1, whatever stands beside it.
#[test]
fn authorised_by_an_operation_of_mark_1() {
    for (proofs, due) in [
        (vec![witnessed(1), op(0)], true),
        (vec![negative(), op(0)], false),
        (vec![witnessed(1), negative(), join(0, 1), op(2)], false),
        (vec![negative(), op(0), witnessed(1), op(2)], true),
        (vec![witnessed(1), negative(), op(1)], false),
        (vec![witnessed(1), witnessed(1), join(0, 1), op(2)], true),
        (vec![witnessed(1)], false),
    ] {
        assert_eq!(authorised(&section(&proofs), 0, 0), Ok(Some(due)));
    }
}

/// 62 leaves zeros in the marks, too.
#[test]
fn authorised_of_no_proposition() {
    let file = section(&[witnessed(1), op(0)]);
    for (number, room, due, left) in [
        (0, 3, 0, vec![1, 1, 0]),
        (1, 3, 62, vec![0; 3]),
        (0, 1, 61, vec![0]),
    ] {
        let mut tables = [[7; 3]; 3];
        let [propositions, proofs, depths] = &mut tables;
        let lent = SectionTables {
            propositions,
            proofs,
            depths,
        };
        let mut marks = vec![0xAA; room];
        let answer = calls::authorised(&file, 0, number, lent, &mut marks);
        assert_eq!((answer.refusal.number, marks), (due, left));
        assert_eq!(tables == [[0; 3]; 3], due != 0);
    }
}
