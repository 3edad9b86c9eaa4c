//! A section as tables for a person.

use super::{Section, witnesses};
use crate::paint::{Paint, Style};
use crate::table::{Cell, Table, number, styled, text};
use crate::text::{count, hex, shown, thousands};
use falgnust::evr0::{Proof, Witness};
use falgnust::raw::WayDown;

impl Section<'_> {
    /// All of it.
    pub fn tables(&self, name: &str, paint: Paint) -> String {
        let head = self.head(name, paint);
        let propositions = self.propositions_table(&self.all_propositions(), paint);
        let proofs = self.proofs_table(&self.all_proofs(), paint);
        let witnesses = witnesses_table(self.records.witnesses.iter(), paint);
        head + &propositions + &proofs + &witnesses
    }

    fn head(&self, name: &str, paint: Paint) -> String {
        let records = &self.records;
        let counts = [
            count(records.propositions.len(), "proposition"),
            count(records.proofs.len(), "proof"),
            count(records.witnesses.len(), "witness"),
            count(records.parents.len(), "parent cell"),
        ];
        let accepted = paint.text(Style::Green, "accepted");
        let (at, end) = (thousands(self.at), thousands(self.end));
        format!(
            "{accepted}: {name:?}, bytes {at} to {end}\n  schema    {}\n  holds     {}\n  policy    {}\n  issuer    {}\n  epoch     {}\n  sources   {}\n  contract  {}\n",
            records.schema,
            counts.join(", "),
            shown(&records.policy_namespace),
            shown(&records.issuer_namespace),
            records.epoch,
            hex(&records.source_set),
            hex(&records.compiler_contract),
        )
    }

    pub fn propositions_table(&self, numbers: &[u32], paint: Paint) -> String {
        let rows = numbers.iter().map(|at| {
            let proposition = &self.records.propositions[*at as usize];
            [
                number(at),
                yes_no(self.authorised(*at)),
                number(proposition.ast_owner_id),
                number(proposition.semantic_scope_id),
                number(proposition.type_obligation_id),
                text(shown(&proposition.kind)),
            ]
        });
        Table {
            title: "Propositions",
            names: ["number", "authorised", "owner", "scope", "type", "kind"],
            rows: rows.collect(),
        }
        .lines(paint)
    }

    pub fn proofs_table(&self, numbers: &[u32], paint: Paint) -> String {
        let ways = self.ways_down(numbers);
        let rows = numbers.iter().zip(ways).map(|(at, way)| {
            let proof = self.proof(*at);
            [
                number(at),
                number(proof.proposition_index),
                number(proof.authority_context),
                number(proof.authorized_operation),
                number(self.depths[*at as usize]),
                mark(self.marks[*at as usize]),
                text(self.rests_on(proof)),
                text(down(way)),
                text(shown(&proof.rule_id)),
            ]
        });
        Table {
            title: "Proofs",
            names: [
                "number",
                "proposition",
                "authority",
                "operation",
                "depth",
                "mark",
                "rests on",
                "way down",
                "rule",
            ],
            rows: rows.collect(),
        }
        .lines(paint)
    }

    fn rests_on(&self, proof: &Proof) -> String {
        let proofs = self
            .parents(proof)
            .iter()
            .map(|parent| format!("proof {parent}"));
        let witnesses = witnesses(proof).map(|witness| format!("witness {witness}"));
        witnesses.chain(proofs).collect::<Vec<_>>().join(", ")
    }
}

/// Where a way down ends.
pub fn down(way: WayDown) -> String {
    match way.spent {
        true => format!("spent at proof {}", way.proof),
        false => format!(
            "witness {}, {}",
            way.witness,
            count(way.moves as usize, "move")
        ),
    }
}

/// Two rows for each witness, since a digest takes 64 digits.
pub fn witnesses_table<'a>(witnesses: impl Iterator<Item = &'a Witness>, paint: Paint) -> String {
    let rows = witnesses.flat_map(|witness| {
        let file = format!("file   {}", hex(&witness.file_digest));
        let origin = format!("origin {}", hex(&witness.origin_digest));
        let first = [
            number(witness.witness_id),
            number(witness.proposition_index),
            polarity(witness.polarity),
            number(witness.source_start),
            number(witness.source_end),
            text(file),
        ];
        let none = || text("");
        [
            first,
            [none(), none(), none(), none(), none(), text(origin)],
        ]
    });
    Table {
        title: "Witnesses",
        names: [
            "number",
            "proposition",
            "polarity",
            "start",
            "end",
            "digests",
        ],
        rows: rows.collect(),
    }
    .lines(paint)
}

pub fn yes_no(yes: bool) -> Cell {
    match yes {
        true => styled("yes", Style::Green),
        false => styled("no", Style::Plain),
    }
}

fn mark(mark: u8) -> Cell {
    match mark {
        1 => styled("positive", Style::Green),
        2 => styled("negative", Style::Red),
        _ => styled("both", Style::Yellow),
    }
}

fn polarity(polarity: u8) -> Cell {
    match polarity {
        1 => styled("positive", Style::Green),
        _ => styled("negative", Style::Red),
    }
}
