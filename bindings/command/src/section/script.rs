//! A section as JSON.

use super::{Section, witnesses};
use crate::json::{Json, list};
use crate::text::hex;
use falgnust::evr0::Witness;
use falgnust::raw::WayDown;

impl Section<'_> {
    /// All of it. The page of a section is drawn from this.
    pub fn json(&self, name: &str) -> Json {
        let (propositions, proofs) = (self.all_propositions(), self.all_proofs());
        let records = &self.records;
        Json::Object(vec![
            ("accepted", true.into()),
            ("file", name.into()),
            ("at", self.at.into()),
            ("end", self.end.into()),
            ("schema", records.schema.into()),
            ("source_set", hex(&records.source_set).into()),
            ("compiler_contract", hex(&records.compiler_contract).into()),
            ("epoch", records.epoch.into()),
            ("policy", records.policy_namespace.as_str().into()),
            ("issuer", records.issuer_namespace.as_str().into()),
            ("propositions", list(self.propositions_json(&propositions))),
            ("proofs", list(self.proofs_json(&proofs))),
            (
                "witnesses",
                list(records.witnesses.iter().map(witness_json)),
            ),
        ])
    }

    pub fn propositions_json(&self, numbers: &[u32]) -> Vec<Json> {
        let each = numbers.iter().map(|number| {
            let proposition = &self.records.propositions[*number as usize];
            Json::Object(vec![
                ("number", (*number).into()),
                ("kind", proposition.kind.as_str().into()),
                ("owner", proposition.ast_owner_id.into()),
                ("scope", proposition.semantic_scope_id.into()),
                ("type", proposition.type_obligation_id.into()),
                ("authorised", self.authorised(*number).into()),
            ])
        });
        each.collect()
    }

    pub fn proofs_json(&self, numbers: &[u32]) -> Vec<Json> {
        let ways = self.ways_down(numbers).into_iter();
        let each = numbers.iter().zip(ways).map(|(number, way)| {
            let proof = self.proof(*number);
            Json::Object(vec![
                ("number", (*number).into()),
                ("proposition", proof.proposition_index.into()),
                ("rule", proof.rule_id.as_str().into()),
                ("authority", proof.authority_context.into()),
                ("operation", proof.authorized_operation.into()),
                ("depth", self.depths[*number as usize].into()),
                ("mark", self.marks[*number as usize].into()),
                ("witnesses", list(witnesses(proof))),
                ("parents", list(self.parents(proof).iter().copied())),
                ("down", way_json(way)),
            ])
        });
        each.collect()
    }
}

fn way_json(way: WayDown) -> Json {
    Json::Object(match way.spent {
        true => vec![("spent", way.proof.into())],
        false => vec![("witness", way.witness.into()), ("moves", way.moves.into())],
    })
}

/// The largest number up to which readers of JSON hold every number exactly, 2^53 - 1.
const EXACT: u64 = 9_007_199_254_740_991;

/// A number, or its digits as text where some readers of JSON, and the page, would round it.
fn exact(number: u64) -> Json {
    match number {
        0..=EXACT => number.into(),
        _ => number.to_string().into(),
    }
}

pub fn witness_json(witness: &Witness) -> Json {
    Json::Object(vec![
        ("number", witness.witness_id.into()),
        ("proposition", witness.proposition_index.into()),
        ("polarity", witness.polarity.into()),
        ("start", exact(witness.source_start)),
        ("end", exact(witness.source_end)),
        ("file", hex(&witness.file_digest).into()),
        ("origin", hex(&witness.origin_digest).into()),
    ])
}
