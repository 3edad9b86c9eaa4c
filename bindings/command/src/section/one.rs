//! One proposition or one proof of a section, without a question about every other.

use super::lent::Lent;
use super::script::witness_json;
use super::tables::{down, witnesses_table};
use super::{MOST_MOVES, Section, witnesses};
use crate::json::{Json, list};
use crate::paint::{Paint, Style};
use crate::refusal::Refusal;
use falgnust::evr0::Proof;
use falgnust::raw::WayDown;

impl Section<'_> {
    /// A proposition with its proofs.
    pub fn one_proposition(
        &self,
        number: u32,
        is_script: bool,
        paint: Paint,
    ) -> Result<String, Refusal> {
        let asked = self.rules.proposition(self.bytes, self.at, number)?;
        asked.ok_or(Refusal::NO_SUCH_NUMBER)?;
        let of_it = |proof: &u32| self.proof(*proof).proposition_index == number;
        let proofs: Vec<u32> = self.all_proofs().into_iter().filter(of_it).collect();
        if !is_script {
            let proposition = self.propositions_table(&[number], paint);
            return Ok(proposition + &self.proofs_table(&proofs, paint));
        }
        let object = Json::Object(vec![
            ("accepted", true.into()),
            ("propositions", list(self.propositions_json(&[number]))),
            ("proofs", list(self.proofs_json(&proofs))),
        ]);
        Ok(format!("{object}\n"))
    }

    /// A proof with its proposition, each proof on its way down, and the witness there.
    pub fn one_proof(&self, number: u32, is_script: bool, paint: Paint) -> Result<String, Refusal> {
        let asked = self.rules.proof(self.bytes, self.at, number)?;
        let proposition = asked.ok_or(Refusal::NO_SUCH_NUMBER)?.proposition_index;
        let mut lent = Lent::to(&self.records);
        let end = self.way_down(number, MOST_MOVES, &mut lent);
        let passed = self.passed(number, end, &mut lent);
        let witness = (!end.spent).then(|| &self.records.witnesses[end.witness as usize]);
        if !is_script {
            let way: Vec<String> = passed
                .iter()
                .map(|proof| format!("proof {proof}"))
                .collect();
            let title = paint.text(Style::Bold, "Way down");
            return Ok([
                self.propositions_table(&[proposition], paint),
                self.proofs_table(&passed, paint),
                format!("\n{title}\n  {}, {}\n", way.join(", "), down(end)),
                witnesses_table(witness.into_iter(), paint),
            ]
            .concat());
        }
        let object = Json::Object(vec![
            ("accepted", true.into()),
            ("propositions", list(self.propositions_json(&[proposition]))),
            ("proofs", list(self.proofs_json(&passed))),
            ("witnesses", list(witness.into_iter().map(witness_json))),
        ]);
        Ok(format!("{object}\n"))
    }

    /// The proofs on the way down: each where so many moves are spent, and the last, which owns the witness.
    fn passed(&self, number: u32, end: WayDown, lent: &mut Lent) -> Vec<u32> {
        let reached = |moves| Some(self.way_down(number, moves, lent)).filter(|way| way.spent);
        let spent = (0..MOST_MOVES).map_while(reached).map(|way| way.proof);
        let owns = |proof: &&Proof| !end.spent && witnesses(proof).contains(&end.witness);
        let last = self.records.proofs.iter().find(owns);
        spent.chain(last.map(|proof| proof.proof_id)).collect()
    }
}
