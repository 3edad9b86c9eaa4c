use falgnust::evr0::RuleTable;

fn main() -> Result<(), Box<dyn std::error::Error>> {
    let mut words = std::env::args().skip(1);
    let rules = RuleTable::load(&std::fs::read(words.next().ok_or("which table?")?)?)?;
    let file = std::fs::read(words.next().ok_or("which file?")?)?;
    let section = rules.decode(&file, &mut 0)?;
    for (proof, mark) in section.proofs.iter().zip(rules.marks(&file, 0)?) {
        println!("{} {} mark {mark}", proof.proof_id, proof.rule_id);
    }
    Ok(())
}
