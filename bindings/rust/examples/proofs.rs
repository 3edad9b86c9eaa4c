use falgnust::evr0::{decode_evr0_section, marks, way_down};

fn main() -> Result<(), Box<dyn std::error::Error>> {
    let file = std::fs::read(std::env::args().nth(1).ok_or("which file?")?)?;
    let mut cursor = 0;
    let section = decode_evr0_section(&file, &mut cursor)?;
    for (proof, mark) in section.proofs.iter().zip(marks(&file, 0)?) {
        let down = way_down(&file, 0, proof.proof_id, 255)?;
        println!("{} {} mark {mark} {down:?}", proof.proof_id, proof.rule_id);
    }
    Ok(())
}
