use falgnust::evr0::compare_sections;

fn main() -> Result<(), Box<dyn std::error::Error>> {
    let mut words = std::env::args().skip(1);
    let first = std::fs::read(words.next().ok_or("which first file?")?)?;
    let second = std::fs::read(words.next().ok_or("which second file?")?)?;
    let compared = compare_sections(&first, 0, &second, 0)?;
    for entry in &compared.entries {
        let p = &entry.proposition;
        let numbers = [p.ast_owner_id, p.semantic_scope_id, p.type_obligation_id];
        println!("{:?}: {} {numbers:?}", entry.verdict, p.kind);
    }
    Ok(())
}
