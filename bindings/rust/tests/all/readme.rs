//! README.md shows the examples as they stand.

fn shown(example: &str) -> bool {
    let readme = include_str!("../../../../README.md");
    let lines = example.lines().map(|line| format!("    {line}\n"));
    readme.contains(&lines.collect::<String>().replace("    \n", "\n"))
}

#[test]
fn readme_shows_the_examples() {
    assert!(shown(include_str!("../../examples/proofs.rs")));
    assert!(shown(include_str!("../../examples/functions.rs")));
    assert!(shown(include_str!("../../examples/locks.rs")));
    assert!(shown(include_str!("../../examples/rules.rs")));
    assert!(shown(include_str!("../../examples/compare.rs")));
    assert!(shown(include_str!("../../examples/columns.rs")));
}
