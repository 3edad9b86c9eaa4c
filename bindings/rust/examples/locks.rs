use falgnust::locks::Register;
use falgnust::semcode_decode::decode_functions;

fn main() -> Result<(), Box<dyn std::error::Error>> {
    let file = std::fs::read(std::env::args().nth(1).ok_or("which file?")?)?;
    let functions = decode_functions(&file, 8, 22)?;
    let (ours, theirs) = (&[1; 32], &[2; 32]); // source sets
    let mut register = Register::new();
    for (owner, f) in functions.iter().enumerate() {
        let held = register.claim(owner as u32, f.code_offset, f.code_slice, 22, ours);
        println!("{owner} claims {}: {held:?}", f.name);
    }
    let f = &functions[2];
    let held = register.claim(2, f.code_offset, f.code_slice, 22, theirs);
    println!("2 claims {} of another supplier: {held:?}", f.name);
    println!("0 is done: {} held", register.release(0));
    Ok(())
}
