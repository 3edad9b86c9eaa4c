use falgnust::semcode_decode::decode_functions;

fn main() -> Result<(), Box<dyn std::error::Error>> {
    let file = std::fs::read(std::env::args().nth(1).ok_or("which file?")?)?;
    for f in decode_functions(&file, 8, 22)? {
        println!("{} at {}: {:?}", f.name, f.name_offset, f.strings);
    }
    Ok(())
}
