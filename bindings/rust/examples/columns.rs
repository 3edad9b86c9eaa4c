use falgnust::evr0::{take_columns, write_columns};

fn main() -> Result<(), Box<dyn std::error::Error>> {
    let file = std::fs::read(std::env::args().nth(1).ok_or("which file?")?)?;
    let mut columns = write_columns(&file, 0)?;
    println!("{} bytes by row, {} by column", file.len(), columns.len());
    println!("taken back: {}", take_columns(&columns)? == file);
    columns.truncate(100);
    println!("cut: {}", take_columns(&columns).unwrap_err());
    Ok(())
}
