
/// How many characters a text has.
pub fn characters(text: &str) -> usize {
    text.chars().count()
}

/// `Reader::text` at a place, with the place after it.
pub fn text_at(data: &[u8], pos: usize) -> Result<(String, usize), Evr0Error> {
    let mut reader = Reader { data, pos, base: 0 };
    let text = reader.text()?;
    Ok((text, reader.pos))
}
