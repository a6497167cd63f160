//! Writes the glyphs of a text: `shape FONT TEXT [FEATURE..]`.
use aat::{shape, Face, Feature, UnicodeBuffer};
use std::error::Error;

fn main() -> Result<(), Box<dyn Error>> {
    let words: Vec<String> = std::env::args().collect();
    let [_, font, text, features @ ..] = words.as_slice() else {
        return Err("shape FONT TEXT [FEATURE..]".into());
    };
    let data = std::fs::read(font)?;
    let face = Face::read(&data, 0)?;
    let features: Vec<Feature> = features.iter().map(|text| text.parse()).collect::<Result<_, _>>()?;
    let mut buffer = UnicodeBuffer::new();
    buffer.push_str(text);
    let glyphs = shape(&face, &features, buffer);
    for (info, place) in glyphs.glyph_infos().iter().zip(glyphs.glyph_positions()) {
        let bar = if info.unsafe_to_break() { ' ' } else { '|' };
        println!("{bar} {}={}@{},{}+{}", info.glyph_id, info.cluster, place.x_offset, place.y_offset, place.x_advance);
    }
    Ok(())
}
