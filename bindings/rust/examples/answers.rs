//! Answers requests, a line each, as `bindings/c/tests/answers.c` does.
use aat::*;
use std::io::{self, BufRead, Write};

fn numbers(list: &str) -> Vec<u32> {
    list.split(' ').filter(|word| !word.is_empty()).map(|word| word.parse().unwrap()).collect()
}

fn direction(number: &str) -> Option<Direction> {
    Some(match number {
        "4" => Direction::LeftToRight,
        "5" => Direction::RightToLeft,
        "6" => Direction::TopToBottom,
        "7" => Direction::BottomToTop,
        _ => return None,
    })
}

fn buffer(words: &[&str]) -> UnicodeBuffer {
    let mut buffer = UnicodeBuffer::new();
    let text: String = numbers(words[10]).into_iter().map(|number| char::from_u32(number).unwrap()).collect();
    if words[3] == "characters" {
        text.chars().enumerate().for_each(|(place, character)| buffer.add(character, place as u32));
    } else {
        buffer.push_str(&text);
    }
    if let Some(direction) = direction(words[4]) {
        buffer.set_direction(direction);
    }
    if words[5] != "0" {
        buffer.set_script(Script::from_iso15924_tag(Tag(words[5].parse().unwrap())));
    }
    match words[6] {
        "0" => {}
        "4294967295" => buffer.set_point_size(None),
        size => buffer.set_point_size(size.parse().ok()),
    }
    if words[7] == "1" {
        buffer.set_cluster_level(ClusterLevel::MonotoneCharacters);
    }
    buffer
}

fn shaped(words: &[&str], data: &[u8]) -> Result<(Vec<GlyphInfo>, Vec<GlyphPosition>), Error> {
    let face = Face::read(data, words[1].parse().unwrap())?;
    let features: Vec<Feature> =
        words[9].split(',').filter(|word| !word.is_empty()).map(|word| word.parse().unwrap()).collect();
    if words[2] == "glyphs" {
        let text: Vec<TextGlyph> = numbers(words[10])
            .into_iter()
            .enumerate()
            .map(|(place, glyph)| TextGlyph { glyph_id: glyph as u16, flags: 0, cluster: place as u32 })
            .collect();
        return shape_glyphs(&face, &features, direction(words[4]), words[6].parse().ok(), &text);
    }
    match try_shape(&face, &features, buffer(words)) {
        Ok(glyphs) => Ok((glyphs.glyph_infos().to_vec(), glyphs.glyph_positions().to_vec())),
        Err((error, _)) => Err(error),
    }
}

fn written(infos: &[GlyphInfo], positions: &[GlyphPosition], shows_flags: bool) -> String {
    let glyphs = infos.iter().zip(positions).enumerate().map(|(number, (info, place))| {
        let mut text = format!("{}={}", info.glyph_id, info.cluster);
        if place.x_offset != 0 || place.y_offset != 0 {
            text += &format!("@{},{}", place.x_offset, place.y_offset);
        }
        text += &format!("+{}", place.x_advance);
        if place.y_advance != 0 {
            text += &format!(",{}", place.y_advance);
        }
        if shows_flags && number > 0 && info.unsafe_to_break() {
            text += "#1";
        }
        text
    });
    format!("[{}]", glyphs.collect::<Vec<_>>().join("|"))
}

fn main() -> io::Result<()> {
    let mut out = io::stdout().lock();
    for line in io::stdin().lock().lines() {
        let line = line?;
        let words: Vec<&str> = line.split('\t').collect();
        let data = std::fs::read(words[0])?;
        match shaped(&words, &data) {
            Ok((infos, positions)) => writeln!(out, "{}", written(&infos, &positions, words[8] == "1"))?,
            Err(error) => writeln!(out, "status {}", error as u32 + 1)?,
        }
    }
    Ok(())
}
