//! Texts in lines of a width.
use crate::calls::{Glyph, Line};
use crate::{Error, Face, Feature, GlyphInfo, GlyphPosition, UnicodeBuffer};
use std::ops::Range;

/// A line of a text: the bytes of the text that are in it, and its glyphs in drawing order.
pub struct TextLine<'l> {
    pub text: Range<usize>,
    pub glyph_infos: &'l [GlyphInfo],
    pub glyph_positions: &'l [GlyphPosition],
}

/// The lines of a text.
pub struct Lines {
    buffer: UnicodeBuffer,
    rows: Vec<Line>,
}

impl Lines {
    pub fn len(&self) -> usize {
        self.rows.len()
    }

    pub fn is_empty(&self) -> bool {
        self.rows.is_empty()
    }

    /// The lines, one behind the other.
    pub fn iter(&self) -> impl Iterator<Item = TextLine<'_>> + '_ {
        (0..self.rows.len()).map(|number| {
            let (text, glyphs) = match number.checked_sub(1) {
                Some(before) => (self.rows[before].text_end, self.rows[before].glyphs_end),
                None => (0, 0),
            };
            let row = &self.rows[number];
            TextLine {
                text: text..row.text_end,
                glyph_infos: &self.buffer.infos[glyphs..row.glyphs_end],
                glyph_positions: &self.buffer.positions[glyphs..row.glyphs_end],
            }
        })
    }
}

/// Shapes a text in lines of a width in units of the font. They end where Unicode's line breaking has it, and spaces at
/// the end of a line hang over it. Clusters are bytes of the text, whatever clusters the buffer was told.
pub fn lines(face: &Face<'_>, features: &[Feature], width: u64, mut buffer: UnicodeBuffer) -> Result<Lines, Error> {
    let (mut glyphs, mut lines) = (buffer.text.len().max(16), 16);
    loop {
        buffer.room.resize(glyphs, Glyph::default());
        let mut rows = vec![Line::default(); lines];
        let (mut count, mut line_count) = (0, 0);
        face.lines(
            &buffer.options,
            features,
            &buffer.text,
            width,
            (&mut buffer.room, &mut rows),
            (&mut count, &mut line_count),
        )?;
        if count <= glyphs && line_count <= lines {
            rows.truncate(line_count);
            buffer.clusters = None;
            buffer.take(count);
            return Ok(Lines { buffer, rows });
        }
        (glyphs, lines) = (glyphs.max(count), lines.max(line_count));
    }
}
