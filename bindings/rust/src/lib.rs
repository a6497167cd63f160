//! Apple Advanced Typography over the proved library `libaat`, by the names that rustybuzz has.
//!
//! ```no_run
//! let data = std::fs::read("sample.ttf")?;
//! let face = aat::Face::from_slice(&data, 0).ok_or("no font")?;
//! let mut buffer = aat::UnicodeBuffer::new();
//! buffer.push_str("fila");
//! let glyphs = aat::shape(&face, &[], buffer);
//! for (info, place) in glyphs.glyph_infos().iter().zip(glyphs.glyph_positions()) {
//!     println!("{}={}+{}", info.glyph_id, info.cluster, place.x_advance);
//! }
//! # Ok::<(), Box<dyn std::error::Error>>(())
//! ```
//!
//! A text that the library refuses (memory, a line that grows too long) is drawn as nothing by [`shape`], as rustybuzz
//! does; [`try_shape`] tells the reason.
mod buffer;
mod calls;
mod face;
mod feature;
mod lines;

pub use buffer::{GlyphBuffer, GlyphInfo, GlyphPosition, UnicodeBuffer};
pub use face::{Error, Face, Fault};
pub use feature::{Feature, Tag};
pub use lines::{lines, Lines, TextLine};

use calls::{Glyph, Options};

/// The direction of a text.
#[derive(Clone, Copy, Debug, PartialEq, Eq)]
pub enum Direction {
    LeftToRight = 4,
    RightToLeft = 5,
    TopToBottom = 6,
    BottomToTop = 7,
}

/// What of a text has a cluster of its own.
#[derive(Clone, Copy, Debug, Default, PartialEq, Eq)]
pub enum ClusterLevel {
    /// Each grapheme.
    #[default]
    MonotoneGraphemes = 0,
    /// Each character.
    MonotoneCharacters = 1,
}

/// A script, by its tag of ISO 15924.
#[derive(Clone, Copy, Debug, PartialEq, Eq)]
pub struct Script(pub(crate) u32);

impl Script {
    /// The script of a tag. A tag that is none is refused when a text is shaped.
    pub fn from_iso15924_tag(tag: Tag) -> Script {
        Script(tag.0)
    }
}

/// A glyph of a text that the caller made of characters.
#[repr(C)]
#[derive(Clone, Copy, Debug, Default, PartialEq, Eq)]
pub struct TextGlyph {
    pub glyph_id: u16,
    /// 1 where its character is ignorable, and 2 where it is a mark, added up.
    pub flags: u16,
    pub cluster: u32,
}

/// Shapes a text. Nothing is drawn of one that is refused.
pub fn shape(face: &Face<'_>, features: &[Feature], buffer: UnicodeBuffer) -> GlyphBuffer {
    match try_shape(face, features, buffer) {
        Ok(glyphs) => glyphs,
        Err((_, mut buffer)) => {
            buffer.take(0);
            GlyphBuffer { buffer }
        }
    }
}

/// Shapes a text, or gives the reason and the buffer back.
pub fn try_shape(
    face: &Face<'_>,
    features: &[Feature],
    mut buffer: UnicodeBuffer,
) -> Result<GlyphBuffer, (Error, UnicodeBuffer)> {
    let characters: Vec<u32> = match &buffer.clusters {
        Some(_) => buffer.text.chars().map(u32::from).collect(),
        None => Vec::new(),
    };
    let (text, options, is_told) = (std::mem::take(&mut buffer.text), buffer.options, buffer.clusters.is_some());
    let count = into_room(&mut buffer.room, text.len(), |room, count| {
        if is_told {
            face.shape_characters(&options, features, &characters, room, count)
        } else {
            face.shape_text(&options, features, &text, room, count)
        }
    });
    buffer.text = text;
    match count {
        Ok(count) => {
            buffer.take(count);
            Ok(GlyphBuffer { buffer })
        }
        Err(error) => Err((error, buffer)),
    }
}

/// Shapes glyphs with clusters of their own. They are tracked at a point size, 65536 a point, if one is told.
pub fn shape_glyphs(
    face: &Face<'_>,
    features: &[Feature],
    direction: Option<Direction>,
    point_size: Option<u32>,
    text: &[TextGlyph],
) -> Result<(Vec<GlyphInfo>, Vec<GlyphPosition>), Error> {
    let mut buffer = UnicodeBuffer::new();
    let options = Options {
        direction: direction.map_or(0, |it| it as u32),
        point_size: point_size.unwrap_or(0),
        ..Options::default()
    };
    let count = into_room(&mut buffer.room, text.len(), |room, count| {
        face.shape_glyphs(&options, features, text, room, count)
    })?;
    buffer.take(count);
    Ok((buffer.infos, buffer.positions))
}

/// Calls with room for glyphs, and once more where it was too little.
fn into_room(
    room: &mut Vec<Glyph>,
    guess: usize,
    call: impl Fn(&mut [Glyph], &mut usize) -> Result<(), Error>,
) -> Result<usize, Error> {
    if room.len() < guess {
        room.resize(guess, Glyph::default());
    }
    let mut count = 0;
    call(room, &mut count)?;
    if count > room.len() {
        room.resize(count, Glyph::default());
        call(room, &mut count)?;
    }
    Ok(count)
}
