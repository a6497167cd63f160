//! Buffers, by the names that rustybuzz has.
use crate::calls::{Glyph, Options};
use crate::{ClusterLevel, Direction, Script};

/// A text that is to be shaped. Clusters are bytes of the text, unless characters are added with clusters of their own.
#[derive(Default)]
pub struct UnicodeBuffer {
    pub(crate) text: String,
    /// The cluster of each character, where the caller told them.
    pub(crate) clusters: Option<Vec<u32>>,
    pub(crate) options: Options,
    pub(crate) infos: Vec<GlyphInfo>,
    pub(crate) positions: Vec<GlyphPosition>,
    pub(crate) room: Vec<Glyph>,
}

impl UnicodeBuffer {
    /// An empty buffer.
    pub fn new() -> UnicodeBuffer {
        UnicodeBuffer::default()
    }

    /// How many characters there are.
    pub fn len(&self) -> usize {
        self.text.chars().count()
    }

    pub fn is_empty(&self) -> bool {
        self.text.is_empty()
    }

    /// Adds a text, whose clusters are its bytes behind those that are there.
    pub fn push_str(&mut self, text: &str) {
        if let Some(clusters) = &mut self.clusters {
            let start = self.text.len() as u32;
            clusters.extend(text.char_indices().map(|(place, _)| start + place as u32));
        }
        self.text.push_str(text);
    }

    /// Adds a character with a cluster.
    pub fn add(&mut self, character: char, cluster: u32) {
        if self.clusters.is_none() {
            self.clusters = Some(self.text.char_indices().map(|(place, _)| place as u32).collect());
        }
        self.text.push(character);
        if let Some(clusters) = &mut self.clusters {
            clusters.push(cluster);
        }
    }

    /// Has the text run in a direction. Without one it runs in that of its script.
    pub fn set_direction(&mut self, direction: Direction) {
        self.options.direction = direction as u32;
    }

    /// Has the text be of a script. Without one it is of the first script that a character has.
    pub fn set_script(&mut self, script: Script) {
        self.options.script = script.0;
    }

    pub fn set_cluster_level(&mut self, level: ClusterLevel) {
        self.options.cluster_level = level as u32;
    }

    /// Has the text tracked at a point size, 65536 a point. `None` tracks nothing.
    pub fn set_point_size(&mut self, size: Option<u32>) {
        self.options.point_size = size.unwrap_or(u32::MAX);
    }

    /// Takes all characters out, and what was told of them.
    pub fn clear(&mut self) {
        self.text.clear();
        self.clusters = None;
        self.options = Options::default();
    }
}

/// A glyph that is drawn: its number and its cluster.
#[derive(Clone, Copy, Debug, Default, PartialEq, Eq)]
pub struct GlyphInfo {
    pub glyph_id: u32,
    pub cluster: u32,
    pub(crate) flags: u32,
}

impl GlyphInfo {
    /// Whether the text must not be broken before it without being shaped again.
    pub fn unsafe_to_break(&self) -> bool {
        self.flags & 1 == 0
    }

    /// Whether its character is ignorable.
    pub fn is_ignorable(&self) -> bool {
        self.flags & 2 != 0
    }

    /// Whether its character is a mark.
    pub fn is_mark(&self) -> bool {
        self.flags & 4 != 0
    }
}

/// Where a glyph is drawn, in units of the font.
#[derive(Clone, Copy, Debug, Default, PartialEq, Eq)]
pub struct GlyphPosition {
    pub x_advance: i32,
    pub y_advance: i32,
    pub x_offset: i32,
    pub y_offset: i32,
}

/// What is drawn of a text, in drawing order.
pub struct GlyphBuffer {
    pub(crate) buffer: UnicodeBuffer,
}

impl GlyphBuffer {
    pub fn len(&self) -> usize {
        self.buffer.infos.len()
    }

    pub fn is_empty(&self) -> bool {
        self.buffer.infos.is_empty()
    }

    pub fn glyph_infos(&self) -> &[GlyphInfo] {
        &self.buffer.infos
    }

    pub fn glyph_positions(&self) -> &[GlyphPosition] {
        &self.buffer.positions
    }

    /// An empty buffer in the same memory.
    pub fn clear(mut self) -> UnicodeBuffer {
        self.buffer.clear();
        self.buffer
    }
}

impl UnicodeBuffer {
    /// Takes glyphs over.
    pub(crate) fn take(&mut self, count: usize) {
        self.infos.clear();
        self.positions.clear();
        for glyph in &self.room[..count] {
            self.infos.push(GlyphInfo { glyph_id: glyph.glyph_id, cluster: glyph.cluster, flags: glyph.flags });
            self.positions.push(GlyphPosition {
                x_advance: glyph.x_advance,
                y_advance: glyph.y_advance,
                x_offset: glyph.x_offset,
                y_offset: glyph.y_offset,
            });
        }
        if let Some(clusters) = &self.clusters {
            for info in &mut self.infos {
                info.cluster = clusters.get(info.cluster as usize).copied().unwrap_or(info.cluster);
            }
        }
    }
}
