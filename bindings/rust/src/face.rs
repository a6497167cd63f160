//! Faces, and why calls are refused.
use crate::calls::{self, Font, Glyph, Line, Options};
use crate::{Feature, Tag, TextGlyph};
use std::cell::UnsafeCell;
use std::fmt;
use std::marker::PhantomData;

/// Why a call is refused.
#[derive(Clone, Copy, Debug, PartialEq, Eq)]
pub enum Error {
    NoFont,
    OutOfMemory,
    BadFont,
    BadText,
    TextTooLong,
    AlternateTooLarge,
    LineTooLong,
    BadFeature,
    BadOption,
    NotThere,
}

impl Error {
    const ALL: [Error; 10] = [
        Error::NoFont,
        Error::OutOfMemory,
        Error::BadFont,
        Error::BadText,
        Error::TextTooLong,
        Error::AlternateTooLarge,
        Error::LineTooLong,
        Error::BadFeature,
        Error::BadOption,
        Error::NotThere,
    ];

    pub(crate) fn check(status: u32) -> Result<(), Error> {
        match status {
            0 => Ok(()),
            number => Err(Error::ALL[number as usize - 1]),
        }
    }
}

impl fmt::Display for Error {
    fn fmt(&self, out: &mut fmt::Formatter<'_>) -> fmt::Result {
        let mut text = [0; 80];
        // SAFETY: there is as much room as is told.
        let length = unsafe { calls::aat_status_text(*self as u32 + 1, text.as_mut_ptr(), text.len()) };
        out.write_str(&String::from_utf8_lossy(&text[..length.min(80)]))
    }
}

impl std::error::Error for Error {}

/// A fault of a table, for which what it is of is passed over.
#[derive(Clone, Copy, Debug, PartialEq, Eq)]
pub struct Fault {
    pub table: Tag,
    pub kind: u32,
    /// In bytes from the start of the table.
    pub place: usize,
}

impl fmt::Display for Fault {
    fn fmt(&self, out: &mut fmt::Formatter<'_>) -> fmt::Result {
        let mut text = [0; 80];
        // SAFETY: there is as much room as is told.
        let length = unsafe { calls::aat_fault_text(self.kind, text.as_mut_ptr(), text.len()) };
        let table = self.table.0.to_be_bytes();
        let (table, text) = (String::from_utf8_lossy(&table), String::from_utf8_lossy(&text[..length.min(80)]));
        write!(out, "{table} {text} at {}", self.place)
    }
}

/// A font over its bytes. It moves between threads, and is used by one at a time: a call takes what it holds, and puts it
/// back.
pub struct Face<'a> {
    font: UnsafeCell<Font>,
    bytes: PhantomData<&'a [u8]>,
}

// SAFETY: what the handle holds is proved to be `Send`.
unsafe impl Send for Face<'_> {}

impl<'a> Face<'a> {
    /// The font at an index of a file, or `None` where the directory of the file has a fault.
    pub fn from_slice(data: &'a [u8], face_index: u32) -> Option<Face<'a>> {
        Face::read(data, face_index).ok()
    }

    /// The font at an index of a file, or why there is none.
    pub fn read(data: &'a [u8], face_index: u32) -> Result<Face<'a>, Error> {
        let mut font = Font::NONE;
        // SAFETY: the handle is of zeros, and the bytes outlive it, by 'a.
        Error::check(unsafe { calls::aat_font_read(&mut font, data.as_ptr(), data.len(), face_index) })?;
        Ok(Face { font: UnsafeCell::new(font), bytes: PhantomData })
    }

    /// The units of the em.
    pub fn units_per_em(&self) -> i32 {
        // SAFETY: no other call is on the handle, which is not `Sync`. So for the calls that follow.
        unsafe { calls::aat_font_units_per_em(self.font.get()) as i32 }
    }

    /// The number of glyphs.
    pub fn number_of_glyphs(&self) -> u16 {
        unsafe { calls::aat_font_glyph_count(self.font.get()) as u16 }
    }

    /// The glyph of a character.
    pub fn glyph_index(&self, character: char) -> Option<u16> {
        match unsafe { calls::aat_font_glyph(self.font.get(), character as u32) } {
            0 => None,
            glyph => Some(glyph as u16),
        }
    }

    /// Whether the font has a feature.
    pub fn has_feature(&self, tag: Tag) -> bool {
        unsafe { calls::aat_font_has_feature(self.font.get(), tag.0) }
    }

    /// The faults of its tables.
    pub fn faults(&self) -> Vec<Fault> {
        let count = unsafe { calls::aat_font_fault_count(self.font.get()) };
        let mut faults = Vec::with_capacity(count);
        for number in 0..count {
            let mut fault = calls::Fault::default();
            unsafe { calls::aat_font_fault(self.font.get(), number, &mut fault) };
            faults.push(Fault { table: Tag(fault.table), kind: fault.kind, place: fault.place });
        }
        faults
    }

    /// The English text of a name, as 1 for the family.
    pub fn name(&self, name: u16) -> Option<String> {
        let mut room = vec![0; 256];
        let mut count = 0;
        for _turn in 0..2 {
            let status = unsafe {
                calls::aat_font_name(self.font.get(), name.into(), room.as_mut_ptr(), room.len(), &mut count)
            };
            Error::check(status).ok()?;
            if count <= room.len() {
                break;
            }
            room.resize(count, 0);
        }
        room.truncate(count);
        String::from_utf8(room).ok()
    }

    pub(crate) fn shape_text(
        &self,
        options: &Options,
        features: &[Feature],
        text: &str,
        room: &mut [Glyph],
        count: &mut usize,
    ) -> Result<(), Error> {
        // SAFETY: all that is pointed to is there for its length, and no pointer of a slice is null. So below.
        Error::check(unsafe {
            calls::aat_shape_utf8(
                self.font.get(),
                options,
                features.as_ptr(),
                features.len(),
                text.as_ptr(),
                text.len(),
                room.as_mut_ptr(),
                room.len(),
                count,
            )
        })
    }

    pub(crate) fn shape_characters(
        &self,
        options: &Options,
        features: &[Feature],
        text: &[u32],
        room: &mut [Glyph],
        count: &mut usize,
    ) -> Result<(), Error> {
        Error::check(unsafe {
            calls::aat_shape_utf32(
                self.font.get(),
                options,
                features.as_ptr(),
                features.len(),
                text.as_ptr(),
                text.len(),
                room.as_mut_ptr(),
                room.len(),
                count,
            )
        })
    }

    pub(crate) fn shape_glyphs(
        &self,
        options: &Options,
        features: &[Feature],
        text: &[TextGlyph],
        room: &mut [Glyph],
        count: &mut usize,
    ) -> Result<(), Error> {
        Error::check(unsafe {
            calls::aat_shape_glyphs(
                self.font.get(),
                options,
                features.as_ptr(),
                features.len(),
                text.as_ptr(),
                text.len(),
                room.as_mut_ptr(),
                room.len(),
                count,
            )
        })
    }

    pub(crate) fn lines(
        &self,
        options: &Options,
        features: &[Feature],
        text: &str,
        width: u64,
        room: (&mut [Glyph], &mut [Line]),
        counts: (&mut usize, &mut usize),
    ) -> Result<(), Error> {
        Error::check(unsafe {
            calls::aat_lines_utf8(
                self.font.get(),
                options,
                features.as_ptr(),
                features.len(),
                text.as_ptr(),
                text.len(),
                width,
                room.0.as_mut_ptr(),
                room.0.len(),
                counts.0,
                room.1.as_mut_ptr(),
                room.1.len(),
                counts.1,
            )
        })
    }
}

impl Drop for Face<'_> {
    fn drop(&mut self) {
        // SAFETY: the handle holds the font that it read, and is not used again.
        unsafe { calls::aat_font_free(self.font.get()) }
    }
}
