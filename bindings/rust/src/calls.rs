//! The calls of `aat.h`.
use crate::{Feature, TextGlyph};

#[repr(C)]
pub struct Slot {
    pub pointer: *mut u8,
}

#[repr(C)]
pub struct Font {
    pub slot: Slot,
    pub is_full: bool,
}

impl Font {
    pub const NONE: Font = Font { slot: Slot { pointer: std::ptr::null_mut() }, is_full: false };
}

#[repr(C)]
#[derive(Clone, Copy, Default)]
pub struct Options {
    pub direction: u32,
    pub script: u32,
    pub point_size: u32,
    pub cluster_level: u32,
}

#[repr(C)]
#[derive(Clone, Copy, Debug, Default, PartialEq, Eq)]
pub struct Glyph {
    pub glyph_id: u32,
    pub cluster: u32,
    pub x_advance: i32,
    pub y_advance: i32,
    pub x_offset: i32,
    pub y_offset: i32,
    pub flags: u32,
}

#[repr(C)]
#[derive(Clone, Copy, Default)]
pub struct Line {
    pub text_end: usize,
    pub glyphs_end: usize,
}

#[repr(C)]
#[derive(Clone, Copy, Debug, Default, PartialEq, Eq)]
pub struct Fault {
    pub table: u32,
    pub kind: u32,
    pub place: usize,
}

extern "C" {
    pub fn aat_status_text(status: u32, out: *mut u8, room: usize) -> usize;
    pub fn aat_fault_text(kind: u32, out: *mut u8, room: usize) -> usize;
    pub fn aat_font_read(font: *mut Font, bytes: *const u8, length: usize, index: u32) -> u32;
    pub fn aat_font_free(font: *mut Font);
    pub fn aat_font_glyph_count(font: *mut Font) -> u32;
    pub fn aat_font_units_per_em(font: *mut Font) -> u32;
    pub fn aat_font_glyph(font: *mut Font, character: u32) -> u32;
    pub fn aat_font_has_feature(font: *mut Font, tag: u32) -> bool;
    pub fn aat_font_fault_count(font: *mut Font) -> usize;
    pub fn aat_font_fault(font: *mut Font, number: usize, fault: *mut Fault) -> u32;
    pub fn aat_font_name(font: *mut Font, name: u32, out: *mut u8, room: usize, count: *mut usize) -> u32;
    pub fn aat_feature_from_string(text: *const u8, length: usize, feature: *mut Feature) -> u32;
    pub fn aat_shape_utf8(
        font: *mut Font,
        options: *const Options,
        features: *const Feature,
        feature_count: usize,
        text: *const u8,
        length: usize,
        out: *mut Glyph,
        room: usize,
        count: *mut usize,
    ) -> u32;
    pub fn aat_shape_utf32(
        font: *mut Font,
        options: *const Options,
        features: *const Feature,
        feature_count: usize,
        text: *const u32,
        length: usize,
        out: *mut Glyph,
        room: usize,
        count: *mut usize,
    ) -> u32;
    pub fn aat_shape_glyphs(
        font: *mut Font,
        options: *const Options,
        features: *const Feature,
        feature_count: usize,
        text: *const TextGlyph,
        length: usize,
        out: *mut Glyph,
        room: usize,
        count: *mut usize,
    ) -> u32;
    pub fn aat_lines_utf8(
        font: *mut Font,
        options: *const Options,
        features: *const Feature,
        feature_count: usize,
        text: *const u8,
        length: usize,
        width: u64,
        out: *mut Glyph,
        room: usize,
        count: *mut usize,
        lines: *mut Line,
        line_room: usize,
        line_count: *mut usize,
    ) -> u32;
}
