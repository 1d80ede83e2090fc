//! Stands in for the files that swash's `metrics.rs` leans on: the tables that describe a font, of
//! which a font here has none, and those with a glyph's unvaried numbers, which are a case's own.

use super::super::FontRef;
use std::cell::Cell;

/// A glyph's unvaried numbers.
#[derive(Copy, Clone, Default)]
pub struct Unvaried {
    pub advance: u16,
    pub bearing: i16,
    pub y_max: Option<i16>,
    pub origin: Option<i16>,
}

thread_local! {
    static UNVARIED: Cell<Unvaried> = Cell::default();
}

/// What the tables below answer from now on.
pub fn set_unvaried(unvaried: Unvaried) {
    UNVARIED.with(|numbers| numbers.set(unvaried));
}

fn unvaried() -> Unvaried {
    UNVARIED.with(Cell::get)
}

pub mod xmtx {
    use super::super::{raw_tag, RawTag};
    use super::unvaried;

    pub const HMTX: RawTag = raw_tag(b"hmtx");
    pub const VMTX: RawTag = raw_tag(b"vmtx");

    pub fn advance(_data: &[u8], _xmtx: u32, _count: u16, _glyph_id: u16) -> u16 {
        unvaried().advance
    }

    pub fn sb(_data: &[u8], _xmtx: u32, _count: u16, _glyph_id: u16) -> i16 {
        unvaried().bearing
    }
}

pub mod vorg {
    use super::super::{raw_tag, RawTag};
    use super::unvaried;

    pub const VORG: RawTag = raw_tag(b"VORG");

    pub fn origin(_data: &[u8], _vorg: u32, _glyph_id: u16) -> Option<i16> {
        unvaried().origin
    }
}

pub mod glyf {
    use super::super::{raw_tag, RawTag};
    use super::unvaried;

    pub const GLYF: RawTag = raw_tag(b"glyf");
    pub const LOCA: RawTag = raw_tag(b"loca");

    pub fn ymax(_data: &[u8], _fmt: u8, _loca: u32, _glyf: u32, _glyph_id: u16) -> Option<i16> {
        unvaried().y_max
    }
}

/// A table that no font here has: its fields are there to be named.
#[derive(Copy, Clone, Default)]
pub struct NoTable;

macro_rules! fields {
    ($($name:ident: $type:ty,)*) => {
        impl NoTable {
            $(pub fn $name(&self) -> $type {
                Default::default()
            })*
        }
    };
}

fields! {
    units_per_em: u16,
    index_to_location_format: i16,
    glyph_count: u16,
    selection_flags: NoTable,
    use_typographic_metrics: bool,
    average_char_width: i16,
    strikeout_position: i16,
    strikeout_size: i16,
    x_height: i16,
    cap_height: i16,
    typographic_ascender: i16,
    typographic_descender: i16,
    typographic_line_gap: i16,
    ascender: i16,
    descender: i16,
    line_gap: i16,
    max_advance: u16,
    num_long_metrics: u16,
    underline_position: i16,
    underline_size: i16,
    is_fixed_pitch: bool,
}

macro_rules! no_tables {
    ($($name:ident)*) => {
        impl FontRef<'_> {
            $(pub fn $name(&self) -> Option<NoTable> {
                None
            })*
        }
    };
}

no_tables! { head maxp os2 hhea vhea post }
