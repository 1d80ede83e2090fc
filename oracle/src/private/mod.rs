//! Five of swash's files among shims of ours, so that what is private in them can be asked. This one
//! stands in for swash's own `lib.rs` and for the files that its `variation.rs` and `metrics.rs` lean
//! on: a font that is one bare fvar, settings, and names, of which there are none here. The build puts
//! swash's `variation.rs` beside this file, unchanged, and `metrics.rs`, unchanged, with `hook.rs`
//! behind it.
#![allow(dead_code)]

#[macro_use]
mod macros;
pub mod internal;
pub mod metrics;
pub mod setting;
pub mod string;
pub mod variation;

use internal::{var, RawFont, RawTag};

pub type Tag = u32;
pub type GlyphId = u16;
pub type NormalizedCoord = i16;

/// A font whose only table is an fvar, its data. For the measures it is any bytes: they come with the
/// offsets in them.
#[derive(Copy, Clone)]
pub struct FontRef<'a> {
    pub data: &'a [u8],
}

impl<'a> RawFont<'a> for FontRef<'a> {
    /// Of avar alone this is asked for what is compared; there is none.
    fn table_offset(&self, _tag: RawTag) -> u32 {
        0
    }

    fn table_data(&self, tag: RawTag) -> Option<&'a [u8]> {
        (tag == var::FVAR).then_some(self.data)
    }
}

impl<'a> FontRef<'a> {
    pub fn localized_strings(&self) -> string::LocalizedStrings<'a> {
        string::LocalizedStrings::default()
    }
}
