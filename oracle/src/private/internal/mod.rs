//! Stands in for swash's own `internal/mod.rs`, which names tables that are not used here. The
//! build puts swash's files beside this one, unchanged; and as `shown.rs` the text of `var.rs` once
//! more, with `hook.rs` behind it.
#![allow(dead_code, unused_imports)]

pub mod fixed;
mod parse;
pub mod shown;
mod tables;
pub mod var;

pub use parse::*;
pub use tables::*;

pub type RawTag = u32;

/// The number that four bytes make.
pub const fn raw_tag(bytes: &[u8; 4]) -> RawTag {
    u32::from_be_bytes(*bytes)
}

/// What a font answers that is asked for a table.
pub trait RawFont<'a>: Sized {
    fn table_offset(&self, tag: RawTag) -> u32;
    fn table_data(&self, tag: RawTag) -> Option<&'a [u8]>;
}

impl<'a, T: RawFont<'a>> RawFont<'a> for &T {
    fn table_offset(&self, tag: RawTag) -> u32 {
        (*self).table_offset(tag)
    }

    fn table_data(&self, tag: RawTag) -> Option<&'a [u8]> {
        (*self).table_data(tag)
    }
}
