//! Our functions as the bench calls them, through the wrapper for Rust.

use crate::suolluvik::{self, Scalars};

/// The delta of a glyph's advance.
#[export_name = "ours_advance"]
#[inline(never)]
pub fn advance(font: &[u8], xvar: u32, glyph_id: u16, coords: &[i16]) -> f32 {
    suolluvik::advance_delta(font, xvar, glyph_id, coords).unwrap_or(0.)
}

/// The same as a 16.16 number.
#[export_name = "ours_raw"]
#[inline(never)]
pub fn raw(font: &[u8], xvar: u32, glyph_id: u16, coords: &[i16]) -> Option<i32> {
    suolluvik::advance_delta_fixed(font, xvar, glyph_id, coords).ok()
}

/// The scalars of HVAR's regions, to the first elements of a list.
#[export_name = "ours_filling"]
#[inline(never)]
pub fn filling<'a>(
    font: &'a [u8],
    xvar: u32,
    coords: &[i16],
    list: &'a mut [i32],
) -> Option<Scalars<'a>> {
    Scalars::fill(font, xvar, coords, list).ok()
}

/// The delta of a glyph's advance, with these.
#[export_name = "ours_list"]
#[inline(never)]
pub fn list(scalars: &Scalars, glyph_id: u16) -> f32 {
    scalars.advance_delta(glyph_id).unwrap_or(0.)
}

/// The delta of a measure.
#[export_name = "ours_mvar"]
#[inline(never)]
pub fn mvar(font: &[u8], mvar: u32, tag: u32, coords: &[i16]) -> f32 {
    suolluvik::mvar_delta(font, mvar, tag, coords).unwrap_or(0.)
}

/// The coordinates that settings give, to the first elements of out; answers how many.
#[export_name = "ours_settings"]
#[inline(never)]
pub fn settings(fvar: &[u8], tags: &[u32], values: &[f32], out: &mut [i16]) -> usize {
    suolluvik::normalized_coords(fvar, &[], 0, tags, values, out).unwrap_or(0) as usize
}

/// The coordinates of an instance, in the same way.
#[export_name = "ours_instance"]
#[inline(never)]
pub fn instance(fvar: &[u8], index: u16, out: &mut [i16]) -> usize {
    suolluvik::instance_coords(fvar, &[], 0, index, out).unwrap_or(0) as usize
}
