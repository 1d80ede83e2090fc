//! swash's functions as the bench calls them. Built twice, with overflow checks and without: the
//! functions' names say which.

#[macro_use]
mod private;

use private::internal::{shown, var};
use private::setting::Setting;
use private::variation::{Instances, Variations};
use private::FontRef;

/// The delta of a glyph's advance.
#[cfg_attr(checked, export_name = "checked_advance")]
#[cfg_attr(not(checked), export_name = "unchecked_advance")]
#[inline(never)]
pub fn advance(font: &[u8], xvar: u32, glyph_id: u16, coords: &[i16]) -> f32 {
    var::advance_delta(font, xvar, glyph_id, coords)
}

/// The same as a 16.16 number.
#[cfg_attr(checked, export_name = "checked_raw")]
#[cfg_attr(not(checked), export_name = "unchecked_raw")]
#[inline(never)]
pub fn raw(font: &[u8], xvar: u32, glyph_id: u16, coords: &[i16]) -> Option<i32> {
    shown::raw_advance_delta(font, xvar, glyph_id, coords).map(|delta| delta.0)
}

/// The delta of a measure: opens the MVAR, and asks for one tag.
#[cfg_attr(checked, export_name = "checked_mvar")]
#[cfg_attr(not(checked), export_name = "unchecked_mvar")]
#[inline(never)]
pub fn mvar(font: &[u8], mvar: u32, tag: u32, coords: &[i16]) -> f32 {
    match var::Mvar::new(font, mvar, coords) {
        Some(mvar) => mvar.delta(tag),
        None => 0.,
    }
}

/// The coordinates that settings give, to the first elements of out; answers how many.
#[cfg_attr(checked, export_name = "checked_settings")]
#[cfg_attr(not(checked), export_name = "unchecked_settings")]
#[inline(never)]
pub fn settings(fvar: &[u8], tags: &[u32], values: &[f32], out: &mut [i16]) -> usize {
    let settings = tags.iter().zip(values);
    let settings = settings.map(|(&tag, &value)| Setting { tag, value });
    let coords = Variations::from_font(&FontRef { data: fvar }).normalized_coords(settings);
    fill(out, coords)
}

/// The coordinates of an instance, in the same way.
#[cfg_attr(checked, export_name = "checked_instance")]
#[cfg_attr(not(checked), export_name = "unchecked_instance")]
#[inline(never)]
pub fn instance(fvar: &[u8], index: u16, out: &mut [i16]) -> usize {
    match Instances::from_font(&FontRef { data: fvar }).at(index as usize) {
        Some(instance) => fill(out, instance.normalized_coords()),
        None => 0,
    }
}

#[inline(always)]
fn fill(out: &mut [i16], coords: impl Iterator<Item = i16>) -> usize {
    let mut count = 0;
    for (place, coord) in out.iter_mut().zip(coords) {
        *place = coord;
        count += 1;
    }
    count
}
