//! What swash reads of hmtx, vmtx and VORG where ours refuses (its internal/xmtx.rs and vorg.rs, and what its
//! metrics.rs makes of a `None`): a model, so that swash is held to it, and ours to OpenType's text. Anywhere else both
//! are to be one.

use crate::store::rules::place;
use crate::widths::rules::{vorg_origin, Table};

/// Why swash has a number and ours has none:
///
/// - with no long record a bearing is read from the table's start on, as one of the bearings alone; an advance stops
///   it, by the overflow check that it is built with here;
/// - an offset of 0 is read like any other: the font's first bytes are the table;
/// - what is past the font's end is 0;
/// - where VORG can't be read the origin is the units per em, as a signed number.
#[derive(Clone, Copy)]
pub enum Falls {
    NoRecords,
    NoTable,
    PastEnd,
    Origin,
}

pub const FALLS: [&str; 4] = [
    "no long records: bearings from the table's start",
    "offset 0: the font's first bytes",
    "hmtx or vmtx past the font's end: 0",
    "VORG past the font's end: units per em",
];

impl Falls {
    /// By the number of ours.
    pub fn of(refusal: u8, origin: bool) -> Option<Falls> {
        match (refusal, origin) {
            (5, false) => Some(Falls::NoRecords),
            (1, false) => Some(Falls::NoTable),
            (2, false) => Some(Falls::PastEnd),
            (2, true) => Some(Falls::Origin),
            _ => None,
        }
    }
}

fn number(font: &[u8], table: Table, p: usize) -> u16 {
    place(font, table.at as usize + p, 2).unwrap_or(0) as u16
}

/// None where it stops.
pub fn advance(font: &[u8], table: Table, glyph: u16) -> Option<i32> {
    let last = table.count.checked_sub(1)?;
    Some(number(font, table, 4 * usize::from(glyph.min(last))).into())
}

pub fn bearing(font: &[u8], table: Table, glyph: u16) -> i32 {
    let (glyph, count) = (usize::from(glyph), usize::from(table.count));
    let p = match glyph < count {
        true => 4 * glyph + 2,
        false => 4 * count + 2 * (glyph - count),
    };
    (number(font, table, p) as i16).into()
}

pub fn origin(font: &[u8], vorg: u32, glyph: u16, units_per_em: u16) -> i16 {
    vorg_origin(font, vorg, glyph).unwrap_or(units_per_em as i16)
}
