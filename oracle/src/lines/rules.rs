//! The rules for the scalars of a store's regions in a lent list (W-204), from their text alone: filling it,
//! and the deltas that are read with it. What stands before a row, the walk of a region and the sum over a
//! row are those of the store's rules. Nothing here is taken from the Rattle. A refusal is its number.

use crate::axes::rules::Answer;
use crate::store::rules::{self, Map, Regions, Row, Rows};

/// What stands for a region whose record runs out before its scalar is known.
const UNKNOWN: i32 = -1;

/// Order: offset 0; region list offset, axis count, region count; a list that is too short, by 7. Nothing is
/// written then, else a number for each region. The subtable count is not read.
pub fn fill(font: &[u8], store: usize, coords: &[i16], list: &mut [i32]) -> Answer<usize> {
    if store == 0 {
        return Err(1);
    }
    let regions = Regions::of(font, store)?;
    if list.len() < regions.count {
        return Err(7);
    }
    for (region, kept) in list.iter_mut().take(regions.count).enumerate() {
        let scalar = regions.scalar(font, region, coords);
        *kept = scalar.map_or(UNKNOWN, |scalar| scalar as i32);
    }
    Ok(regions.count)
}

/// Order: the row's, inner last; a list that is too short, by 7, also where the row names no region; then the
/// sum. A region that is not known is refused by 2; any other number is a scalar.
pub fn item(
    font: &[u8],
    store: usize,
    outer: usize,
    inner: usize,
    list: &[i32],
    rows: &mut Rows,
) -> Answer<i64> {
    let row = Row::of(font, store, outer, inner, rows)?;
    if list.len() < row.regions.count {
        return Err(7);
    }
    row.sum(font, |region| match list[region] {
        UNKNOWN => Err(2),
        scalar => Ok(scalar as i128),
    })
}

pub fn metric(
    font: &[u8],
    base: usize,
    map: Map,
    glyph: usize,
    list: &[i32],
    rows: &mut Rows,
) -> Answer<i64> {
    let (store, outer, inner) = rules::glyph_item(font, base, map, glyph)?;
    item(font, store, outer, inner, list, rows)
}

pub fn tag_delta(
    font: &[u8],
    offset: usize,
    tag: u32,
    list: &[i32],
    rows: &mut Rows,
) -> Answer<i64> {
    let mvar = rules::open(font, offset)?;
    let (outer, inner) = mvar.item(tag)?;
    item(mvar.part, mvar.store, outer, inner, list, rows)
}

/// Fills the list of the store of the table at base.
pub fn fill_by_xvar(font: &[u8], base: usize, coords: &[i16], list: &mut [i32]) -> Answer<usize> {
    fill(font, rules::store_of(font, base)?, coords, list)
}

/// Fills the list of an MVAR's own store. All positions count from the MVAR's start.
pub fn fill_by_mvar(font: &[u8], offset: usize, coords: &[i16], list: &mut [i32]) -> Answer<usize> {
    let mvar = rules::open(font, offset)?;
    fill(mvar.part, mvar.store, coords, list)
}
