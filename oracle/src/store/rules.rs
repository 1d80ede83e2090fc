//! The rules for the item variation store, HVAR, VVAR and MVAR, from their text alone, in exact
//! integers. Nothing here is taken from the Rust or from the Rattle, so that it judges both. A
//! refusal is its number.

use crate::axes::rules::{unsigned, Answer};
use crate::numbers::rules::{div, from_f2dot14, mul, wrap32};

/// The signed number that n bytes at p make.
fn signed(font: &[u8], p: usize, n: usize) -> Answer<i128> {
    let half = 1 << (8 * n - 1);
    unsigned(font, p, n).map(|x| if x < half { x } else { x - 2 * half })
}

/// An unsigned number that counts, or leads to a place.
pub fn place(font: &[u8], p: usize, n: usize) -> Answer<usize> {
    unsigned(font, p, n).map(|x| x as usize)
}

/// A 16.16 number times one gap between 2.14 numbers, then divided by another.
fn scaled(scalar: i128, gap: i128, by: i128) -> i128 {
    let wide = |x| from_f2dot14(x) as i128;
    div(mul(scalar, wide(gap)) as i128, wide(by)) as i128
}

/// Start, peak and end.
pub fn triple(font: &[u8], p: usize) -> Answer<[i128; 3]> {
    Ok([
        signed(font, p, 2)?,
        signed(font, p + 2, 2)?,
        signed(font, p + 4, 2)?,
    ])
}

/// Whether a triple is skipped, whatever the coordinate is.
pub fn skipped([start, peak, end]: [i128; 3]) -> bool {
    start > peak || peak > end || peak == 0 || (start < 0 && 0 < end)
}

/// The scalar of the region whose triples start at p.
fn scalar(font: &[u8], p: usize, axis_count: usize, coords: &[i16]) -> Answer<i128> {
    let mut scalar = 65536;
    for axis in 0..axis_count {
        let [start, peak, end] = triple(font, p + 6 * axis)?;
        let coord = coords.get(axis).map_or(0, |c| *c as i128);
        if skipped([start, peak, end]) {
            continue;
        }
        if coord < start || end < coord {
            return Ok(0);
        }
        if coord < peak {
            scalar = scaled(scalar, coord - start, peak - start);
        } else if coord > peak {
            scalar = scaled(scalar, end - coord, end - peak);
        }
        assert!((0..=65536).contains(&scalar));
    }
    Ok(scalar)
}

/// What becomes of a row outside its subtable's item count, and whether one was met.
#[derive(Clone, Copy)]
pub struct Rows {
    pub counted: bool,
    pub outside: bool,
}

/// The rule: OpenType has no such item, and the row is refused by 3.
pub const COUNTED: Rows = Rows {
    counted: true,
    outside: false,
};

/// A second model, for the Rust, which does not look at the count: the bytes that lie there are the
/// row. It was document 01's rule before W-201.
pub const UNCOUNTED: Rows = Rows {
    counted: false,
    outside: false,
};

/// A store's list of regions: where the first one's triples are, and its two counts.
pub struct Regions {
    start: usize,
    axis_count: usize,
    pub count: usize,
}

impl Regions {
    /// Order: the list's offset, axis count, region count.
    pub fn of(font: &[u8], store: usize) -> Answer<Self> {
        let list = store + place(font, store + 2, 4)?;
        Ok(Regions {
            axis_count: place(font, list, 2)?,
            count: place(font, list + 2, 2)?,
            start: list + 4,
        })
    }

    pub fn scalar(&self, font: &[u8], region: usize, coords: &[i16]) -> Answer<i128> {
        let triples = self.start + 6 * self.axis_count * region;
        scalar(font, triples, self.axis_count, coords)
    }
}

/// A row, with the regions that its indices lead to.
pub struct Row {
    pub regions: Regions,
    indices: usize,
    index_count: usize,
    word_count: usize,
    entries: usize,
}

impl Row {
    /// Order: offset 0; subtable count; outer; region list offset; axis count, region count; subtable
    /// offset; region index count; word count; refusal 5; item count; inner.
    pub fn of(
        font: &[u8],
        store: usize,
        outer: usize,
        inner: usize,
        rows: &mut Rows,
    ) -> Answer<Self> {
        if store == 0 {
            return Err(1);
        }
        let subtable_count = place(font, store + 6, 2)?;
        if outer >= subtable_count {
            return Err(3);
        }
        let regions = Regions::of(font, store)?;
        let subtable = store + place(font, store + 8 + 4 * outer, 4)?;
        let index_count = place(font, subtable + 4, 2)?;
        let word_count = place(font, subtable + 2, 2)?;
        if word_count > index_count {
            return Err(5);
        }
        if inner >= place(font, subtable, 2)? {
            rows.outside = true;
            if rows.counted {
                return Err(3);
            }
        }
        let indices = subtable + 6;
        Ok(Row {
            regions,
            indices,
            index_count,
            word_count,
            entries: indices + 2 * index_count + inner * (index_count + word_count),
        })
    }

    /// For each region index in turn: read it, refuse 3 if too large, have the region's scalar, then read
    /// the entry.
    pub fn sum(&self, font: &[u8], scalar: impl Fn(usize) -> Answer<i128>) -> Answer<i64> {
        let mut entry = self.entries;
        let mut sum = 0;
        for k in 0..self.index_count {
            let region = place(font, self.indices + 2 * k, 2)?;
            if region >= self.regions.count {
                return Err(3);
            }
            let scalar = scalar(region)?;
            let size = if k < self.word_count { 2 } else { 1 };
            sum += scalar * signed(font, entry, size)?;
            entry += size;
        }
        Ok(wrap32(sum))
    }
}

/// The row, and its sum with each region's triples walked.
pub fn item(
    font: &[u8],
    store: usize,
    outer: usize,
    inner: usize,
    coords: &[i16],
    rows: &mut Rows,
) -> Answer<i64> {
    let row = Row::of(font, store, outer, inner, rows)?;
    row.sum(font, |region| row.regions.scalar(font, region, coords))
}

/// Where a table's map offset is.
#[derive(Clone, Copy, PartialEq)]
pub enum Map {
    Advance = 8,
    Bearing = 12,
}

/// Where the store of the table at base is. Order: base 0, store offset, its 0, its sum with base.
pub fn store_of(font: &[u8], base: usize) -> Answer<usize> {
    if base == 0 {
        return Err(1);
    }
    let store = place(font, base + 4, 4)?;
    if store == 0 {
        return Err(1);
    }
    if store + base >= 1 << 32 {
        return Err(5);
    }
    Ok(store + base)
}

/// The store, and a glyph's outer and inner index. Order: the store's; map offset, its 0, format, count,
/// count 0, entry.
pub fn glyph_item(
    font: &[u8],
    base: usize,
    map: Map,
    glyph: usize,
) -> Answer<(usize, usize, usize)> {
    let store = store_of(font, base)?;
    let offset = place(font, base + map as usize, 4)?;
    if offset == 0 && map == Map::Bearing {
        return Err(1);
    }
    let (outer, inner) = match offset {
        0 => (0, glyph),
        _ => map_entry(font, base + offset, glyph)?,
    };
    Ok((store, outer, inner))
}

pub fn metric(
    font: &[u8],
    base: usize,
    map: Map,
    glyph: usize,
    coords: &[i16],
    rows: &mut Rows,
) -> Answer<i64> {
    let (store, outer, inner) = glyph_item(font, base, map, glyph)?;
    item(font, store, outer, inner, coords, rows)
}

/// A glyph's outer and inner index, by the map at p. A glyph at or past the count uses the last
/// entry; the outer index keeps its low 16 bits.
fn map_entry(font: &[u8], p: usize, glyph: usize) -> Answer<(usize, usize)> {
    let format = place(font, p, 2)?;
    let count = place(font, p + 2, 2)?;
    if count == 0 {
        return Err(5);
    }
    let size = format / 16 % 4 + 1;
    let entry = place(font, p + 4 + size * glyph.min(count - 1), size)?;
    let inners = 1 << (format % 16 + 1);
    Ok((entry / inners % 65536, entry % inners))
}

pub struct Mvar<'a> {
    /// the font from its start on
    pub part: &'a [u8],
    pub record_size: usize,
    pub record_count: usize,
    pub store: usize,
}

/// Reads size, count, store, then gives 1. All positions count from the table's start.
pub fn open(font: &[u8], offset: usize) -> Answer<Mvar<'_>> {
    let part = font.get(offset..).unwrap_or(&[]);
    let mvar = Mvar {
        part,
        record_size: place(part, 6, 2)?,
        record_count: place(part, 8, 2)?,
        store: place(part, 10, 2)?,
    };
    if mvar.record_count == 0 || mvar.store == 0 {
        return Err(1);
    }
    Ok(mvar)
}

impl Mvar<'_> {
    /// A tag's outer and inner index. Search from l = 0, h = count, middle floor((l + h) / 2); the record
    /// has its inner index at 4, its outer index at 6.
    pub fn item(&self, tag: u32) -> Answer<(usize, usize)> {
        let (mut l, mut h) = (0, self.record_count);
        while l < h {
            let middle = (l + h) / 2;
            let record = 12 + middle * self.record_size;
            let found = unsigned(self.part, record, 4)?;
            if found == tag as i128 {
                let inner = place(self.part, record + 4, 2)?;
                let outer = place(self.part, record + 6, 2)?;
                return Ok((outer, inner));
            }
            if (tag as i128) < found {
                h = middle;
            } else {
                l = middle + 1;
            }
        }
        Err(4)
    }
}

pub fn tag_delta(
    font: &[u8],
    offset: usize,
    tag: u32,
    coords: &[i16],
    rows: &mut Rows,
) -> Answer<i64> {
    let mvar = open(font, offset)?;
    let (outer, inner) = mvar.item(tag)?;
    item(mvar.part, mvar.store, outer, inner, coords, rows)
}
