//! The rules for fvar, avar, normalising and coordinate lists, from their text alone, in exact integers.
//! Nothing here is taken from the Rust or from the Rattle, so that it judges both. A refusal is its
//! number.

use crate::numbers::rules::{from_f2dot14, from_f32, muldiv, to_f2dot14, wrap32};

pub type Answer<T> = Result<T, u8>;

/// The number that n bytes at p make.
pub fn unsigned(table: &[u8], p: usize, n: usize) -> Answer<i128> {
    if p + n > table.len() {
        return Err(2);
    }
    Ok(table[p..p + n]
        .iter()
        .fold(0, |x, byte| 256 * x + *byte as i128))
}

fn signed32(table: &[u8], p: usize) -> Answer<i128> {
    unsigned(table, p, 4).map(|x| wrap32(x) as i128)
}

pub struct Header {
    pub axis_offset: usize,
    pub axis_count: usize,
    pub axis_size: usize,
    pub instance_count: usize,
    pub instance_size: usize,
}

/// An unreadable field is 0.
pub fn header(table: &[u8]) -> Header {
    let field = |p| unsigned(table, p, 2).unwrap_or(0) as usize;
    Header {
        axis_offset: field(4),
        axis_count: field(8),
        axis_size: field(10),
        instance_count: field(12),
        instance_size: field(14),
    }
}

#[derive(Default)]
pub struct Axis {
    pub index: usize,
    pub tag: u32,
    pub min: i128,
    pub default: i128,
    pub max: i128,
    pub flags: i128,
    pub name_id: i128,
}

pub fn axis(table: &[u8], index: usize) -> Answer<Axis> {
    let fvar = header(table);
    if index >= fvar.axis_count {
        return Err(3);
    }
    let at = fvar.axis_offset + index * fvar.axis_size;
    Ok(Axis {
        index,
        tag: unsigned(table, at, 4)? as u32,
        min: signed32(table, at + 4)?,
        default: signed32(table, at + 8)?,
        max: signed32(table, at + 12)?,
        flags: unsigned(table, at + 16, 2)?,
        name_id: unsigned(table, at + 18, 2)?,
    })
}

/// The first wholly readable axis whose tag matches, else 4.
pub fn axis_by_tag(table: &[u8], tag: u32) -> Answer<Axis> {
    let axes = (0..header(table).axis_count).filter_map(|i| axis(table, i).ok());
    axes.into_iter().find(|axis| axis.tag == tag).ok_or(4)
}

pub struct Instance<'a> {
    pub name_id: i128,
    /// the record's last two bytes, where its size has room for just these; 0xFFFF is none
    pub postscript_name_id: Option<i128>,
    /// what swash has for it: as far from the table's start, and 0xFFFF as any other
    pub swash_postscript_name_id: Option<i128>,
    pub values: &'a [u8],
}

pub fn instance_start(fvar: &Header, index: usize) -> usize {
    fvar.axis_offset + fvar.axis_count * fvar.axis_size + index * fvar.instance_size
}

pub fn instance(table: &[u8], index: usize) -> Answer<Instance<'_>> {
    let fvar = header(table);
    if index >= fvar.instance_count {
        return Err(3);
    }
    let at = instance_start(&fvar, index);
    let name_id = unsigned(table, at, 2)?;
    let (start, size) = (at + 4, 4 * fvar.axis_count);
    // nothing behind the record's first four bytes: 2, with no axes too
    if start >= table.len() || start + size > table.len() {
        return Err(2);
    }
    if fvar.instance_size < 2 {
        return Err(5);
    }
    let last = 4 + size;
    let id_at = |from: usize| match last == fvar.instance_size - 2 {
        true => unsigned(table, from + last, 2).ok(),
        false => None,
    };
    Ok(Instance {
        name_id,
        postscript_name_id: id_at(at).filter(|id| *id != 0xffff),
        swash_postscript_name_id: id_at(0),
        values: &table[start..start + size],
    })
}

/// Whether of an instance's record 2 or 3 bytes are there: its name id is readable, and the Rust, which
/// counts the bytes behind the fourth, goes below 0.
pub fn few_left(table: &[u8], index: usize) -> bool {
    let at = instance_start(&header(table), index);
    at + 2 <= table.len() && table.len() < at + 4
}

/// One of an instance's values.
pub fn value(values: &[u8], i: usize) -> Answer<i128> {
    signed32(values, 4 * i)
}

fn values(part: &[u8]) -> impl Iterator<Item = i128> + '_ {
    (0..part.len() / 4).filter_map(|i| value(part, i).ok())
}

/// The instance's refusal, then 7.
pub fn instance_values(table: &[u8], index: usize, room: usize) -> Answer<Vec<i128>> {
    let values: Vec<i128> = values(instance(table, index)?.values).collect();
    if values.len() > room {
        return Err(7);
    }
    Ok(values)
}

/// An avar: its font, and where it starts in that. At 0 there is none.
#[derive(Clone, Copy)]
pub struct Avar<'a> {
    pub font: &'a [u8],
    pub offset: usize,
}

/// For the shelf, which asks without one.
#[allow(dead_code)]
pub const NO_AVAR: Avar = Avar {
    font: &[],
    offset: 0,
};

/// A pair's from and to, in 16.16.
pub type Pair = (i128, i128);

/// Axis count at 6. None with an offset of 0, for an axis at or past the count, or by a read past the end
/// before its map's end.
pub fn pairs(avar: Avar, axis: usize) -> Option<Vec<Pair>> {
    let count = unsigned(avar.font, avar.offset + 6, 2).ok()?;
    if avar.offset == 0 || axis as i128 >= count {
        return None;
    }
    pairs_at(avar, axis)
}

/// From 8 on, per axis a count and pairs from, to in 2.14: those in the place of an axis, whatever the count
/// of axes.
pub fn pairs_at(avar: Avar, axis: usize) -> Option<Vec<Pair>> {
    // everything is 16 bits wide: number k stands at 2·k
    let number = |k: usize| unsigned(avar.font, avar.offset + 2 * k, 2).ok();
    let mut numbers = (4..).map(number);
    let mut next = || numbers.next().flatten();
    for _ in 0..axis {
        let earlier = next()?;
        for _ in 0..2 * earlier {
            next()?;
        }
    }
    let count = next()?;
    let signed = |x: i128| from_f2dot14(if x < 32768 { x } else { x - 65536 }) as i128;
    (0..count)
        .map(|_| Some((signed(next()?), signed(next()?))))
        .collect()
}

/// Take the first pair whose from is not below the value: equal gives its to; if it is the first pair,
/// or none exists, the value stays; otherwise, with the pair before it, to0 plus (to1 - to0)·(v - from0)
/// over (from1 - from0), rounded as muldiv.
fn mapped(pairs: &[Pair], value: i128) -> i128 {
    let k = match pairs.iter().position(|(from, _)| *from >= value) {
        Some(k) => k,
        None => return value,
    };
    let (from1, to1) = pairs[k];
    if from1 == value {
        return to1;
    }
    if k == 0 {
        return value;
    }
    let (from0, to0) = pairs[k - 1];
    to0 + muldiv(to1 - to0, value - from0, from1 - from0) as i128
}

/// What an avar makes of a value of an axis, in 16.16.
pub fn adjust(avar: Avar, axis: usize, value: i128) -> i128 {
    pairs(avar, axis).map_or(value, |pairs| mapped(&pairs, value))
}

const HALF: i128 = 1 << 31;

/// If below min take min, else if above max take max. Below default: minus (default - value) over
/// (default - min). Above: (value - default) over (max - default). Equal: 0. Hold to -65536..65536,
/// apply avar, go to 2.14.
pub fn normalise(axis: &Axis, avar: Avar, value: i128) -> Answer<i64> {
    Ok(to_f2dot14(adjust(avar, axis.index, held(axis, value)?)))
}

/// What avar is applied to.
pub fn held(axis: &Axis, value: i128) -> Answer<i128> {
    Ok(from_default(axis, value)?.clamp(-65536, 65536))
}

fn from_default(axis: &Axis, value: i128) -> Answer<i128> {
    let value = match value {
        v if v < axis.min => axis.min,
        v if v > axis.max => axis.max,
        v => v,
    };
    if value == axis.default {
        return Ok(0);
    }
    let below = value < axis.default;
    let (n, d) = if below {
        (axis.default - value, axis.default - axis.min)
    } else {
        (value - axis.default, axis.max - axis.default)
    };
    let (n, d) = (wrap32(n) as i128, wrap32(d) as i128);
    if n == -HALF || d == -HALF {
        return Err(5);
    }
    let signs_differ = (n < 0) != (d < 0);
    let quotient = match d.abs() {
        0 => HALF - 1,
        size => (n.abs() * 65536 + size / 2) / size % (2 * HALF),
    };
    if quotient == HALF && (below || signs_differ) {
        return Err(5);
    }
    let ratio = wrap32(if signs_differ { -quotient } else { quotient }) as i128;
    Ok(wrap32(if below { -ratio } else { ratio }) as i128)
}

/// From settings. Order: 6, 7, then the first 5.
pub fn settings(
    table: &[u8],
    avar: Avar,
    tags: &[u32],
    floats: &[u32],
    room: usize,
) -> Answer<Vec<i64>> {
    if tags.len() != floats.len() {
        return Err(6);
    }
    let count = header(table).axis_count.min(32);
    if count > room {
        return Err(7);
    }
    let mut coords = vec![0; count];
    for (tag, float) in tags.iter().zip(floats) {
        for (i, coord) in coords.iter_mut().enumerate() {
            match axis(table, i) {
                Ok(axis) if axis.tag == *tag => {
                    *coord = normalise(&axis, avar, from_f32(*float) as i128)?;
                }
                _ => (),
            }
        }
    }
    Ok(coords)
}

/// For an instance every axis counts; an unreadable one is all zeros with index 0. Order: the
/// instance's refusal, 7, 5.
pub fn instance_coords(table: &[u8], avar: Avar, index: usize, room: usize) -> Answer<Vec<i64>> {
    let values = instance_values(table, index, room)?;
    let coord = |(i, value)| normalise(&axis(table, i).unwrap_or_default(), avar, value);
    values.into_iter().enumerate().map(coord).collect()
}
