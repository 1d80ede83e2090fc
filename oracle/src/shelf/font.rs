//! A font's tables, found by its directory as swash finds them (`RawFont::table_range`).

use crate::widths::rules::Table;

pub const AVAR: u32 = u32::from_be_bytes(*b"avar");
pub const FVAR: u32 = u32::from_be_bytes(*b"fvar");
pub const HVAR: u32 = u32::from_be_bytes(*b"HVAR");
pub const VVAR: u32 = u32::from_be_bytes(*b"VVAR");
pub const MVAR: u32 = u32::from_be_bytes(*b"MVAR");
pub const MAXP: u32 = u32::from_be_bytes(*b"maxp");
pub const HHEA: u32 = u32::from_be_bytes(*b"hhea");
pub const HMTX: u32 = u32::from_be_bytes(*b"hmtx");
pub const VHEA: u32 = u32::from_be_bytes(*b"vhea");
pub const VMTX: u32 = u32::from_be_bytes(*b"vmtx");
pub const VORG: u32 = u32::from_be_bytes(*b"VORG");

/// Where hhea and vhea count the long records.
pub const LONG_RECORDS: usize = 34;

const COLLECTION: u32 = u32::from_be_bytes(*b"ttcf");
/// The marks with which a font's directory starts.
const FONTS: [u32; 3] = [
    0x10000,
    u32::from_be_bytes(*b"OTTO"),
    u32::from_be_bytes(*b"true"),
];

const WOFFS: [u32; 2] = [u32::from_be_bytes(*b"wOFF"), u32::from_be_bytes(*b"wOF2")];

pub fn u16_at(data: &[u8], p: usize) -> Option<u16> {
    let bytes = data.get(p..p.checked_add(2)?)?;
    bytes.try_into().ok().map(u16::from_be_bytes)
}

pub fn u32_at(data: &[u8], p: usize) -> Option<u32> {
    let bytes = data.get(p..p.checked_add(4)?)?;
    bytes.try_into().ok().map(u32::from_be_bytes)
}

/// What a file is by its first bytes.
#[derive(Clone, Copy, PartialEq)]
pub enum Kind {
    /// a font or a collection, or what starts so
    Font,
    /// one that would have to be unpacked
    Woff,
    Other,
}

impl Kind {
    pub fn of(start: &[u8]) -> Self {
        match u32_at(start, 0) {
            Some(mark) if mark == COLLECTION || FONTS.contains(&mark) => Kind::Font,
            Some(mark) if WOFFS.contains(&mark) => Kind::Woff,
            _ => Kind::Other,
        }
    }
}

/// The faces by their numbers, with the place of each one's directory: one, or those of a collection.
pub fn faces(data: &[u8]) -> Vec<(usize, usize)> {
    if u32_at(data, 0) != Some(COLLECTION) {
        return vec![(0, 0)];
    }
    let count = u32_at(data, 8).unwrap_or(0) as usize;
    let places = (0..count).map_while(|i| u32_at(data, 12 + 4 * i));
    let is_face = |p: usize| matches!(u32_at(data, p), Some(mark) if FONTS.contains(&mark));
    let faces = places.map(|p| p as usize).enumerate();
    faces.filter(|(_, p)| is_face(*p)).collect()
}

/// Where a table's record is in the directory at `base`.
pub fn record(data: &[u8], base: usize, tag: u32) -> Option<usize> {
    let (mut l, mut h) = (0, u16_at(data, base + 4)? as usize);
    while l < h {
        let i = (l + h) / 2;
        let p = base + 12 + 16 * i;
        let found = u32_at(data, p)?;
        if tag == found {
            return Some(p);
        }
        if tag < found {
            h = i;
        } else {
            l = i + 1;
        }
    }
    None
}

/// A table's start and end.
fn range(data: &[u8], base: usize, tag: u32) -> Option<(u32, u32)> {
    let p = record(data, base, tag)?;
    let start = u32_at(data, p + 8)?;
    Some((start, start.checked_add(u32_at(data, p + 12)?)?))
}

/// One face, with what is asked for of it. An offset of a table that is not there is 0.
#[derive(Clone, Copy)]
pub struct Font<'a> {
    pub data: &'a [u8],
    /// that table alone; empty where it is not there, or not whole
    pub fvar: &'a [u8],
    pub has_fvar: bool,
    pub avar: u32,
    pub hvar: u32,
    pub vvar: u32,
    pub mvar: u32,
    pub glyphs: u16,
    /// hmtx and vmtx, each with the count of its long records and with its table of deltas
    pub hmtx: Table,
    pub vmtx: Table,
    pub vorg: u32,
}

impl<'a> Font<'a> {
    pub fn at(data: &'a [u8], directory: usize) -> Self {
        let range = |tag| range(data, directory, tag);
        let offset = |tag| range(tag).map_or(0, |(start, _)| start);
        let fvar = range(FVAR).and_then(|(start, end)| data.get(start as usize..end as usize));
        let number = |tag, p| range(tag).and_then(|(start, _)| u16_at(data, start as usize + p));
        let widths = |xmtx, head, xvar| Table {
            at: offset(xmtx),
            count: number(head, LONG_RECORDS).unwrap_or(0),
            xvar: offset(xvar),
        };
        Font {
            data,
            fvar: fvar.unwrap_or(&[]),
            has_fvar: fvar.is_some(),
            avar: offset(AVAR),
            hvar: offset(HVAR),
            vvar: offset(VVAR),
            mvar: offset(MVAR),
            glyphs: number(MAXP, 4).unwrap_or(0),
            hmtx: widths(HMTX, HHEA, HVAR),
            vmtx: widths(VMTX, VHEA, VVAR),
            vorg: offset(VORG),
        }
    }
}
