//! One face, and where its tables are.

use std::cmp::Ordering;
use swash::{tag_from_bytes, FontRef};

#[derive(Clone, Copy)]
pub struct Face<'a> {
    pub font: FontRef<'a>,
    pub index: usize,
}

/// Start and length of a table, both 0 where there is none.
pub fn place(font: &FontRef, tag: &[u8; 4]) -> (usize, usize) {
    font.table(tag_from_bytes(tag)).map_or((0, 0), |table| {
        (
            table.as_ptr() as usize - font.data.as_ptr() as usize,
            table.len(),
        )
    })
}

impl<'a> Face<'a> {
    pub fn at(data: &'a [u8], index: usize) -> Option<Self> {
        let font = FontRef::from_index(data, index)?;
        Some(Face { font, index })
    }

    /// The face of a copy, whose directory is at the same place.
    pub fn copied<'b>(&self, copy: &'b [u8]) -> Option<Face<'b>> {
        let font = FontRef::from_offset(copy, self.font.offset)?;
        Some(Face { font, ..*self })
    }

    pub fn has(&self, tag: &[u8; 4]) -> bool {
        self.font.table(tag_from_bytes(tag)).is_some()
    }

    pub fn table(&self, tag: &[u8; 4]) -> &'a [u8] {
        self.font.table(tag_from_bytes(tag)).unwrap_or(&[])
    }

    /// The index, then start and length of fvar, then the start of the other four tables.
    pub fn words(&self) -> Vec<String> {
        let (start, length) = place(&self.font, b"fvar");
        let mut words = vec![self.index, start, length];
        for tag in [b"avar", b"HVAR", b"VVAR", b"MVAR"] {
            words.push(offset(&self.font, tag));
        }
        words.iter().map(usize::to_string).collect()
    }
}

/// Where a table starts, whether it is whole or not, as swash takes most of them; 0 where there is none.
pub fn offset(font: &FontRef, tag: &[u8; 4]) -> usize {
    let number = |p: usize| {
        let bytes = font.data.get(p..p + 4)?;
        bytes.try_into().ok().map(u32::from_be_bytes)
    };
    let range = |p: usize| {
        let start = number(p + 8)?;
        start.checked_add(number(p + 12)?).map(|_| start as usize)
    };
    record(font, tag).and_then(range).unwrap_or(0)
}

/// Where swash has hmtx and vmtx, each with how many long records it counts, and VORG. With no hhea it counts one;
/// without a vhea it does not look for vmtx.
pub fn widths(font: &FontRef) -> [usize; 5] {
    let count = |tag| {
        let head = font.table(tag_from_bytes(tag))?;
        let number = head.get(34..36).map(|n| [n[0], n[1]]);
        Some(number.map_or(0, u16::from_be_bytes) as usize)
    };
    let upright = count(b"vhea");
    let vmtx = upright.map_or(0, |_| offset(font, b"vmtx"));
    [
        offset(font, b"hmtx"),
        count(b"hhea").unwrap_or(1),
        vmtx,
        upright.unwrap_or(0),
        offset(font, b"VORG"),
    ]
}

/// Where the directory has a table's record, by halves, as swash looks for it: what it misses, where the records
/// are out of order, is not there.
pub fn record(font: &FontRef, tag: &[u8; 4]) -> Option<usize> {
    let start = font.offset as usize;
    let count = font.data.get(start + 4..start + 6)?;
    let (mut low, mut high) = (0, u16::from_be_bytes(count.try_into().ok()?) as usize);
    while low < high {
        let middle = (low + high) / 2;
        let p = start + 12 + 16 * middle;
        match tag[..].cmp(font.data.get(p..p + 4)?) {
            Ordering::Less => high = middle,
            Ordering::Greater => low = middle + 1,
            Ordering::Equal => return Some(p),
        }
    }
    None
}

/// Where the directory has the last letters of the tables by which a measure varies.
fn last_letters(face: &Face) -> Vec<usize> {
    let tags = [b"HVAR", b"VVAR", b"MVAR"];
    let records = tags.iter().filter_map(|tag| record(&face.font, tag));
    records.map(|p| p + 3).collect()
}

/// A copy of the font in which nothing varies: swash finds none of the tables by which a measure does. The
/// new tags keep the directory in order.
pub fn unvaried(face: &Face) -> Vec<u8> {
    let mut copy = face.font.data.to_vec();
    for p in last_letters(face) {
        copy[p] = b'Q';
    }
    copy
}

/// Whether swash reads a glyph's numbers from these letters, as where a table is at the font's start or reaches into
/// the directory: there such a copy has others.
pub fn meets_tags(face: &Face, glyph: u16) -> bool {
    let [hmtx, long, vmtx, upright, vorg] = widths(&face.font);
    let glyph = glyph as usize;
    let read = |at: usize, count: usize| {
        let sb = match glyph < count {
            true => 4 * glyph + 2,
            false => 4 * count + 2 * (glyph - count),
        };
        [at + 4 * glyph.min(count.saturating_sub(1)), at + sb].map(|p| p..p + 2)
    };
    let mut places = read(hmtx, long).to_vec();
    if vmtx != 0 {
        places.extend(read(vmtx, upright));
    }
    if vorg != 0 {
        let count = face.font.data.get(vorg + 6..vorg + 8);
        let count = count.map_or(0, |n| u16::from_be_bytes([n[0], n[1]]) as usize);
        places.push(vorg..vorg + 8 + 4 * count);
    }
    let letters = last_letters(face);
    letters
        .iter()
        .any(|p| places.iter().any(|read| read.contains(p)))
}
