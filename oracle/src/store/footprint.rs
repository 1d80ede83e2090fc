//! The footprint of a delta: the bytes of the font and the axes that it hangs on, of an advance, a
//! bearing, an MVAR tag and an item of the store. From the text of the rules alone, as `rules.rs`.

use super::rules::{place, skipped, triple, Map};
use crate::text;
use std::collections::BTreeSet;

/// A read, or a triple, which has its axis. It lies in the font: one that is empty is left out.
#[derive(Clone, Debug, PartialEq)]
pub struct Part {
    pub at: usize,
    pub size: usize,
    pub axis: Option<usize>,
}

#[derive(Clone, Debug, Default, PartialEq)]
pub struct Footprint {
    /// in the order of the reads
    pub parts: Vec<Part>,
    /// the axes in use
    pub axes: BTreeSet<usize>,
}

impl Footprint {
    /// For each byte of a font of this length whether it is in one of the parts.
    pub fn covered(&self, length: usize) -> Vec<bool> {
        let mut covered = vec![false; length];
        for part in &self.parts {
            covered[part.at..part.at + part.size].fill(true);
        }
        covered
    }
}

/// The reads in the stated order, each a part. `None` is a refusal met outside the triples: what
/// would come after it is empty.
struct Walk<'a> {
    /// positions count in this part of the font
    table: &'a [u8],
    /// where it starts
    start: usize,
    footprint: Footprint,
}

impl Walk<'_> {
    fn part(&mut self, at: usize, size: usize, axis: Option<usize>) {
        let at = self.start + at;
        self.footprint.parts.push(Part { at, size, axis });
    }

    fn read(&mut self, at: usize, size: usize) -> Option<usize> {
        let number = place(self.table, at, size).ok()?;
        self.part(at, size, None);
        Some(number)
    }

    /// A triple that is cut is empty, and the walk goes on.
    fn triple(&mut self, at: usize, axis: usize) {
        let Ok(numbers) = triple(self.table, at) else {
            return;
        };
        self.part(at, 6, Some(axis));
        if !skipped(numbers) {
            self.footprint.axes.insert(axis);
        }
    }

    /// store + 2..+ 7; the region list's first four; the subtable's offset; subtable + 2..+ 5, then
    /// + 0..+ 1; its region indices; all triples of each region named with a valid index; the row.
    fn item(&mut self, store: usize, outer: usize, inner: usize) -> Option<()> {
        refused_if(store == 0)?;
        let subtable_count = self.read(store + 6, 2)?;
        refused_if(outer >= subtable_count)?;
        let regions = store + self.read(store + 2, 4)?;
        let axis_count = self.read(regions, 2)?;
        let region_count = self.read(regions + 2, 2)?;
        let subtable = store + self.read(store + 8 + 4 * outer, 4)?;
        let index_count = self.read(subtable + 4, 2)?;
        let word_count = self.read(subtable + 2, 2)?;
        refused_if(word_count > index_count)?;
        let item_count = self.read(subtable, 2)?;
        refused_if(inner >= item_count)?;
        let row = subtable + 6 + 2 * index_count + inner * (index_count + word_count);
        for k in 0..index_count {
            let region = self.read(subtable + 6 + 2 * k, 2)?;
            refused_if(region >= region_count)?;
            for axis in 0..axis_count {
                self.triple(regions + 4 + 6 * (region * axis_count + axis), axis);
            }
            if k < word_count {
                self.read(row + 2 * k, 2)?;
            } else {
                self.read(row + word_count + k, 1)?;
            }
        }
        Some(())
    }

    /// base + 4..+ 11 (bearing: + 4..+ 7, + 12..+ 15); the map's first four bytes and the used entry;
    /// then the store's.
    fn metric(&mut self, base: usize, map: Map, glyph: usize) -> Option<()> {
        refused_if(base == 0)?;
        let offset = self.read(base + 4, 4)?;
        refused_if(offset == 0)?;
        let store = base + offset;
        refused_if(store >= 1 << 32)?;
        let offset = self.read(base + map as usize, 4)?;
        if offset == 0 {
            refused_if(map == Map::Bearing)?;
            return self.item(store, 0, glyph);
        }
        let map = base + offset;
        let format = self.read(map, 2)?;
        let count = self.read(map + 2, 2)?;
        refused_if(count == 0)?;
        let size = format / 16 % 4 + 1;
        let entry = self.read(map + 4 + size * glyph.min(count - 1), size)?;
        let inners = 1 << (format % 16 + 1);
        self.item(store, entry / inners % 65536, entry % inners)
    }

    /// From the table's start: bytes 6..11, of each record's first eight bytes those in the font, then
    /// the store's parts for the record found.
    fn tag(&mut self, tag: u32) -> Option<()> {
        let size = self.read(6, 2)?;
        let count = self.read(8, 2)?;
        let store = self.read(10, 2)?;
        refused_if(count == 0 || store == 0)?;
        let record = |k: usize| 12 + k * size;
        for k in 0..count {
            let there = self.table.len().saturating_sub(record(k)).min(8);
            if there > 0 {
                self.part(record(k), there, None);
            }
        }
        let (mut low, mut high) = (0, count);
        while low < high {
            let middle = (low + high) / 2;
            let found = place(self.table, record(middle), 4).ok()? as u32;
            if found == tag {
                let inner = place(self.table, record(middle) + 4, 2).ok()?;
                let outer = place(self.table, record(middle) + 6, 2).ok()?;
                return self.item(store, outer, inner);
            }
            if tag < found {
                high = middle;
            } else {
                low = middle + 1;
            }
        }
        None
    }
}

fn refused_if(test: bool) -> Option<()> {
    (!test).then_some(())
}

fn walked(font: &[u8], start: usize, walk: impl FnOnce(&mut Walk) -> Option<()>) -> Footprint {
    let mut walking = Walk {
        table: font.get(start..).unwrap_or(&[]),
        start,
        footprint: Footprint::default(),
    };
    // a refusal ends the walk; the parts before it stay
    let _ = walk(&mut walking);
    walking.footprint
}

pub fn item(font: &[u8], store: usize, outer: usize, inner: usize) -> Footprint {
    walked(font, 0, |walk| walk.item(store, outer, inner))
}

pub fn metric(font: &[u8], base: usize, map: Map, glyph: usize) -> Footprint {
    walked(font, 0, |walk| walk.metric(base, map, glyph))
}

pub fn tag(font: &[u8], offset: usize, tag: u32) -> Footprint {
    walked(font, offset, |walk| walk.tag(tag))
}

/// The font that these bytes are, in hex with blanks between.
pub fn font(bytes: &str) -> Vec<u8> {
    let bytes: String = bytes.split_whitespace().collect();
    text::bytes(&bytes).expect("bytes in hex")
}

/// Asserts that a footprint covers just these bytes, from the first to the last of each pair, and
/// uses just these axes.
pub fn is(footprint: Footprint, font: &[u8], bytes: &[(usize, usize)], axes: &[usize]) {
    let mut wanted = vec![false; font.len()];
    for (first, last) in bytes {
        wanted[*first..=*last].fill(true);
    }
    assert_eq!(footprint.covered(font.len()), wanted, "bytes covered");
    assert!(footprint.axes.iter().eq(axes), "axes in use");
}

/// An advance of the fonts here.
fn advance(font: &[u8], glyph: usize) -> Footprint {
    metric(font, 4, Map::Advance, glyph)
}

pub const S1: &str = "00000000 00010000 00000010 00000000 00000000 0001 0000000c 0001 00000016
    0001 0001 0000 4000 4000 0001 0000 0001 0000 64";

/// Asserts what was found by hand.
pub fn by_hand() {
    examples();
    refused();
    cut();
    mvar();
}

fn examples() {
    let s1 = font(S1);
    let bytes = [(8, 15), (22, 50)];
    is(advance(&s1, 0), &s1, &bytes, &[0]);
    let bearing = metric(&s1, 4, Map::Bearing, 0);
    is(bearing, &s1, &[(8, 11), (16, 19)], &[]);
    is(metric(&s1, 0, Map::Advance, 0), &s1, &[], &[]);
    let mut s3 = s1.clone();
    s3[36..42].copy_from_slice(&font("c000 2000 4000"));
    is(advance(&s3, 0), &s3, &bytes, &[]);
    let h1 = font(
        "00000000 00010000 00000018 00000010 00000000 0007 0003 000102 00
         0001 0000000c 0001 00000010 0000 0001 0003 0000 0001 0000 0a0b0c",
    );
    let bytes = [(8, 15), (20, 23), (26, 26), (30, 51), (54, 54)];
    is(advance(&h1, 3), &h1, &bytes, &[]);
    let mut no_entries = h1.clone();
    no_entries[22..24].fill(0);
    let bytes = [(8, 15), (20, 23)];
    is(advance(&no_entries, 3), &no_entries, &bytes, &[]);
}

/// S1 with one number changed: nothing is covered after a refusal outside the triples.
fn refused() {
    let changes: [(usize, &str, &[(usize, usize)]); 8] = [
        (8, "00000000", &[(8, 11)]),
        (8, "fffffffc", &[(8, 11)]),
        (26, "0000", &[(8, 15), (26, 27)]),
        (28, "0000ffff", &[(8, 15), (22, 35)]),
        (44, "0002", &[(8, 15), (22, 35), (44, 47)]),
        (42, "00000002", &[(8, 15), (22, 35), (44, 47)]),
        (42, "0000", &[(8, 15), (22, 35), (42, 47)]),
        (48, "0001", &[(8, 15), (22, 35), (42, 49)]),
    ];
    for (at, number, bytes) in changes {
        let (mut s1, number) = (font(S1), font(number));
        s1[at..at + number.len()].copy_from_slice(&number);
        is(advance(&s1, 0), &s1, bytes, &[]);
    }
    // a row outside the count is refused by the count, whatever lies behind it
    let s1 = font(S1);
    for font in [&s1[..], &s1[..48]] {
        is(advance(font, 1), font, &[(8, 15), (22, 35), (42, 47)], &[]);
    }
}

/// Each read is a part, also where the next one is past the end; after a cut triple the walk goes on.
fn cut() {
    let s1 = font(S1);
    is(advance(&s1[..12], 0), &s1[..12], &[(8, 11)], &[]);
    let entry = &s1[..50];
    is(advance(entry, 0), entry, &[(8, 15), (22, 49)], &[0]);
    let index = &s1[..48];
    let bytes = [(8, 15), (22, 35), (42, 47)];
    is(advance(index, 0), index, &bytes, &[]);
    // two region indices and no row, the second index past the end or behind an entry that is
    let two = font(
        "00000000 00010000 00000010 00000000 00000000 0001 0000000c 0001 00000010
         0000 0001 0001 0000 0002 0000 0000",
    );
    for font in [&two[..44], &two] {
        is(advance(font, 0), font, &[(8, 15), (22, 43)], &[]);
    }
    // two axes; the row names region 1, whose second triple is cut, then region 0
    let triple = font(
        "00000000 00010000 00000010 00000000 00000000 0001 00000018 0001 0000000c
         0001 0000 0002 0001 0000 07 05
         0002 0002 c000 2000 4000 c000 2000 4000 0000 4000 4000 0000 4000",
    );
    let bytes = [(8, 15), (22, 65)];
    is(advance(&triple, 0), &triple, &bytes, &[0]);
    let parts = advance(&triple, 0).parts;
    let header = [(8, 4), (12, 4), (26, 2), (22, 4), (44, 2), (46, 2), (28, 4)];
    let counts = [(36, 2), (34, 2), (32, 2)];
    let region_1 = [(38, 2), (60, 6), (42, 1)];
    let region_0 = [(40, 2), (48, 6), (54, 6), (43, 1)];
    let places = [&header[..], &counts, &region_1, &region_0].concat();
    assert!(parts.iter().map(|part| (part.at, part.size)).eq(places));
    assert!(parts.iter().filter_map(|part| part.axis).eq([0, 0, 1]));
}

fn mvar() {
    let mvar = font(
        "aaaa 0001 0000 0000 0008 0002 001c 68617363 0001 0000 68647363 0000 0000
         0001 0000000c 0001 00000010 0000 0001 0002 0000 0001 0000 0a0b",
    );
    let hasc = u32::from_be_bytes(*b"hasc");
    let bytes = [(8, 29), (32, 53), (55, 55)];
    is(tag(&mvar, 2, hasc), &mvar, &bytes, &[]);
    // a tag that is not found has the records alone, and so has a search that meets a cut one
    is(tag(&mvar, 2, 0), &mvar, &[(8, 29)], &[]);
    is(tag(&mvar[..21], 2, hasc), &mvar[..21], &[(8, 20)], &[]);
    // no records, and no store
    for number in [10, 12] {
        let mut refused = mvar.clone();
        refused[number..number + 2].fill(0);
        is(tag(&refused, 2, hasc), &refused, &[(8, 13)], &[]);
    }
    is(tag(&mvar[..13], 2, hasc), &mvar[..13], &[(8, 11)], &[]);
}
