//! Cases of the item variation store, HVAR, VVAR and MVAR: whole fonts of many shapes cut at every
//! byte, every kind of triple, map, count and offset, and random fonts, whole, damaged and cut.

pub mod counts;

use super::{FUNCTIONS, NEW};
use crate::random::Random;
use crate::text;

/// A region: start, peak and end for each axis.
pub type Region = Vec<[i16; 3]>;

#[derive(Clone)]
pub struct Subtable {
    pub item_count: u16,
    pub word_count: u16,
    pub indices: Vec<u16>,
    /// an entry has its low byte alone where it is behind the words
    pub rows: Vec<Vec<i16>>,
}

impl Subtable {
    /// Of one row, that names the regions in turn.
    pub fn of_row(word_count: u16, row: &[i16]) -> Self {
        Subtable {
            item_count: 1,
            word_count,
            indices: (0..row.len() as u16).collect(),
            rows: vec![row.to_vec()],
        }
    }

    fn bytes(&self) -> Vec<u8> {
        let mut bytes = vec![];
        let head = [self.item_count, self.word_count, self.indices.len() as u16];
        for half in head.iter().chain(&self.indices) {
            bytes.extend(half.to_be_bytes());
        }
        for row in &self.rows {
            for (k, entry) in row.iter().enumerate() {
                if k < self.word_count as usize {
                    bytes.extend(entry.to_be_bytes());
                } else {
                    bytes.push(*entry as u8);
                }
            }
        }
        bytes
    }
}

#[derive(Clone)]
pub struct Store {
    pub axis_count: u16,
    pub regions: Vec<Region>,
    pub subtables: Vec<Subtable>,
    /// whether the regions lie behind the subtables, where a cut meets them
    pub regions_last: bool,
}

impl Store {
    pub fn of_one(regions: &[&[[i16; 3]]], subtable: Subtable) -> Self {
        Store {
            axis_count: regions.first().map_or(1, |region| region.len() as u16),
            regions: regions.iter().map(|region| region.to_vec()).collect(),
            subtables: vec![subtable],
            regions_last: false,
        }
    }

    fn region_list(&self) -> Vec<u8> {
        let mut bytes = self.axis_count.to_be_bytes().to_vec();
        bytes.extend((self.regions.len() as u16).to_be_bytes());
        for number in self.regions.iter().flatten().flatten() {
            bytes.extend(number.to_be_bytes());
        }
        bytes
    }

    pub fn bytes(&self) -> Vec<u8> {
        let mut parts: Vec<Vec<u8>> = self.subtables.iter().map(Subtable::bytes).collect();
        let list = if self.regions_last { parts.len() } else { 0 };
        parts.insert(list, self.region_list());
        let mut offsets = vec![];
        let mut next = 8 + 4 * self.subtables.len() as u32;
        for part in &parts {
            offsets.push(next);
            next += part.len() as u32;
        }
        let mut bytes = vec![0, 1];
        bytes.extend(offsets.remove(list).to_be_bytes());
        bytes.extend((self.subtables.len() as u16).to_be_bytes());
        bytes.extend(offsets.iter().flat_map(|offset| offset.to_be_bytes()));
        bytes.extend(parts.concat());
        bytes
    }
}

/// A map from glyphs to rows.
#[derive(Clone)]
pub struct Map {
    format: u16,
    count: u16,
    entries: Vec<u32>,
}

impl Map {
    pub fn of(size: u16, inner_bits: u16, entries: &[u32]) -> Self {
        Map {
            format: (size - 1) << 4 | (inner_bits - 1),
            count: entries.len() as u16,
            entries: entries.to_vec(),
        }
    }

    pub fn bytes(&self) -> Vec<u8> {
        let size = (self.format >> 4 & 3) as usize + 1;
        let mut bytes = self.format.to_be_bytes().to_vec();
        bytes.extend(self.count.to_be_bytes());
        for entry in &self.entries {
            bytes.extend(&entry.to_be_bytes()[4 - size..]);
        }
        bytes
    }
}

/// Where HVAR or VVAR is in the fonts here.
pub const BASE: usize = 4;

/// A font with an HVAR: its header, the maps, the store.
pub fn hvar(advance: Option<&Map>, bearing: Option<&Map>, store: &Store) -> Vec<u8> {
    let mut offsets = [0; 2];
    let mut behind = vec![];
    for (offset, map) in offsets.iter_mut().zip([advance, bearing]) {
        if let Some(map) = map {
            *offset = 20 + behind.len() as u32;
            behind.extend(map.bytes());
        }
    }
    let at = 20 + behind.len() as u32;
    let mut bytes = vec![0, 0, 0, 0, 0, 1, 0, 0];
    for field in [at, offsets[0], offsets[1], 0] {
        bytes.extend(field.to_be_bytes());
    }
    bytes.extend(behind);
    bytes.extend(store.bytes());
    bytes
}

/// A record of an MVAR: a tag, then inner and outer index.
pub type Record = (u32, u16, u16);

/// A bare MVAR. Records that overlap are seen where the later ones leave them.
pub fn mvar(record_size: u16, records: &[Record], store: &Store) -> Vec<u8> {
    let mut bytes = vec![0, 1, 0, 0, 0, 0];
    let end = 12 + record_size as usize * records.len().max(1);
    let at = end.max(12 + 8) as u16;
    for half in [record_size, records.len() as u16, at] {
        bytes.extend(half.to_be_bytes());
    }
    bytes.resize(at as usize, 0xee);
    for (i, (tag, inner, outer)) in records.iter().enumerate() {
        let p = 12 + i * record_size as usize;
        put(&mut bytes, p, &tag.to_be_bytes());
        put(&mut bytes, p + 4, &inner.to_be_bytes());
        put(&mut bytes, p + 6, &outer.to_be_bytes());
    }
    put(&mut bytes, at as usize, &store.bytes());
    bytes
}

/// Writes over what is there; what lies behind the end is cut.
fn write(bytes: &mut [u8], at: usize, part: &[u8]) {
    for (k, byte) in part.iter().enumerate() {
        if let Some(place) = bytes.get_mut(at + k) {
            *place = *byte;
        }
    }
}

fn put(bytes: &mut Vec<u8>, at: usize, part: &[u8]) {
    if bytes.len() < at + part.len() {
        bytes.resize(at + part.len(), 0);
    }
    write(bytes, at, part);
}

pub const RISE: [i16; 3] = [0, 16384, 16384];
pub const HILL: [i16; 3] = [0, 12288, 16384];
pub const FALL: [i16; 3] = [-16384, -16384, 0];
/// skipped, since it holds 0
pub const ALWAYS: [i16; 3] = [-16384, 8192, 16384];

pub const TAGS: [u32; 6] = [
    u32::from_be_bytes(*b"hasc"),
    u32::from_be_bytes(*b"hdsc"),
    u32::from_be_bytes(*b"undo"),
    u32::from_be_bytes(*b"xhgt"),
    0,
    0xffff_ffff,
];

/// A font, and what is asked of it: a name, and what stands behind the font.
pub struct Asked {
    pub font: Vec<u8>,
    pub questions: Vec<(&'static str, String)>,
    /// whether it is asked at every length
    pub cut: bool,
}

pub fn coords_text(coords: &[i16]) -> String {
    text::list_text(coords.iter().map(i16::to_string))
}

/// All four forms for a glyph.
fn of_glyph(base: usize, glyph: usize, coords: &[i16]) -> Vec<(&'static str, String)> {
    let rest = format!(" {base} {glyph} {}", coords_text(coords));
    ["advance_fixed", "sb_fixed", "advance_delta", "sb_delta"]
        .map(|name| (name, rest.clone()))
        .to_vec()
}

fn of_item(store: usize, outer: u32, inner: u16, coords: &[i16]) -> (&'static str, String) {
    let coords = coords_text(coords);
    ("item_delta", format!(" {store} {outer} {inner} {coords}"))
}

fn of_tag(offset: usize, tag: u32, coords: &[i16]) -> Vec<(&'static str, String)> {
    let rest = format!(" {offset} {tag:08x} {}", coords_text(coords));
    ["mvar_fixed", "mvar_delta"]
        .map(|name| (name, rest.clone()))
        .to_vec()
}

/// Stores of none to four axes, of no to three regions, rows of words and bytes mixed.
pub fn stores() -> Vec<Store> {
    let row = |words, row: &[i16]| Subtable::of_row(words, row);
    let mut stores = vec![
        Store::of_one(&[&[RISE]], row(0, &[100])),
        Store::of_one(&[&[HILL]], row(0, &[3])),
        Store::of_one(&[&[ALWAYS]], row(1, &[3])),
        Store::of_one(&[&[ALWAYS], &[ALWAYS]], row(2, &[32767, 32767])),
        Store::of_one(&[], row(0, &[])),
        Store::of_one(&[&[HILL, RISE], &[FALL, ALWAYS]], row(1, &[-300, -7])),
        Store::of_one(&[&[HILL, FALL, RISE]], row(1, &[-32768])),
        Store::of_one(&[&[ALWAYS, RISE, HILL, FALL]], row(0, &[-128])),
        Store::of_one(&[&[RISE], &[HILL], &[FALL]], row(1, &[1000, 5, -6])),
        // no axes: each region is always on
        Store::of_one(&[&[], &[]], row(1, &[500, -2])),
    ];
    // two rows, regions named twice and not in order, and a subtable of its own
    let mut two = Store::of_one(&[&[RISE], &[FALL]], row(0, &[9]));
    two.subtables.push(Subtable {
        item_count: 2,
        word_count: 2,
        indices: vec![1, 0, 1],
        rows: vec![vec![256, -257, 3], vec![-1, 2, -4]],
    });
    stores.push(two);
    // an item count of 1, and bytes for a second row
    let mut counted = Store::of_one(&[&[[0, 0, 0]]], row(0, &[100]));
    counted.subtables[0].rows.push(vec![5]);
    stores.push(counted);
    let regions_last = |store: &Store| Store {
        regions_last: true,
        ..store.clone()
    };
    let turned: Vec<Store> = stores.iter().map(regions_last).collect();
    [stores, turned].concat()
}

/// Fonts cut at every byte.
fn cut_fonts() -> Vec<Asked> {
    let mut fonts = vec![];
    let lists: [&[i16]; 4] = [&[8192, -4096, 16384, -1], &[], &[-1, -16384], &[0]];
    let maps = [
        (None, None),
        (Some(Map::of(1, 8, &[0, 1, 2])), Some(Map::of(2, 4, &[16]))),
        (Some(Map::of(3, 16, &[65536, 1])), None),
        (None, Some(Map::of(4, 1, &[2, 0, 1, 3]))),
    ];
    for (k, store) in stores().iter().enumerate() {
        let (advance, bearing) = &maps[k % maps.len()];
        for (advance, bearing) in [(None, None), (advance.as_ref(), bearing.as_ref())] {
            let font = hvar(advance, bearing, store);
            let at = font.len() - store.bytes().len();
            let mut questions = vec![];
            for coords in lists {
                for glyph in [0, 1, 3] {
                    questions.extend(of_glyph(BASE, glyph, coords));
                }
                for outer in [0, 1] {
                    questions.extend([0, 1].map(|inner| of_item(at, outer, inner, coords)));
                }
            }
            fonts.push(Asked {
                font,
                questions,
                cut: true,
            });
        }
        let records = [(TAGS[0], 0, 0), (TAGS[1], 1, 0), (TAGS[2], 0, 1)];
        let count = k % 4;
        for record_size in [8, [0, 4, 6, 9, 12][k % 5]] {
            let mut questions = vec![(NEW, " 0".to_string()), (NEW, " 1".to_string())];
            for tag in [TAGS[0], TAGS[1], TAGS[2], TAGS[3]] {
                questions.extend(of_tag(0, tag, lists[0]));
                questions.extend(of_tag(0, tag, lists[1]));
            }
            fonts.push(Asked {
                font: mvar(record_size, &records[..count], store),
                questions,
                cut: true,
            });
        }
    }
    fonts
}

/// Numbers of triples and of coordinates: each with each.
const LIMITS: [i16; 9] = [-32768, -16384, -8193, -1, 0, 1, 12288, 16384, 32767];

/// Coordinates at every edge of a triple.
fn edges_of(triple: [i16; 3]) -> Vec<i16> {
    let mut edges = vec![i16::MIN, i16::MAX, 0];
    for x in triple {
        edges.extend([-1, 0, 1].map(|near| x.saturating_add(near)));
    }
    for pair in triple.windows(2) {
        edges.push(((pair[0] as i32 + pair[1] as i32) / 2) as i16);
        edges.push(((2 * pair[0] as i32 + pair[1] as i32) / 3) as i16);
    }
    edges.sort();
    edges.dedup();
    edges
}

/// Every triple of the limits, alone and before a second axis, against the coordinates at its edges.
fn triples() -> Vec<Asked> {
    let mut fonts = vec![];
    for n in 0..LIMITS.len().pow(3) {
        let triple = [n, n / 9, n / 81].map(|k| LIMITS[k % 9]);
        let entry = [100, 1, -1, 32767, -32768][n % 5];
        let alone = Store::of_one(&[&[triple]], Subtable::of_row(1, &[entry]));
        let font = hvar(None, None, &alone);
        let edges = edges_of(triple);
        let questions = edges.iter().map(|c| of_item(24, 0, 0, &[*c]));
        let mut questions: Vec<(&str, String)> = questions.collect();
        questions.extend(of_glyph(BASE, 0, &edges[n % edges.len()..][..1]));
        questions.push(of_item(24, 0, 0, &[]));
        fonts.push(Asked {
            font,
            questions,
            cut: false,
        });
        // before a second one, that is whole or cut: whether it is read shows
        let mut two = Store::of_one(&[&[triple, HILL]], Subtable::of_row(1, &[entry]));
        two.regions_last = true;
        let whole = hvar(None, None, &two);
        let cut = whole[..whole.len() - 1 - n % 6].to_vec();
        for font in [whole, cut] {
            let questions = edges.iter().map(|c| of_item(24, 0, 0, &[*c, 4096]));
            fonts.push(Asked {
                font,
                questions: questions.collect(),
                cut: false,
            });
        }
    }
    fonts
}

/// Maps of every entry size and inner bit count, and of every small count, with what the format's
/// other bits may be.
fn maps() -> Vec<Asked> {
    let mut fonts = vec![];
    let mut store = Store::of_one(&[&[ALWAYS]], Subtable::of_row(0, &[7]));
    store.subtables[0].item_count = 4;
    store.subtables[0].rows = [10, 20, 30, -40].map(|entry| vec![entry]).to_vec();
    store.subtables.push(Subtable::of_row(1, &[1234]));
    for n in 0..64 * 5 {
        let (low, count) = (n % 64, (n / 64) as u16);
        let bits = low % 16 + 1;
        let outer = |outer: u64, inner: u64| (outer << bits | inner) as u32;
        let entries = [
            outer(1, 0),
            outer(0, 1),
            outer(65536, 0),
            outer(2, 0),
            u32::MAX,
        ];
        for high in [0, 0x40, 0x80, 0x0100, 0xff00, 0xffc0] {
            let map = Map {
                format: low as u16 | high,
                count,
                entries: entries[..count as usize].to_vec(),
            };
            let other = Map {
                entries: entries.iter().rev().copied().take(count as usize).collect(),
                ..map.clone()
            };
            let questions = [0, 1, 2, 3, 4, 5, 255, 256, 65535];
            let questions = questions.map(|glyph| of_glyph(BASE, glyph, &[])).concat();
            fonts.push(Asked {
                font: hvar(Some(&map), Some(&other), &store),
                questions,
                cut: high == 0 && low % 5 == count as usize,
            });
        }
    }
    fonts
}

/// Offsets, counts and the questions' own numbers, at their limits and around the font's end.
fn offsets() -> Vec<Asked> {
    let mut fonts = vec![];
    let store = Store::of_one(
        &[&[RISE, FALL], &[ALWAYS, HILL]],
        Subtable::of_row(1, &[-300, 7]),
    );
    let map = Map::of(1, 8, &[0, 0]);
    let font = hvar(Some(&map), Some(&map), &store);
    let at = font.len() - store.bytes().len();
    let coords: [&[i16]; 2] = [&[8192, -8192], &[]];
    let limits = |near: usize| {
        let len = font.len();
        let top = 1usize << 32;
        let mut limits = vec![0, 1, 2, 3, 255, 256, 65535, 65536, 1 << 31, top - 1];
        for p in [
            near,
            len,
            len - near.min(len),
            len - BASE,
            len - at,
            top - BASE,
            top - at,
        ] {
            limits.extend([p.saturating_sub(2), p.saturating_sub(1), p, p + 1]);
        }
        limits.retain(|p| *p < top);
        limits.sort();
        limits.dedup();
        limits
    };
    // store offset and map offsets; region list and subtable offset
    for field in [8, 12, 16, at + 2, at + 8] {
        let now = u32::from_be_bytes([
            font[field],
            font[field + 1],
            font[field + 2],
            font[field + 3],
        ]);
        for limit in limits(now as usize) {
            let mut font = font.clone();
            write(&mut font, field, &(limit as u32).to_be_bytes());
            let mut questions = vec![];
            for coords in coords {
                questions.extend(of_glyph(BASE, 0, coords));
                questions.extend(of_glyph(BASE, 65535, coords));
                questions.push(of_item(at, 0, 0, coords));
            }
            fonts.push(Asked {
                font,
                questions,
                // at 2^32 the store offset is refused before anything behind it is read
                cut: field == 8 && limit > 1 << 31,
            });
        }
    }
    // subtable count, axis count, region count, item count, word count, region index count, indices
    let list = at + 12;
    let subtable = list + store.region_list().len();
    for field in [
        at + 6,
        list,
        list + 2,
        subtable,
        subtable + 2,
        subtable + 4,
        subtable + 6,
        subtable + 8,
    ] {
        for limit in [
            0u16, 1, 2, 3, 4, 255, 256, 0x7fff, 0x8000, 0x8001, 0x8002, 0xfffe, 0xffff,
        ] {
            let mut font = font.clone();
            write(&mut font, field, &limit.to_be_bytes());
            let mut questions = vec![];
            for coords in coords {
                questions.extend(of_glyph(BASE, 0, coords));
                questions.extend([0, 1, 2].map(|outer| of_item(at, outer, 0, coords)));
                questions.push(of_item(at, 0, 1, coords));
            }
            fonts.push(Asked {
                font,
                questions,
                cut: false,
            });
        }
    }
    let mut questions = vec![];
    for limit in limits(at) {
        questions.extend(of_glyph(limit, 0, coords[0]));
        questions.push(of_item(limit, 0, 0, coords[0]));
        questions.push(of_item(at, limit as u32, 0, coords[0]));
        questions.push(of_item(at, 0, limit as u16, coords[0]));
        questions.push((NEW, format!(" {limit}")));
        questions.extend(of_tag(limit, TAGS[0], coords[0]));
    }
    fonts.push(Asked {
        font: font.clone(),
        questions,
        cut: false,
    });
    fonts
}

/// MVARs of up to seven records, sorted and not, at every record size up to 16, each tag asked; and
/// with its header's numbers at their limits.
fn mvars() -> Vec<Asked> {
    let mut fonts = vec![];
    let mut store = Store::of_one(&[&[RISE]], Subtable::of_row(0, &[1]));
    store.subtables[0].item_count = 4;
    store.subtables[0].rows = [1, 2, 3, 4].map(|entry| vec![entry]).to_vec();
    store.subtables.push(Subtable::of_row(1, &[-1000]));
    let mut sorted = TAGS.to_vec();
    sorted.push(u32::from_be_bytes(*b"vasc"));
    sorted.sort();
    let unsorted: Vec<u32> = [3, 1, 5, 0, 1, 6, 2].map(|k| sorted[k]).to_vec();
    for tags in [&sorted, &unsorted] {
        for count in 0..=tags.len() {
            let record = |(i, tag): (usize, &u32)| (*tag, i as u16 % 5, (i / 3) as u16);
            let records: Vec<Record> = tags[..count].iter().enumerate().map(record).collect();
            for record_size in 0..=16 {
                let whole = mvar(record_size, &records, &store);
                // from its start, and from a place in a font
                let placed = [vec![0xaa; 5], whole.clone()].concat();
                for (offset, font) in [(0, whole), (5, placed)] {
                    let mut questions = vec![(NEW, format!(" {offset}"))];
                    for tag in &sorted {
                        questions.extend(of_tag(offset, *tag, &[16384]));
                    }
                    questions.extend(of_tag(offset, sorted[1] + 1, &[16384]));
                    fonts.push(Asked {
                        font,
                        questions,
                        cut: offset == 0 && record_size == 8 && count % 3 == 1,
                    });
                }
            }
        }
    }
    let records: Vec<Record> = sorted.iter().map(|tag| (*tag, 1, 0)).collect();
    let whole = mvar(8, &records, &store);
    let len = whole.len() as u16;
    for field in [6, 8, 10] {
        let limits = [0, 1, 2, 7, 8, 9, 255, 256, 0x7fff, 0x8000, 0xfffe, 0xffff];
        for limit in limits.into_iter().chain(len - 40..len + 2) {
            let mut font = whole.clone();
            write(&mut font, field, &limit.to_be_bytes());
            let mut questions = vec![(NEW, " 0".to_string())];
            for tag in &sorted {
                questions.extend(of_tag(0, *tag, &[16384]));
            }
            fonts.push(Asked {
                font,
                questions,
                cut: false,
            });
        }
    }
    fonts
}

fn line(name: &str, font: &[u8], rest: &str) -> String {
    format!("{name} {}{rest}", text::bytes_text(font.iter().copied()))
}

/// All fonts, at each length that is asked for, with each of their questions.
pub struct Edges {
    fonts: Vec<Asked>,
    /// a font, a length, a question
    all: Vec<(u32, u32, u32)>,
}

impl Edges {
    fn new() -> Self {
        Edges::of(vec![cut_fonts(), triples(), maps(), offsets(), mvars()])
    }

    /// Those of the fonts but for the triples, which have the store alone in view, and of these questions.
    pub fn of_questions(names: &[&str]) -> Self {
        let mut fonts = vec![cut_fonts(), maps(), offsets(), mvars()];
        for asked in fonts.iter_mut().flatten() {
            asked.questions.retain(|(name, _)| names.contains(name));
        }
        Edges::of(fonts)
    }

    pub fn of(fonts: Vec<Vec<Asked>>) -> Self {
        let fonts: Vec<Asked> = fonts.into_iter().flatten().collect();
        let mut all = vec![];
        for (k, asked) in fonts.iter().enumerate() {
            let length = asked.font.len();
            let least = if asked.cut { 0 } else { length };
            for length in least..=length {
                let questions = 0..asked.questions.len();
                all.extend(questions.map(|q| (k as u32, length as u32, q as u32)));
            }
        }
        Edges { fonts, all }
    }

    pub fn len(&self) -> u64 {
        self.all.len() as u64
    }

    pub fn nth(&self, n: u64) -> String {
        let (k, length, question) = self.all[n as usize];
        let asked = &self.fonts[k as usize];
        let (name, rest) = &asked.questions[question as usize];
        line(name, &asked.font[..length as usize], rest)
    }
}

pub fn half(random: &mut Random) -> i16 {
    match random.below(4) {
        0 => random.pick(&LIMITS),
        1 => random.bits() as i16,
        2 => -(random.magnitude(15) as i16),
        _ => random.magnitude(14) as i16,
    }
}

/// A triple, mostly one that is not skipped.
fn triple(random: &mut Random) -> [i16; 3] {
    let any = [half(random), half(random), half(random)];
    let mut sorted = match random.below(8) {
        0 => return any,
        1 => return random.pick(&[RISE, HILL, FALL, ALWAYS, [0, 0, 0]]),
        2 => any,
        3 | 4 => any.map(|x| -(x & 0x3fff)),
        _ => any.map(|x| x & 0x3fff),
    };
    sorted.sort();
    sorted
}

fn subtable(regions: u64, random: &mut Random) -> Subtable {
    let count = match random.below(16) {
        0 => 0,
        1 => random.below(20),
        _ => 1 + random.below(5),
    };
    let word_count = match random.below(24) {
        0 => count + 1,
        1 => 0x8000 | random.below(count + 1),
        _ => random.below(count + 1),
    };
    let index = |random: &mut Random| match random.below(160) {
        0 => random.below(65536),
        1 => regions,
        _ => random.below(regions.max(1)),
    };
    let indices: Vec<u16> = (0..count).map(|_| index(random) as u16).collect();
    let rows: Vec<Vec<i16>> = (0..1 + random.below(4))
        .map(|_| (0..count).map(|_| half(random)).collect())
        .collect();
    Subtable {
        item_count: if random.below(4) == 0 {
            half(random) as u16
        } else {
            rows.len() as u16
        },
        word_count: word_count as u16,
        indices,
        rows,
    }
}

fn store(random: &mut Random) -> Store {
    let axes = match random.below(32) {
        0 => 0,
        1 => random.below(9),
        _ => 1 + random.below(4),
    };
    let regions = match random.below(24) {
        0 => 0,
        1 => random.below(30),
        _ => 1 + random.below(4),
    };
    let subtables = match random.below(24) {
        0 => 0,
        1 => random.below(6),
        _ => 1 + random.below(2),
    };
    Store {
        axis_count: axes as u16,
        regions: (0..regions)
            .map(|_| (0..axes).map(|_| triple(random)).collect())
            .collect(),
        subtables: (0..subtables).map(|_| subtable(regions, random)).collect(),
        regions_last: random.below(2) == 0,
    }
}

/// A coordinate at an edge of the triple, or between two, mostly.
pub fn coord(triple: Option<[i16; 3]>, random: &mut Random) -> i16 {
    let Some(triple) = triple.filter(|_| random.below(8) > 0) else {
        return half(random);
    };
    let k = random.below(2) as usize;
    let (a, b) = (triple[k] as i64, triple[k + 1] as i64);
    let (low, high) = (a.min(b), a.max(b));
    let near = random.below(3) as i16 - 1;
    match random.below(8) {
        0 => random.pick(&triple),
        1 => random.pick(&triple).saturating_add(near),
        _ => (low + random.below((high - low) as u64 + 1) as i64) as i16,
    }
}

/// A list for one of the regions, mostly of as many as there are axes.
fn coords(store: &Store, random: &mut Random) -> String {
    let axes = store.axis_count as u64;
    let count = match random.below(24) {
        0 => 0,
        1 => random.below(axes + 3),
        2 if random.below(20) == 0 => random.pick(&[255, 256]),
        _ => axes,
    };
    let none = vec![];
    let region = match store.regions.len() as u64 {
        0 => &none,
        n => &store.regions[random.below(n) as usize],
    };
    let list: Vec<i16> = (0..count as usize)
        .map(|axis| coord(region.get(axis).copied(), random))
        .collect();
    coords_text(&list)
}

/// Picks outer and inner index.
type RowOf = fn(&Store, &mut Random) -> (u32, u16);

/// Outer and inner index, mostly of a row that is there.
fn row_of(store: &Store, random: &mut Random) -> (u32, u16) {
    let outer = random.below(store.subtables.len() as u64 + 1) as usize;
    let outer = outer.min(store.subtables.len().saturating_sub(1));
    let rows = store
        .subtables
        .get(outer)
        .map_or(1, |data| data.rows.len() as u64);
    let inner = match random.below(24) {
        0 => random.below(65536),
        1 => rows,
        _ => random.below(rows),
    };
    (outer as u32, inner as u16)
}

fn map(store: &Store, row_of: RowOf, random: &mut Random) -> Map {
    let format = random.below(64) as u16;
    let bits = format % 16 + 1;
    let count = match random.below(24) {
        0 => 0,
        1 => random.below(40),
        _ => 1 + random.below(4),
    };
    let entry = |random: &mut Random| {
        let (outer, inner) = row_of(store, random);
        let inner = inner as u32 % (1 << bits);
        match random.below(16) {
            0 => random.bits() as u32,
            // an outer index that is cut to 16 bits
            1 => ((outer as u64 | 1 << 16) << bits) as u32 | inner,
            _ => outer << bits | inner,
        }
    };
    Map {
        format: format | random.pick(&[0, 0, 0, 0x40, 0x80, 0x0100, 0xff00]),
        count: count as u16,
        entries: (0..count).map(|_| entry(random)).collect(),
    }
}

/// A number for a field: of 2 bytes or of 4.
fn limit(font: &[u8], random: &mut Random) -> u32 {
    let len = font.len() as u32;
    match random.below(4) {
        0 => random.pick(&[0, 1, 2, 255, 256, 0x7fff, 0x8000, 0x8001, 0xffff, 0x1_0000]),
        1 => (len + 2).saturating_sub(random.below(12) as u32),
        2 => random.below(len as u64 + 1) as u32,
        _ => random.pick(&[
            0x7fff_ffff,
            0x8000_0000,
            u32::MAX - len,
            u32::MAX - 4,
            u32::MAX - 3,
            u32::MAX,
        ]),
    }
}

/// Mostly as it is; else with a field at a limit, a byte changed, cut off or added.
fn damaged(mut font: Vec<u8>, random: &mut Random) -> Vec<u8> {
    let len = font.len() as u64;
    match random.below(12) {
        0 => {
            let limit = limit(&font, random);
            let at = 2 * random.below(len / 2 + 1) as usize;
            if random.below(2) == 0 {
                write(&mut font, at, &limit.to_be_bytes());
            } else {
                write(&mut font, at, &(limit as u16).to_be_bytes());
            }
        }
        1 => write(
            &mut font,
            random.below(len + 1) as usize,
            &[random.below(256) as u8],
        ),
        _ => (),
    }
    match random.below(12) {
        0 => font.truncate(random.below(len + 1) as usize),
        1 | 2 => font.truncate(font.len() - random.below(12).min(len) as usize),
        3 => font.extend((0..random.below(6)).map(|k| 0xa0 + k as u8)),
        _ => (),
    }
    font
}

/// An offset, mostly as it ought to be.
fn offset(right: usize, font: &[u8], random: &mut Random) -> u32 {
    match random.below(32) {
        0 => limit(font, random),
        1 => (right as u32 + random.below(5) as u32).saturating_sub(2),
        _ => right as u32,
    }
}

fn item_case(store: &Store, row_of: RowOf, random: &mut Random) -> String {
    let at = 1 + random.below(6) as usize;
    let font = damaged([vec![0xaa; at], store.bytes()].concat(), random);
    let (outer, inner) = row_of(store, random);
    let outer = match random.below(24) {
        0 => random.pick(&[65535, 65536, 65537, 1 << 31, u32::MAX]),
        1 => outer | 1 << 16,
        2 => store.subtables.len() as u32,
        _ => outer,
    };
    let coords = coords(store, random);
    let at = offset(at, &font, random);
    line(
        "item_delta",
        &font,
        &format!(" {at} {outer} {inner} {coords}"),
    )
}

pub fn glyph_case(name: &str, random: &mut Random) -> String {
    glyph_case_of(name, &store(random), row_of, random)
}

fn glyph_case_of(name: &str, store: &Store, row_of: RowOf, random: &mut Random) -> String {
    let maps = [map(store, row_of, random), map(store, row_of, random)];
    // a bearing has no delta without a map
    let bearings = name.starts_with("sb");
    let [advance, bearing] =
        [bearings, !bearings].map(|seldom| random.below(8) < 7 - 3 * seldom as u64);
    let [a, b] = &maps;
    let font = hvar(advance.then_some(a), bearing.then_some(b), store);
    let font = damaged(font, random);
    let entries = if bearings { b.count } else { a.count } as u64;
    let glyph = match random.below(16) {
        0 => random.below(65536),
        1 => 65535,
        2 => entries,
        _ => random.below(entries.max(2)),
    };
    let coords = coords(store, random);
    let base = offset(BASE, &font, random);
    line(name, &font, &format!(" {base} {glyph} {coords}"))
}

/// An MVAR whose records have these tags, or the next ones.
pub fn mvar_case(name: &str, tags: &[u32], random: &mut Random) -> String {
    mvar_case_of(name, tags, &store(random), row_of, random)
}

fn mvar_case_of(
    name: &str,
    tags: &[u32],
    store: &Store,
    row_of: RowOf,
    random: &mut Random,
) -> String {
    let count = match random.below(16) {
        0 => 0,
        1 => random.below(20),
        _ => 1 + random.below(5),
    };
    let mut records: Vec<Record> = (0..count)
        .map(|_| {
            let (outer, inner) = row_of(store, random);
            (
                random.pick(tags).wrapping_add(random.below(2) as u32),
                inner,
                outer as u16,
            )
        })
        .collect();
    if random.below(4) > 0 {
        records.sort();
    }
    let size = match random.below(8) {
        0 => random.below(17),
        _ => 8,
    };
    let at = random.pick(&[0, 0, 0, 1, 5]);
    let font = [vec![0xaa; at], mvar(size as u16, &records, store)].concat();
    let font = damaged(font, random);
    let tag = match records.is_empty() || random.below(8) == 0 {
        true => random.pick(tags),
        false => random.pick(&records).0,
    };
    let coords = coords(store, random);
    let at = offset(at, &font, random);
    match name {
        NEW => line(name, &font, &format!(" {at}")),
        _ => line(name, &font, &format!(" {at} {tag:08x} {coords}")),
    }
}

fn random_case(name: &str, random: &mut Random) -> String {
    match name {
        "item_delta" => item_case(&store(random), row_of, random),
        _ if name.starts_with("mvar") => mvar_case(name, &TAGS, random),
        _ => glyph_case(name, random),
    }
}

/// Cases without end: one of the edges, then a random one, and so on. The edges come in an order that
/// mixes them; once they are used up all are random.
pub struct Cases {
    edges: Edges,
    made: u64,
    random: Random,
    /// makes a random case of a function
    random_case: fn(&str, &mut Random) -> String,
}

impl Cases {
    pub fn new(seed: u64) -> Self {
        Cases {
            edges: Edges::new(),
            made: 0,
            random: Random::new(seed ^ 0x4856_4152),
            random_case,
        }
    }
}

/// Every fourth case is one of item counts.
pub fn with_counts(seed: u64) -> impl Iterator<Item = String> {
    let mut others = Cases::new(seed);
    let mut counts = counts::cases(seed);
    (0..).map_while(move |turn: u64| match turn % 4 {
        3 => counts.next(),
        _ => others.next(),
    })
}

impl Iterator for Cases {
    type Item = String;

    fn next(&mut self) -> Option<String> {
        // a prime that is larger than the number of edges: each is met once
        const STRIDE: u64 = 1_000_000_007;
        let edges = self.edges.len();
        let (turn, odd) = (self.made / 2, self.made % 2 == 1);
        self.made += 1;
        if odd || turn >= edges {
            let (name, _) = FUNCTIONS[self.random.below(FUNCTIONS.len() as u64) as usize];
            Some((self.random_case)(name, &mut self.random))
        } else {
            Some(self.edges.nth(turn * STRIDE % edges))
        }
    }
}

/// The examples of the rules, and the inputs where a wrong order, sign or place shows.
pub const LISTED: &str = "\
advance_fixed 0000000000010000000000180000001000000000003000010002000000010000000c0001000000100000000100010000000100000a 4 0 -
item_delta 0000000000010000000000180000001000000000003000010002000000010000000c0001000000100000000100010000000100000a 28 65536 0 -
mvar_fixed 000100000000000800010014686173630001000000010000000c0001000000100000000100020000000100000a0b 0 68617363 -
advance_fixed 000000000001000000000010000000000000000000010000000c00010000001000000001000180010001000000000064 4 0 -
advance_fixed 0000000000010000000000180000001000000000010700000002000100010000000c0001000000100000000100020000000100000a0b 4 0 -
advance_fixed 00000000000000000000000100000002 4 0 -
sb_delta 0000000000000000000000010000000000000002 4 0 -
item_delta 00000000000000000100000004 1 0 0 -
mvar_delta 0000000000000008000100146861736300000000000000000000000100000004 0 68617363 -
mvar_fixed 00010000000000080002001c6864736300000000686173630000000000010000000c0001000000100000000100010000000100000a 0 68647363 -
advance_delta 000000000001000000000010000000000000000000010000000c0001000000160001000100000000000000010000000100006405 4 1 -
advance_delta 0000000000010000000000180000001000000000003000010002000000010000000c0001000000100000000100010000000100000a 4 0 -
advance_delta 000000000001000000000010000000000000000000010000000c00010000001000000001000180010001000000000064 4 0 -
advance_delta 0000000000010000000000180000001000000000010700000002000100010000000c0001000000100000000100020000000100000a0b 4 0 -
advance_delta 00000000000000000000000100000002 4 0 -
advance_delta 000000000001000000000010000000000000000000010000000c00010000001600010001c00020004000000100000001000003 4 0 -
mvar_delta 000100000000000800010014686173630001000000010000000c0001000000100000000100020000000100000a0b 0 68617363 -
mvar_delta 00010000000000080002001c6864736300000000686173630000000000010000000c0001000000100000000100010000000100000a 0 68647363 -
mvar_fixed 0000000000000008000100146861736300000000000000000000000100000004 0 68617363 -
advance_fixed 000000000001000000000010000000000000000000010000000c00010000001000000001000200010001000000010002 4 1 -
advance_fixed 000000000001000000000010000000000000000000010000000c00010000001600010001000040004000000100000001000064 4 0 8192
advance_fixed 000000000001000000000010000000000000000000010000000c00010000001600010001000040004000000100000001000064 4 0 16384
advance_fixed 000000000001000000000010000000000000000000010000000c00010000001600010001000040004000000100000001000064 4 0 0
advance_fixed 000000000001000000000010000000000000000000010000000c00010000001600010001000040004000000100000001000064 4 0 -1
advance_fixed 000000000001000000000010000000000000000000010000000c00010000001600010001000040004000000100000001000064 4 0 16385
advance_fixed 000000000001000000000010000000000000000000010000000c00010000001600010001000040004000000100000001000064 4 0 -
advance_fixed 000000000001000000000010000000000000000000010000000c00010000001600010001000040004000000100000001000064 4 0 8192,5
advance_delta 000000000001000000000010000000000000000000010000000c00010000001600010001000040004000000100000001000064 4 0 8192
advance_delta 000000000001000000000010000000000000000000010000000c00010000001600010001000040004000000100000001000064 4 0 -
item_delta 000000000001000000000010000000000000000000010000000c00010000001600010001000040004000000100000001000064 20 0 0 8192
item_delta 000000000001000000000010000000000000000000010000000c00010000001600010001000040004000000100000001000064 20 1 0 8192
item_delta 000000000001000000000010000000000000000000010000000c00010000001600010001000040004000000100000001000064 20 65535 0 8192
item_delta 000000000001000000000010000000000000000000010000000c00010000001600010001000040004000000100000001000064 20 65536 0 8192
item_delta 000000000001000000000010000000000000000000010000000c00010000001600010001000040004000000100000001000064 20 4294967295 0 8192
item_delta 000000000001000000000010000000000000000000010000000c00010000001600010001000040004000000100000001000064 0 4294967295 0 8192
item_delta 000000000001000000000010000000000000000000010000000c00010000001600010001000040004000000100000001000064 45 4294967295 0 8192
item_delta 000000000001000000000010000000000000000000010000000c00010000001600010001000040004000000100000001000064 4294967295 0 65535 8192
advance_fixed 000000000001000000000010000000000000000000010000000c00010000001600010001000030004000000100000001000003 4 0 4096
advance_fixed 000000000001000000000010000000000000000000010000000c00010000001600010001c00020004000000100000001000003 4 0 0
advance_fixed 000000000001000000000010000000000000000000010000000c00010000001600010001c00020004000000100000001000003 4 0 -
advance_fixed 000000000001000000000010000000000000000000010000000c00010000001c00010002c00020004000c00020004000000100020002000000017fff7fff 4 0 -
advance_delta 000000000001000000000010000000000000000000010000000c00010000001c00010002c00020004000c00020004000000100020002000000017fff7fff 4 0 -
advance_fixed 000000000001000000000010000000000000000000010000000c00010000001000010000000100000000 4 0 16384
advance_fixed 000000000001000000000010000000000000000000010000000c00010000001000010000000100000000 4 65535 -
advance_fixed 0000000000010000000000180000001000000000000700030001020000010000000c0001000000100000000100030000000100000a0b0c 4 0 -
advance_fixed 0000000000010000000000180000001000000000000700030001020000010000000c0001000000100000000100030000000100000a0b0c 4 1 -
advance_fixed 0000000000010000000000180000001000000000000700030001020000010000000c0001000000100000000100030000000100000a0b0c 4 2 -
advance_fixed 0000000000010000000000180000001000000000000700030001020000010000000c0001000000100000000100030000000100000a0b0c 4 3 -
advance_fixed 0000000000010000000000180000001000000000000700030001020000010000000c0001000000100000000100030000000100000a0b0c 4 65535 -
sb_fixed 0000000000010000000000180000001000000000000700030001020000010000000c0001000000100000000100030000000100000a0b0c 4 0 -
sb_delta 0000000000010000000000180000001000000000000700030001020000010000000c0001000000100000000100030000000100000a0b0c 4 0 -
advance_fixed 000000000001000000000010000000000000000000010000000c0001000000160001000100000000000000010000000100006405 4 0 -
advance_fixed 000000000001000000000010000000000000000000010000000c0001000000160001000100000000000000010000000100006405 4 1 -
advance_fixed 000000000001000000000010000000000000000000010000000c0001000000160001000100000000000000010000000100006405 4 2 -
advance_fixed 000000000001000000000000 4 0 -
advance_delta 000000000001000000000000 4 0 -
advance_fixed 000000000001000000000010 4 0 -
advance_delta 000000000001000000000010 4 0 -
advance_fixed 0000000000010000fffffffc 4 0 -
advance_delta 0000000000010000fffffffc 4 0 -
advance_fixed 0000000000010000fffffffb 4 0 -
advance_delta 0000000000010000fffffffb 4 0 -
advance_fixed 000000000001000000000001 4 0 -
advance_delta 000000000001000000000001 4 0 -
advance_fixed 000000000001000000000010000000000000000000010000000c00010000001600010001000040004000000100000001000064 0 0 -
sb_fixed 000000000001000000000010000000000000000000010000000c00010000001600010001000040004000000100000001000064 4 0 -
advance_fixed 0000000000010000000000180000001000000010000700000000000000010000000c0001000000100000000100030000000100000a0b0c 4 0 -
sb_fixed 0000000000010000000000180000001000000010000700000000000000010000000c0001000000100000000100030000000100000a0b0c 4 0 -
sb_delta 0000000000010000000000180000001000000010000700000000000000010000000c0001000000100000000100030000000100000a0b0c 4 65535 -
advance_fixed 0000000000010000000000180000001000000010003000010002000000010000000c0001000000100000000100030000000100000a0b0c 4 0 -
sb_fixed 0000000000010000000000180000001000000010003000010002000000010000000c0001000000100000000100030000000100000a0b0c 4 0 -
advance_fixed 000000000001000000000010000000000000000000010000000c0001000000160001000100004000400000010002000100000064 4 0 16384
advance_fixed 000000000001000000000010000000000000000000010000000c00010000001600010001000040004000000180010001000000000064 4 0 16384
advance_fixed 000000000001000000000010000000000000000000010000000c00010000001600010001000040004000000180000001000000000064 4 0 16384
advance_fixed 000000000001000000000010000000000000000000010000000c0001000000160001000100004000400000010001000100000064 4 0 16384
advance_fixed 000000000001000000000010000000000000000000010000000c00010000001600010001000040004000000100010001000000 4 0 16384
advance_fixed 000000000001000000000010000000000000000000010000000c0001000000160001000100004000400000010001000100010064 4 0 16384
advance_fixed 000000000001000000000010000000000000000000010000000c0001000000160001000100004000400000010001000100 4 0 16384
advance_fixed 000000000001000000000010000000000000000000010000000c000100000016000100010000400040000001000100 4 0 16384
advance_fixed 000000000001000000000010000000000000000000010000000c00010000001600010001000040004000000100000000 4 0 16384
advance_delta 000000000001000000000010000000000000000000010000000c0001000000160001000100004000400000010002000100000064 4 0 16384
item_delta aaaa00010000001500010000000c00010000000100006400020001000040004000000040 2 0 0 -1
item_delta aaaa00010000001500010000000c00010000000100006400020001000040004000000040 2 0 0 0
item_delta aaaa00010000001500010000000c00010000000100006400020001000040004000000040 2 0 0 8192
item_delta aaaa00010000001500010000000c00010000000100006400020001000040004000000040 2 0 0 16384
mvar_fixed 00010000000000080002001c6861736300010000686473630000000100010000001000020000001a00000024000100010000400040000002000000010000070900010001000100000100 0 68617363 16384
mvar_delta 00010000000000080002001c6861736300010000686473630000000100010000001000020000001a00000024000100010000400040000002000000010000070900010001000100000100 0 68617363 16384
mvar_fixed 00010000000000080002001c6861736300010000686473630000000100010000001000020000001a00000024000100010000400040000002000000010000070900010001000100000100 0 68647363 16384
mvar_delta 00010000000000080002001c6861736300010000686473630000000100010000001000020000001a00000024000100010000400040000002000000010000070900010001000100000100 0 68647363 16384
mvar_fixed 00010000000000080002001c6861736300010000686473630000000100010000001000020000001a00000024000100010000400040000002000000010000070900010001000100000100 0 68617364 16384
mvar_delta 00010000000000080002001c6861736300010000686473630000000100010000001000020000001a00000024000100010000400040000002000000010000070900010001000100000100 0 68617364 16384
mvar_fixed 00010000000000080002001c6861736300010000686473630000000100010000001000020000001a00000024000100010000400040000002000000010000070900010001000100000100 0 00000000 16384
mvar_delta 00010000000000080002001c6861736300010000686473630000000100010000001000020000001a00000024000100010000400040000002000000010000070900010001000100000100 0 00000000 16384
mvar_fixed 00010000000000080002001c6861736300010000686473630000000100010000001000020000001a00000024000100010000400040000002000000010000070900010001000100000100 0 ffffffff 16384
mvar_delta 00010000000000080002001c6861736300010000686473630000000100010000001000020000001a00000024000100010000400040000002000000010000070900010001000100000100 0 ffffffff 16384
mvar_new 00010000000000080002001c6861736300010000686473630000000100010000001000020000001a00000024000100010000400040000002000000010000070900010001000100000100 0
mvar_new 00010000000000080002001c6861736300010000686473630000000100010000001000020000001a00000024000100010000400040000002000000010000070900010001000100000100 1
mvar_new - 0
mvar_new - 4294967295
mvar_new 0001000000000008000200 0
mvar_new 00010000000000080000001c 0
mvar_new 000100000000000800020000 0
mvar_new 00010000000000080000 0
mvar_delta - 0 68617363 -
mvar_fixed 00010000000000080000001c 0 68617363 -
mvar_delta 00010000000000080000001c 0 68617363 -
mvar_fixed 00010000000000080002001c6861736300010000 0 68617363 -
mvar_fixed 00010000000000080002001c6861736300010000 0 68647363 -
mvar_fixed 00010000000000080002001c6864736300000001686173630001000000010000001000020000001a00000024000100010000400040000002000000010000070900010001000100000100 0 68617363 16384
mvar_fixed 00010000000000080002001c6864736300000001686173630001000000010000001000020000001a00000024000100010000400040000002000000010000070900010001000100000100 0 68647363 16384
mvar_fixed 00010000000000080002001c6861736300010000686473630000000100010000001000020000001a00000024000100010000400040000002000000010000070900010001000100 0 68647363 16384
mvar_fixed 00010000000000080002001c6861736300010000686473630000000100010000001000020000000200000024000100010000400040000002000000010000070900010001000100000100 0 68647363 16384
mvar_delta 00010000000000080002001c6861736300010000686473630000000100010000001000020000000200000024000100010000400040000002000000010000070900010001000100000100 0 68647363 16384
advance_fixed 000000000001000000000010000000000000000000010000000c000100000010000000010001000000020000 4 0 -
advance_fixed 000000000001000000000010000000000000000000010000000c000100000010000000010001000000020001 4 0 -
advance_fixed 000000000001000000000010000000000000000000010000001800010000000c00010000000200010000070500020002c00020004000c0002000400000004000400000004000 4 0 -1
advance_fixed 000000000001000000000010000000000000000000010000001800010000000c00010000000200010000070500020002c00020004000c0002000400000004000400000004000 4 0 0
advance_fixed 000000000001000000000010000000000000000000010000001800010000000c00010000000200010000070600020002c00020004000c0002000400000004000400000004000 4 0 -1
";

/// Lines that are no case; each is answered by a question mark.
const NO_CASES: [&str; 36] = [
    "item_delta",
    "item_delta -",
    "item_delta - 0 0 0",
    "item_delta - 0 0 0 - -",
    "item_delta - 4294967296 0 0 -",
    "item_delta - 0 4294967296 0 -",
    "item_delta - 0 0 65536 -",
    "item_delta - -1 0 0 -",
    "item_delta 0 0 0 0 -",
    "item_delta - 0 0 0 32768",
    "item_delta - 0 0 0 -32769",
    "item_delta - 0 0 0 0,",
    "item_delta - 0 0 0 ,0",
    "item_delta - 0 0 0 0,,0",
    "item_delta - 0 0 0 --",
    "item_delta - 0 0 0 -,-",
    "item_delta - 0 0 0 0,-",
    "item_delta - 0 0 0 0;0",
    "item_delta - 0 0 0 ",
    "advance_fixed - 0 0",
    "advance_fixed - 0 65536 -",
    "advance_fixed - 0 0 0 -",
    "sb_fixed - 0 - -",
    "advance_delta 0A 0 0 -",
    "sb_delta - 0 0 4000h",
    "sb_delta - 0 0 - ",
    "mvar_new -",
    "mvar_new - 0 -",
    "mvar_new - 4294967296",
    "mvar_new 0g 0",
    "mvar_fixed - 0 hasc -",
    "mvar_fixed - 0 6861736 -",
    "mvar_delta - 0 68617363",
    "mvar_delta - 0 68617363 1,2,65536",
    "mvar_delta - 0 6861736G -",
    "metric_delta - 0 0 -",
];

/// A line of the stored sample has at most this many bytes.
const SHORT: usize = 400;

/// A spread of `count` lines for a stored sample, every function and every refusal in it.
pub fn sample(seed: u64, count: usize) -> Vec<String> {
    let mut lines: Vec<String> = LISTED.lines().map(str::to_string).collect();
    lines.extend(NO_CASES.map(str::to_string));
    let coords = |n: usize| vec!["-16384"; n].join(",");
    lines.extend([255, 256, 257].map(|n| format!("item_delta - 0 0 0 {}", coords(n))));
    let rest = count - lines.len();
    let short = |line: &String| line.len() <= SHORT;
    lines.extend(Cases::new(seed).filter(short).take(rest));
    lines
}

/// A map of 17 entries, for advances and bearings alike, over a store of one subtable: the outer index
/// of entry g is 2^g. It keeps its low 16 bits: each is refused but the last, which is read as 0.
pub fn outer_bits() -> Vec<String> {
    let entries: String = (0..17).map(|g| format!("{:08x}", 2u32 << g)).collect();
    let head = "0000000000010000000000580000001000000010";
    let store = "00010000000c0001000000100000000100010000000100000a";
    let font = format!("{head}00300011{entries}{store}");
    let ask = |name: &str, g: usize| format!("{name} {font} 4 {g} -");
    let mut lines: Vec<String> = (0..17).map(|g| ask("advance_fixed", g)).collect();
    for name in ["sb_fixed", "advance_delta", "sb_delta"] {
        lines.extend([0, 8, 15, 16].map(|g| ask(name, g)));
    }
    lines
}

/// OpenType's index for no variation, outer and inner 0xffff, as a map's entry over a store of one
/// subtable.
pub fn no_variation() -> Vec<String> {
    let head = "0000000000010000000000180000001000000000";
    let store = "00010000000c0001000000100000000100010000000100000a";
    let font = format!("{head}003f0001ffffffff{store}");
    ["advance_fixed", "advance_delta"]
        .map(|name| format!("{name} {font} 4 0 -"))
        .to_vec()
}
