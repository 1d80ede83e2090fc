//! Cases of scalars in a lent list: small stores with lists of every length around the region count, whole and
//! cut at every byte, hostile contents, each refusal before, at and behind that of a short list, region records
//! that run out, offsets at their limits; and the store's own cases, each a second time through a filled list.

use super::*;
use crate::random::Random;
use crate::store::cases::{self, coords_text, Edges, Map, Record, Store, Subtable};
use crate::store::cases::{ALWAYS, BASE, FALL, HILL, RISE, TAGS};
use crate::store::rules::Regions;
use crate::store::NEW;

/// What a list holds before it is filled, so that it shows what stayed.
const MARKS: [i32; 5] = [0x7654_3210, -2, -1, 65537, i32::MIN];

fn marks(count: usize) -> Vec<i32> {
    (0..count).map(|k| MARKS[k % MARKS.len()]).collect()
}

/// None, one too few, just enough, one and three more.
fn rooms(regions: usize) -> Vec<usize> {
    let mut rooms = vec![0, regions, regions + 1, regions + 3];
    rooms.extend(regions.checked_sub(1));
    rooms.sort();
    rooms.dedup();
    rooms
}

/// Numbers that no filling leaves but 0 and 65536, and the mark.
const HOSTILE: [i32; 12] = [
    -1,
    -2,
    0,
    1,
    65535,
    65536,
    65537,
    0x7fff,
    -65536,
    i32::MAX,
    i32::MIN,
    i32::MIN + 1,
];

/// Lists for so many regions: each hostile number at each place, and at all of them; one too short, one longer.
fn hostile_lists(regions: usize) -> Vec<Vec<i32>> {
    let mut lists = vec![];
    for number in HOSTILE {
        for place in 0..regions {
            let mut list = vec![40000; regions];
            list[place] = number;
            lists.push(list);
        }
        lists.push(vec![number; regions]);
    }
    if let Some(short) = regions.checked_sub(1) {
        lists.push(vec![65536; short]);
        lists.push(vec![-1; short]);
    }
    lists.push(vec![-1; regions + 1]);
    lists.push([vec![65536; regions], vec![-1, -1]].concat());
    lists.sort();
    lists.dedup();
    lists
}

type Question = (&'static str, String);

/// Filling and then a row.
fn row_filled(store: usize, row: (u32, u16), coords: &[i16], room: usize) -> Question {
    let (coords, list) = (coords_text(coords), list_text(&marks(room)));
    let (outer, inner) = row;
    let rest = format!(" {store} {outer} {inner} {coords} {list}");
    ("item_delta_filled", rest)
}

fn row_with(store: usize, row: (u32, u16), list: &[i32]) -> Question {
    let (outer, inner) = row;
    let rest = format!(" {store} {outer} {inner} {}", list_text(list));
    ("item_delta_with", rest)
}

fn filling(store: usize, coords: &[i16], list: &[i32]) -> Question {
    let rest = format!(" {store} {} {}", coords_text(coords), list_text(list));
    (FILL, rest)
}

/// A font that has the store behind three bytes, which is where the questions have it.
fn font_of(store: &Store) -> Vec<u8> {
    [vec![0xaa; 3], store.bytes()].concat()
}

const AT: usize = 3;

fn asked(font: Vec<u8>, questions: Vec<Question>, cut: bool) -> cases::Asked {
    cases::Asked {
        font,
        questions,
        cut,
    }
}

const COORDS: [&[i16]; 4] = [&[8192, -4096, 16384, -1], &[], &[-1, -16384], &[0]];

/// The store's own small stores, each cut at every byte: filled, and each row read with what was left; rows with
/// hostile lists.
fn rows() -> Vec<cases::Asked> {
    let mut fonts = vec![];
    for store in cases::stores() {
        let regions = store.regions.len();
        let mut questions = vec![];
        for coords in COORDS {
            for room in rooms(regions) {
                questions.push(filling(AT, coords, &marks(room)));
                for row in [(0, 0), (0, 1), (1, 0)] {
                    questions.push(row_filled(AT, row, coords, room));
                }
            }
        }
        questions.push(filling(0, COORDS[0], &marks(regions)));
        questions.push(row_filled(0, (0, 0), COORDS[0], regions));
        questions.push(row_with(0, (0, 0), &[]));
        for list in hostile_lists(regions) {
            questions.push(row_with(AT, (0, 0), &list));
            questions.push(row_with(AT, (1, 1), &list));
        }
        fonts.push(asked(font_of(&store), questions, true));
    }
    fonts
}

const GLYPH_NAMES: [[&str; 2]; 4] = [
    ["advance_fixed_filled", "advance_fixed_with"],
    ["sb_fixed_filled", "sb_fixed_with"],
    ["advance_delta_filled", "advance_delta_with"],
    ["sb_delta_filled", "sb_delta_with"],
];

const TAG_NAMES: [[&str; 2]; 2] = [
    ["mvar_fixed_filled", "mvar_fixed_with"],
    ["mvar_delta_filled", "mvar_delta_with"],
];

/// What stands behind the font, with the list filled before and as it is.
fn both(
    names: [&'static str; 2],
    ask: &str,
    coords: &[i16],
    room: usize,
    given: &[i32],
) -> [Question; 2] {
    let filled = format!(" {ask} {} {}", coords_text(coords), list_text(&marks(room)));
    [
        (names[0], filled),
        (names[1], format!(" {ask} {}", list_text(given))),
    ]
}

/// The same stores behind HVARs, with maps and without, and behind MVARs.
fn tables() -> Vec<cases::Asked> {
    let mut fonts = vec![];
    let map = Map::of(1, 8, &[0, 1]);
    for (k, store) in cases::stores().iter().enumerate() {
        let regions = store.regions.len();
        let hostile = hostile_lists(regions);
        let coords = COORDS[k % COORDS.len()];
        let maps = if k % 2 == 0 { None } else { Some(&map) };
        let mut questions = vec![(STORE_OFFSET, format!(" {BASE}"))];
        for (j, names) in GLYPH_NAMES.into_iter().enumerate() {
            for (i, room) in rooms(regions).into_iter().enumerate() {
                let list = &hostile[(5 * i + j + k) % hostile.len()];
                for glyph in [0, 1] {
                    let ask = format!("{BASE} {glyph}");
                    questions.extend(both(names, &ask, coords, room, list));
                }
            }
        }
        fonts.push(asked(cases::hvar(maps, Some(&map), store), questions, true));

        let records: [Record; 2] = [(TAGS[0], 0, 0), (TAGS[1], 0, 1)];
        // from its start, and from a place in a font
        let start = 5 * (k % 2);
        let mut questions = vec![(MVAR_STORE_OFFSET, format!(" {start}"))];
        for (j, names) in TAG_NAMES.into_iter().enumerate() {
            for (i, room) in rooms(regions).into_iter().enumerate() {
                let list = &hostile[(5 * i + j + k) % hostile.len()];
                for tag in [TAGS[0], TAGS[1], TAGS[2]] {
                    let ask = format!("{start} {tag:08x}");
                    questions.extend(both(names, &ask, coords, room, list));
                }
            }
        }
        let font = [vec![0xaa; start], cases::mvar(8, &records, store)].concat();
        fonts.push(asked(font, questions, true));
    }
    fonts
}

/// Two regions, of which none is outside, and a subtable of every small shape: word counts that are refused by 5
/// and not, region indices that are there and not, item counts on both sides of inner; with lists that are too
/// short, have the mark at a place, or are longer; each cut at every byte.
fn orders() -> Vec<cases::Asked> {
    let mut fonts = vec![];
    let indices: [&[u16]; 8] = [
        &[],
        &[0],
        &[1],
        &[2],
        &[0, 1],
        &[1, 0],
        &[2, 0],
        &[0, 65535],
    ];
    let lists: [&[i32]; 9] = [
        &[],
        &[65536],
        &[-1],
        &[65536, 65536],
        &[-1, 65536],
        &[65536, -1],
        &[-1, -1],
        &[7, -7, -1],
        &[i32::MIN, i32::MAX, -1, -1],
    ];
    for indices in indices {
        let most = indices.len() as u16;
        for word_count in 0..=most + 1 {
            for item_count in [0, 1, 2] {
                let subtable = Subtable {
                    item_count,
                    word_count,
                    indices: indices.to_vec(),
                    rows: vec![vec![100, -3][..indices.len()].to_vec(); 2],
                };
                let store = Store::of_one(&[&[ALWAYS], &[HILL]], subtable);
                let mut questions = vec![];
                for inner in [0, 1, 2] {
                    for list in lists {
                        questions.push(row_with(AT, (0, inner), list));
                    }
                    for room in [0, 1, 2, 3] {
                        questions.push(row_filled(AT, (0, inner), &[12288], room));
                    }
                }
                questions.push(row_with(AT, (1, 0), &[]));
                fonts.push(asked(font_of(&store), questions, true));
            }
        }
    }
    fonts
}

/// Regions of two axes at the font's end, cut at every byte, and rows that name some of them: what is outside
/// before the cut has the scalar 0, and what no row names harms nobody.
fn records() -> Vec<cases::Asked> {
    let mut fonts = vec![];
    let regions: [&[[i16; 3]]; 3] = [&[RISE, HILL], &[FALL, RISE], &[ALWAYS, FALL]];
    let named: [&[u16]; 6] = [&[0], &[1], &[2], &[0, 2], &[2, 0, 1], &[]];
    for indices in named {
        let subtable = Subtable {
            item_count: 1,
            word_count: 0,
            indices: indices.to_vec(),
            rows: vec![vec![100, 7, -9][..indices.len()].to_vec()],
        };
        let mut store = Store::of_one(&regions, subtable);
        store.regions_last = true;
        let lists: [&[i16]; 6] = [
            &[],
            &[0, 0],
            &[8192, 8192],
            &[-8192, 8192],
            &[8192, -8192],
            &[-1],
        ];
        let mut questions = vec![];
        for coords in lists {
            for room in [3, 4] {
                questions.push(filling(AT, coords, &marks(room)));
                questions.push(row_filled(AT, (0, 0), coords, room));
            }
        }
        fonts.push(asked(font_of(&store), questions, true));
    }
    fonts
}

/// A region list, and a subtable, that lie in the store's own first bytes, so that they can be whole where the
/// subtable count, or what else is read before them, is not; cut at every byte.
fn heads() -> Vec<cases::Asked> {
    let mut fonts = vec![];
    for offset in 0..12u32 {
        for (count, subtable) in [(0u16, 12), (1, 12), (2, 12), (1, 0), (1, 2)] {
            let mut font = vec![0xaa, 0, 1];
            font.extend(offset.to_be_bytes());
            font.extend(count.to_be_bytes());
            font.extend([0, 0, 0, subtable, 0, 1, 0, 0, 0, 0]);
            let mut questions = vec![];
            for room in [0, 1, 2, 3, 13] {
                questions.push(filling(1, &[8192], &marks(room)));
                questions.push(row_filled(1, (0, 0), &[8192], room));
            }
            fonts.push(asked(font, questions, true));
        }
    }
    fonts
}

/// Maps at the font's end, behind the store, of every entry size and of none to two entries, whose outer index
/// may have more than 16 bits; cut at every byte.
fn maps() -> Vec<cases::Asked> {
    let mut fonts = vec![];
    let mut store = Store::of_one(&[&[RISE], &[FALL]], Subtable::of_row(0, &[100, 50]));
    store.subtables.push(Subtable::of_row(1, &[-300, 7]));
    let bytes = store.bytes();
    for size in 1..=4u16 {
        for bits in [1, 8, 16] {
            let outers = [0u64, 1, 65536, 65537].map(|outer| (outer << bits) as u32);
            for entries in [&[][..], &outers[..1], &outers[1..3], &outers[3..]] {
                let map = Map::of(size, bits, entries).bytes();
                let end = 20 + bytes.len() as u32;
                let mut font = vec![0, 0, 0, 0, 0, 1, 0, 0];
                for field in [20, end, end, 0] {
                    font.extend(field.to_be_bytes());
                }
                let font = [font, bytes.clone(), map].concat();
                let mut questions = vec![];
                for names in GLYPH_NAMES {
                    for glyph in [0, 1, 65535] {
                        let ask = format!("{BASE} {glyph}");
                        questions.extend(both(names, &ask, &[8192], 2, &[40000, -2]));
                    }
                }
                fonts.push(asked(font, questions, true));
            }
        }
    }
    fonts
}

/// Regions without an axis, of which there can be any number: as many as a case's list may have, one less and
/// one more, and the most.
fn many() -> Vec<cases::Asked> {
    let mut fonts = vec![];
    for regions in [254u16, 255, 256, 257, 32768, 65535] {
        let subtable = Subtable {
            item_count: 1,
            word_count: 1,
            indices: vec![0, regions - 1],
            rows: vec![vec![-300, 7]],
        };
        let mut font = font_of(&Store::of_one(&[], subtable));
        // the axis count, then the region count
        font[AT + 12..AT + 16].copy_from_slice(&[&[0, 0], &regions.to_be_bytes()[..]].concat());
        let mut questions = vec![];
        for room in [253, 254, 255, 256] {
            questions.push(filling(AT, &[], &marks(room)));
            questions.push(row_filled(AT, (0, 0), &[], room));
            let mut list = vec![65536; room];
            list[room - 1] = -1;
            questions.push(row_with(AT, (0, 0), &list));
        }
        fonts.push(asked(font, questions, false));
    }
    fonts
}

/// Both store offsets at their limits and around 2^32, the questions' own too, cut at every byte.
fn offsets() -> Vec<cases::Asked> {
    const TOP: u64 = 1 << 32;
    let mut fonts = vec![];
    let store = Store::of_one(&[&[RISE]], Subtable::of_row(0, &[100]));
    let font = cases::hvar(None, None, &store);
    for xvar in [1u64, 2, 4, 6] {
        let mut fields = vec![0, 1, 2, 16, 0xffff, 0x1_0000, 1 << 31, TOP - 1];
        fields.extend((0..4).map(|near| TOP - xvar - 2 + near));
        for field in fields {
            let mut font = font[..20].to_vec();
            let place = xvar as usize + 4;
            font[place..place + 4].copy_from_slice(&(field as u32).to_be_bytes());
            let ask = vec![(STORE_OFFSET, format!(" {xvar}"))];
            fonts.push(asked(font, ask, true));
        }
    }
    let mut questions = vec![];
    for p in (0..70).chain([1 << 31, TOP - 9, TOP - 8, TOP - 5, TOP - 4, TOP - 1]) {
        questions.push((STORE_OFFSET, format!(" {p}")));
        questions.push((MVAR_STORE_OFFSET, format!(" {p}")));
        questions.push(filling(p as usize, &[8192], &marks(2)));
        let ask = format!("{p} 0");
        questions.extend(both(GLYPH_NAMES[0], &ask, &[8192], 2, &[40000, -1]));
        let ask = format!("{p} {:08x}", TAGS[0]);
        questions.extend(both(TAG_NAMES[0], &ask, &[8192], 2, &[40000, -1]));
    }
    let behind = cases::mvar(8, &[(TAGS[0], 0, 0)], &store);
    fonts.push(asked([font, behind].concat(), questions, false));
    for count in [0u16, 1, 65535] {
        for store in [0u16, 1, 20, 65535] {
            let mut font = vec![0, 1, 0, 0, 0, 0, 0, 8];
            font.extend(count.to_be_bytes());
            font.extend(store.to_be_bytes());
            font.extend([0xee; 4]);
            let ask = |p: usize| (MVAR_STORE_OFFSET, format!(" {p}"));
            fonts.push(asked(font, vec![ask(0), ask(1), ask(4)], true));
        }
    }
    fonts
}

fn edges() -> Edges {
    Edges::of(vec![
        rows(),
        tables(),
        orders(),
        records(),
        heads(),
        maps(),
        many(),
        offsets(),
    ])
}

/// Where the store of a delta is, by the rules, and the part of the font in which its positions count.
fn store_in(case: &Case) -> Option<(&[u8], usize)> {
    let (font, offset) = (&case.font[..], case.numbers[0] as usize);
    match case.asked {
        With("mvar_fixed" | "mvar_delta") => {
            let mvar = store_rules::open(font, offset).ok()?;
            Some((mvar.part, mvar.store))
        }
        With("item_delta") => Some((font, offset)),
        _ => Some((font, store_rules::store_of(font, offset).ok()?)),
    }
}

/// How long a list is: mostly just enough, often longer, sometimes too short or empty.
fn room(regions: usize, random: &mut Random) -> usize {
    let room = match random.below(16) {
        0 => 0,
        1 | 2 => regions.saturating_sub(1),
        3 => regions.saturating_sub(random.below(4) as usize),
        4..=7 => regions + 1 + random.below(4) as usize,
        8 => random.below(17) as usize,
        _ => regions,
    };
    room.min(text::LIST)
}

fn any_number(random: &mut Random) -> i32 {
    match random.below(4) {
        0 => random.pick(&HOSTILE),
        1 => random.below(65537) as i32,
        2 => random.magnitude(31) as i32,
        _ => random.bits() as i32,
    }
}

/// Scalars, with one mark or none; any numbers but the mark; or any.
fn contents(room: usize, random: &mut Random) -> Vec<i32> {
    let kind = random.below(4);
    let mut list: Vec<i32> = (0..room)
        .map(|_| match kind {
            0 | 1 => random.below(65537) as i32,
            _ => any_number(random),
        })
        .collect();
    match kind {
        1 if room > 0 => list[random.below(room as u64) as usize] = -1,
        2 => list.iter_mut().filter(|n| **n == -1).for_each(|n| *n = -2),
        _ => (),
    }
    list
}

/// What a case of the store becomes.
#[derive(Clone, Copy)]
enum Becomes {
    /// its delta, through a filled list
    Filled,
    /// its delta, with a list of any contents
    With,
    /// its store's list, filled
    Filling,
    /// its store's offset
    Offset,
}

/// A case of the store, a second time. Opening an MVAR is its store's offset; an item has its own.
fn of_store(line: &str, becomes: Becomes, random: &mut Random) -> String {
    let (name, behind) = line.split_once(' ').unwrap_or((line, ""));
    let words: Vec<&str> = behind.split(' ').collect();
    let (font, offset) = (words[0], words[1]);
    if name == NEW {
        return format!("{MVAR_STORE_OFFSET} {font} {offset}");
    }
    let coords = words[words.len() - 1];
    let ask = words[..words.len() - 1].join(" ");
    // with an empty list it is a case
    let case = parse(&format!("{name}_with {ask} -"));
    let place = case.as_ref().and_then(store_in);
    let regions = place.and_then(|(font, store)| Some(Regions::of(font, store).ok()?.count));
    let room = room(regions.unwrap_or(random.below(4) as usize), random);
    let list = list_text(&contents(room, random));
    match (becomes, place) {
        (Becomes::Filled, _) => format!("{name}_filled {behind} {list}"),
        (Becomes::Filling, Some((part, store))) => {
            let part = text::bytes_text(part.iter().copied());
            format!("{FILL} {part} {store} {coords} {list}")
        }
        (Becomes::Offset, _) if name.starts_with("mvar") => {
            format!("{MVAR_STORE_OFFSET} {font} {offset}")
        }
        (Becomes::Offset, _) if name != "item_delta" => {
            format!("{STORE_OFFSET} {font} {offset}")
        }
        _ => format!("{name}_with {ask} {list}"),
    }
}

/// Cases without end. Half are the store's own, each through a filled list; a quarter are edges, in an order that
/// mixes them; the rest, and all that is left once they are used up, are others of the store's, with any list,
/// filled alone, or asked where the store is.
pub struct Cases {
    edges: Edges,
    made: u64,
    again: Box<dyn Iterator<Item = String>>,
    others: Box<dyn Iterator<Item = String>>,
    random: Random,
}

impl Cases {
    pub fn new(seed: u64) -> Self {
        let seed = seed ^ 0x4c49_4e45;
        Cases {
            edges: edges(),
            made: 0,
            again: Box::new(cases::with_counts(seed)),
            others: Box::new(cases::with_counts(!seed)),
            random: Random::new(seed),
        }
    }
}

impl Iterator for Cases {
    type Item = String;

    fn next(&mut self) -> Option<String> {
        // a prime that is larger than the number of edges: each is met once
        const STRIDE: u64 = 1_000_000_007;
        let (turn, quarter) = (self.made / 4, self.made % 4);
        self.made += 1;
        if quarter % 2 == 0 {
            let line = self.again.next()?;
            return Some(of_store(&line, Becomes::Filled, &mut self.random));
        }
        if quarter == 1 && turn < self.edges.len() {
            return Some(self.edges.nth(turn * STRIDE % self.edges.len()));
        }
        let becomes = match self.random.below(8) {
            0 | 1 => Becomes::Filling,
            2 => Becomes::Offset,
            _ => Becomes::With,
        };
        let line = self.others.next()?;
        Some(of_store(&line, becomes, &mut self.random))
    }
}

/// Each refusal of both store offsets and of filling, at every byte; lists of each length; a region list in the
/// store's own head; no region, and none that is named; regions whose record runs out, outside before and not;
/// each refusal of a row at lists that are too short, marked and whole; numbers that are no scalars; glyphs, with outer
/// indices of more than 16 bits and maps at the font's end; tags.
const LISTED: &str = "\
store_offset 00000000000100000000001400000000000000000000000000010000000c00010000001600010001000040004000000100000001000064 4
store_offset 00000000000100000000001400000000000000000000000000010000000c00010000001600010001000040004000000100000001000064 0
store_offset 0000000000010000 4
store_offset 000000000001000000 4
store_offset 00000000000100000000 4
store_offset 0000000000010000000000 4
store_offset 000000000001000000000014 4
store_offset 000000000001000000000000 4
store_offset 000000000001000000000001 4
store_offset 0000000000010000fffffffb 4
store_offset 0000000000010000fffffffc 4
store_offset 0000000000010000ffffffff 4
store_offset 00000000000100000000001400000000000000000000000000010000000c00010000001600010001000040004000000100000001000064 4294967295
store_offset - 0
store_offset - 1
mvar_store_offset 000100000000 0
mvar_store_offset 00010000000000 0
mvar_store_offset 0001000000000008 0
mvar_store_offset 000100000000000800 0
mvar_store_offset 00010000000000080001 0
mvar_store_offset 0001000000000008000100 0
mvar_store_offset 000100000000000800010014 0
mvar_store_offset 000100000000000800010014686173630000000000010000000c00010000001600010001000040004000000100000001000064 0
mvar_store_offset aaaaaa000100000000000800010014686173630000000000010000000c00010000001600010001000040004000000100000001000064 3
mvar_store_offset 000100000000000800010014686173630000000000010000000c00010000001600010001000040004000000100000001000064 1
mvar_store_offset 000100000000000800010014686173630000000000010000000c00010000001600010001000040004000000100000001000064 51
mvar_store_offset 000100000000000800010014686173630000000000010000000c00010000001600010001000040004000000100000001000064 52
mvar_store_offset 000100000000000800010014686173630000000000010000000c00010000001600010001000040004000000100000001000064 4294967295
mvar_store_offset 000100000000000800000014 0
mvar_store_offset 000100000000000800010000 0
mvar_store_offset 000100000000000800000000 0
mvar_store_offset 0001000000000000ffffffff 0
fill_scalars 00000000000100000000001400000000000000000000000000010000000c00010000001600010001000040004000000100000001000064 0 8192 12345678
fill_scalars - 0 - -
fill_scalars - 1 - -
fill_scalars 00000000000100000000001400000000000000000000000000010000000c00010000001600010001000040004000000100000001000064 4294967295 8192 12345678
fill_scalars aaaa 2 8192 12345678,fffffff9
fill_scalars aaaa00 2 8192 12345678,fffffff9
fill_scalars aaaa0001 2 8192 12345678,fffffff9
fill_scalars aaaa000100 2 8192 12345678,fffffff9
fill_scalars aaaa00010000 2 8192 12345678,fffffff9
fill_scalars aaaa0001000000 2 8192 12345678,fffffff9
fill_scalars aaaa00010000000c 2 8192 12345678,fffffff9
fill_scalars aaaa00010000000c000100000016 2 8192 12345678,fffffff9
fill_scalars aaaa00010000000c00010000001600 2 8192 12345678,fffffff9
fill_scalars aaaa00010000000c0001000000160001 2 8192 12345678,fffffff9
fill_scalars aaaa00010000000c000100000016000100 2 8192 12345678,fffffff9
fill_scalars aaaa00010000000c00010000001600010001 2 8192 12345678,fffffff9
fill_scalars aaaa00010000000c0001000000160001000100 2 8192 12345678,fffffff9
fill_scalars aaaa00010000000c000100000016000100010000400040 2 8192 12345678,fffffff9
fill_scalars aaaa00010000000c00010000001600010001000040004000 2 8192 12345678,fffffff9
fill_scalars aaaa00010000000c0001000000160001000100004000400000 2 8192 12345678,fffffff9
fill_scalars aaaa00010000000c00010000001600010001000040004000000100000001000064 2 8192 -
fill_scalars aaaa00010000000c00010000001600010001000040004000000100000001000064 2 - -
fill_scalars aaaa00010000000c00010000001600010001000040004000000100000001000064 2 8192 12345678
fill_scalars aaaa00010000000c00010000001600010001000040004000000100000001000064 2 - 12345678
fill_scalars aaaa00010000000c00010000001600010001000040004000000100000001000064 2 8192 12345678,ffffffff
fill_scalars aaaa00010000000c00010000001600010001000040004000000100000001000064 2 - 12345678,ffffffff
fill_scalars aaaa00010000000c00010000001600010001000040004000000100000001000064 2 8192 12345678,ffffffff,00000000,80000000
fill_scalars aaaa00010000000c00010000001600010001000040004000000100000001000064 2 - 12345678,ffffffff,00000000,80000000
fill_scalars aaaa00010000000c00010000001600010001000040004000000100000001000064 2 16384 12345678,ffffffff
fill_scalars aaaa00010000000c00010000001600010001000040004000000100000001000064 2 16385 12345678,ffffffff
fill_scalars aaaa00010000000c00010000001600010001000040004000000100000001000064 2 -1 12345678,ffffffff
fill_scalars aaaa00010000000c00010000001600010001000040004000000100000001000064 2 0 12345678,ffffffff
fill_scalars aaaa00010000000c00010000001600010001000040004000000100000001000064 2 1 12345678,ffffffff
fill_scalars aaaa00010000000c00010000001600010001000040004000000100000001000064 2 -32768 12345678,ffffffff
fill_scalars aaaa00010000000c00010000001600010001000040004000000100000001000064 2 32767 12345678,ffffffff
fill_scalars aaaa00010000000c00010000001600010001000040004000000100000001000064 2 8192,5 12345678,ffffffff
fill_scalars aa0001000000 1 - 12345678,12345678,12345678
fill_scalars aa000100000002 1 - 12345678,12345678,12345678
fill_scalars aa00010000000200 1 - 12345678,12345678,12345678
fill_scalars aa000100000002 1 - 12345678,12345678
fill_scalars aa000100000002 1 - 12345678
fill_scalars aa000100000000 1 - -
fill_scalars aa000100000000 1 - 12345678
item_delta_filled aa000100000002 1 0 0 - 12345678,12345678
fill_scalars aa00010000000c00010000001000010000000100000000 1 - -
fill_scalars aa00010000000c00010000001000010000000100000000 1 - 12345678
item_delta_filled aa00010000000c00010000001000010000000100000000 1 0 0 - -
item_delta_with aa00010000000c00010000001000010000000100000000 1 0 0 -
item_delta_with aa00010000000c00010000001000010000000100000000 1 0 0 ffffffff
item_delta_with aa00010000000c00010000001000010000000100000000 1 0 1 -
item_delta_with aa00010000000c00010000001c00010002000040004000c000c0000000000100000000 1 0 0 -
item_delta_filled aa00010000000c00010000001c00010002000040004000c000c0000000000100000000 1 0 0 8192 -
item_delta_with aa00010000000c00010000001c00010002000040004000c000c0000000000100000000 1 0 0 12345678
item_delta_filled aa00010000000c00010000001c00010002000040004000c000c0000000000100000000 1 0 0 8192 12345678
item_delta_with aa00010000000c00010000001c00010002000040004000c000c0000000000100000000 1 0 0 ffffffff,ffffffff
item_delta_filled aa00010000000c00010000001c00010002000040004000c000c0000000000100000000 1 0 0 8192 ffffffff,ffffffff
item_delta_with aa00010000000c00010000001c00010002000040004000c000c0000000000100000000 1 0 0 12345678,12345678,12345678
item_delta_filled aa00010000000c00010000001c00010002000040004000c000c0000000000100000000 1 0 0 8192 12345678,12345678,12345678
item_delta_with aa00010000000c00010000001c00010002000040004000c000c0000000000100000000 1 0 1 -
item_delta_with aa00010000000c00010000001c00010002000040004000c000c0000000000100000000 1 1 0 -
item_delta_filled aa00010000001500010000000c00010000000100000500020002c00020004000c00020004000000040004000000040004000 1 0 0 -1 12345678,12345678
item_delta_filled aa00010000001500010000000c00010000000100000500020002c00020004000c00020004000000040004000000040004000 1 0 0 0 12345678,12345678
item_delta_filled aa00010000001500010000000c00010000000100000500020002c00020004000c000200040000000400040000000400040 1 0 0 -1 12345678,12345678,12345678
item_delta_filled aa00010000001500010000000c00010000000100000500020002c00020004000c000200040000000400040000000400040 1 0 0 0 12345678,12345678,12345678
item_delta_filled aa00010000001500010000000c00010000000100000500020002c00020004000c00020004000000040004000 1 0 0 -1 12345678,12345678
item_delta_filled aa00010000001500010000000c00010000000100000500020002c00020004000c00020004000000040004000 1 0 0 0 12345678,12345678
item_delta_filled aa00010000001500010000000c00010000000100000500020002c00020004000c000200040000000400040 1 0 0 -1 12345678,12345678
item_delta_filled aa00010000001500010000000c00010000000100000500020002c00020004000c000200040000000400040 1 0 0 0 12345678,12345678
item_delta_filled aa00010000001500010000000c00010000000100000500020002c00020004000c00020004000 1 0 0 -1 12345678,12345678
item_delta_filled aa00010000001500010000000c00010000000100000500020002c00020004000c00020004000 1 0 0 0 12345678,12345678
item_delta_filled aa00010000001500010000000c00010000000100010500020002c00020004000c00020004000000040004000000040004000 1 0 0 -1 12345678,12345678
item_delta_filled aa00010000001500010000000c00010000000100010500020002c00020004000c00020004000000040004000000040004000 1 0 0 0 12345678,12345678
item_delta_filled aa00010000001500010000000c00010000000100010500020002c00020004000c000200040000000400040000000400040 1 0 0 -1 12345678,12345678,12345678
item_delta_filled aa00010000001500010000000c00010000000100010500020002c00020004000c000200040000000400040000000400040 1 0 0 0 12345678,12345678,12345678
item_delta_filled aa00010000001500010000000c00010000000100010500020002c00020004000c00020004000000040004000 1 0 0 -1 12345678,12345678
item_delta_filled aa00010000001500010000000c00010000000100010500020002c00020004000c00020004000000040004000 1 0 0 0 12345678,12345678
item_delta_filled aa00010000001500010000000c00010000000100010500020002c00020004000c000200040000000400040 1 0 0 -1 12345678,12345678
item_delta_filled aa00010000001500010000000c00010000000100010500020002c00020004000c000200040000000400040 1 0 0 0 12345678,12345678
item_delta_filled aa00010000001500010000000c00010000000100010500020002c00020004000c00020004000 1 0 0 -1 12345678,12345678
item_delta_filled aa00010000001500010000000c00010000000100010500020002c00020004000c00020004000 1 0 0 0 12345678,12345678
item_delta_filled aa00010000001800010000000c00010000000200000001050600020002c00020004000c00020004000000040004000000040004000 1 0 0 -1 12345678,12345678
item_delta_filled aa00010000001800010000000c00010000000200000001050600020002c00020004000c00020004000000040004000000040004000 1 0 0 0 12345678,12345678
item_delta_filled aa00010000001800010000000c00010000000200000001050600020002c00020004000c000200040000000400040000000400040 1 0 0 -1 12345678,12345678,12345678
item_delta_filled aa00010000001800010000000c00010000000200000001050600020002c00020004000c000200040000000400040000000400040 1 0 0 0 12345678,12345678,12345678
item_delta_filled aa00010000001800010000000c00010000000200000001050600020002c00020004000c00020004000000040004000 1 0 0 -1 12345678,12345678
item_delta_filled aa00010000001800010000000c00010000000200000001050600020002c00020004000c00020004000000040004000 1 0 0 0 12345678,12345678
item_delta_filled aa00010000001800010000000c00010000000200000001050600020002c00020004000c000200040000000400040 1 0 0 -1 12345678,12345678
item_delta_filled aa00010000001800010000000c00010000000200000001050600020002c00020004000c000200040000000400040 1 0 0 0 12345678,12345678
item_delta_filled aa00010000001800010000000c00010000000200000001050600020002c00020004000c00020004000 1 0 0 -1 12345678,12345678
item_delta_filled aa00010000001800010000000c00010000000200000001050600020002c00020004000c00020004000 1 0 0 0 12345678,12345678
item_delta_filled aa00010000001800010000000c00010000000200010000050600020002c00020004000c00020004000000040004000000040004000 1 0 0 -1 12345678,12345678
item_delta_filled aa00010000001800010000000c00010000000200010000050600020002c00020004000c00020004000000040004000000040004000 1 0 0 0 12345678,12345678
item_delta_filled aa00010000001800010000000c00010000000200010000050600020002c00020004000c000200040000000400040000000400040 1 0 0 -1 12345678,12345678,12345678
item_delta_filled aa00010000001800010000000c00010000000200010000050600020002c00020004000c000200040000000400040000000400040 1 0 0 0 12345678,12345678,12345678
item_delta_filled aa00010000001800010000000c00010000000200010000050600020002c00020004000c00020004000000040004000 1 0 0 -1 12345678,12345678
item_delta_filled aa00010000001800010000000c00010000000200010000050600020002c00020004000c00020004000000040004000 1 0 0 0 12345678,12345678
item_delta_filled aa00010000001800010000000c00010000000200010000050600020002c00020004000c000200040000000400040 1 0 0 -1 12345678,12345678
item_delta_filled aa00010000001800010000000c00010000000200010000050600020002c00020004000c000200040000000400040 1 0 0 0 12345678,12345678
item_delta_filled aa00010000001800010000000c00010000000200010000050600020002c00020004000c00020004000 1 0 0 -1 12345678,12345678
item_delta_filled aa00010000001800010000000c00010000000200010000050600020002c00020004000c00020004000 1 0 0 0 12345678,12345678
item_delta_with aa00010000000c00010000001c00010002c00020004000c000200040000001000300020000000100640064 1 0 0 -
item_delta_with aa00010000000c00010000001c00010002c00020004000c000200040000001000300020000000100640064 1 0 1 -
item_delta_with aa00010000000c00010000001c00010002c00020004000c0002000400000010001000200000001006464 1 0 1 -
item_delta_with aa00010000000c00010000001c00010002c00020004000c0002000400000010001000200000001006464 1 1 0 -
item_delta_with aa00010000000c00010000001c00010002c00020004000c0002000400000010001000200020000006464 1 0 0 -
item_delta_with aa00010000000c00010000001c00010002c00020004000c0002000400000010001000200000002006464 1 0 0 -
item_delta_with aa00010000000c00010000001c00010002c00020004000c0002000400000010001000200010000006464 1 0 0 -
item_delta_with aa00010000000c00010000001c00010002c00020004000c00020004000000100010002000000010064 1 0 0 -
item_delta_with aa00010000000c00010000001c00010002c00020004000c0002000400000010002000200000001006400 1 0 0 -
item_delta_with aa00010000000c00010000001c00010002c00020004000c00020004000000100010002000000 1 0 0 -
item_delta_with aa00010000000c00010000001c00010002c00020004000c000200040000001000100020000 1 0 0 -
item_delta_with aa00010000000c00010000001c00010002c00020004000c000200040000001000300020000000100640064 1 0 0 12345678
item_delta_with aa00010000000c00010000001c00010002c00020004000c000200040000001000300020000000100640064 1 0 1 12345678
item_delta_with aa00010000000c00010000001c00010002c00020004000c0002000400000010001000200000001006464 1 0 1 12345678
item_delta_with aa00010000000c00010000001c00010002c00020004000c0002000400000010001000200000001006464 1 1 0 12345678
item_delta_with aa00010000000c00010000001c00010002c00020004000c0002000400000010001000200020000006464 1 0 0 12345678
item_delta_with aa00010000000c00010000001c00010002c00020004000c0002000400000010001000200000002006464 1 0 0 12345678
item_delta_with aa00010000000c00010000001c00010002c00020004000c0002000400000010001000200010000006464 1 0 0 12345678
item_delta_with aa00010000000c00010000001c00010002c00020004000c00020004000000100010002000000010064 1 0 0 12345678
item_delta_with aa00010000000c00010000001c00010002c00020004000c0002000400000010002000200000001006400 1 0 0 12345678
item_delta_with aa00010000000c00010000001c00010002c00020004000c00020004000000100010002000000 1 0 0 12345678
item_delta_with aa00010000000c00010000001c00010002c00020004000c000200040000001000100020000 1 0 0 12345678
item_delta_with aa00010000000c00010000001c00010002c00020004000c000200040000001000300020000000100640064 1 0 0 00010000,00010000
item_delta_with aa00010000000c00010000001c00010002c00020004000c000200040000001000300020000000100640064 1 0 1 00010000,00010000
item_delta_with aa00010000000c00010000001c00010002c00020004000c0002000400000010001000200000001006464 1 0 1 00010000,00010000
item_delta_with aa00010000000c00010000001c00010002c00020004000c0002000400000010001000200000001006464 1 1 0 00010000,00010000
item_delta_with aa00010000000c00010000001c00010002c00020004000c0002000400000010001000200020000006464 1 0 0 00010000,00010000
item_delta_with aa00010000000c00010000001c00010002c00020004000c0002000400000010001000200000002006464 1 0 0 00010000,00010000
item_delta_with aa00010000000c00010000001c00010002c00020004000c0002000400000010001000200010000006464 1 0 0 00010000,00010000
item_delta_with aa00010000000c00010000001c00010002c00020004000c00020004000000100010002000000010064 1 0 0 00010000,00010000
item_delta_with aa00010000000c00010000001c00010002c00020004000c0002000400000010002000200000001006400 1 0 0 00010000,00010000
item_delta_with aa00010000000c00010000001c00010002c00020004000c00020004000000100010002000000 1 0 0 00010000,00010000
item_delta_with aa00010000000c00010000001c00010002c00020004000c000200040000001000100020000 1 0 0 00010000,00010000
item_delta_with aa00010000000c00010000001c00010002c00020004000c000200040000001000300020000000100640064 1 0 0 ffffffff,00010000
item_delta_with aa00010000000c00010000001c00010002c00020004000c000200040000001000300020000000100640064 1 0 1 ffffffff,00010000
item_delta_with aa00010000000c00010000001c00010002c00020004000c0002000400000010001000200000001006464 1 0 1 ffffffff,00010000
item_delta_with aa00010000000c00010000001c00010002c00020004000c0002000400000010001000200000001006464 1 1 0 ffffffff,00010000
item_delta_with aa00010000000c00010000001c00010002c00020004000c0002000400000010001000200020000006464 1 0 0 ffffffff,00010000
item_delta_with aa00010000000c00010000001c00010002c00020004000c0002000400000010001000200000002006464 1 0 0 ffffffff,00010000
item_delta_with aa00010000000c00010000001c00010002c00020004000c0002000400000010001000200010000006464 1 0 0 ffffffff,00010000
item_delta_with aa00010000000c00010000001c00010002c00020004000c00020004000000100010002000000010064 1 0 0 ffffffff,00010000
item_delta_with aa00010000000c00010000001c00010002c00020004000c0002000400000010002000200000001006400 1 0 0 ffffffff,00010000
item_delta_with aa00010000000c00010000001c00010002c00020004000c00020004000000100010002000000 1 0 0 ffffffff,00010000
item_delta_with aa00010000000c00010000001c00010002c00020004000c000200040000001000100020000 1 0 0 ffffffff,00010000
item_delta_with aa00010000000c00010000001c00010002c00020004000c000200040000001000300020000000100640064 1 0 0 00010000,ffffffff
item_delta_with aa00010000000c00010000001c00010002c00020004000c000200040000001000300020000000100640064 1 0 1 00010000,ffffffff
item_delta_with aa00010000000c00010000001c00010002c00020004000c0002000400000010001000200000001006464 1 0 1 00010000,ffffffff
item_delta_with aa00010000000c00010000001c00010002c00020004000c0002000400000010001000200000001006464 1 1 0 00010000,ffffffff
item_delta_with aa00010000000c00010000001c00010002c00020004000c0002000400000010001000200020000006464 1 0 0 00010000,ffffffff
item_delta_with aa00010000000c00010000001c00010002c00020004000c0002000400000010001000200000002006464 1 0 0 00010000,ffffffff
item_delta_with aa00010000000c00010000001c00010002c00020004000c0002000400000010001000200010000006464 1 0 0 00010000,ffffffff
item_delta_with aa00010000000c00010000001c00010002c00020004000c00020004000000100010002000000010064 1 0 0 00010000,ffffffff
item_delta_with aa00010000000c00010000001c00010002c00020004000c0002000400000010002000200000001006400 1 0 0 00010000,ffffffff
item_delta_with aa00010000000c00010000001c00010002c00020004000c00020004000000100010002000000 1 0 0 00010000,ffffffff
item_delta_with aa00010000000c00010000001c00010002c00020004000c000200040000001000100020000 1 0 0 00010000,ffffffff
item_delta_with aa00010000000c00010000001c00010002c00020004000c000200040000001000300020000000100640064 1 0 0 ffffffff,ffffffff
item_delta_with aa00010000000c00010000001c00010002c00020004000c000200040000001000300020000000100640064 1 0 1 ffffffff,ffffffff
item_delta_with aa00010000000c00010000001c00010002c00020004000c0002000400000010001000200000001006464 1 0 1 ffffffff,ffffffff
item_delta_with aa00010000000c00010000001c00010002c00020004000c0002000400000010001000200000001006464 1 1 0 ffffffff,ffffffff
item_delta_with aa00010000000c00010000001c00010002c00020004000c0002000400000010001000200020000006464 1 0 0 ffffffff,ffffffff
item_delta_with aa00010000000c00010000001c00010002c00020004000c0002000400000010001000200000002006464 1 0 0 ffffffff,ffffffff
item_delta_with aa00010000000c00010000001c00010002c00020004000c0002000400000010001000200010000006464 1 0 0 ffffffff,ffffffff
item_delta_with aa00010000000c00010000001c00010002c00020004000c00020004000000100010002000000010064 1 0 0 ffffffff,ffffffff
item_delta_with aa00010000000c00010000001c00010002c00020004000c0002000400000010002000200000001006400 1 0 0 ffffffff,ffffffff
item_delta_with aa00010000000c00010000001c00010002c00020004000c00020004000000100010002000000 1 0 0 ffffffff,ffffffff
item_delta_with aa00010000000c00010000001c00010002c00020004000c000200040000001000100020000 1 0 0 ffffffff,ffffffff
item_delta_with aa00010000000c00010000001c00010002c00020004000c0002000400000010001000200000002 1 0 0 00010000,00010000
item_delta_with aa00010000000c00010000001c00010002c00020004000c0002000400000010001000200020000 1 0 0 00010000,00010000
item_delta_with aa00010000000c00010000001c00010002c00020004000c0002000400000010001000200000002 1 0 0 ffffffff,00010000
item_delta_with aa00010000000c00010000001c00010002c00020004000c0002000400000010001000200020000 1 0 0 ffffffff,00010000
item_delta_with aa00010000000c00010000001c00010002c00020004000c0002000400000010001000200000002 1 0 0 00010000
item_delta_with aa00010000000c00010000001c00010002c00020004000c0002000400000010001000200020000 1 0 0 00010000
item_delta_with aa00010000000c00010000001c00010002c00020004000c0002000400000010001000200000001006464 0 0 0 -
item_delta_with aa00010000000c00010000001c00010002c00020004000c0002000400000010001000200000001006464 1 4294967295 0 -
item_delta_with aa00010000000c00010000001c00010002c00020004000c0002000400000010001000200000001006464 1 65536 0 -
item_delta_with aa00010000000c00010000001c00010002c00020004000c00020004000000100020002000000010003fffe 1 0 0 00000000,00010000
item_delta_with aa00010000000c00010000001c00010002c00020004000c000200040000001000100020000000180007f 1 0 0 00000000,00000000
item_delta_with aa00010000000c00010000001c00010002c00020004000c00020004000000100020002000000010003fffe 1 0 0 00000001,00010000
item_delta_with aa00010000000c00010000001c00010002c00020004000c000200040000001000100020000000180007f 1 0 0 00000001,00000001
item_delta_with aa00010000000c00010000001c00010002c00020004000c00020004000000100020002000000010003fffe 1 0 0 fffffffe,00010000
item_delta_with aa00010000000c00010000001c00010002c00020004000c000200040000001000100020000000180007f 1 0 0 fffffffe,fffffffe
item_delta_with aa00010000000c00010000001c00010002c00020004000c00020004000000100020002000000010003fffe 1 0 0 00010001,00010000
item_delta_with aa00010000000c00010000001c00010002c00020004000c000200040000001000100020000000180007f 1 0 0 00010001,00010001
item_delta_with aa00010000000c00010000001c00010002c00020004000c00020004000000100020002000000010003fffe 1 0 0 00010000,00010000
item_delta_with aa00010000000c00010000001c00010002c00020004000c000200040000001000100020000000180007f 1 0 0 00010000,00010000
item_delta_with aa00010000000c00010000001c00010002c00020004000c00020004000000100020002000000010003fffe 1 0 0 7fffffff,00010000
item_delta_with aa00010000000c00010000001c00010002c00020004000c000200040000001000100020000000180007f 1 0 0 7fffffff,7fffffff
item_delta_with aa00010000000c00010000001c00010002c00020004000c00020004000000100020002000000010003fffe 1 0 0 80000000,00010000
item_delta_with aa00010000000c00010000001c00010002c00020004000c000200040000001000100020000000180007f 1 0 0 80000000,80000000
item_delta_with aa00010000000c00010000001c00010002c00020004000c00020004000000100020002000000010003fffe 1 0 0 ffff0000,00010000
item_delta_with aa00010000000c00010000001c00010002c00020004000c000200040000001000100020000000180007f 1 0 0 ffff0000,ffff0000
item_delta_with aa00010000000c00010000001c00010002c00020004000c00020004000000100020002000000010003fffe 1 0 0 40000000,00010000
item_delta_with aa00010000000c00010000001c00010002c00020004000c000200040000001000100020000000180007f 1 0 0 40000000,40000000
advance_fixed_filled 000000000001000000000020000000140000001b0000000000070003000102000700010200010000000c00010000001c00010002000040004000c000c000000000030000000200000001643207f8807f 4 0 8192 12345678,12345678
advance_fixed_with 000000000001000000000020000000140000001b0000000000070003000102000700010200010000000c00010000001c00010002000040004000c000c000000000030000000200000001643207f8807f 4 0 ffff63c0,00010001,ffffffff
advance_fixed_filled 000000000001000000000020000000140000001b0000000000070003000102000700010200010000000c00010000001c00010002000040004000c000c000000000030000000200000001643207f8807f 4 1 8192 12345678,12345678
advance_fixed_with 000000000001000000000020000000140000001b0000000000070003000102000700010200010000000c00010000001c00010002000040004000c000c000000000030000000200000001643207f8807f 4 1 ffff63c0,00010001,ffffffff
advance_fixed_filled 000000000001000000000020000000140000001b0000000000070003000102000700010200010000000c00010000001c00010002000040004000c000c000000000030000000200000001643207f8807f 4 65535 8192 12345678,12345678
advance_fixed_with 000000000001000000000020000000140000001b0000000000070003000102000700010200010000000c00010000001c00010002000040004000c000c000000000030000000200000001643207f8807f 4 65535 ffff63c0,00010001,ffffffff
advance_fixed_filled 000000000001000000000020000000140000001b0000000000070003000102000700010200010000000c00010000001c00010002000040004000c000c000000000030000000200000001643207f8807f 4 0 -8192 -
advance_fixed_filled 000000000001000000000020000000140000001b0000000000070003000102000700010200010000000c00010000001c00010002000040004000c000c000000000030000000200000001643207f8807f 4 0 -8192 12345678
advance_fixed_filled 000000000001000000000020000000140000001b0000000000070003000102000700010200010000000c00010000001c00010002000040004000c000c000000000030000000200000001643207f8807f 4 0 -8192 12345678,12345678,ffffffff,12345678
advance_fixed_with 000000000001000000000020000000140000001b0000000000070003000102000700010200010000000c00010000001c00010002000040004000c000c000000000030000000200000001643207f8807f 4 0 00010000
advance_fixed_with 000000000001000000000020000000140000001b0000000000070003000102000700010200010000000c00010000001c00010002000040004000c000c000000000030000000200000001643207f8807f 4 0 ffffffff,00010000
advance_fixed_with 000000000001000000000020000000140000001b0000000000070003000102000700010200010000000c00010000001c00010002000040004000c000c000000000030000000200000001643207f8807f 4 0 00010000,ffffffff
advance_fixed_filled 00000000000100000000001400000000000000000000000000010000000c00010000001600010001000040004000000100000001000064 4 0 8192 12345678
advance_fixed_filled 00000000000100000000001400000000000000000000000000010000000c00010000001600010001000040004000000100000001000064 4 1 8192 12345678
advance_fixed_filled 00000000000100000000001400000000000000000000000000010000000c00010000001600010001000040004000000100000001000064 4 1 8192 -
advance_fixed_filled 00000000000100000000001400000000000000000000000000010000000c00010000001600010001000040004000000100000001000064 0 0 8192 12345678
advance_fixed_with 00000000000100000000001400000000000000000000000000010000000c00010000001600010001000040004000000100000001000064 0 0 -
advance_fixed_filled 0000000000010000fffffffc 4 0 - -
advance_fixed_filled 000000000001000000000000 4 0 - 12345678
advance_fixed_with 00000000000100000000 4 0 -
advance_fixed_filled 000000000001000000000010 4 0 - 12345678
sb_fixed_filled 000000000001000000000020000000140000001b0000000000070003000102000700010200010000000c00010000001c00010002000040004000c000c000000000030000000200000001643207f8807f 4 0 8192 12345678,12345678
sb_fixed_with 000000000001000000000020000000140000001b0000000000070003000102000700010200010000000c00010000001c00010002000040004000c000c000000000030000000200000001643207f8807f 4 0 ffff63c0,00010001,ffffffff
sb_fixed_filled 000000000001000000000020000000140000001b0000000000070003000102000700010200010000000c00010000001c00010002000040004000c000c000000000030000000200000001643207f8807f 4 1 8192 12345678,12345678
sb_fixed_with 000000000001000000000020000000140000001b0000000000070003000102000700010200010000000c00010000001c00010002000040004000c000c000000000030000000200000001643207f8807f 4 1 ffff63c0,00010001,ffffffff
sb_fixed_filled 000000000001000000000020000000140000001b0000000000070003000102000700010200010000000c00010000001c00010002000040004000c000c000000000030000000200000001643207f8807f 4 65535 8192 12345678,12345678
sb_fixed_with 000000000001000000000020000000140000001b0000000000070003000102000700010200010000000c00010000001c00010002000040004000c000c000000000030000000200000001643207f8807f 4 65535 ffff63c0,00010001,ffffffff
sb_fixed_filled 000000000001000000000020000000140000001b0000000000070003000102000700010200010000000c00010000001c00010002000040004000c000c000000000030000000200000001643207f8807f 4 0 -8192 -
sb_fixed_filled 000000000001000000000020000000140000001b0000000000070003000102000700010200010000000c00010000001c00010002000040004000c000c000000000030000000200000001643207f8807f 4 0 -8192 12345678
sb_fixed_filled 000000000001000000000020000000140000001b0000000000070003000102000700010200010000000c00010000001c00010002000040004000c000c000000000030000000200000001643207f8807f 4 0 -8192 12345678,12345678,ffffffff,12345678
sb_fixed_with 000000000001000000000020000000140000001b0000000000070003000102000700010200010000000c00010000001c00010002000040004000c000c000000000030000000200000001643207f8807f 4 0 00010000
sb_fixed_with 000000000001000000000020000000140000001b0000000000070003000102000700010200010000000c00010000001c00010002000040004000c000c000000000030000000200000001643207f8807f 4 0 ffffffff,00010000
sb_fixed_with 000000000001000000000020000000140000001b0000000000070003000102000700010200010000000c00010000001c00010002000040004000c000c000000000030000000200000001643207f8807f 4 0 00010000,ffffffff
sb_fixed_filled 00000000000100000000001400000000000000000000000000010000000c00010000001600010001000040004000000100000001000064 4 0 8192 12345678
sb_fixed_filled 00000000000100000000001400000000000000000000000000010000000c00010000001600010001000040004000000100000001000064 4 1 8192 12345678
sb_fixed_filled 00000000000100000000001400000000000000000000000000010000000c00010000001600010001000040004000000100000001000064 4 1 8192 -
sb_fixed_filled 00000000000100000000001400000000000000000000000000010000000c00010000001600010001000040004000000100000001000064 0 0 8192 12345678
sb_fixed_with 00000000000100000000001400000000000000000000000000010000000c00010000001600010001000040004000000100000001000064 0 0 -
sb_fixed_filled 0000000000010000fffffffc 4 0 - -
sb_fixed_filled 000000000001000000000000 4 0 - 12345678
sb_fixed_with 00000000000100000000 4 0 -
sb_fixed_filled 000000000001000000000010 4 0 - 12345678
advance_delta_filled 000000000001000000000020000000140000001b0000000000070003000102000700010200010000000c00010000001c00010002000040004000c000c000000000030000000200000001643207f8807f 4 0 8192 12345678,12345678
advance_delta_with 000000000001000000000020000000140000001b0000000000070003000102000700010200010000000c00010000001c00010002000040004000c000c000000000030000000200000001643207f8807f 4 0 ffff63c0,00010001,ffffffff
advance_delta_filled 000000000001000000000020000000140000001b0000000000070003000102000700010200010000000c00010000001c00010002000040004000c000c000000000030000000200000001643207f8807f 4 1 8192 12345678,12345678
advance_delta_with 000000000001000000000020000000140000001b0000000000070003000102000700010200010000000c00010000001c00010002000040004000c000c000000000030000000200000001643207f8807f 4 1 ffff63c0,00010001,ffffffff
advance_delta_filled 000000000001000000000020000000140000001b0000000000070003000102000700010200010000000c00010000001c00010002000040004000c000c000000000030000000200000001643207f8807f 4 65535 8192 12345678,12345678
advance_delta_with 000000000001000000000020000000140000001b0000000000070003000102000700010200010000000c00010000001c00010002000040004000c000c000000000030000000200000001643207f8807f 4 65535 ffff63c0,00010001,ffffffff
advance_delta_filled 000000000001000000000020000000140000001b0000000000070003000102000700010200010000000c00010000001c00010002000040004000c000c000000000030000000200000001643207f8807f 4 0 -8192 -
advance_delta_filled 000000000001000000000020000000140000001b0000000000070003000102000700010200010000000c00010000001c00010002000040004000c000c000000000030000000200000001643207f8807f 4 0 -8192 12345678
advance_delta_filled 000000000001000000000020000000140000001b0000000000070003000102000700010200010000000c00010000001c00010002000040004000c000c000000000030000000200000001643207f8807f 4 0 -8192 12345678,12345678,ffffffff,12345678
advance_delta_with 000000000001000000000020000000140000001b0000000000070003000102000700010200010000000c00010000001c00010002000040004000c000c000000000030000000200000001643207f8807f 4 0 00010000
advance_delta_with 000000000001000000000020000000140000001b0000000000070003000102000700010200010000000c00010000001c00010002000040004000c000c000000000030000000200000001643207f8807f 4 0 ffffffff,00010000
advance_delta_with 000000000001000000000020000000140000001b0000000000070003000102000700010200010000000c00010000001c00010002000040004000c000c000000000030000000200000001643207f8807f 4 0 00010000,ffffffff
advance_delta_filled 00000000000100000000001400000000000000000000000000010000000c00010000001600010001000040004000000100000001000064 4 0 8192 12345678
advance_delta_filled 00000000000100000000001400000000000000000000000000010000000c00010000001600010001000040004000000100000001000064 4 1 8192 12345678
advance_delta_filled 00000000000100000000001400000000000000000000000000010000000c00010000001600010001000040004000000100000001000064 4 1 8192 -
advance_delta_filled 00000000000100000000001400000000000000000000000000010000000c00010000001600010001000040004000000100000001000064 0 0 8192 12345678
advance_delta_with 00000000000100000000001400000000000000000000000000010000000c00010000001600010001000040004000000100000001000064 0 0 -
advance_delta_filled 0000000000010000fffffffc 4 0 - -
advance_delta_filled 000000000001000000000000 4 0 - 12345678
advance_delta_with 00000000000100000000 4 0 -
advance_delta_filled 000000000001000000000010 4 0 - 12345678
sb_delta_filled 000000000001000000000020000000140000001b0000000000070003000102000700010200010000000c00010000001c00010002000040004000c000c000000000030000000200000001643207f8807f 4 0 8192 12345678,12345678
sb_delta_with 000000000001000000000020000000140000001b0000000000070003000102000700010200010000000c00010000001c00010002000040004000c000c000000000030000000200000001643207f8807f 4 0 ffff63c0,00010001,ffffffff
sb_delta_filled 000000000001000000000020000000140000001b0000000000070003000102000700010200010000000c00010000001c00010002000040004000c000c000000000030000000200000001643207f8807f 4 1 8192 12345678,12345678
sb_delta_with 000000000001000000000020000000140000001b0000000000070003000102000700010200010000000c00010000001c00010002000040004000c000c000000000030000000200000001643207f8807f 4 1 ffff63c0,00010001,ffffffff
sb_delta_filled 000000000001000000000020000000140000001b0000000000070003000102000700010200010000000c00010000001c00010002000040004000c000c000000000030000000200000001643207f8807f 4 65535 8192 12345678,12345678
sb_delta_with 000000000001000000000020000000140000001b0000000000070003000102000700010200010000000c00010000001c00010002000040004000c000c000000000030000000200000001643207f8807f 4 65535 ffff63c0,00010001,ffffffff
sb_delta_filled 000000000001000000000020000000140000001b0000000000070003000102000700010200010000000c00010000001c00010002000040004000c000c000000000030000000200000001643207f8807f 4 0 -8192 -
sb_delta_filled 000000000001000000000020000000140000001b0000000000070003000102000700010200010000000c00010000001c00010002000040004000c000c000000000030000000200000001643207f8807f 4 0 -8192 12345678
sb_delta_filled 000000000001000000000020000000140000001b0000000000070003000102000700010200010000000c00010000001c00010002000040004000c000c000000000030000000200000001643207f8807f 4 0 -8192 12345678,12345678,ffffffff,12345678
sb_delta_with 000000000001000000000020000000140000001b0000000000070003000102000700010200010000000c00010000001c00010002000040004000c000c000000000030000000200000001643207f8807f 4 0 00010000
sb_delta_with 000000000001000000000020000000140000001b0000000000070003000102000700010200010000000c00010000001c00010002000040004000c000c000000000030000000200000001643207f8807f 4 0 ffffffff,00010000
sb_delta_with 000000000001000000000020000000140000001b0000000000070003000102000700010200010000000c00010000001c00010002000040004000c000c000000000030000000200000001643207f8807f 4 0 00010000,ffffffff
sb_delta_filled 00000000000100000000001400000000000000000000000000010000000c00010000001600010001000040004000000100000001000064 4 0 8192 12345678
sb_delta_filled 00000000000100000000001400000000000000000000000000010000000c00010000001600010001000040004000000100000001000064 4 1 8192 12345678
sb_delta_filled 00000000000100000000001400000000000000000000000000010000000c00010000001600010001000040004000000100000001000064 4 1 8192 -
sb_delta_filled 00000000000100000000001400000000000000000000000000010000000c00010000001600010001000040004000000100000001000064 0 0 8192 12345678
sb_delta_with 00000000000100000000001400000000000000000000000000010000000c00010000001600010001000040004000000100000001000064 0 0 -
sb_delta_filled 0000000000010000fffffffc 4 0 - -
sb_delta_filled 000000000001000000000000 4 0 - 12345678
sb_delta_with 00000000000100000000 4 0 -
sb_delta_filled 000000000001000000000010 4 0 - 12345678
advance_fixed_filled 00000000000100000000001c000000140000001800000000000700000007000000010000000c00010000001c00010002000040004000c000c000000000030000000200000001643207f8807f 4 0 8192 12345678,12345678
advance_fixed_filled 00000000000100000000001c000000140000001800000000000700000007000000010000000c00010000001c00010002000040004000c000c000000000030000000200000001643207f8807f 4 0 8192 -
sb_fixed_filled 00000000000100000000001c000000140000001800000000000700000007000000010000000c00010000001c00010002000040004000c000c000000000030000000200000001643207f8807f 4 0 8192 12345678,12345678
sb_fixed_filled 00000000000100000000001c000000140000001800000000000700000007000000010000000c00010000001c00010002000040004000c000c000000000030000000200000001643207f8807f 4 0 8192 -
advance_fixed_filled 00000000000100000000002c00000014000000200000000000300002000200000002000200300002000200000002000200010000000c00010000001600010001c0002000400000010000000100000a 4 0 - 12345678
advance_fixed_with 00000000000100000000002c00000014000000200000000000300002000200000002000200300002000200000002000200010000000c00010000001600010001c0002000400000010000000100000a 4 0 00000003
advance_fixed_filled 00000000000100000000002c00000014000000200000000000300002000200000002000200300002000200000002000200010000000c00010000001600010001c0002000400000010000000100000a 4 1 - 12345678
advance_fixed_with 00000000000100000000002c00000014000000200000000000300002000200000002000200300002000200000002000200010000000c00010000001600010001c0002000400000010000000100000a 4 1 00000003
sb_fixed_filled 00000000000100000000002c00000014000000200000000000300002000200000002000200300002000200000002000200010000000c00010000001600010001c0002000400000010000000100000a 4 0 - 12345678
sb_fixed_with 00000000000100000000002c00000014000000200000000000300002000200000002000200300002000200000002000200010000000c00010000001600010001c0002000400000010000000100000a 4 0 00000003
sb_fixed_filled 00000000000100000000002c00000014000000200000000000300002000200000002000200300002000200000002000200010000000c00010000001600010001c0002000400000010000000100000a 4 1 - 12345678
sb_fixed_with 00000000000100000000002c00000014000000200000000000300002000200000002000200300002000200000002000200010000000c00010000001600010001c0002000400000010000000100000a 4 1 00000003
advance_delta_filled 00000000000100000000002c00000014000000200000000000300002000200000002000200300002000200000002000200010000000c00010000001600010001c0002000400000010000000100000a 4 0 - 12345678
advance_delta_with 00000000000100000000002c00000014000000200000000000300002000200000002000200300002000200000002000200010000000c00010000001600010001c0002000400000010000000100000a 4 0 00000003
advance_delta_filled 00000000000100000000002c00000014000000200000000000300002000200000002000200300002000200000002000200010000000c00010000001600010001c0002000400000010000000100000a 4 1 - 12345678
advance_delta_with 00000000000100000000002c00000014000000200000000000300002000200000002000200300002000200000002000200010000000c00010000001600010001c0002000400000010000000100000a 4 1 00000003
sb_delta_filled 00000000000100000000002c00000014000000200000000000300002000200000002000200300002000200000002000200010000000c00010000001600010001c0002000400000010000000100000a 4 0 - 12345678
sb_delta_with 00000000000100000000002c00000014000000200000000000300002000200000002000200300002000200000002000200010000000c00010000001600010001c0002000400000010000000100000a 4 0 00000003
sb_delta_filled 00000000000100000000002c00000014000000200000000000300002000200000002000200300002000200000002000200010000000c00010000001600010001c0002000400000010000000100000a 4 1 - 12345678
sb_delta_with 00000000000100000000002c00000014000000200000000000300002000200000002000200300002000200000002000200010000000c00010000001600010001c0002000400000010000000100000a 4 1 00000003
advance_fixed_with 00000000000100000000001400000033000000330000000000010000000c00010000001600010001c0002000400000010000000100000a0007000100 4 0 00000003
advance_fixed_with 00000000000100000000001400000033000000330000000000010000000c00010000001600010001c0002000400000010000000100000a00070001 4 0 00000003
sb_fixed_with 00000000000100000000001400000033000000330000000000010000000c00010000001600010001c0002000400000010000000100000a0007000100 4 0 00000003
sb_fixed_with 00000000000100000000001400000033000000330000000000010000000c00010000001600010001c0002000400000010000000100000a00070001 4 0 00000003
advance_fixed_with 00000000000100000000001400000033000000330000000000010000000c00010000001600010001c0002000400000010000000100000a001700010000 4 0 00000003
advance_fixed_with 00000000000100000000001400000033000000330000000000010000000c00010000001600010001c0002000400000010000000100000a0017000100 4 0 00000003
sb_fixed_with 00000000000100000000001400000033000000330000000000010000000c00010000001600010001c0002000400000010000000100000a001700010000 4 0 00000003
sb_fixed_with 00000000000100000000001400000033000000330000000000010000000c00010000001600010001c0002000400000010000000100000a0017000100 4 0 00000003
advance_fixed_with 00000000000100000000001400000033000000330000000000010000000c00010000001600010001c0002000400000010000000100000a00070000 4 0 00000003
advance_fixed_with 00000000000100000000001400000033000000330000000000010000000c00010000001600010001c0002000400000010000000100000a000700 4 0 00000003
sb_fixed_with 00000000000100000000001400000033000000330000000000010000000c00010000001600010001c0002000400000010000000100000a00070000 4 0 00000003
sb_fixed_with 00000000000100000000001400000033000000330000000000010000000c00010000001600010001c0002000400000010000000100000a000700 4 0 00000003
item_delta_with aa00010000000c00010000001c00010002c00020004000c00020004000000100010002000000020064 1 0 0 ffffffff,00010000
item_delta_with aa00010000000c00010000001c00010002c00020004000c00020004000000100010002000000020064 1 0 0 00010000,ffffffff
item_delta_with aa00010000000000 1 1 0 -
item_delta_with aa0001000000000001 1 1 0 -
sb_fixed_with 00000000000100000000001400000000000000 4 0 -
sb_fixed_with 0000000000010000000000140000000000000000 4 0 -
item_delta_with aa0001000000000001000000 1 0 0 -
item_delta_with aa000100000000000100000000 1 0 0 -
mvar_fixed_filled 00010000000000080004002c68617363000000006864736300010000756e646f00000001786867740003000000010000000c00010000001c00010002000040004000c000c000000000030000000200000001643207f8807f 0 68617363 8192 12345678,12345678
mvar_fixed_with 00010000000000080004002c68617363000000006864736300010000756e646f00000001786867740003000000010000000c00010000001c00010002000040004000c000c000000000030000000200000001643207f8807f 0 68617363 00000003,fffffffd,ffffffff
mvar_fixed_filled 00010000000000080004002c68617363000000006864736300010000756e646f00000001786867740003000000010000000c00010000001c00010002000040004000c000c000000000030000000200000001643207f8807f 0 68647363 8192 12345678,12345678
mvar_fixed_with 00010000000000080004002c68617363000000006864736300010000756e646f00000001786867740003000000010000000c00010000001c00010002000040004000c000c000000000030000000200000001643207f8807f 0 68647363 00000003,fffffffd,ffffffff
mvar_fixed_filled 00010000000000080004002c68617363000000006864736300010000756e646f00000001786867740003000000010000000c00010000001c00010002000040004000c000c000000000030000000200000001643207f8807f 0 756e646f 8192 12345678,12345678
mvar_fixed_with 00010000000000080004002c68617363000000006864736300010000756e646f00000001786867740003000000010000000c00010000001c00010002000040004000c000c000000000030000000200000001643207f8807f 0 756e646f 00000003,fffffffd,ffffffff
mvar_fixed_filled 00010000000000080004002c68617363000000006864736300010000756e646f00000001786867740003000000010000000c00010000001c00010002000040004000c000c000000000030000000200000001643207f8807f 0 78686774 8192 12345678,12345678
mvar_fixed_with 00010000000000080004002c68617363000000006864736300010000756e646f00000001786867740003000000010000000c00010000001c00010002000040004000c000c000000000030000000200000001643207f8807f 0 78686774 00000003,fffffffd,ffffffff
mvar_fixed_filled 00010000000000080004002c68617363000000006864736300010000756e646f00000001786867740003000000010000000c00010000001c00010002000040004000c000c000000000030000000200000001643207f8807f 0 76617363 8192 12345678,12345678
mvar_fixed_with 00010000000000080004002c68617363000000006864736300010000756e646f00000001786867740003000000010000000c00010000001c00010002000040004000c000c000000000030000000200000001643207f8807f 0 76617363 00000003,fffffffd,ffffffff
mvar_fixed_filled aabb00010000000000080004002c68617363000000006864736300010000756e646f00000001786867740003000000010000000c00010000001c00010002000040004000c000c000000000030000000200000001643207f8807f 2 68617363 -8192 12345678,12345678,12345678
mvar_fixed_filled aabb00010000000000080004002c68617363000000006864736300010000756e646f00000001786867740003000000010000000c00010000001c00010002000040004000c000c000000000030000000200000001643207f8807f 2 68617363 -8192 12345678
mvar_fixed_filled 00010000000000080004002c68617363000000006864736300010000756e646f00000001786867740003000000010000000c00010000001c00010002000040004000c000c000000000030000000200000001643207f8807f 0 756e646f 8192 -
mvar_fixed_filled 00010000000000080004002c68617363000000006864736300010000756e646f00000001786867740003000000010000000c00010000001c00010002000040004000c000c000000000030000000200000001643207f8807f 1 68617363 8192 12345678,12345678
mvar_fixed_with 00010000000000080004002c68617363000000006864736300010000756e646f00000001786867740003000000010000000c00010000001c00010002000040004000c000c000000000030000000200000001643207f8807f 0 68617363 00010000
mvar_fixed_with 00010000000000080004002c68617363000000006864736300010000756e646f00000001786867740003000000010000000c00010000001c00010002000040004000c000c000000000030000000200000001643207f8807f 0 68617363 ffffffff,00000000
mvar_fixed_with 00010000000000080004002c68617363000000006864736300010000756e646f00000001786867740003000000010000000c00010000001c00010002000040004000c000c000000000030000000200000001643207f8807f 4294967295 68617363 -
mvar_fixed_filled 00010000000000080004002c68617363000000006864736300010000756e646f00000001786867740003000000010000000c00010000001c00010002000040004000c000c000000000030000000200000001643207f8807f 4294967295 68617363 - -
mvar_fixed_filled 00010000000000080000001c 0 68617363 - 12345678
mvar_fixed_filled 0001000000000008000400 0 68617363 - 12345678
mvar_delta_filled 00010000000000080004002c68617363000000006864736300010000756e646f00000001786867740003000000010000000c00010000001c00010002000040004000c000c000000000030000000200000001643207f8807f 0 68617363 8192 12345678,12345678
mvar_delta_with 00010000000000080004002c68617363000000006864736300010000756e646f00000001786867740003000000010000000c00010000001c00010002000040004000c000c000000000030000000200000001643207f8807f 0 68617363 00000003,fffffffd,ffffffff
mvar_delta_filled 00010000000000080004002c68617363000000006864736300010000756e646f00000001786867740003000000010000000c00010000001c00010002000040004000c000c000000000030000000200000001643207f8807f 0 68647363 8192 12345678,12345678
mvar_delta_with 00010000000000080004002c68617363000000006864736300010000756e646f00000001786867740003000000010000000c00010000001c00010002000040004000c000c000000000030000000200000001643207f8807f 0 68647363 00000003,fffffffd,ffffffff
mvar_delta_filled 00010000000000080004002c68617363000000006864736300010000756e646f00000001786867740003000000010000000c00010000001c00010002000040004000c000c000000000030000000200000001643207f8807f 0 756e646f 8192 12345678,12345678
mvar_delta_with 00010000000000080004002c68617363000000006864736300010000756e646f00000001786867740003000000010000000c00010000001c00010002000040004000c000c000000000030000000200000001643207f8807f 0 756e646f 00000003,fffffffd,ffffffff
mvar_delta_filled 00010000000000080004002c68617363000000006864736300010000756e646f00000001786867740003000000010000000c00010000001c00010002000040004000c000c000000000030000000200000001643207f8807f 0 78686774 8192 12345678,12345678
mvar_delta_with 00010000000000080004002c68617363000000006864736300010000756e646f00000001786867740003000000010000000c00010000001c00010002000040004000c000c000000000030000000200000001643207f8807f 0 78686774 00000003,fffffffd,ffffffff
mvar_delta_filled 00010000000000080004002c68617363000000006864736300010000756e646f00000001786867740003000000010000000c00010000001c00010002000040004000c000c000000000030000000200000001643207f8807f 0 76617363 8192 12345678,12345678
mvar_delta_with 00010000000000080004002c68617363000000006864736300010000756e646f00000001786867740003000000010000000c00010000001c00010002000040004000c000c000000000030000000200000001643207f8807f 0 76617363 00000003,fffffffd,ffffffff
mvar_delta_filled aabb00010000000000080004002c68617363000000006864736300010000756e646f00000001786867740003000000010000000c00010000001c00010002000040004000c000c000000000030000000200000001643207f8807f 2 68617363 -8192 12345678,12345678,12345678
mvar_delta_filled aabb00010000000000080004002c68617363000000006864736300010000756e646f00000001786867740003000000010000000c00010000001c00010002000040004000c000c000000000030000000200000001643207f8807f 2 68617363 -8192 12345678
mvar_delta_filled 00010000000000080004002c68617363000000006864736300010000756e646f00000001786867740003000000010000000c00010000001c00010002000040004000c000c000000000030000000200000001643207f8807f 0 756e646f 8192 -
mvar_delta_filled 00010000000000080004002c68617363000000006864736300010000756e646f00000001786867740003000000010000000c00010000001c00010002000040004000c000c000000000030000000200000001643207f8807f 1 68617363 8192 12345678,12345678
mvar_delta_with 00010000000000080004002c68617363000000006864736300010000756e646f00000001786867740003000000010000000c00010000001c00010002000040004000c000c000000000030000000200000001643207f8807f 0 68617363 00010000
mvar_delta_with 00010000000000080004002c68617363000000006864736300010000756e646f00000001786867740003000000010000000c00010000001c00010002000040004000c000c000000000030000000200000001643207f8807f 0 68617363 ffffffff,00000000
mvar_delta_with 00010000000000080004002c68617363000000006864736300010000756e646f00000001786867740003000000010000000c00010000001c00010002000040004000c000c000000000030000000200000001643207f8807f 4294967295 68617363 -
mvar_delta_filled 00010000000000080004002c68617363000000006864736300010000756e646f00000001786867740003000000010000000c00010000001c00010002000040004000c000c000000000030000000200000001643207f8807f 4294967295 68617363 - -
mvar_delta_filled 00010000000000080000001c 0 68617363 - 12345678
mvar_delta_filled 0001000000000008000400 0 68617363 - 12345678
";

/// Lines that are no case; each is answered by a question mark.
const NO_CASES: [&str; 73] = [
    "store_offset",
    "store_offset -",
    "store_offset - 0 0",
    "store_offset - 4294967296",
    "store_offset - -1",
    "store_offset 0 0",
    "store_offset 0A 0",
    "store_offset  - 0",
    "store_offset - 0 ",
    "mvar_store_offset",
    "mvar_store_offset -",
    "mvar_store_offset - 0 -",
    "mvar_store_offset - 4294967296",
    "mvar_store_offset 0g 0",
    "fill_scalars",
    "fill_scalars -",
    "fill_scalars - 0",
    "fill_scalars - 0 -",
    "fill_scalars - 0 - - -",
    "fill_scalars - 4294967296 - -",
    "fill_scalars - 0 32768 -",
    "fill_scalars - 0 - 0",
    "fill_scalars - 0 - 65536",
    "fill_scalars - 0 - 0001000",
    "fill_scalars - 0 - 00010000,",
    "fill_scalars - 0 - 00010000,0",
    "fill_scalars - 0 - FFFFFFFF",
    "fill_scalars - 0 - -1",
    "fill_scalars - 0 - -,-",
    "fill_scalars 0 0 - -",
    "item_delta_with",
    "item_delta_with - 0 0 0",
    "item_delta_with - 0 0 0 - -",
    "item_delta_with - 0 0 65536 -",
    "item_delta_with - 0 4294967296 0 -",
    "item_delta_with - 0 0 -",
    "item_delta_with - 0 0 0 0",
    "item_delta_with - 0 0 0 8192",
    "advance_fixed_with - 0 0",
    "advance_fixed_with - 0 65536 -",
    "advance_fixed_with - 0 0 - -",
    "advance_fixed_with - 0 0 8192",
    "sb_fixed_with - 0 - -",
    "advance_delta_with 0A 0 0 -",
    "advance_delta_with - 0 0 0001000g",
    "sb_delta_with - 0 0 00010000;00010000",
    "sb_delta_with - 0 0 - ",
    "mvar_fixed_with - 0 hasc -",
    "mvar_fixed_with - 0 6861736 -",
    "mvar_delta_with - 0 68617363",
    "mvar_delta_with - 0 68617363 1",
    "mvar_delta_with - 0 68617363 - -",
    "item_delta_filled",
    "item_delta_filled - 0 0 0 -",
    "item_delta_filled - 0 0 0 - - -",
    "item_delta_filled - 0 0 0 00010000 -",
    "item_delta_filled - 0 0 65536 - -",
    "item_delta_filled - 0 0 0 - 0",
    "advance_fixed_filled - 0 0 -",
    "advance_fixed_filled - 0 65536 - -",
    "advance_fixed_filled - 0 0 -32769 -",
    "sb_fixed_filled - 0 0 - 1,2",
    "advance_delta_filled - 0 0 - - -",
    "sb_delta_filled - - 0 - -",
    "mvar_fixed_filled - 0 68617363 -",
    "mvar_fixed_filled - 0 6861736G - -",
    "mvar_delta_filled - 0 0 - -",
    "mvar_delta_filled - 4294967296 68617363 - -",
    "mvar_new_with - 0 -",
    "mvar_new_filled - 0 - -",
    "item_with - 0 0 0 -",
    "metric_delta_with - 0 0 -",
    "fill - 0 - -",
];

/// A line of the stored sample has at most this many bytes.
const SHORT: usize = 400;

/// A spread of `count` lines for a stored sample, every function and every refusal in it.
pub fn sample(seed: u64, count: usize) -> Vec<String> {
    let mut lines: Vec<String> = LISTED.lines().map(str::to_string).collect();
    lines.extend(NO_CASES.map(str::to_string));
    let list = |n: usize| vec!["ffffffff"; n].join(",");
    lines.extend([255, 256, 257].map(|n| format!("item_delta_with - 0 0 0 {}", list(n))));
    let rest = count - lines.len();
    let short = |line: &String| line.len() <= SHORT;
    lines.extend(Cases::new(seed).filter(short).take(rest));
    lines
}
