//! Cases with an avar: small ones cut at every byte, and random ones, whole, damaged and cut.

use super::cases::{axis, index, line, room, settings, table, word, MAX, MIN};
use super::WITH_AVAR;
use crate::random::Random;
use crate::text;

/// An axis' pairs, from and to, raw in 2.14.
type Map = Vec<(i16, i16)>;

/// A font with an avar at an offset. The maps may be more than the axis count says, or fewer.
fn font(offset: usize, axis_count: u16, maps: &[Map]) -> Vec<u8> {
    let mut bytes = vec![0xff; offset];
    bytes.extend([0, 1, 0, 0, 0, 0]);
    bytes.extend(axis_count.to_be_bytes());
    for map in maps {
        bytes.extend((map.len() as u16).to_be_bytes());
        for (from, to) in map {
            bytes.extend(from.to_be_bytes());
            bytes.extend(to.to_be_bytes());
        }
    }
    bytes
}

/// A case's last two words.
fn words(font: &[u8], offset: u64) -> String {
    format!("{} {offset}", text::bytes_text(font.iter().copied()))
}

/// Maps with pairs in order and not, with no pairs, steep and flat; the last stands behind the count.
fn small() -> Vec<Vec<Map>> {
    let (one, half, quarter) = (16384, 8192, 4096);
    let last = vec![(0, quarter)];
    vec![
        vec![
            vec![],
            vec![(-one, -one), (0, 0), (half, quarter), (one, one)],
            last.clone(),
        ],
        vec![
            vec![(-one, -one), (one, half)],
            vec![(-half, -quarter), (0, 0), (half, quarter)],
            last.clone(),
        ],
        vec![vec![(0, 0), (2, 1)], vec![(0, 0), (2, -1)], last.clone()],
        vec![vec![(-2, -1), (0, 0)], vec![(0, 0), (3, 1)], last.clone()],
        vec![vec![(half, quarter), (0, half)], last.clone()],
        vec![vec![(0, quarter), (0, half), (one, 0)], last.clone()],
        vec![vec![(-32768, 32767), (32767, -32768)], last.clone()],
        vec![vec![], vec![(half, quarter)], last],
    ]
}

const VALUES: [i64; 33] = [
    MIN, -131073, -131072, -131071, -65537, -65536, -65535, -49152, -32769, -32768, -32767, -16384,
    -8, -7, -5, -3, -1, 0, 1, 2, 3, 5, 7, 8, 16384, 32767, 32768, 49152, 65535, 65536, 131067,
    131068, MAX,
];

/// The small ones at 2, cut at every byte, each axis up to one past the count at each value.
struct Edges(Vec<String>);

impl Edges {
    fn new() -> Self {
        let mut lines = vec![];
        for maps in small() {
            let whole = font(2, maps.len() as u16 - 1, &maps);
            for cut in 0..=whole.len() {
                let avar = words(&whole[..cut], 2);
                for axis in (0..=maps.len()).chain([65535]) {
                    let ask = |value| format!("adjust_axis {axis} {value} {avar}");
                    lines.extend(VALUES.map(ask));
                }
            }
        }
        Edges(lines)
    }
}

/// A 2.14 number: mostly from -1 to 1.
fn half(random: &mut Random) -> i16 {
    match random.below(6) {
        0 => random.below(65536) as u16 as i16,
        1 => random.pick(&[-32768, -16385, -16384, -1, 0, 1, 16383, 16384, 16385, 32767]),
        2 => random.below(9) as i16 - 4,
        _ => (random.below(32769) as i32 - 16384) as i16,
    }
}

fn map(random: &mut Random) -> Map {
    let count = match random.below(8) {
        0 => 0,
        1 => random.below(12),
        _ => 1 + random.below(4),
    };
    let mut pairs: Map = (0..count).map(|_| (half(random), half(random))).collect();
    match random.below(8) {
        // as a map ought to be
        0..=2 => {
            pairs.extend([(-16384, -16384), (0, 0), (16384, 16384)]);
            pairs.sort();
            let mut to: Vec<i16> = pairs.iter().map(|pair| pair.1).collect();
            to.sort();
            for (pair, to) in pairs.iter_mut().zip(to) {
                pair.1 = to;
            }
        }
        3 | 4 => pairs.sort(),
        // a from twice
        5 => pairs.extend(pairs.first().map(|pair| (pair.0, half(random)))),
        _ => (),
    }
    pairs
}

/// A value in 16.16 for these maps: at a pair, next to it, between two, or any.
fn value(maps: &[Map], random: &mut Random) -> i64 {
    let pairs: Vec<(i16, i16)> = maps.iter().flatten().copied().collect();
    if pairs.is_empty() || random.below(8) == 0 {
        return word(random);
    }
    let from = |random: &mut Random| 4 * random.pick(&pairs).0 as i64;
    match random.below(6) {
        0 => from(random),
        1 => from(random) + random.below(9) as i64 - 4,
        2 => random.below(131073) as i64 - 65536,
        _ => {
            let (a, b) = (from(random), from(random));
            let (low, high) = (a.min(b), a.max(b));
            low + random.below((high - low) as u64 + 1) as i64
        }
    }
}

/// A font with an avar, whole or damaged, and an offset: mostly the avar's.
fn avar(maps: &[Map], random: &mut Random) -> String {
    let offset = random.pick(&[0, 1, 1, 2, 2, 3, 4, 9]);
    let count = match random.below(8) {
        0 => random.pick(&[0, 1, 2, 255, 256, 0x7fff, 0x8000, 0xffff]),
        1 => (maps.len() as u16).saturating_sub(1),
        _ => maps.len() as u16,
    };
    let mut bytes = font(offset, count, maps);
    if random.below(10) == 0 {
        let at = random.below(bytes.len() as u64) as usize;
        bytes[at] = random.below(256) as u8;
    }
    match random.below(8) {
        0 => bytes.truncate(random.below(bytes.len() as u64 + 1) as usize),
        1 => bytes.truncate(bytes.len() - random.below(6) as usize),
        2 => bytes.extend((0..random.below(6)).map(|k| k as u8)),
        _ => (),
    }
    let given = match random.below(24) {
        0 => 0,
        1 => random.pick(&[0xffff, 0x1_0000, 0x7fff_ffff, 0xffff_fff9, 0xffff_ffff]),
        2 => offset as u64 + 1,
        3 => bytes.len() as u64 - random.below(9).min(bytes.len() as u64),
        _ => offset as u64,
    };
    words(&bytes, given)
}

fn random_case(name: &str, random: &mut Random) -> String {
    let count = match random.below(16) {
        0 => 30 + random.below(6),
        _ => random.below(5),
    };
    let maps: Vec<Map> = (0..count).map(|_| map(random)).collect();
    let avar = avar(&maps, random);
    let at = match random.below(4) {
        0 => index(random),
        _ => random.below(count + 2),
    };
    match name {
        "adjust_axis" => format!("{name} {at} {} {avar}", value(&maps, random)),
        "normalized_coord" => {
            let ([min, default, max], value) = axis(random);
            format!("{name} {min} {default} {max} {value} {at} {avar}")
        }
        _ => {
            let table = table(random);
            let asked = match name {
                "normalized_coords" => settings(&table, random),
                _ => index(random).to_string(),
            };
            let room = room(&table, random);
            line(name, &table, &format!(" {asked} {room} {avar}"))
        }
    }
}

/// Cases without end: one of the edges, then a random one, and so on, until the edges are used up.
pub struct Cases {
    edges: Edges,
    made: usize,
    random: Random,
}

impl Cases {
    pub fn new(seed: u64) -> Self {
        Cases {
            edges: Edges::new(),
            made: 0,
            random: Random::new(seed ^ 0x6176_6172),
        }
    }
}

impl Iterator for Cases {
    type Item = String;

    fn next(&mut self) -> Option<String> {
        // a prime that is larger than the number of edges: each is met once
        const STRIDE: usize = 1_000_003;
        let Edges(edges) = &self.edges;
        let (turn, odd) = (self.made / 2, self.made % 2 == 1);
        self.made += 1;
        if odd || turn >= edges.len() {
            let (name, ..) = WITH_AVAR[self.random.below(WITH_AVAR.len() as u64) as usize];
            Some(random_case(name, &mut self.random))
        } else {
            Some(edges[turn * STRIDE % edges.len()].clone())
        }
    }
}

/// The examples of the rules, and the inputs where a neighbouring rule gives another answer: each axis
/// by its own map, at the count, below the first pair and above the last, maps that are cut, quotients
/// that are rounded, pairs out of order, an unreadable axis by the map of axis 0.
const LISTED: &str = "\
adjust_axis 0 16384 ffff00010000000000030002c000c000400020000003e000f0000000000020001000000100003000000100001000 2
adjust_axis 1 16384 ffff00010000000000030002c000c000400020000003e000f0000000000020001000000100003000000100001000 2
adjust_axis 2 0 ffff00010000000000030002c000c000400020000003e000f0000000000020001000000100003000000100001000 2
adjust_axis 3 0 ffff00010000000000030002c000c000400020000003e000f0000000000020001000000100003000000100001000 2
adjust_axis 65535 0 ffff00010000000000030002c000c000400020000003e000f0000000000020001000000100003000000100001000 2
adjust_axis 1 -32768 ffff00010000000000030002c000c000400020000003e000f0000000000020001000000100003000000100001000 2
adjust_axis 1 -65536 ffff00010000000000030002c000c000400020000003e000f0000000000020001000000100003000000100001000 2
adjust_axis 1 32768 ffff00010000000000030002c000c000400020000003e000f0000000000020001000000100003000000100001000 2
adjust_axis 1 49152 ffff00010000000000030002c000c000400020000003e000f0000000000020001000000100003000000100001000 2
adjust_axis 0 0 0001000000000001000100001000 0
adjust_axis 1 16384 ffff00010000000000030002c000c000400020000003e000f0000000000020001000000100003000000100001000 0
adjust_axis 1 16384 ffff00010000000000030002c000c000400020000003e000f0000000000020001000000100003000000100001000 4294967295
adjust_axis 1 0 ffff00010000000000030002c000c000400020000003e000f00000000000200010 2
adjust_axis 1 -32768 ffff00010000000000030002c000c000400020000003e000f00000000000200010 2
adjust_axis 1 -32768 ffff00010000000000030002c000c000400020000003e000f0000000000020001000 2
adjust_axis 0 16384 ffff00010000000000030002c000c0004000200000 2
adjust_axis 0 16384 ffff00010000000000 2
adjust_axis 0 1 ff000100000000000100020000000000020001 1
adjust_axis 0 3 ff000100000000000100020000000000020001 1
adjust_axis 0 5 ff000100000000000100020000000000020001 1
adjust_axis 0 1 ff00010000000000010002000000000002ffff 1
adjust_axis 0 3 ff00010000000000010002000000000002ffff 1
adjust_axis 0 1 ff000100000000000100020000000000030001 1
adjust_axis 0 2 ff000100000000000100020000000000030001 1
adjust_axis 0 -7 ff00010000000000010002fffeffff00000000 1
adjust_axis 0 0 ff000100000000000100022000100000003000 1
adjust_axis 0 0 ff000100000000000100020000100000003000 1
adjust_axis 0 -2147483648 ff000100000000000100028000100000003000 1
adjust_axis 0 2147483647 ff00010000000000010002000010007fff3000 1
adjust_axis 1 16384 ffff000100000000000200000004c000c000000000002000100040004000 2
normalized_coord 0 0 65536 16384 1 ffff000100000000000200000004c000c000000000002000100040004000 2
normalized_coord 0 0 65536 16384 0 ffff000100000000000200000004c000c000000000002000100040004000 2
normalized_coord 0 0 65536 16384 2 ffff000100000000000200000004c000c000000000002000100040004000 2
normalized_coord 0 0 65536 16384 1 ffff000100000000000200000004c000c000000000002000100040004000 0
normalized_coord 0 0 65536 0 0 ffff0001000000000002000100001000000100002000 2
normalized_coord 0 0 65536 0 1 ffff0001000000000002000100001000000100002000 2
normalized_coord -2147483648 0 0 -2147483648 1 ffff0001000000000002000100001000000100002000 2
normalized_coords 000100000010000200010014000000087767687400640000019000000384000000000100 77676874 44228000 3 ffff00010000000000030002c000c000400020000003e000f0000000000020001000000100003000000100001000 2
normalized_coords 000100000010000200010014000000087767687400640000019000000384000000000100 - - 3 ffff0001000000000002000100001000000100002000 2
normalized_coords 0001000000100002000200140001000c7767687400640000019000000384000000000100776474680064000001900000038400000000010101020000028a0000028a0000 77676874,77647468 44228000,44228000 3 ffff00010000000000030002c000c000400020000003e000f0000000000020001000000100003000000100001000 2
normalized_coords 0001000000100002000200140001000c7767687400640000019000000384000000000100776474680064000001900000038400000000010101020000028a0000028a0000 77676874,77647468 44228000,44228000 1 ffff00010000000000030002c000c000400020000003e000f0000000000020001000000100003000000100001000 2
normalized_coords 0001000000100002000200140001000c7767687400640000019000000384000000000100776474680064000001900000038400000000010101020000028a0000028a0000 77676874,77647468 44228000 2 ffff00010000000000030002c000c000400020000003e000f0000000000020001000000100003000000100001000 2
instance_coords 0001000000100002000200140001000c7767687400640000019000000384000000000100776474680064000001900000038400000000010101020000028a0000028a0000 0 3 ffff00010000000000030002c000c000400020000003e000f0000000000020001000000100003000000100001000 2
instance_coords 0001000000100002000200140001000c7767687400640000019000000384000000000100776474680064000001900000038400000000010101020000028a0000028a0000 0 1 ffff00010000000000030002c000c000400020000003e000f0000000000020001000000100003000000100001000 2
instance_coords 0001000000100002000200140001000c7767687400640000019000000384000000000100776474680064000001900000038400000000010101020000028a0000028a0000 1 2 ffff00010000000000030002c000c000400020000003e000f0000000000020001000000100003000000100001000 2
instance_coords 0001000000100002000200010001000c0000010100000001000000010000 0 3 ffff0001000000000002000100001000000100002000 2
";

/// Lines that are no case; each is answered by a question mark.
const NO_CASES: [&str; 14] = [
    "adjust_axis",
    "adjust_axis -",
    "adjust_axis 0 0 -",
    "adjust_axis 0 0 - 0 0",
    "adjust_axis 65536 0 - 0",
    "adjust_axis 0 2147483648 - 0",
    "adjust_axis 0 0 0 0",
    "adjust_axis 0 0 - 4294967296",
    "adjust_axis 0 0 - -1",
    "normalized_coord 0 0 0 0 - 0",
    "normalized_coord 0 0 0 0 65536 - 0",
    "normalized_coords - - - 0 - 0 0",
    "normalized_coords - - - 0 - -",
    "instance_coords - 0 0 - 0 0",
];

/// A spread of `count` lines for a stored sample.
pub fn sample(seed: u64, count: usize) -> Vec<String> {
    let mut lines: Vec<String> = LISTED.lines().map(str::to_string).collect();
    lines.extend(NO_CASES.map(str::to_string));
    let rest = count - lines.len();
    lines.extend(Cases::new(seed).take(rest));
    lines
}
