//! Cases of fvar, normalising and coordinate lists: whole tables of many shapes cut at every byte, and
//! random ones, whole, damaged and cut.

use super::{avar, names, FUNCTIONS};
use crate::random::Random;
use crate::text;

pub(super) const MIN: i64 = -(1 << 31);
pub(super) const MAX: i64 = (1 << 31) - 1;

const TAGS: [u32; 6] = [
    u32::from_be_bytes(*b"wght"),
    u32::from_be_bytes(*b"wdth"),
    u32::from_be_bytes(*b"slnt"),
    u32::from_be_bytes(*b"opsz"),
    0,
    0xffff_ffff,
];

/// What a table is made of; instances have a value for each axis.
struct Parts {
    axis_offset: u16,
    axis_size: u16,
    instance_size: u16,
    /// a tag, min, default, max, flags and name id
    axes: Vec<(u32, [i64; 3], u16, u16)>,
    instances: Vec<Vec<i64>>,
}

pub(super) fn put(bytes: &mut Vec<u8>, at: usize, part: &[u8]) {
    if bytes.len() < at + part.len() {
        bytes.resize(at + part.len(), 0);
    }
    bytes[at..at + part.len()].copy_from_slice(part);
}

impl Parts {
    /// The table; where parts overlap, the header stays and otherwise the later one is seen.
    fn table(&self) -> Vec<u8> {
        let mut bytes = vec![0; 16];
        let mut at = self.axis_offset as usize;
        for (tag, limits, flags, name_id) in &self.axes {
            put(&mut bytes, at, &tag.to_be_bytes());
            for (k, limit) in limits.iter().enumerate() {
                put(&mut bytes, at + 4 + 4 * k, &(*limit as i32).to_be_bytes());
            }
            put(&mut bytes, at + 16, &flags.to_be_bytes());
            put(&mut bytes, at + 18, &name_id.to_be_bytes());
            at += self.axis_size as usize;
        }
        for (j, values) in self.instances.iter().enumerate() {
            put(&mut bytes, at, &(0x0101 + j as u16).to_be_bytes());
            for (k, value) in values.iter().enumerate() {
                put(&mut bytes, at + 4 + 4 * k, &(*value as i32).to_be_bytes());
            }
            put(&mut bytes, at + 4 + 4 * values.len(), &[0x7f, j as u8]);
            at += self.instance_size as usize;
        }
        put(&mut bytes, 0, &[0, 1, 0, 0]);
        put(&mut bytes, 4, &self.axis_offset.to_be_bytes());
        put(&mut bytes, 6, &[0, 2]);
        put(&mut bytes, 8, &(self.axes.len() as u16).to_be_bytes());
        put(&mut bytes, 10, &self.axis_size.to_be_bytes());
        put(&mut bytes, 12, &(self.instances.len() as u16).to_be_bytes());
        put(&mut bytes, 14, &self.instance_size.to_be_bytes());
        bytes
    }
}

/// A good table of two instances, but for its sizes: its last two axes have the same tag.
pub(super) fn good(axes: usize, axis_size: u16, instance_size: u16) -> Vec<u8> {
    let limits = [
        [100 << 16, 400 << 16, 900 << 16],
        [-(12 << 16), 0, 0],
        [75 << 16, 100 << 16, 125 << 16],
    ];
    let tags = [TAGS[0], TAGS[1], TAGS[1]];
    let axis = |i: usize| (tags[i], limits[i], i as u16, 0x0100 + i as u16);
    let first = [300 << 16, -(3 << 16), 110 << 16];
    let second = [901 << 16, 1 << 16, 70 << 16];
    Parts {
        axis_offset: 16,
        axis_size,
        instance_size,
        axes: (0..axes).map(axis).collect(),
        instances: vec![first[..axes].to_vec(), second[..axes].to_vec()],
    }
    .table()
}

/// Tables for every size of an axis up to 24, and of an instance up to 3 and around 4 + 4·axes.
fn grid() -> Vec<Vec<u8>> {
    let mut tables = vec![];
    for axes in 0..=3 {
        let whole = 4 + 4 * axes as u16;
        let mut sizes: Vec<u16> = (0..4).chain(whole - 3..=whole + 4).collect();
        sizes.sort();
        sizes.dedup();
        tables.extend(sizes.iter().map(|size| good(axes, 20, *size)));
    }
    for axis_size in 0..=24 {
        tables.extend([12, 14].map(|size| good(2, axis_size, size)));
    }
    tables
}

/// What is asked of each of these tables, behind the name and the table.
const QUESTIONS: [(&str, &str); 44] = [
    ("header", ""),
    ("get_axis", " 0"),
    ("get_axis", " 1"),
    ("get_axis", " 2"),
    ("get_axis", " 3"),
    ("get_axis", " 65535"),
    ("get_axis_by_tag", " 77676874"),
    ("get_axis_by_tag", " 77647468"),
    ("get_axis_by_tag", " 00000000"),
    ("find_by_tag", " 77676874"),
    ("find_by_tag", " 77647468"),
    ("find_by_tag", " 00000000"),
    ("get_instance", " 0"),
    ("get_instance", " 1"),
    ("get_instance", " 2"),
    ("instance_values", " 0"),
    ("instance_values", " 1"),
    ("instance_value", " 0"),
    ("instance_value", " 1"),
    ("instance_value", " 7"),
    ("instance_floats", " 0 0"),
    ("instance_floats", " 0 1"),
    ("instance_floats", " 0 2"),
    ("instance_floats", " 0 4"),
    ("instance_floats", " 1 0"),
    ("instance_floats", " 1 2"),
    ("instance_floats", " 1 4"),
    ("normalized_coords", " - - 0"),
    ("normalized_coords", " - - 1"),
    ("normalized_coords", " - - 4"),
    ("normalized_coords", " 77676874 44228000 3"),
    (
        "normalized_coords",
        " 77676874,77647468 44228000,c0400000 3",
    ),
    (
        "normalized_coords",
        " 77647468,77676874,77676874 42dc0000,42480000,44228000 2",
    ),
    ("normalized_coords", " 77676874 - 4"),
    ("normalized_coords", " 77676874 44228000,44228000 0"),
    ("instance_coords", " 0 0"),
    ("instance_coords", " 0 1"),
    ("instance_coords", " 0 2"),
    ("instance_coords", " 0 4"),
    ("instance_coords", " 1 1"),
    ("instance_coords", " 1 2"),
    ("instance_coords", " 1 3"),
    ("instance_coords", " 1 4"),
    ("instance_coords", " 2 4"),
];

pub(super) fn line(name: &str, table: &[u8], rest: &str) -> String {
    format!("{name} {}{rest}", text::bytes_text(table.iter().copied()))
}

/// Numbers for an axis and a value: each with each.
const LIMITS: [i64; 17] = [
    MIN,
    MIN + 1,
    -(1 << 30),
    -65536,
    -32769,
    -32768,
    -2,
    -1,
    0,
    1,
    2,
    32768,
    65536,
    65537,
    1 << 30,
    MAX - 1,
    MAX,
];

/// The tables cut at every byte, each asked each question, and the products of limits.
struct Edges {
    /// a table, and how many bytes of it are left
    cuts: Vec<(usize, usize)>,
    tables: Vec<Vec<u8>>,
}

impl Edges {
    fn new() -> Self {
        let tables = grid();
        let lengths = tables.iter().map(Vec::len).enumerate();
        let cuts = lengths.flat_map(|(k, length)| (0..=length).map(move |cut| (k, cut)));
        Edges {
            cuts: cuts.collect(),
            tables,
        }
    }

    fn questions(&self) -> u64 {
        (self.cuts.len() * QUESTIONS.len()) as u64
    }

    fn count(&self) -> u64 {
        self.questions() + (LIMITS.len() as u64).pow(4)
    }

    fn nth(&self, n: u64) -> String {
        if n < self.questions() {
            let (k, cut) = self.cuts[n as usize / QUESTIONS.len()];
            let (name, rest) = QUESTIONS[n as usize % QUESTIONS.len()];
            return line(name, &self.tables[k][..cut], rest);
        }
        let mut left = n - self.questions();
        let mut words = ["normalized_coord".to_string()].to_vec();
        for _ in 0..4 {
            words.push(LIMITS[(left % LIMITS.len() as u64) as usize].to_string());
            left /= LIMITS.len() as u64;
        }
        words.join(" ")
    }
}

fn minus(random: &mut Random) -> i64 {
    1 - 2 * random.below(2) as i64
}

/// A number of any magnitude, or a limit.
pub(super) fn word(random: &mut Random) -> i64 {
    let x = match random.below(4) {
        0 => (random.bits() as i64) >> 32,
        1 => random.pick(&LIMITS),
        2 => minus(random) * random.magnitude(32) as i64,
        _ => (random.below(2000) as i64 - 1000) << 16,
    };
    x.clamp(MIN, MAX)
}

/// An axis' min, default and max, and a value.
pub(super) fn axis(random: &mut Random) -> ([i64; 3], i64) {
    let mut limits = [word(random), word(random), word(random)];
    match random.below(8) {
        // as an axis ought to be
        0..=3 => limits.sort(),
        // a range of just 2^31
        4 => limits[0] = limits[1] - (1 << 31),
        5 => limits[2] = limits[1] + (1 << 31),
        // a quotient of 2^31, or next to it, above default or below
        6 => {
            let d = minus(random) * (1 + random.below(1000) as i64);
            let n = d * minus(random) * 32768 + random.below(3) as i64 - 1;
            let default = minus(random) * random.magnitude(20) as i64;
            if random.below(2) == 0 {
                limits = [default + n, default, default + d];
            } else {
                limits = [default - d, default, default - n];
            }
        }
        _ => (),
    }
    let limits = limits.map(|x| x.clamp(MIN, MAX));
    let value = match random.below(6) {
        0 => word(random),
        1 => random.pick(&limits),
        2 => random.pick(&limits) + random.below(5) as i64 - 2,
        // between two of them
        _ => {
            let (a, b) = (random.pick(&limits), random.pick(&limits));
            let (low, high) = (a.min(b), a.max(b));
            low + random.below((high - low) as u64 + 1) as i64
        }
    };
    (limits, value.clamp(MIN, MAX))
}

/// A table, whole or damaged.
pub(super) fn table(random: &mut Random) -> Vec<u8> {
    let axes = match random.below(16) {
        0 => 0,
        1 => random.below(8),
        2 => 30 + random.below(6),
        _ => 1 + random.below(3),
    };
    let whole = 4 + 4 * axes as u16;
    let mut parts = Parts {
        axis_offset: 16,
        axis_size: 20,
        instance_size: whole,
        axes: vec![],
        instances: vec![],
    };
    if random.below(4) == 0 {
        parts.axis_size = random.below(25) as u16;
    }
    if random.below(8) == 0 {
        parts.axis_offset = random.below(40) as u16;
    }
    match random.below(6) {
        0 => parts.instance_size = random.below(4) as u16,
        1 => parts.instance_size = whole - 3 + random.below(8) as u16,
        2 | 3 => parts.instance_size = whole + 2,
        _ => (),
    }
    let mut values = vec![];
    for _ in 0..axes {
        let (limits, value) = axis(random);
        let (flags, name_id) = (random.below(65536) as u16, random.below(65536) as u16);
        parts
            .axes
            .push((random.pick(&TAGS), limits, flags, name_id));
        values.push(value);
    }
    for _ in 0..random.pick(&[0, 1, 1, 2, 2, 2, 3, 3]) {
        parts.instances.push(values.clone());
        for value in &mut values {
            if random.below(2) == 0 {
                *value = word(random);
            }
        }
    }
    damaged(parts.table(), random)
}

fn damaged(mut table: Vec<u8>, random: &mut Random) -> Vec<u8> {
    // a count, a size or the offset at a limit
    if random.below(8) == 0 {
        let at = random.pick(&[4, 8, 10, 12, 14]);
        let limit = random.pick(&[
            0u16, 1, 2, 31, 32, 33, 255, 256, 0x7fff, 0x8000, 0xfffe, 0xffff,
        ]);
        put(&mut table, at, &limit.to_be_bytes());
    }
    if random.below(8) == 0 {
        let at = random.below(table.len() as u64) as usize;
        table[at] = random.below(256) as u8;
    }
    match random.below(8) {
        0 | 1 => table.truncate(random.below(table.len() as u64 + 1) as usize),
        2 => table.truncate(table.len() - random.below(10).min(table.len() as u64) as usize),
        3 => table.extend((0..random.below(6)).map(|k| 0xa0 + k as u8)),
        _ => (),
    }
    table
}

pub(super) fn index(random: &mut Random) -> u64 {
    match random.below(12) {
        0 => random.below(65536),
        1 => random.pick(&[31, 32, 33, 255, 256, 65534, 65535]),
        2 | 3 => random.below(4),
        _ => random.below(2),
    }
}

/// A tag, mostly one that the table has.
fn tag(table: &[u8], random: &mut Random) -> u32 {
    let at = 16 + 20 * random.below(3) as usize;
    match table.get(at..at + 4) {
        Some(bytes) if random.below(4) > 0 => bytes.iter().fold(0, |x, b| x << 8 | *b as u32),
        _ => random.pick(&TAGS),
    }
}

pub(super) fn room(table: &[u8], random: &mut Random) -> u64 {
    let axes = table
        .get(8..10)
        .map_or(0, |b| u16::from_be_bytes([b[0], b[1]]) as u64);
    match random.below(8) {
        0 => random.below(text::LIST as u64 + 1),
        1 => random.pick(&[0, 31, 32, 33, 255, 256]),
        2 => axes.saturating_sub(1).min(256),
        _ => (axes.min(40) + random.below(3)).min(256),
    }
}

fn float(random: &mut Random) -> u32 {
    match random.below(8) {
        0 => (random.bits() >> 32) as u32,
        1 => random.pick(&[
            0x7fc0_0000,
            0x7f80_0000,
            0xff80_0000,
            0x8000_0000,
            0x36ff_ffff,
        ]),
        _ => (word(random) as f32 / 65536.).to_bits(),
    }
}

pub(super) fn settings(table: &[u8], random: &mut Random) -> String {
    let count = match random.below(100) {
        0 => random.below(text::LIST as u64 + 1),
        _ => random.below(5),
    };
    let others = if random.below(24) == 0 {
        random.below(5)
    } else {
        count
    };
    let tags = (0..count).map(|_| tag(table, random));
    let tags = text::list_text(tags.map(|tag| format!("{tag:08x}")));
    let values = text::list_text((0..others).map(|_| format!("{:08x}", float(random))));
    format!("{tags} {values}")
}

fn random_case(name: &str, random: &mut Random) -> String {
    if name == "normalized_coord" {
        let ([min, default, max], value) = axis(random);
        return format!("{name} {min} {default} {max} {value}");
    }
    let table = table(random);
    let rest = match name {
        "header" => String::new(),
        "get_axis_by_tag" | "find_by_tag" => format!(" {:08x}", tag(&table, random)),
        "normalized_coords" => format!(" {} {}", settings(&table, random), room(&table, random)),
        "instance_floats" | "instance_coords" => {
            format!(" {} {}", index(random), room(&table, random))
        }
        _ => format!(" {}", index(random)),
    };
    line(name, &table, &rest)
}

/// Cases without end: one of the edges, then a random one, and so on. The edges come in an order that
/// mixes them; once they are used up all are random.
pub struct Cases {
    edges: Edges,
    made: u64,
    random: Random,
}

impl Cases {
    pub fn new(seed: u64) -> Self {
        Cases {
            edges: Edges::new(),
            made: 0,
            random: Random::new(seed ^ 0x6676_6172),
        }
    }
}

impl Iterator for Cases {
    type Item = String;

    fn next(&mut self) -> Option<String> {
        // a prime that is larger than the number of edges: each is met once
        const STRIDE: u64 = 1_000_000_007;
        let (turn, odd) = (self.made / 2, self.made % 2 == 1);
        self.made += 1;
        if odd || turn >= self.edges.count() {
            let (name, _) = FUNCTIONS[self.random.below(FUNCTIONS.len() as u64) as usize];
            Some(random_case(name, &mut self.random))
        } else {
            Some(self.edges.nth(turn * STRIDE % self.edges.count()))
        }
    }
}

/// Of five cases one is of avar, and one of an instance's PostScript name id.
pub fn with_avar_and_names(seed: u64) -> impl Iterator<Item = String> {
    let mut others = Cases::new(seed);
    let mut avars = avar::Cases::new(seed);
    let mut names = names::cases(seed);
    (0..).map_while(move |turn: u64| match turn % 5 {
        3 => avars.next(),
        4 => names.next(),
        _ => others.next(),
    })
}

/// The examples of the rules, and the inputs where a wrong order, sign or place shows.
const LISTED: &str = "\
normalized_coord 6553600 26214400 58982400 42598400
normalized_coord 6553600 26214400 58982400 19660800
normalized_coord 6553600 26214400 58982400 3276800
normalized_coord 6553600 26214400 58982400 26214400
normalized_coord 0 0 0 327680
normalized_coord -2147483648 0 0 -2147483648
normalized_coord 32768 0 1 0
normalized_coord 32768 0 -1 0
normalized_coord 1 0 -32768 2
normalized_coord -1 0 -32768 0
normalized_coord 100 5 5 5
normalized_coord 5 100 5 7
normalized_coord -2147483648 1 2147483647 0
header 000100000010000200010014000000087767687400640000019000000384000000000100
header -
header 0001000000
header 000100000010
get_axis 000100000010000200010014000000087767687400640000019000000384000000000100 0
get_axis 000100000010000200010014000000087767687400640000019000000384000000000100 1
get_axis 0001000000100002000100140000000877676874006400000190000003840000000001 0
get_axis_by_tag 000100000010000200010014000000087767687400640000019000000384000000000100 77676874
get_axis_by_tag 0001000000100002000100140000000877676874006400000190000003840000000001 77676874
find_by_tag 0001000000100002000100140000000877676874006400000190000003840000000001 77676874
find_by_tag - 77676874
get_instance 000100000010000200000014000100060101 0
get_instance 00010000001000020000001400010006010100 0
get_instance 0001000000100002000000140001000601010000 0
get_instance 000100000010000200000014000100060101000000 0
get_instance 00010000001000020000001400010006010100000102 0
get_instance 00010000001000020000001400010008010100000102 0
get_instance 000100000010000200000014000100010101000000 0
get_instance 0001000000100002000000140001000101010000 0
get_instance 000100000010000200000014000100060101 1
instance_values 000100000010000200000014000100060101000000 0
instance_values 00010000001000020001000000010008010100000001000000 0
instance_coords 00010000001000020001000000010008010100000001000000 0 2
instance_coords 00010000001000020001000000010008010100000001000000 0 0
instance_value 00010000ffffffff 0
instance_value 00010000ffffffff 1
instance_value 00010000ffffff 1
instance_value 00010000ffffffff 2
instance_value - 0
normalized_coords 000100000010000200010014000000087767687400640000019000000384000000000100 77676874 44228000 3
normalized_coords 000100000010000200010014000000087767687400640000019000000384000000000100 77676874,77676874 44228000,43960000 3
normalized_coords 000100000010000200010014000000087767687400640000019000000384000000000100 77676874,77676874 44228000 0
normalized_coords 000100000010000200010014000000087767687400640000019000000384000000000100 77676874 44228000 0
normalized_coords 000100000010000200010014000000087767687480000000000000000000000000000100 77676874 c7000000 1
normalized_coords 000100000010000200010014000000087767687480000000000000000000000000000100 77676874 c7000000 0
normalized_coords 000100000010000200010014000000087767687480000000000000000000000000000100 77676874,77676874 c7000000,00000000 2
normalized_coords 00010000001000020021000000000008 - - 40
normalized_coords - - - 0
normalized_coords - - - 2
";

/// Lines that are no case; each is answered by a question mark.
const NO_CASES: [&str; 24] = [
    "header",
    "header 0",
    "header 0G",
    "header 0A",
    "header --",
    "header  ",
    "header 00 00",
    "get_axis 00",
    "get_axis 00 65536",
    "get_axis 00 -1",
    "get_axis - 0 0",
    "get_axis_by_tag - 7767687",
    "get_axis_by_tag - 7767687A",
    "find_by_tag - wght",
    "instance_floats - 0 257",
    "instance_floats - 0 -",
    "normalized_coord 0 0 0",
    "normalized_coord 0 0 0 2147483648",
    "normalized_coord 0 0 0 0 0",
    "normalized_coords - -, - 0",
    "normalized_coords - 77676874, 00000000 0",
    "normalized_coords - 77676874,,77676874 - 0",
    "normalized_coords - - 0000000 0",
    "normalized_coords - ,  0",
];

/// A spread of `count` lines for a stored sample, every function and every refusal in it.
pub fn sample(seed: u64, count: usize) -> Vec<String> {
    let mut lines: Vec<String> = LISTED.lines().map(str::to_string).collect();
    lines.extend(NO_CASES.map(str::to_string));
    let tags = |n: usize| vec!["77676874"; n].join(",");
    lines.extend([255, 256, 257].map(|n| format!("normalized_coords - {} - 0", tags(n))));
    lines.extend([255, 256, 257].map(|n| format!("normalized_coords - - {} 0", tags(n))));
    let rest = count - lines.len();
    lines.extend(Cases::new(seed).take(rest));
    lines
}

/// Instances of more than 32 axes: in the first each axis has a coordinate of its own, in the second the
/// last axis is refused. With an avar that has a map for the last axis alone. Settings of the first, the
/// 32nd and the last axis.
pub fn many_axes() -> Vec<String> {
    let tag = |i: i64| u32::from_be_bytes(*b"ax00") + i as u32;
    let least = |i: i64| if i == 32 { MIN } else { -(i + 1) << 16 };
    let limits = |i: i64| [least(i), 0, (i + 1) << 16];
    let first: Vec<i64> = (0..33).map(|i| (i + 1) * (1000 + 64 * i)).collect();
    let second = [&first[..32], &[MIN]].concat();
    let table = Parts {
        axis_offset: 16,
        axis_size: 20,
        instance_size: 4 + 4 * 33,
        axes: (0..33).map(|i| (tag(i), limits(i), 0, 0x0100)).collect(),
        instances: vec![first, second],
    }
    .table();
    let halved = format!(
        "ff0001000000000021{}00020000000040002000",
        "0000".repeat(32)
    );
    let set = |i: i64| format!(" {:08x} 3f800000 33", tag(i));
    let questions = [
        ("get_instance", " 0".to_string()),
        ("instance_values", " 0".to_string()),
        ("instance_floats", " 0 32".to_string()),
        ("instance_floats", " 0 33".to_string()),
        ("instance_floats", " 1 34".to_string()),
        ("instance_coords", " 0 32".to_string()),
        ("instance_coords", " 0 33".to_string()),
        ("instance_coords", " 0 34".to_string()),
        ("instance_coords", " 1 32".to_string()),
        ("instance_coords", " 1 33".to_string()),
        ("instance_coords", format!(" 0 34 {halved} 1")),
        ("normalized_coords", set(0)),
        ("normalized_coords", set(31)),
        ("normalized_coords", set(32)),
    ];
    let lines = questions.map(|(name, rest)| line(name, &table, &rest));
    lines.into()
}
