//! Cases of a font's measures and a glyph's metrics: floats at their limits as scales and measures,
//! MVARs of every kind cut at every byte, the store's fonts behind each function, and random ones.

use super::rules::TAGS;
use super::MATERIALIZE;
use crate::random::Random;
use crate::store;
use crate::store::cases::{coords_text, mvar, Record, Store, Subtable, ALWAYS, RISE};
use crate::text;

/// Bits of floats: zeros, ones, ordinary scales, powers of two and their neighbours, what over- and
/// underflows, subnormal ones, infinities, NaNs.
pub const FLOATS: [u32; 52] = [
    0x0000_0000,
    0x8000_0000,
    0x3f80_0000,
    0xbf80_0000,
    0x4000_0000,
    0xc000_0000,
    0x3f00_0000,
    0xbf00_0000,
    0x4040_0000,
    0x3dcc_cccd,
    0x3eaa_aaab,
    0xbeaa_aaab,
    0x3c83_126f,
    0x3bc0_0000,
    0x4140_0000,
    0x447a_0000,
    0xc47a_0000,
    0x4500_0000,
    0x4700_0000,
    0x477f_ff00,
    0x4780_0000,
    0x3780_0000,
    0x3f80_0001,
    0x3f7f_ffff,
    0xbf7f_ffff,
    0x4b80_0000,
    0x4b80_0001,
    0x3380_0000,
    0x0d80_0000,
    0x7180_0000,
    0xf180_0000,
    0x0000_0001,
    0x8000_0001,
    0x0000_0002,
    0x007f_ffff,
    0x807f_ffff,
    0x0040_0000,
    0x0080_0000,
    0x8080_0000,
    0x0080_0001,
    0x7700_0000,
    0x7f00_0000,
    0xff00_0000,
    0x7f7f_ffff,
    0xff7f_ffff,
    0x7f80_0000,
    0xff80_0000,
    0x7fc0_0000,
    0xffc0_0000,
    0x7f80_0001,
    0xffff_ffff,
    0x4170_0000,
];

const UNITS: [u16; 12] = [
    0, 1, 2, 1000, 1024, 2048, 16384, 32767, 32768, 40000, 65534, 65535,
];

pub const ADVANCES: [u16; 8] = [0, 1, 2, 500, 1229, 32767, 32768, 65535];

pub const BEARINGS: [i16; 8] = [0, 1, -1, 50, -321, 32767, -32767, -32768];

pub fn bits_text(bits: impl IntoIterator<Item = u32>) -> String {
    text::list_text(bits.into_iter().map(|bits| format!("{bits:08x}")))
}

/// Thirteen of the floats, from the k-th on.
fn window(k: usize) -> [u32; 13] {
    std::array::from_fn(|i| FLOATS[(k + i) % FLOATS.len()])
}

/// Whole measures, as a font has them: all 0, ordinary ones, each at a limit.
fn whole_measures(k: usize) -> [u32; 13] {
    let numbers: [i32; 13] = match k % 4 {
        0 => [0; 13],
        1 => [
            800, 200, 90, 500, 500, 0, 700, 450, 512, 1100, -100, 300, 50,
        ],
        2 => [
            32767, -32768, -1, 1, -32768, 32767, -32768, 1, 65535, 65535, -32768, 32767, 32767,
        ],
        _ => [
            -750, -250, 1, -500, 500, 100, -32767, 32766, 0, 32768, 32767, -1, -32768,
        ],
    };
    numbers.map(|n| (n as f32).to_bits())
}

/// Measures of which mostly one at least is no 16-bit integer, so that the Rust has none of the kind.
fn other_measures(k: usize) -> [u32; 13] {
    let mut bits = whole_measures(k);
    match k % 3 {
        0 => [0x8000_0000; 13],
        1 => {
            bits[k % 13] = FLOATS[k % FLOATS.len()] ^ 0x0000_0001;
            bits
        }
        _ => window(k),
    }
}

/// The tags of the measures that have one.
pub fn tags() -> Vec<u32> {
    let tag = |tag: &&[u8; 4]| u32::from_be_bytes(**tag);
    TAGS.iter().flatten().map(tag).collect()
}

/// Bytes before an MVAR, since an offset of 0 is none.
const BEFORE: [u8; 4] = [0xaa; 4];

/// A store with a row for each tag, and a second subtable that is refused by 5.
fn rows_store(triple: [i16; 3]) -> Store {
    let mut store = Store::of_one(&[&[triple]], Subtable::of_row(1, &[0]));
    let entry = |k: i16| vec![if k == 7 { -32768 } else { 101 * k - 333 }];
    store.subtables[0].item_count = 11;
    store.subtables[0].rows = (0..11).map(entry).collect();
    store.subtables.push(Subtable::of_row(2, &[5]));
    store
}

/// A font with an MVAR, or what may be one.
pub struct MvarFont {
    pub font: Vec<u8>,
    pub offset: u32,
    /// whether it is asked at every length
    cut: bool,
}

fn placed(record_size: u16, records: &[Record], store: &Store, cut: bool) -> MvarFont {
    let mut font = BEFORE.to_vec();
    font.extend(mvar(record_size, records, store));
    MvarFont {
        font,
        offset: BEFORE.len() as u32,
        cut,
    }
}

/// With all tags, sorted and not, with one missing or refused, of no record, of no store, at offsets
/// around the font's ends.
pub fn mvar_fonts() -> Vec<MvarFont> {
    let mut fonts = vec![];
    let mut sorted: Vec<Record> = (0..).zip(tags()).map(|(i, tag)| (tag, i, 0)).collect();
    sorted.sort();
    let reversed: Vec<Record> = sorted.iter().rev().copied().collect();
    for triple in [RISE, ALWAYS] {
        let store = rows_store(triple);
        let rotated = [&sorted[5..], &sorted[..5]].concat();
        fonts.push(placed(8, &sorted, &store, true));
        fonts.push(placed(8, &reversed, &store, false));
        fonts.push(placed(8, &rotated, &store, triple == RISE));
        fonts.push(placed(8, &[], &store, true));
        for size in [0, 4, 6, 9, 12] {
            fonts.push(placed(size, &sorted, &store, false));
        }
        for k in 0..sorted.len() {
            let mut missing = sorted.clone();
            missing.remove(k);
            fonts.push(placed(8, &missing, &store, false));
            fonts.push(placed(8, &sorted[k..k + 1], &store, triple == RISE));
            // refused by 5 and by 3
            for outer in [1, 2] {
                let mut refused = sorted.clone();
                refused[k].2 = outer;
                fonts.push(placed(8, &refused, &store, false));
            }
        }
        // record size, count and store at their limits
        for field in [6, 8, 10] {
            for limit in [0u16, 1, 7, 8, 255, 256, 0x7fff, 0x8000, 0xffff] {
                let mut font = placed(8, &sorted, &store, false);
                let at = BEFORE.len() + field;
                font.font[at..at + 2].copy_from_slice(&limit.to_be_bytes());
                fonts.push(font);
            }
        }
        let whole = placed(8, &sorted, &store, false).font;
        let len = whole.len() as u32;
        for offset in [
            0,
            1,
            3,
            5,
            len - 12,
            len - 1,
            len,
            len + 1,
            1 << 31,
            u32::MAX,
        ] {
            fonts.push(MvarFont {
                font: whole.clone(),
                offset,
                cut: false,
            });
        }
    }
    // the store's own shapes behind all tags
    for store in store::cases::stores() {
        let records: Vec<Record> = sorted.iter().map(|r| (r.0, r.1 % 2, r.1 / 2 % 2)).collect();
        fonts.push(placed(8, &records, &store, false));
    }
    fonts
}

pub const LISTS: [&[i16]; 6] = [&[], &[0], &[8192], &[16384, -1], &[-1], &[5461, 4096, 1, 9]];

/// A y coordinate, or a minus for none.
pub fn ordinate(random: &mut Random) -> String {
    match random.below(3) {
        0 => text::EMPTY.to_string(),
        _ => bearing(random).to_string(),
    }
}

fn bearing(random: &mut Random) -> i16 {
    match random.below(3) {
        0 => random.pick(&BEARINGS),
        1 => random.bits() as i16,
        _ => random.magnitude(11) as i16 - 500,
    }
}

fn advance(random: &mut Random) -> u16 {
    match random.below(3) {
        0 => random.pick(&ADVANCES),
        1 => random.bits() as u16,
        _ => random.magnitude(12) as u16,
    }
}

pub fn units(random: &mut Random) -> u16 {
    match random.below(3) {
        0 => random.bits() as u16,
        _ => random.pick(&UNITS),
    }
}

/// A float's bits: at a limit, any, or of an ordinary magnitude.
pub fn float(random: &mut Random) -> u32 {
    match random.below(4) {
        0 => random.pick(&FLOATS),
        1 => random.bits() as u32,
        2 => 1 << 31 | (0x3a00_0000 + random.below(0x0c00_0000) as u32),
        _ => 0x3a00_0000 + random.below(0x0c00_0000) as u32,
    }
}

fn float_list(random: &mut Random) -> String {
    bits_text((0..13).map(|_| float(random)))
}

/// Mostly whole ones in their fields' ranges.
fn measures(random: &mut Random) -> String {
    match random.below(16) {
        0 => float_list(random),
        1 => bits_text(other_measures(random.below(1 << 16) as usize)),
        2 | 3 => bits_text(whole_measures(random.below(4) as usize)),
        _ => bits_text((0..13).map(|k| {
            let number = match k {
                8 | 9 => advance(random) as i32,
                _ => bearing(random) as i32,
            };
            (number as f32).to_bits()
        })),
    }
}

fn of_scale(random: &mut Random) -> String {
    format!(" {:08x}", float(random))
}

fn materialized(font: &str, mvar: u32, coords: &str, flag: u64, random: &mut Random) -> String {
    let measures = measures(random);
    format!("{MATERIALIZE} {font} {mvar} {coords} {flag} {measures}")
}

/// A function for vertical type.
fn of_vertical(
    name: &str,
    font: &str,
    vertical: &str,
    glyph: &str,
    coords: &str,
    random: &mut Random,
) -> String {
    let start = format!("{name} {font} {vertical} {glyph} {coords}");
    let numbers = match name {
        "advance_height" => advance(random).to_string(),
        "tsb" => bearing(random).to_string(),
        _ => {
            let (y_max, origin) = (ordinate(random), ordinate(random));
            format!("{} {y_max} {origin} {}", bearing(random), units(random))
        }
    };
    start + " " + &numbers + &of_scale(random)
}

const VERTICAL_NAMES: [&str; 3] = ["advance_height", "tsb", "vertical_origin"];

fn synthesized(name: &str, font: &str, mvar: u32, coords: &str, random: &mut Random) -> String {
    let words = [2, mvar, float(random), float(random)];
    let glyph = advance(random).to_string();
    of_vertical(name, font, &bits_text(words), &glyph, coords, random)
}

/// What is asked of an MVAR: one of the vertical functions, or the measures, with vertical metrics for
/// an odd form.
fn of_mvar(form: u64, font: &str, mvar: u32, coords: &str, random: &mut Random) -> String {
    match VERTICAL_NAMES.get(form as usize) {
        Some(name) => synthesized(name, font, mvar, coords, random),
        None => materialized(font, mvar, coords, form % 2, random),
    }
}

/// An advance or a bearing, for either direction, by an HVAR or VVAR.
fn of_glyph(
    advances: bool,
    font: &str,
    base: &str,
    glyph: &str,
    coords: &str,
    random: &mut Random,
) -> String {
    let vvar = |case: u32| bits_text([case, base.parse().unwrap_or(0)]);
    let case = random.below(2) as u32;
    let horizontal = |name: &str| format!("{name} {font} {base} {glyph} {coords}");
    match (advances, random.below(4)) {
        (true, 0 | 1) => {
            let advance = advance(random);
            horizontal("advance_width") + &format!(" {advance}") + &of_scale(random)
        }
        (false, 0) => {
            let bearing = bearing(random);
            horizontal("lsb") + &format!(" {bearing}") + &of_scale(random)
        }
        (true, _) => of_vertical("advance_height", font, &vvar(case), glyph, coords, random),
        (false, 1) => of_vertical("tsb", font, &vvar(case), glyph, coords, random),
        (false, _) => of_vertical("vertical_origin", font, &vvar(case), glyph, coords, random),
    }
}

/// The offset 0 of an MVAR is that of none, so a byte comes before most.
pub fn moved(font: &str, offset: &str, random: &mut Random) -> (String, u32) {
    let offset = offset.parse().unwrap_or(0);
    if offset > 0 || random.below(8) == 0 {
        return (font.to_string(), offset);
    }
    let font = if font == text::EMPTY { "" } else { font };
    (format!("aa{font}"), 1)
}

/// A case of the store as one of a measure or a metric, over the same font.
fn of_store(line: &str, random: &mut Random) -> String {
    let words: Vec<&str> = line.split(' ').collect();
    match words[..] {
        ["advance_delta", font, base, glyph, coords] => {
            of_glyph(true, font, base, glyph, coords, random)
        }
        ["sb_delta", font, base, glyph, coords] => {
            of_glyph(false, font, base, glyph, coords, random)
        }
        ["mvar_delta", font, offset, _, coords] => {
            let (font, mvar) = moved(font, offset, random);
            of_mvar(random.below(8), &font, mvar, coords, random)
        }
        [store::NEW, font, offset] => {
            let (font, mvar) = moved(font, offset, random);
            let coords = coords_text(random.pick(&LISTS));
            of_mvar(random.below(5), &font, mvar, &coords, random)
        }
        _ => unreachable!(),
    }
}

/// Every scale with every float and with every number of units per em, the flags and cases by
/// themselves, and each vertical case without a table.
fn plain_edges() -> Vec<String> {
    let mut lines = vec![];
    for scale in FLOATS {
        for k in (0..FLOATS.len()).step_by(13) {
            let list = bits_text(window(k));
            lines.push(format!("linear_scale {scale:08x} {list}"));
            for upem in UNITS {
                lines.push(format!("scale {upem} {scale:08x} {list}"));
            }
        }
        for k in 0..4 {
            let list = bits_text(whole_measures(k));
            lines.push(format!("linear_scale {scale:08x} {list}"));
            lines.push(format!("scale {} {scale:08x} {list}", UNITS[3 + k]));
        }
        for upem in UNITS {
            for advance in ADVANCES {
                lines.push(format!("glyph_scale {upem} {scale:08x} {advance}"));
            }
            for y in ["-", "0", "-32768", "32767"] {
                let rest = format!("0 - 1 {y} {y} {upem} {scale:08x}");
                lines.push(format!("vertical_origin - 00000000,00000000 {rest}"));
                lines.push(format!("vertical_origin - 00000001,00000000 {rest}"));
            }
        }
        for n in ADVANCES {
            lines.push(format!("advance_width - 0 0 - {n} {scale:08x}"));
            lines.push(format!(
                "advance_height - 00000000,00000000 0 - {n} {scale:08x}"
            ));
        }
        for n in BEARINGS {
            lines.push(format!("lsb - 0 0 - {n} {scale:08x}"));
            lines.push(format!("tsb - 00000001,00000000 0 - {n} {scale:08x}"));
        }
        for made in FLOATS {
            let vertical = bits_text([2, 0, made, made.rotate_left(1)]);
            let rest = format!("- {vertical} 0 16384");
            lines.push(format!("advance_height {rest} 7 {scale:08x}"));
            lines.push(format!("tsb {rest} 7 {scale:08x}"));
            lines.push(format!("vertical_origin {rest} 7 7 7 7 {scale:08x}"));
        }
    }
    for offset in [0, 1, 4, 65535, 65536, 1 << 31, u32::MAX] {
        for flag in [0, 1] {
            lines.push(format!("has_variations {offset} {flag}"));
        }
        for vertical in [
            bits_text([0, offset]),
            bits_text([1, offset]),
            bits_text([2, offset, 0, 0]),
        ] {
            lines.push(format!("has_vertical_metrics {vertical}"));
        }
    }
    lines
}

enum Edge {
    Plain(usize),
    /// a font, a length, a list, a form
    Mvar(usize, usize, usize, u64),
    Store(u64),
}

/// What is asked of each MVAR font, at each length and list: three vertical functions, and the
/// measures with vertical metrics and without.
const FORMS: u64 = 5;

struct Edges {
    plain: Vec<String>,
    mvars: Vec<MvarFont>,
    store: store::cases::Edges,
    all: Vec<Edge>,
}

impl Edges {
    fn new() -> Self {
        let plain = plain_edges();
        let mvars = mvar_fonts();
        let store = store::cases::Edges::of_questions(&["advance_delta", "sb_delta", store::NEW]);
        let mut all: Vec<Edge> = (0..plain.len()).map(Edge::Plain).collect();
        for (k, font) in mvars.iter().enumerate() {
            let length = font.font.len();
            let least = if font.cut { 0 } else { length };
            for length in least..=length {
                for list in 0..LISTS.len() {
                    all.extend((0..FORMS).map(|form| Edge::Mvar(k, length, list, form)));
                }
            }
        }
        all.extend((0..store.len()).map(Edge::Store));
        Edges {
            plain,
            mvars,
            store,
            all,
        }
    }

    /// The numbers that an edge leaves open are random, but the same for all seeds.
    fn nth(&self, n: u64) -> String {
        let random = &mut Random::new(n);
        match self.all[n as usize] {
            Edge::Plain(k) => self.plain[k].clone(),
            Edge::Mvar(k, length, list, form) => {
                let MvarFont { font, offset, .. } = &self.mvars[k];
                let font = text::bytes_text(font[..length].iter().copied());
                let coords = coords_text(LISTS[list]);
                of_mvar(form, &font, *offset, &coords, random)
            }
            Edge::Store(k) => of_store(&self.store.nth(k), random),
        }
    }
}

fn random_case(random: &mut Random) -> String {
    match random.below(16) {
        0 => format!("linear_scale{} {}", of_scale(random), float_list(random)),
        1 => {
            let upem = units(random);
            format!("scale {upem}{} {}", of_scale(random), float_list(random))
        }
        2 => {
            let upem = units(random);
            format!("glyph_scale {upem}{} {}", of_scale(random), advance(random))
        }
        3 => {
            let offset = random.magnitude(32);
            format!("has_variations {offset} {}", random.below(2))
        }
        4 => {
            let case = random.below(3) as u32;
            let mut words = vec![case, random.magnitude(32) as u32];
            if case == 2 {
                words.extend([float(random), float(random)]);
            }
            format!("has_vertical_metrics {}", bits_text(words))
        }
        5..=9 => {
            let tags = tags();
            let line = store::cases::mvar_case("mvar_delta", &tags, random);
            of_store(&line, random)
        }
        n => {
            let name = if n % 2 == 0 {
                "advance_delta"
            } else {
                "sb_delta"
            };
            let line = store::cases::glyph_case(name, random);
            of_store(&line, random)
        }
    }
}

/// Cases without end: one of the edges, then a random one, and so on. The edges come in an order that
/// mixes them; once they are used up all are random.
pub struct Cases {
    edges: Edges,
    made: u64,
    random: Random,
}

impl Cases {
    pub fn new(seed: u64) -> Self {
        Cases {
            edges: Edges::new(),
            made: 0,
            random: Random::new(seed ^ 0x4d56_4152),
        }
    }
}

impl Iterator for Cases {
    type Item = String;

    fn next(&mut self) -> Option<String> {
        // a prime that is larger than the number of edges: each is met once
        const STRIDE: u64 = 1_000_000_007;
        let edges = self.edges.all.len() as u64;
        let (turn, odd) = (self.made / 2, self.made % 2 == 1);
        self.made += 1;
        if odd || turn >= edges {
            Some(random_case(&mut self.random))
        } else {
            Some(self.edges.nth(turn * STRIDE % edges))
        }
    }
}

/// The store's cases of item counts, each behind a measure or a metric.
fn counts(seed: u64) -> impl Iterator<Item = String> {
    let mut random = Random::new(seed ^ 0x4d43_4f55);
    let floats = |line: &String| {
        let name = line.split(' ').next();
        matches!(name, Some("advance_delta" | "sb_delta" | "mvar_delta"))
    };
    let lines = store::cases::counts::cases(seed).filter(floats);
    lines.map(move |line| of_store(&line, &mut random))
}

/// Every fourth case is one of item counts.
pub fn with_counts(seed: u64) -> impl Iterator<Item = String> {
    let mut others = Cases::new(seed);
    let mut counts = counts(seed);
    (0..).map_while(move |turn: u64| match turn % 4 {
        3 => counts.next(),
        _ => others.next(),
    })
}

/// The inputs where a wrong order, sign or place shows, and those where swash may surprise.
const LISTED: &str = "\
vertical_origin - 00000000,00000000 0 - 1 0 - 1000 40000000
vertical_origin - 00000000,00000000 0 - 1 0 - 1000 3f800000
vertical_origin - 00000001,00000000 0 - 0 - - 40000 3f800000
vertical_origin - 00000001,00000000 0 - 0 0 - 32768 3f800000
vertical_origin - 00000001,00000000 0 - 0 0 - 32767 3f800000
vertical_origin - 00000001,00000000 0 - 0 - 880 40000 3f800000
vertical_origin - 00000000,00000000 0 - 0 - - 40000 3f800000
vertical_origin - 00000000,00000000 0 - 0 - 5 40000 40000000
vertical_origin 0000000000010000000000180000001000000010000700030001020000010000000c0001000000100000000100030000000100000a0b0c 00000000,00000004 0 - 1 100 - 1000 40000000
vertical_origin 0000000000000000000000010000000000000002 00000000,00000004 0 - 1 100 - 1000 40000000
vertical_origin 0000000000000000000000010000000000000002 00000000,00000004 0 - 1 - - 1000 40000000
vertical_origin 0000000000000000000000010000000000000002 00000001,00000004 0 - 1 - 5 1000 40000000
vertical_origin - 00000002,00000000,447a0000,44480000 0 - 1 2 3 1000 40000000
materialize_metrics 00000000000100000000000800010014686173630001000000010000000c0001000000100000000100020000000100000a0b 4 - 1 44480000,43480000,42b40000,43fa0000,43fa0000,00000000,442f0000,43e10000,44000000,44898000,c2c80000,43960000,42480000
advance_height 0000000000010000000000080002001c6861736300000000686473630001000000010000000c0001000000100000000100020000000100000a0b 00000002,00000004,447a0000,44480000 0 - 0 3f800000
vertical_origin 0000000000010000000000080002001c6861736300000000686473630001000000010000000c0001000000100000000100020000000100000a0b 00000002,00000004,447a0000,44480000 0 - 0 - - 1000 3f800000
tsb 0000000000010000000000080002001c6861736300000000686473630001000000010000000c0001000000100000000100020000000100000a0b 00000002,00000004,447a0000,44480000 0 - 7 3f800000
advance_width 000000000001000000000010000000000000000000010000000c00010000001600010001c00020004000000100000001000003 4 0 - 500 3f800000
advance_height 000000000001000000000010000000000000000000010000000c00010000001600010001c00020004000000100000001000003 00000000,00000004 0 - 500 3f800000
lsb 0000000000010000000000180000001000000010000700030001020000010000000c0001000000100000000100030000000100000a0b0c 4 1 - 50 3f800000
tsb 0000000000010000000000180000001000000010000700030001020000010000000c0001000000100000000100030000000100000a0b0c 00000001,00000004 1 - 50 3f800000
materialize_metrics 00000000000100000000000800010014686173630001000000010000000c0001000000100000000100020000000100000a0b 4 0 1 44480000,43480000,42b40000,43fa0000,43fa0000,00000000,442f0000,43e10000,44000000,44898000,c2c80000,43960000,42480000
advance_height 0000000000010000000000080002001c6861736300000000686473630001000000010000000c0001000000100000000100020000000100000a0b 00000002,00000004,447a0000,44480000 0 0 0 3f800000
vertical_origin 0000000000010000000000080002001c6861736300000000686473630001000000010000000c0001000000100000000100020000000100000a0b 00000002,00000004,447a0000,44480000 0 0 0 - - 1000 3f800000
tsb 0000000000010000000000080002001c6861736300000000686473630001000000010000000c0001000000100000000100020000000100000a0b 00000002,00000004,447a0000,44480000 0 0 7 3f800000
advance_width 000000000001000000000010000000000000000000010000000c00010000001600010001c00020004000000100000001000003 4 0 0 500 3f800000
advance_height 000000000001000000000010000000000000000000010000000c00010000001600010001c00020004000000100000001000003 00000000,00000004 0 0 500 3f800000
lsb 0000000000010000000000180000001000000010000700030001020000010000000c0001000000100000000100030000000100000a0b0c 4 1 0 50 3f800000
tsb 0000000000010000000000180000001000000010000700030001020000010000000c0001000000100000000100030000000100000a0b0c 00000001,00000004 1 0 50 3f800000
materialize_metrics 000100000000000800010014686173630001000000010000000c0001000000100000000100020000000100000a0b 0 0 1 44480000,43480000,42b40000,43fa0000,43fa0000,00000000,442f0000,43e10000,44000000,44898000,c2c80000,43960000,42480000
materialize_metrics 00000000000100000000000800010014686173630001000000010000000c0001000000100000000100020000000100000a0b 4 0 0 44480000,43480000,42b40000,43fa0000,43fa0000,00000000,442f0000,43e10000,44000000,44898000,c2c80000,43960000,42480000
materialize_metrics 00000000000100000000000800010014686173630001000000010000000c0001000000100000000100020000000100000a0b 4 0 1 80000000,80000000,80000000,80000000,80000000,80000000,80000000,80000000,80000000,80000000,80000000,80000000,80000000
materialize_metrics 00000000000100000000000800010014686173630001000000010000000c0001000000100000000100020000000100000a0b 4 0 0 80000000,80000000,80000000,80000000,80000000,80000000,80000000,80000000,80000000,80000000,80000000,80000000,80000000
materialize_metrics 00000000000100000000000800010014686173630001000000010000000c0001000000100000000100020000000100000a0b 4 - 1 80000000,80000000,80000000,80000000,80000000,80000000,80000000,80000000,80000000,80000000,80000000,80000000,80000000
materialize_metrics 00000000 4 0 1 80000000,80000000,80000000,80000000,80000000,80000000,80000000,80000000,80000000,80000000,80000000,80000000,80000000
materialize_metrics 00000000000100000000000800010014686173630001000000010000000c0001000000100000000100020000000100000a0b 5 0 1 80000000,80000000,80000000,80000000,80000000,80000000,80000000,80000000,80000000,80000000,80000000,80000000,80000000
materialize_metrics 00000000000100000000000800010014686173630001000000010000000c0001000000100000000100020000000100000a0b 4 0 1 3f000000,00000000,00000000,00000000,00000000,00000000,00000000,00000000,00000000,00000000,00000000,00000000,00000000
materialize_metrics 00000000000100000000000800010014686173630001000000010000000c0001000000100000000100020000000100000a0b 4 0 1 7fc00000,ffc00000,7f800001,7f800000,ff800000,7f7fffff,ff7fffff,00000001,80000001,00000000,80000000,3f800000,007fffff
materialize_metrics 0000000000010000000000080002001c6861736300000000686473630001000000010000000c0001000000100000000100020000000100000a0b 4 0 0 44480000,43480000,42b40000,43fa0000,43fa0000,00000000,442f0000,43e10000,44000000,44898000,c2c80000,43960000,42480000
materialize_metrics 000000000001000000000008000b0064637068740006000068617363000000006864736300010000686c6770000200007374726f00090000756e646f00080000756e6473000a000076617363000300007664736300040000766c677000050000786867740007000000010000000c00010000001000000001000b0000000100000102030405060708090a0b 4 0 0 44480000,43480000,42b40000,43fa0000,43fa0000,00000000,442f0000,43e10000,44000000,44898000,c2c80000,43960000,42480000
materialize_metrics 000000000001000000000008000b0064637068740006000068617363000000006864736300010000686c6770000200007374726f00090000756e646f00080000756e6473000a000076617363000300007664736300040000766c677000050000786867740007000000010000000c00010000001000000001000b0000000100000102030405060708090a0b 4 0 0 00000000,00000000,00000000,00000000,00000000,00000000,00000000,00000000,00000000,00000000,00000000,00000000,00000000
materialize_metrics 000000000001000000000008000b0064637068740006000068617363000000006864736300010000686c6770000200007374726f00090000756e646f00080000756e6473000a000076617363000300007664736300040000766c677000050000786867740007000000010000000c00010000001000000001000b0000000100000102030405060708090a0b 4 0 0 46fffe00,c7000000,bf800000,3f800000,c7000000,46fffe00,c7000000,3f800000,477fff00,477fff00,c7000000,46fffe00,46fffe00
materialize_metrics 000000000001000000000008000b0064637068740006000068617363000000006864736300010000686c6770000200007374726f00090000756e646f00080000756e6473000a000076617363000300007664736300040000766c677000050000786867740007000000010000000c00010000001000000001000b0000000100000102030405060708090a0b 4 0 1 44480000,43480000,42b40000,43fa0000,43fa0000,00000000,442f0000,43e10000,44000000,44898000,c2c80000,43960000,42480000
materialize_metrics 000000000001000000000008000b0064637068740006000068617363000000006864736300010000686c6770000200007374726f00090000756e646f00080000756e6473000a000076617363000300007664736300040000766c677000050000786867740007000000010000000c00010000001000000001000b0000000100000102030405060708090a0b 4 0 1 00000000,00000000,00000000,00000000,00000000,00000000,00000000,00000000,00000000,00000000,00000000,00000000,00000000
materialize_metrics 000000000001000000000008000b0064637068740006000068617363000000006864736300010000686c6770000200007374726f00090000756e646f00080000756e6473000a000076617363000300007664736300040000766c677000050000786867740007000000010000000c00010000001000000001000b0000000100000102030405060708090a0b 4 0 1 46fffe00,c7000000,bf800000,3f800000,c7000000,46fffe00,c7000000,3f800000,477fff00,477fff00,c7000000,46fffe00,46fffe00
materialize_metrics 00000000000100000000000800010014686173630000000000010000000c00010000001600010001000040004000000100000001000064 4 8192 1 44480000,43480000,42b40000,43fa0000,43fa0000,00000000,442f0000,43e10000,44000000,44898000,c2c80000,43960000,42480000
materialize_metrics 00000000000100000000000800010014686173630000000000010000000c00010000001600010001000040004000000100000001000064 4 16384 1 44480000,43480000,42b40000,43fa0000,43fa0000,00000000,442f0000,43e10000,44000000,44898000,c2c80000,43960000,42480000
materialize_metrics 00000000000100000000000800010014686173630000000000010000000c00010000001600010001000040004000000100000001000064 4 -1 1 44480000,43480000,42b40000,43fa0000,43fa0000,00000000,442f0000,43e10000,44000000,44898000,c2c80000,43960000,42480000
materialize_metrics 00000000000100000000000800010014686173630000000000010000000c00010000001600010001000040004000000100000001000064 4 - 1 44480000,43480000,42b40000,43fa0000,43fa0000,00000000,442f0000,43e10000,44000000,44898000,c2c80000,43960000,42480000
materialize_metrics 0000000000010000000000080002001c686173630000000168647363000000000001000000100002000000140000001d0000000100010000000100000a000000010000 4 0 0 44480000,43480000,42b40000,43fa0000,43fa0000,00000000,442f0000,43e10000,44000000,44898000,c2c80000,43960000,42480000
materialize_metrics 0000000000010000000000080002001c686173630000000168647363000000000001000000100002000000140000001d0000000100010000000100000a000000010000 4 0 1 80000000,80000000,80000000,80000000,80000000,80000000,80000000,80000000,80000000,80000000,80000000,80000000,80000000
materialize_metrics 0000000000010000000000080002001c686173630000000168647363000000000001000000100002000000140000001d0000000100010000000100000a000000010000 4 - 0 44480000,43480000,42b40000,43fa0000,43fa0000,00000000,442f0000,43e10000,44000000,44898000,c2c80000,43960000,42480000
advance_height 0000000000010000000000080002001c686173630000000168647363000000000001000000100002000000140000001d0000000100010000000100000a000000010000 00000002,00000004,447a0000,44480000 0 0 0 3f800000
advance_height 0000000000010000000000080002001c686173630000000168647363000000000001000000100002000000140000001d0000000100010000000100000a000000010000 00000002,00000004,447a0000,44480000 0 - 0 3f800000
advance_height 0000000000010000000000080002001c686173630000000168647363000000000001000000100002000000140000001d0000000100010000000100000a000000010000 00000002,00000000,447a0000,44480000 0 0 0 3f800000
tsb 0000000000010000000000080002001c686173630000000168647363000000000001000000100002000000140000001d0000000100010000000100000a000000010000 00000002,00000004,447a0000,44480000 0 0 7 3f800000
tsb 0000000000010000000000080002001c686173630000000168647363000000000001000000100002000000140000001d0000000100010000000100000a000000010000 00000002,00000004,447a0000,44480000 0 - 7 3f800000
tsb 0000000000010000000000080002001c686173630000000168647363000000000001000000100002000000140000001d0000000100010000000100000a000000010000 00000002,00000000,447a0000,44480000 0 0 7 3f800000
vertical_origin 0000000000010000000000080002001c686173630000000168647363000000000001000000100002000000140000001d0000000100010000000100000a000000010000 00000002,00000004,447a0000,44480000 0 0 0 - - 1000 3f800000
vertical_origin 0000000000010000000000080002001c686173630000000168647363000000000001000000100002000000140000001d0000000100010000000100000a000000010000 00000002,00000004,447a0000,44480000 0 - 0 - - 1000 3f800000
vertical_origin 0000000000010000000000080002001c686173630000000168647363000000000001000000100002000000140000001d0000000100010000000100000a000000010000 00000002,00000000,447a0000,44480000 0 0 0 - - 1000 3f800000
advance_width 0000000000010000fffffffc 4 0 - 500 3f800000
advance_width 00000000000000000000000100000002 4 0 - 500 40000000
lsb 0000000000000000000000010000000000000002 4 0 - -50 40000000
advance_height 0000000000010000fffffffc 00000001,00000004 0 - 500 3f800000
tsb 0000000000000000000000010000000000000002 00000000,00000004 0 - -50 40000000
advance_width 000000000001000000000010000000000000000000010000000c00010000001600010001000040004000000100000001000064 4 0 8192 500 3f800000
advance_width 000000000001000000000010000000000000000000010000000c00010000001600010001000040004000000100000001000064 4 0 16384 500 3f800000
advance_width 000000000001000000000010000000000000000000010000000c00010000001600010001000040004000000100000001000064 4 0 0 500 3f800000
advance_width 000000000001000000000010000000000000000000010000000c00010000001600010001000040004000000100000001000064 4 0 -1 500 3f800000
advance_width 000000000001000000000010000000000000000000010000000c00010000001600010001000040004000000100000001000064 4 0 - 500 3f800000
advance_width 000000000001000000000010000000000000000000010000000c00010000001600010001000040004000000100000001000064 0 0 16384 500 3f800000
advance_width 000000000001000000000010000000000000000000010000000c00010000001600010001000040004000000100000001000064 4 0 16384 65535 3c83126f
lsb 000000000001000000000010000000000000000000010000000c00010000001600010001000040004000000100000001000064 4 0 16384 -50 3f800000
lsb - 0 0 - 0 bf800000
advance_width - 0 0 - 0 80000000
advance_width - 0 0 - 0 7f800000
advance_width - 0 0 - 1 00000001
advance_width - 0 0 - 65535 7f7fffff
tsb - 00000002,00000000,00000000,00000000 0 - 5 bf800000
tsb - 00000002,00000000,00000000,00000000 0 - 5 7f800000
tsb - 00000002,00000000,00000000,00000000 0 - 5 7fc00000
advance_height - 00000002,00000000,7fc00001,00000000 0 - 5 3f800000
scale 0 41800000 44480000,43480000,42b40000,43fa0000,43fa0000,00000000,442f0000,43e10000,44000000,44898000,c2c80000,43960000,42480000
glyph_scale 0 41800000 500
scale 1 41800000 44480000,43480000,42b40000,43fa0000,43fa0000,00000000,442f0000,43e10000,44000000,44898000,c2c80000,43960000,42480000
glyph_scale 1 41800000 500
scale 1000 41800000 44480000,43480000,42b40000,43fa0000,43fa0000,00000000,442f0000,43e10000,44000000,44898000,c2c80000,43960000,42480000
glyph_scale 1000 41800000 500
scale 2048 41800000 44480000,43480000,42b40000,43fa0000,43fa0000,00000000,442f0000,43e10000,44000000,44898000,c2c80000,43960000,42480000
glyph_scale 2048 41800000 500
scale 32768 41800000 44480000,43480000,42b40000,43fa0000,43fa0000,00000000,442f0000,43e10000,44000000,44898000,c2c80000,43960000,42480000
glyph_scale 32768 41800000 500
scale 65535 41800000 44480000,43480000,42b40000,43fa0000,43fa0000,00000000,442f0000,43e10000,44000000,44898000,c2c80000,43960000,42480000
glyph_scale 65535 41800000 500
linear_scale 00000000 7fc00000,ffc00000,7f800001,7f800000,ff800000,7f7fffff,ff7fffff,00000001,80000001,00000000,80000000,3f800000,007fffff
scale 3 00000000 46fffe00,c7000000,bf800000,3f800000,c7000000,46fffe00,c7000000,3f800000,477fff00,477fff00,c7000000,46fffe00,46fffe00
glyph_scale 0 00000000 500
glyph_scale 1000 00000000 500
linear_scale 80000000 7fc00000,ffc00000,7f800001,7f800000,ff800000,7f7fffff,ff7fffff,00000001,80000001,00000000,80000000,3f800000,007fffff
scale 3 80000000 46fffe00,c7000000,bf800000,3f800000,c7000000,46fffe00,c7000000,3f800000,477fff00,477fff00,c7000000,46fffe00,46fffe00
glyph_scale 0 80000000 500
glyph_scale 1000 80000000 500
linear_scale 3f800000 7fc00000,ffc00000,7f800001,7f800000,ff800000,7f7fffff,ff7fffff,00000001,80000001,00000000,80000000,3f800000,007fffff
scale 3 3f800000 46fffe00,c7000000,bf800000,3f800000,c7000000,46fffe00,c7000000,3f800000,477fff00,477fff00,c7000000,46fffe00,46fffe00
glyph_scale 0 3f800000 500
glyph_scale 1000 3f800000 500
linear_scale bf800000 7fc00000,ffc00000,7f800001,7f800000,ff800000,7f7fffff,ff7fffff,00000001,80000001,00000000,80000000,3f800000,007fffff
scale 3 bf800000 46fffe00,c7000000,bf800000,3f800000,c7000000,46fffe00,c7000000,3f800000,477fff00,477fff00,c7000000,46fffe00,46fffe00
glyph_scale 0 bf800000 500
glyph_scale 1000 bf800000 500
linear_scale 00000001 7fc00000,ffc00000,7f800001,7f800000,ff800000,7f7fffff,ff7fffff,00000001,80000001,00000000,80000000,3f800000,007fffff
scale 3 00000001 46fffe00,c7000000,bf800000,3f800000,c7000000,46fffe00,c7000000,3f800000,477fff00,477fff00,c7000000,46fffe00,46fffe00
glyph_scale 0 00000001 500
glyph_scale 1000 00000001 500
linear_scale 7f7fffff 7fc00000,ffc00000,7f800001,7f800000,ff800000,7f7fffff,ff7fffff,00000001,80000001,00000000,80000000,3f800000,007fffff
scale 3 7f7fffff 46fffe00,c7000000,bf800000,3f800000,c7000000,46fffe00,c7000000,3f800000,477fff00,477fff00,c7000000,46fffe00,46fffe00
glyph_scale 0 7f7fffff 500
glyph_scale 1000 7f7fffff 500
linear_scale 7f800000 7fc00000,ffc00000,7f800001,7f800000,ff800000,7f7fffff,ff7fffff,00000001,80000001,00000000,80000000,3f800000,007fffff
scale 3 7f800000 46fffe00,c7000000,bf800000,3f800000,c7000000,46fffe00,c7000000,3f800000,477fff00,477fff00,c7000000,46fffe00,46fffe00
glyph_scale 0 7f800000 500
glyph_scale 1000 7f800000 500
linear_scale ff800000 7fc00000,ffc00000,7f800001,7f800000,ff800000,7f7fffff,ff7fffff,00000001,80000001,00000000,80000000,3f800000,007fffff
scale 3 ff800000 46fffe00,c7000000,bf800000,3f800000,c7000000,46fffe00,c7000000,3f800000,477fff00,477fff00,c7000000,46fffe00,46fffe00
glyph_scale 0 ff800000 500
glyph_scale 1000 ff800000 500
linear_scale 7fc00000 7fc00000,ffc00000,7f800001,7f800000,ff800000,7f7fffff,ff7fffff,00000001,80000001,00000000,80000000,3f800000,007fffff
scale 3 7fc00000 46fffe00,c7000000,bf800000,3f800000,c7000000,46fffe00,c7000000,3f800000,477fff00,477fff00,c7000000,46fffe00,46fffe00
glyph_scale 0 7fc00000 500
glyph_scale 1000 7fc00000 500
has_variations 0 0
has_variations 0 1
has_variations 4 0
has_variations 4294967295 1
has_vertical_metrics 00000000,00000000
has_vertical_metrics 00000001,00000004
has_vertical_metrics 00000002,00000004,00000000,00000000
";

/// Lines that are no case; each is answered by a question mark.
const NO_CASES: [&str; 58] = [
    "materialize_metrics",
    "materialize_metrics - 0 - 0",
    "materialize_metrics - 0 - 2 44480000,43480000,42b40000,43fa0000,43fa0000,00000000,442f0000,43e10000,44000000,44898000,c2c80000,43960000,42480000",
    "materialize_metrics - 0 - - 44480000,43480000,42b40000,43fa0000,43fa0000,00000000,442f0000,43e10000,44000000,44898000,c2c80000,43960000,42480000",
    "materialize_metrics - 0 - 0 44480000,43480000,42b40000,43fa0000,43fa0000,00000000,442f0000,43e10000,44000000,44898000,c2c80000,43960000,42480000,00000000",
    "materialize_metrics - 0 - 0 44480000,43480000,42b40000,43fa0000,43fa0000,00000000,442f0000,43e10000,44000000,44898000,c2c80000,43960000",
    "materialize_metrics - 0 - 0 -",
    "materialize_metrics - 0 - 0 44480000,43480000,42b40000,43fa0000,43fa0000,00000000,442f0000,43e10000,44000000,44898000,c2c80000,43960000,42480000 0",
    "materialize_metrics - 4294967296 - 0 44480000,43480000,42b40000,43fa0000,43fa0000,00000000,442f0000,43e10000,44000000,44898000,c2c80000,43960000,42480000",
    "materialize_metrics 0 0 - 0 44480000,43480000,42b40000,43fa0000,43fa0000,00000000,442f0000,43e10000,44000000,44898000,c2c80000,43960000,42480000",
    "materialize_metrics - 0 32768 0 44480000,43480000,42b40000,43fa0000,43fa0000,00000000,442f0000,43e10000,44000000,44898000,c2c80000,43960000,42480000",
    "materialize_metrics - 0 - 0 44480000,43480000,42B40000,43FA0000,43FA0000,00000000,442F0000,43E10000,44000000,44898000,C2C80000,43960000,42480000",
    "scale 65536 3f800000 44480000,43480000,42b40000,43fa0000,43fa0000,00000000,442f0000,43e10000,44000000,44898000,c2c80000,43960000,42480000",
    "scale -1 3f800000 44480000,43480000,42b40000,43fa0000,43fa0000,00000000,442f0000,43e10000,44000000,44898000,c2c80000,43960000,42480000",
    "scale 1000 3f80000 44480000,43480000,42b40000,43fa0000,43fa0000,00000000,442f0000,43e10000,44000000,44898000,c2c80000,43960000,42480000",
    "scale 1000 3f800000",
    "scale 1000 1.0 44480000,43480000,42b40000,43fa0000,43fa0000,00000000,442f0000,43e10000,44000000,44898000,c2c80000,43960000,42480000",
    "linear_scale 3f800000 44480000,43480000,42b40000,43fa0000,43fa0000,00000000,442f0000,43e10000,44000000,44898000,c2c80000,43960000",
    "linear_scale 3f800000 44480000,43480000,42b40000,43fa0000,43fa0000,00000000,442f0000,43e10000,44000000,44898000,c2c80000,43960000,42480000 44480000,43480000,42b40000,43fa0000,43fa0000,00000000,442f0000,43e10000,44000000,44898000,c2c80000,43960000,42480000",
    "linear_scale 3f800000",
    "advance_width - 0 0 - 65536 3f800000",
    "advance_width - 0 0 - -1 3f800000",
    "advance_width - 0 65536 - 0 3f800000",
    "advance_width - 0 0 - 0",
    "advance_width - 00000000,00000000 0 - 0 3f800000",
    "lsb - 0 0 - 32768 3f800000",
    "lsb - 0 0 - -32769 3f800000",
    "lsb - 0 0 - - 3f800000",
    "lsb - 0 0 - 0 nan",
    "advance_height - 0 0 - 0 3f800000",
    "advance_height - 00000003,00000000 0 - 0 3f800000",
    "advance_height - 00000000 0 - 0 3f800000",
    "advance_height - - 0 - 0 3f800000",
    "advance_height - 00000000,00000000,00000000 0 - 0 3f800000",
    "advance_height - 00000002,00000000,00000000 0 - 0 3f800000",
    "advance_height - 00000002,00000000,00000000,00000000,00000000 0 - 0 3f800000",
    "tsb - 00000001,00000000 0 - 65535 3f800000",
    "tsb - 00000001,00000000 0 - 0 3f800000 0",
    "vertical_origin - 00000000,00000000 0 - 0 - - 1000",
    "vertical_origin - 00000000,00000000 0 - 0 32768 - 1000 3f800000",
    "vertical_origin - 00000000,00000000 0 - 0 - -- 1000 3f800000",
    "vertical_origin - 00000000,00000000 0 - 0 - - 65536 3f800000",
    "vertical_origin - 00000000,00000000 0 - 0 - - - 3f800000",
    "vertical_origin - 00000000,00000000 0 - - - - 0 3f800000",
    "vertical_origin - 00000002,00000000 0 - 0 - - 0 3f800000",
    "glyph_scale 1000 3f800000",
    "glyph_scale 65536 3f800000 0",
    "glyph_scale 1000 3f800000 65536",
    "glyph_scale 1000 3f800000 0 0",
    "has_variations 0",
    "has_variations 0 2",
    "has_variations 4294967296 0",
    "has_variations - 0",
    "has_vertical_metrics",
    "has_vertical_metrics -",
    "has_vertical_metrics 00000003,00000000",
    "has_vertical_metrics 00000000,00000000 0",
    "has_vertical 00000000,00000000",
];

/// A line of the stored sample has at most this many bytes.
const SHORT: usize = 500;

/// A spread of `count` lines for a stored sample, every function in it.
pub fn sample(seed: u64, count: usize) -> Vec<String> {
    let mut lines: Vec<String> = LISTED.lines().map(str::to_string).collect();
    lines.extend(NO_CASES.map(str::to_string));
    let rest = count - lines.len();
    let short = |line: &String| line.len() <= SHORT;
    lines.extend(Cases::new(seed).filter(short).take(rest));
    lines
}

/// A row past its subtable's item count behind each function; of two deltas the first, the second and
/// both.
const LISTED_OF_COUNTS: &str = "\
advance_width 000000000001000000000010000000000000000000010000000c0001000000160001000100000000000000010000000100006405 4 0 0 500 3f800000
advance_width 000000000001000000000010000000000000000000010000000c0001000000160001000100000000000000010000000100006405 4 1 0 500 3f800000
advance_width 000000000001000000000010000000000000000000010000000c0001000000160001000100000000000000010000000100006405 4 65535 0 500 3f800000
advance_width 000000000001000000000010000000000000000000010000000c0001000000160001000100000000000000010002000100006405 4 1 0 500 3f800000
advance_width 000000000001000000000010000000000000000000010000000c00010000001600010001000000000000000100000001 4 1 0 500 3f800000
advance_height 000000000001000000000010000000000000000000010000000c0001000000160001000100000000000000010000000100006405 00000000,00000004 0 0 500 40000000
advance_height 000000000001000000000010000000000000000000010000000c0001000000160001000100000000000000010000000100006405 00000000,00000004 1 0 500 40000000
advance_height 000000000001000000000010000000000000000000010000000c0001000000160001000100000000000000010000000100006405 00000001,00000004 0 0 500 40000000
advance_height 000000000001000000000010000000000000000000010000000c0001000000160001000100000000000000010000000100006405 00000001,00000004 1 0 500 40000000
lsb 000000000001000000000016000000100000001000070002000100010000000c0001000000100000000100010000000100006405 4 0 0 -50 3f800000
tsb 000000000001000000000016000000100000001000070002000100010000000c0001000000100000000100010000000100006405 00000000,00000004 0 0 -50 40000000
tsb 000000000001000000000016000000100000001000070002000100010000000c0001000000100000000100010000000100006405 00000001,00000004 0 0 -50 40000000
vertical_origin 000000000001000000000016000000100000001000070002000100010000000c0001000000100000000100010000000100006405 00000000,00000004 0 0 -50 700 800 1000 3f800000
vertical_origin 000000000001000000000016000000100000001000070002000100010000000c0001000000100000000100010000000100006405 00000001,00000004 0 0 -50 700 800 1000 3f800000
lsb 000000000001000000000016000000100000001000070002000100010000000c0001000000100000000100010000000100006405 4 1 0 -50 3f800000
tsb 000000000001000000000016000000100000001000070002000100010000000c0001000000100000000100010000000100006405 00000000,00000004 1 0 -50 40000000
tsb 000000000001000000000016000000100000001000070002000100010000000c0001000000100000000100010000000100006405 00000001,00000004 1 0 -50 40000000
vertical_origin 000000000001000000000016000000100000001000070002000100010000000c0001000000100000000100010000000100006405 00000000,00000004 1 0 -50 700 800 1000 3f800000
vertical_origin 000000000001000000000016000000100000001000070002000100010000000c0001000000100000000100010000000100006405 00000001,00000004 1 0 -50 700 800 1000 3f800000
materialize_metrics 0000000000010000000000080002001c6861736300000000686473630001000000010000000c0001000000100000000100010000000100000a0b 4 0 1 44480000,43480000,42b40000,43fa0000,43fa0000,00000000,442f0000,43e10000,44000000,44898000,c2c80000,43960000,42480000
materialize_metrics 0000000000010000000000080002001c6861736300000000686473630001000000010000000c0001000000100000000100010000000100000a0b 4 - 1 44480000,43480000,42b40000,43fa0000,43fa0000,00000000,442f0000,43e10000,44000000,44898000,c2c80000,43960000,42480000
materialize_metrics 0000000000010000000000080002001c6861736300000000686473630001000000010000000c0001000000100000000100020000000100000a0b 4 0 1 44480000,43480000,42b40000,43fa0000,43fa0000,00000000,442f0000,43e10000,44000000,44898000,c2c80000,43960000,42480000
materialize_metrics 0000000000010000000000080002001c6861736300000000686473630001000000010000000c0001000000100000000100000000000100000a0b 4 0 1 44480000,43480000,42b40000,43fa0000,43fa0000,00000000,442f0000,43e10000,44000000,44898000,c2c80000,43960000,42480000
advance_height 0000000000010000000000080002001c6861736300000000686473630001000000010000000c0001000000100000000100010000000100000a0b 00000002,00000004,447a0000,44480000 0 0 0 3f800000
tsb 0000000000010000000000080002001c6861736300000000686473630001000000010000000c0001000000100000000100010000000100000a0b 00000002,00000004,447a0000,44480000 0 0 7 3f800000
vertical_origin 0000000000010000000000080002001c6861736300000000686473630001000000010000000c0001000000100000000100010000000100000a0b 00000002,00000004,447a0000,44480000 0 0 0 - - 1000 3f800000
advance_height 0000000000010000000000080002001c6861736300010000686473630000000000010000000c0001000000100000000100010000000100000a0b 00000002,00000004,447a0000,44480000 0 0 0 3f800000
tsb 0000000000010000000000080002001c6861736300010000686473630000000000010000000c0001000000100000000100010000000100000a0b 00000002,00000004,447a0000,44480000 0 0 7 3f800000
vertical_origin 0000000000010000000000080002001c6861736300010000686473630000000000010000000c0001000000100000000100010000000100000a0b 00000002,00000004,447a0000,44480000 0 0 0 - - 1000 3f800000
";

/// A spread of `count` lines of item counts for a stored sample.
pub fn sample_of_counts(seed: u64, count: usize) -> Vec<String> {
    let mut lines: Vec<String> = LISTED_OF_COUNTS.lines().map(str::to_string).collect();
    let rest = count - lines.len();
    let short = |line: &String| line.len() <= SHORT;
    lines.extend(counts(seed).filter(short).take(rest));
    lines
}
