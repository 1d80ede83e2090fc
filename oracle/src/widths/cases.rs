//! Cases of hmtx, vmtx and VORG and of what is made of their numbers: tables of every small shape, cut around
//! what is read, offsets around the font's end and 2^32, the store's fonts with such tables before, behind
//! and across them, and random ones.

use super::*;
use crate::metrics::cases::{
    bits_text, float, moved, mvar_fonts, ordinate, tags, units, MvarFont, ADVANCES, BEARINGS,
    FLOATS, LISTS,
};
use crate::random::Random;
use crate::store;
use crate::store::cases::{coords_text, counts};

const TOP: usize = 1 << 32;

/// How far behind the table's start the two bytes are that are read. Without a long record none are.
fn reach(advances: bool, count: u16, glyph: u16) -> usize {
    let (count, glyph) = (count as usize, glyph as usize);
    match (advances, count) {
        (_, 0) => 0,
        (true, _) => 4 * glyph.min(count - 1),
        (false, _) if glyph < count => 4 * glyph + 2,
        (false, _) => 4 * count + 2 * (glyph - count),
    }
}

fn any_bytes(count: u64, random: &mut Random) -> Vec<u8> {
    (0..count).map(|_| random.below(256) as u8).collect()
}

/// Numbers of two bytes: at a limit, of an ordinary size, or any.
fn numbers(count: u64, random: &mut Random) -> Vec<u8> {
    let number = |random: &mut Random| match random.below(4) {
        0 => random.pick(&[0, 1, 0x7fff, 0x8000, 0x8001, 0xffff]),
        1 => random.magnitude(12) as u16,
        _ => random.bits() as u16,
    };
    (0..count)
        .flat_map(|_| number(random).to_be_bytes())
        .collect()
}

/// A record of a VORG: a glyph and its origin.
type Record = (u16, i16);

/// A VORG, the count being any.
fn vorg_bytes(default: i16, count: u16, records: &[Record]) -> Vec<u8> {
    let mut bytes = vec![0, 1, 0, 0];
    bytes.extend(default.to_be_bytes());
    bytes.extend(count.to_be_bytes());
    for (glyph, origin) in records {
        bytes.extend(glyph.to_be_bytes());
        bytes.extend(origin.to_be_bytes());
    }
    bytes
}

fn sorted<T: Ord>(mut list: Vec<T>) -> Vec<T> {
    list.sort();
    list.dedup();
    list
}

/// Fonts, each at some lengths, with questions: a name and what stands behind the font.
#[derive(Default)]
struct Asked {
    fonts: Vec<Vec<u8>>,
    questions: Vec<(&'static str, String)>,
    /// a font, a length, a question
    all: Vec<(u32, u32, u32)>,
}

impl Asked {
    /// What is asked next is asked of this font.
    fn font(&mut self, font: Vec<u8>) {
        self.fonts.push(font);
    }

    /// At those of the lengths that the font has, and as it is.
    fn ask(&mut self, name: &'static str, rest: String, lengths: std::ops::Range<usize>) {
        let font = self.fonts.len() - 1;
        let whole = self.fonts[font].len();
        let question = self.questions.len() as u32;
        self.questions.push((name, rest));
        let cut = lengths.filter(|length| *length < whole);
        let lengths = cut.chain([whole]);
        self.all
            .extend(lengths.map(|length| (font as u32, length as u32, question)));
    }

    fn nth(&self, n: usize) -> String {
        let (font, length, question) = self.all[n];
        let font = &self.fonts[font as usize][..length as usize];
        let (name, rest) = &self.questions[question as usize];
        line(name, font, rest)
    }
}

fn line(name: &str, font: &[u8], rest: &str) -> String {
    format!("{name} {}{rest}", text::bytes_text(font.iter().copied()))
}

/// From three bytes before the two bytes at p to two behind them.
fn around(p: usize) -> std::ops::Range<usize> {
    p.saturating_sub(3)..p + 5
}

/// Tables of one to 257 long records and none to four bearings alone, with counts that are right and wrong,
/// for glyphs on both sides of them.
fn xmtx_readings(asked: &mut Asked, random: &mut Random) {
    let shapes: [(u16, u16); 8] = [
        (1, 0),
        (1, 2),
        (2, 0),
        (2, 3),
        (3, 1),
        (5, 4),
        (40, 3),
        (257, 2),
    ];
    for (longs, alone) in shapes {
        for start in [1, 4] {
            let table = numbers((2 * longs + alone).into(), random);
            asked.font([any_bytes(start, random), table, any_bytes(3, random)].concat());
            let limits = [0, 1, 255, 256, 32768, 65535];
            let near = [longs - 1, longs, longs + 1, longs + 2];
            for count in sorted([&limits[..], &near].concat()) {
                let mut glyphs = vec![0, 1, 2, 255, 256, 257, 65534, 65535];
                for limit in [count, longs, longs + alone] {
                    glyphs.extend([limit.saturating_sub(2), limit.saturating_sub(1), limit]);
                    glyphs.extend([limit.saturating_add(1), limit.saturating_add(2)]);
                }
                for glyph in sorted(glyphs) {
                    for (name, advances) in [(XMTX_ADVANCE, true), (XMTX_SB, false)] {
                        let p = start as usize + reach(advances, count, glyph);
                        asked.ask(name, format!(" {start} {count} {glyph}"), around(p));
                    }
                }
            }
        }
    }
}

/// Offsets at which what is read lies around the font's end, and around 2^32, behind which a sum of 32 bits
/// would be in the font again.
fn xmtx_offsets(asked: &mut Asked, random: &mut Random) {
    let font = [any_bytes(4, random), numbers(6, random)].concat();
    let length = font.len();
    asked.font(font);
    for count in [0, 1, 2, 3, 65535] {
        for glyph in [0, 1, 2, 3, 4, 65534, 65535] {
            for (name, advances) in [(XMTX_ADVANCE, true), (XMTX_SB, false)] {
                let reach = reach(advances, count, glyph);
                let mut offsets: Vec<usize> = (0..length + 3).collect();
                offsets.extend([1 << 31, TOP - 4, TOP - 3, TOP - 2, TOP - 1]);
                offsets.extend((length.saturating_sub(reach + 4)..length + 2).take(8));
                offsets.extend(TOP - reach - 3..TOP - reach + 10);
                offsets.retain(|offset| *offset < TOP);
                for offset in sorted(offsets) {
                    asked.ask(name, format!(" {offset} {count} {glyph}"), 0..0);
                }
            }
        }
    }
}

/// Tables nearly as large as a line may have them.
fn large_tables(asked: &mut Asked, random: &mut Random) {
    asked.font([any_bytes(4, random), numbers(16_010, random)].concat());
    for (count, glyph) in [
        (8000, 7998),
        (8000, 7999),
        (8000, 8000),
        (8000, 8009),
        (8000, 8010),
        (8000, 65535),
        (1, 16_006),
        (1, 16_008),
        (1, 16_009),
        (256, 15_497),
    ] {
        for name in [XMTX_ADVANCE, XMTX_SB] {
            asked.ask(name, format!(" 4 {count} {glyph}"), 0..0);
        }
    }
    let records: Vec<Record> = (0..8000)
        .map(|k| (8 * k + 5, random.bits() as i16))
        .collect();
    asked.font([any_bytes(4, random), vorg_bytes(-7, 8000, &records)].concat());
    for glyph in [0, 4, 5, 6, 31_997, 32_005, 32_006, 63_997, 63_998, 65_535] {
        asked.ask(VORG_ORIGIN, format!(" 4 {glyph}"), 0..0);
    }
}

/// Glyphs of so many records: apart from each other, from end to end, in a row, turned around, turned from the
/// middle, two swapped, all the same, two and two the same.
fn glyph_lists(count: u16) -> Vec<Vec<u16>> {
    let list = |glyph: &dyn Fn(u16) -> u16| (0..count).map(glyph).collect::<Vec<u16>>();
    let apart = list(&|k| 10 * k + 10);
    let last = count.max(2) as u32 - 1;
    let mut turned = apart.clone();
    turned.reverse();
    let mut from_middle = apart.clone();
    from_middle.rotate_left(count as usize / 2);
    let mut swapped = apart.clone();
    if let Some(middle) = (count as usize / 2).checked_sub(1) {
        swapped.swap(middle, middle + 1);
    }
    let lists = vec![
        apart,
        list(&|k| (k as u32 * 65535 / last) as u16),
        list(&|k| k + 5),
        turned,
        from_middle,
        swapped,
        list(&|_| 7),
        list(&|k| k / 2 * 10 + 10),
    ];
    sorted(lists)
}

/// VORGs of none to 300 records, in order and not, with counts that are right and wrong, for the records'
/// glyphs and their neighbours; the small ones are cut at every byte.
fn vorg_readings(asked: &mut Asked, random: &mut Random) {
    for count in [0u16, 1, 2, 3, 4, 5, 8, 40, 300] {
        for (k, glyphs) in glyph_lists(count).into_iter().enumerate() {
            let records: Vec<Record> = glyphs
                .iter()
                .map(|glyph| (*glyph, random.bits() as i16))
                .collect();
            let mut of = vec![0, 65535];
            let ends = glyphs.len().saturating_sub(2);
            let middle = glyphs.len() / 2;
            for (i, glyph) in glyphs.iter().enumerate() {
                if count <= 8 || i < 2 || i >= ends || i == middle {
                    of.extend([glyph.saturating_sub(1), *glyph, glyph.saturating_add(1)]);
                }
            }
            let of = sorted(of);
            let start = 1 + 3 * (k % 2);
            let counts = [
                0,
                count.saturating_sub(1),
                count,
                count + 1,
                count + 4,
                65535,
            ];
            for said in sorted(counts.to_vec()) {
                let default = random.bits() as i16;
                let vorg = vorg_bytes(default, said, &records);
                asked.font([any_bytes(start as u64, random), vorg].concat());
                let lengths = match said == count || said == count + 1 {
                    true if count <= 8 => 0..start + 8 + 4 * count as usize,
                    _ => start + 3..start + 10,
                };
                for glyph in &of {
                    asked.ask(VORG_ORIGIN, format!(" {start} {glyph}"), lengths.clone());
                }
            }
        }
    }
}

/// Offsets at which a VORG, its header or its records lie around the font's end and around 2^32.
fn vorg_offsets(asked: &mut Asked, random: &mut Random) {
    let vorg = vorg_bytes(-321, 3, &[(2, 100), (5, -200), (9, 300)]);
    let font = [any_bytes(4, random), vorg].concat();
    let length = font.len();
    asked.font(font);
    let mut offsets: Vec<usize> = (0..length + 3).collect();
    offsets.push(1 << 31);
    offsets.extend(TOP - 24..TOP);
    for offset in offsets {
        for glyph in [0, 2, 4, 5, 9, 65535] {
            asked.ask(VORG_ORIGIN, format!(" {offset} {glyph}"), 0..0);
        }
    }
}

/// Every scale with advances, bearings, origins and yMax at their limits, and with what is synthesized,
/// without a table that varies them.
fn scales(asked: &mut Asked) {
    let numbers = ADVANCES.into_iter().zip(BEARINGS);
    for (k, (advance, bearing)) in numbers.enumerate() {
        // one long record, then a VORG without one
        let mut font = vec![0xaa; 4];
        font.extend(advance.to_be_bytes());
        font.extend(bearing.to_be_bytes());
        font.extend(vorg_bytes(bearing, 0, &[]));
        asked.font(font);
        for (i, scale) in FLOATS.into_iter().enumerate() {
            let mut ask = |name, rest: String| {
                asked.ask(name, format!(" {rest} {scale:08x}"), 0..0);
            };
            let (level, glyf) = (bits_text([4, 1, 0]), bits_text([0, 1, 4, 0]));
            let vorg = bits_text([1, 1, 4, 0, 8]);
            for name in [ADJUSTED_ADVANCE, ADJUSTED_SB] {
                ask(name, "4 1 0 0 -".to_string());
            }
            for name in [READ_WIDTH, READ_LSB] {
                ask(name, format!("{level} 0 -"));
            }
            for upright in [&glyf, &vorg] {
                for name in [READ_HEIGHT, READ_TSB] {
                    ask(name, format!("{upright} 0 -"));
                }
                for y_max in ["-", "0", "32767", "-32768"] {
                    ask(READ_ORIGIN, format!("{upright} 0 - {y_max} {advance}"));
                }
            }
            let made = FLOATS[(i + 7 * k) % FLOATS.len()];
            let made = bits_text([2, 0, made, made.rotate_left(1)]);
            for name in [READ_HEIGHT, READ_TSB] {
                ask(name, format!("{made} 0 16384"));
            }
            ask(READ_ORIGIN, format!("{made} 0 16384 7 7"));
        }
    }
}

/// A font, and where its tables are; an offset of 0 is that of none.
struct Made {
    font: Vec<u8>,
    xvar: u32,
    xmtx: u32,
    vorg: u32,
}

impl Made {
    fn of(font: Vec<u8>) -> Self {
        Made {
            font,
            xvar: 0,
            xmtx: 0,
            vorg: 0,
        }
    }

    /// Puts a table before all that is there, or behind it. Or else takes what is there for the table, from any
    /// place on.
    fn put(&mut self, table: Vec<u8>, reach: usize, random: &mut Random) -> u32 {
        match random.below(5) {
            0 | 1 => {
                let before = any_bytes(1 + random.below(4), random);
                let shift = (before.len() + table.len()) as u32;
                for offset in [&mut self.xvar, &mut self.xmtx, &mut self.vorg] {
                    if *offset != 0 {
                        *offset = offset.checked_add(shift).unwrap_or(*offset);
                    }
                }
                let start = before.len() as u32;
                self.font = [before, table, self.font.split_off(0)].concat();
                start
            }
            2 | 3 => {
                let start = self.font.len() as u32;
                self.font.extend(table);
                start
            }
            _ => {
                let p = random.below(self.font.len() as u64 + 1) as usize;
                p.checked_sub(reach).unwrap_or(p) as u32
            }
        }
    }

    /// Puts an hmtx or a vmtx, mostly one that has what is read.
    fn put_xmtx(&mut self, advances: bool, count: u16, glyph: u16, random: &mut Random) {
        let reach = reach(advances, count, glyph);
        let size = match reach {
            0..=400 => reach as u64 / 2 + 1 + random.below(4),
            _ => random.below(20),
        };
        let table = numbers(size, random);
        let offset = self.put(table, reach, random);
        self.xmtx = self.offset(offset, reach, random);
    }

    /// Puts a VORG, mostly one that has the glyph, or its neighbours.
    fn put_vorg(&mut self, glyph: u16, random: &mut Random) {
        let (table, _) = random_vorg(Some(glyph), random);
        let offset = self.put(table, 0, random);
        self.vorg = self.offset(offset, 6, random);
    }

    /// Mostly as it is; else 0, or one at which what is read lies around the font's end or 2^32.
    fn offset(&self, right: u32, reach: usize, random: &mut Random) -> u32 {
        let length = self.font.len();
        match random.below(32) {
            0 => 0,
            1 => (length + 2).saturating_sub(reach + random.below(6) as usize) as u32,
            2 => (TOP - reach + random.below(12) as usize).min(TOP - 1 - random.below(4) as usize)
                as u32,
            _ => right,
        }
    }

    /// Every fifth ends around the two bytes at p, if it goes on to there.
    fn cut(&mut self, p: usize, random: &mut Random) {
        if random.below(5) == 0 {
            let length = p.saturating_sub(3) + random.below(8) as usize;
            self.font.truncate(length);
        }
    }
}

/// A count of long records for a glyph: mostly with the glyph next to the last one, where a font can have as
/// many.
fn count_for(glyph: u16, random: &mut Random) -> u16 {
    match random.below(16) {
        0 => 0,
        1 => 65535,
        2 => random.bits() as u16,
        3..=12 if glyph > 400 && random.below(4) > 0 => 1 + random.below(4) as u16,
        3..=5 => glyph.max(1),
        6..=8 => glyph.saturating_add(1),
        9 => glyph.saturating_sub(1).max(1),
        10 => glyph.saturating_add(2 + random.below(3) as u16),
        _ => 1 + random.below(4) as u16,
    }
}

/// A VORG, and the glyphs of its records. With a glyph, most have it or what is next to it.
fn random_vorg(glyph: Option<u16>, random: &mut Random) -> (Vec<u8>, Vec<u16>) {
    let count = match random.below(8) {
        0 => 0,
        1 => 1,
        2 => 2,
        3 => random.below(60),
        _ => 1 + random.below(8),
    };
    let from = match random.below(4) {
        0 => 0,
        1 => 65535u16.saturating_sub(2 * count as u16),
        _ => random.magnitude(16) as u16,
    };
    let mut glyphs: Vec<u16> = (0..count)
        .map(|_| match random.below(8) {
            0 => random.bits() as u16,
            _ => from.saturating_add(random.below(3 * count) as u16),
        })
        .collect();
    if let Some(glyph) = glyph.filter(|_| count > 0) {
        let near = [
            glyph,
            glyph,
            glyph.saturating_add(1),
            glyph.saturating_sub(1),
        ];
        let at = random.below(count) as usize;
        glyphs[at] = random.pick(&near);
    }
    if random.below(4) > 0 {
        glyphs.sort();
    }
    if random.below(2) > 0 {
        glyphs.dedup();
    }
    let records: Vec<Record> = glyphs
        .iter()
        .map(|glyph| {
            let origin = numbers(1, random);
            (*glyph, i16::from_be_bytes([origin[0], origin[1]]))
        })
        .collect();
    let there = records.len() as u16;
    let said = match random.below(8) {
        0 => there + 1 + random.below(3) as u16,
        1 => there.saturating_sub(1),
        2 => random.pick(&[0, 65535, 256, there]),
        _ => there,
    };
    (vorg_bytes(random.bits() as i16, said, &records), glyphs)
}

/// A bare VORG's case. Every third font is cut: in the header, around the record that is asked for, or anywhere.
fn random_origin(random: &mut Random) -> String {
    let (table, glyphs) = random_vorg(None, random);
    let start = 1 + random.below(5);
    let mut font = [any_bytes(start, random), table].concat();
    if random.below(3) == 0 {
        font.extend(any_bytes(random.below(6), random));
    }
    let mut made = Made::of(font);
    made.vorg = made.offset(start as u32, 6, random);
    let record = random.below(glyphs.len().max(1) as u64);
    let glyph = match glyphs.get(record as usize) {
        Some(glyph) => match random.below(6) {
            0 => glyph.saturating_sub(1),
            1 => glyph.saturating_add(1),
            2 => random.pick(&[0, 1, 255, 32768, 65534, 65535]),
            _ => *glyph,
        },
        None => random.bits() as u16,
    };
    if random.below(3) == 0 {
        let length = match random.below(4) {
            0 => 3 + random.below(7),
            1 | 2 => 7 + 4 * record + random.below(6),
            _ => random.below(8 + 4 * glyphs.len() as u64),
        };
        made.font.truncate((start + length) as usize);
    }
    line(VORG_ORIGIN, &made.font, &format!(" {} {glyph}", made.vorg))
}

/// A bare hmtx's case.
fn random_reading(random: &mut Random) -> String {
    let glyph = match random.below(8) {
        0 => random.bits() as u16,
        1 => random.pick(&[65535, 65534, 255, 256]),
        _ => random.magnitude(6) as u16,
    };
    let count = count_for(glyph, random);
    let advances = random.below(2) == 0;
    let mut made = Made::of(any_bytes(1 + random.below(6), random));
    made.put_xmtx(advances, count, glyph, random);
    made.cut(made.xmtx as usize + reach(advances, count, glyph), random);
    let name = if advances { XMTX_ADVANCE } else { XMTX_SB };
    line(name, &made.font, &format!(" {} {count} {glyph}", made.xmtx))
}

/// A function of an HVAR or VVAR with an hmtx or a vmtx, and perhaps a VORG, put before, behind or across it.
fn of_glyph(
    advances: bool,
    font: &str,
    base: &str,
    glyph: &str,
    coords: &str,
    random: &mut Random,
) -> String {
    let glyph: u16 = glyph.parse().unwrap_or(0);
    let name = match (advances, random.below(8)) {
        (true, 0..=3) => ADJUSTED_ADVANCE,
        (true, 4..=5) => READ_WIDTH,
        (true, _) => READ_HEIGHT,
        (false, 0..=3) => ADJUSTED_SB,
        (false, 4) => READ_LSB,
        (false, 5) => READ_TSB,
        (false, _) => READ_ORIGIN,
    };
    let mut made = Made::of(text::bytes(font).unwrap_or_default());
    made.xvar = base.parse().unwrap_or(0);
    let count = count_for(glyph, random);
    let with_vorg = random.below(2) == 0;
    made.put_xmtx(advances, count, glyph, random);
    if random.below(16) == 0 {
        made.xvar = 0;
    }
    let upright = matches!(name, READ_HEIGHT | READ_TSB | READ_ORIGIN);
    if upright && with_vorg {
        made.put_vorg(glyph, random);
    }
    // an origin by VORG does not ask for vmtx
    let p = match name == READ_ORIGIN && with_vorg {
        true => made.vorg as usize + 4 + 2 * random.below(8) as usize,
        false => made.xmtx as usize + reach(advances, count, glyph),
    };
    made.cut(p, random);
    let (xmtx, long, xvar) = (made.xmtx, count as u32, made.xvar);
    let tables = match name {
        ADJUSTED_ADVANCE | ADJUSTED_SB => format!("{xmtx} {count} {xvar}"),
        READ_WIDTH | READ_LSB => bits_text([xmtx, long, xvar]),
        _ if with_vorg => bits_text([1, long, xmtx, xvar, made.vorg]),
        _ => bits_text([0, long, xmtx, xvar]),
    };
    let rest = of_origin(name, random);
    let scale = float(random);
    let rest = format!(" {tables} {glyph} {coords}{rest} {scale:08x}");
    line(name, &made.font, &rest)
}

/// The two words that an origin has more.
fn of_origin(name: &str, random: &mut Random) -> String {
    match name {
        READ_ORIGIN => format!(" {} {}", ordinate(random), units(random)),
        _ => String::new(),
    }
}

/// A function of what is synthesized, over an MVAR.
fn synthesized(name: &str, font: &str, mvar: u32, coords: &str, random: &mut Random) -> String {
    let upright = bits_text([2, mvar, float(random), float(random)]);
    let glyph = random.bits() as u16;
    let rest = of_origin(name, random);
    let scale = float(random);
    format!("{name} {font} {upright} {glyph} {coords}{rest} {scale:08x}")
}

const UPRIGHT_NAMES: [&str; 3] = [READ_HEIGHT, READ_TSB, READ_ORIGIN];

/// A case of the store as one of a width, over the same font.
fn of_store(line: &str, random: &mut Random) -> String {
    let words: Vec<&str> = line.split(' ').collect();
    match words[..] {
        [name @ ("advance_delta" | "sb_delta"), font, base, glyph, coords] => {
            let advances = name == "advance_delta";
            of_glyph(advances, font, base, glyph, coords, random)
        }
        ["mvar_delta", font, offset, _, coords] => {
            let (font, mvar) = moved(font, offset, random);
            let name = random.pick(&UPRIGHT_NAMES);
            synthesized(name, &font, mvar, coords, random)
        }
        _ => unreachable!(),
    }
}

enum Edge {
    Asked(usize),
    /// a font, a list, a name
    Mvar(usize, usize, usize),
    Store(u64),
}

struct Edges {
    asked: Asked,
    mvars: Vec<MvarFont>,
    store: store::cases::Edges,
    all: Vec<Edge>,
}

impl Edges {
    fn new() -> Self {
        let mut asked = Asked::default();
        // the tables' numbers are random, but the same for all seeds
        let random = &mut Random::new(0);
        xmtx_readings(&mut asked, random);
        xmtx_offsets(&mut asked, random);
        large_tables(&mut asked, random);
        vorg_readings(&mut asked, random);
        vorg_offsets(&mut asked, random);
        scales(&mut asked);
        let mvars = mvar_fonts();
        let store = store::cases::Edges::of_questions(&["advance_delta", "sb_delta"]);
        let mut all: Vec<Edge> = (0..asked.all.len()).map(Edge::Asked).collect();
        for k in 0..mvars.len() {
            for list in 0..LISTS.len() {
                let names = 0..UPRIGHT_NAMES.len();
                all.extend(names.map(|name| Edge::Mvar(k, list, name)));
            }
        }
        all.extend((0..store.len()).map(Edge::Store));
        Edges {
            asked,
            mvars,
            store,
            all,
        }
    }

    /// The numbers that an edge leaves open are random, but the same for all seeds.
    fn nth(&self, n: u64) -> String {
        let random = &mut Random::new(n);
        match self.all[n as usize] {
            Edge::Asked(k) => self.asked.nth(k),
            Edge::Mvar(k, list, name) => {
                let MvarFont { font, offset, .. } = &self.mvars[k];
                let font = text::bytes_text(font.iter().copied());
                let coords = coords_text(LISTS[list]);
                synthesized(UPRIGHT_NAMES[name], &font, *offset, &coords, random)
            }
            Edge::Store(k) => of_store(&self.store.nth(k), random),
        }
    }
}

fn random_case(random: &mut Random) -> String {
    let line = match random.below(16) {
        0..=2 => return random_reading(random),
        3..=5 => return random_origin(random),
        6 => store::cases::mvar_case("mvar_delta", &tags(), random),
        n if n % 2 == 0 => store::cases::glyph_case("sb_delta", random),
        _ => store::cases::glyph_case("advance_delta", random),
    };
    of_store(&line, random)
}

/// Cases without end: one of the edges, then a random one, and so on. The edges come in an order that
/// mixes them; once they are used up all are random.
struct Cases {
    edges: Edges,
    made: u64,
    random: Random,
}

impl Cases {
    fn new(seed: u64) -> Self {
        Cases {
            edges: Edges::new(),
            made: 0,
            random: Random::new(seed ^ 0x786d_7478),
        }
    }
}

impl Iterator for Cases {
    type Item = String;

    fn next(&mut self) -> Option<String> {
        // a prime that is larger than the number of edges: each is met once
        const STRIDE: u64 = 1_000_000_007;
        let edges = self.edges.all.len() as u64;
        let (turn, odd) = (self.made / 2, self.made % 2 == 1);
        self.made += 1;
        if odd || turn >= edges {
            Some(random_case(&mut self.random))
        } else {
            Some(self.edges.nth(turn * STRIDE % edges))
        }
    }
}

/// The store's cases of item counts, each behind a width.
fn of_counts(seed: u64) -> impl Iterator<Item = String> {
    let mut random = Random::new(seed ^ 0x7863_6f75);
    let floats = |line: &String| {
        let name = line.split(' ').next();
        matches!(name, Some("advance_delta" | "sb_delta" | "mvar_delta"))
    };
    let lines = counts::cases(seed ^ 0x7863_6f75).filter(floats);
    lines.map(move |line| of_store(&line, &mut random))
}

/// Every fourth case is one of item counts.
pub fn with_counts(seed: u64) -> impl Iterator<Item = String> {
    let mut others = Cases::new(seed);
    let mut counts = of_counts(seed);
    (0..).map_while(move |turn: u64| match turn % 4 {
        3 => counts.next(),
        _ => others.next(),
    })
}

/// Each small edge, and the inputs where a wrong order, sign or place shows.
pub const LISTED: &str = "\
xmtx_advance aaaaaaaa01f40032fde8ffce00078000 4 2 0
xmtx_advance aaaaaaaa01f40032fde8ffce00078000 4 2 1
xmtx_advance aaaaaaaa01f40032fde8ffce00078000 4 2 2
xmtx_advance aaaaaaaa01f40032fde8ffce00078000 4 2 3
xmtx_advance aaaaaaaa01f40032fde8ffce00078000 4 2 65535
xmtx_advance aaaaaaaa01f40032fde8ffce00078000 4 1 0
xmtx_advance aaaaaaaa01f40032fde8ffce00078000 4 1 1
xmtx_advance aaaaaaaa01f40032fde8ffce00078000 4 1 65535
xmtx_advance aaaaaaaa01f40032fde8ffce00078000 4 3 2
xmtx_advance aaaaaaaa01f40032fde8ffce00078000 4 3 3
xmtx_advance aaaaaaaa01f40032fde8ffce00078000 4 4 3
xmtx_advance aaaaaaaa01f40032fde8ffce00078000 4 65535 0
xmtx_advance aaaaaaaa01f40032fde8ffce00078000 4 65535 2
xmtx_advance aaaaaaaa01f40032fde8ffce00078000 4 65535 65534
xmtx_advance aaaaaaaa01f40032fde8ffce00078000 4 65535 65535
xmtx_sb aaaaaaaa01f40032fde8ffce00078000 4 2 0
xmtx_sb aaaaaaaa01f40032fde8ffce00078000 4 2 1
xmtx_sb aaaaaaaa01f40032fde8ffce00078000 4 2 2
xmtx_sb aaaaaaaa01f40032fde8ffce00078000 4 2 3
xmtx_sb aaaaaaaa01f40032fde8ffce00078000 4 2 4
xmtx_sb aaaaaaaa01f40032fde8ffce00078000 4 1 0
xmtx_sb aaaaaaaa01f40032fde8ffce00078000 4 1 1
xmtx_sb aaaaaaaa01f40032fde8ffce00078000 4 1 2
xmtx_sb aaaaaaaa01f40032fde8ffce00078000 4 1 4
xmtx_sb aaaaaaaa01f40032fde8ffce00078000 4 1 5
xmtx_sb aaaaaaaa01f40032fde8ffce00078000 4 3 2
xmtx_sb aaaaaaaa01f40032fde8ffce00078000 4 3 3
xmtx_sb aaaaaaaa01f40032fde8ffce00078000 4 65535 0
xmtx_sb aaaaaaaa01f40032fde8ffce00078000 4 65535 1
xmtx_sb aaaaaaaa01f40032fde8ffce00078000 4 65535 65534
xmtx_sb aaaaaaaa01f40032fde8ffce00078000 4 65535 65535
xmtx_sb aaaaaaaa01f40032fde8ffce00078000 4 2 65535
xmtx_advance - 0 0 0
xmtx_advance - 4 0 0
xmtx_advance aaaaaaaa01f40032fde8ffce00078000 0 0 0
xmtx_advance aaaaaaaa01f40032fde8ffce00078000 4 0 0
xmtx_advance aaaaaaaa01f40032fde8ffce00078000 4 0 65535
xmtx_advance aaaaaaaa01f40032fde8ffce00078000 17 0 1
xmtx_advance - 0 1 0
xmtx_advance aaaaaaaa01f40032fde8ffce00078000 0 1 0
xmtx_advance aaaaaaaa01f40032fde8ffce00078000 0 65535 65535
xmtx_advance - 1 1 0
xmtx_advance - 4294967295 1 0
xmtx_sb - 0 0 0
xmtx_sb - 4 0 0
xmtx_sb aaaaaaaa01f40032fde8ffce00078000 0 0 0
xmtx_sb aaaaaaaa01f40032fde8ffce00078000 4 0 0
xmtx_sb aaaaaaaa01f40032fde8ffce00078000 4 0 65535
xmtx_sb aaaaaaaa01f40032fde8ffce00078000 17 0 1
xmtx_sb - 0 1 0
xmtx_sb aaaaaaaa01f40032fde8ffce00078000 0 1 0
xmtx_sb aaaaaaaa01f40032fde8ffce00078000 0 65535 65535
xmtx_sb - 1 1 0
xmtx_sb - 4294967295 1 0
xmtx_advance aaaaaaaa01 4 2 1
xmtx_advance aaaaaaaa01f4 4 2 1
xmtx_advance aaaaaaaa01f400 4 2 1
xmtx_advance aaaaaaaa01f40032 4 2 1
xmtx_advance aaaaaaaa01f40032fd 4 2 1
xmtx_advance aaaaaaaa01f40032fde8 4 2 1
xmtx_advance aaaaaaaa01f40032fde8ff 4 2 1
xmtx_advance aaaaaaaa01f40032fde8ffce 4 2 1
xmtx_sb aaaaaaaa01f400 4 2 1
xmtx_sb aaaaaaaa01f40032 4 2 1
xmtx_sb aaaaaaaa01f40032fd 4 2 1
xmtx_sb aaaaaaaa01f40032fde8 4 2 1
xmtx_sb aaaaaaaa01f40032fde8ff 4 2 1
xmtx_sb aaaaaaaa01f40032fde8ffce 4 2 1
xmtx_sb aaaaaaaa01f40032fde8ffce00 4 2 1
xmtx_sb aaaaaaaa01f40032fde8ffce0007 4 2 1
xmtx_sb aaaaaaaa01f40032fd 4 2 2
xmtx_sb aaaaaaaa01f40032fde8 4 2 2
xmtx_sb aaaaaaaa01f40032fde8ff 4 2 2
xmtx_sb aaaaaaaa01f40032fde8ffce 4 2 2
xmtx_sb aaaaaaaa01f40032fde8ffce00 4 2 2
xmtx_sb aaaaaaaa01f40032fde8ffce0007 4 2 2
xmtx_sb aaaaaaaa01f40032fde8ffce000780 4 2 2
xmtx_advance aaaaaaaa01f40032fde8ffce00078000 1 1 0
xmtx_advance aaaaaaaa01f40032fde8ffce00078000 2 1 0
xmtx_advance aaaaaaaa01f40032fde8ffce00078000 13 1 0
xmtx_advance aaaaaaaa01f40032fde8ffce00078000 14 1 0
xmtx_advance aaaaaaaa01f40032fde8ffce00078000 15 1 0
xmtx_advance aaaaaaaa01f40032fde8ffce00078000 16 1 0
xmtx_advance aaaaaaaa01f40032fde8ffce00078000 17 1 0
xmtx_advance aaaaaaaa01f40032fde8ffce00078000 2147483648 1 0
xmtx_advance aaaaaaaa01f40032fde8ffce00078000 4294967292 1 0
xmtx_advance aaaaaaaa01f40032fde8ffce00078000 4294967295 1 0
xmtx_sb aaaaaaaa01f40032fde8ffce00078000 10 1 0
xmtx_sb aaaaaaaa01f40032fde8ffce00078000 11 1 0
xmtx_sb aaaaaaaa01f40032fde8ffce00078000 12 1 0
xmtx_sb aaaaaaaa01f40032fde8ffce00078000 13 1 0
xmtx_sb aaaaaaaa01f40032fde8ffce00078000 14 1 0
xmtx_sb aaaaaaaa01f40032fde8ffce00078000 4294967294 1 0
xmtx_advance aaaaaaaa01f40032fde8ffce00078000 4294967292 2 1
xmtx_advance aaaaaaaa01f40032fde8ffce00078000 4294705164 65535 65535
xmtx_sb aaaaaaaa01f40032fde8ffce00078000 4294967290 2 1
xmtx_sb aaaaaaaa01f40032fde8ffce00078000 4294836228 1 65535
xmtx_advance aaaaaaaa00000000 4 1 0
xmtx_sb aaaaaaaa00000000 4 1 0
xmtx_advance aaaaaaaa7fff7fff 4 1 0
xmtx_sb aaaaaaaa7fff7fff 4 1 0
xmtx_advance aaaaaaaa80008000 4 1 0
xmtx_sb aaaaaaaa80008000 4 1 0
xmtx_advance aaaaaaaaffffffff 4 1 0
xmtx_sb aaaaaaaaffffffff 4 1 0
xmtx_advance aaaaaaaa00010001 4 1 0
xmtx_sb aaaaaaaa00010001 4 1 0
xmtx_advance aaaaaaaa00ffff00 4 1 0
xmtx_sb aaaaaaaa00ffff00 4 1 0
vorg_origin aaaaaaaa000100000370000400050064000aff3800147fff001e8000 4 0
vorg_origin aaaaaaaa000100000370000400050064000aff3800147fff001e8000 4 4
vorg_origin aaaaaaaa000100000370000400050064000aff3800147fff001e8000 4 5
vorg_origin aaaaaaaa000100000370000400050064000aff3800147fff001e8000 4 6
vorg_origin aaaaaaaa000100000370000400050064000aff3800147fff001e8000 4 10
vorg_origin aaaaaaaa000100000370000400050064000aff3800147fff001e8000 4 11
vorg_origin aaaaaaaa000100000370000400050064000aff3800147fff001e8000 4 20
vorg_origin aaaaaaaa000100000370000400050064000aff3800147fff001e8000 4 25
vorg_origin aaaaaaaa000100000370000400050064000aff3800147fff001e8000 4 30
vorg_origin aaaaaaaa000100000370000400050064000aff3800147fff001e8000 4 31
vorg_origin aaaaaaaa000100000370000400050064000aff3800147fff001e8000 4 65535
vorg_origin aaaaaaaa00010000ff880000 4 0
vorg_origin aaaaaaaa00010000ff880000 4 7
vorg_origin aaaaaaaa00010000ff880000 4 65535
vorg_origin aaaaaaaa00010000037000010007fff7 4 6
vorg_origin aaaaaaaa00010000037000010007fff7 4 7
vorg_origin aaaaaaaa00010000037000010007fff7 4 8
vorg_origin aaaaaaaa00010000037000020001fff7ffff0009 4 0
vorg_origin aaaaaaaa00010000037000020001fff7ffff0009 4 1
vorg_origin aaaaaaaa00010000037000020001fff7ffff0009 4 2
vorg_origin aaaaaaaa00010000037000020001fff7ffff0009 4 65534
vorg_origin aaaaaaaa00010000037000020001fff7ffff0009 4 65535
vorg_origin aaaaaaaa000100000370000200000003ffff0009 4 0
vorg_origin aaaaaaaa000100000370000200000003ffff0009 4 1
vorg_origin aaaaaaaa0001000003700004001e000100140002000a000300050004 4 5
vorg_origin aaaaaaaa0001000003700004001e000100140002000a000300050004 4 10
vorg_origin aaaaaaaa0001000003700004001e000100140002000a000300050004 4 20
vorg_origin aaaaaaaa0001000003700004001e000100140002000a000300050004 4 30
vorg_origin aaaaaaaa0001000003700004001e000100140002000a000300050004 4 0
vorg_origin aaaaaaaa0001000003700004001e000100140002000a000300050004 4 65535
vorg_origin aaaaaaaa00010000037000050005000100050002000500030009000400090005 4 4
vorg_origin aaaaaaaa00010000037000050005000100050002000500030009000400090005 4 5
vorg_origin aaaaaaaa00010000037000050005000100050002000500030009000400090005 4 7
vorg_origin aaaaaaaa00010000037000050005000100050002000500030009000400090005 4 9
vorg_origin aaaaaaaa00010000037000050005000100050002000500030009000400090005 4 10
vorg_origin aaaaaaaa00010000037000020005000100050002 4 5
vorg_origin aaaaaaaa000100000370000500050064000aff3800147fff001e8000 4 4
vorg_origin aaaaaaaa000100000370000500050064000aff3800147fff001e8000 4 5
vorg_origin aaaaaaaa000100000370000500050064000aff3800147fff001e8000 4 10
vorg_origin aaaaaaaa000100000370000500050064000aff3800147fff001e8000 4 20
vorg_origin aaaaaaaa000100000370000500050064000aff3800147fff001e8000 4 30
vorg_origin aaaaaaaa000100000370000500050064000aff3800147fff001e8000 4 31
vorg_origin aaaaaaaa000100000370000600050064000aff3800147fff001e8000 4 5
vorg_origin aaaaaaaa000100000370000600050064000aff3800147fff001e8000 4 30
vorg_origin aaaaaaaa000100000370ffff00050064000aff3800147fff001e8000 4 5
vorg_origin aaaaaaaa000100000370ffff00050064000aff3800147fff001e8000 4 10
vorg_origin aaaaaaaa000100000370ffff00050064000aff3800147fff001e8000 4 30
vorg_origin aaaaaaaa000100000370000300050064000aff3800147fff001e8000 4 20
vorg_origin aaaaaaaa000100000370000300050064000aff3800147fff001e8000 4 30
vorg_origin aaaaaaaa000100000370000000050064000aff3800147fff001e8000 4 5
vorg_origin aaaaaa 4 5
vorg_origin aaaaaaaa 4 5
vorg_origin aaaaaaaa00 4 5
vorg_origin aaaaaaaa0001 4 5
vorg_origin aaaaaaaa000100 4 5
vorg_origin aaaaaaaa00010000 4 5
vorg_origin aaaaaaaa0001000003 4 5
vorg_origin aaaaaaaa000100000370 4 5
vorg_origin aaaaaaaa00010000037000 4 5
vorg_origin aaaaaaaa0001000003700004 4 5
vorg_origin aaaaaaaa000100000370000400050064000aff 4 20
vorg_origin aaaaaaaa000100000370000400050064000aff38 4 20
vorg_origin aaaaaaaa000100000370000400050064000aff3800 4 20
vorg_origin aaaaaaaa000100000370000400050064000aff380014 4 20
vorg_origin aaaaaaaa000100000370000400050064000aff3800147f 4 20
vorg_origin aaaaaaaa000100000370000400050064000aff3800147fff 4 20
vorg_origin aaaaaaaa000100000370000400050064000aff3800147fff00 4 20
vorg_origin aaaaaaaa000100000370000400050064000aff3800147fff 4 30
vorg_origin aaaaaaaa000100000370000400050064000aff3800147fff00 4 30
vorg_origin aaaaaaaa000100000370000400050064000aff3800147fff001e 4 30
vorg_origin aaaaaaaa000100000370000400050064000aff3800147fff001e80 4 30
vorg_origin aaaaaaaa000100000370000400050064000aff3800147fff 4 25
vorg_origin aaaaaaaa000100000370000400050064000aff3800147fff00 4 25
vorg_origin aaaaaaaa000100000370000400050064000aff3800147fff001e 4 25
vorg_origin aaaaaaaa000100000370000400050064000aff3800147fff001e80 4 25
vorg_origin aaaaaaaa00010000ffff 4 5
vorg_origin aaaaaaaa000100000370000400050064000aff3800147fff001e8000 0 5
vorg_origin aaaaaaaa000100000370000400050064000aff3800147fff001e8000 1 5
vorg_origin aaaaaaaa000100000370000400050064000aff3800147fff001e8000 20 5
vorg_origin aaaaaaaa000100000370000400050064000aff3800147fff001e8000 22 5
vorg_origin aaaaaaaa000100000370000400050064000aff3800147fff001e8000 24 5
vorg_origin aaaaaaaa000100000370000400050064000aff3800147fff001e8000 25 5
vorg_origin aaaaaaaa000100000370000400050064000aff3800147fff001e8000 28 5
vorg_origin aaaaaaaa000100000370000400050064000aff3800147fff001e8000 29 5
vorg_origin aaaaaaaa000100000370000400050064000aff3800147fff001e8000 2147483648 5
vorg_origin aaaaaaaa000100000370000400050064000aff3800147fff001e8000 4294967288 5
vorg_origin aaaaaaaa000100000370000400050064000aff3800147fff001e8000 4294967290 5
vorg_origin aaaaaaaa000100000370000400050064000aff3800147fff001e8000 4294967292 5
vorg_origin aaaaaaaa000100000370000400050064000aff3800147fff001e8000 4294967295 5
vorg_origin - 0 0
vorg_origin - 1 0
adjusted_advance 000000000001000000000010000000000000000000010000000c0001000000160001000100004000400000010000000100006401f400320258ffce0007fff9 51 2 4 0 - 3f800000
adjusted_advance 000000000001000000000010000000000000000000010000000c0001000000160001000100004000400000010000000100006401f400320258ffce0007fff9 51 2 4 0 0 3f800000
adjusted_advance 000000000001000000000010000000000000000000010000000c0001000000160001000100004000400000010000000100006401f400320258ffce0007fff9 51 2 4 0 8192 3f800000
adjusted_advance 000000000001000000000010000000000000000000010000000c0001000000160001000100004000400000010000000100006401f400320258ffce0007fff9 51 2 4 0 16384 3f800000
adjusted_advance 000000000001000000000010000000000000000000010000000c0001000000160001000100004000400000010000000100006401f400320258ffce0007fff9 51 2 4 0 -1 3f800000
adjusted_advance 000000000001000000000010000000000000000000010000000c0001000000160001000100004000400000010000000100006401f400320258ffce0007fff9 51 2 4 0 8192,5 3f800000
adjusted_advance 000000000001000000000010000000000000000000010000000c0001000000160001000100004000400000010000000100006401f400320258ffce0007fff9 51 2 4 1 8192 3f800000
adjusted_advance 000000000001000000000010000000000000000000010000000c0001000000160001000100004000400000010000000100006401f400320258ffce0007fff9 51 2 4 2 8192 3f800000
adjusted_advance 000000000001000000000010000000000000000000010000000c0001000000160001000100004000400000010000000100006401f400320258ffce0007fff9 51 2 4 65535 8192 3f800000
adjusted_advance 000000000001000000000010000000000000000000010000000c0001000000160001000100004000400000010000000100006401f400320258ffce0007fff9 51 1 4 0 8192 3f800000
adjusted_advance 000000000001000000000010000000000000000000010000000c0001000000160001000100004000400000010000000100006401f400320258ffce0007fff9 51 1 4 1 8192 3f800000
adjusted_advance 000000000001000000000010000000000000000000010000000c0001000000160001000100004000400000010000000100006401f400320258ffce0007fff9 51 0 4 0 8192 3f800000
adjusted_advance 000000000001000000000010000000000000000000010000000c0001000000160001000100004000400000010000000100006401f400320258ffce0007fff9 51 3 4 2 8192 3f800000
adjusted_advance 000000000001000000000010000000000000000000010000000c0001000000160001000100004000400000010000000100006401f400320258ffce0007fff9 0 1 4 0 8192 40000000
adjusted_advance 000000000001000000000010000000000000000000010000000c0001000000160001000100004000400000010000000100006401f400320258ffce0007fff9 61 1 4 0 8192 40000000
adjusted_advance 000000000001000000000010000000000000000000010000000c0001000000160001000100004000400000010000000100006401f400320258ffce0007fff9 62 1 4 0 8192 40000000
adjusted_advance 000000000001000000000010000000000000000000010000000c0001000000160001000100004000400000010000000100006401f400320258ffce0007fff9 63 1 4 0 8192 40000000
adjusted_advance 000000000001000000000010000000000000000000010000000c0001000000160001000100004000400000010000000100006401f400320258ffce0007fff9 4294967295 1 4 0 8192 40000000
adjusted_sb 000000000001000000000010000000000000000000010000000c0001000000160001000100004000400000010000000100006401f400320258ffce0007fff9 51 2 4 0 8192 3f800000
adjusted_sb 000000000001000000000010000000000000000000010000000c0001000000160001000100004000400000010000000100006401f400320258ffce0007fff9 51 2 4 1 8192 3f800000
adjusted_sb 000000000001000000000010000000000000000000010000000c0001000000160001000100004000400000010000000100006401f400320258ffce0007fff9 51 2 4 2 8192 3f800000
adjusted_sb 000000000001000000000010000000000000000000010000000c0001000000160001000100004000400000010000000100006401f400320258ffce0007fff9 51 2 4 3 8192 3f800000
adjusted_sb 000000000001000000000010000000000000000000010000000c0001000000160001000100004000400000010000000100006401f400320258ffce0007fff9 51 2 4 4 8192 3f800000
adjusted_sb 000000000001000000000010000000000000000000010000000c0001000000160001000100004000400000010000000100006401f400320258ffce0007fff9 51 1 4 1 8192 3f800000
adjusted_sb 000000000001000000000010000000000000000000010000000c0001000000160001000100004000400000010000000100006401f400320258ffce0007fff9 51 0 4 0 8192 3f800000
adjusted_sb 000000000001000000000010000000000000000000010000000c0001000000160001000100004000400000010000000100006401f400320258ffce0007fff9 0 1 4 0 8192 40000000
adjusted_sb 000000000001000000000010000000000000000000010000000c0001000000160001000100004000400000010000000100006401f400320258ffce0007fff9 60 1 4 0 8192 40000000
adjusted_sb 000000000001000000000010000000000000000000010000000c0001000000160001000100004000400000010000000100006401f400320258ffce0007fff9 59 1 4 0 8192 40000000
adjusted_sb 000000000001000000000010000000000000000000010000000c0001000000160001000100004000400000010000000100006401f400320258ffce0007fff9 63 1 4 0 8192 40000000
adjusted_advance 000000000001000000000010000000000000000000010000000c0001000000160001000100004000400000010000000100006401f400320258ffce0007fff9 0 0 4 0 8192 3f800000
adjusted_advance 000000000001000000000010000000000000000000010000000c0001000000160001000100004000400000010000000100006401f400320258ffce0007fff9 51 2 0 0 8192 3f800000
adjusted_sb 000000000001000000000010000000000000000000010000000c0001000000160001000100004000400000010000000100006401f400320258ffce0007fff9 51 2 0 1 8192 3f800000
adjusted_advance 000000000001000000000010000000000000000000010000000c00010000001600010001000040004000000100000001 51 2 4 0 8192 3f800000
adjusted_advance 000000000001000000000010000000000000000000010000000c0001000000160001000100004000400000010000000100 51 2 4 0 8192 3f800000
adjusted_advance 000000000001000000000010000000000000000000010000000c000100000016000100010000400040000001000000010000 51 2 4 0 8192 3f800000
adjusted_advance 000000000001000000000010000000000000000000010000000c00010000001600010001000040004000000100000001000064 51 2 4 0 8192 3f800000
adjusted_advance 000000000001000000000010000000000000000000010000000c0001000000160001000100004000400000010000000100006401 51 2 4 0 8192 3f800000
adjusted_advance 000000000001000000000010000000000000000000010000000c0001000000160001000100004000400000010000000100006401f4 51 2 4 0 8192 3f800000
adjusted_advance 000000000001000000000010000000000000000000010000000c0001000000160001000100004000400000010000000100006401f400 51 2 4 0 8192 3f800000
adjusted_advance 000000000001000000000010000000000000000000010000000c0001000000160001000100004000400000010000000100006401f40032 51 2 4 0 8192 3f800000
adjusted_advance 000000000001000000000010000000000000000000010000000c0001000000160001000100004000400000010000000100006401f4003202 51 2 4 0 8192 3f800000
adjusted_sb 000000000001000000000010000000000000000000010000000c0001000000160001000100004000400000010000000100006401 51 2 4 0 8192 3f800000
adjusted_sb 000000000001000000000010000000000000000000010000000c0001000000160001000100004000400000010000000100006401f4 51 2 4 0 8192 3f800000
adjusted_sb 000000000001000000000010000000000000000000010000000c0001000000160001000100004000400000010000000100006401f400 51 2 4 0 8192 3f800000
adjusted_sb 000000000001000000000010000000000000000000010000000c0001000000160001000100004000400000010000000100006401f40032 51 2 4 0 8192 3f800000
adjusted_sb 000000000001000000000010000000000000000000010000000c0001000000160001000100004000400000010000000100006401f4003202 51 2 4 0 8192 3f800000
adjusted_advance 000000000001000000000010000000000000000000010000000c0001000000160001000100004000400000010000000100006401f400320258ffce0007fff9 51 2 4 0 8192 00000000
adjusted_sb 000000000001000000000010000000000000000000010000000c0001000000160001000100004000400000010000000100006401f400320258ffce0007fff9 51 2 4 1 8192 00000000
adjusted_advance 000000000001000000000010000000000000000000010000000c0001000000160001000100004000400000010000000100006401f400320258ffce0007fff9 51 2 4 0 8192 80000000
adjusted_sb 000000000001000000000010000000000000000000010000000c0001000000160001000100004000400000010000000100006401f400320258ffce0007fff9 51 2 4 1 8192 80000000
adjusted_advance 000000000001000000000010000000000000000000010000000c0001000000160001000100004000400000010000000100006401f400320258ffce0007fff9 51 2 4 0 8192 bf800000
adjusted_sb 000000000001000000000010000000000000000000010000000c0001000000160001000100004000400000010000000100006401f400320258ffce0007fff9 51 2 4 1 8192 bf800000
adjusted_advance 000000000001000000000010000000000000000000010000000c0001000000160001000100004000400000010000000100006401f400320258ffce0007fff9 51 2 4 0 8192 3eaaaaab
adjusted_sb 000000000001000000000010000000000000000000010000000c0001000000160001000100004000400000010000000100006401f400320258ffce0007fff9 51 2 4 1 8192 3eaaaaab
adjusted_advance 000000000001000000000010000000000000000000010000000c0001000000160001000100004000400000010000000100006401f400320258ffce0007fff9 51 2 4 0 8192 00000001
adjusted_sb 000000000001000000000010000000000000000000010000000c0001000000160001000100004000400000010000000100006401f400320258ffce0007fff9 51 2 4 1 8192 00000001
adjusted_advance 000000000001000000000010000000000000000000010000000c0001000000160001000100004000400000010000000100006401f400320258ffce0007fff9 51 2 4 0 8192 807fffff
adjusted_sb 000000000001000000000010000000000000000000010000000c0001000000160001000100004000400000010000000100006401f400320258ffce0007fff9 51 2 4 1 8192 807fffff
adjusted_advance 000000000001000000000010000000000000000000010000000c0001000000160001000100004000400000010000000100006401f400320258ffce0007fff9 51 2 4 0 8192 7f7fffff
adjusted_sb 000000000001000000000010000000000000000000010000000c0001000000160001000100004000400000010000000100006401f400320258ffce0007fff9 51 2 4 1 8192 7f7fffff
adjusted_advance 000000000001000000000010000000000000000000010000000c0001000000160001000100004000400000010000000100006401f400320258ffce0007fff9 51 2 4 0 8192 7f800000
adjusted_sb 000000000001000000000010000000000000000000010000000c0001000000160001000100004000400000010000000100006401f400320258ffce0007fff9 51 2 4 1 8192 7f800000
adjusted_advance 000000000001000000000010000000000000000000010000000c0001000000160001000100004000400000010000000100006401f400320258ffce0007fff9 51 2 4 0 8192 ff800000
adjusted_sb 000000000001000000000010000000000000000000010000000c0001000000160001000100004000400000010000000100006401f400320258ffce0007fff9 51 2 4 1 8192 ff800000
adjusted_advance 000000000001000000000010000000000000000000010000000c0001000000160001000100004000400000010000000100006401f400320258ffce0007fff9 51 2 4 0 8192 7fc00000
adjusted_sb 000000000001000000000010000000000000000000010000000c0001000000160001000100004000400000010000000100006401f400320258ffce0007fff9 51 2 4 1 8192 7fc00000
adjusted_advance 000000000001000000000010000000000000000000010000000c0001000000160001000100004000400000010000000100006401f400320258ffce0007fff9 51 2 4 0 8192 ffffffff
adjusted_sb 000000000001000000000010000000000000000000010000000c0001000000160001000100004000400000010000000100006401f400320258ffce0007fff9 51 2 4 1 8192 ffffffff
adjusted_advance aaaaaaaa00000000 4 1 0 0 - 7f800000
adjusted_sb aaaaaaaa00000000 4 1 0 0 - 7f800000
adjusted_advance aaaaaaaa00000000 4 1 0 0 - 80000000
adjusted_sb aaaaaaaa00000000 4 1 0 0 - 80000000
adjusted_advance aaaaaaaa00000000 4 1 0 0 - bf800000
adjusted_sb aaaaaaaa00000000 4 1 0 0 - bf800000
adjusted_advance aaaaaaaa01f400329c40ffce0007fff90000000000010000000000180000001000000010000700030001020000010000000c0001000000100000000100030000000100000a0b0c 4 2 20 0 - 3f800000
adjusted_sb aaaaaaaa01f400329c40ffce0007fff90000000000010000000000180000001000000010000700030001020000010000000c0001000000100000000100030000000100000a0b0c 4 2 20 0 - 3f800000
adjusted_advance aaaaaaaa01f400329c40ffce0007fff90000000000010000000000180000001000000010000700030001020000010000000c0001000000100000000100030000000100000a0b0c 4 2 20 1 - 3f800000
adjusted_sb aaaaaaaa01f400329c40ffce0007fff90000000000010000000000180000001000000010000700030001020000010000000c0001000000100000000100030000000100000a0b0c 4 2 20 1 - 3f800000
adjusted_advance aaaaaaaa01f400329c40ffce0007fff90000000000010000000000180000001000000010000700030001020000010000000c0001000000100000000100030000000100000a0b0c 4 2 20 2 - 3f800000
adjusted_sb aaaaaaaa01f400329c40ffce0007fff90000000000010000000000180000001000000010000700030001020000010000000c0001000000100000000100030000000100000a0b0c 4 2 20 2 - 3f800000
adjusted_advance aaaaaaaa01f400329c40ffce0007fff90000000000010000000000180000001000000010000700030001020000010000000c0001000000100000000100030000000100000a0b0c 4 2 20 3 - 3f800000
adjusted_sb aaaaaaaa01f400329c40ffce0007fff90000000000010000000000180000001000000010000700030001020000010000000c0001000000100000000100030000000100000a0b0c 4 2 20 3 - 3f800000
adjusted_advance aaaaaaaa01f400329c40ffce0007fff90000000000010000000000180000001000000010000700030001020000010000000c0001000000100000000100030000000100000a0b0c 4 2 20 65535 - 3f800000
adjusted_sb aaaaaaaa01f400329c40ffce0007fff90000000000010000000000180000001000000010000700030001020000010000000c0001000000100000000100030000000100000a0b0c 4 2 20 65535 - 3f800000
adjusted_advance aaaaaaaa01f400329c40ffce0007fff90000000000010000000000180000001000000010000700030001020000010000000c0001000000100000000100030000000100000a0b 4 2 20 2 - 3f800000
adjusted_sb aaaaaaaa01f400329c40ffce0007fff90000000000010000000000180000001000000010000700030001020000010000000c0001000000100000000100030000000100000a0b 4 2 20 2 - 3f800000
adjusted_advance aaaaaaaa01f400329c40ffce0007fff90000000000010000000000180000001000000010000700030001020000010000000c000100000010000000010003000000010000 4 2 20 2 - 3f800000
adjusted_sb aaaaaaaa01f400329c40ffce0007fff90000000000010000000000180000001000000010000700030001020000010000000c000100000010000000010003000000010000 4 2 20 2 - 3f800000
adjusted_advance aaaaaaaa01f400329c40ffce0007fff90000000000010000000000180000001000000010000700030001020000010000000c0001000000100000000100 4 2 20 2 - 3f800000
adjusted_sb aaaaaaaa01f400329c40ffce0007fff90000000000010000000000180000001000000010000700030001020000010000000c0001000000100000000100 4 2 20 2 - 3f800000
adjusted_advance aaaaaaaa01f400329c40ffce0007fff900000000000100000000001800000010000000100007000300 4 2 20 2 - 3f800000
adjusted_sb aaaaaaaa01f400329c40ffce0007fff900000000000100000000001800000010000000100007000300 4 2 20 2 - 3f800000
adjusted_advance aaaaaaaa01f400329c40ffce0007fff90000000000 4 2 20 2 - 3f800000
adjusted_sb aaaaaaaa01f400329c40ffce0007fff90000000000 4 2 20 2 - 3f800000
adjusted_advance aaaaaaaa01f400329c40ffce0007fff90000000000010000000000180000001000000010000700030001020000010000000c0001000000100000000100030000000100000a0b0c 4 2 0 1 - 3f800000
adjusted_advance aaaaaaaa01f400329c40ffce0007fff90000000000010000000000180000001000000010000700030001020000010000000c0001000000100000000100030000000100000a0b0c 4 2 4294967295 1 - 3f800000
adjusted_advance aaaaaaaa01f40032000000000001000000000000 4 1 12 0 16384 3f800000
adjusted_sb aaaaaaaa01f40032000000000001000000000000 4 1 12 0 16384 3f800000
adjusted_advance aaaaaaaa01f400320000000000010000000000100000 4 1 12 0 16384 3f800000
adjusted_sb aaaaaaaa01f400320000000000010000000000100000 4 1 12 0 16384 3f800000
adjusted_advance aaaaaaaa01f40032000000000001000000000010000000000000000000010000000c0001000000160001000100000000000000000000000100006405 4 1 12 0 16384 3f800000
adjusted_sb aaaaaaaa01f40032000000000001000000000010000000000000000000010000000c0001000000160001000100000000000000000000000100006405 4 1 12 0 16384 3f800000
adjusted_advance aaaaaaaa01f400320000000000010000fffffff4 4 1 12 0 16384 3f800000
adjusted_sb aaaaaaaa01f400320000000000010000fffffff4 4 1 12 0 16384 3f800000
adjusted_advance aaaaaaaa01f400320000000000010000000000180000001000000010000700000000000000010000000c0001000000100000000100030000000100000a0b0c 4 1 12 0 16384 3f800000
adjusted_sb aaaaaaaa01f400320000000000010000000000180000001000000010000700000000000000010000000c0001000000100000000100030000000100000a0b0c 4 1 12 0 16384 3f800000
adjusted_advance aaaaaaaa01f40032000000000001000000000010000000000000000000010000000c0001000000160001000100004000400000010002000100000064 4 1 12 0 16384 3f800000
adjusted_sb aaaaaaaa01f40032000000000001000000000010000000000000000000010000000c0001000000160001000100004000400000010002000100000064 4 1 12 0 16384 3f800000
adjusted_advance aaaaaaaa01f400320000000000010000fffffff4 4 0 12 0 16384 3f800000
adjusted_advance aaaaaaaa01f400320000000000010000fffffff4 0 1 12 0 16384 3f800000
adjusted_advance aaaaaaaa01f400320000000000010000fffffff4 4294967295 1 12 0 16384 3f800000
adjusted_sb aaaaaaaa01f40032000000000001000000000010000000000000000000010000000c0001000000160001000100004000400000010002000100000064 4 0 12 0 16384 3f800000
adjusted_advance 000000000001000000000010000000000000000000010000000c00010000001600010001000040004000000100000001000064 8 3 4 2 8192 3f800000
adjusted_advance 000000000001000000000010000000000000000000010000000c00010000001600010001000040004000000100000001000064 47 2 4 0 8192 3f800000
adjusted_sb 000000000001000000000010000000000000000000010000000c00010000001600010001000040004000000100000001000064 47 1 4 0 8192 3f800000
read_advance_width 000000000001000000000010000000000000000000010000000c0001000000160001000100004000400000010000000100006401f400320258ffce0007fff9 00000033,00000002,00000004 0 8192 40000000
read_advance_width 000000000001000000000010000000000000000000010000000c0001000000160001000100004000400000010000000100006401f400320258ffce0007fff9 00000033,00000002,00000004 1 8192 40000000
read_advance_width 000000000001000000000010000000000000000000010000000c0001000000160001000100004000400000010000000100006401f400320258ffce0007fff9 00000033,00000002,00000004 2 8192 40000000
read_advance_width 000000000001000000000010000000000000000000010000000c0001000000160001000100004000400000010000000100006401f400320258ffce0007fff9 00000033,00000002,00000000 0 8192 40000000
read_advance_width 000000000001000000000010000000000000000000010000000c0001000000160001000100004000400000010000000100006401f400320258ffce0007fff9 00000033,00000000,00000004 0 8192 40000000
read_advance_width 000000000001000000000010000000000000000000010000000c0001000000160001000100004000400000010000000100006401f400320258ffce0007fff9 00000000,00000002,00000004 0 8192 40000000
read_advance_width 000000000001000000000010000000000000000000010000000c0001000000160001000100004000400000010000000100006401f400320258ffce0007fff9 00000000,00000000,00000004 0 8192 40000000
read_advance_width 000000000001000000000010000000000000000000010000000c0001000000160001000100004000400000010000000100006401f400320258ffce0007fff9 0000003e,00000001,00000004 0 8192 40000000
read_advance_width 000000000001000000000010000000000000000000010000000c0001000000160001000100004000400000010000000100006401f400320258ffce0007fff9 ffffffff,00000001,00000004 0 8192 40000000
read_advance_width 000000000001000000000010000000000000000000010000000c0001000000160001000100004000400000010000000100006401f400320258ffce0007fff9 00000033,00000001,00000004 65535 8192 40000000
read_advance_width aaaaaaaa01f400329c40ffce0007fff90000000000010000000000180000001000000010000700030001020000010000000c0001000000100000000100030000000100000a0b0c 00000004,00000002,00000014 1 - 3f800000
read_advance_width aaaaaaaa01f400320000000000010000fffffff4 00000004,00000001,0000000c 0 - 3f800000
read_advance_width 000000000001000000000010000000000000000000010000000c0001000000160001000100004000400000010000000100006401f400320258ffce0007fff9 00000033,0000ffff,00000004 0 8192 7fc00000
read_lsb 000000000001000000000010000000000000000000010000000c0001000000160001000100004000400000010000000100006401f400320258ffce0007fff9 00000033,00000002,00000004 0 8192 40000000
read_lsb 000000000001000000000010000000000000000000010000000c0001000000160001000100004000400000010000000100006401f400320258ffce0007fff9 00000033,00000002,00000004 1 8192 40000000
read_lsb 000000000001000000000010000000000000000000010000000c0001000000160001000100004000400000010000000100006401f400320258ffce0007fff9 00000033,00000002,00000004 2 8192 40000000
read_lsb 000000000001000000000010000000000000000000010000000c0001000000160001000100004000400000010000000100006401f400320258ffce0007fff9 00000033,00000002,00000000 0 8192 40000000
read_lsb 000000000001000000000010000000000000000000010000000c0001000000160001000100004000400000010000000100006401f400320258ffce0007fff9 00000033,00000000,00000004 0 8192 40000000
read_lsb 000000000001000000000010000000000000000000010000000c0001000000160001000100004000400000010000000100006401f400320258ffce0007fff9 00000000,00000002,00000004 0 8192 40000000
read_lsb 000000000001000000000010000000000000000000010000000c0001000000160001000100004000400000010000000100006401f400320258ffce0007fff9 00000000,00000000,00000004 0 8192 40000000
read_lsb 000000000001000000000010000000000000000000010000000c0001000000160001000100004000400000010000000100006401f400320258ffce0007fff9 0000003e,00000001,00000004 0 8192 40000000
read_lsb 000000000001000000000010000000000000000000010000000c0001000000160001000100004000400000010000000100006401f400320258ffce0007fff9 ffffffff,00000001,00000004 0 8192 40000000
read_lsb 000000000001000000000010000000000000000000010000000c0001000000160001000100004000400000010000000100006401f400320258ffce0007fff9 00000033,00000001,00000004 65535 8192 40000000
read_lsb aaaaaaaa01f400329c40ffce0007fff90000000000010000000000180000001000000010000700030001020000010000000c0001000000100000000100030000000100000a0b0c 00000004,00000002,00000014 1 - 3f800000
read_lsb aaaaaaaa01f400320000000000010000fffffff4 00000004,00000001,0000000c 0 - 3f800000
read_lsb 000000000001000000000010000000000000000000010000000c0001000000160001000100004000400000010000000100006401f400320258ffce0007fff9 00000033,0000ffff,00000004 0 8192 7fc00000
read_advance_height aaaaaaaa01f400329c40ffce0007fff90000000000010000000000180000001000000010000700030001020000010000000c0001000000100000000100030000000100000a0b0c000100000370000400050064000aff3800147fff001e8000 00000000,00000002,00000004,00000014 0 - 40000000
read_advance_height aaaaaaaa01f400329c40ffce0007fff90000000000010000000000180000001000000010000700030001020000010000000c0001000000100000000100030000000100000a0b0c000100000370000400050064000aff3800147fff001e8000 00000000,00000002,00000004,00000014 1 - 40000000
read_advance_height aaaaaaaa01f400329c40ffce0007fff90000000000010000000000180000001000000010000700030001020000010000000c0001000000100000000100030000000100000a0b0c000100000370000400050064000aff3800147fff001e8000 00000000,00000002,00000004,00000014 2 - 40000000
read_advance_height aaaaaaaa01f400329c40ffce0007fff90000000000010000000000180000001000000010000700030001020000010000000c0001000000100000000100030000000100000a0b0c000100000370000400050064000aff3800147fff001e8000 00000000,00000002,00000004,00000000 0 - 40000000
read_advance_height aaaaaaaa01f400329c40ffce0007fff90000000000010000000000180000001000000010000700030001020000010000000c0001000000100000000100030000000100000a0b0c000100000370000400050064000aff3800147fff001e8000 00000000,00000000,00000004,00000014 0 - 40000000
read_advance_height aaaaaaaa01f400329c40ffce0007fff90000000000010000000000180000001000000010000700030001020000010000000c0001000000100000000100030000000100000a0b0c000100000370000400050064000aff3800147fff001e8000 00000000,00000002,00000000,00000014 0 - 40000000
read_advance_height aaaaaaaa01f400329c40ffce0007fff90000000000010000000000180000001000000010000700030001020000010000000c0001000000100000000100030000000100000a0b0c000100000370000400050064000aff3800147fff001e8000 00000000,00000000,00000000,00000014 0 - 40000000
read_advance_height aaaaaaaa01f400329c40ffce0007fff90000000000010000000000180000001000000010000700030001020000010000000c0001000000100000000100030000000100000a0b0c000100000370000400050064000aff3800147fff001e8000 00000000,00000001,ffffffff,00000014 0 - 40000000
read_advance_height aaaaaaaa01f400320000000000010000000000180000001000000010000700000000000000010000000c0001000000100000000100030000000100000a0b0c 00000000,00000001,00000004,0000000c 0 - 3f800000
read_advance_height aaaaaaaa01f40032000000000001000000000010000000000000000000010000000c0001000000160001000100000000000000000000000100006405 00000000,00000001,00000004,0000000c 0 - 3f800000
read_advance_height aaaaaaaa01f400329c40ffce0007fff90000000000010000000000180000001000000010000700030001020000010000000c0001000000100000000100030000000100000a0b0c000100000370000400050064000aff3800147fff001e8000 00000001,00000002,00000004,00000014,00000047 0 - 40000000
read_advance_height aaaaaaaa01f400329c40ffce0007fff90000000000010000000000180000001000000010000700030001020000010000000c0001000000100000000100030000000100000a0b0c000100000370000400050064000aff3800147fff001e8000 00000001,00000002,00000004,00000014,00000047 1 - 40000000
read_advance_height aaaaaaaa01f400329c40ffce0007fff90000000000010000000000180000001000000010000700030001020000010000000c0001000000100000000100030000000100000a0b0c000100000370000400050064000aff3800147fff001e8000 00000001,00000002,00000004,00000014,00000047 2 - 40000000
read_advance_height aaaaaaaa01f400329c40ffce0007fff90000000000010000000000180000001000000010000700030001020000010000000c0001000000100000000100030000000100000a0b0c000100000370000400050064000aff3800147fff001e8000 00000001,00000002,00000004,00000000,00000047 0 - 40000000
read_advance_height aaaaaaaa01f400329c40ffce0007fff90000000000010000000000180000001000000010000700030001020000010000000c0001000000100000000100030000000100000a0b0c000100000370000400050064000aff3800147fff001e8000 00000001,00000000,00000004,00000014,00000047 0 - 40000000
read_advance_height aaaaaaaa01f400329c40ffce0007fff90000000000010000000000180000001000000010000700030001020000010000000c0001000000100000000100030000000100000a0b0c000100000370000400050064000aff3800147fff001e8000 00000001,00000002,00000000,00000014,00000047 0 - 40000000
read_advance_height aaaaaaaa01f400329c40ffce0007fff90000000000010000000000180000001000000010000700030001020000010000000c0001000000100000000100030000000100000a0b0c000100000370000400050064000aff3800147fff001e8000 00000001,00000000,00000000,00000014,00000047 0 - 40000000
read_advance_height aaaaaaaa01f400329c40ffce0007fff90000000000010000000000180000001000000010000700030001020000010000000c0001000000100000000100030000000100000a0b0c000100000370000400050064000aff3800147fff001e8000 00000001,00000001,ffffffff,00000014,00000047 0 - 40000000
read_advance_height aaaaaaaa01f400320000000000010000000000180000001000000010000700000000000000010000000c0001000000100000000100030000000100000a0b0c 00000001,00000001,00000004,0000000c,00000000 0 - 3f800000
read_advance_height aaaaaaaa01f40032000000000001000000000010000000000000000000010000000c0001000000160001000100000000000000000000000100006405 00000001,00000001,00000004,0000000c,00000000 0 - 3f800000
read_advance_height 0000000000010000000000080002001c6861736300000000686473630001000000010000000c0001000000100000000100020000000100000a0b 00000002,00000004,447a0000,44480000 0 - 3f800000
read_advance_height 0000000000010000000000080002001c6861736300000000686473630001000000010000000c0001000000100000000100020000000100000a0b 00000002,00000004,447a0000,44480000 0 0 3f800000
read_advance_height - 00000002,00000000,447a0000,44480000 0 - c0000000
read_advance_height - 00000002,00000000,7fc00000,44480000 0 - 7f800000
read_tsb aaaaaaaa01f400329c40ffce0007fff90000000000010000000000180000001000000010000700030001020000010000000c0001000000100000000100030000000100000a0b0c000100000370000400050064000aff3800147fff001e8000 00000000,00000002,00000004,00000014 0 - 40000000
read_tsb aaaaaaaa01f400329c40ffce0007fff90000000000010000000000180000001000000010000700030001020000010000000c0001000000100000000100030000000100000a0b0c000100000370000400050064000aff3800147fff001e8000 00000000,00000002,00000004,00000014 1 - 40000000
read_tsb aaaaaaaa01f400329c40ffce0007fff90000000000010000000000180000001000000010000700030001020000010000000c0001000000100000000100030000000100000a0b0c000100000370000400050064000aff3800147fff001e8000 00000000,00000002,00000004,00000014 2 - 40000000
read_tsb aaaaaaaa01f400329c40ffce0007fff90000000000010000000000180000001000000010000700030001020000010000000c0001000000100000000100030000000100000a0b0c000100000370000400050064000aff3800147fff001e8000 00000000,00000002,00000004,00000000 0 - 40000000
read_tsb aaaaaaaa01f400329c40ffce0007fff90000000000010000000000180000001000000010000700030001020000010000000c0001000000100000000100030000000100000a0b0c000100000370000400050064000aff3800147fff001e8000 00000000,00000000,00000004,00000014 0 - 40000000
read_tsb aaaaaaaa01f400329c40ffce0007fff90000000000010000000000180000001000000010000700030001020000010000000c0001000000100000000100030000000100000a0b0c000100000370000400050064000aff3800147fff001e8000 00000000,00000002,00000000,00000014 0 - 40000000
read_tsb aaaaaaaa01f400329c40ffce0007fff90000000000010000000000180000001000000010000700030001020000010000000c0001000000100000000100030000000100000a0b0c000100000370000400050064000aff3800147fff001e8000 00000000,00000000,00000000,00000014 0 - 40000000
read_tsb aaaaaaaa01f400329c40ffce0007fff90000000000010000000000180000001000000010000700030001020000010000000c0001000000100000000100030000000100000a0b0c000100000370000400050064000aff3800147fff001e8000 00000000,00000001,ffffffff,00000014 0 - 40000000
read_tsb aaaaaaaa01f400320000000000010000000000180000001000000010000700000000000000010000000c0001000000100000000100030000000100000a0b0c 00000000,00000001,00000004,0000000c 0 - 3f800000
read_tsb aaaaaaaa01f40032000000000001000000000010000000000000000000010000000c0001000000160001000100000000000000000000000100006405 00000000,00000001,00000004,0000000c 0 - 3f800000
read_tsb aaaaaaaa01f400329c40ffce0007fff90000000000010000000000180000001000000010000700030001020000010000000c0001000000100000000100030000000100000a0b0c000100000370000400050064000aff3800147fff001e8000 00000001,00000002,00000004,00000014,00000047 0 - 40000000
read_tsb aaaaaaaa01f400329c40ffce0007fff90000000000010000000000180000001000000010000700030001020000010000000c0001000000100000000100030000000100000a0b0c000100000370000400050064000aff3800147fff001e8000 00000001,00000002,00000004,00000014,00000047 1 - 40000000
read_tsb aaaaaaaa01f400329c40ffce0007fff90000000000010000000000180000001000000010000700030001020000010000000c0001000000100000000100030000000100000a0b0c000100000370000400050064000aff3800147fff001e8000 00000001,00000002,00000004,00000014,00000047 2 - 40000000
read_tsb aaaaaaaa01f400329c40ffce0007fff90000000000010000000000180000001000000010000700030001020000010000000c0001000000100000000100030000000100000a0b0c000100000370000400050064000aff3800147fff001e8000 00000001,00000002,00000004,00000000,00000047 0 - 40000000
read_tsb aaaaaaaa01f400329c40ffce0007fff90000000000010000000000180000001000000010000700030001020000010000000c0001000000100000000100030000000100000a0b0c000100000370000400050064000aff3800147fff001e8000 00000001,00000000,00000004,00000014,00000047 0 - 40000000
read_tsb aaaaaaaa01f400329c40ffce0007fff90000000000010000000000180000001000000010000700030001020000010000000c0001000000100000000100030000000100000a0b0c000100000370000400050064000aff3800147fff001e8000 00000001,00000002,00000000,00000014,00000047 0 - 40000000
read_tsb aaaaaaaa01f400329c40ffce0007fff90000000000010000000000180000001000000010000700030001020000010000000c0001000000100000000100030000000100000a0b0c000100000370000400050064000aff3800147fff001e8000 00000001,00000000,00000000,00000014,00000047 0 - 40000000
read_tsb aaaaaaaa01f400329c40ffce0007fff90000000000010000000000180000001000000010000700030001020000010000000c0001000000100000000100030000000100000a0b0c000100000370000400050064000aff3800147fff001e8000 00000001,00000001,ffffffff,00000014,00000047 0 - 40000000
read_tsb aaaaaaaa01f400320000000000010000000000180000001000000010000700000000000000010000000c0001000000100000000100030000000100000a0b0c 00000001,00000001,00000004,0000000c,00000000 0 - 3f800000
read_tsb aaaaaaaa01f40032000000000001000000000010000000000000000000010000000c0001000000160001000100000000000000000000000100006405 00000001,00000001,00000004,0000000c,00000000 0 - 3f800000
read_tsb 0000000000010000000000080002001c6861736300000000686473630001000000010000000c0001000000100000000100020000000100000a0b 00000002,00000004,447a0000,44480000 0 - 3f800000
read_tsb 0000000000010000000000080002001c6861736300000000686473630001000000010000000c0001000000100000000100020000000100000a0b 00000002,00000004,447a0000,44480000 0 0 3f800000
read_tsb - 00000002,00000000,447a0000,44480000 0 - c0000000
read_tsb - 00000002,00000000,7fc00000,44480000 0 - 7f800000
read_vertical_origin aaaaaaaa01f400329c40ffce0007fff90000000000010000000000180000001000000010000700030001020000010000000c0001000000100000000100030000000100000a0b0c000100000370000400050064000aff3800147fff001e8000 00000000,00000002,00000004,00000014 1 - - 1000 3f800000
read_vertical_origin aaaaaaaa01f400329c40ffce0007fff90000000000010000000000180000001000000010000700030001020000010000000c0001000000100000000100030000000100000a0b0c000100000370000400050064000aff3800147fff001e8000 00000000,00000002,00000004,00000014 1 - - 1000 40000000
read_vertical_origin aaaaaaaa01f400329c40ffce0007fff90000000000010000000000180000001000000010000700030001020000010000000c0001000000100000000100030000000100000a0b0c000100000370000400050064000aff3800147fff001e8000 00000000,00000002,00000004,00000014 1 - 0 1000 3f800000
read_vertical_origin aaaaaaaa01f400329c40ffce0007fff90000000000010000000000180000001000000010000700030001020000010000000c0001000000100000000100030000000100000a0b0c000100000370000400050064000aff3800147fff001e8000 00000000,00000002,00000004,00000014 1 - 0 1000 40000000
read_vertical_origin aaaaaaaa01f400329c40ffce0007fff90000000000010000000000180000001000000010000700030001020000010000000c0001000000100000000100030000000100000a0b0c000100000370000400050064000aff3800147fff001e8000 00000000,00000002,00000004,00000014 1 - 700 1000 3f800000
read_vertical_origin aaaaaaaa01f400329c40ffce0007fff90000000000010000000000180000001000000010000700030001020000010000000c0001000000100000000100030000000100000a0b0c000100000370000400050064000aff3800147fff001e8000 00000000,00000002,00000004,00000014 1 - 700 1000 40000000
read_vertical_origin aaaaaaaa01f400329c40ffce0007fff90000000000010000000000180000001000000010000700030001020000010000000c0001000000100000000100030000000100000a0b0c000100000370000400050064000aff3800147fff001e8000 00000000,00000002,00000004,00000014 1 - -32768 1000 3f800000
read_vertical_origin aaaaaaaa01f400329c40ffce0007fff90000000000010000000000180000001000000010000700030001020000010000000c0001000000100000000100030000000100000a0b0c000100000370000400050064000aff3800147fff001e8000 00000000,00000002,00000004,00000014 1 - -32768 1000 40000000
read_vertical_origin aaaaaaaa01f400329c40ffce0007fff90000000000010000000000180000001000000010000700030001020000010000000c0001000000100000000100030000000100000a0b0c000100000370000400050064000aff3800147fff001e8000 00000000,00000002,00000004,00000014 1 - 32767 1000 3f800000
read_vertical_origin aaaaaaaa01f400329c40ffce0007fff90000000000010000000000180000001000000010000700030001020000010000000c0001000000100000000100030000000100000a0b0c000100000370000400050064000aff3800147fff001e8000 00000000,00000002,00000004,00000014 1 - 32767 1000 40000000
read_vertical_origin aaaaaaaa01f400329c40ffce0007fff90000000000010000000000180000001000000010000700030001020000010000000c0001000000100000000100030000000100000a0b0c000100000370000400050064000aff3800147fff001e8000 00000000,00000000,00000004,00000014 1 - - 40000 40000000
read_vertical_origin aaaaaaaa01f400329c40ffce0007fff90000000000010000000000180000001000000010000700030001020000010000000c0001000000100000000100030000000100000a0b0c000100000370000400050064000aff3800147fff001e8000 00000000,00000000,00000004,00000014 1 - 700 40000 40000000
read_vertical_origin aaaaaaaa01f400329c40ffce0007fff90000000000010000000000180000001000000010000700030001020000010000000c0001000000100000000100030000000100000a0b0c000100000370000400050064000aff3800147fff001e8000 00000000,00000002,00000000,00000014 1 - - 40000 40000000
read_vertical_origin aaaaaaaa01f400329c40ffce0007fff90000000000010000000000180000001000000010000700030001020000010000000c0001000000100000000100030000000100000a0b0c000100000370000400050064000aff3800147fff001e8000 00000000,00000002,00000000,00000014 1 - 700 40000 40000000
read_vertical_origin aaaaaaaa01f400329c40ffce0007fff90000000000010000000000180000001000000010000700030001020000010000000c0001000000100000000100030000000100000a0b0c000100000370000400050064000aff3800147fff001e8000 00000000,00000000,00000000,00000014 1 - - 40000 40000000
read_vertical_origin aaaaaaaa01f400329c40ffce0007fff90000000000010000000000180000001000000010000700030001020000010000000c0001000000100000000100030000000100000a0b0c000100000370000400050064000aff3800147fff001e8000 00000000,00000000,00000000,00000014 1 - 700 40000 40000000
read_vertical_origin aaaaaaaa01f400329c40ffce0007fff90000000000010000000000180000001000000010000700030001020000010000000c0001000000100000000100030000000100000a0b0c000100000370000400050064000aff3800147fff001e8000 00000000,00000001,ffffffff,00000014 1 - - 40000 40000000
read_vertical_origin aaaaaaaa01f400329c40ffce0007fff90000000000010000000000180000001000000010000700030001020000010000000c0001000000100000000100030000000100000a0b0c000100000370000400050064000aff3800147fff001e8000 00000000,00000001,ffffffff,00000014 1 - 700 40000 40000000
read_vertical_origin aaaaaaaa01f400329c40ffce0007fff90000000000010000000000180000001000000010000700030001020000010000000c0001000000100000000100030000000100000a0b0c000100000370000400050064000aff3800147fff001e8000 00000000,00000002,00000004,00000000 1 - - 40000 40000000
read_vertical_origin aaaaaaaa01f400329c40ffce0007fff90000000000010000000000180000001000000010000700030001020000010000000c0001000000100000000100030000000100000a0b0c000100000370000400050064000aff3800147fff001e8000 00000000,00000002,00000004,00000000 1 - 700 40000 40000000
read_vertical_origin aaaaaaaa01f400329c40ffce0007fff90000000000010000000000180000001000000010000700030001020000010000000c0001000000100000000100030000000100000a0b0c000100000370000400050064000aff3800147fff001e8000 00000001,00000002,00000004,00000014,00000047 0 - - 1000 40000000
read_vertical_origin aaaaaaaa01f400329c40ffce0007fff90000000000010000000000180000001000000010000700030001020000010000000c0001000000100000000100030000000100000a0b0c000100000370000400050064000aff3800147fff001e8000 00000001,00000002,00000004,00000014,00000047 5 - - 1000 40000000
read_vertical_origin aaaaaaaa01f400329c40ffce0007fff90000000000010000000000180000001000000010000700030001020000010000000c0001000000100000000100030000000100000a0b0c000100000370000400050064000aff3800147fff001e8000 00000001,00000002,00000004,00000014,00000047 10 - - 1000 40000000
read_vertical_origin aaaaaaaa01f400329c40ffce0007fff90000000000010000000000180000001000000010000700030001020000010000000c0001000000100000000100030000000100000a0b0c000100000370000400050064000aff3800147fff001e8000 00000001,00000002,00000004,00000014,00000047 30 - - 1000 40000000
read_vertical_origin aaaaaaaa01f400329c40ffce0007fff90000000000010000000000180000001000000010000700030001020000010000000c0001000000100000000100030000000100000a0b0c000100000370000400050064000aff3800147fff001e8000 00000001,00000002,00000004,00000014,00000047 65535 - - 1000 40000000
read_vertical_origin aaaaaaaa01f400329c40ffce0007fff90000000000010000000000180000001000000010000700030001020000010000000c0001000000100000000100030000000100000a0b0c000100000370000400050064000aff3800147fff001e8000 00000001,00000000,00000000,00000000,00000047 20 - 700 1000 3f800000
read_vertical_origin aaaaaaaa01f400329c40ffce0007fff90000000000010000000000180000001000000010000700030001020000010000000c0001000000100000000100030000000100000a0b0c000100000370000400050064000aff3800147fff001e8000 00000001,00000000,00000000,00000014,00000047 20 - 700 1000 3f800000
read_vertical_origin aaaaaaaa01f400329c40ffce0007fff90000000000010000000000180000001000000010000700030001020000010000000c0001000000100000000100030000000100000a0b0c000100000370000400050064000aff3800147fff001e8000 00000001,00000002,00000004,00000014,00000000 5 - 700 1000 3f800000
read_vertical_origin aaaaaaaa01f400329c40ffce0007fff90000000000010000000000180000001000000010000700030001020000010000000c0001000000100000000100030000000100000a0b0c000100000370000400050064000aff3800147fff001e8000 00000001,00000002,00000004,00000014,0000005b 5 - 700 1000 3f800000
read_vertical_origin aaaaaaaa01f400329c40ffce0007fff90000000000010000000000180000001000000010000700030001020000010000000c0001000000100000000100030000000100000a0b0c000100000370000400050064000aff3800147fff001e8000 00000001,00000002,00000004,00000014,0000005f 5 - 700 1000 3f800000
read_vertical_origin aaaaaaaa01f400329c40ffce0007fff90000000000010000000000180000001000000010000700030001020000010000000c0001000000100000000100030000000100000a0b0c000100000370000400050064000aff3800147fff001e8000 00000001,00000002,00000004,00000014,ffffffff 5 - 700 1000 3f800000
read_vertical_origin aaaaaaaa01f400329c40ffce0007fff90000000000010000000000180000001000000010000700030001020000010000000c0001000000100000000100030000000100000a0b0c000100000370000400050064000aff3800147fff001e80 00000001,00000002,00000004,00000014,00000047 30 - - 1000 3f800000
read_vertical_origin aaaaaaaa01f400329c40ffce0007fff90000000000010000000000180000001000000010000700030001020000010000000c0001000000100000000100030000000100000a0b0c000100000370000400050064000aff3800147fff001e 00000001,00000002,00000004,00000014,00000047 30 - - 1000 3f800000
read_vertical_origin aaaaaaaa01f400329c40ffce0007fff90000000000010000000000180000001000000010000700030001020000010000000c0001000000100000000100030000000100000a0b0c000100000370000400050064000aff3800147fff00 00000001,00000002,00000004,00000014,00000047 30 - - 1000 3f800000
read_vertical_origin aaaaaaaa01f400329c40ffce0007fff90000000000010000000000180000001000000010000700030001020000010000000c0001000000100000000100030000000100000a0b0c000100000370000400050064000aff3800147f 00000001,00000002,00000004,00000014,00000047 30 - - 1000 3f800000
read_vertical_origin aaaaaaaa01f400320000000000010000000000180000001000000010000700000000000000010000000c0001000000100000000100030000000100000a0b0c 00000000,00000001,00000004,0000000c 0 - 700 1000 40000000
read_vertical_origin aaaaaaaa01f400320000000000010000000000180000001000000010000700000000000000010000000c0001000000100000000100030000000100000a0b0c 00000000,00000001,00000004,0000000c 0 - - 1000 40000000
read_vertical_origin aaaaaaaa01f400320000000000010000000000180000001000000010000700000000000000010000000c0001000000100000000100030000000100000a0b0c 00000000,00000000,00000004,0000000c 0 - 700 1000 40000000
read_vertical_origin 0000000000010000000000080002001c6861736300000000686473630001000000010000000c0001000000100000000100020000000100000a0b 00000002,00000004,447a0000,44480000 0 - - 1000 3f800000
read_vertical_origin 0000000000010000000000080002001c6861736300000000686473630001000000010000000c0001000000100000000100020000000100000a0b 00000002,00000004,447a0000,44480000 0 0 - 1000 3f800000
read_vertical_origin - 00000002,00000000,447a0000,44480000 0 - 5 1000 c0000000
read_vertical_origin aaaaaaaa01f400329c40ffce0007fff90000000000010000000000180000001000000010000700030001020000010000000c0001000000100000000100030000000100000a0b0c000100000370000400050064000aff3800147fff001e8000 00000001,00000002,00000004,00000014,00000047 10 - - 1000 00000000
read_vertical_origin aaaaaaaa01f400329c40ffce0007fff90000000000010000000000180000001000000010000700030001020000010000000c0001000000100000000100030000000100000a0b0c000100000370000400050064000aff3800147fff001e8000 00000000,00000002,00000004,00000014 1 - 700 1000 00000000
read_vertical_origin aaaaaaaa01f400329c40ffce0007fff90000000000010000000000180000001000000010000700030001020000010000000c0001000000100000000100030000000100000a0b0c000100000370000400050064000aff3800147fff001e8000 00000001,00000002,00000004,00000014,00000047 10 - - 1000 80000000
read_vertical_origin aaaaaaaa01f400329c40ffce0007fff90000000000010000000000180000001000000010000700030001020000010000000c0001000000100000000100030000000100000a0b0c000100000370000400050064000aff3800147fff001e8000 00000000,00000002,00000004,00000014 1 - 700 1000 80000000
read_vertical_origin aaaaaaaa01f400329c40ffce0007fff90000000000010000000000180000001000000010000700030001020000010000000c0001000000100000000100030000000100000a0b0c000100000370000400050064000aff3800147fff001e8000 00000001,00000002,00000004,00000014,00000047 10 - - 1000 00000001
read_vertical_origin aaaaaaaa01f400329c40ffce0007fff90000000000010000000000180000001000000010000700030001020000010000000c0001000000100000000100030000000100000a0b0c000100000370000400050064000aff3800147fff001e8000 00000000,00000002,00000004,00000014 1 - 700 1000 00000001
read_vertical_origin aaaaaaaa01f400329c40ffce0007fff90000000000010000000000180000001000000010000700030001020000010000000c0001000000100000000100030000000100000a0b0c000100000370000400050064000aff3800147fff001e8000 00000001,00000002,00000004,00000014,00000047 10 - - 1000 7f800000
read_vertical_origin aaaaaaaa01f400329c40ffce0007fff90000000000010000000000180000001000000010000700030001020000010000000c0001000000100000000100030000000100000a0b0c000100000370000400050064000aff3800147fff001e8000 00000000,00000002,00000004,00000014 1 - 700 1000 7f800000
read_vertical_origin aaaaaaaa01f400329c40ffce0007fff90000000000010000000000180000001000000010000700030001020000010000000c0001000000100000000100030000000100000a0b0c000100000370000400050064000aff3800147fff001e8000 00000001,00000002,00000004,00000014,00000047 10 - - 1000 7fc00000
read_vertical_origin aaaaaaaa01f400329c40ffce0007fff90000000000010000000000180000001000000010000700030001020000010000000c0001000000100000000100030000000100000a0b0c000100000370000400050064000aff3800147fff001e8000 00000000,00000002,00000004,00000014 1 - 700 1000 7fc00000
xmtx_sb 000005 1 0 0
xmtx_advance 0001 0 1 0
xmtx_sb 00000005 0 1 0
xmtx_advance 0001 1 1 0
xmtx_advance 000005 1 2 9
xmtx_sb 0000050006 1 1 1
vorg_origin 00000000000005 1 0
vorg_origin 000000000000050001 1 0
vorg_origin 000000000000050001000000 1 0
read_vertical_origin - 00000001,00000001,00000004,00000000,00000000 0 - - 1000 3f800000
read_vertical_origin - 00000001,00000001,00000004,00000000,00000001 0 - - 1000 3f800000
read_vertical_origin - 00000000,00000001,00000004,00000000 0 - 5 1000 3f800000
read_vertical_origin - 00000000,00000000,00000004,00000000 0 - 5 1000 3f800000
";

/// Lines that are no case; each is answered by a question mark.
const NO_CASES: [&str; 84] = [
    "xmtx_advance",
    "xmtx_advance -",
    "xmtx_advance - 0",
    "xmtx_advance - 0 1",
    "xmtx_advance - 0 1 0 0",
    "xmtx_advance - 0 65536 0",
    "xmtx_advance - 0 1 65536",
    "xmtx_advance - 4294967296 1 0",
    "xmtx_advance - -1 1 0",
    "xmtx_advance 0 0 1 0",
    "xmtx_advance 0A 0 1 0",
    "xmtx_advance - 0 - 0",
    "xmtx_advance  - 0 1 0",
    "xmtx_sb",
    "xmtx_sb - 0 1",
    "xmtx_sb - 0 1 0 -",
    "xmtx_sb - 0 65536 0",
    "xmtx_sb - 0 -1 0",
    "xmtx_sb - 0 1 65536",
    "xmtx_sb - 4294967296 1 0",
    "xmtx_sb - 0 1 0 ",
    "vorg_origin",
    "vorg_origin -",
    "vorg_origin - 0",
    "vorg_origin - 0 65536",
    "vorg_origin - 4294967296 0",
    "vorg_origin - 0 0 0",
    "vorg_origin - 0 -1",
    "vorg_origin 0g 0 0",
    "adjusted_advance",
    "adjusted_advance - 0 1 0 0 -",
    "adjusted_advance - 0 65536 0 0 - 3f800000",
    "adjusted_advance - 0 1 0 65536 - 3f800000",
    "adjusted_advance - 4294967296 1 0 0 - 3f800000",
    "adjusted_advance - 0 1 4294967296 0 - 3f800000",
    "adjusted_advance - 0 1 0 0 32768 3f800000",
    "adjusted_advance - 0 1 0 0 - 3f80000",
    "adjusted_advance - 0 1 0 0 - 1.0",
    "adjusted_advance - 0 1 0 0 - 3f800000 0",
    "adjusted_advance - 0 1 0 0 3f800000",
    "adjusted_sb",
    "adjusted_sb - 0 1 0 0 -",
    "adjusted_sb - 0 65536 0 0 - 3f800000",
    "adjusted_sb - 0 1 0 0 - nan",
    "adjusted_sb - 0 1 0 0 0, 3f800000",
    "read_advance_width",
    "read_advance_width - 00000004,00000001,00000000 0 -",
    "read_advance_width - 00000004,00010000,00000000 0 - 3f800000",
    "read_advance_width - 00000004,00000001 0 - 3f800000",
    "read_advance_width - 00000004,00000001,00000000,00000000 0 - 3f800000",
    "read_advance_width - - 0 - 3f800000",
    "read_advance_width - 4 1 0 0 - 3f800000",
    "read_advance_width - 4,1,0 0 - 3f800000",
    "read_advance_width - 00000004,00000001,00000000 65536 - 3f800000",
    "read_lsb",
    "read_lsb - 00000004,ffffffff,00000000 0 - 3f800000",
    "read_lsb - 00000004,00000001 0 - 3f800000",
    "read_lsb - 00000004,00000001,00000000 0 - 3f800000 0",
    "read_advance_height",
    "read_advance_height - 00000000,00000001,00000004 0 - 3f800000",
    "read_advance_height - 00000000,00010000,00000004,00000000 0 - 3f800000",
    "read_advance_height - 00000000,00000001,00000004,00000000,00000000 0 - 3f800000",
    "read_advance_height - 00000001,00000001,00000004,00000000 0 - 3f800000",
    "read_advance_height - 00000001,00010000,00000004,00000000,00000000 0 - 3f800000",
    "read_advance_height - 00000002,00000000,00000000 0 - 3f800000",
    "read_advance_height - 00000002,00000000,00000000,00000000,00000000 0 - 3f800000",
    "read_advance_height - 00000003,00000001,00000004,00000000 0 - 3f800000",
    "read_advance_height - - 0 - 3f800000",
    "read_advance_height - 00000000,00000000 0 - 3f800000",
    "read_tsb",
    "read_tsb - 00000001,00000001,00000004,00000000,00000000,00000000 0 - 3f800000",
    "read_tsb - 00000001,80000000,00000004,00000000,00000000 0 - 3f800000",
    "read_tsb - 00000000,00000001,00000004,00000000 0 -",
    "read_vertical_origin",
    "read_vertical_origin - 00000000,00000001,00000004,00000000 0 - - 1000",
    "read_vertical_origin - 00000000,00000001,00000004,00000000 0 - 32768 1000 3f800000",
    "read_vertical_origin - 00000000,00000001,00000004,00000000 0 - - 65536 3f800000",
    "read_vertical_origin - 00000000,00000001,00000004,00000000 0 - - - 3f800000",
    "read_vertical_origin - 00000000,00010000,00000004,00000000 0 - - 1000 3f800000",
    "read_vertical_origin - 00000001,00000001,00000004,00000000 0 - - 1000 3f800000",
    "read_vertical_origin - 00000000,00000001,00000004,00000000 0 - -- 1000 3f800000",
    "read_vertical_origin - 00000000,00000001,00000004,00000000 0 - 0 0 1000 3f800000",
    "read_width - 00000004,00000001,00000000 0 - 3f800000",
    "xmtx - 0 1 0",
];

/// A line of the stored sample has at most this many bytes.
const SHORT: usize = 500;

/// A spread of `count` lines for a stored sample, every function and every refusal in it.
pub fn sample(seed: u64, count: usize) -> Vec<String> {
    let mut lines: Vec<String> = LISTED.lines().map(str::to_string).collect();
    lines.extend(NO_CASES.map(str::to_string));
    let rest = count - lines.len();
    let short = |line: &String| line.len() <= SHORT;
    lines.extend(with_counts(seed).filter(short).take(rest));
    lines
}
