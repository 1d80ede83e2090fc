//! hmtx, vmtx, VORG, and the counts of hhea and vhea, damaged: what is changed stands behind the font's bytes, with a
//! new directory, and last of all a table that is cut, so that the font ends with it.

use crate::face::{offset, Face};
use crate::filled::{at, directory, u16_at, upright, Place};
use crate::lines::{tried, Lines};
use crate::metrics::{self, y_max, SCALES};
use crate::random::Random;
use crate::text::{bytes_text, EMPTY};
use swash::FontRef;

/// Where hhea and vhea have the count of long records.
const COUNT: usize = 34;

type Tables = Vec<(&'static [u8; 4], Place)>;

/// A VORG of some glyphs, every third of them, in order.
fn vorg(glyphs: u16, random: &mut Random) -> Vec<u8> {
    let count = 1 + random.below(24) as u16;
    let numbers = [1, 0, random.bits() as u16, count];
    let mut vorg: Vec<u8> = numbers.iter().flat_map(|n| n.to_be_bytes()).collect();
    for k in 0..count {
        let glyph = (3 * k).min(glyphs.saturating_sub(1));
        vorg.extend(glyph.to_be_bytes());
        vorg.extend((random.bits() as u16).to_be_bytes());
    }
    vorg
}

/// A limit, what is next to a number that was there, or any.
fn number(random: &mut Random, old: u16, glyphs: u16) -> u16 {
    let near = old.wrapping_add(random.below(5) as u16).wrapping_sub(2);
    let any = random.bits() as u16;
    random.pick(&[0, 0, 1, old / 2, near, near, glyphs, 32767, 65535, any])
}

/// One face, so many times; not where one of the tables is missing that swash reads its numbers by.
pub fn ask(lines: &mut Lines, face: &Face, rounds: u64, random: impl Fn(u64) -> Random) {
    let needed: [&[u8; 4]; 4] = [b"head", b"maxp", b"hhea", b"hmtx"];
    let measures = tried(|| face.font.metrics(&[]));
    let Some(measures) = measures.filter(|_| needed.iter().all(|tag| face.has(tag))) else {
        if rounds > 0 {
            lines.leave(
                "its hmtx is not damaged: a table is missing, or swash stops on its measures",
            );
        }
        return;
    };
    let glyphs = measures.glyph_count;
    let tops = tops(face, glyphs).unwrap_or_else(|| {
        if rounds > 0 {
            lines.leave("no origin by glyf of its damaged copies: yMax does not show");
        }
        vec![]
    });
    let mut copy = face.font.data.to_vec();
    let mut left = 0;
    for round in 0..rounds {
        let done = one(lines, face, &mut copy, glyphs, &tops, &mut random(round));
        left += done.is_none() as u64;
        copy.truncate(face.font.data.len());
    }
    if left > 0 {
        let why = "swash can't open them, or stops on their measures";
        lines.leave(&format!("{left} of {rounds} damaged copies: {why}"));
    }
}

/// The yMax of each glyph, where swash has origins from there, by a copy in which each top bearing is 257 and does
/// not vary.
fn tops(face: &Face, glyphs: u16) -> Option<Vec<Option<i16>>> {
    tried(|| {
        let mut copy = face.font.data.to_vec();
        let mut head = face.table(b"hhea").to_vec();
        head.get_mut(COUNT..COUNT + 2)?.copy_from_slice(&[0, 1]);
        let bearings = vec![1; 4 + 2 * glyphs as usize];
        let tables = [
            (b"vhea", at(copy.len(), head.len())),
            (b"vmtx", at(copy.len() + head.len(), bearings.len())),
            (b"VORG", at(0, 0)),
            (b"VVAR", at(0, 0)),
        ];
        let directory = directory(&face.font, &tables)?;
        copy.extend([head, bearings].concat());
        let start = copy.len() as u32;
        copy.extend(directory);
        let font = FontRef::from_offset(&copy, start)?;
        let metrics = font.glyph_metrics(&[]);
        let y = |glyph| y_max(&metrics, glyph).map(|y| y as i16);
        Some((0..glyphs).map(y).collect())
    })
    .flatten()
}

/// Some tables of their own, behind the font.
struct Behind<'a> {
    bytes: Vec<u8>,
    tables: Tables,
    face: &'a Face<'a>,
    glyphs: u16,
}

impl Behind<'_> {
    /// Another place of a table, in the stead of the one before.
    fn put(&mut self, tag: &'static [u8; 4], place: Place) {
        self.tables.retain(|(other, _)| *other != tag);
        self.tables.push((tag, place));
    }

    fn add(&mut self, tag: &'static [u8; 4], table: &[u8]) {
        let start = self.face.font.data.len() + self.bytes.len();
        self.put(tag, at(start, table.len()));
        self.bytes.extend(table);
    }

    /// A copy of hhea or vhea with another count of long records, or one that ends before it; of hhea for a vhea that
    /// the font has not.
    fn count(&mut self, tag: &'static [u8; 4], random: &mut Random) {
        let own = if self.face.has(tag) { tag } else { b"hhea" };
        let mut head = self.face.table(own).to_vec();
        let old = u16_at(&head, COUNT).unwrap_or(0) as u16;
        let new = number(random, old, self.glyphs).to_be_bytes();
        if let Some(count) = head.get_mut(COUNT..COUNT + 2) {
            count.copy_from_slice(&new);
        }
        if random.below(12) == 0 {
            head.truncate(COUNT + random.below(2) as usize);
        }
        self.add(tag, &head);
    }

    /// A table at another place: 0, the font's last bytes, past them, or any.
    fn offset(&mut self, tag: &'static [u8; 4], random: &mut Random) {
        let length = self.face.font.data.len();
        let near = length.saturating_sub(random.below(64) as usize);
        let any = random.bits() as u32 as usize;
        let start = random.pick(&[0, 1, near, near, length + 4096, any, u32::MAX as usize]);
        self.put(tag, at(start, 0));
    }

    /// VORG with other numbers: the default, the count, some records.
    fn records(&mut self, mut vorg: Vec<u8>, random: &mut Random) {
        for _ in 0..=random.below(4) {
            let p = match random.below(3) {
                0 => 6,
                _ => 4 + 2 * random.below(vorg.len() as u64 / 2 - 2) as usize,
            };
            let old = u16_at(&vorg, p).unwrap_or(0) as u16;
            let new = number(random, old, self.glyphs);
            vorg[p..p + 2].copy_from_slice(&new.to_be_bytes());
        }
        self.add(b"VORG", &vorg);
    }
}

/// In a copy of the font.
fn one(
    lines: &mut Lines,
    face: &Face,
    copy: &mut Vec<u8>,
    glyphs: u16,
    tops: &[Option<i16>],
    random: &mut Random,
) -> Option<()> {
    let mut behind = Behind {
        bytes: vec![],
        tables: vec![],
        face,
        glyphs,
    };
    // for vertical type a copy has its own tables, the horizontal ones once more, or a VORG with these
    let kind = random.below(3);
    let own = face.has(b"vhea") && face.has(b"vmtx");
    if kind > 0 && !own {
        behind.tables = upright(&face.font).unwrap_or_else(|| {
            let like = |tag| crate::face::place(&face.font, tag);
            let [head, table] = [b"hhea", b"hmtx"].map(like).map(|(p, n)| at(p, n));
            vec![(b"vhea", head), (b"vmtx", table)]
        });
    }
    let made = match face.has(b"VORG") {
        true => face.table(b"VORG").to_vec(),
        false => vorg(glyphs, random),
    };
    let with_vorg = kind == 2 || (own && face.has(b"VORG"));
    if with_vorg && !face.has(b"VORG") {
        behind.add(b"VORG", &made);
    }
    let vertical = own || kind > 0;
    let mut tags = vec![b"hmtx"];
    tags.extend(vertical.then_some(b"vmtx"));
    tags.extend(with_vorg.then_some(b"VORG"));
    // what the font ends with
    let mut last = None;
    match random.below(8) {
        0..=2 => behind.count(b"hhea", random),
        3 => behind.offset(random.pick(&tags), random),
        4 if with_vorg && made.len() >= 12 => behind.records(made.clone(), random),
        _ => {
            let tag = random.pick(&tags);
            let table = match tag {
                b"hmtx" => face.table(b"hmtx"),
                b"vmtx" if own => face.table(b"vmtx"),
                b"vmtx" => face.table(b"hmtx"),
                _ => &made[..],
            };
            // near its start, near its end, or anywhere; a long one is not copied whole
            let most = table.len().min(2048) as u64;
            let near = table.len().saturating_sub(random.below(16) as usize);
            let [any, few] = [most + 1, 24].map(|n| random.below(n) as usize);
            let length = random.pick(&[near, any, few]);
            if length <= 2048 {
                last = Some((tag, table[..length.min(table.len())].to_vec()));
            } else {
                behind.offset(tag, random);
            }
        }
    }
    if vertical && random.below(3) == 0 {
        behind.count(b"vhea", random);
    }
    // where nothing varies the numbers show themselves
    let plain = random.below(4) == 0;
    if plain {
        for tag in [b"HVAR", b"MVAR", b"VVAR"] {
            behind.put(tag, at(0, 0));
        }
    }
    let whole = face.font.data.len();
    let start = whole + behind.bytes.len();
    if let Some((tag, table)) = &last {
        // the directory has so many records, whatever is in them
        behind.put(tag, at(0, 0));
        let size = directory(&face.font, &behind.tables)?.len();
        behind.put(tag, at(start + size, table.len()));
    }
    let directory = directory(&face.font, &behind.tables)?;
    let cut = last.map_or(vec![], |(_, table)| table);
    copy.extend([behind.bytes, directory, cut].concat());
    let font = FontRef::from_offset(copy, start as u32)?;
    let places = [b"HVAR", b"VVAR", b"MVAR"].map(|tag| offset(&font, tag).to_string());
    let bytes = bytes_text(copy[whole..].iter().copied());
    lines.put("damaged", &[&places[..], &[bytes]].concat());
    metrics_of(lines, &Face { font, ..*face }, tops, plain, random)
}

/// The five metrics of some glyphs.
fn metrics_of(
    lines: &mut Lines,
    face: &Face,
    tops: &[Option<i16>],
    plain: bool,
    random: &mut Random,
) -> Option<()> {
    let (measures, metrics) = tried(|| (face.font.metrics(&[]), face.font.glyph_metrics(&[])))?;
    metrics::unvaried(lines, &measures);
    metrics::vertical(lines, face, &metrics);
    metrics::tables(lines, face.font);
    let count = tops.len().max(measures.glyph_count.into()) as u16;
    let [_, level, _, upright, _] = crate::face::widths(&face.font).map(|n| n as u16);
    let mut glyphs = vec![0, 1, 2, count.saturating_sub(1), count, 65535];
    for long in [level, upright] {
        glyphs.extend([long.wrapping_sub(1), long, long.wrapping_add(1)]);
    }
    glyphs.extend((0..8).map(|_| random.below(count as u64 + 1) as u16));
    glyphs.sort();
    glyphs.dedup();
    for &glyph in &glyphs {
        // of a glyph past them it is not known
        if let Some(top) = tops.get(usize::from(glyph)) {
            let top = top.map_or(EMPTY.to_string(), |y| y.to_string());
            lines.put("top", &[glyph.to_string(), top]);
        }
    }
    if plain {
        metrics::at(lines, face.font, &[], SCALES[0], "plain", &glyphs);
    }
    let axes = face.font.variations().len();
    let inside = |_| (random.below(32769) as i32 - 16384) as i16;
    let lists = [vec![], (0..axes).map(inside).collect(), vec![16384; axes]];
    for list in lists {
        let scale = random.pick(&SCALES);
        metrics::at(lines, face.font, &list, scale, "read", &glyphs);
    }
    Some(())
}
