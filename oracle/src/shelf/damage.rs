//! Damage: fields of the variation tables, or of those of widths, set to limits, bytes changed, the font cut, the
//! directory moved.

use super::font::{
    record, u16_at, u32_at, FVAR, HHEA, HMTX, HVAR, LONG_RECORDS, MAXP, MVAR, VHEA, VMTX, VORG,
    VVAR,
};
use crate::random::Random;

/// What was done to a font, so that it can be undone, and told.
pub struct Damage {
    /// place, what was there, what is there now
    changes: Vec<(usize, Vec<u8>, Vec<u8>)>,
    /// how long the font is now
    pub length: usize,
    cut: bool,
}

impl Damage {
    fn set(&mut self, data: &mut [u8], p: usize, bytes: &[u8]) {
        if let Some(there) = data.get_mut(p..p + bytes.len()) {
            self.changes.push((p, there.to_vec(), bytes.to_vec()));
            there.copy_from_slice(bytes);
        }
    }

    pub fn undo(&self, data: &mut [u8]) {
        for (p, old, _) in self.changes.iter().rev() {
            data[*p..*p + old.len()].copy_from_slice(old);
        }
    }

    pub fn text(&self) -> String {
        let hex = |bytes: &[u8]| crate::text::bytes_text(bytes.iter().copied());
        let mut parts: Vec<String> = self
            .changes
            .iter()
            .map(|(p, old, new)| format!("at {p} {} for {}", hex(new), hex(old)))
            .collect();
        if self.cut {
            parts.push(format!("cut to {} bytes", self.length));
        }
        parts.join(", ")
    }
}

/// The fields of a face's variation tables, or of those of widths: where each is, and how many bytes it has.
#[derive(Default)]
pub struct Fields {
    fields: Vec<(usize, usize)>,
    /// start and length of each table
    tables: Vec<(usize, usize)>,
    /// where the directory has the offset and the length of a table that matters
    directory: Vec<usize>,
    /// where the three numbers of an axis are
    axes: Vec<usize>,
    /// where HVAR and VVAR have the offset of the advances' map, if they have one
    maps: Vec<usize>,
    /// where MVAR's records have their two indices
    records: Vec<usize>,
}

/// What an axis' numbers are damaged to, raw.
const AXIS_NUMBERS: [i32; 9] = [
    i32::MIN,
    i32::MIN + 1,
    -65536,
    -1,
    0,
    1,
    32768,
    65536,
    i32::MAX,
];

/// So many elements of each list of fields are taken.
const MOST: usize = 12;

impl Fields {
    pub fn of(data: &[u8], directory: usize) -> Self {
        let mut all = Fields::default();
        for tag in [FVAR, HVAR, VVAR, MVAR, MAXP] {
            let p = match record(data, directory, tag) {
                Some(p) => p,
                None => continue,
            };
            all.directory.extend([p + 8, p + 12]);
            let start = u32_at(data, p + 8).unwrap_or(0) as usize;
            if tag == MAXP {
                continue;
            }
            all.tables
                .push((start, u32_at(data, p + 12).unwrap_or(0) as usize));
            match tag {
                FVAR => all.fvar(data, start),
                MVAR => all.mvar(data, start),
                _ => all.metrics(data, start),
            }
        }
        all
    }

    /// Those by which widths are read: the counts of long records, VORG's fields, hmtx, vmtx and VORG.
    pub fn of_widths(data: &[u8], directory: usize) -> Self {
        let mut all = Fields::default();
        for tag in [HHEA, HMTX, VHEA, VMTX, VORG] {
            let p = match record(data, directory, tag) {
                Some(p) => p,
                None => continue,
            };
            all.directory.extend([p + 8, p + 12]);
            let start = u32_at(data, p + 8).unwrap_or(0) as usize;
            if tag == HHEA || tag == VHEA {
                // they weigh more
                all.push(start, &[LONG_RECORDS; 8], 2);
                continue;
            }
            all.tables
                .push((start, u32_at(data, p + 12).unwrap_or(0) as usize));
            if tag == VORG {
                all.vorg(data, start);
            }
        }
        // for bearings that vary
        for tag in [HVAR, VVAR] {
            let start = record(data, directory, tag).and_then(|p| u32_at(data, p + 8));
            let map = start.map(|start| start as usize + 8);
            all.maps
                .extend(map.filter(|p| u32_at(data, *p).unwrap_or(0) != 0));
        }
        all
    }

    /// The default, the count, and some records: those that the search meets first, and the first ones.
    fn vorg(&mut self, data: &[u8], start: usize) {
        self.push(start, &[4, 6, 6, 6], 2);
        let count = u16_at(data, start + 6).unwrap_or(0) as usize;
        let met = (1..6).map(|k| count >> k);
        for record in met.chain(0..count.min(MOST)) {
            self.push(start + 8 + 4 * record, &[0, 2], 2);
        }
    }

    fn push(&mut self, start: usize, places: &[usize], size: usize) {
        let fields = places.iter().map(|p| (start + p, size));
        self.fields.extend(fields);
    }

    fn fvar(&mut self, data: &[u8], start: usize) {
        // the header weighs more
        for _ in 0..4 {
            self.push(start, &[4, 8, 10, 12, 14], 2);
        }
        let axes = u16_at(data, start + 8).unwrap_or(0) as usize;
        for axis in 0..axes.min(MOST) {
            self.axes.push(start + 20 + 20 * axis);
            self.push(start + 16 + 20 * axis, &[0, 4, 8, 12], 4);
            self.push(start + 16 + 20 * axis, &[16, 18], 2);
        }
        // the name id of an instance, and its PostScript name id, if it has one
        let [instances, size] = [12, 14].map(|p| u16_at(data, start + p).unwrap_or(0) as usize);
        for instance in 0..instances.min(MOST) {
            let record = start + 16 + 20 * axes + size * instance;
            self.push(record, &[0], 2);
            if size == 6 + 4 * axes {
                self.push(record, &[size - 2], 2);
            }
        }
    }

    fn metrics(&mut self, data: &[u8], start: usize) {
        self.push(start, &[4, 8, 12], 4);
        self.push(start, &[4, 8, 12], 4);
        for map in [8, 12] {
            let offset = u32_at(data, start + map).unwrap_or(0) as usize;
            if offset != 0 {
                if map == 8 {
                    self.maps.push(start + map);
                }
                self.push(start + offset, &[0, 2, 0, 2], 2);
                self.push(start + offset + 4, &[0, 1, 2, 3, 5, 8, 13, 21], 1);
            }
        }
        let store = u32_at(data, start + 4).unwrap_or(0) as usize;
        self.store(data, start + store);
    }

    fn mvar(&mut self, data: &[u8], start: usize) {
        for _ in 0..3 {
            self.push(start, &[6, 8, 10], 2);
        }
        let count = u16_at(data, start + 8).unwrap_or(0) as usize;
        for record in 0..count.min(MOST) {
            self.records.push(start + 16 + 8 * record);
            self.push(start + 12 + 8 * record, &[0], 4);
            self.push(start + 12 + 8 * record, &[4, 6], 2);
        }
        let store = u16_at(data, start + 10).unwrap_or(0) as usize;
        self.store(data, start + store);
    }

    fn store(&mut self, data: &[u8], store: usize) {
        self.push(store, &[2], 4);
        self.push(store, &[6, 6], 2);
        let regions = store + u32_at(data, store + 2).unwrap_or(0) as usize;
        self.push(regions, &[0, 2, 0, 2], 2);
        for number in 0..MOST {
            self.push(regions + 4 + 2 * number, &[0], 2);
        }
        let count = u16_at(data, store + 6).unwrap_or(0) as usize;
        for k in 0..count.min(MOST) {
            self.push(store + 8 + 4 * k, &[0], 4);
            let subtable = store + u32_at(data, store + 8 + 4 * k).unwrap_or(0) as usize;
            self.push(subtable, &[0, 2, 4, 2, 4, 6, 8, 10], 2);
            self.push(subtable + 10, &[0, 1, 2, 3, 4, 5, 6, 7], 1);
        }
    }

    /// Whether there is nothing to damage.
    pub fn is_empty(&self) -> bool {
        self.tables.is_empty() || self.fields.is_empty()
    }

    /// What few fonts have, so that it is damaged too: a map for the bearings, the advances' one, and an
    /// MVAR whose indices, as swash takes them, lead to its rows.
    fn fill(&self, data: &mut [u8], done: &mut Damage) {
        for p in &self.maps {
            let offset = u32_at(data, *p).unwrap_or(0);
            done.set(data, p + 4, &offset.to_be_bytes());
        }
        for p in &self.records {
            let both = u32_at(data, *p).unwrap_or(0);
            done.set(data, *p, &both.rotate_left(16).to_be_bytes());
        }
    }

    /// A font with a few of these changed; not where there are none.
    pub fn damage(&self, data: &mut [u8], random: &mut Random) -> Damage {
        let mut done = Damage {
            changes: vec![],
            length: data.len(),
            cut: false,
        };
        if random.below(3) == 0 {
            self.fill(data, &mut done);
        }
        let kind = random.below(20);
        if kind < 2 {
            let p = random.pick(&self.directory);
            let new = number(random, u32_at(data, p).unwrap_or(0), 4, p, data.len());
            done.set(data, p, &new.to_be_bytes());
        }
        if (2..5).contains(&kind) {
            // around a table's start, within it, or at one of its fields
            let (start, length) = random.pick(&self.tables);
            let p = match random.below(3) {
                0 => start + random.below(24) as usize,
                1 => start + random.below(length as u64 + 1) as usize,
                _ => random.pick(&self.fields).0 + random.below(4) as usize,
            };
            done.length = p.min(data.len());
            done.cut = true;
        }
        if kind == 5 && !self.axes.is_empty() {
            // one by one they would seldom meet where a value can't be normalised
            let p = random.pick(&self.axes);
            for k in 0..3 {
                let limit: i32 = random.pick(&AXIS_NUMBERS);
                done.set(data, p + 4 * k, &limit.to_be_bytes());
            }
        }
        if kind == 4 || kind > 5 || (kind == 5 && self.axes.is_empty()) {
            for _ in 0..=random.below(3) {
                let (p, size) = random.pick(&self.fields);
                let old = match size {
                    1 => data.get(p).map_or(0, |byte| *byte as u32),
                    2 => u16_at(data, p).unwrap_or(0) as u32,
                    _ => u32_at(data, p).unwrap_or(0),
                };
                let new = number(random, old, size, p, data.len()).to_be_bytes();
                done.set(data, p, &new[4 - size..]);
            }
            for _ in 0..random.below(3) {
                let (start, length) = random.pick(&self.tables);
                let p = start + random.below(length as u64 + 1) as usize;
                done.set(data, p, &[random.bits() as u8]);
            }
        }
        done
    }
}

/// A number for a field of so many bytes: a limit, a neighbour of what was there, one that leads to
/// the font's end or to 2^32, or any.
fn number(random: &mut Random, old: u32, size: usize, place: usize, length: usize) -> u32 {
    let limits: &[u32] = match size {
        1 => &[0, 1, 0x7f, 0x80, 0xff],
        2 => &[0, 1, 2, 0x7fff, 0x8000, 0xffff],
        _ => &[0, 1, 0x7fff_ffff, 0x8000_0000, 0xffff_ffff],
    };
    let near = random.below(9) as u32;
    match random.below(8) {
        0..=3 => random.pick(limits),
        4 => old.wrapping_add(near).wrapping_sub(4),
        5 => (length as u32)
            .wrapping_sub(place as u32)
            .wrapping_add(near),
        6 => 0u32.wrapping_sub(place as u32).wrapping_add(near),
        _ => random.magnitude(8 * size as u64) as u32,
    }
}
