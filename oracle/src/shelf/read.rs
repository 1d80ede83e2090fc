//! hmtx, vmtx and VORG, and widths in one call: asked of the library and of the rules. Not of swash, whose files
//! here do not read these tables; `oracle/swash` asks the whole of it.

use super::font::Font;
use crate::axes::rules::Answer;
use crate::metrics::rules::Place;
use crate::store::rules::{Map, COUNTED};
use crate::suolluvik::{self, Refusal};
use crate::widths::rules::{self, Table};
use std::fmt::Debug;

/// A table's four, for hmtx and then for vmtx, and VORG's.
pub const FUNCTIONS: [&str; 9] = [
    "xmtx_advance, hmtx",
    "xmtx_sb, hmtx",
    "adjusted_advance, hmtx and HVAR",
    "adjusted_sb, hmtx and HVAR",
    "xmtx_advance, vmtx",
    "xmtx_sb, vmtx",
    "adjusted_advance, vmtx and VVAR",
    "adjusted_sb, vmtx and VVAR",
    "vorg_origin",
];
const VMTX: usize = 4;
const ORIGIN: usize = 8;

pub const COLUMNS: [&str; 7] = [
    "cases",
    "a value",
    "past count",
    "refused by 5",
    "refused by 1",
    "refused by 2",
    "differences",
];

#[derive(Clone, Copy, Default)]
pub struct Tally {
    pub cases: u64,
    values: u64,
    /// a value, and a row past its subtable's item count is met
    outside: u64,
    /// by 5, 1 and 2
    refused: [u64; 3],
    pub differences: u64,
}

impl Tally {
    pub fn add(&mut self, other: &Tally) {
        self.cases += other.cases;
        self.values += other.values;
        self.outside += other.outside;
        for (sum, more) in self.refused.iter_mut().zip(other.refused) {
            *sum += more;
        }
        self.differences += other.differences;
    }

    pub fn columns(&self) -> [u64; COLUMNS.len()] {
        let [by_5, by_1, by_2] = self.refused;
        let (values, outside) = (self.values, self.outside);
        [
            self.cases,
            values,
            outside,
            by_5,
            by_1,
            by_2,
            self.differences,
        ]
    }
}

/// So many pairs of a glyph and a coordinate list are asked for of a table of deltas; but each list that is taken
/// is asked for at every glyph, and two are. They lie as far apart among all lists as they can.
const PAIRS: usize = 100_000;

/// One for each list in turn.
const SCALES: [f32; 7] = [1., 0.015625, -1.5, 1e-3, 0., f32::INFINITY, f32::NAN];

/// What is compared of a face, and what differs.
#[derive(Default)]
pub struct Reading {
    /// the font, and what was done to it
    pub input: String,
    tallies: [Tally; FUNCTIONS.len()],
}

fn ours<T, U>(answer: Result<T, Refusal>, shown: fn(T) -> U) -> Answer<U> {
    answer.map(shown).map_err(Refusal::number)
}

/// Its bits, a NaN as a NaN.
fn bits(x: f32) -> u32 {
    if x.is_nan() {
        f32::NAN.to_bits()
    } else {
        x.to_bits()
    }
}

impl Reading {
    /// Forgets the counts, and answers them.
    pub fn take(&mut self) -> [Tally; FUNCTIONS.len()] {
        std::mem::take(&mut self.tallies)
    }

    fn case<T: PartialEq + Debug>(
        &mut self,
        function: usize,
        arguments: impl Fn() -> String,
        ours: Answer<T>,
        said: Answer<T>,
        outside: bool,
    ) {
        let tally = &mut self.tallies[function];
        tally.cases += 1;
        let place = match said {
            Ok(_) if outside => Some(&mut tally.outside),
            Ok(_) => Some(&mut tally.values),
            Err(5) => Some(&mut tally.refused[0]),
            Err(1) => Some(&mut tally.refused[1]),
            Err(2) => Some(&mut tally.refused[2]),
            Err(_) => None,
        };
        match place {
            Some(count) if ours == said => *count += 1,
            _ => {
                tally.differences += 1;
                println!("difference: {}", self.input);
                println!("    {}, {}", FUNCTIONS[function], arguments());
                println!("    ours {ours:?}; the rules {said:?}");
            }
        }
    }

    /// A face: the three tables at the glyphs, and the widths at the lists.
    pub fn ask(&mut self, font: &Font, glyphs: &[u16], lists: &[Vec<i16>]) {
        for (first, table) in [(0, font.hmtx), (VMTX, font.vmtx)] {
            // with no table one glyph tells all
            let there = if table.at == 0 { &glyphs[..1] } else { glyphs };
            for glyph in there {
                self.raw(first, font.data, table, *glyph);
            }
            let most = (PAIRS / there.len()).max(2).min(lists.len());
            for k in (0..most).map(|n| n * lists.len() / most) {
                let scale = SCALES[k % SCALES.len()];
                for glyph in there {
                    self.adjusted(first, font.data, table, *glyph, &lists[k], scale);
                }
            }
        }
        let there = if font.vorg == 0 { &glyphs[..1] } else { glyphs };
        for glyph in there {
            self.origin(font.data, font.vorg, *glyph);
        }
    }

    /// hmtx and vmtx with other counts of long records than the font's, and at the offset 0.
    pub fn miscounted(&mut self, font: &Font) {
        for (first, table) in [(0, font.hmtx), (VMTX, font.vmtx)] {
            let count = table.count;
            let glyphs = [0, 1, count.wrapping_sub(1), count, font.glyphs, 65535];
            for count in [0, 1, count / 2, count.wrapping_add(1), 65535] {
                for at in [0, table.at] {
                    for glyph in glyphs {
                        let table = Table { at, count, ..table };
                        self.raw(first, font.data, table, glyph);
                        self.adjusted(first, font.data, table, glyph, &[], 1.);
                    }
                }
            }
        }
    }

    fn raw(&mut self, first: usize, font: &[u8], table: Table, glyph: u16) {
        let Table { at, count, .. } = table;
        let arguments = || format!("offset {at}, count {count}, glyph {glyph}");
        let advance = suolluvik::xmtx_advance(font, at, count, glyph);
        let said = rules::xmtx_advance(font, table, glyph);
        self.case(first, arguments, ours(advance, |n| n), said, false);
        let sb = suolluvik::xmtx_sb(font, at, count, glyph);
        let said = rules::xmtx_sb(font, table, glyph);
        self.case(first + 1, arguments, ours(sb, |n| n), said, false);
    }

    fn adjusted(
        &mut self,
        first: usize,
        font: &[u8],
        table: Table,
        glyph: u16,
        coords: &[i16],
        scale: f32,
    ) {
        let Table { at, count, xvar } = table;
        let said = |map| {
            let mut place = Place::new(font, coords, COUNTED);
            let width = rules::adjusted(&mut place, table, map, glyph, scale).map(bits);
            (width, place.rows.outside)
        };
        let arguments = || {
            let tables = format!("offset {at}, count {count}, deltas at {xvar}");
            format!("{tables}, glyph {glyph}, coordinates {coords:?}, scale {scale:?}")
        };
        let advance = suolluvik::adjusted_advance(font, at, count, xvar, glyph, coords, scale);
        let (width, outside) = said(Map::Advance);
        self.case(first + 2, arguments, ours(advance, bits), width, outside);
        let sb = suolluvik::adjusted_sb(font, at, count, xvar, glyph, coords, scale);
        let (bearing, outside) = said(Map::Bearing);
        self.case(first + 3, arguments, ours(sb, bits), bearing, outside);
    }

    fn origin(&mut self, font: &[u8], vorg: u32, glyph: u16) {
        let arguments = || format!("offset {vorg}, glyph {glyph}");
        let origin = suolluvik::vorg_origin(font, vorg, glyph);
        let said = rules::vorg_origin(font, vorg, glyph);
        self.case(ORIGIN, arguments, ours(origin, |n| n), said, false);
    }
}
