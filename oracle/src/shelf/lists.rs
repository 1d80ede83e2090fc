//! Where stores are, and lists of scalars filled: asked of the library and of the rules. swash has neither. The
//! deltas that are read with a filled list are swash's at the same coordinates, and judged as these are.

use super::font::{u16_at, u32_at};
use super::judge::CHANGED;
use crate::axes::rules::Answer;
use crate::lines::rules;
use crate::store::rules::{self as store_rules, Regions};
use crate::suolluvik::{self, MvarScalars, Refusal, Scalars};
use std::fmt::Debug;

/// A table that has a store.
#[derive(Clone, Copy, PartialEq)]
pub enum Table {
    Hvar,
    Vvar,
    Mvar,
}

/// For each table where its store is, then filling.
pub const FUNCTIONS: [&str; 6] = [
    "store_offset, HVAR",
    "store_offset, VVAR",
    "mvar_store_offset",
    "Scalars::fill, HVAR",
    "Scalars::fill, VVAR",
    "MvarScalars::fill",
];
const FILL: usize = 3;

pub const COLUMNS: [&str; 8] = [
    "cases",
    "a value",
    "with a -1",
    "refused by 1",
    "refused by 2",
    "refused by 5",
    "refused by 7",
    "differences",
];

#[derive(Clone, Copy, Default)]
pub struct Tally {
    pub cases: u64,
    values: u64,
    /// a value, and a region's record runs out before its scalar is known
    unknown: u64,
    /// by 1, 2, 5 and 7
    refused: [u64; 4],
    pub differences: u64,
}

impl Tally {
    pub fn add(&mut self, other: &Tally) {
        self.cases += other.cases;
        self.values += other.values;
        self.unknown += other.unknown;
        for (sum, more) in self.refused.iter_mut().zip(other.refused) {
            *sum += more;
        }
        self.differences += other.differences;
    }

    pub fn columns(&self) -> [u64; COLUMNS.len()] {
        let [by_1, by_2, by_5, by_7] = self.refused;
        [
            self.cases,
            self.values,
            self.unknown,
            by_1,
            by_2,
            by_5,
            by_7,
            self.differences,
        ]
    }
}

/// What a list holds before it is filled. No scalar has it.
const MARK: i32 = 0x5a5a_5a5a;

/// A list of so many elements that are not filled yet.
pub fn unfilled(room: usize) -> Vec<i32> {
    vec![MARK; room]
}

/// What is asked of a store.
#[derive(Clone, Copy)]
pub struct Question<'a> {
    pub font: &'a [u8],
    pub table: Table,
    pub at: u32,
    pub coords: &'a [i16],
}

impl Question<'_> {
    fn store_by_library(&self) -> Result<u32, Refusal> {
        match self.table {
            Table::Mvar => suolluvik::mvar_store_offset(self.font, self.at),
            _ => suolluvik::store_offset(self.font, self.at),
        }
    }

    /// By the reader of this program.
    fn store_found(&self) -> Answer<u32> {
        let at = self.at as usize;
        if self.table == Table::Mvar {
            let number = |p: usize| u16_at(self.font, at + p).ok_or(2);
            let [_, count, store] = [number(6)?, number(8)?, number(10)?];
            return match count == 0 || store == 0 {
                true => Err(1),
                false => Ok(store.into()),
            };
        }
        if at == 0 {
            return Err(1);
        }
        match u32_at(self.font, at + 4).ok_or(2)? {
            0 => Err(1),
            store => self.at.checked_add(store).ok_or(5),
        }
    }

    /// How many regions there are, by the rules; of none that can be read, 0.
    fn regions(&self) -> usize {
        let at = self.at as usize;
        let regions = match self.table {
            Table::Mvar => {
                let mvar = store_rules::open(self.font, at);
                mvar.and_then(|mvar| Regions::of(mvar.part, mvar.store))
            }
            _ => {
                let store = store_rules::store_of(self.font, at);
                store.and_then(|store| Regions::of(self.font, store))
            }
        };
        regions.map_or(0, |regions| regions.count)
    }

    fn fill_by_rules(&self, list: &mut [i32]) -> Answer<usize> {
        let at = self.at as usize;
        match self.table {
            Table::Mvar => rules::fill_by_mvar(self.font, at, self.coords, list),
            _ => rules::fill_by_xvar(self.font, at, self.coords, list),
        }
    }

    /// The numbers that are kept.
    fn fill_by_library(&self, list: &mut [i32]) -> Result<Vec<i32>, Refusal> {
        let (font, at, coords) = (self.font, self.at, self.coords);
        match self.table {
            Table::Mvar => {
                MvarScalars::fill(font, at, coords, list).map(|kept| kept.as_slice().to_vec())
            }
            _ => Scalars::fill(font, at, coords, list).map(|kept| kept.as_slice().to_vec()),
        }
    }
}

/// What is compared of a face, and what differs.
#[derive(Default)]
pub struct Filling {
    tallies: [Tally; FUNCTIONS.len()],
}

impl Filling {
    /// Forgets the counts, and answers them.
    pub fn take(&mut self) -> [Tally; FUNCTIONS.len()] {
        std::mem::take(&mut self.tallies)
    }

    fn case<T: PartialEq + Debug>(
        &mut self,
        function: usize,
        (input, arguments): (&str, impl Fn() -> String),
        ours: Answer<T>,
        said: Answer<T>,
        unknown: bool,
    ) {
        let tally = &mut self.tallies[function];
        tally.cases += 1;
        let place = match said {
            Ok(_) if unknown => Some(&mut tally.unknown),
            Ok(_) => Some(&mut tally.values),
            Err(1) => Some(&mut tally.refused[0]),
            Err(2) => Some(&mut tally.refused[1]),
            Err(5) => Some(&mut tally.refused[2]),
            Err(7) => Some(&mut tally.refused[3]),
            Err(_) => None,
        };
        match place {
            Some(count) if ours == said => *count += 1,
            _ => {
                tally.differences += 1;
                println!("difference: {input}");
                println!("    {}, {}", FUNCTIONS[function], arguments());
                println!("    ours {ours:?}; the rules {said:?}");
            }
        }
    }

    /// Where a table's store is.
    pub fn offset(&mut self, input: &str, asked: Question) {
        let arguments = || format!("offset {}", asked.at);
        let ours = asked.store_by_library().map_err(Refusal::number);
        let said = asked.store_found();
        let function = asked.table as usize;
        self.case(function, (input, arguments), ours, said, false);
    }

    /// A list with just enough room, one with three elements more, and one with one too few. Answers what the rules
    /// leave in the first.
    pub fn fill(&mut self, input: &str, asked: Question) -> Vec<i32> {
        let regions = asked.regions();
        let mut said_list = unfilled(regions);
        let said = asked.fill_by_rules(&mut said_list);
        let unknown = said.is_ok() && said_list.contains(&-1);
        for room in [regions, regions + 3] {
            let mut list = said_list.clone();
            list.resize(room, MARK);
            let said = said.map(|count| (list[..count].to_vec(), list));
            self.fill_once(input, asked, room, said, unknown);
        }
        if let Some(short) = regions.checked_sub(1) {
            let said = asked.fill_by_rules(&mut unfilled(short));
            let said = said.map(|_| (vec![], vec![]));
            self.fill_once(input, asked, short, said, false);
        }
        said_list
    }

    /// What is kept, and the whole list; a refusal leaves each mark.
    fn fill_once(
        &mut self,
        input: &str,
        asked: Question,
        room: usize,
        said: Answer<(Vec<i32>, Vec<i32>)>,
        unknown: bool,
    ) {
        let arguments = || {
            let coords = asked.coords;
            format!("offset {}, room {room}, coordinates {coords:?}", asked.at)
        };
        let mut list = unfilled(room);
        let ours = match asked.fill_by_library(&mut list) {
            Ok(kept) => Ok((kept, list)),
            Err(refusal) if list.iter().all(|n| *n == MARK) => Err(refusal.number()),
            Err(_) => Err(CHANGED),
        };
        let function = FILL + asked.table as usize;
        self.case(function, (input, arguments), ours, said, unknown);
    }
}
