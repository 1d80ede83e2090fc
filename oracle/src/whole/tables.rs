//! The tables: of each state of the fonts one by folder and one by function, one of what swash has where ours
//! refuses, and one of what document 01 decides.

use crate::deciding::WHYS;
use crate::falling::FALLS;
use crate::font::{Font, Phase};
use crate::judge::{Counts, Tally, COLUMNS, FUNCTIONS};
use std::collections::BTreeMap;
use std::fmt::Display;

/// Each state of a font is counted apart.
const PHASES: [(Phase, &str); 5] = [
    (Phase::AsItIs, "The fonts as they are"),
    (
        Phase::Filled,
        "The fonts filled: maps of bearings, every tag in MVAR, vertical metrics",
    ),
    (Phase::Halved, "Filled, and with half of each item count"),
    (
        Phase::Widths,
        "With hmtx, vmtx, VORG or a count of long records damaged",
    ),
    (Phase::Damaged, "With avar damaged"),
];

#[derive(Default)]
struct Row {
    counts: Counts,
    fonts: u64,
    variable: u64,
    with_avar: u64,
}

impl Row {
    fn tally(&self) -> Tally {
        let mut all = Tally::default();
        for tally in &self.counts.functions {
            all.add(tally);
        }
        all
    }

    fn add(&mut self, other: &Row) {
        self.add_counts(&other.counts);
        self.fonts += other.fonts;
        self.variable += other.variable;
        self.with_avar += other.with_avar;
    }

    fn add_counts(&mut self, other: &Counts) {
        for (tally, more) in self.counts.functions.iter_mut().zip(&other.functions) {
            tally.add(more);
        }
        for (why, more) in self.counts.whys.iter_mut().zip(&other.whys) {
            *why += more;
        }
        for (falls, more) in self.counts.falls.iter_mut().zip(&other.falls) {
            *falls += more;
        }
    }

    fn columns(&self) -> Vec<u64> {
        let mut columns = vec![self.fonts, self.variable, self.with_avar];
        columns.extend(self.tally().columns());
        columns
    }
}

#[derive(Default)]
pub struct Tables {
    rows: BTreeMap<(Phase, String), Row>,
    /// in which states the last face was counted
    faces: Vec<Phase>,
}

fn print_row(width: usize, name: &str, cells: &[impl Display]) {
    let cells: String = cells.iter().map(|cell| format!("{:>13}", cell)).collect();
    println!("{:width$}{}", name, cells, width = width);
}

impl Tables {
    pub fn next_face(&mut self) {
        self.faces.clear();
    }

    pub fn add(&mut self, font: &Font, counts: Counts) {
        if counts.functions.iter().all(|tally| tally.cases == 0) {
            return;
        }
        let row = self.rows.entry((font.phase, font.row.clone())).or_default();
        row.add_counts(&counts);
        if !self.faces.contains(&font.phase) {
            self.faces.push(font.phase);
            row.fonts += 1;
            row.variable += font.is_variable() as u64;
            row.with_avar += font.has_avar() as u64;
        }
    }

    pub fn is_empty(&self) -> bool {
        self.rows.is_empty()
    }

    pub fn differences(&self) -> u64 {
        self.rows.values().map(|row| row.tally().differences).sum()
    }

    pub fn print(&self) {
        let names = self.rows.keys().map(|(_, name)| name.len());
        let longest = names
            .chain(FUNCTIONS.map(str::len))
            .chain(WHYS.map(str::len))
            .chain(FALLS.map(str::len))
            .max()
            .unwrap_or(0);
        for (phase, title) in PHASES {
            let rows: Vec<_> = self
                .rows
                .iter()
                .filter(|((of, _), _)| *of == phase)
                .collect();
            if !rows.is_empty() {
                println!("\n{}:\n", title);
                print_phase(longest, &rows);
            }
        }
    }
}

fn print_phase(longest: usize, rows: &[(&(Phase, String), &Row)]) {
    let mut columns = vec!["fonts", "variable", "with avar"];
    columns.extend(COLUMNS);
    print_row(longest, "folder", &columns);
    let mut total = Row::default();
    for ((_, name), row) in rows {
        print_row(
            longest,
            if name.is_empty() { "." } else { name },
            &row.columns(),
        );
        total.add(row);
    }
    print_row(longest, "all", &total.columns());

    println!();
    print_row(longest, "function", &COLUMNS);
    for (name, tally) in FUNCTIONS.iter().zip(&total.counts.functions) {
        if tally.cases > 0 {
            print_row(longest, name, &tally.columns());
        }
    }
    print_row(longest, "all", &total.tally().columns());

    if total.counts.whys.iter().any(|count| *count > 0) {
        println!();
        print_row(longest, "why 01 decides", &["coordinates"]);
        for (name, count) in WHYS.iter().zip(&total.counts.whys) {
            print_row(longest, name, &[count]);
        }
    }
    if total.counts.falls.iter().any(|count| *count > 0) {
        println!();
        print_row(longest, "what swash has where ours refuses", &["cases"]);
        for (name, count) in FALLS.iter().zip(&total.counts.falls) {
            print_row(longest, name, &[count]);
        }
    }
}
