//! That a delta hangs on its footprint and on the axes in use, and on nothing else, and so an adjusted
//! width on its own. A case's twin has another font of the same length, equal over the footprint, and
//! other coordinates, equal on the axes in use, a missing one being 0: both must have one answer.

use super::cases::{self, counts};
use super::footprint::{self, Footprint};
use super::rules::{self, COUNTED};
use super::{parse, Case, NEW};
use crate::axes::rules::Answer;
use crate::random::Random;
use crate::text::LIST;
use crate::{expected, lines as lines_of, print_row, widths, Expected, Rust, BATCH};
use std::collections::BTreeMap;
use std::io;

/// A case that has a footprint.
pub trait Printed {
    fn font(&self) -> &[u8];
    fn coords(&self) -> &[i16];

    /// The same of another font and other coordinates.
    fn with(&self, font: Vec<u8>, coords: Vec<i16>) -> Self;

    /// The line that it is.
    fn line(&self) -> String;

    fn footprint(&self) -> Footprint;

    /// What the rules say, as numbers.
    fn said(&self) -> Answer<Vec<i64>>;
}

impl Printed for Case {
    fn font(&self) -> &[u8] {
        &self.font
    }

    fn coords(&self) -> &[i16] {
        &self.coords
    }

    fn with(&self, font: Vec<u8>, coords: Vec<i16>) -> Self {
        Case {
            name: self.name,
            font,
            numbers: self.numbers.clone(),
            coords,
        }
    }

    fn line(&self) -> String {
        Case::line(self)
    }

    fn footprint(&self) -> Footprint {
        Case::footprint(self)
    }

    fn said(&self) -> Answer<Vec<i64>> {
        self.by_rules(&mut { COUNTED })
    }
}

/// Other bytes outside the footprint: any, 0, 255, or each with all its bits turned.
fn other_font(case: &impl Printed, footprint: &Footprint, random: &mut Random) -> Vec<u8> {
    let fill = random.below(4);
    let font = case.font();
    let covered = footprint.covered(font.len());
    let other = font.iter().zip(covered).map(|(byte, covered)| {
        if covered {
            return *byte;
        }
        match fill {
            0 => random.below(256) as u8,
            1 => 0,
            2 => 255,
            _ => !byte,
        }
    });
    other.collect()
}

fn coord_at(coords: &[i16], axis: usize) -> i16 {
    coords.get(axis).copied().unwrap_or(0)
}

/// Other numbers on the axes that are not in use. The list is as short as it can be, as long as it
/// was, or a little longer than needed.
fn other_coords(case: &impl Printed, footprint: &Footprint, random: &mut Random) -> Vec<i16> {
    let coords = case.coords();
    let not_0 = |axis: &&usize| coord_at(coords, **axis) != 0;
    let least = footprint
        .axes
        .iter()
        .rfind(not_0)
        .map_or(0, |axis| axis + 1);
    let length = match random.below(3) {
        0 => least,
        1 => coords.len(),
        _ => LIST.min(least + random.below(6) as usize),
    };
    let other = (0..length).map(|axis| match footprint.axes.contains(&axis) {
        true => coord_at(coords, axis),
        false => cases::half(random),
    });
    other.collect()
}

/// A case with its twin.
pub fn twin<C: Printed>(case: C, random: &mut Random) -> [C; 2] {
    let footprint = case.footprint();
    let font = other_font(&case, &footprint, random);
    let coords = other_coords(&case, &footprint, random);
    let twin = case.with(font, coords);
    [case, twin]
}

/// Cases of a delta, each with its twin: the listed ones, then those of the seed, without end.
fn twins(seed: u64) -> impl Iterator<Item = [Case; 2]> {
    let listed = cases::LISTED.lines().chain(counts::LISTED.lines());
    let lines = listed.map(str::to_string).chain(cases::with_counts(seed));
    let mut random = Random::new(seed ^ 0x7477_696e);
    let deltas = lines.filter_map(|line| parse(&line).filter(|case| case.name != NEW));
    deltas.map(move |case| twin(case, &mut random))
}

/// How many cases of an adjusted width come behind so many of a delta.
fn of_widths(count: usize) -> usize {
    count / 4
}

fn lines<C: Printed>(pair: [C; 2]) -> [String; 2] {
    pair.map(|case| case.line())
}

/// The lines of so many cases of a delta, each with its twin's behind it, then those of adjusted widths.
pub fn twin_lines(seed: u64, count: usize) -> impl Iterator<Item = String> {
    let deltas = twins(seed).take(count).flat_map(lines);
    let widths = widths::twins::twins(seed).take(of_widths(count));
    deltas.chain(widths.flat_map(lines))
}

/// A case or a twin, and what is to be said of it.
struct Side {
    line: String,
    footprint: Footprint,
    expected: Expected,
}

impl Side {
    fn new(case: &impl Printed) -> Self {
        let line = case.line();
        Side {
            footprint: case.footprint(),
            expected: expected(&line).expect("a case"),
            line,
        }
    }
}

/// What ought to be the same for a case, its twin and our answers to them, and is not.
fn differences([case, twin]: &[Side; 2], given: &[String; 2]) -> Vec<&'static str> {
    let (a, b) = (&case.expected, &twin.expected);
    let ours = given[0] == a.answer() && given[1] == b.answer();
    let all = [
        // of a row outside the item count the Rust reads what the footprint does not have
        ("the Rust's answers", a.outside || a.rust == b.rust),
        ("the rules' answers", a.rule == b.rule),
        ("rows outside the count", a.outside == b.outside),
        ("our answers", given[0] == given[1]),
        ("footprints", case.footprint.parts == twin.footprint.parts),
        ("axes in use", case.footprint.axes == twin.footprint.axes),
        ("rules and Rust", a.agree && b.agree),
        ("ours and what is wanted", ours),
    ];
    let differ = all.iter().filter(|(_, same)| !same);
    differ.map(|(what, _)| *what).collect()
}

/// Whether the rules' answer is another after one of the changes, at the coordinates of one of the
/// lists.
fn matters<T>(
    case: &impl Printed,
    lists: &[Vec<i16>],
    changes: &[T],
    change: impl Fn(&mut [u8], &mut Vec<i16>, &T),
) -> bool {
    lists.iter().any(|list| {
        let before = case.with(case.font().to_vec(), list.clone()).said();
        changes.iter().any(|how| {
            let (mut font, mut coords) = (case.font().to_vec(), list.clone());
            change(&mut font, &mut coords, how);
            case.with(font, coords).said() != before
        })
    })
}

/// The case's own coordinates, and four lists with numbers in the triples of its footprint.
fn lists(case: &impl Printed, footprint: &Footprint, random: &mut Random) -> Vec<Vec<i16>> {
    let mut lists = vec![case.coords().to_vec(); 5];
    for list in &mut lists[1..] {
        for part in &footprint.parts {
            let Some(axis) = part.axis else { continue };
            list.resize(list.len().max(axis + 1), 0);
            // an axis may have more than one triple
            if random.below(2) == 0 {
                let triple = rules::triple(case.font(), part.at).expect("a whole triple");
                list[axis] = cases::coord(Some(triple.map(|x| x as i16)), random);
            }
        }
    }
    lists
}

/// Whether one of the covered bytes matters by itself, and whether one of the axes in use does. None
/// where there is none.
fn needed(case: &impl Printed, footprint: &Footprint, random: &mut Random) -> [Option<bool>; 2] {
    let lists = lists(case, footprint, random);
    let covered = footprint.covered(case.font().len());
    let bytes: Vec<usize> = (0..covered.len()).filter(|at| covered[*at]).collect();
    let bits = [1, 2, 4, 8, 16, 32, 64, 128];
    let byte = one_of(&bytes, random)
        .map(|at| matters(case, &lists, &bits, |font, _, bit| font[at] ^= bit));
    let axes: Vec<usize> = footprint.axes.iter().copied().collect();
    let axis = one_of(&axes, random).map(|axis| {
        let numbers: Vec<i16> = lists.iter().map(|list| coord_at(list, axis)).collect();
        matters(case, &lists, &numbers, |_, coords, number| {
            coords.resize(coords.len().max(axis + 1), 0);
            coords[axis] = *number;
        })
    });
    [byte, axis]
}

fn one_of(list: &[usize], random: &mut Random) -> Option<usize> {
    (!list.is_empty()).then(|| random.pick(list))
}

/// What is counted of a case and its twin.
struct Seen {
    /// by the rules
    refused: bool,
    stops: bool,
    /// a row outside its subtable's item count
    outside: bool,
    other_font: bool,
    other_list: bool,
    /// whether a byte and an axis that were tried matter
    byte: Option<bool>,
    axis: Option<bool>,
}

impl Seen {
    fn new<C: Printed>([case, twin]: &[C; 2], side: &Side, random: &mut Random) -> Self {
        let refused = case.said().is_err();
        let [byte, axis] = match refused {
            true => [None; 2],
            false => needed(case, &side.footprint, random),
        };
        Seen {
            refused,
            stops: side.expected.rust == Rust::Stops,
            outside: side.expected.outside,
            other_font: case.font() != twin.font(),
            other_list: case.coords() != twin.coords(),
            byte,
            axis,
        }
    }
}

const COLUMNS: [&str; 12] = [
    "cases",
    "equal",
    "differences",
    "refused",
    "Rust stops",
    "past count",
    "other font",
    "other list",
    "bytes tried",
    "that matter",
    "axes tried",
    "that matter",
];

/// The counts of the columns.
#[derive(Default)]
struct Row([u64; COLUMNS.len()]);

impl Row {
    fn add(&mut self, seen: &Seen, same: bool) {
        let columns = [
            true,
            same,
            !same,
            seen.refused,
            seen.stops,
            seen.outside,
            seen.other_font,
            seen.other_list,
            seen.byte.is_some(),
            seen.byte == Some(true),
            seen.axis.is_some(),
            seen.axis == Some(true),
        ];
        for (count, more) in self.0.iter_mut().zip(columns) {
            *count += more as u64;
        }
    }
}

/// What has been compared.
#[derive(Default)]
struct Tally {
    rows: BTreeMap<&'static str, Row>,
    all: Row,
    differ: u64,
}

impl Tally {
    /// Holds the answers, a case's and then its twin's, to what they ought to be.
    fn hold<C: Printed>(
        &mut self,
        mut twins: impl Iterator<Item = [C; 2]>,
        answers: &mut impl Iterator<Item = String>,
        random: &mut Random,
    ) {
        loop {
            let batch = twins.by_ref().take(BATCH).map(|pair| {
                let sides = [Side::new(&pair[0]), Side::new(&pair[1])];
                let seen = Seen::new(&pair, &sides[0], random);
                (sides, seen)
            });
            let batch: Vec<([Side; 2], Seen)> = batch.collect();
            if batch.is_empty() {
                break;
            }
            for (sides, seen) in &batch {
                let given = [(); 2].map(|_| answers.next().unwrap_or("(no answer)".to_string()));
                self.add(sides, seen, &given);
            }
        }
    }

    fn add(&mut self, sides: &[Side; 2], seen: &Seen, given: &[String; 2]) {
        let differences = differences(sides, given);
        let row = self.rows.entry(sides[0].expected.name).or_default();
        row.add(seen, differences.is_empty());
        self.all.add(seen, differences.is_empty());
        if differences.is_empty() {
            return;
        }
        self.differ += 1;
        println!("difference: {}", differences.join(", "));
        for (side, given) in sides.iter().zip(given) {
            let (rust, rule) = (side.expected.done(), &side.expected.rule);
            println!(
                "    {}: {rust}; by the rules {rule}; ours {given}",
                side.line
            );
        }
    }
}

/// Holds the answers on standard input, a case's and then its twin's, to what they ought to be, and
/// prints a table. Answers whether there is no difference.
pub fn compare(seed: u64, count: usize) -> bool {
    footprint::by_hand();
    widths::footprint::by_hand();
    let mut random = Random::new(seed);
    let mut answers = lines_of(io::stdin().lock());
    let mut tally = Tally::default();
    tally.hold(twins(seed).take(count), &mut answers, &mut random);
    let widths = widths::twins::twins(seed).take(of_widths(count));
    tally.hold(widths, &mut answers, &mut random);
    let more = answers.count();
    if more > 0 {
        println!("{more} more answers than cases");
    }
    print_row("function", COLUMNS);
    for (name, row) in &tally.rows {
        print_row(name, row.0);
    }
    print_row("all", tally.all.0);
    tally.differ == 0 && more == 0
}
