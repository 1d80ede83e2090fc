//! Cases of what was ported, answered by swash itself. README.md beside this folder says how to use it.

mod axes;
mod lines;
mod metrics;
mod numbers;
mod private;
mod random;
mod store;
mod tags;
mod text;
mod widths;

use std::cell::Cell;
use std::collections::BTreeMap;
use std::fmt::Display;
use std::fs::File;
use std::io::{self, BufRead, BufReader, BufWriter, Write};
use std::panic::{catch_unwind, resume_unwind};
use std::process::ExitCode;

const USAGE: &str = "\
oracle cases SEED COUNT SUBJECT      write COUNT cases of numbers, axes, store, metrics, widths, lines or all
oracle sample SEED                   write the cases of the stored sample
oracle answers                       answer the cases on standard input
oracle stops                         of the cases on standard input write those on which the Rust stops
oracle compare SEED COUNT SUBJECT    hold the answers on standard input to those of the cases of SEED
oracle compare FILE                  hold the answers on standard input to those of the cases in FILE
oracle twins SEED COUNT              write COUNT cases of a delta, and then a quarter as many of an adjusted
                                     width, each with its twin behind it
oracle footprints SEED COUNT         hold the answers on standard input to those of the twins of SEED
";

/// What the Rust does with a case.
#[derive(PartialEq)]
pub enum Rust {
    Answer(String),
    /// answers `None`, with no number
    None,
    /// panics, by an overflow check
    Stops,
    /// has no counterpart: a list too short, lists of different length, an avar, an outer index over 16
    /// bits, a measure that is no 16-bit integer, a number that is read from hmtx, vmtx or VORG, a list of
    /// scalars
    Silent,
}

impl Rust {
    /// What comes of asking the Rust.
    pub fn of(asked: impl FnOnce() -> Rust + std::panic::UnwindSafe) -> Rust {
        ASKED.set(true);
        let done = catch_unwind(asked).unwrap_or(Rust::Stops);
        ASKED.set(false);
        done
    }
}

thread_local! {
    /// whether the Rust is being asked: there a panic is an answer, elsewhere a fault of the oracle's
    static ASKED: Cell<bool> = const { Cell::new(false) };
}

/// What is to be answered to a case.
pub struct Expected {
    pub name: &'static str,
    pub rust: Rust,
    /// the answer by the rules, in exact integers
    pub rule: String,
    /// whether what the Rust does fits the rules' answer; of a row outside the item count, their answer
    /// without it; of an instance, their answer with the Rust's PostScript name id
    pub agree: bool,
    /// whether a row outside its subtable's item count is met
    pub outside: bool,
    /// whether the Rust has another PostScript name id of an instance than the rules
    pub other_name: bool,
}

impl Expected {
    /// Where the Rust has no answer, or one without its number, and where it does not look at an item
    /// count or not at an instance's own PostScript name id, the rules decide.
    fn answer(&self) -> &str {
        match &self.rust {
            Rust::Answer(answer) if !self.outside && !self.other_name => answer,
            _ => &self.rule,
        }
    }

    /// What the Rust does, in words.
    fn done(&self) -> &str {
        match &self.rust {
            Rust::Answer(answer) => answer,
            Rust::None => "the Rust answers None",
            Rust::Stops => "the Rust stops",
            Rust::Silent => "the Rust has no counterpart",
        }
    }
}

/// A line of this many bytes, or more, is no case.
const LINE: usize = 65536;

/// None where the line is no case. Where an assertion of the model fails, its case is named.
fn expected(line: &str) -> Option<Expected> {
    if line.len() >= LINE {
        return None;
    }
    catch_unwind(|| of_subjects(line)).unwrap_or_else(|fault| {
        eprintln!("oracle: at the case: {line}");
        resume_unwind(fault)
    })
}

/// The subjects are asked in turn.
fn of_subjects(line: &str) -> Option<Expected> {
    let number = numbers::parse(line).map(|case| case.expected());
    number
        .or_else(|| axes::parse(line).map(|case| case.expected()))
        .or_else(|| store::parse(line).map(|case| case.expected()))
        .or_else(|| store::tags(line))
        .or_else(|| metrics::parse(line).map(|case| case.expected()))
        .or_else(|| widths::parse(line).map(|case| case.expected()))
        .or_else(|| lines::parse(line).map(|case| case.expected()))
}

/// What stands for a line that is no case.
const NO_CASE: &str = "?";

#[derive(Default)]
struct Row {
    cases: u64,
    /// as the Rust
    equal: u64,
    /// as the rules, where the Rust stops
    stops: u64,
    /// as the rules, where the Rust has no counterpart
    silent: u64,
    /// as the rules, where a row outside its subtable's item count is met, whatever the Rust does
    outside: u64,
    /// as the rules, where the Rust has another PostScript name id, and all else is the Rust's
    other_name: u64,
    differences: u64,
    /// where what the Rust does doesn't fit the rules in exact integers
    broken_rules: u64,
}

/// How many cases are answered before their answers are read: meanwhile the other side works too.
const BATCH: usize = 1024;

fn compare(mut cases: impl Iterator<Item = String>) -> bool {
    let mut rows: BTreeMap<&str, Row> = BTreeMap::new();
    let mut answers = lines(io::stdin().lock());
    loop {
        let batch: Vec<String> = cases.by_ref().take(BATCH).collect();
        if batch.is_empty() {
            break;
        }
        let wanted: Vec<Option<Expected>> = batch.iter().map(|case| expected(case)).collect();
        for (case, wanted) in batch.iter().zip(&wanted) {
            let given = answers.next().unwrap_or("(no answer)".to_string());
            let row = rows
                .entry(wanted.as_ref().map_or(NO_CASE, |w| w.name))
                .or_default();
            row.compare(case, &given, wanted.as_ref());
        }
    }
    let more = answers.count();
    if more > 0 {
        println!("{more} more answers than cases");
    }
    table(&rows) && more == 0
}

impl Row {
    fn compare(&mut self, case: &str, given: &str, wanted: Option<&Expected>) {
        self.cases += 1;
        let want = wanted.map_or(NO_CASE, Expected::answer);
        let (count, by) = match wanted.map(|w| &w.rust) {
            Some(_) if wanted.map_or(false, |w| w.outside) => {
                (&mut self.outside, "the rule, for a row outside the count")
            }
            Some(_) if wanted.map_or(false, |w| w.other_name) => {
                (&mut self.other_name, "the rule, for a PostScript name id")
            }
            Some(Rust::Stops) => (&mut self.stops, "the rule, where the Rust stops"),
            Some(Rust::Silent) => (&mut self.silent, "the rule; the Rust has no counterpart"),
            Some(Rust::None) => (&mut self.equal, "the rule, for the Rust's None"),
            Some(Rust::Answer(_)) | None => (&mut self.equal, "the Rust"),
        };
        if given == want {
            *count += 1;
        } else {
            self.differences += 1;
            println!("difference: {case}: {given}, but {want} by {by}");
        }
        if let Some(wanted) = wanted.filter(|w| !w.agree) {
            self.broken_rules += 1;
            println!(
                "rule and Rust differ: {case}: {}, but {}",
                wanted.rule,
                wanted.done()
            );
        }
    }

    fn columns(&self) -> [u64; COLUMNS.len()] {
        [
            self.cases,
            self.equal,
            self.stops,
            self.silent,
            self.outside,
            self.other_name,
            self.differences,
            self.broken_rules,
        ]
    }

    fn add(&mut self, row: &Row) {
        self.cases += row.cases;
        self.equal += row.equal;
        self.stops += row.stops;
        self.silent += row.silent;
        self.outside += row.outside;
        self.other_name += row.other_name;
        self.differences += row.differences;
        self.broken_rules += row.broken_rules;
    }
}

const COLUMNS: [&str; 8] = [
    "cases",
    "as the Rust",
    "Rust stops",
    "Rust silent",
    "past count",
    "other name",
    "differences",
    "rule vs. Rust",
];

/// Prints a row of a table. Its first two columns share their width: a long name has a short count.
fn print_row<const N: usize>(name: &str, cells: [impl Display; N]) {
    let mut row = name.to_string();
    for (k, cell) in cells.iter().enumerate() {
        let width = if k == 0 { 32 - name.len() } else { 14 };
        row += &format!("{cell:>width$}");
    }
    println!("{row}");
}

/// Prints the table, and answers whether no row has a difference.
fn table(rows: &BTreeMap<&str, Row>) -> bool {
    let mut total = Row::default();
    print_row("function", COLUMNS);
    for (name, row) in rows {
        print_row(name, row.columns());
        total.add(row);
    }
    print_row("all", total.columns());
    total.differences == 0 && total.broken_rules == 0
}

/// The lines up to the end, or up to where they can't be read.
fn lines(reader: impl BufRead) -> impl Iterator<Item = String> {
    reader.split(b'\n').map_while(|line| match line {
        Ok(bytes) => Some(String::from_utf8_lossy(&bytes).into_owned()),
        Err(why) => {
            eprintln!("oracle: {why}");
            None
        }
    })
}

fn write_all(lines: impl Iterator<Item = String>) {
    let mut out = BufWriter::with_capacity(1 << 16, io::stdout().lock());
    for line in lines {
        // whoever reads may have gone
        if writeln!(out, "{line}").is_err() {
            return;
        }
    }
    let _ = out.flush();
}

/// Fresh cases: of all subjects, one of each in turn.
fn cases(seed: &str, count: &str, subject: &str) -> Option<Box<dyn Iterator<Item = String>>> {
    let seed = seed.parse().ok()?;
    let numbers = numbers::cases::with_quotients(seed);
    let mut axes = axes::cases::with_avar_and_names(seed);
    let mut store = store::cases::with_counts(seed);
    let mut metrics = metrics::cases::with_counts(seed);
    let mut widths = widths::cases::with_counts(seed);
    let mut lines = lines::cases::Cases::new(seed);
    let all: Box<dyn Iterator<Item = String>> = match subject {
        "numbers" => Box::new(numbers),
        "axes" => Box::new(axes),
        "store" => Box::new(store),
        "metrics" => Box::new(metrics),
        "widths" => Box::new(widths),
        "lines" => Box::new(lines),
        "all" => {
            let turn = move |number| {
                [
                    Some(number),
                    axes.next(),
                    store.next(),
                    metrics.next(),
                    widths.next(),
                    lines.next(),
                ]
            };
            Box::new(numbers.flat_map(turn).flatten())
        }
        _ => return None,
    };
    Some(Box::new(all.take(count.parse().ok()?)))
}

/// How many lines of each subject the stored sample has; of the metrics it has half as many.
const SAMPLE: usize = 3000;

/// Lines with an avar, behind those of the subjects.
const SAMPLE_OF_AVAR: usize = 500;

/// Lines of item counts, behind these; of the metrics half as many.
const SAMPLE_OF_COUNTS: usize = 400;

/// Lines of widths, behind these.
const SAMPLE_OF_WIDTHS: usize = 653;

/// Lines of an instance's PostScript name id, behind these.
const SAMPLE_OF_NAMES: usize = 326;

/// Lines of scalars in a list, behind these.
const SAMPLE_OF_LINES: usize = 750;

/// Lines of quotients, behind all others.
const SAMPLE_OF_QUOTIENTS: usize = 250;

fn run(words: &[&str]) -> Option<bool> {
    match *words {
        ["cases", seed, count, subject] => write_all(cases(seed, count, subject)?),
        ["sample", seed] => {
            let seed = seed.parse().ok()?;
            write_all(numbers::cases::sample(seed, SAMPLE).into_iter());
            write_all(axes::cases::sample(seed, SAMPLE).into_iter());
            write_all(store::cases::sample(seed, SAMPLE).into_iter());
            write_all(metrics::cases::sample(seed, SAMPLE / 2).into_iter());
            write_all(axes::avar::sample(seed, SAMPLE_OF_AVAR).into_iter());
            write_all(axes::cases::many_axes().into_iter());
            write_all(store::cases::outer_bits().into_iter());
            write_all([store::TAG_CASE.to_string()].into_iter());
            write_all(store::cases::no_variation().into_iter());
            write_all(store::cases::counts::sample(seed, SAMPLE_OF_COUNTS).into_iter());
            write_all(metrics::cases::sample_of_counts(seed, SAMPLE_OF_COUNTS / 2).into_iter());
            write_all(widths::cases::sample(seed, SAMPLE_OF_WIDTHS).into_iter());
            write_all(axes::names::sample(seed, SAMPLE_OF_NAMES).into_iter());
            write_all(lines::cases::sample(seed, SAMPLE_OF_LINES).into_iter());
            write_all(numbers::quotients::sample(seed, SAMPLE_OF_QUOTIENTS).into_iter());
        }
        ["answers"] => {
            let answer = |line: String| {
                expected(&line).map_or(NO_CASE.to_string(), |e| e.answer().to_string())
            };
            write_all(lines(io::stdin().lock()).map(answer));
        }
        ["stops"] => {
            let stops = |line: &String| expected(line).is_some_and(|e| e.rust == Rust::Stops);
            write_all(lines(io::stdin().lock()).filter(stops));
        }
        ["compare", seed, count, subject] => return Some(compare(cases(seed, count, subject)?)),
        ["compare", file] => match File::open(file) {
            Ok(opened) => return Some(compare(lines(BufReader::new(opened)))),
            Err(why) => {
                eprintln!("oracle: {file}: {why}");
                return Some(false);
            }
        },
        ["twins", seed, count] => {
            let (seed, count) = (seed.parse().ok()?, count.parse().ok()?);
            write_all(store::twins::twin_lines(seed, count));
        }
        ["footprints", seed, count] => {
            let (seed, count) = (seed.parse().ok()?, count.parse().ok()?);
            return Some(store::twins::compare(seed, count));
        }
        _ => return None,
    }
    Some(true)
}

fn main() -> ExitCode {
    // A stop of the Rust is an answer here, not an accident; any other is a fault of the oracle's.
    std::panic::set_hook(Box::new(|fault| {
        if !ASKED.get() {
            eprintln!("oracle: a fault of its own: {fault}");
        }
    }));
    let words: Vec<String> = std::env::args().skip(1).collect();
    let words: Vec<&str> = words.iter().map(String::as_str).collect();
    match catch_unwind(|| run(&words)) {
        Ok(Some(true)) => ExitCode::SUCCESS,
        Ok(Some(false)) => ExitCode::FAILURE,
        Ok(None) => {
            eprint!("{USAGE}");
            ExitCode::from(2)
        }
        Err(_) => ExitCode::from(2),
    }
}
