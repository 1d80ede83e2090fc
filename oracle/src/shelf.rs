//! Fonts of a folder, asked of swash and of the library as it is linked. README.md beside this folder
//! says how to use it.

#[path = "shelf/ask.rs"]
mod ask;
#[path = "shelf/coords.rs"]
mod coords;
#[path = "shelf/damage.rs"]
mod damage;
#[path = "shelf/font.rs"]
mod font;
#[path = "shelf/judge.rs"]
mod judge;
#[path = "shelf/lists.rs"]
mod lists;
#[path = "shelf/named.rs"]
mod named;
mod private;
#[allow(dead_code)]
mod random;
#[path = "shelf/read.rs"]
mod read;
// the build puts link/suolluvik.rs beside this file
#[allow(dead_code)]
mod suolluvik;
mod tags;
#[allow(dead_code)]
mod text;
#[path = "shelf/written.rs"]
mod written;

#[allow(dead_code)]
mod numbers {
    pub mod rules;
}
#[allow(dead_code)]
mod axes {
    pub mod rules;
}
#[allow(dead_code)]
mod store {
    pub mod rules;
}
#[allow(dead_code)]
mod lines {
    pub mod rules;
}
#[allow(dead_code)]
mod metrics {
    pub mod rules;
}
#[allow(dead_code)]
mod widths {
    pub mod rules;
}

use ask::Asker;
use damage::Fields;
use font::{Font, Kind};
use judge::{Judge, Tally, COLUMNS, FUNCTIONS};
use random::Random;
use read::Reading;
use std::collections::BTreeMap;
use std::ffi::OsString;
use std::fmt::Display;
use std::fs;
use std::io::{self, Read};
use std::os::unix::ffi::OsStrExt;
use std::panic::catch_unwind;
use std::path::{Path, PathBuf};
use std::process::ExitCode;

const USAGE: &str = "\
shelf compare FOLDER                 compare the fonts below FOLDER
shelf damage FOLDER ROUNDS SEED      the same ROUNDS times, each font damaged by random from SEED
shelf coords FOLDER                  write coordinates by the library, with avar, of the fonts below FOLDER
shelf widths FOLDER                  write hmtx, vmtx, VORG and widths by the library
shelf names FOLDER                   write the name ids of instances by the library
";

/// A font that is larger is left out.
const LARGEST: u64 = 32 << 20;

/// Of a font that is not damaged the random coordinates are always the same.
const SEED: u64 = 20261115;

/// A name as it is, or, where it has what could break a line or is no UTF-8, quoted and escaped.
fn shown(path: &Path) -> String {
    let quoted = format!("{path:?}");
    match path.to_str() {
        Some(name) if quoted == format!("\"{name}\"") => name.to_string(),
        _ => quoted,
    }
}

/// The files below a folder that are fonts, sorted, and what is left out, with the reason.
#[derive(Default)]
struct Files {
    fonts: Vec<PathBuf>,
    left_out: Vec<(PathBuf, String)>,
}

impl Files {
    fn below(folder: &Path) -> io::Result<Files> {
        let mut files = Files::default();
        files.add(folder)?;
        files.fonts.sort();
        files.left_out.sort();
        Ok(files)
    }

    fn add(&mut self, folder: &Path) -> io::Result<()> {
        for entry in fs::read_dir(folder)? {
            let entry = entry?;
            let path = entry.path();
            // one that can't be read does not end the rest
            let done = if entry.file_type()?.is_dir() {
                self.add(&path)
            } else {
                self.add_file(&path)
            };
            if let Err(why) = done {
                self.leave_out(&path, &format!("can't be read, {why}"));
            }
        }
        Ok(())
    }

    fn add_file(&mut self, path: &Path) -> io::Result<()> {
        let file = fs::metadata(path)?;
        if file.is_dir() {
            // it may lead back
            self.leave_out(path, "a link to a folder");
        } else if file.is_file() {
            let mut start = vec![];
            fs::File::open(path)?.take(4).read_to_end(&mut start)?;
            match Kind::of(&start) {
                Kind::Font if file.len() > LARGEST => self.leave_out(path, "larger than 32 MiB"),
                Kind::Font => self.fonts.push(path.to_path_buf()),
                Kind::Woff => self.leave_out(path, "WOFF"),
                Kind::Other => (),
            }
        }
        Ok(())
    }

    fn leave_out(&mut self, path: &Path, why: &str) {
        self.left_out.push((path.to_path_buf(), why.to_string()));
    }
}

/// What is counted of the fonts of one folder.
#[derive(Default)]
struct Row {
    fonts: u64,
    without_fvar: u64,
    tally: Tally,
    /// with hmtx, with vmtx, with VORG
    tables: [u64; 3],
    read: read::Tally,
    filled: lists::Tally,
}

impl Row {
    fn columns(&self) -> Vec<u64> {
        let mut columns = vec![self.fonts, self.without_fvar];
        columns.extend(self.tally.columns());
        columns
    }

    fn read_columns(&self) -> Vec<u64> {
        let mut columns = vec![self.fonts];
        columns.extend(self.tables);
        columns.extend(self.read.columns());
        columns
    }

    fn filled_columns(&self) -> Vec<u64> {
        let mut columns = vec![self.fonts];
        columns.extend(self.filled.columns());
        columns
    }

    fn add(&mut self, other: &Row) {
        self.fonts += other.fonts;
        self.without_fvar += other.without_fvar;
        self.tally.add(&other.tally);
        for (sum, more) in self.tables.iter_mut().zip(other.tables) {
            *sum += more;
        }
        self.read.add(&other.read);
        self.filled.add(&other.filled);
    }
}

fn print_row(width: usize, name: &str, cells: &[impl Display]) {
    let mut row = format!("{name:width$}");
    for cell in cells {
        row += &format!("{cell:>13}");
    }
    println!("{row}");
}

struct Shelf {
    judge: Judge,
    reading: Reading,
    rows: BTreeMap<String, Row>,
    functions: [Tally; FUNCTIONS.len()],
    readings: [read::Tally; read::FUNCTIONS.len()],
    fillings: [lists::Tally; lists::FUNCTIONS.len()],
    without_fvar: Vec<String>,
}

/// A seed for one face and round, whatever other fonts there are.
fn seed_of(seed: u64, path: &Path, face: usize, round: u64) -> u64 {
    let start = Random::new(seed.wrapping_add(round << 20)).bits();
    let mix = |hash: u64, byte: &u8| (hash ^ *byte as u64).wrapping_mul(0x100_0000_01b3);
    let name = path.file_name().map_or(&b""[..], OsStrExt::as_bytes);
    name.iter().fold(start, mix).wrapping_add(face as u64)
}

/// The folder of a file, and its title, as they are printed: seen from the folder that is asked for.
fn names(folder: &Path, path: &Path) -> (String, String) {
    let below = path.strip_prefix(folder).unwrap_or(path);
    let row = below.parent().map_or(String::new(), shown);
    let row = if row.is_empty() { ".".to_string() } else { row };
    (row, shown(below))
}

impl Shelf {
    /// Compares each face of a file, as it is or so many times damaged.
    fn file(&mut self, folder: &Path, path: &Path, damage: Option<(u64, u64)>) -> io::Result<()> {
        let mut data = fs::read(path)?;
        let (row, file) = names(folder, path);
        let faces = font::faces(&data);
        let single = faces.len() == 1;
        if faces.is_empty() {
            println!("left out, no face of it can be opened: {file}");
        }
        for (face, directory) in faces {
            let title = if single {
                file.clone()
            } else {
                format!("{file}, face {face}")
            };
            let row = self.rows.entry(row.clone()).or_default();
            row.fonts += 1;
            let font = Font::at(&data, directory);
            if !font.has_fvar {
                row.without_fvar += 1;
                self.without_fvar.push(title.clone());
            }
            for (count, at) in row
                .tables
                .iter_mut()
                .zip([font.hmtx.at, font.vmtx.at, font.vorg])
            {
                *count += (at != 0) as u64;
            }
            match damage {
                None => {
                    self.judge.input = title.clone();
                    self.reading.input = title;
                    let mut asker = Asker {
                        font: Font::at(&data, directory),
                        judge: &mut self.judge,
                        random: Random::new(seed_of(SEED, path, face, 0)),
                        brief: false,
                    };
                    asker.all();
                    let (glyphs, lists) = (asker.sample(), asker.lists());
                    self.reading.ask(&asker.font, &glyphs, &lists);
                    self.reading.miscounted(&asker.font);
                }
                Some((rounds, seed)) => {
                    let fields = Fields::of(&data, directory);
                    for round in 0..if fields.is_empty() { 0 } else { rounds } {
                        let mut random = Random::new(seed_of(seed, path, face, round));
                        let done = fields.damage(&mut data, &mut random);
                        self.judge.input =
                            format!("{title}, seed {seed}, round {round}: {}", done.text());
                        let mut asker = Asker {
                            font: Font::at(&data[..done.length], directory),
                            judge: &mut self.judge,
                            random,
                            brief: true,
                        };
                        asker.all();
                        done.undo(&mut data);
                    }
                    // apart from these, and by other random numbers, what widths are read by
                    let fields = Fields::of_widths(&data, directory);
                    for round in 0..if fields.is_empty() { 0 } else { rounds } {
                        let mut random = Random::new(seed_of(!seed, path, face, round));
                        let done = fields.damage(&mut data, &mut random);
                        self.reading.input =
                            format!("{title}, seed {seed}, round {round}: {}", done.text());
                        let mut asker = Asker {
                            font: Font::at(&data[..done.length], directory),
                            judge: &mut self.judge,
                            random,
                            brief: true,
                        };
                        let (glyphs, lists) = (asker.sample(), asker.lists());
                        self.reading.ask(&asker.font, &glyphs, &lists);
                        done.undo(&mut data);
                    }
                }
            }
            for (k, tally) in self.reading.take().iter().enumerate() {
                row.read.add(tally);
                self.readings[k].add(tally);
            }
            for (k, tally) in self.judge.filling.take().iter().enumerate() {
                row.filled.add(tally);
                self.fillings[k].add(tally);
            }
            for (k, tally) in self.judge.take().iter().enumerate() {
                row.tally.add(tally);
                self.functions[k].add(tally);
            }
        }
        Ok(())
    }

    /// Prints the pairs of tables, and answers whether there is no difference.
    fn table(&self) -> bool {
        let names = self.rows.keys().map(|name| name.chars().count());
        let functions = FUNCTIONS.iter().chain(&read::FUNCTIONS);
        let functions = functions.chain(&lists::FUNCTIONS);
        let longest = names.chain(functions.map(|name| name.len())).max();
        let longest = longest.unwrap_or(0);
        let mut columns = vec!["fonts", "without fvar"];
        columns.extend(COLUMNS);
        print_row(longest, "folder", &columns);
        let mut total = Row::default();
        for (name, row) in &self.rows {
            print_row(longest, name, &row.columns());
            total.add(row);
        }
        print_row(longest, "all", &total.columns());
        println!();
        print_row(longest, "function", &COLUMNS);
        for (name, tally) in FUNCTIONS.iter().zip(&self.functions) {
            print_row(longest, name, &tally.columns());
        }
        print_row(longest, "all", &total.tally.columns());
        self.filled_tables(longest, &total);
        self.read_tables(longest, &total);
        total.tally.differences + total.read.differences + total.filled.differences == 0
    }

    fn filled_tables(&self, longest: usize, total: &Row) {
        println!("\nWhere stores are, and lists of scalars filled, by the rules:\n");
        let mut columns = vec!["fonts"];
        columns.extend(lists::COLUMNS);
        print_row(longest, "folder", &columns);
        for (name, row) in &self.rows {
            print_row(longest, name, &row.filled_columns());
        }
        print_row(longest, "all", &total.filled_columns());
        println!();
        print_row(longest, "function", &lists::COLUMNS);
        for (name, tally) in lists::FUNCTIONS.iter().zip(&self.fillings) {
            print_row(longest, name, &tally.columns());
        }
        print_row(longest, "all", &total.filled.columns());
    }

    fn read_tables(&self, longest: usize, total: &Row) {
        println!("\nhmtx, vmtx and VORG, and widths in one call, by the rules:\n");
        let mut columns = vec!["fonts", "with hmtx", "with vmtx", "with VORG"];
        columns.extend(read::COLUMNS);
        print_row(longest, "folder", &columns);
        for (name, row) in &self.rows {
            print_row(longest, name, &row.read_columns());
        }
        print_row(longest, "all", &total.read_columns());
        println!();
        print_row(longest, "function", &read::COLUMNS);
        for (name, tally) in read::FUNCTIONS.iter().zip(&self.readings) {
            print_row(longest, name, &tally.columns());
        }
        print_row(longest, "all", &total.read.columns());
    }
}

fn compare(folder: &Path, damage: Option<(u64, u64)>) -> io::Result<bool> {
    let files = Files::below(folder)?;
    let mut shelf = Shelf {
        judge: Judge::new(),
        reading: Reading::default(),
        rows: BTreeMap::new(),
        functions: [Tally::default(); FUNCTIONS.len()],
        readings: Default::default(),
        fillings: Default::default(),
        without_fvar: vec![],
    };
    let count = files.fonts.len();
    for (k, path) in files.fonts.iter().enumerate() {
        let place = format!("file {} of {count}, {}", k + 1, names(folder, path).1);
        eprintln!("shelf: {place}");
        shelf.judge.place = place;
        shelf.file(folder, path, damage)?;
    }
    for (path, why) in &files.left_out {
        println!("left out, {why}: {}", names(folder, path).1);
    }
    for title in &shelf.without_fvar {
        println!("without fvar: {title}");
    }
    let nothing_read = shelf.readings.iter().all(|tally| tally.cases == 0);
    if nothing_read && shelf.functions.iter().all(|tally| tally.cases == 0) {
        let why = "nothing below it can be compared";
        return Err(io::Error::new(io::ErrorKind::Other, why));
    }
    Ok(shelf.table())
}

fn run(words: &[OsString]) -> Option<io::Result<bool>> {
    let number = |word: &OsString| word.to_str()?.parse().ok();
    let (word, rest) = words.split_first()?;
    match (word.to_str()?, rest) {
        ("compare", [folder]) => Some(compare(Path::new(folder), None)),
        ("damage", [folder, rounds, seed]) => {
            let damage = (number(rounds)?, number(seed)?);
            Some(compare(Path::new(folder), Some(damage)))
        }
        ("coords", [folder]) => Some(coords::write(Path::new(folder)).map(|()| true)),
        ("widths", [folder]) => Some(written::write(Path::new(folder)).map(|()| true)),
        ("names", [folder]) => Some(named::write(Path::new(folder)).map(|()| true)),
        _ => None,
    }
}

fn main() -> ExitCode {
    // A stop of the Rust is an answer here, not an accident; any other is a fault of this program's.
    std::panic::set_hook(Box::new(|fault| {
        if !judge::is_asked() {
            eprintln!("shelf: a fault of its own: {fault}");
        }
    }));
    let words: Vec<OsString> = std::env::args_os().skip(1).collect();
    match catch_unwind(|| run(&words)) {
        Ok(Some(Ok(true))) => ExitCode::SUCCESS,
        Ok(Some(Ok(false))) => ExitCode::FAILURE,
        Ok(Some(Err(why))) => {
            eprintln!("shelf: {}: {why}", shown(Path::new(&words[1])));
            ExitCode::from(2)
        }
        Ok(None) => {
            eprint!("{USAGE}");
            ExitCode::from(2)
        }
        Err(_) => ExitCode::from(2),
    }
}
