//! Holds the library, linked, and the model to what the whole swash answers: `oracle/whole` writes its lines,
//! this reads them. README.md beside this folder says how to use it. It must build with rustc 1.63, the one that
//! Debian 12 has a library for x86-64 for on other processors.

#[path = "whole/coords.rs"]
mod coords;
#[path = "whole/deciding.rs"]
mod deciding;
#[path = "whole/falling.rs"]
mod falling;
#[path = "whole/font.rs"]
mod font;
#[path = "whole/judge.rs"]
mod judge;
#[path = "whole/measures.rs"]
mod measures;
#[path = "whole/reading.rs"]
mod reading;
#[path = "whole/tables.rs"]
mod tables;

#[allow(dead_code)]
#[path = "../../link/suolluvik.rs"]
mod suolluvik;
#[allow(dead_code)]
mod text;

#[allow(dead_code)]
mod numbers {
    pub mod rules;
}
#[allow(dead_code)]
mod axes {
    pub mod rules;
}
#[allow(dead_code)]
mod store {
    pub mod rules;
}
#[allow(dead_code)]
mod metrics {
    pub mod rules;
}
#[allow(dead_code)]
mod widths {
    pub mod rules;
}

use font::{Font, Phase};
use judge::Judge;
use measures::Metrics;
use std::io::{self, BufRead};
use std::process::ExitCode;
use tables::Tables;

const USAGE: &str = "\
judge fonts      reads the lines of 'whole fonts', and prints tables
judge made       reads the lines of 'whole made', and prints each answer
";

/// What goes wrong but for a difference: the line, and why.
type Wrong<T> = Result<T, String>;

struct Reader {
    font: Font,
    metrics: Metrics,
    judge: Judge,
    tables: Tables,
    ended: bool,
}

impl Reader {
    /// Before another font, or another state of it, what was counted goes to its row.
    fn settle(&mut self) {
        self.tables.add(&self.font, self.judge.take());
    }

    /// Another face, or another state of it.
    fn begin(&mut self, change: impl FnOnce(&mut Font) -> Wrong<()>) -> Wrong<()> {
        self.settle();
        change(&mut self.font)?;
        self.judge.input = self.font.title();
        Ok(())
    }

    fn line(&mut self, line: &str) -> Wrong<()> {
        let words: Vec<&str> = line.split('\t').collect();
        match (words[0], &words[1..]) {
            ("left out", [path, why]) => {
                println!("left out: {}: {}", font::shown(&font::path(path)?), why)
            }
            ("part left out", [why]) => println!("left out: {}: {}", self.font.state(), why),
            ("lists left out", [count]) => {
                println!("{}: {} left out at its glyphs", self.font.state(), count)
            }
            ("file", [path, below]) => {
                self.settle();
                self.font = Font::read(path, below)?;
            }
            ("bytes", [bytes, what, avar]) => {
                self.settle();
                self.font = Font::made(bytes, what, avar)?;
            }
            ("face", numbers) => {
                self.begin(|font| font.face(numbers))?;
                self.tables.next_face();
            }
            ("avar", [bytes]) => self.begin(|font| font.put_avar(bytes))?,
            ("filled", [vvar, mvar, behind, changes @ ..]) => {
                self.begin(|font| font.fill(Phase::Filled, vvar, mvar, behind, changes))?
            }
            ("damaged", [hvar, vvar, mvar, behind]) => self.begin(|font| {
                font.hvar = hvar.parse().map_err(|_| "no such place")?;
                font.fill(Phase::Widths, vvar, mvar, behind, &[])
            })?,
            ("halved", [vvar, mvar, behind, changes @ ..]) => {
                self.begin(|font| font.fill(Phase::Halved, vvar, mvar, behind, changes))?
            }
            ("end", []) => {
                self.settle();
                self.ended = true;
            }
            (kind, words) => {
                let known = coords::line(&mut self.judge, &self.font, kind, words)
                    .or_else(|| self.metrics.line(&mut self.judge, &self.font, kind, words));
                known.ok_or_else(|| "no such line".to_string())?;
            }
        }
        Ok(())
    }
}

fn read(made: bool) -> Wrong<bool> {
    let mut reader = Reader {
        font: Font::default(),
        metrics: Metrics::default(),
        judge: Judge::new(made),
        tables: Tables::default(),
        ended: false,
    };
    let mut input = io::stdin().lock();
    let mut line = String::new();
    loop {
        line.clear();
        let read = input.read_line(&mut line).map_err(|why| why.to_string())?;
        if read == 0 {
            break;
        }
        let text = line.trim_end_matches('\n');
        reader
            .line(text)
            .map_err(|why| format!("{}: {}", text.chars().take(200).collect::<String>(), why))?;
    }
    if !reader.ended {
        return Err("swash's side ended before its last line".to_string());
    }
    if reader.tables.is_empty() {
        return Err("nothing was compared".to_string());
    }
    if !made {
        reader.tables.print();
    }
    Ok(reader.tables.differences() == 0)
}

fn main() -> ExitCode {
    let words: Vec<String> = std::env::args().skip(1).collect();
    let words: Vec<&str> = words.iter().map(String::as_str).collect();
    let made = match words[..] {
        ["fonts"] => false,
        ["made"] => true,
        _ => {
            eprint!("{}", USAGE);
            return ExitCode::from(2);
        }
    };
    match read(made) {
        Ok(true) => ExitCode::SUCCESS,
        Ok(false) => ExitCode::FAILURE,
        Err(why) => {
            eprintln!("judge: {}", why);
            ExitCode::from(2)
        }
    }
}
