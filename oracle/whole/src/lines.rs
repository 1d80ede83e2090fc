//! The lines that are written, and swash's answers in them.

use std::cell::Cell;
use std::io::{self, BufWriter, Stdout, Write};
use std::panic::{catch_unwind, AssertUnwindSafe};

/// What swash answers where it stops, by an overflow check.
pub const STOPS: &str = "stops";

thread_local! {
    /// whether swash is being asked: there a panic is an answer
    static ASKED: Cell<bool> = const { Cell::new(false) };
}

/// What swash answers, if it doesn't stop.
pub fn tried<T>(question: impl FnOnce() -> T) -> Option<T> {
    ASKED.set(true);
    let done = catch_unwind(AssertUnwindSafe(question));
    ASKED.set(false);
    done.ok()
}

/// The same as a text.
pub fn asked(question: impl FnOnce() -> String) -> String {
    tried(question).unwrap_or_else(|| STOPS.to_string())
}

pub fn is_asked() -> bool {
    ASKED.get()
}

pub struct Lines {
    out: BufWriter<Stdout>,
    /// the first error of writing: whoever reads has ended, and says why
    error: Option<io::Error>,
}

impl Lines {
    pub fn new() -> Self {
        Lines {
            out: BufWriter::with_capacity(1 << 16, io::stdout()),
            error: None,
        }
    }

    pub fn put(&mut self, kind: &str, words: &[String]) {
        if self.error.is_none() {
            let line = words
                .iter()
                .fold(kind.to_string(), |line, word| line + "\t" + word);
            self.error = writeln!(self.out, "{line}").err();
            if self.error.is_some() {
                std::process::exit(2);
            }
        }
    }

    /// Names a part of the face that is not asked for, with the reason.
    pub fn leave(&mut self, why: &str) {
        self.put("part left out", &[why.to_string()]);
    }

    /// Without this line the reader knows that something is missing.
    pub fn end(&mut self) -> io::Result<()> {
        self.put("end", &[]);
        match self.error.take() {
            Some(why) => Err(why),
            None => self.out.flush(),
        }
    }
}
