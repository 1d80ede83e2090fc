//! The font that is asked about, as the lines give it.

use crate::axes::rules::Avar;
use crate::text::bytes;
use crate::Wrong;
use std::ffi::OsString;
use std::fs;
use std::os::unix::ffi::OsStringExt;
use std::path::{Path, PathBuf};

#[derive(Clone, Copy, PartialEq, Eq, PartialOrd, Ord)]
pub enum Phase {
    AsItIs,
    Filled,
    /// filled, and with half of each item count
    Halved,
    /// hmtx, vmtx, VORG and the counts of their records
    Widths,
    Damaged,
}

impl Default for Phase {
    fn default() -> Self {
        Phase::AsItIs
    }
}

#[derive(Default)]
pub struct Font {
    pub data: Vec<u8>,
    pub phase: Phase,
    /// the folder that it is in
    pub row: String,
    name: String,
    /// what was done to it
    done: String,
    face: usize,
    /// how many bytes it has without what was put behind them, and those that were changed
    whole: usize,
    changed: Vec<(usize, Vec<u8>)>,
    /// start and length
    fvar: (usize, usize),
    /// starts, 0 where there is none
    pub avar: u32,
    pub hvar: u32,
    pub vvar: u32,
    pub mvar: u32,
}

fn number(word: &str) -> Wrong<usize> {
    word.parse().map_err(|_| format!("{} is no number", word))
}

fn hex(word: &str) -> Wrong<Vec<u8>> {
    bytes(word).ok_or_else(|| "these are no bytes".to_string())
}

/// A path goes through the lines as bytes: it may hold any.
pub fn path(word: &str) -> Wrong<PathBuf> {
    hex(word).map(|bytes| PathBuf::from(OsString::from_vec(bytes)))
}

/// Quoted and with escapes where it could break a line.
pub fn shown(path: &Path) -> String {
    match path.to_str() {
        Some(text) if !text.chars().any(char::is_control) => text.to_string(),
        _ => format!("{:?}", path),
    }
}

impl Font {
    pub fn read(file: &str, below: &str) -> Wrong<Font> {
        let data = fs::read(path(file)?).map_err(|why| why.to_string())?;
        let below = path(below)?;
        Ok(Font {
            whole: data.len(),
            data,
            row: below.parent().map_or(String::new(), shown),
            name: shown(&below),
            ..Font::default()
        })
    }

    pub fn made(data: &str, what: &str, avar: &str) -> Wrong<Font> {
        let data = hex(data)?;
        Ok(Font {
            whole: data.len(),
            data,
            row: "made".to_string(),
            name: format!("{}, avar {}", what, avar),
            ..Font::default()
        })
    }

    /// Of a face: its index, start and length of fvar, then the starts of the others.
    pub fn face(&mut self, numbers: &[&str]) -> Wrong<()> {
        let numbers: Wrong<Vec<usize>> = numbers.iter().map(|word| number(word)).collect();
        let numbers = numbers?;
        if numbers.len() != 7 || numbers[1] + numbers[2] > self.whole {
            return Err("these are no places of tables".to_string());
        }
        self.undo();
        self.face = numbers[0];
        self.fvar = (numbers[1], numbers[2]);
        self.avar = numbers[3] as u32;
        self.hvar = numbers[4] as u32;
        self.vvar = numbers[5] as u32;
        self.mvar = numbers[6] as u32;
        self.phase = Phase::AsItIs;
        self.done.clear();
        Ok(())
    }

    /// The font as it was read.
    fn undo(&mut self) {
        self.data.truncate(self.whole);
        for (p, old) in self.changed.drain(..).rev() {
            self.data[p..p + old.len()].copy_from_slice(&old);
        }
    }

    /// The avar is these bytes from now on, behind the font's own.
    pub fn put_avar(&mut self, word: &str) -> Wrong<()> {
        self.undo();
        self.avar = self.whole as u32;
        self.data.extend(hex(word)?);
        self.phase = Phase::Damaged;
        self.done = format!(", avar {}", word);
        Ok(())
    }

    /// Another VVAR and MVAR, bytes behind the font's own, and changes of these, a place and its new bytes in turn.
    pub fn fill(
        &mut self,
        phase: Phase,
        vvar: &str,
        mvar: &str,
        behind: &str,
        changes: &[&str],
    ) -> Wrong<()> {
        self.undo();
        for change in changes.chunks(2) {
            let (p, new) = match change {
                [p, new] => (number(p)?, hex(new)?),
                _ => return Err("a place without bytes".to_string()),
            };
            let old = self.data.get_mut(p..p + new.len()).ok_or("no such place")?;
            self.changed.push((p, old.to_vec()));
            old.copy_from_slice(&new);
        }
        self.vvar = number(vvar)? as u32;
        self.mvar = number(mvar)? as u32;
        self.data.extend(hex(behind)?);
        self.phase = phase;
        let more = self.data.len() - self.whole;
        self.done = match phase {
            Phase::Widths => format!(", with these bytes behind it: {}", behind),
            _ => format!(
                ", filled: VVAR at {}, MVAR at {}, {} bytes more, set {}",
                vvar,
                mvar,
                more,
                changes.join(" ")
            ),
        };
        Ok(())
    }

    /// The face and its state, without what was done to it byte by byte.
    pub fn state(&self) -> String {
        let state = match self.phase {
            Phase::AsItIs => "",
            Phase::Filled => ", filled",
            Phase::Halved => ", filled, item counts halved",
            Phase::Widths => ", hmtx, vmtx and VORG damaged",
            Phase::Damaged => ", avar damaged",
        };
        format!("{}, face {}{}", self.name, self.face, state)
    }

    pub fn title(&self) -> String {
        format!("{}, face {}{}", self.name, self.face, self.done)
    }

    pub fn table(&self) -> &[u8] {
        &self.data[self.fvar.0..self.fvar.0 + self.fvar.1]
    }

    pub fn has_avar(&self) -> bool {
        self.avar != 0
    }

    pub fn is_variable(&self) -> bool {
        self.fvar.1 != 0
    }

    pub fn rule_avar(&self) -> Avar<'_> {
        Avar {
            font: &self.data,
            offset: self.avar as usize,
        }
    }
}
