//! Asks the whole swash, through its public interface, about the fonts of a folder, and writes each
//! question with swash's answer to standard output, one to a line, with a tab between two words.
//! `oracle/src/whole.rs` reads them. README.md of `oracle` says what is asked, and how to run it.

mod axes;
mod face;
mod files;
mod filled;
mod lines;
mod made;
mod maps;
mod metrics;
// the build puts oracle/src/random.rs and text.rs beside this file
#[allow(dead_code)]
mod random;
#[allow(dead_code)]
mod text;
mod widths;

use face::Face;
use files::Files;
use lines::Lines;
use random::Random;
use std::ffi::OsString;
use std::fs;
use std::io;
use std::os::unix::ffi::OsStrExt;
use std::path::Path;
use std::process::ExitCode;
use swash::FontDataRef;

const USAGE: &str = "\
whole fonts FOLDER ROUNDS SEED       the fonts below FOLDER, as they are, then each with its hmtx, vmtx and VORG
                                     damaged ROUNDS times by random from SEED, then with its avar
whole made                           maps that were made by hand
";

/// Of a font that is not damaged the random numbers are always the same.
const SEED: u64 = 20261116;

/// A seed for one face and round, whatever other fonts there are.
fn seed_of(seed: u64, name: &str, face: usize, round: u64) -> u64 {
    let start = Random::new(seed.wrapping_add(round << 20)).bits();
    let mix = |hash: u64, byte: u8| (hash ^ byte as u64).wrapping_mul(0x100_0000_01b3);
    name.bytes().fold(start, mix).wrapping_add(face as u64)
}

/// A path's bytes, whatever they are.
fn path_text(path: &Path) -> String {
    text::bytes_text(path.as_os_str().as_bytes().iter().copied())
}

fn file(lines: &mut Lines, folder: &Path, path: &Path, rounds: u64, seed: u64) -> io::Result<()> {
    let mut data = fs::read(path)?;
    let below = path.strip_prefix(folder).unwrap_or(path);
    let name = path
        .file_name()
        .map_or(String::new(), |n| n.to_string_lossy().to_string());
    lines.put("file", &[path_text(path), path_text(below)]);
    let count = FontDataRef::new(&data).map_or(0, |font| font.len());
    // a count may be any number, but each face of a collection has four bytes there
    let most = count.min(data.len() / 4);
    let leave = |lines: &mut Lines, why: String| lines.put("left out", &[path_text(path), why]);
    if count == 0 {
        leave(lines, "a collection of no face".to_string());
    }
    if most < count {
        leave(lines, format!("{} faces past its end", count - most));
    }
    for index in 0..most {
        let Some(face) = Face::at(&data, index) else {
            leave(lines, format!("face {index}, which swash can't open"));
            continue;
        };
        // one list has a coordinate too many
        if face.font.variations().len() >= text::LIST {
            let why = "which has more axes than a line has room for";
            leave(lines, format!("face {index}, {why}"));
            continue;
        }
        lines.put("face", &face.words());
        if rounds > 0 && maps::is_cut(&face) {
            lines.leave("its avar is not damaged: it is not whole");
        }
        let random = &mut Random::new(seed_of(SEED, &name, index, 0));
        axes::ask(lines, &face, random);
        metrics::ask(lines, &face, metrics::PAIRS, random);
        filled::ask(lines, &face, random);
        // other numbers than the avar's
        let seeds = |round| Random::new(seed_of(!seed, &name, index, round));
        widths::ask(lines, &face, rounds, seeds);
        for round in 0..rounds {
            let random = &mut Random::new(seed_of(seed, &name, index, round));
            maps::damage(lines, &mut data, index, random);
        }
    }
    Ok(())
}

fn fonts(folder: &Path, rounds: u64, seed: u64) -> io::Result<()> {
    let files = Files::below(folder)?;
    let mut lines = Lines::new();
    for (path, why) in &files.left {
        lines.put("left out", &[path_text(path), why.clone()]);
    }
    for (k, path) in files.fonts.iter().enumerate() {
        eprintln!("swash: file {} of {}, {:?}", k + 1, files.fonts.len(), path);
        file(&mut lines, folder, path, rounds, seed)?;
    }
    lines.end()
}

fn run(words: &[OsString]) -> Option<io::Result<()>> {
    let number = |word: &OsString| word.to_str()?.parse().ok();
    let (word, rest) = words.split_first()?;
    match (word.to_str()?, rest) {
        ("fonts", [folder, rounds, seed]) => {
            Some(fonts(Path::new(folder), number(rounds)?, number(seed)?))
        }
        ("made", []) => Some(made::ask()),
        _ => None,
    }
}

fn main() -> ExitCode {
    // a stop of swash's is an answer here; any other is a fault of this program's
    std::panic::set_hook(Box::new(|fault| {
        if !lines::is_asked() {
            eprintln!("swash: a fault of its own: {fault}");
        }
    }));
    if !made::stops() {
        eprintln!("swash: built without overflow checks, it does not stop where it must");
        return ExitCode::from(2);
    }
    let words: Vec<OsString> = std::env::args_os().skip(1).collect();
    match run(&words) {
        Some(Ok(())) => ExitCode::SUCCESS,
        Some(Err(why)) => {
            eprintln!("swash: {:?}: {why}", words[1..].join(" ".as_ref()));
            ExitCode::from(2)
        }
        None => {
            eprint!("{USAGE}");
            ExitCode::from(2)
        }
    }
}
