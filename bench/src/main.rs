//! The bench: swash, with overflow checks and without, and ours, on the same work.
//!
//!     bench check               whether swash's checks are on in the one build and off in the other
//!     bench works FONT          the works that FONT can be put to, a line each
//!     bench run FONT WORK N     does WORK N times on each of the three sides; prints the calls of a side
//!     bench time FONT WORK N    the same, with the least time of a call on each side, in picoseconds; - where it has none
//!     bench side FONT WORK N S  does WORK N times on the side S alone: 0 ours, 1 swash with checks, 2 without, 3 nothing
//!
//! Wherever a work is done, the three must answer alike, to the bit; else the status is 1.

mod empty;
mod font;
mod ours;
#[path = "../../link/suolluvik.rs"]
#[allow(dead_code)]
mod suolluvik;

use font::Font;
use std::hint::black_box;
use std::process::ExitCode;
use std::time::Instant;
use suolluvik::Scalars;

/// One side's functions. They are called through these pointers, so that none is merged into the loop.
struct Side {
    advance: fn(&[u8], u32, u16, &[i16]) -> f32,
    raw: fn(&[u8], u32, u16, &[i16]) -> Option<i32>,
    mvar: fn(&[u8], u32, u32, &[i16]) -> f32,
    settings: fn(&[u8], &[u32], &[f32], &mut [i16]) -> usize,
    instance: fn(&[u8], u16, &mut [i16]) -> usize,
    /// A side without lists asks for an advance delta where one is read with a list.
    lists: Option<Lists>,
}

#[derive(Copy, Clone)]
struct Lists {
    filling: for<'a> fn(&'a [u8], u32, &[i16], &'a mut [i32]) -> Option<Scalars<'a>>,
    list: fn(&Scalars, u16) -> f32,
}

const SIDES: [Side; 3] = [
    Side {
        advance: ours::advance,
        raw: ours::raw,
        mvar: ours::mvar,
        settings: ours::settings,
        instance: ours::instance,
        lists: Some(Lists {
            filling: ours::filling,
            list: ours::list,
        }),
    },
    Side {
        advance: checked::advance,
        raw: checked::raw,
        mvar: checked::mvar,
        settings: checked::settings,
        instance: checked::instance,
        lists: None,
    },
    Side {
        advance: unchecked::advance,
        raw: unchecked::raw,
        mvar: unchecked::mvar,
        settings: unchecked::settings,
        instance: unchecked::instance,
        lists: None,
    },
];

/// What the loop costs without any of them.
const EMPTY: Side = Side {
    advance: empty::advance,
    raw: empty::raw,
    mvar: empty::mvar,
    settings: empty::settings,
    instance: empty::instance,
    lists: None,
};

/// Forty letters and blanks.
const LINE: &str = "Hamburgefonts set by the old press: 1739";

/// A list of so many numbers has room for every font.
const ROOM: usize = 65535;

/// How many settings are tried for each font, from min to max of every axis.
const STEPS: usize = 33;

/// Every call of a work, in order. The numbers in them are all that differs between two calls.
enum Calls<'a> {
    Advance {
        glyphs: Vec<u16>,
        coords: Vec<i16>,
    },
    Raw {
        glyphs: Vec<u16>,
        coords: Vec<i16>,
    },
    /// With a list that was filled before.
    List {
        glyphs: Vec<u16>,
        coords: Vec<i16>,
        scalars: Scalars<'a>,
    },
    Filling {
        coords: Vec<i16>,
    },
    /// With a list that is filled for each line.
    Kept {
        glyphs: Vec<u16>,
        coords: Vec<i16>,
    },
    Mvar {
        tags: Vec<u32>,
        coords: Vec<i16>,
    },
    Settings {
        tags: Vec<u32>,
        values: Vec<Vec<f32>>,
    },
    Instances {
        count: u16,
    },
}

impl<'a> Calls<'a> {
    /// The calls of a work; None where the font can't be put to it.
    fn new(font: &'a Font, work: &str) -> Option<Self> {
        let (kind, place) = work.split_once('-').unwrap_or((work, ""));
        let coords = coords(font, place);
        let line = || LINE.chars().map(|c| font.glyph(c)).collect();
        let fill = |coords: &[i16]| {
            let list = vec![0; ROOM].leak();
            Scalars::fill(&font.data, font.offset(b"HVAR"), coords, list).ok()
        };
        let calls = match kind {
            "advance" => Calls::Advance {
                glyphs: (0..font.glyph_count()).collect(),
                coords: coords?,
            },
            "raw" => Calls::Raw {
                glyphs: (0..font.glyph_count()).collect(),
                coords: coords?,
            },
            "line" => Calls::Advance {
                glyphs: line(),
                coords: coords?,
            },
            "list" => Calls::List {
                glyphs: (0..font.glyph_count()).collect(),
                scalars: fill(coords.as_ref()?)?,
                coords: coords?,
            },
            "filling" => {
                fill(coords.as_ref()?)?;
                Calls::Filling { coords: coords? }
            }
            "kept" => {
                fill(coords.as_ref()?)?;
                Calls::Kept {
                    glyphs: line(),
                    coords: coords?,
                }
            }
            "mvar" => Calls::Mvar {
                tags: font.mvar_tags(),
                coords: coords?,
            },
            "settings" => Calls::Settings {
                tags: font.axes.iter().map(|a| a.tag).collect(),
                values: (0..STEPS)
                    .map(|s| font.axes.iter().map(|a| step(a, s)).collect())
                    .collect(),
            },
            "instances" => Calls::Instances {
                count: suolluvik::instance_count(font.fvar()),
            },
            _ => return None,
        };
        (calls.len() > 0).then_some(calls)
    }

    fn len(&self) -> usize {
        match self {
            Calls::Advance { glyphs, .. }
            | Calls::Raw { glyphs, .. }
            | Calls::List { glyphs, .. }
            | Calls::Kept { glyphs, .. } => glyphs.len(),
            Calls::Filling { .. } => 1,
            Calls::Mvar { tags, .. } => tags.len(),
            Calls::Settings { values, .. } => values.len(),
            Calls::Instances { count } => *count as usize,
        }
    }

    /// Whether a side has such calls.
    fn are_of(&self, side: &Side) -> bool {
        side.lists.is_some() || !matches!(self, Calls::Filling { .. })
    }

    /// Makes each call once; answers a sum over all answers, in which their order counts.
    fn run(&self, side: &Side, font: &Font, list: &mut [i32]) -> u64 {
        let mut sum = Sum(0);
        let data = black_box(&font.data[..]);
        let hvar = font.offset(b"HVAR");
        match (self, side.lists) {
            (
                Calls::List {
                    glyphs, scalars, ..
                },
                Some(lists),
            ) => sum.read(lists, scalars, glyphs),
            (Calls::Filling { coords }, Some(lists)) => {
                let filled = (lists.filling)(data, black_box(hvar), black_box(coords), list);
                for &scalar in black_box(filled).map_or(&[][..], |scalars| scalars.as_slice()) {
                    sum.add(scalar as u32);
                }
            }
            (Calls::Filling { .. }, None) => {}
            (Calls::Kept { glyphs, coords }, Some(lists)) => {
                let filled = (lists.filling)(data, black_box(hvar), black_box(coords), list);
                if let Some(scalars) = filled {
                    sum.read(lists, &scalars, glyphs);
                }
            }
            (
                Calls::Advance { glyphs, coords }
                | Calls::List { glyphs, coords, .. }
                | Calls::Kept { glyphs, coords },
                _,
            ) => {
                for &glyph in glyphs {
                    let delta =
                        (side.advance)(data, black_box(hvar), black_box(glyph), black_box(coords));
                    sum.add(black_box(delta).to_bits());
                }
            }
            (Calls::Raw { glyphs, coords }, _) => {
                for &glyph in glyphs {
                    let delta =
                        (side.raw)(data, black_box(hvar), black_box(glyph), black_box(coords));
                    sum.add(black_box(delta).map_or(u32::MAX, |delta| delta as u32));
                }
            }
            (Calls::Mvar { tags, coords }, _) => {
                let mvar = font.offset(b"MVAR");
                for &tag in tags {
                    let delta =
                        (side.mvar)(data, black_box(mvar), black_box(tag), black_box(coords));
                    sum.add(black_box(delta).to_bits());
                }
            }
            (Calls::Settings { tags, values }, _) => {
                let (fvar, mut out) = (black_box(font.fvar()), [0; 32]);
                for values in values {
                    let count = (side.settings)(
                        fvar,
                        black_box(tags),
                        black_box(values),
                        black_box(&mut out),
                    );
                    sum.list(&out, count);
                }
            }
            (Calls::Instances { count }, _) => {
                let (fvar, mut out) = (black_box(font.fvar()), [0; 32]);
                for index in 0..*count {
                    let count = (side.instance)(fvar, black_box(index), black_box(&mut out));
                    sum.list(&out, count);
                }
            }
        }
        sum.0
    }
}

struct Sum(u64);

impl Sum {
    fn add(&mut self, bits: u32) {
        self.0 = self.0.wrapping_mul(0x100000001b3).wrapping_add(bits as u64);
    }

    /// The deltas of glyphs, read with a list.
    #[inline(always)]
    fn read(&mut self, lists: Lists, scalars: &Scalars, glyphs: &[u16]) {
        for &glyph in glyphs {
            let delta = (lists.list)(black_box(scalars), black_box(glyph));
            self.add(black_box(delta).to_bits());
        }
    }

    fn list(&mut self, list: &[i16], count: usize) {
        self.add(count as u32);
        for &coord in &list[..count] {
            self.add(coord as u32);
        }
    }
}

/// Coordinates of every axis: its default; halfway to max; halfway to min. Where the default is that end, halfway to the
/// other one.
fn coords(font: &Font, place: &str) -> Option<Vec<i16>> {
    let coord = |a: &suolluvik::Axis| match place {
        "default" => Some(0),
        "up" => Some(if a.default < a.max { 8192 } else { -8192 }),
        "down" => Some(if a.min < a.default { -8192 } else { 8192 }),
        _ => None,
    };
    font.axes.iter().map(coord).collect()
}

/// The value number `step` of an axis, from min to max.
fn step(a: &suolluvik::Axis, step: usize) -> f32 {
    let (min, max) = (a.min as i64, a.max as i64);
    suolluvik::fixed_to_f32((min + (max - min) * step as i64 / (STEPS as i64 - 1)) as i32)
}

const WORKS: [&str; 23] = [
    "advance-up",
    "advance-down",
    "advance-default",
    "raw-up",
    "raw-down",
    "raw-default",
    "line-up",
    "line-down",
    "line-default",
    "list-up",
    "list-down",
    "list-default",
    "filling-up",
    "filling-down",
    "filling-default",
    "kept-up",
    "kept-down",
    "kept-default",
    "settings",
    "instances",
    "mvar-up",
    "mvar-down",
    "mvar-default",
];

fn fail(message: &str) -> ExitCode {
    eprintln!("bench: {message}");
    ExitCode::from(1)
}

/// A font whose store's offset is 2^32: the sum stops with overflow checks, and is 0 without them.
fn check() -> ExitCode {
    let font = [0, 0, 0, 0, 0, 1, 0, 0, 0xff, 0xff, 0xff, 0xfc];
    std::panic::set_hook(Box::new(|_| ()));
    let stops = |side: &Side| {
        let advance = side.advance;
        std::panic::catch_unwind(|| advance(&font, 4, 0, &[])).is_err()
    };
    match SIDES.each_ref().map(stops) {
        [false, true, false] => ExitCode::SUCCESS,
        found => fail(&format!(
            "ours, swash with checks, swash without: stops on an overflow: {found:?}"
        )),
    }
}

/// The least time that the calls, `repeat` times over, took on each side; None where the answers differ.
fn run(font: &Font, calls: &Calls, rounds: usize, repeat: usize) -> Option<[u128; 3]> {
    let mut least = [u128::MAX; 3];
    let mut list = vec![0; ROOM];
    for _ in 0..rounds {
        let mut sums = [0u64; 3];
        for (i, side) in SIDES.iter().enumerate() {
            let start = Instant::now();
            for _ in 0..repeat {
                sums[i] = sums[i].wrapping_add(calls.run(side, font, &mut list));
            }
            least[i] = least[i].min(start.elapsed().as_nanos());
        }
        let differs = |i: usize| calls.are_of(&SIDES[i]) && sums[i] != sums[0];
        if differs(1) || differs(2) {
            return None;
        }
    }
    Some(least)
}

fn main() -> ExitCode {
    let args: Vec<String> = std::env::args().skip(1).collect();
    let args: Vec<&str> = args.iter().map(|arg| &arg[..]).collect();
    if args == ["check"] {
        return check();
    }
    let Some(data) = args.get(1).and_then(|path| std::fs::read(path).ok()) else {
        return fail("no font that can be read");
    };
    let font = Font::new(data);
    match args[..] {
        ["works", _] => {
            if font.axes.is_empty() || font.offset(b"HVAR") == 0 {
                return ExitCode::SUCCESS;
            }
            for work in WORKS {
                if let Some(calls) = Calls::new(&font, work) {
                    println!("{work} {} {}", calls.len(), font.axes.len());
                }
            }
            ExitCode::SUCCESS
        }
        ["run" | "time", path, work, rounds] => {
            let Some(calls) = Calls::new(&font, work) else {
                return fail("no such work for this font");
            };
            let Ok(rounds) = rounds.parse() else {
                return fail("N is no number");
            };
            // the clock's own time must not show
            let repeat = if args[0] == "time" {
                4096 / calls.len() + 1
            } else {
                1
            };
            let Some(least) = run(&font, &calls, rounds, repeat) else {
                return fail(&format!("{path}: {work}: the answers differ"));
            };
            if args[0] == "time" {
                for (side, ns) in SIDES.iter().zip(least) {
                    match calls.are_of(side) {
                        true => println!("{}", ns * 1000 / (calls.len() * repeat) as u128),
                        false => println!("-"),
                    }
                }
            } else {
                println!("{}", calls.len() * rounds);
            }
            ExitCode::SUCCESS
        }
        ["side", _, work, rounds, side] => {
            let (Ok(rounds), Ok(side)) = (rounds.parse::<usize>(), side.parse::<usize>()) else {
                return fail("no number");
            };
            let Some(calls) = Calls::new(&font, work) else {
                return fail("no such work for this font");
            };
            let mut list = vec![0; ROOM];
            for _ in 0..rounds {
                black_box(calls.run(SIDES.get(side).unwrap_or(&EMPTY), &font, &mut list));
            }
            ExitCode::SUCCESS
        }
        _ => fail("usage: see src/main.rs"),
    }
}
