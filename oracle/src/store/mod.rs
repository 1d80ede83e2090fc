//! The cases of the item variation store, HVAR, VVAR and MVAR: their text, the Rust's answer, the
//! rules' answer.

pub mod cases;
pub mod footprint;
pub mod rules;
pub mod twins;

use crate::axes::rules::Answer;
use crate::numbers::rules::to_f32;
use crate::private::internal::fixed::Fixed;
use crate::private::internal::{shown, var};
use crate::tags::TAGS;
use crate::text;
use crate::{Expected, Rust};
use footprint::Footprint;
use rules::{Map, Rows, COUNTED, UNCOUNTED};

#[derive(Clone, Copy, PartialEq)]
pub enum Kind {
    /// an unsigned 32-bit number, an offset or an outer index
    Offset,
    /// an unsigned 16-bit number
    Index,
    /// a tag
    Tag,
}

use Kind::*;

/// Each function's name and what stands between the font and the coordinates. `mvar_new` alone has
/// no coordinates.
pub const FUNCTIONS: [(&str, &[Kind]); 8] = [
    ("item_delta", &[Offset, Offset, Index]),
    ("advance_fixed", &[Offset, Index]),
    ("sb_fixed", &[Offset, Index]),
    ("advance_delta", &[Offset, Index]),
    ("sb_delta", &[Offset, Index]),
    (NEW, &[Offset]),
    ("mvar_fixed", &[Offset, Tag]),
    ("mvar_delta", &[Offset, Tag]),
];

pub const NEW: &str = "mvar_new";

#[derive(Clone)]
pub struct Case {
    name: &'static str,
    font: Vec<u8>,
    numbers: Vec<u32>,
    coords: Vec<i16>,
}

pub fn number(kind: Kind, word: &str) -> Option<u32> {
    match kind {
        Tag => text::bits(word),
        Offset => u32::try_from(text::natural(word)?).ok(),
        Index => u16::try_from(text::natural(word)?).ok().map(u32::from),
    }
}

/// The case that a line is, if it is one.
pub fn parse(line: &str) -> Option<Case> {
    let mut words = line.split(' ');
    let first = words.next()?;
    let (name, kinds) = FUNCTIONS.iter().find(|(name, _)| *name == first)?;
    let font = text::bytes(words.next()?)?;
    let mut numbers = vec![];
    for kind in *kinds {
        numbers.push(number(*kind, words.next()?)?);
    }
    let coords = match *name {
        NEW => vec![],
        _ => text::halves(words.next()?)?,
    };
    words.next().is_none().then_some(Case {
        name,
        font,
        numbers,
        coords,
    })
}

fn value(x: impl ToString) -> String {
    format!("value {}", x.to_string())
}

fn float_value(x: f32) -> Rust {
    Rust::Answer(value(text::float_text(x)))
}

/// A raw delta by the hook. That it is the one behind the float is seen by the unchanged file's
/// float beside it.
fn raw(delta: Option<Fixed>, float: f32) -> Option<Rust> {
    if delta.map_or(0., Fixed::to_f32).to_bits() != float.to_bits() {
        return Some(Rust::Answer("the hook and the float differ".to_string()));
    }
    Some(Rust::Answer(value(delta?.0)))
}

impl Case {
    /// A delta's, by its name.
    pub fn new(name: &'static str, font: &[u8], numbers: &[u32], coords: &[i16]) -> Self {
        Case {
            name,
            font: font.to_vec(),
            numbers: numbers.to_vec(),
            coords: coords.to_vec(),
        }
    }

    /// The line that it is.
    fn line(&self) -> String {
        let (_, kinds) = FUNCTIONS
            .iter()
            .find(|(name, _)| *name == self.name)
            .unwrap();
        let mut words = vec![self.name.to_string()];
        words.push(text::bytes_text(self.font.iter().copied()));
        for (kind, number) in kinds.iter().zip(&self.numbers) {
            words.push(match kind {
                Tag => format!("{number:08x}"),
                Offset | Index => number.to_string(),
            });
        }
        if self.name != NEW {
            words.push(cases::coords_text(&self.coords));
        }
        words.join(" ")
    }

    /// What swash answers. It may panic.
    fn rust(&self) -> Option<Rust> {
        let (font, coords) = (&self.font[..], &self.coords[..]);
        let n = &self.numbers[..];
        let glyph = || n[1] as u16;
        Some(match self.name {
            "item_delta" => {
                let Ok(outer) = u16::try_from(n[1]) else {
                    return Some(Rust::Silent);
                };
                let delta = var::item_delta(font, n[0], outer, n[2] as u16, coords)?;
                Rust::Answer(value(delta.0))
            }
            "advance_fixed" => {
                let float = var::advance_delta(font, n[0], glyph(), coords);
                raw(shown::raw_advance_delta(font, n[0], glyph(), coords), float)?
            }
            "sb_fixed" => {
                let float = var::sb_delta(font, n[0], glyph(), coords);
                raw(shown::raw_sb_delta(font, n[0], glyph(), coords), float)?
            }
            "advance_delta" => float_value(var::advance_delta(font, n[0], glyph(), coords)),
            "sb_delta" => float_value(var::sb_delta(font, n[0], glyph(), coords)),
            NEW => {
                let opened = var::Mvar::new(font, n[0], coords).is_some();
                let mvar = shown::Mvar::new(font, n[0], coords).filter(|_| opened);
                let (size, count, store) = mvar?.numbers();
                Rust::Answer(format!("value {size} {count} {store}"))
            }
            "mvar_fixed" => {
                let float = var::Mvar::new(font, n[0], coords)?.delta(n[1]);
                let mvar = shown::Mvar::new(font, n[0], coords)?;
                raw(mvar.raw_delta(n[1]), float)?
            }
            "mvar_delta" => float_value(var::Mvar::new(font, n[0], coords)?.delta(n[1])),
            _ => unreachable!(),
        })
    }

    /// What the rules say: a delta, or the numbers of an MVAR that opens.
    fn by_rules(&self, rows: &mut Rows) -> Answer<Vec<i64>> {
        let (font, coords) = (&self.font[..], &self.coords[..]);
        let n: Vec<usize> = self.numbers.iter().map(|n| *n as usize).collect();
        let delta = match self.name {
            NEW => {
                let mvar = rules::open(font, n[0])?;
                let numbers = [mvar.record_size, mvar.record_count, mvar.store];
                return Ok(numbers.map(|n| n as i64).to_vec());
            }
            "item_delta" => rules::item(font, n[0], n[1], n[2], coords, rows)?,
            "advance_fixed" | "advance_delta" => {
                rules::metric(font, n[0], Map::Advance, n[1], coords, rows)?
            }
            "sb_fixed" | "sb_delta" => rules::metric(font, n[0], Map::Bearing, n[1], coords, rows)?,
            "mvar_fixed" | "mvar_delta" => {
                rules::tag_delta(font, n[0], self.numbers[1], coords, rows)?
            }
            _ => unreachable!(),
        };
        Ok(vec![delta])
    }

    /// What its delta hangs on, by the rules.
    fn footprint(&self) -> Footprint {
        let font = &self.font[..];
        let n: Vec<usize> = self.numbers.iter().map(|n| *n as usize).collect();
        match self.name {
            "item_delta" => footprint::item(font, n[0], n[1], n[2]),
            "advance_fixed" | "advance_delta" => footprint::metric(font, n[0], Map::Advance, n[1]),
            "sb_fixed" | "sb_delta" => footprint::metric(font, n[0], Map::Bearing, n[1]),
            "mvar_fixed" | "mvar_delta" => footprint::tag(font, n[0], self.numbers[1]),
            _ => unreachable!(),
        }
    }

    /// Whether the answer is a float: 0.0 on any refusal.
    fn is_float(&self) -> bool {
        matches!(self.name, "advance_delta" | "sb_delta" | "mvar_delta")
    }

    pub fn text(&self, said: &Answer<Vec<i64>>) -> String {
        match said {
            Ok(numbers) if self.is_float() => value(format!("{:08x}", to_f32(numbers[0] as i128))),
            Ok(numbers) => {
                let words: Vec<String> = numbers.iter().map(i64::to_string).collect();
                value(words.join(" "))
            }
            Err(_) if self.is_float() => value("00000000"),
            Err(number) => format!("refused {number}"),
        }
    }

    pub fn expected(&self) -> Expected {
        let rust = Rust::of(|| self.rust().unwrap_or(Rust::None));
        let mut rows = COUNTED;
        let said = self.by_rules(&mut rows);
        let rule = self.text(&said);
        // Of a row outside the item count the Rust is held to the bytes that lie there.
        let theirs = match rows.outside {
            true => self.by_rules(&mut { UNCOUNTED }),
            false => said,
        };
        // `None` is one of 1 to 4; of a float, and of opening, it is an MVAR that doesn't open: 1 or 2. A stop is 5.
        // An outer index that the Rust can't be given is 3, or what comes before.
        let agree = match &rust {
            Rust::Answer(answer) => *answer == self.text(&theirs),
            Rust::None if self.is_float() || self.name == NEW => matches!(theirs, Err(1..=2)),
            Rust::None => matches!(theirs, Err(1..=4)),
            Rust::Stops => theirs == Err(5),
            Rust::Silent => matches!(theirs, Err(1..=3)),
        };
        Expected {
            name: self.name,
            rust,
            rule,
            agree,
            outside: rows.outside,
            other_name: false,
        }
    }
}

/// The case of the tags of measures, which takes nothing.
pub const TAG_CASE: &str = "mvar_tags";

/// The letters of swash's tags, in its order.
const LETTERS: &str = "\
hasc hdsc hlgp hcrs hcrn hcof hcla hcld vasc vdsc vlgp vcrs vcrn vcof xhgt cpht undo unds stro strs \
sbxo sbyo sbxs sbys spxo spyo spxs spys";

/// The tags as numbers: the Rust's constants, and what their letters make.
pub fn tags(line: &str) -> Option<Expected> {
    if line != TAG_CASE {
        return None;
    }
    let answer = |tags: Vec<u32>| {
        let numbers: Vec<String> = tags.iter().map(u32::to_string).collect();
        value(numbers.join(" "))
    };
    let number = |letters: &str| letters.bytes().fold(0, |x, letter| 256 * x + letter as u32);
    let rust = answer(TAGS.to_vec());
    let rule = answer(LETTERS.split(' ').map(number).collect());
    Some(Expected {
        name: TAG_CASE,
        agree: rust == rule,
        rust: Rust::Answer(rust),
        rule,
        outside: false,
        other_name: false,
    })
}
