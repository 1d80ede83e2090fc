//! The cases of scalars in a lent list: where a store is, filling, the deltas that are read with a list, and
//! these with the list filled before: their text, the Rust's answer, the rules' answer.

pub mod cases;
pub mod rules;

use crate::axes::rules::Answer;
use crate::private::internal::shown;
use crate::store::rules::{self as store_rules, Map, COUNTED};
use crate::store::{self, Kind};
use crate::text;
use crate::{Expected, Rust};

/// What is asked.
#[derive(Clone, Copy, PartialEq)]
enum Asked {
    StoreOffset,
    MvarStoreOffset,
    Fill,
    /// a delta, by the store's name of it, with the list as it is
    With(&'static str),
    /// the same, with the list filled before
    Filled(&'static str),
}

use Asked::*;

pub const STORE_OFFSET: &str = "store_offset";
pub const MVAR_STORE_OFFSET: &str = "mvar_store_offset";
pub const FILL: &str = "fill_scalars";

/// Each function's name and what it asks.
const FUNCTIONS: [(&str, Asked); 17] = [
    (STORE_OFFSET, StoreOffset),
    (MVAR_STORE_OFFSET, MvarStoreOffset),
    (FILL, Fill),
    ("item_delta_with", With("item_delta")),
    ("advance_fixed_with", With("advance_fixed")),
    ("sb_fixed_with", With("sb_fixed")),
    ("advance_delta_with", With("advance_delta")),
    ("sb_delta_with", With("sb_delta")),
    ("mvar_fixed_with", With("mvar_fixed")),
    ("mvar_delta_with", With("mvar_delta")),
    ("item_delta_filled", Filled("item_delta")),
    ("advance_fixed_filled", Filled("advance_fixed")),
    ("sb_fixed_filled", Filled("sb_fixed")),
    ("advance_delta_filled", Filled("advance_delta")),
    ("sb_delta_filled", Filled("sb_delta")),
    ("mvar_fixed_filled", Filled("mvar_fixed")),
    ("mvar_delta_filled", Filled("mvar_delta")),
];

pub struct Case {
    name: &'static str,
    asked: Asked,
    font: Vec<u8>,
    numbers: Vec<u32>,
    coords: Vec<i16>,
    list: Vec<i32>,
}

/// The kinds of the numbers behind the font.
fn kinds(asked: Asked) -> &'static [Kind] {
    match asked {
        StoreOffset | MvarStoreOffset | Fill => &[Kind::Offset],
        With(delta) | Filled(delta) => {
            let found = store::FUNCTIONS.iter().find(|(name, _)| *name == delta);
            found.map_or(&[], |(_, kinds)| kinds)
        }
    }
}

/// A list of signed numbers of 32 bits, each by its bits.
fn signed_list(word: &str) -> Option<Vec<i32>> {
    let signed = |bits: u32| bits as i32;
    Some(text::list(word)?.into_iter().map(signed).collect())
}

fn list_text(list: &[i32]) -> String {
    text::list_text(list.iter().map(|number| format!("{number:08x}")))
}

/// The case that a line is, if it is one.
pub fn parse(line: &str) -> Option<Case> {
    let mut words = line.split(' ');
    let first = words.next()?;
    let (name, asked) = *FUNCTIONS.iter().find(|(name, _)| *name == first)?;
    let font = text::bytes(words.next()?)?;
    let mut numbers = vec![];
    for kind in kinds(asked) {
        numbers.push(store::number(*kind, words.next()?)?);
    }
    let coords = match asked {
        Fill | Filled(_) => text::halves(words.next()?)?,
        _ => vec![],
    };
    let list = match asked {
        Fill | With(_) | Filled(_) => signed_list(words.next()?)?,
        _ => vec![],
    };
    words.next().is_none().then_some(Case {
        name,
        asked,
        font,
        numbers,
        coords,
        list,
    })
}

fn answer_text(said: &Answer<usize>) -> String {
    match said {
        Ok(number) => format!("value {number}"),
        Err(number) => format!("refused {number}"),
    }
}

impl Case {
    /// What filling answers, and what it leaves.
    fn filled(&self) -> (Answer<usize>, Vec<i32>) {
        let (font, coords) = (&self.font[..], &self.coords[..]);
        let offset = self.numbers[0] as usize;
        let mut list = self.list.clone();
        let said = match self.asked {
            Fill | Filled("item_delta") => rules::fill(font, offset, coords, &mut list),
            Filled("mvar_fixed" | "mvar_delta") => {
                rules::fill_by_mvar(font, offset, coords, &mut list)
            }
            _ => rules::fill_by_xvar(font, offset, coords, &mut list),
        };
        (said, list)
    }

    /// A delta with a list, and whether its row is outside the item count.
    fn with(&self, delta: &str, list: &[i32]) -> (Answer<i64>, bool) {
        let font = &self.font[..];
        let n: Vec<usize> = self.numbers.iter().map(|n| *n as usize).collect();
        let mut rows = COUNTED;
        let said = match delta {
            "item_delta" => rules::item(font, n[0], n[1], n[2], list, &mut rows),
            "advance_fixed" | "advance_delta" => {
                rules::metric(font, n[0], Map::Advance, n[1], list, &mut rows)
            }
            "sb_fixed" | "sb_delta" => {
                rules::metric(font, n[0], Map::Bearing, n[1], list, &mut rows)
            }
            _ => rules::tag_delta(font, n[0], self.numbers[1], list, &mut rows),
        };
        (said, rows.outside)
    }

    /// What the Rust can't be asked for, or need not be.
    fn silent(&self, rule: String, outside: bool) -> Expected {
        Expected {
            name: self.name,
            rust: Rust::Silent,
            rule,
            agree: true,
            outside,
            other_name: false,
        }
    }

    /// The store offset of an opened MVAR, which the hook shows.
    fn mvar_store_offset(&self) -> Expected {
        let (font, mvar) = (&self.font[..], self.numbers[0]);
        let said = store_rules::open(font, mvar as usize).map(|mvar| mvar.store);
        let rust = Rust::of(|| match shown::Mvar::new(font, mvar, &[]) {
            Some(mvar) => Rust::Answer(format!("value {}", mvar.numbers().2)),
            None => Rust::None,
        });
        let rule = answer_text(&said);
        let agree = match &rust {
            Rust::Answer(answer) => *answer == rule,
            Rust::None => matches!(said, Err(1..=2)),
            Rust::Stops | Rust::Silent => false,
        };
        Expected {
            rust,
            agree,
            ..self.silent(rule, false)
        }
    }

    /// A delta through a filled list is the plain one at the same coordinates, which the Rust answers. It has no
    /// list: where one is too short, and nothing refuses before that, it is silent.
    fn through(&self, delta: &'static str) -> Expected {
        let plain = store::Case::new(delta, &self.font, &self.numbers, &self.coords);
        let (count, list) = self.filled();
        let (said, outside) = self.with(delta, &list);
        let before = format!("{} {}", answer_text(&count), list_text(&list));
        let text = plain.text(&said.map(|delta| vec![delta]));
        let rule = format!("{before} {text}");
        let expected = plain.expected();
        if said == Err(7) {
            // the plain walk has gone past the row's head
            let agree = count == Err(7) && expected.agree && !expected.outside;
            return Expected {
                agree,
                ..self.silent(rule, outside)
            };
        }
        let rust = match expected.rust {
            Rust::Answer(answer) => Rust::Answer(format!("{before} {answer}")),
            other => other,
        };
        Expected {
            name: self.name,
            rust,
            agree: expected.agree && expected.rule == text && expected.outside == outside,
            rule,
            outside,
            other_name: false,
        }
    }

    pub fn expected(&self) -> Expected {
        match self.asked {
            StoreOffset => {
                let said = store_rules::store_of(&self.font, self.numbers[0] as usize);
                self.silent(answer_text(&said), false)
            }
            MvarStoreOffset => self.mvar_store_offset(),
            Fill => {
                let (said, list) = self.filled();
                let rule = format!("{} {}", answer_text(&said), list_text(&list));
                self.silent(rule, false)
            }
            With(delta) => {
                let plain = store::Case::new(delta, &self.font, &self.numbers, &[]);
                let (said, outside) = self.with(delta, &self.list);
                self.silent(plain.text(&said.map(|delta| vec![delta])), outside)
            }
            Filled(delta) => self.through(delta),
        }
    }
}
