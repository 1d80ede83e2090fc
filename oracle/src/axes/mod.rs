//! The cases of fvar, avar, normalising and coordinate lists: their text, the Rust's answer, the rules'
//! answer.

pub mod avar;
pub mod cases;
pub mod names;
pub mod rules;

use crate::numbers::rules::to_f32;
use crate::private::internal::fixed::Fixed;
use crate::private::internal::var::{adjust_axis, Fvar, VarAxis};
use crate::private::internal::{Array, Bytes};
use crate::private::setting::Setting;
use crate::private::variation::{Instances, Variations};
use crate::private::FontRef;
use crate::text;
use crate::{Expected, Rust};

#[derive(Clone, Copy, PartialEq)]
pub enum Kind {
    /// bytes, a table's or an instance's values
    Bytes,
    /// an unsigned 16-bit number
    Index,
    /// a raw 16.16 number
    Word,
    /// a tag
    Tag,
    /// a list of tags, or of floats by their bits
    List,
    /// how many elements the list has that is written to
    Room,
}

/// Each function's name and what it takes.
pub const FUNCTIONS: [(&str, &[Kind]); 11] = [
    ("header", &[Kind::Bytes]),
    ("get_axis", &[Kind::Bytes, Kind::Index]),
    ("get_axis_by_tag", &[Kind::Bytes, Kind::Tag]),
    ("find_by_tag", &[Kind::Bytes, Kind::Tag]),
    ("get_instance", &[Kind::Bytes, Kind::Index]),
    ("instance_values", &[Kind::Bytes, Kind::Index]),
    ("instance_value", &[Kind::Bytes, Kind::Index]),
    ("instance_floats", &[Kind::Bytes, Kind::Index, Kind::Room]),
    (
        "normalized_coord",
        &[Kind::Word, Kind::Word, Kind::Word, Kind::Word],
    ),
    (
        "normalized_coords",
        &[Kind::Bytes, Kind::List, Kind::List, Kind::Room],
    ),
    ("instance_coords", &[Kind::Bytes, Kind::Index, Kind::Room]),
];

/// The functions that take an avar, as they are called with one: a name for the table's row, and what
/// stands before the avar. An avar is a font and an offset, a case's last two words.
pub const WITH_AVAR: [(&str, &str, &[Kind]); 4] = [
    ("adjust_axis", "adjust_axis", &[Kind::Index, Kind::Word]),
    (
        "normalized_coord",
        "normalized_coord, avar",
        &[Kind::Word, Kind::Word, Kind::Word, Kind::Word, Kind::Index],
    ),
    (
        "normalized_coords",
        "normalized_coords, avar",
        &[Kind::Bytes, Kind::List, Kind::List, Kind::Room],
    ),
    (
        "instance_coords",
        "instance_coords, avar",
        &[Kind::Bytes, Kind::Index, Kind::Room],
    ),
];

pub enum Argument {
    Bytes(Vec<u8>),
    List(Vec<u32>),
    Number(i64),
}

fn argument(kind: Kind, word: &str) -> Option<Argument> {
    let within =
        |x: i64, least: i64, most: i64| (least <= x && x <= most).then_some(Argument::Number(x));
    match kind {
        Kind::Bytes => text::bytes(word).map(Argument::Bytes),
        Kind::List => text::list(word).map(Argument::List),
        Kind::Tag => text::bits(word).map(|tag| Argument::Number(tag as i64)),
        Kind::Index => within(text::natural(word)?, 0, 65535),
        Kind::Room => within(text::natural(word)?, 0, text::LIST as i64),
        Kind::Word => within(text::integer(word)?, i32::MIN as i64, i32::MAX as i64),
    }
}

pub struct Case {
    name: &'static str,
    /// the name of the table's row
    row: &'static str,
    arguments: Vec<Argument>,
    /// an avar's font and offset; a case that has none has the offset 0
    font: Vec<u8>,
    avar: u32,
}

/// The case that a line is, if it is one.
pub fn parse(line: &str) -> Option<Case> {
    let words: Vec<&str> = line.split(' ').collect();
    let (first, words) = words.split_first()?;
    bare(first, words).or_else(|| with_avar(first, words))
}

fn arguments(kinds: &[Kind], words: &[&str]) -> Option<Vec<Argument>> {
    if kinds.len() != words.len() {
        return None;
    }
    let pairs = kinds.iter().zip(words);
    pairs.map(|(kind, word)| argument(*kind, word)).collect()
}

fn bare(first: &str, words: &[&str]) -> Option<Case> {
    let (name, kinds) = FUNCTIONS.iter().find(|(name, _)| *name == first)?;
    Some(Case {
        name,
        row: name,
        arguments: arguments(kinds, words)?,
        font: vec![],
        avar: 0,
    })
}

fn with_avar(first: &str, words: &[&str]) -> Option<Case> {
    let (name, row, kinds) = WITH_AVAR.iter().find(|(name, ..)| *name == first)?;
    let (words, [font, offset]) = words.split_last_chunk()?;
    Some(Case {
        name,
        row,
        arguments: arguments(kinds, words)?,
        font: text::bytes(font)?,
        avar: u32::try_from(text::natural(offset)?).ok()?,
    })
}

/// What a list that is written to holds before: no float of a 16.16 number, no coordinate but by an avar.
const FLOAT_MARK: u32 = 0x7f7f_ffff;
const COORD_MARK: i64 = 32767;

/// A list with room for so many, once its first elements were written.
fn written<T: Copy>(elements: &[T], mark: T, room: usize, text: fn(T) -> String) -> String {
    let rest = room - elements.len().min(room);
    let list = elements
        .iter()
        .copied()
        .chain(std::iter::repeat_n(mark, rest));
    text::list_text(list.map(text))
}

fn floats(elements: &[u32], room: usize) -> String {
    written(elements, FLOAT_MARK, room, |bits| {
        text::float_text(f32::from_bits(bits))
    })
}

fn coords(elements: &[i64], room: usize) -> String {
    written(elements, COORD_MARK, room, |coord| coord.to_string())
}

/// A count, and the list that was written; or the refusal's number, and the list as it was.
fn list_answer<T>(
    answer: Result<Vec<T>, u8>,
    room: usize,
    text: fn(&[T], usize) -> String,
) -> String {
    match answer {
        Ok(list) => format!("value {} {}", list.len(), text(&list, room)),
        Err(number) => format!("refused {number} {}", text(&[], room)),
    }
}

fn refused(number: u8) -> String {
    format!("refused {number}")
}

/// An axis' fields, whether it is hidden, and its three numbers as floats.
fn rust_axis(axis: VarAxis, hidden: bool, floats: [f32; 3]) -> Rust {
    let [min, default, max] = floats.map(text::float_text);
    Rust::Answer(format!(
        "value {} {:08x} {} {} {} {} {} {} {min} {default} {max}",
        axis.index,
        axis.tag,
        axis.min.0,
        axis.default.0,
        axis.max.0,
        axis.flags,
        axis.name_id,
        hidden as u8
    ))
}

fn bare_axis(axis: VarAxis) -> Rust {
    let floats = [axis.min.to_f32(), axis.default.to_f32(), axis.max.to_f32()];
    rust_axis(axis, axis.is_hidden(), floats)
}

fn rule_axis(axis: Result<rules::Axis, u8>) -> String {
    let axis = match axis {
        Ok(axis) => axis,
        Err(number) => return refused(number),
    };
    format!(
        "value {} {:08x} {} {} {} {} {} {} {:08x} {:08x} {:08x}",
        axis.index,
        axis.tag,
        axis.min,
        axis.default,
        axis.max,
        axis.flags,
        axis.name_id,
        axis.flags % 2,
        to_f32(axis.min),
        to_f32(axis.default),
        to_f32(axis.max)
    )
}

fn name_text<T: ToString>(id: Option<T>) -> String {
    id.map_or(text::EMPTY.to_string(), |id| id.to_string())
}

impl Case {
    fn bytes(&self, i: usize) -> &[u8] {
        match &self.arguments[i] {
            Argument::Bytes(bytes) => bytes,
            _ => unreachable!(),
        }
    }

    fn list(&self, i: usize) -> &[u32] {
        match &self.arguments[i] {
            Argument::List(list) => list,
            _ => unreachable!(),
        }
    }

    fn number(&self, i: usize) -> i64 {
        match &self.arguments[i] {
            Argument::Number(x) => *x,
            _ => unreachable!(),
        }
    }

    fn avar(&self) -> rules::Avar<'_> {
        rules::Avar {
            font: &self.font,
            offset: self.avar as usize,
        }
    }

    /// What swash answers. It may panic. Where there is an avar, it hands it to skrifa, for which a shim stands here.
    fn rust(&self) -> Option<Rust> {
        if self.avar != 0 {
            return Some(Rust::Silent);
        }
        if self.name == "adjust_axis" {
            let (axis, value) = (self.number(0) as u16, Fixed(self.number(1) as i32));
            // its callers keep the value for a `None`
            let adjusted = adjust_axis(&self.font, 0, axis, value).unwrap_or(value);
            return Some(Rust::Answer(format!("value {}", adjusted.0)));
        }
        if self.name == "normalized_coord" {
            let [min, default, max, value] = [0, 1, 2, 3].map(|i| Fixed(self.number(i) as i32));
            let axis = VarAxis {
                min,
                default,
                max,
                ..VarAxis::default()
            };
            return Some(Rust::Answer(format!(
                "value {}",
                axis.normalized_coord(value, None)
            )));
        }
        let table = self.bytes(0);
        let font = FontRef { data: table };
        let fvar = Fvar::new(table);
        Some(match self.name {
            "header" => {
                let field = |p: usize| Bytes::new(table).read_or_default::<u16>(p);
                let (axes, instances) = (fvar.axis_count(), fvar.instance_count());
                Rust::Answer(format!(
                    "value {} {axes} {} {instances} {}",
                    field(4),
                    field(10),
                    field(14)
                ))
            }
            "get_axis" => bare_axis(fvar.get_axis(self.number(1) as u16)?),
            "get_axis_by_tag" => bare_axis(fvar.get_axis_by_tag(self.number(1) as u32)?),
            "find_by_tag" => {
                let found = Variations::from_font(&font).find_by_tag(self.number(1) as u32)?;
                let floats = [found.min_value(), found.default_value(), found.max_value()];
                rust_axis(found.axis(), found.is_hidden(), floats)
            }
            "get_instance" => {
                let instance = fvar.get_instance(self.number(1) as u16)?;
                let postscript = name_text(instance.postscript_name_id);
                Rust::Answer(format!(
                    "value {} {} {postscript}",
                    instance.index, instance.name_id
                ))
            }
            "instance_values" => {
                let values = fvar.get_instance(self.number(1) as u16)?.values;
                let bytes = values.iter().flat_map(|value| value.0.to_be_bytes());
                Rust::Answer(format!("value {}", text::bytes_text(bytes)))
            }
            "instance_value" => {
                let value = Array::<Fixed>::new(table).get(self.number(1) as usize)?;
                Rust::Answer(format!("value {}", value.0))
            }
            "instance_floats" => {
                let instance = Instances::from_font(&font).at(self.number(1) as usize)?;
                let room = self.number(2) as usize;
                if fvar.axis_count() as usize > room {
                    return Some(Rust::Silent);
                }
                let values = instance.values().map(f32::to_bits).collect();
                Rust::Answer(list_answer(Ok(values), room, floats))
            }
            "normalized_coords" => {
                let (tags, values) = (self.list(1), self.list(2));
                let room = self.number(3) as usize;
                if tags.len() != values.len() || fvar.axis_count().min(32) as usize > room {
                    return Some(Rust::Silent);
                }
                let settings = tags.iter().zip(values).map(|(tag, value)| Setting {
                    tag: *tag,
                    value: f32::from_bits(*value),
                });
                let list = Variations::from_font(&font).normalized_coords(settings);
                Rust::Answer(list_answer(Ok(list.map(i64::from).collect()), room, coords))
            }
            "instance_coords" => {
                let instance = Instances::from_font(&font).at(self.number(1) as usize)?;
                let room = self.number(2) as usize;
                if fvar.axis_count() as usize > room {
                    return Some(Rust::Silent);
                }
                let list = instance.normalized_coords().map(i64::from).collect();
                Rust::Answer(list_answer(Ok(list), room, coords))
            }
            _ => unreachable!(),
        })
    }

    /// What the rules say.
    fn rule(&self) -> String {
        let index = |i: usize| self.number(i) as usize;
        match self.name {
            "header" => {
                let fvar = rules::header(self.bytes(0));
                format!(
                    "value {} {} {} {} {}",
                    fvar.axis_offset,
                    fvar.axis_count,
                    fvar.axis_size,
                    fvar.instance_count,
                    fvar.instance_size
                )
            }
            "get_axis" => rule_axis(rules::axis(self.bytes(0), index(1))),
            "get_axis_by_tag" | "find_by_tag" => {
                rule_axis(rules::axis_by_tag(self.bytes(0), self.number(1) as u32))
            }
            "get_instance" => match rules::instance(self.bytes(0), index(1)) {
                Ok(instance) => self.instance_text(&instance, instance.postscript_name_id),
                Err(number) => refused(number),
            },
            "instance_values" => match rules::instance(self.bytes(0), index(1)) {
                Ok(instance) => {
                    format!(
                        "value {}",
                        text::bytes_text(instance.values.iter().copied())
                    )
                }
                Err(number) => refused(number),
            },
            "instance_value" => match rules::value(self.bytes(0), index(1)) {
                Ok(value) => format!("value {value}"),
                Err(number) => refused(number),
            },
            "instance_floats" => {
                let values = rules::instance_values(self.bytes(0), index(1), index(2));
                let bits = values.map(|values| values.into_iter().map(to_f32).collect());
                list_answer(bits, index(2), floats)
            }
            "adjust_axis" => {
                let value = rules::adjust(self.avar(), index(0), self.number(1) as i128);
                format!("value {value}")
            }
            "normalized_coord" => {
                let [min, default, max, value] = [0, 1, 2, 3].map(|i| self.number(i) as i128);
                // without an avar the index doesn't matter, and is not told
                let told = self.arguments.len() > 4;
                let axis = rules::Axis {
                    index: if told { index(4) } else { 0 },
                    min,
                    default,
                    max,
                    ..rules::Axis::default()
                };
                match rules::normalise(&axis, self.avar(), value) {
                    Ok(coord) => format!("value {coord}"),
                    Err(number) => refused(number),
                }
            }
            "normalized_coords" => {
                let (tags, floats) = (self.list(1), self.list(2));
                let list = rules::settings(self.bytes(0), self.avar(), tags, floats, index(3));
                list_answer(list, index(3), coords)
            }
            "instance_coords" => {
                let list = rules::instance_coords(self.bytes(0), self.avar(), index(1), index(2));
                list_answer(list, index(2), coords)
            }
            _ => unreachable!(),
        }
    }

    fn instance_text(&self, instance: &rules::Instance, postscript: Option<i128>) -> String {
        let (index, name_id) = (self.number(1), instance.name_id);
        format!("value {index} {name_id} {}", name_text(postscript))
    }

    /// What the rules say with swash's PostScript name id, where that is another one than the record's own.
    fn with_swash_name(&self) -> Option<String> {
        if self.name != "get_instance" {
            return None;
        }
        let instance = rules::instance(self.bytes(0), self.number(1) as usize).ok()?;
        let theirs = instance.swash_postscript_name_id;
        (theirs != instance.postscript_name_id).then(|| self.instance_text(&instance, theirs))
    }

    /// `None` is one of 1 to 4; a stop is 5, or 2 for an instance with 2 or 3 bytes left; what has no
    /// counterpart is 6 or 7, or anything by an avar.
    fn agree(&self, rust: &Rust, rule: &str) -> bool {
        let number = match rule.strip_prefix("refused ") {
            Some(rest) => rest.as_bytes()[0] - b'0',
            None => 0,
        };
        match rust {
            Rust::Answer(answer) => answer == rule,
            Rust::None => (1..=4).contains(&number),
            Rust::Stops if number == 2 => {
                self.name.contains("instance")
                    && rules::few_left(self.bytes(0), self.number(1) as usize)
            }
            Rust::Stops => number == 5,
            Rust::Silent => number == 6 || number == 7 || self.avar != 0,
        }
    }

    pub fn expected(&self) -> Expected {
        let rust = Rust::of(|| self.rust().unwrap_or(Rust::None));
        let rule = self.rule();
        let theirs = self.with_swash_name();
        Expected {
            name: self.row,
            agree: self.agree(&rust, theirs.as_ref().unwrap_or(&rule)),
            rust,
            rule,
            outside: false,
            other_name: theirs.is_some(),
        }
    }
}
