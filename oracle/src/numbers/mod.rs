//! The cases of the 16.16 arithmetic: their text, the Rust's answer, the rules' answer.

pub mod cases;
pub mod quotients;
pub mod rules;

use crate::private::internal::fixed::{muldiv, Fixed};
use crate::text;
use crate::{Expected, Rust};

#[derive(Clone, Copy, PartialEq)]
pub enum Kind {
    /// a raw 16.16 number or an integer, 32 bits, signed
    Word,
    /// a raw 2.14 number, 16 bits, signed
    Half,
    /// a float's bits
    Float,
    /// an unsigned 32-bit number
    Count,
}

use Kind::*;

/// Each function's name and what it takes.
pub const FUNCTIONS: [(&str, &[Kind]); 16] = [
    ("add", &[Word, Word]),
    ("sub", &[Word, Word]),
    ("neg", &[Word]),
    ("lt", &[Word, Word]),
    ("min", &[Word, Word]),
    ("max", &[Word, Word]),
    ("mul", &[Word, Word]),
    ("div", &[Word, Word]),
    ("muldiv", &[Word, Word, Word]),
    ("from_i32", &[Word]),
    ("from_f2dot14", &[Half]),
    ("to_f2dot14", &[Word]),
    ("from_f32", &[Float]),
    ("to_f32", &[Word]),
    ("from_f32_block", &[Count, Count]),
    ("to_f32_block", &[Count, Count]),
];

pub struct Case {
    pub name: &'static str,
    pub arguments: [i64; 3],
}

fn argument(kind: Kind, word: &str) -> Option<i64> {
    let (value, least, most) = match kind {
        Word => (text::integer(word)?, -(1 << 31), (1 << 31) - 1),
        Half => (text::integer(word)?, -(1 << 15), (1 << 15) - 1),
        Float => (text::bits(word)? as i64, 0, (1 << 32) - 1),
        Count => (text::natural(word)?, 0, (1 << 32) - 1),
    };
    (least <= value && value <= most).then_some(value)
}

/// The case that a line is, if it is one.
pub fn parse(line: &str) -> Option<Case> {
    let mut words = line.split(' ');
    let first = words.next()?;
    let (name, kinds) = FUNCTIONS.iter().find(|(name, _)| *name == first)?;
    let mut arguments = [0; 3];
    for (i, kind) in kinds.iter().enumerate() {
        arguments[i] = argument(*kind, words.next()?)?;
    }
    words.next().is_none().then_some(Case { name, arguments })
}

impl Case {
    /// What swash answers. It may panic.
    fn rust(&self) -> String {
        let [x, y, z] = self.arguments;
        let (a, b, c) = (Fixed(x as i32), Fixed(y as i32), z as i32);
        let fixed = match self.name {
            "add" => a + b,
            "sub" => a - b,
            "neg" => -a,
            "lt" => return ((a < b) as u8).to_string(),
            "min" => a.min(b),
            "max" => a.max(b),
            "mul" => a * b,
            "div" => a / b,
            "muldiv" => Fixed(muldiv(a.0, b.0, c)),
            "from_i32" => Fixed::from_i32(a.0),
            "from_f2dot14" => Fixed::from_f2dot14(x as i16),
            "to_f2dot14" => return a.to_f2dot14().to_string(),
            "from_f32" => Fixed::from_f32(f32::from_bits(x as u32)),
            "to_f32" => return text::float_text(a.to_f32()),
            "from_f32_block" => {
                return block(x as u32, y, |n| Fixed::from_f32(f32::from_bits(n)).0 as u32)
            }
            "to_f32_block" => return block(x as u32, y, |n| Fixed(n as i32).to_f32().to_bits()),
            _ => unreachable!(),
        };
        fixed.0.to_string()
    }

    /// What the rules say.
    fn rule(&self) -> String {
        let [x, y, z] = self.arguments;
        let (a, b, c) = (x as i128, y as i128, z as i128);
        let integer = match self.name {
            "add" => rules::add(a, b),
            "sub" => rules::sub(a, b),
            "neg" => rules::neg(a),
            "lt" => (a < b) as i64,
            "min" => rules::min(a, b),
            "max" => rules::max(a, b),
            "mul" => rules::mul(a, b),
            "div" => rules::div(a, b),
            "muldiv" => rules::muldiv(a, b, c),
            "from_i32" => rules::from_i32(a),
            "from_f2dot14" => rules::from_f2dot14(a),
            "to_f2dot14" => rules::to_f2dot14(a),
            "from_f32" => rules::from_f32(x as u32),
            "to_f32" => return format!("{:08x}", rules::to_f32(a)),
            "from_f32_block" => return block(x as u32, y, |n| rules::from_f32(n) as u32),
            "to_f32_block" => return block(x as u32, y, |n| rules::to_f32(n as i32 as i128)),
            _ => unreachable!(),
        };
        integer.to_string()
    }

    pub fn expected(&self) -> Expected {
        let rust = Rust::of(|| Rust::Answer(self.rust()));
        let rule = self.rule();
        let agree = rust == Rust::Stops || rust == Rust::Answer(rule.clone());
        Expected {
            name: self.name,
            rust,
            rule,
            agree,
            outside: false,
            other_name: false,
        }
    }
}

/// The checksum over the answers for the `count` patterns from `start` on, modulo 2^32.
fn block(start: u32, count: i64, answer: impl Fn(u32) -> u32) -> String {
    let sum = (0..count as u64).fold(0, |sum, i| {
        text::checksum(sum, answer(start.wrapping_add(i as u32)))
    });
    sum.to_string()
}
