//! The cases of a glyph's numbers as hmtx, vmtx and VORG have them, and of what is made of them: their text,
//! the Rust's answer, the rules' answer.

pub mod cases;
pub mod footprint;
pub mod rules;
pub mod twins;

use crate::axes::rules::Answer;
use crate::metrics::rules::Place;
use crate::metrics::{self, index, ordinate};
use crate::private::internal::Unvaried;
use crate::store::rules::{Map, Rows, COUNTED, UNCOUNTED};
use crate::text;
use crate::{Expected, Rust};
use rules::{Table, Upright};

/// What a word of a case says.
#[derive(Clone, Copy, PartialEq)]
enum Kind {
    Font,
    /// of an hmtx or a vmtx
    Xmtx,
    /// of long records
    Count,
    /// of an HVAR or a VVAR
    Xvar,
    Vorg,
    /// hmtx, the count, HVAR
    Level,
    /// `0`, the count, vmtx and VVAR with glyf; `1`, the same and VORG; or `2`, an MVAR, advance and origin
    UprightList,
    Glyph,
    Coords,
    YMax,
    UnitsPerEm,
    Scale,
}

use Kind::*;

const XMTX_ADVANCE: &str = "xmtx_advance";
const XMTX_SB: &str = "xmtx_sb";
const VORG_ORIGIN: &str = "vorg_origin";
const ADJUSTED_ADVANCE: &str = "adjusted_advance";
const ADJUSTED_SB: &str = "adjusted_sb";
const READ_WIDTH: &str = "read_advance_width";
const READ_LSB: &str = "read_lsb";
const READ_HEIGHT: &str = "read_advance_height";
const READ_TSB: &str = "read_tsb";
const READ_ORIGIN: &str = "read_vertical_origin";

const READING: &[Kind] = &[Font, Xmtx, Count, Glyph];
const ADJUSTED: &[Kind] = &[Font, Xmtx, Count, Xvar, Glyph, Coords, Scale];
const LEVEL: &[Kind] = &[Font, Level, Glyph, Coords, Scale];
const UPRIGHT: &[Kind] = &[Font, UprightList, Glyph, Coords, Scale];

/// Each function's name and its words.
const FUNCTIONS: [(&str, &[Kind]); 10] = [
    (XMTX_ADVANCE, READING),
    (XMTX_SB, READING),
    (VORG_ORIGIN, &[Font, Vorg, Glyph]),
    (ADJUSTED_ADVANCE, ADJUSTED),
    (ADJUSTED_SB, ADJUSTED),
    (READ_WIDTH, LEVEL),
    (READ_LSB, LEVEL),
    (READ_HEIGHT, UPRIGHT),
    (READ_TSB, UPRIGHT),
    (
        READ_ORIGIN,
        &[Font, UprightList, Glyph, Coords, YMax, UnitsPerEm, Scale],
    ),
];

#[derive(Clone)]
pub struct Case {
    name: &'static str,
    font: Vec<u8>,
    table: Table,
    vorg: u32,
    upright: Upright,
    glyph: u16,
    coords: Vec<i16>,
    y_max: Option<i16>,
    units_per_em: u16,
    scale: f32,
}

impl Case {
    fn new(name: &'static str) -> Self {
        let table = Table::default();
        Case {
            name,
            font: vec![],
            table,
            vorg: 0,
            upright: Upright::Glyf { vmtx: table },
            glyph: 0,
            coords: vec![],
            y_max: None,
            units_per_em: 0,
            scale: 1.,
        }
    }

    fn take(&mut self, kind: Kind, word: &str) -> Option<()> {
        match kind {
            Font => self.font = text::bytes(word)?,
            Xmtx => self.table.at = offset(word)?,
            Count => self.table.count = index(word)?,
            Xvar => self.table.xvar = offset(word)?,
            Vorg => self.vorg = offset(word)?,
            Level => self.table = level(&text::list(word)?)?,
            UprightList => self.upright = upright(&text::list(word)?)?,
            Glyph => self.glyph = index(word)?,
            Coords => self.coords = text::halves(word)?,
            YMax => self.y_max = ordinate(word)?,
            UnitsPerEm => self.units_per_em = index(word)?,
            Scale => self.scale = f32::from_bits(text::bits(word)?),
        }
        Some(())
    }
}

fn offset(word: &str) -> Option<u32> {
    u32::try_from(text::natural(word)?).ok()
}

fn table(at: u32, count: u32, xvar: u32) -> Option<Table> {
    let count = u16::try_from(count).ok()?;
    Some(Table { at, count, xvar })
}

fn level(words: &[u32]) -> Option<Table> {
    match *words {
        [hmtx, count, hvar] => table(hmtx, count, hvar),
        _ => None,
    }
}

fn upright(words: &[u32]) -> Option<Upright> {
    match *words {
        [0, count, vmtx, vvar] => {
            let vmtx = table(vmtx, count, vvar)?;
            Some(Upright::Glyf { vmtx })
        }
        [1, count, vmtx, vvar, vorg] => {
            let vmtx = table(vmtx, count, vvar)?;
            Some(Upright::Vorg { vmtx, vorg })
        }
        [2, mvar, advance, origin] => Some(Upright::Synthesized {
            mvar,
            advance: f32::from_bits(advance),
            origin: f32::from_bits(origin),
        }),
        _ => None,
    }
}

/// The case that a line is, if it is one.
pub fn parse(line: &str) -> Option<Case> {
    let mut words = line.split(' ');
    let first = words.next()?;
    let (name, kinds) = FUNCTIONS.iter().find(|(name, _)| *name == first)?;
    let mut case = Case::new(name);
    for kind in *kinds {
        case.take(*kind, words.next()?)?;
    }
    words.next().is_none().then_some(case)
}

/// What is answered where nothing is refused.
enum Value {
    Integer(i32),
    Float(f32),
}

fn answer_text(said: &Answer<Value>) -> String {
    match said {
        Ok(Value::Integer(number)) => format!("value {number}"),
        Ok(Value::Float(x)) => format!("value {}", text::float_text(*x)),
        Err(number) => format!("refused {number}"),
    }
}

impl Case {
    /// The function that is given its numbers, behind the one that reads them. A reading has none.
    fn behind(&self) -> Option<&'static str> {
        match self.name {
            ADJUSTED_ADVANCE | READ_WIDTH => Some("advance_width"),
            ADJUSTED_SB | READ_LSB => Some("lsb"),
            READ_HEIGHT => Some("advance_height"),
            READ_TSB => Some("tsb"),
            READ_ORIGIN => Some("vertical_origin"),
            _ => None,
        }
    }

    /// What swash answers, its tables having what the rules read. It may panic. Where that is refused it is not
    /// asked: there the tables of its own answer something else.
    fn rust(&self, refused: bool) -> Rust {
        let Some(name) = self.behind().filter(|_| !refused) else {
            return Rust::Silent;
        };
        let (font, glyph) = (&self.font[..], self.glyph);
        let level = !matches!(self.name, READ_HEIGHT | READ_TSB | READ_ORIGIN);
        let (table, vorg) = match self.upright {
            _ if level => (self.table, 0),
            Upright::Vorg { vmtx, vorg } => (vmtx, vorg),
            other => (other.vmtx().unwrap_or_default(), 0),
        };
        let unvaried = Unvaried {
            advance: rules::xmtx_advance(font, table, glyph).unwrap_or(0),
            bearing: rules::xmtx_sb(font, table, glyph).unwrap_or(0),
            y_max: self.y_max,
            origin: rules::vorg_origin(font, vorg, glyph).ok(),
        };
        let case = metrics::Case {
            font: self.font.clone(),
            offset: self.table.xvar,
            vertical: self.upright.vertical(),
            glyph,
            coords: self.coords.clone(),
            unvaried,
            units_per_em: self.units_per_em,
            scale: self.scale,
            ..metrics::Case::new(name)
        };
        case.rust()
    }

    /// What the rules say, and the place, which knows what was met on the way.
    fn by_rules(&self, rows: Rows) -> (Answer<Value>, Place<'_>) {
        use Map::{Advance, Bearing};
        let mut place = Place::new(&self.font, &self.coords, rows);
        let (font, glyph, scale) = (&self.font[..], self.glyph, self.scale);
        let (table, upright) = (self.table, self.upright);
        let integer = |number: i32| Value::Integer(number);
        let said = match self.name {
            XMTX_ADVANCE => rules::xmtx_advance(font, table, glyph).map(|n| integer(n.into())),
            XMTX_SB => rules::xmtx_sb(font, table, glyph).map(|n| integer(n.into())),
            VORG_ORIGIN => rules::vorg_origin(font, self.vorg, glyph).map(|n| integer(n.into())),
            ADJUSTED_ADVANCE | READ_WIDTH => {
                rules::adjusted(&mut place, table, Advance, glyph, scale).map(Value::Float)
            }
            ADJUSTED_SB | READ_LSB => {
                rules::adjusted(&mut place, table, Bearing, glyph, scale).map(Value::Float)
            }
            READ_HEIGHT => {
                rules::upright(&mut place, upright, Advance, glyph, scale).map(Value::Float)
            }
            READ_TSB => {
                rules::upright(&mut place, upright, Bearing, glyph, scale).map(Value::Float)
            }
            READ_ORIGIN => {
                let (y_max, upem) = (self.y_max, self.units_per_em);
                let origin = rules::vertical_origin(&mut place, upright, glyph, y_max, upem, scale);
                origin.map(Value::Float)
            }
            _ => unreachable!(),
        };
        (said, place)
    }

    pub fn expected(&self) -> Expected {
        let (said, met) = self.by_rules(COUNTED);
        let rule = answer_text(&said);
        let rust = Rust::of(|| self.rust(said.is_err()));
        // As for the metrics: the Rust is held to what all deltas are without the item count.
        let (theirs, place) = self.by_rules(UNCOUNTED);
        let theirs = answer_text(&theirs);
        assert!(met.rows.outside || theirs == rule);
        // The Rust stops where a delta is refused by 5, and nowhere else. It is silent on readings and on their
        // refusals.
        let agree = match &rust {
            Rust::Answer(answer) => *answer == theirs && !place.refused_by_5,
            Rust::Stops => place.refused_by_5,
            Rust::Silent => match said {
                Ok(_) => self.behind().is_none(),
                Err(number) => matches!(number, 1 | 2 | 5),
            },
            Rust::None => false,
        };
        Expected {
            name: self.name,
            rust,
            rule,
            agree,
            outside: met.rows.outside,
            other_name: false,
        }
    }
}
