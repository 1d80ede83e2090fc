//! The cases of a font's measures and a glyph's metrics: their text, the Rust's answer, the rules'
//! answer.

pub mod cases;
pub mod rules;

use crate::private::internal::{set_unvaried, Unvaried};
use crate::private::metrics::{GlyphMetrics, Metrics, MetricsProxy, VerticalNumbers};
use crate::private::FontRef;
use crate::store::rules::{Map, Rows, COUNTED, UNCOUNTED};
use crate::text;
use crate::{Expected, Rust};
use rules::{Measures, Place, Vertical};

/// What a word of a case says.
#[derive(Clone, Copy, PartialEq)]
pub enum Kind {
    Font,
    /// of an HVAR or an MVAR
    Offset,
    /// `0` and a VVAR with glyf, `1` and a VVAR with VORG, or `2`, an MVAR, advance and origin
    VerticalList,
    Glyph,
    Coords,
    Advance,
    Bearing,
    YMax,
    Origin,
    UnitsPerEm,
    Flag,
    /// a factor, or pixels per em
    Scale,
    MeasureList,
}

use Kind::*;

/// Each function's name and its words.
pub const FUNCTIONS: [(&str, &[Kind]); 11] = [
    (MATERIALIZE, &[Font, Offset, Coords, Flag, MeasureList]),
    ("scale", &[UnitsPerEm, Scale, MeasureList]),
    ("linear_scale", &[Scale, MeasureList]),
    (
        "advance_width",
        &[Font, Offset, Glyph, Coords, Advance, Scale],
    ),
    ("lsb", &[Font, Offset, Glyph, Coords, Bearing, Scale]),
    (
        "advance_height",
        &[Font, VerticalList, Glyph, Coords, Advance, Scale],
    ),
    ("tsb", &[Font, VerticalList, Glyph, Coords, Bearing, Scale]),
    (
        "vertical_origin",
        &[
            Font,
            VerticalList,
            Glyph,
            Coords,
            Bearing,
            YMax,
            Origin,
            UnitsPerEm,
            Scale,
        ],
    ),
    ("glyph_scale", &[UnitsPerEm, Scale, Advance]),
    ("has_variations", &[Offset, Flag]),
    ("has_vertical_metrics", &[VerticalList]),
];

const MATERIALIZE: &str = "materialize_metrics";

pub struct Case {
    pub name: &'static str,
    pub font: Vec<u8>,
    pub offset: u32,
    pub vertical: Vertical,
    pub glyph: u16,
    pub coords: Vec<i16>,
    pub unvaried: Unvaried,
    pub units_per_em: u16,
    pub flag: bool,
    pub scale: f32,
    pub measures: Measures,
}

impl Case {
    pub fn new(name: &'static str) -> Self {
        Case {
            name,
            font: vec![],
            offset: 0,
            vertical: Vertical::Synthesized {
                mvar: 0,
                advance: 0.,
                origin: 0.,
            },
            glyph: 0,
            coords: vec![],
            unvaried: Unvaried::default(),
            units_per_em: 0,
            flag: false,
            scale: 1.,
            measures: [0.; 13],
        }
    }

    fn take(&mut self, kind: Kind, word: &str) -> Option<()> {
        match kind {
            Font => self.font = text::bytes(word)?,
            Offset => self.offset = u32::try_from(text::natural(word)?).ok()?,
            VerticalList => self.vertical = vertical(&text::list(word)?)?,
            Glyph => self.glyph = index(word)?,
            Coords => self.coords = text::halves(word)?,
            Advance => self.unvaried.advance = index(word)?,
            Bearing => self.unvaried.bearing = half(word)?,
            YMax => self.unvaried.y_max = ordinate(word)?,
            Origin => self.unvaried.origin = ordinate(word)?,
            UnitsPerEm => self.units_per_em = index(word)?,
            Flag => self.flag = flag(word)?,
            Scale => self.scale = f32::from_bits(text::bits(word)?),
            MeasureList => {
                let measures: Measures = floats(word)?.try_into().ok()?;
                self.measures = measures;
            }
        }
        Some(())
    }
}

pub fn index(word: &str) -> Option<u16> {
    u16::try_from(text::natural(word)?).ok()
}

fn half(word: &str) -> Option<i16> {
    i16::try_from(text::integer(word)?).ok()
}

/// One that is missing is a minus.
pub fn ordinate(word: &str) -> Option<Option<i16>> {
    match word {
        text::EMPTY => Some(None),
        _ => half(word).map(Some),
    }
}

fn flag(word: &str) -> Option<bool> {
    match text::natural(word)? {
        0 => Some(false),
        1 => Some(true),
        _ => None,
    }
}

fn floats(word: &str) -> Option<Vec<f32>> {
    let bits = text::list(word)?;
    Some(bits.into_iter().map(f32::from_bits).collect())
}

fn vertical(words: &[u32]) -> Option<Vertical> {
    match *words {
        [0, vvar] => Some(Vertical::Glyf { vvar }),
        [1, vvar] => Some(Vertical::Vorg { vvar }),
        [2, mvar, advance, origin] => Some(Vertical::Synthesized {
            mvar,
            advance: f32::from_bits(advance),
            origin: f32::from_bits(origin),
        }),
        _ => None,
    }
}

/// The case that a line is, if it is one.
pub fn parse(line: &str) -> Option<Case> {
    let mut words = line.split(' ');
    let first = words.next()?;
    let (name, kinds) = FUNCTIONS.iter().find(|(name, _)| *name == first)?;
    let mut case = Case::new(name);
    for kind in *kinds {
        case.take(*kind, words.next()?)?;
    }
    words.next().is_none().then_some(case)
}

fn value(floats: &[f32]) -> String {
    let words: Vec<String> = floats.iter().map(|x| text::float_text(*x)).collect();
    format!("value {}", words.join(" "))
}

/// The measures as swash's proxy keeps them, which has 16-bit integers: unsigned widths, else signed.
fn whole(measures: &Measures) -> Option<[i32; 13]> {
    let mut numbers = [0; 13];
    for (k, measure) in measures.iter().enumerate() {
        let range = if k == 8 || k == 9 {
            0..=65535
        } else {
            -32768..=32767
        };
        let number = *measure as i32;
        let same = (number as f32).to_bits() == measure.to_bits();
        if !same || !range.contains(&number) {
            return None;
        }
        numbers[k] = number;
    }
    Some(numbers)
}

fn to_swash(measures: &Measures, units_per_em: u16) -> Metrics {
    let m = measures;
    Metrics {
        units_per_em,
        ascent: m[0],
        descent: m[1],
        leading: m[2],
        vertical_ascent: m[3],
        vertical_descent: m[4],
        vertical_leading: m[5],
        cap_height: m[6],
        x_height: m[7],
        average_width: m[8],
        max_width: m[9],
        underline_offset: m[10],
        strikeout_offset: m[11],
        stroke_size: m[12],
        ..Metrics::default()
    }
}

fn of_swash(m: Metrics) -> Measures {
    [
        m.ascent,
        m.descent,
        m.leading,
        m.vertical_ascent,
        m.vertical_descent,
        m.vertical_leading,
        m.cap_height,
        m.x_height,
        m.average_width,
        m.max_width,
        m.underline_offset,
        m.strikeout_offset,
        m.stroke_size,
    ]
}

fn truth(truth: bool) -> String {
    format!("value {}", truth as u8)
}

impl Case {
    fn numbers(&self) -> VerticalNumbers {
        match self.vertical {
            Vertical::Glyf { vvar } => VerticalNumbers::Glyf { vvar },
            Vertical::Vorg { vvar } => VerticalNumbers::Vorg { vvar },
            Vertical::Synthesized {
                mvar,
                advance,
                origin,
            } => VerticalNumbers::Synthesized {
                mvar,
                advance,
                origin,
            },
        }
    }

    /// What swash materializes. It may panic.
    fn glyph_metrics(&self) -> GlyphMetrics<'_> {
        set_unvaried(self.unvaried);
        let font = FontRef { data: &self.font };
        let proxy =
            MetricsProxy::of_glyphs(self.units_per_em, self.offset, self.flag, self.numbers());
        proxy.materialize_glyph_metrics(&font, &self.coords)
    }

    /// What swash answers. It may panic.
    pub fn rust(&self) -> Rust {
        let font = FontRef { data: &self.font };
        let measures = |m: Metrics| Rust::Answer(value(&of_swash(m)));
        let glyph = |x: f32| Rust::Answer(value(&[x]));
        let scaled = || self.glyph_metrics().linear_scale(self.scale);
        match self.name {
            MATERIALIZE => match whole(&self.measures) {
                Some(numbers) => {
                    let proxy = MetricsProxy::of_measures(numbers, self.flag, self.offset);
                    measures(proxy.materialize_metrics(&font, &self.coords))
                }
                None => Rust::Silent,
            },
            "scale" => measures(to_swash(&self.measures, self.units_per_em).scale(self.scale)),
            "linear_scale" => measures(to_swash(&self.measures, 0).linear_scale(self.scale)),
            "advance_width" => glyph(scaled().advance_width(self.glyph)),
            "lsb" => glyph(scaled().lsb(self.glyph)),
            "advance_height" => glyph(scaled().advance_height(self.glyph)),
            "tsb" => glyph(scaled().tsb(self.glyph)),
            "vertical_origin" => glyph(scaled().vertical_origin(self.glyph)),
            // the scale before is to be replaced
            "glyph_scale" => {
                let doubled = self.glyph_metrics().linear_scale(2.);
                glyph(doubled.scale(self.scale).advance_width(0))
            }
            "has_variations" => Rust::Answer(truth(self.glyph_metrics().has_variations())),
            "has_vertical_metrics" => {
                Rust::Answer(truth(self.glyph_metrics().has_vertical_metrics()))
            }
            _ => unreachable!(),
        }
    }

    /// What the rules say, and the place, which knows what was met on the way.
    fn by_rules(&self, rows: Rows) -> (String, Place<'_>) {
        let mut place = Place::new(&self.font, &self.coords, rows);
        let Unvaried {
            advance,
            bearing,
            y_max,
            origin,
        } = self.unvaried;
        let (glyph, scale) = (self.glyph, self.scale);
        let said = match self.name {
            MATERIALIZE => value(&place.materialize(self.measures, self.offset, self.flag)),
            "scale" => {
                let scale = rules::scale_for(scale, self.units_per_em);
                value(&rules::scaled(self.measures, scale))
            }
            "linear_scale" => value(&rules::scaled(self.measures, scale)),
            "advance_width" => {
                value(&[place.varied(advance.into(), self.offset, Map::Advance, glyph, scale)])
            }
            "lsb" => {
                value(&[place.varied(bearing.into(), self.offset, Map::Bearing, glyph, scale)])
            }
            "advance_height" => {
                let vertical = place.materialize_vertical(self.vertical);
                value(&[place.height(vertical, advance, glyph, scale)])
            }
            "tsb" => {
                let vertical = place.materialize_vertical(self.vertical);
                value(&[place.top(vertical, bearing, glyph, scale)])
            }
            "vertical_origin" => {
                let vertical = place.materialize_vertical(self.vertical);
                let top = || place.top(vertical, bearing, glyph, scale);
                let upem = self.units_per_em;
                value(&[rules::origin(vertical, y_max, origin, upem, scale, top)])
            }
            "glyph_scale" => value(&[advance as f32 * rules::scale_for(scale, self.units_per_em)]),
            "has_variations" => truth(self.offset != 0 || self.flag),
            "has_vertical_metrics" => truth(!matches!(self.vertical, Vertical::Synthesized { .. })),
            _ => unreachable!(),
        };
        (said, place)
    }

    pub fn expected(&self) -> Expected {
        let rust = Rust::of(|| self.rust());
        let (rule, met) = self.by_rules(COUNTED);
        // It may be that one delta has a row outside the item count and another one has none: the Rust is held to
        // what all of them are without it.
        let (theirs, place) = self.by_rules(UNCOUNTED);
        assert!(met.rows.outside || theirs == rule);
        // The Rust stops where a delta is refused by 5, and nowhere else.
        let agree = match &rust {
            Rust::Answer(answer) => *answer == theirs && !place.refused_by_5,
            Rust::Stops => place.refused_by_5,
            Rust::Silent => self.name == MATERIALIZE,
            Rust::None => false,
        };
        Expected {
            name: self.name,
            rust,
            rule,
            agree,
            outside: met.rows.outside,
            other_name: false,
        }
    }
}
