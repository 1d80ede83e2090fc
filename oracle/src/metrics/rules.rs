//! The rules for a font's measures and a glyph's metrics, from their text alone: each float operation
//! once, the deltas by the store's rules. Nothing here is taken from the Rust or from the Rattle, so
//! that it judges both.

use crate::axes::rules::Answer;
use crate::numbers::rules::to_f32;
use crate::store::rules::{metric, open, tag_delta, Map, Rows};

/// Ascent, descent, leading; the same three for vertical type; cap height, x height, average and
/// largest width, underline offset, strikeout offset, stroke size.
pub type Measures = [f32; 13];

/// Each measure's tag, if it has one.
pub const TAGS: [Option<&[u8; 4]>; 13] = [
    Some(b"hasc"),
    Some(b"hdsc"),
    Some(b"hlgp"),
    Some(b"vasc"),
    Some(b"vdsc"),
    Some(b"vlgp"),
    Some(b"cpht"),
    Some(b"xhgt"),
    None,
    None,
    Some(b"undo"),
    Some(b"stro"),
    Some(b"unds"),
];

/// Those for vertical type.
const VERTICAL: std::ops::Range<usize> = 3..6;

#[derive(Clone, Copy)]
pub enum Vertical {
    Glyf {
        vvar: u32,
    },
    Vorg {
        vvar: u32,
    },
    Synthesized {
        mvar: u32,
        advance: f32,
        origin: f32,
    },
}

/// A font and coordinates.
pub struct Place<'a> {
    pub font: &'a [u8],
    pub coords: &'a [i16],
    /// whether a delta that was asked for is refused by 5: there the Rust stops
    pub refused_by_5: bool,
    /// which of the two models of the store answers, and whether a row outside an item count was met
    pub rows: Rows,
}

impl<'a> Place<'a> {
    pub fn new(font: &'a [u8], coords: &'a [i16], rows: Rows) -> Self {
        Place {
            font,
            coords,
            refused_by_5: false,
            rows,
        }
    }

    /// The float form of a delta: 0.0 on any refusal.
    fn float(&mut self, delta: Answer<i64>) -> f32 {
        self.refused_by_5 |= delta == Err(5);
        delta.map_or(0., |raw| f32::from_bits(to_f32(raw as i128)))
    }

    fn tag(&mut self, mvar: u32, tag: &[u8; 4]) -> f32 {
        let tag = u32::from_be_bytes(*tag);
        let delta = tag_delta(self.font, mvar as usize, tag, self.coords, &mut self.rows);
        self.float(delta)
    }

    /// Where MVAR's offset is not 0, it opens and the coordinate list is not empty.
    fn varies(&self, mvar: u32) -> bool {
        mvar != 0 && open(self.font, mvar as usize).is_ok() && !self.coords.is_empty()
    }

    /// Adds the eleven deltas, the three vertical ones only with vertical metrics.
    pub fn materialize(&mut self, unvaried: Measures, mvar: u32, has_vertical: bool) -> Measures {
        let mut measures = unvaried;
        if self.varies(mvar) {
            for (k, tag) in TAGS.iter().enumerate() {
                match tag {
                    Some(tag) if has_vertical || !VERTICAL.contains(&k) => {
                        measures[k] = unvaried[k] + self.tag(mvar, tag);
                    }
                    _ => (),
                }
            }
        }
        measures
    }

    /// The synthesized advance is changed by the sum of HASC and HDSC, the origin by HASC.
    pub fn materialize_vertical(&mut self, vertical: Vertical) -> Vertical {
        match vertical {
            Vertical::Synthesized {
                mvar,
                advance,
                origin,
            } if self.varies(mvar) => {
                let (ascent, descent) = (self.tag(mvar, b"hasc"), self.tag(mvar, b"hdsc"));
                let both = ascent + descent;
                Vertical::Synthesized {
                    mvar,
                    advance: advance + both,
                    origin: origin + ascent,
                }
            }
            as_it_is => as_it_is,
        }
    }

    /// (unvaried + delta)·scale. A base of 0 refuses: no table, no delta.
    pub fn varied(&mut self, unvaried: i32, base: u32, map: Map, glyph: u16, scale: f32) -> f32 {
        let (base, glyph) = (base as usize, glyph as usize);
        let delta = metric(self.font, base, map, glyph, self.coords, &mut self.rows);
        (unvaried as f32 + self.float(delta)) * scale
    }

    pub fn height(&mut self, vertical: Vertical, unvaried: u16, glyph: u16, scale: f32) -> f32 {
        match vertical {
            Vertical::Glyf { vvar } | Vertical::Vorg { vvar } => {
                self.varied(unvaried.into(), vvar, Map::Advance, glyph, scale)
            }
            Vertical::Synthesized { advance, .. } => advance * scale,
        }
    }

    /// The top bearing; a synthesized one is 0.
    pub fn top(&mut self, vertical: Vertical, unvaried: i16, glyph: u16, scale: f32) -> f32 {
        match vertical {
            Vertical::Glyf { vvar } | Vertical::Vorg { vvar } => {
                self.varied(unvaried.into(), vvar, Map::Bearing, glyph, scale)
            }
            Vertical::Synthesized { .. } => 0. * scale,
        }
    }
}

/// Over units per em; 1 if that is 0.
pub fn scale_for(ppem: f32, units_per_em: u16) -> f32 {
    match units_per_em {
        0 => 1.,
        n => ppem / n as f32,
    }
}

pub fn scaled(measures: Measures, scale: f32) -> Measures {
    measures.map(|measure| measure * scale)
}

/// With glyf from yMax and the top bearing, which is scaled already and here once more, or from units
/// per em; with VORG from the origin, or from units per em as a signed 16-bit number.
pub fn origin(
    vertical: Vertical,
    y_max: Option<i16>,
    given: Option<i16>,
    units_per_em: u16,
    scale: f32,
    top: impl FnOnce() -> f32,
) -> f32 {
    let unscaled = match vertical {
        Vertical::Glyf { .. } => match y_max {
            Some(y) => y as f32 + top(),
            None => units_per_em as f32,
        },
        Vertical::Vorg { .. } => match given {
            Some(y) => y as f32,
            None if units_per_em < 32768 => units_per_em as f32,
            None => (units_per_em as i32 - 65536) as f32,
        },
        Vertical::Synthesized { origin, .. } => origin,
    };
    unscaled * scale
}
