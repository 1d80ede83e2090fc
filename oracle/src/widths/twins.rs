//! That an adjusted advance, and an adjusted bearing, hangs on its footprint and on the axes in use, and on
//! nothing else: the twins of the store's deltas, of these.

use super::cases::{self, LISTED};
use super::rules::Table;
use super::{footprint, parse, Case, Value, ADJUSTED_ADVANCE, ADJUSTED_SB};
use crate::axes::rules::Answer;
use crate::random::Random;
use crate::store::cases::coords_text;
use crate::store::footprint::Footprint;
use crate::store::rules::{Map, COUNTED};
use crate::store::twins::{twin, Printed};
use crate::text;

impl Printed for Case {
    fn font(&self) -> &[u8] {
        &self.font
    }

    fn coords(&self) -> &[i16] {
        &self.coords
    }

    fn with(&self, font: Vec<u8>, coords: Vec<i16>) -> Self {
        Case {
            font,
            coords,
            ..*self
        }
    }

    fn line(&self) -> String {
        let (name, glyph, scale) = (self.name, self.glyph, self.scale.to_bits());
        let font = text::bytes_text(self.font.iter().copied());
        let Table { at, count, xvar } = self.table;
        let coords = coords_text(&self.coords);
        format!("{name} {font} {at} {count} {xvar} {glyph} {coords} {scale:08x}")
    }

    fn footprint(&self) -> Footprint {
        let map = match self.name {
            ADJUSTED_ADVANCE => Map::Advance,
            _ => Map::Bearing,
        };
        footprint::adjusted(&self.font, self.table, map, self.glyph)
    }

    /// A NaN counts as NaN.
    fn said(&self) -> Answer<Vec<i64>> {
        let (said, _) = self.by_rules(COUNTED);
        said.map(|value| match value {
            Value::Float(x) if x.is_nan() => vec![],
            Value::Float(x) => vec![x.to_bits().into()],
            Value::Integer(number) => vec![number.into()],
        })
    }
}

/// Cases of an adjusted width, each with its twin: the listed ones, then those of the seed, without end.
pub fn twins(seed: u64) -> impl Iterator<Item = [Case; 2]> {
    let listed = LISTED.lines().map(str::to_string);
    let lines = listed.chain(cases::with_counts(seed));
    let adjusted = |case: &Case| matches!(case.name, ADJUSTED_ADVANCE | ADJUSTED_SB);
    let cases = lines.filter_map(move |line| parse(&line).filter(adjusted));
    let mut random = Random::new(seed ^ 0x7477_6964);
    cases.map(move |case| twin(case, &mut random))
}
