//! Measures and glyph metrics.

use crate::font::Font;
use crate::judge::{Floats, Function, Judge};
use crate::metrics::rules::{self, scale_for, scaled, Measures, Place};
use crate::reading::{Reader, Tables};
use crate::store::rules::{Map, Rows, COUNTED, UNCOUNTED};
use crate::suolluvik::{self, GlyphMetrics};
use crate::text::{self, halves, EMPTY};

/// How what is asked is scaled.
#[derive(Clone, Copy)]
pub enum Scale {
    Plain,
    Ppem(f32),
    Linear(f32),
}

/// A glyph's unvaried numbers; y is yMax or VORG's origin.
#[derive(Clone, Copy, Debug)]
struct Unvaried {
    width: u16,
    lsb: i16,
    height: u16,
    tsb: i16,
    y: Option<i16>,
}

impl Unvaried {
    fn five(self) -> [Option<f32>; 5] {
        let [width, height] = [self.width, self.height].map(|n| Some(f32::from(n)));
        let [lsb, tsb] = [self.lsb, self.tsb].map(|n| Some(f32::from(n)));
        [width, lsb, height, tsb, self.y.map(f32::from)]
    }
}

/// A place at which glyphs are asked for: ours, and the same by the rules.
pub struct At {
    pub coords: Vec<i16>,
    scale: Scale,
    pub ours: GlyphMetrics,
    counted: Materialized,
    uncounted: Materialized,
    pub rule_scale: f32,
}

impl At {
    /// Whether swash stops on the way to every glyph.
    pub fn stops(&self) -> bool {
        self.uncounted.refused_by_5
    }
}

/// The vertical case by one of the two models of the store.
struct Materialized {
    vertical: rules::Vertical,
    /// whether a delta of the synthesized case is refused by 5
    refused_by_5: bool,
    /// whether one of them has a row outside an item count
    outside: bool,
}

impl Materialized {
    fn new(font: &Font, coords: &[i16], vertical: rules::Vertical, rows: Rows) -> Self {
        let mut place = Place::new(&font.data, coords, rows);
        Materialized {
            vertical: place.materialize_vertical(vertical),
            refused_by_5: place.refused_by_5,
            outside: place.rows.outside,
        }
    }
}

/// What the lines before have said of the face.
#[derive(Default)]
pub struct Metrics {
    units_per_em: u16,
    has_vertical: bool,
    measures: Measures,
    vertical: Option<suolluvik::Vertical>,
    glyphs: Vec<Option<Unvaried>>,
    tables: Tables,
    /// each glyph's yMax, if that is known
    tops: Vec<Option<Option<i16>>>,
    at: Option<At>,
}

fn float(word: &str) -> Option<f32> {
    match word {
        "nan" => Some(f32::NAN),
        _ => text::bits(word).map(f32::from_bits),
    }
}

fn floats(words: &str) -> Option<Vec<f32>> {
    words.split(',').map(float).collect()
}

fn scale_of(kind: &str, x: &str) -> Option<Scale> {
    match kind {
        "plain" => Some(Scale::Plain),
        "ppem" => float(x).map(Scale::Ppem),
        "linear" => float(x).map(Scale::Linear),
        _ => None,
    }
}

fn unvaried(words: &str) -> Option<Unvaried> {
    match words.split(',').collect::<Vec<_>>()[..] {
        [width, lsb, height, tsb, y] => Some(Unvaried {
            width: width.parse().ok()?,
            lsb: lsb.parse().ok()?,
            height: height.parse().ok()?,
            tsb: tsb.parse().ok()?,
            y: ordinate(y)?,
        }),
        _ => None,
    }
}

/// A number, or that there is none.
fn ordinate(word: &str) -> Option<Option<i16>> {
    match word {
        EMPTY => Some(None),
        y => y.parse().ok().map(Some),
    }
}

/// The five answers of a line; one that is missing stops.
fn answers(words: &str) -> Option<Vec<Option<f32>>> {
    let answer = |word| match word {
        "stops" => Some(None),
        word => float(word).map(Some),
    };
    words.split(',').map(answer).collect()
}

impl Metrics {
    /// One line, if it is of this kind.
    pub fn line(
        &mut self,
        judge: &mut Judge,
        font: &Font,
        kind: &str,
        words: &[&str],
    ) -> Option<()> {
        match (kind, words) {
            ("unvaried", [units, vertical, measures]) => {
                self.units_per_em = units.parse().ok()?;
                self.has_vertical = *vertical == "1";
                self.measures = floats(measures)?.try_into().ok()?;
            }
            ("measures", [coords, kind, x, answer]) => {
                self.measures_at(judge, font, &halves(coords)?, scale_of(kind, x)?, answer)?;
            }
            ("vertical", [case, no_mvar, advance, origin]) => {
                let made = [float(advance)?, float(origin)?];
                self.vertical = Some(match (*case, *no_mvar) {
                    ("0", _) => suolluvik::Vertical::VmtxGlyf { vvar: font.vvar },
                    ("1", _) => suolluvik::Vertical::VmtxVorg { vvar: font.vvar },
                    (_, "0") => self.synthesize(judge, font, made),
                    _ => suolluvik::Vertical::Synthesized {
                        mvar: 0,
                        advance: made[0],
                        origin: made[1],
                    },
                });
                self.glyphs.clear();
                self.tops.clear();
            }
            ("tables", words) => self.tables = Tables::of(font, words)?,
            ("glyph", [glyph, numbers]) => {
                self.glyphs.resize(1 << 16, None);
                self.tops.resize(1 << 16, None);
                let (glyph, numbers): (u16, _) = (glyph.parse().ok()?, unvaried(numbers)?);
                self.glyphs[usize::from(glyph)] = Some(numbers);
                self.tops[usize::from(glyph)] = Some(numbers.y);
                self.reader(judge, font)?.numbers(glyph, numbers.five());
            }
            ("plain", [glyph, answer]) => {
                let five = answers(answer)?.try_into().ok()?;
                self.reader(judge, font)?.numbers(glyph.parse().ok()?, five);
            }
            ("top", [glyph, y]) => {
                self.tops.resize(1 << 16, None);
                let glyph: u16 = glyph.parse().ok()?;
                self.tops[usize::from(glyph)] = Some(ordinate(y)?);
            }
            ("read", [glyph, answer]) => {
                self.read(judge, font, glyph.parse().ok()?, &answers(answer)?)?
            }
            ("at", [coords, kind, x]) => {
                self.at = Some(self.at(font, halves(coords)?, scale_of(kind, x)?)?);
            }
            ("metrics", [glyph, answer]) => self.glyph(judge, font, glyph.parse().ok()?, answer)?,
            _ => return None,
        }
        Some(())
    }

    fn measures_at(
        &self,
        judge: &mut Judge,
        font: &Font,
        coords: &[i16],
        scale: Scale,
        answer: &str,
    ) -> Option<()> {
        let units = self.units_per_em;
        let mut ours = record(self.measures);
        // nothing here is refused
        suolluvik::materialize_metrics(&font.data, font.mvar, coords, self.has_vertical, &mut ours)
            .ok()?;
        let (function, factor) = match scale {
            Scale::Plain => (Function::Measures, 1.),
            Scale::Ppem(ppem) => {
                suolluvik::scale_metrics(units, ppem, &mut ours).ok()?;
                (Function::ScaleMeasures, scale_for(ppem, units))
            }
            Scale::Linear(factor) => {
                suolluvik::linear_scale_metrics(factor, &mut ours).ok()?;
                (Function::LinearScaleMeasures, factor)
            }
        };
        let rule = |rows| {
            let mut place = Place::new(&font.data, coords, rows);
            let rule = place.materialize(self.measures, font.mvar, self.has_vertical);
            said(scaled(rule, factor).to_vec(), &place)
        };
        let rust = if answer == "stops" {
            None
        } else {
            Some(floats(answer)?)
        };
        let arguments = || format!("coordinates {:?}, {}", coords, scale_text(scale));
        judge.floats(function, arguments, rust.as_deref(), &list(ours), rule);
        Some(())
    }

    /// What swash makes of its own unvaried ascent and descent, where the font has no vmtx.
    fn synthesize(&self, judge: &mut Judge, font: &Font, rust: [f32; 2]) -> suolluvik::Vertical {
        let [ascent, descent, ..] = self.measures;
        let made = suolluvik::Vertical::synthesize(font.mvar, ascent, descent);
        let ours = match made {
            suolluvik::Vertical::Synthesized {
                advance, origin, ..
            } => vec![advance, origin],
            _ => vec![],
        };
        judge.floats(
            Function::Synthesize,
            || format!("ascent {:?}, descent {:?}", ascent, descent),
            Some(&rust),
            &ours,
            |_| Floats {
                floats: vec![ascent + descent, ascent],
                refused_by_5: false,
                outside: false,
            },
        );
        made
    }

    fn at(&self, font: &Font, coords: Vec<i16>, scale: Scale) -> Option<At> {
        let unscaled = GlyphMetrics {
            units_per_em: self.units_per_em,
            hvar: font.hvar,
            vertical: self.vertical?,
            scale: 1.,
        };
        // nothing here is refused
        let ours = unscaled.materialize(&font.data, &coords).ok()?;
        // a scale replaces the one before
        let before = ours.linear_scale(-7.);
        let (ours, rule_scale) = match scale {
            Scale::Plain => (ours, 1.),
            Scale::Ppem(ppem) => (before.scale(ppem), scale_for(ppem, self.units_per_em)),
            Scale::Linear(factor) => (before.linear_scale(factor), factor),
        };
        let vertical = rule_vertical(self.vertical?);
        Some(At {
            counted: Materialized::new(font, &coords, vertical, COUNTED),
            uncounted: Materialized::new(font, &coords, vertical, UNCOUNTED),
            coords,
            scale,
            ours,
            rule_scale,
        })
    }

    /// The five metrics of a glyph.
    fn glyph(&self, judge: &mut Judge, font: &Font, glyph: u16, answer: &str) -> Option<()> {
        let at = self.at.as_ref()?;
        let unvaried = (*self.glyphs.get(usize::from(glyph))?)?;
        let (data, coords) = (&font.data[..], &at.coords[..]);
        let ours = [
            at.ours.advance_width(data, glyph, coords, unvaried.width),
            at.ours.lsb(data, glyph, coords, unvaried.lsb),
            at.ours
                .advance_height(data, glyph, coords, unvaried.height)
                .ok()?,
            at.ours.tsb(data, glyph, coords, unvaried.tsb).ok()?,
            at.ours
                .vertical_origin(data, glyph, coords, unvaried.tsb, unvaried.y)
                .ok()?,
        ];
        let answers = answers(answer)?;
        for (k, ours) in ours.iter().enumerate() {
            let rust = answers.get(k)?.map(|float| [float]);
            let rule = |rows| self.rule(font, at, rows, glyph, unvaried, k);
            let arguments = || {
                format!(
                    "glyph {}, {:?}, coordinates {:?}, {}",
                    glyph,
                    unvaried,
                    coords,
                    scale_text(at.scale)
                )
            };
            let rust = rust.as_ref().map(|float| &float[..]);
            judge.floats(GLYPHS[k], arguments, rust, &[*ours], rule);
        }
        self.read(judge, font, glyph, &answers)
    }

    fn reader<'a>(&self, judge: &'a mut Judge, font: &'a Font) -> Option<Reader<'a>> {
        Some(Reader {
            judge,
            font,
            tables: self.tables,
            vertical: self.vertical?,
            units_per_em: self.units_per_em,
        })
    }

    /// The same metrics, read from the font.
    fn read(
        &self,
        judge: &mut Judge,
        font: &Font,
        glyph: u16,
        answers: &[Option<f32>],
    ) -> Option<()> {
        let top = self.tops.get(usize::from(glyph)).copied().flatten();
        let at = self.at.as_ref().filter(|_| answers.len() == 5)?;
        self.reader(judge, font)?.glyph(at, glyph, top, answers);
        Some(())
    }

    /// What the rules say of one of the five, by one of the two models.
    fn rule(
        &self,
        font: &Font,
        at: &At,
        rows: Rows,
        glyph: u16,
        unvaried: Unvaried,
        k: usize,
    ) -> Floats {
        let horizontal = matches!(GLYPHS[k], Function::AdvanceWidth | Function::Lsb);
        let made = match rows.counted {
            true => &at.counted,
            false => &at.uncounted,
        };
        let mut place = Place::new(&font.data, &at.coords, rows);
        // where that stops no glyph has an answer, whatever is asked for
        place.refused_by_5 = made.refused_by_5;
        place.rows.outside = made.outside && !horizontal;
        let (vertical, scale, y) = (made.vertical, at.rule_scale, unvaried.y);
        let value = match GLYPHS[k] {
            Function::AdvanceWidth => {
                place.varied(unvaried.width.into(), font.hvar, Map::Advance, glyph, scale)
            }
            Function::Lsb => {
                place.varied(unvaried.lsb.into(), font.hvar, Map::Bearing, glyph, scale)
            }
            Function::AdvanceHeight => place.height(vertical, unvaried.height, glyph, scale),
            Function::Tsb => place.top(vertical, unvaried.tsb, glyph, scale),
            _ => {
                let top = || place.top(vertical, unvaried.tsb, glyph, scale);
                rules::origin(vertical, y, y, self.units_per_em, scale, top)
            }
        };
        said(vec![value], &place)
    }
}

fn said(floats: Vec<f32>, place: &Place) -> Floats {
    Floats {
        floats,
        refused_by_5: place.refused_by_5,
        outside: place.rows.outside,
    }
}

const GLYPHS: [Function; 5] = [
    Function::AdvanceWidth,
    Function::Lsb,
    Function::AdvanceHeight,
    Function::Tsb,
    Function::VerticalOrigin,
];

fn rule_vertical(vertical: suolluvik::Vertical) -> rules::Vertical {
    match vertical {
        suolluvik::Vertical::VmtxGlyf { vvar } => rules::Vertical::Glyf { vvar },
        suolluvik::Vertical::VmtxVorg { vvar } => rules::Vertical::Vorg { vvar },
        suolluvik::Vertical::Synthesized {
            mvar,
            advance,
            origin,
        } => rules::Vertical::Synthesized {
            mvar,
            advance,
            origin,
        },
    }
}

/// The library's record of a list of measures.
fn record(list: Measures) -> suolluvik::Metrics {
    let [ascent, descent, leading, vertical_ascent, vertical_descent, vertical_leading, cap_height, x_height, average_width, max_width, underline_offset, strikeout_offset, stroke_size] =
        list;
    suolluvik::Metrics {
        ascent,
        descent,
        leading,
        vertical_ascent,
        vertical_descent,
        vertical_leading,
        cap_height,
        x_height,
        average_width,
        max_width,
        underline_offset,
        strikeout_offset,
        stroke_size,
    }
}

fn list(m: suolluvik::Metrics) -> Measures {
    [
        m.ascent,
        m.descent,
        m.leading,
        m.vertical_ascent,
        m.vertical_descent,
        m.vertical_leading,
        m.cap_height,
        m.x_height,
        m.average_width,
        m.max_width,
        m.underline_offset,
        m.strikeout_offset,
        m.stroke_size,
    ]
}

fn scale_text(scale: Scale) -> String {
    match scale {
        Scale::Plain => "not scaled".to_string(),
        Scale::Ppem(ppem) => format!("{:?} pixels per em", ppem),
        Scale::Linear(factor) => format!("scaled by {:?}", factor),
    }
}
