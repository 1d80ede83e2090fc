//! Measures and glyph metrics, from what swash itself reads without the tables that vary them.

use crate::axes::coords_text;
use crate::face::{self, Face};
use crate::lines::{asked, tried, Lines, STOPS};
use crate::random::Random;
use crate::text::{float_text, list_text, EMPTY};
use swash::{FontRef, GlyphMetrics, Metrics};

/// So many pairs of a glyph and a coordinate list are asked for of a face; but each list that is taken is
/// asked for at every glyph, and three are.
pub const PAIRS: usize = 60_000;

/// How what is asked is scaled.
#[derive(Clone, Copy)]
pub enum Scale {
    Plain,
    Ppem(f32),
    Linear(f32),
}

use Scale::{Linear, Plain, Ppem};

pub const SCALES: [Scale; 13] = [
    Plain,
    Ppem(-16.),
    Ppem(16.),
    Linear(0.125),
    Ppem(12.7),
    Linear(-1.5),
    Ppem(0.),
    Linear(1e-3),
    Ppem(2048.),
    Linear(3e38),
    Ppem(-0.),
    Linear(f32::INFINITY),
    Ppem(f32::NAN),
];

impl Scale {
    fn words(self) -> [String; 2] {
        match self {
            Plain => ["plain".to_string(), EMPTY.to_string()],
            Ppem(x) => ["ppem".to_string(), float_text(x)],
            Linear(x) => ["linear".to_string(), float_text(x)],
        }
    }

    fn measures(self, metrics: Metrics) -> Metrics {
        match self {
            Plain => metrics,
            Ppem(x) => metrics.scale(x),
            Linear(x) => metrics.linear_scale(x),
        }
    }

    /// A scale replaces the one before.
    fn glyphs(self, metrics: GlyphMetrics) -> GlyphMetrics {
        let before = metrics.linear_scale(-7.);
        match self {
            Plain => metrics,
            Ppem(x) => before.scale(x),
            Linear(x) => before.linear_scale(x),
        }
    }
}

/// In the library's order.
fn measures_text(m: Metrics) -> String {
    let list = [
        m.ascent,
        m.descent,
        m.leading,
        m.vertical_ascent,
        m.vertical_descent,
        m.vertical_leading,
        m.cap_height,
        m.x_height,
        m.average_width,
        m.max_width,
        m.underline_offset,
        m.strikeout_offset,
        m.stroke_size,
    ];
    list_text(list.into_iter().map(float_text))
}

/// What swash reads of a copy with no coordinates, where nothing varies.
struct Unvaried<'a> {
    measures: Metrics,
    glyphs: GlyphMetrics<'a>,
}

impl<'a> Unvaried<'a> {
    /// Or why not: where swash stops here, it does in the reading of tables, which is not ported.
    fn of(face: &Face, copy: &'a [u8]) -> Result<Self, &'static str> {
        let copy = face.copied(copy).ok_or("swash can't open a copy")?;
        let read = tried(|| Unvaried {
            measures: copy.font.metrics(&[]),
            glyphs: copy.font.glyph_metrics(&[]),
        });
        read.ok_or("swash stops in the tables that have them")
    }
}

pub fn ask(lines: &mut Lines, face: &Face, pairs: usize, random: &mut Random) {
    if let Err(why) = ask_all(lines, face, pairs, random) {
        lines.leave(&format!("measures and glyphs: {why}"));
    }
}

fn ask_all(
    lines: &mut Lines,
    face: &Face,
    pairs: usize,
    random: &mut Random,
) -> Result<(), &'static str> {
    if !face.has(b"head") || !face.has(b"maxp") {
        return Err("without head and maxp swash reads no other table");
    }
    let copy = face::unvaried(face);
    let other = alike(face, &copy);
    let (plain, other) = (Unvaried::of(face, &copy)?, Unvaried::of(face, &other)?);
    let lists = lists(face.font, random);
    measures(lines, face.font, &plain.measures, &lists);
    let by_glyf = by_glyf(face, &plain);
    let glyphs = glyphs(plain.measures.glyph_count, by_glyf);
    vertical(lines, face, &plain.glyphs);
    tables(lines, face.font);
    let apart = |glyph: &u16| !face::meets_tags(face, *glyph);
    let (glyphs, others): (Vec<u16>, Vec<u16>) = glyphs.into_iter().partition(apart);
    if !others.is_empty() {
        lines.leave(&format!(
            "{} glyphs: swash has their numbers from the directory, in which a copy has other tags",
            others.len()
        ));
    }
    let glyphs = numbers(lines, &plain.glyphs, &other.glyphs, by_glyf, &glyphs);
    let most = (pairs / glyphs.len().max(1)).max(3);
    if most < lists.len() {
        let name = format!("{} of {} lists", lists.len() - most, lists.len());
        lines.put("lists left out", &[name]);
    }
    for (k, list) in lists.iter().take(most).enumerate() {
        let scale = SCALES[k % SCALES.len()];
        at(lines, face.font, list, scale, "metrics", &glyphs);
    }
    Ok(())
}

pub fn unvaried(lines: &mut Lines, plain: &Metrics) {
    let vertical = plain.has_vertical_metrics as u8;
    let numbers = [plain.units_per_em.to_string(), vertical.to_string()];
    lines.put(
        "unvaried",
        &[&numbers[..], &[measures_text(*plain)]].concat(),
    );
}

fn measures(lines: &mut Lines, font: FontRef, plain: &Metrics, lists: &[Vec<i16>]) {
    unvaried(lines, plain);
    for list in lists {
        for scale in SCALES {
            let answer = asked(|| measures_text(scale.measures(font.metrics(list))));
            let words = [coords_text(list.iter().copied())];
            lines.put(
                "measures",
                &[&words[..], &scale.words(), &[answer]].concat(),
            );
        }
    }
}

/// Which of swash's three cases of vertical type the font is, as its metrics.rs finds it; where MVAR is for
/// that; the two floats of the synthesized case.
pub fn vertical(lines: &mut Lines, face: &Face, metrics: &GlyphMetrics) {
    let synthesized = !metrics.has_vertical_metrics();
    let case = match (synthesized, face::offset(&face.font, b"VORG") != 0) {
        (true, _) => 2,
        (false, true) => 1,
        (false, false) => 0,
    };
    // with vmtx, but neither VORG nor glyf, no MVAR is kept for it
    let no_mvar = face.has(b"vhea") && face::offset(&face.font, b"vmtx") != 0;
    let floats = match synthesized {
        true => [metrics.advance_height(0), metrics.vertical_origin(0)],
        false => [0.; 2],
    };
    let words = [case.to_string(), (no_mvar as u8).to_string()];
    lines.put("vertical", &[&words[..], &floats.map(float_text)].concat());
}

/// From where swash reads a glyph's numbers.
pub fn tables(lines: &mut Lines, font: FontRef) {
    lines.put("tables", &face::widths(&font).map(|n| n.to_string()));
}

/// Whether swash has a glyph's vertical origin from its yMax.
fn by_glyf(face: &Face, plain: &Unvaried) -> bool {
    plain.glyphs.has_vertical_metrics() && face::offset(&face.font, b"VORG") == 0
}

/// Each glyph, one past the last, and the last of all numbers. With glyf none past the last: vmtx ends before
/// it, and its yMax would not be found (see below).
fn glyphs(count: u16, by_glyf: bool) -> Vec<u16> {
    let mut glyphs: Vec<u16> = (0..count).collect();
    if !by_glyf {
        glyphs.extend((count < 65535).then_some(count));
        glyphs.push(65535);
    }
    glyphs
}

/// A copy in which every byte of vmtx is 1, and so each top bearing 257.
fn alike(face: &Face, copy: &[u8]) -> Vec<u8> {
    let mut other = copy.to_vec();
    let (start, length) = face::place(&face.font, b"vmtx");
    other[start..start + length].fill(1);
    other
}

/// A bearing of 257 for all glyphs shows swash's yMax, and whether it has one: its origin is yMax + 257, and at
/// scale 2 twice yMax and four times 257, since the bearing is scaled twice; without a yMax it is just twice as
/// much.
pub fn y_max(other: &GlyphMetrics, glyph: u16) -> Option<f32> {
    let [once, twice] = [1., 2.].map(|scale| other.linear_scale(scale).vertical_origin(glyph));
    (twice != 2. * once).then_some(once - 257.)
}

/// The five unvaried numbers of each glyph. Answers the glyphs that have the five: where swash stops on one of
/// them, or has the bearing from behind vmtx, so that yMax does not show, there is nothing to hand to ours.
fn numbers(
    lines: &mut Lines,
    metrics: &GlyphMetrics,
    other: &GlyphMetrics,
    by_glyf: bool,
    glyphs: &[u16],
) -> Vec<u16> {
    let synthesized = !metrics.has_vertical_metrics();
    let y = |glyph| match by_glyf {
        true => y_max(other, glyph),
        false => Some(metrics.vertical_origin(glyph)),
    };
    let mut found = vec![];
    for &glyph in glyphs {
        let answer = tried(|| {
            if by_glyf && other.tsb(glyph) != 257. {
                return None;
            }
            let vertical = match synthesized {
                // its floats are the font's and no glyph's
                true => [Some(0.), Some(0.), None],
                false => [
                    Some(metrics.advance_height(glyph)),
                    Some(metrics.tsb(glyph)),
                    y(glyph),
                ],
            };
            let horizontal = [Some(metrics.advance_width(glyph)), Some(metrics.lsb(glyph))];
            let numbers = horizontal.into_iter().chain(vertical);
            let text = |n: Option<f32>| n.map_or(EMPTY.to_string(), |n| n.to_string());
            Some(list_text(numbers.map(text)))
        });
        if let Some(answer) = answer.flatten() {
            lines.put("glyph", &[glyph.to_string(), answer]);
            found.push(glyph);
        }
    }
    let left = glyphs.len() - found.len();
    if left > 0 {
        let all = glyphs.len();
        lines.leave(&format!(
            "{left} of {all} glyphs: swash stops on their unvaried numbers, or vmtx ends before them"
        ));
    }
    found
}

/// The five of each glyph, each in a line of that kind.
pub fn at(
    lines: &mut Lines,
    font: FontRef,
    list: &[i16],
    scale: Scale,
    kind: &str,
    glyphs: &[u16],
) {
    let words = [coords_text(list.iter().copied())];
    lines.put("at", &[&words[..], &scale.words()].concat());
    // MVAR varies the synthesized case here; where that stops, no glyph has an answer
    let metrics = tried(|| scale.glyphs(font.glyph_metrics(list)));
    for &glyph in glyphs {
        let answers = metrics.map_or([STOPS; 5].map(str::to_string), |m| five(&m, glyph));
        lines.put(kind, &[glyph.to_string(), answers.join(",")]);
    }
}

fn five(metrics: &GlyphMetrics, glyph: u16) -> [String; 5] {
    [
        asked(|| float_text(metrics.advance_width(glyph))),
        asked(|| float_text(metrics.lsb(glyph))),
        asked(|| float_text(metrics.advance_height(glyph))),
        asked(|| float_text(metrics.tsb(glyph))),
        asked(|| float_text(metrics.vertical_origin(glyph))),
    ]
}

/// None; random ones, the first of them above the default, where most axes vary; the default; each
/// axis end alone; all ends; the instances; the ends of the 2.14 range; one coordinate too few and too many.
fn lists(font: FontRef, random: &mut Random) -> Vec<Vec<i16>> {
    let count = font.variations().len();
    if count == 0 {
        return vec![vec![], vec![0], vec![8192]];
    }
    let above = (0..count).map(|_| random.below(16385) as i16).collect();
    let mut inside = || {
        (0..count)
            .map(|_| (random.below(32769) as i32 - 16384) as i16)
            .collect::<Vec<i16>>()
    };
    let mut lists = vec![
        vec![],
        above,
        inside(),
        vec![0; count],
        vec![16384; count],
        vec![-16384; count],
    ];
    lists.extend((0..6).map(|_| inside()));
    for axis in 0..count {
        for end in [-16384, 16384] {
            let mut list = vec![0; count];
            list[axis] = end;
            lists.push(list);
        }
    }
    for index in 0..font.instances().len().min(24) {
        let instance = || font.instances().nth(index);
        let coords = tried(|| instance().map(|i| i.normalized_coords().collect()));
        lists.extend(coords.flatten());
    }
    lists.extend([vec![i16::MIN; count], vec![i16::MAX; count]]);
    lists.push(inside()[1..].to_vec());
    lists.push([inside(), vec![8192]].concat());
    lists
}
