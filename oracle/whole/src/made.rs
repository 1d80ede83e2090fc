//! Maps made by hand: the smallest ones on which swash and document 01 differ, and their neighbours. The
//! font has one axis: from -1 over 0 to 1, so that a value is its own coordinate, or Karla's.

use crate::axes;
use crate::face::Face;
use crate::lines::{tried, Lines};
use crate::maps::{Avar, Pair};
use crate::text::bytes_text;
use std::io;

const ONE: i16 = 16384;
const HALF: i16 = 8192;
const QUARTER: i16 = 4096;

/// What a map shows, its pairs, and the values that are asked for, in 2.14 too.
const MAPS: [(&str, &[Pair], &[i16]); 13] = [
    (
        "OpenType's three pairs",
        &[[-ONE, -ONE], [0, 0], [ONE, ONE]],
        &[-ONE, -HALF, 0, HALF, ONE],
    ),
    (
        "document 01's A1",
        &[[-ONE, -ONE], [0, 0], [HALF, QUARTER], [ONE, ONE]],
        &[QUARTER, HALF + QUARTER],
    ),
    ("one pair", &[[0, QUARTER]], &[-HALF, 0, HALF]),
    (
        "before the first pair",
        &[[-HALF, -QUARTER], [0, 0], [ONE, ONE]],
        &[-ONE, -HALF - QUARTER, -HALF, -QUARTER],
    ),
    (
        "behind the last pair",
        &[[-ONE, -ONE], [0, 0], [HALF, QUARTER]],
        &[QUARTER, HALF, HALF + QUARTER, ONE],
    ),
    (
        "a from twice, below 0",
        &[[-ONE, -ONE], [-HALF, -HALF], [-HALF, 0], [0, 0], [ONE, ONE]],
        &[-HALF - QUARTER, -HALF, -QUARTER],
    ),
    (
        "a from twice, at 0",
        &[[-ONE, -ONE], [0, HALF], [0, 0], [ONE, ONE]],
        &[-HALF, 0, HALF],
    ),
    (
        "a from twice, above 0",
        &[
            [-ONE, -ONE],
            [0, 0],
            [HALF, QUARTER],
            [HALF, HALF],
            [ONE, ONE],
        ],
        &[QUARTER, HALF, HALF + QUARTER],
    ),
    (
        "a from three times",
        &[
            [-ONE, -ONE],
            [0, 0],
            [HALF, 0],
            [HALF, QUARTER],
            [HALF, HALF],
            [ONE, ONE],
        ],
        &[HALF],
    ),
    (
        "-1 twice",
        &[[-ONE, -ONE], [-ONE, -HALF], [0, 0], [ONE, ONE]],
        &[-ONE, -HALF],
    ),
    (
        "1 twice",
        &[[-ONE, -ONE], [0, 0], [ONE, HALF], [ONE, ONE]],
        &[HALF, ONE],
    ),
    (
        "an equal from behind a larger one",
        &[[-ONE, -ONE], [HALF, HALF], [0, QUARTER], [ONE, ONE]],
        &[-HALF, 0, QUARTER, HALF + QUARTER],
    ),
    ("no pair", &[], &[-ONE, 0, HALF]),
];

/// Whole numbers: min, default, max.
type Axis = [i32; 3];

const UNIT: Axis = [-1, 0, 1];
const KARLA: Axis = [200, 400, 800];

/// Karla's map, with one pair instead of all, with another first pair instead of two, without its last pair.
const KARLA_MAPS: [(&str, &[Pair], f32); 3] = [
    ("Karla's axis, one pair", &[[0, QUARTER]], 431.),
    (
        "Karla's, another first pair",
        &[
            [-HALF, -QUARTER],
            [0, 0],
            [4096, 3397],
            [12288, 7992],
            [ONE, ONE],
        ],
        201.,
    ),
    (
        "Karla's, the last pair dropped",
        &[
            [-ONE, -ONE],
            [-HALF, -7992],
            [0, 0],
            [4096, 3397],
            [12288, 7992],
        ],
        749.,
    ),
];

fn fvar(axis: Axis) -> Vec<u8> {
    let header: [u16; 8] = [1, 0, 16, 2, 1, 20, 0, 8];
    let mut fvar: Vec<u8> = header.into_iter().flat_map(u16::to_be_bytes).collect();
    fvar.extend(b"wght");
    fvar.extend(axis.into_iter().flat_map(|n| (n << 16).to_be_bytes()));
    fvar.extend([0, 0, 1, 0]);
    fvar
}

/// Whether swash stops on an instance of size 1, whose PostScript name id is where this less 2 says: overflow checks
/// are on.
pub fn stops() -> bool {
    let instance = [
        0, 1, 0, 0, 0, 16, 0, 2, 0, 0, 0, 20, 0, 1, 0, 1, 1, 1, 0, 0, 0,
    ];
    let data = font(&instance, &[]);
    let found = Face::at(&data, 0);
    found.map_or(false, |face| {
        tried(|| face.font.instances().nth(0)).is_none()
    })
}

/// A font of nothing but fvar and avar, which ends the font.
fn font(fvar: &[u8], avar: &[u8]) -> Vec<u8> {
    let mut font = vec![0, 1, 0, 0, 0, 2, 0, 0, 0, 0, 0, 0];
    let start = font.len() + 2 * 16;
    for (tag, start, length) in [
        (b"avar", start + fvar.len(), avar.len()),
        (b"fvar", start, fvar.len()),
    ] {
        font.extend(tag);
        font.extend([0; 4]);
        font.extend((start as u32).to_be_bytes());
        font.extend((length as u32).to_be_bytes());
    }
    font.extend(fvar);
    font.extend(avar);
    font
}

/// The float that is just this 2.14 number as a 16.16 one: there 0.5 is added, and the fraction is cut toward zero.
fn exactly(value: i16) -> f32 {
    let fixed = 4. * value as f32;
    (if value < 0 { fixed - 0.5 } else { fixed }) / 65536.
}

fn one(lines: &mut Lines, what: &str, axis: Axis, avar: &[u8], values: &[f32]) {
    let data = font(&fvar(axis), avar);
    let Some(face) = Face::at(&data, 0) else {
        return;
    };
    lines.put(
        "bytes",
        &[
            bytes_text(data.iter().copied()),
            what.to_string(),
            bytes_text(avar.iter().copied()),
        ],
    );
    lines.put("face", &face.words());
    for axis in face.font.variations() {
        for value in values {
            axes::normalize(lines, &axis, *value);
        }
    }
}

fn avar(count: u16, pairs: &[Pair]) -> Vec<u8> {
    let maps = vec![pairs.to_vec()];
    Avar {
        header: [0, 1, 0, 0, 0, 0],
        count,
        maps,
    }
    .bytes()
}

pub fn ask() -> io::Result<()> {
    let lines = &mut Lines::new();
    let all = |values: &[i16]| {
        values
            .iter()
            .map(|value| exactly(*value))
            .collect::<Vec<f32>>()
    };
    for (what, pairs, values) in MAPS {
        one(lines, what, UNIT, &avar(1, pairs), &all(values));
    }
    let (_, pairs, values) = MAPS[1];
    one(
        lines,
        "an axis past the count",
        UNIT,
        &avar(0, pairs),
        &all(values),
    );
    let whole = avar(1, pairs);
    one(
        lines,
        "a map whose last pair is cut",
        UNIT,
        &whole[..whole.len() - 1],
        &all(values),
    );
    for (what, pairs, value) in KARLA_MAPS {
        one(lines, what, KARLA, &avar(1, pairs), &[value]);
    }
    lines.end()
}
