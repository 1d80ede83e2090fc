//! The footprint of an adjusted advance and of an adjusted bearing: the delta's own, and behind it the two
//! bytes that are read. From the text of the rules alone, as `rules.rs`.

use super::rules::Table;
use crate::store::footprint::{self as delta, font, is, Footprint, Part, S1};
use crate::store::rules::Map;

/// Where the two bytes lie, counted from the table's start.
fn two_bytes(map: Map, count: usize, glyph: usize) -> usize {
    let (last, past) = (count - 1, glyph.saturating_sub(count));
    match map {
        Map::Advance => 4 * glyph.min(last),
        Map::Bearing if glyph > last => 4 * count + 2 * past,
        Map::Bearing => 4 * glyph + 2,
    }
}

/// The two bytes are a part if they are whole, and not refused by 5 or 1. The delta's parts stay in any case.
pub fn adjusted(font: &[u8], table: Table, map: Map, glyph: u16) -> Footprint {
    let (count, glyph) = (table.count as usize, glyph as usize);
    let mut footprint = delta::metric(font, table.xvar as usize, map, glyph);
    if count != 0 && table.at != 0 {
        let at = table.at as usize + two_bytes(map, count, glyph);
        if at + 2 <= font.len() {
            footprint.parts.push(Part {
                at,
                size: 2,
                axis: None,
            });
        }
    }
    footprint
}

/// Asserts what was found by hand.
pub fn by_hand() {
    behind();
    not_there();
    overlapping();
}

/// S1 with an hmtx behind it at 51, of two long records and two bearings alone.
fn s1_with_hmtx() -> Vec<u8> {
    [font(S1), font("01f4 0032 0258 ffce 0007 fff9")].concat()
}

const fn hmtx(at: u32, count: u16) -> Table {
    let xvar = 4;
    Table { at, count, xvar }
}

/// Glyphs before, at and past the last long record. S1 has one row, so that glyph 1 is past its count.
fn behind() {
    use Map::{Advance, Bearing};
    let s1 = s1_with_hmtx();
    let advance_0 = [(8, 15), (22, 52)];
    is(
        adjusted(&s1, hmtx(51, 2), Advance, 0),
        &s1,
        &advance_0,
        &[0],
    );
    is(
        adjusted(&s1, hmtx(51, 1), Advance, 0),
        &s1,
        &advance_0,
        &[0],
    );
    let advances = [
        (2, 1, 55),
        (2, 2, 55),
        (2, 65535, 55),
        (1, 1, 51),
        (3, 2, 59),
    ];
    for (count, glyph, at) in advances {
        let bytes = [(8, 15), (22, 35), (42, 47), (at, at + 1)];
        is(
            adjusted(&s1, hmtx(51, count), Advance, glyph),
            &s1,
            &bytes,
            &[],
        );
    }
    let bearings = [
        (2, 0, 53),
        (2, 1, 57),
        (2, 2, 59),
        (2, 3, 61),
        (1, 1, 55),
        (1, 2, 57),
        (1, 4, 61),
    ];
    for (count, glyph, at) in bearings {
        let bytes = [(8, 11), (16, 19), (at, at + 1)];
        is(
            adjusted(&s1, hmtx(51, count), Bearing, glyph),
            &s1,
            &bytes,
            &[],
        );
    }
    // the delta's parts come first, and the two bytes are one part
    let parts = adjusted(&s1, hmtx(51, 2), Bearing, 2).parts;
    let places = [(8, 4), (16, 4), (59, 2)];
    assert!(parts.iter().map(|part| (part.at, part.size)).eq(places));
}

/// Where the advance is refused, by each number, the delta's parts alone; without an HVAR the two bytes alone.
fn not_there() {
    use Map::{Advance, Bearing};
    let s1 = s1_with_hmtx();
    let (delta, far) = ([(8, 15), (22, 50)], u32::MAX);
    let no_records = hmtx(51, 0);
    for refused in [
        no_records,
        hmtx(0, 0),
        hmtx(0, 1),
        hmtx(62, 1),
        hmtx(63, 1),
        hmtx(far, 1),
    ] {
        is(adjusted(&s1, refused, Advance, 0), &s1, &delta, &[0]);
    }
    is(
        adjusted(&s1, hmtx(61, 1), Advance, 0),
        &s1,
        &[(8, 15), (22, 50), (61, 62)],
        &[0],
    );
    // the bearing's bytes, 2 behind the advance's; past the font a bearing alone, and one byte of it
    is(
        adjusted(&s1, hmtx(61, 1), Bearing, 0),
        &s1,
        &[(8, 11), (16, 19)],
        &[],
    );
    is(
        adjusted(&s1, hmtx(51, 2), Bearing, 4),
        &s1,
        &[(8, 11), (16, 19)],
        &[],
    );
    is(
        adjusted(&s1[..62], hmtx(51, 2), Bearing, 3),
        &s1[..62],
        &[(8, 11), (16, 19)],
        &[],
    );
    let no_hvar = Table {
        xvar: 0,
        ..hmtx(51, 2)
    };
    is(adjusted(&s1, no_hvar, Advance, 1), &s1, &[(55, 56)], &[]);
    is(adjusted(&s1, no_hvar, Bearing, 3), &s1, &[(61, 62)], &[]);
    is(adjusted(&s1, Table::default(), Advance, 0), &s1, &[], &[]);
}

/// An hmtx in the midst of HVAR: its two bytes are a part of their own, also where the delta has them.
fn overlapping() {
    let s1 = font(S1);
    let inside = adjusted(&s1, hmtx(10, 1), Map::Advance, 0);
    assert_eq!(
        inside.parts.last().map(|part| (part.at, part.size)),
        Some((10, 2))
    );
    is(inside, &s1, &[(8, 15), (22, 50)], &[0]);
    let across = adjusted(&s1, hmtx(15, 1), Map::Advance, 0);
    is(across, &s1, &[(8, 16), (22, 50)], &[0]);
}
