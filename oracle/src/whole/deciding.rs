//! Where document 01's avar rule decides: swash hands avar to the crate skrifa, whose rule (`SegmentMaps::apply` of
//! read-fonts) is another one in three places. It is a model here, so that swash is held to it, and ours to
//! document 01's: nothing is let through because two rules may differ. Anywhere else both are to be one.

use crate::axes::rules::{adjust, pairs, pairs_at, Avar, Pair};
use crate::numbers::rules::{muldiv, to_f2dot14};

/// Why skrifa's coordinate is another one:
///
/// - it does not look at avar's axis count: an axis at or past it has the map that the bytes there make, where
///   document 01 leaves its value;
/// - a value before the first pair, or behind all, is moved as the nearest pair is, where document 01 leaves it.
///   So is every value but the one from, where there is one pair;
/// - it looks for a from that is the value in the whole map, and has its own choice of several in a row; document
///   01 takes the first pair whose from is not below the value.
#[derive(Clone, Copy)]
pub enum Why {
    Past,
    Outside,
    Equal,
}

pub const WHYS: [&str; 3] = [
    "axis at or past avar's count",
    "value before the first pair, or behind all",
    "value a from twice, or behind a larger one",
];

/// A coordinate of swash's that is not document 01's, in 2.14.
#[derive(Clone, Copy)]
pub struct Decided {
    pub theirs: i16,
    pub why: Why,
}

/// Of a value of an axis, in 16.16, as avar is handed it.
pub fn decided(avar: Avar, axis: usize, value: i128) -> Option<Decided> {
    let theirs = to_f2dot14(skrifa(avar, axis, value));
    if theirs == to_f2dot14(adjust(avar, axis, value)) {
        return None;
    }
    let theirs = theirs as i16;
    let why = why(avar, axis, value)?;
    Some(Decided { theirs, why })
}

fn why(avar: Avar, axis: usize, value: i128) -> Option<Why> {
    let pairs = match pairs(avar, axis) {
        Some(pairs) => pairs,
        None => return Some(Why::Past),
    };
    let below = |pair: &Pair| pair.0 < value;
    if pairs.iter().any(|(from, _)| *from == value) {
        Some(Why::Equal)
    } else if pairs.iter().all(below) || !pairs.first().map_or(false, below) {
        Some(Why::Outside)
    } else {
        None
    }
}

fn skrifa(avar: Avar, axis: usize, value: i128) -> i128 {
    match avar.offset {
        0 => value,
        _ => pairs_at(avar, axis).map_or(value, |pairs| mapped(&pairs, value)),
    }
}

const ONE: i128 = 65536;

/// A first pair -1:-1 before another from -1, and a last 1:1 behind another from 1, are left out. Then a from that is
/// the value gives its to: of several in a row the middle one of three; else the last below 0, the first above 0, and
/// at 0 the one of these two whose to is nearer to 0, the last if both are. Between two pairs it is document 01's rule,
/// before the first and behind all the value is moved as the nearest pair is.
fn mapped(pairs: &[Pair], value: i128) -> i128 {
    let kept = match pairs {
        [(from, to), rest @ ..] if (*from, *to) == (-ONE, -ONE) && starts(rest, -ONE) => rest,
        all => all,
    };
    let kept = match kept {
        [rest @ .., (from, to)] if (*from, *to) == (ONE, ONE) && ends(rest, ONE) => rest,
        all => all,
    };
    let moved = |(from, to): Pair| value - from + to;
    if let Some(k) = kept.iter().position(|(from, _)| *from == value) {
        let row: Vec<i128> = kept[k..]
            .iter()
            .take_while(|(from, _)| *from == value)
            .map(|(_, to)| *to)
            .collect();
        return chosen(&row, value);
    }
    match (kept.iter().position(|(from, _)| *from > value), kept) {
        (_, []) => value,
        (Some(0), [first, ..]) => moved(*first),
        (None, [.., last]) => moved(*last),
        (Some(k), _) => {
            let ((from0, to0), (from1, to1)) = (kept[k - 1], kept[k]);
            to0 + muldiv(to1 - to0, value - from0, from1 - from0) as i128
        }
    }
}

fn starts(pairs: &[Pair], from: i128) -> bool {
    pairs.first().map_or(false, |pair| pair.0 == from)
}

fn ends(pairs: &[Pair], from: i128) -> bool {
    pairs.last().map_or(false, |pair| pair.0 == from)
}

/// Of the to values of a from that stands several times in a row.
fn chosen(row: &[i128], value: i128) -> i128 {
    let (first, last) = (row[0], row[row.len() - 1]);
    match row {
        [_, middle, _] => *middle,
        _ if value < 0 => last,
        _ if value > 0 => first,
        _ if first.abs() < last.abs() => first,
        _ => last,
    }
}
