//! Damaged maps: the avar goes, changed, behind the font's end, so that it can be cut, and grow.

use crate::axes;
use crate::face::{record, Face};
use crate::lines::Lines;
use crate::random::Random;
use crate::text::bytes_text;
use swash::Variation;

/// A pair's from and to.
pub type Pair = [i16; 2];

/// An avar: what its header says of the axes, and the maps that are there.
#[derive(Clone)]
pub struct Avar {
    pub header: [u8; 6],
    pub count: u16,
    pub maps: Vec<Vec<Pair>>,
}

impl Avar {
    /// The maps of a whole table.
    fn read(table: &[u8]) -> Option<Avar> {
        let number = |k: usize| {
            Some(u16::from_be_bytes(
                table.get(2 * k..2 * k + 2)?.try_into().ok()?,
            ))
        };
        let count = number(3)?;
        let mut maps = vec![];
        let mut k = 4;
        for _ in 0..count {
            let pairs = number(k)? as usize;
            let pair =
                |i: usize| Some([number(k + 1 + 2 * i)? as i16, number(k + 2 + 2 * i)? as i16]);
            maps.push((0..pairs).map(pair).collect::<Option<_>>()?);
            k += 1 + 2 * pairs;
        }
        let header = table[..6].try_into().ok()?;
        Some(Avar {
            header,
            count,
            maps,
        })
    }

    pub fn bytes(&self) -> Vec<u8> {
        let mut numbers = vec![self.count];
        for map in &self.maps {
            numbers.push(map.len() as u16);
            numbers.extend(map.iter().flatten().map(|n| *n as u16));
        }
        let numbers = numbers.into_iter().flat_map(u16::to_be_bytes);
        self.header.into_iter().chain(numbers).collect()
    }
}

/// What a pair's numbers are damaged to, raw.
const NUMBERS: [i16; 15] = [
    -32768, -16385, -16384, -16383, -8192, -1, 0, 1, 4096, 8192, 8193, 16383, 16384, 16385, 32767,
];

fn number(random: &mut Random, old: i16) -> i16 {
    match random.below(4) {
        0 | 1 => random.pick(&NUMBERS),
        2 => old.wrapping_add(random.below(9) as i16 - 4),
        _ => random.bits() as i16,
    }
}

fn inside(random: &mut Random) -> i16 {
    (random.below(32769) as i32 - 16384) as i16
}

/// Changes one map: some numbers; a pair dropped, the first, the last or any; two swapped; one that stands
/// there up to four times; a map made anew, its from values in order or not.
fn change(map: &mut Vec<Pair>, random: &mut Random) {
    let kind = if map.len() < 2 { 4 } else { random.below(6) };
    let any = random.below(map.len().max(1) as u64) as usize;
    match kind {
        0 => {
            for _ in 0..=random.below(3) {
                let (k, side) = (
                    random.below(map.len() as u64) as usize,
                    random.below(2) as usize,
                );
                map[k][side] = number(random, map[k][side]);
            }
        }
        1 => {
            map.remove([0, map.len() - 1, any][random.below(3) as usize]);
        }
        2 => {
            let other = random.below(map.len() as u64) as usize;
            map.swap(any, other);
        }
        3 => {
            for _ in 0..=random.below(3) {
                let again = [map[any][0], number(random, map[any][1])];
                map.insert(any + random.below(2) as usize, again);
            }
        }
        _ => {
            let count = random.below(6) as usize;
            *map = (0..count)
                .map(|_| [inside(random), inside(random)])
                .collect();
            for pair in map.iter_mut() {
                if random.below(3) == 0 {
                    pair[0] = random.pick(&NUMBERS);
                }
            }
            if random.below(3) > 0 {
                map.sort();
            }
        }
    }
}

/// A table with a few things changed: maps, how many there are, single numbers, what stands before the axis
/// count; it may be cut, and some bytes may stand behind it.
fn damaged(avar: &Avar, random: &mut Random) -> Vec<u8> {
    let mut avar = avar.clone();
    let kind = random.below(10);
    for _ in 0..=random.below(2) {
        let k = random.below(avar.maps.len().max(1) as u64) as usize;
        if let Some(map) = avar.maps.get_mut(k) {
            change(map, random);
        }
    }
    if kind == 4 {
        // neither side looks at version and reserved field
        avar.header = avar.header.map(|_| random.bits() as u8);
    }
    if kind == 0 {
        avar.count = [
            0,
            1,
            avar.count.wrapping_sub(1),
            avar.count.wrapping_add(1),
            65535,
        ][random.below(5) as usize];
    }
    if kind == 1 {
        avar.maps.pop();
    }
    let mut bytes = avar.bytes();
    if kind == 2 {
        // a count or a number, wherever it stands
        let p = 6 + 2 * random.below((bytes.len() as u64 - 6) / 2) as usize;
        let new = number(random, 0);
        bytes[p..p + 2].copy_from_slice(&new.to_be_bytes());
    }
    if kind == 3 {
        bytes.truncate(random.below(bytes.len() as u64 + 1) as usize);
    }
    if random.below(4) == 0 {
        bytes.extend((0..random.below(24)).map(|_| random.bits() as u8));
    }
    bytes
}

/// Values of an axis that are at, next to and between the from values of its map, and its ends.
fn values(axis: &Variation, map: Option<&Vec<Pair>>, random: &mut Random) -> Vec<f32> {
    let [min, default, max] = [axis.min_value(), axis.default_value(), axis.max_value()];
    let value = |coord: f32| {
        default
            + coord
                * if coord < 0. {
                    default - min
                } else {
                    max - default
                }
    };
    let mut values = vec![min, default, max];
    let mut last = -1.;
    for pair in map.into_iter().flatten().take(8) {
        let from = (pair[0] as f32 / 16384.).clamp(-1., 1.);
        values.extend([value(from), value((from + last) / 2.), value(from + 3e-5)]);
        last = from;
    }
    values.extend((0..6).map(|_| axes::within(axis, random)));
    values
}

/// The coordinates at those values, of all axes together at random, and of some instances.
fn ask(
    lines: &mut Lines,
    face: &Face,
    map: impl Fn(usize) -> Option<Vec<Pair>>,
    random: &mut Random,
) {
    let all: Vec<Variation> = face.font.variations().take(8).collect();
    for axis in &all {
        for value in values(axis, map(axis.index()).as_ref(), random) {
            axes::normalize(lines, axis, value);
        }
    }
    for _ in 0..2 {
        let settings: Vec<_> = all
            .iter()
            .map(|axis| (axis.tag(), axes::within(axis, random)))
            .collect();
        axes::coords(lines, face.font, &settings);
    }
    axes::instances(lines, face.font, 2);
}

/// Whether a face has an avar that is not whole: such a one is not damaged.
pub fn is_cut(face: &Face) -> bool {
    record(&face.font, b"avar").is_some() && Avar::read(face.table(b"avar")).is_none()
}

/// Damages the avar of a face, which then stands behind the font's bytes, and asks; not where there is none, or no
/// whole one.
pub fn damage(lines: &mut Lines, data: &mut Vec<u8>, index: usize, random: &mut Random) {
    let found = Face::at(data, index).and_then(|face| Some((face, record(&face.font, b"avar")?)));
    let Some((face, p)) = found else { return };
    let Some(avar) = Avar::read(face.table(b"avar")) else {
        return;
    };
    let bytes = damaged(&avar, random);
    let before: [u8; 8] = data[p + 8..p + 16].try_into().unwrap();
    let whole = data.len();
    data[p + 8..p + 12].copy_from_slice(&(whole as u32).to_be_bytes());
    data[p + 12..p + 16].copy_from_slice(&(bytes.len() as u32).to_be_bytes());
    data.extend(&bytes);
    lines.put("avar", &[bytes_text(bytes.iter().copied())]);
    if let Some(face) = Face::at(data, index) {
        let now = Avar::read(&bytes);
        let map = |k| now.as_ref().unwrap_or(&avar).maps.get(k).cloned();
        ask(lines, &face, map, random);
    }
    data.truncate(whole);
    data[p + 8..p + 16].copy_from_slice(&before);
}
