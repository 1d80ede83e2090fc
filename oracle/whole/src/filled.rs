//! What no font of a shelf has, so that it is asked for too: a map of bearings, an MVAR with every tag by which a
//! measure varies, with glyf vertical metrics that vary, and rows outside their subtables' item counts.

use crate::face::{offset, place, record, Face};
use crate::lines::Lines;
use crate::metrics;
use crate::random::Random;
use crate::text::bytes_text;
use swash::FontRef;

/// Fewer than of a font as it is: a face is filled up to three times.
const PAIRS: usize = metrics::PAIRS / 3;

/// Those by which swash varies a measure, in order.
const TAGS: [&[u8; 4]; 11] = [
    b"cpht", b"hasc", b"hdsc", b"hlgp", b"stro", b"undo", b"unds", b"vasc", b"vdsc", b"vlgp",
    b"xhgt",
];

/// Bytes that become other ones.
type Change = (usize, Vec<u8>);

/// What the directory has of a table behind its tag.
pub type Place = [u8; 12];

pub fn u16_at(data: &[u8], p: usize) -> Option<usize> {
    let bytes = data.get(p..p + 2)?;
    Some(u16::from_be_bytes([bytes[0], bytes[1]]) as usize)
}

fn u32_at(data: &[u8], p: usize) -> Option<usize> {
    Some(u16_at(data, p)? << 16 | u16_at(data, p + 2)?)
}

/// The map of advances for the bearings too.
fn maps(font: &FontRef) -> Vec<Change> {
    let mut changes = vec![];
    for tag in [b"HVAR", b"VVAR"] {
        let (start, length) = place(font, tag);
        if length >= 16 && font.data[start + 8..start + 12] != [0; 4] {
            changes.push((start + 12, font.data[start + 8..start + 12].to_vec()));
        }
    }
    changes
}

/// Half of each item count of the store at a place: from there on its rows are outside.
fn halves(data: &[u8], store: usize) -> Vec<Change> {
    let count = u16_at(data, store + 6).unwrap_or(0);
    let half = |k: usize| {
        let p = store + u32_at(data, store + 8 + 4 * k)?;
        // of one row it is one
        let half = (u16_at(data, p)? + 1) / 2;
        Some((p, (half as u16).to_be_bytes().to_vec()))
    };
    (0..count).filter_map(half).collect()
}

/// The same of HVAR's and VVAR's stores.
fn counts(font: &FontRef) -> Vec<Change> {
    let tables = [b"HVAR", b"VVAR"].map(|tag| place(font, tag).0);
    let there = tables.into_iter().filter(|start| *start > 0);
    there
        .filter_map(|start| Some(start + u32_at(font.data, start + 4)?))
        .flat_map(|store| halves(font.data, store))
        .collect()
}

fn change(data: &mut [u8], changes: &[Change]) {
    for (p, new) in changes {
        data[*p..*p + new.len()].copy_from_slice(new);
    }
}

/// Where the store is in an MVAR with all tags.
const STORE: usize = 12 + 8 * TAGS.len();

/// An MVAR over HVAR's store, or none where that has no row: each tag has a row of the first subtable, another one as
/// long as there are. The inner index stands first, as swash takes it.
fn mvar(font: &FontRef) -> Option<Vec<u8>> {
    let (start, length) = place(font, b"HVAR");
    let table = &font.data[start..start + length];
    let store = table.get(u32_at(table, 4)?..)?;
    let rows = u16_at(store, u32_at(store, 8)?).filter(|rows| *rows > 0)?;
    let numbers = [1, 0, 0, 8, TAGS.len(), STORE];
    let mut mvar: Vec<u8> = numbers.map(|n| (n as u16).to_be_bytes()).concat();
    for (k, tag) in TAGS.iter().enumerate() {
        let inner = (k * rows / TAGS.len()) as u16;
        mvar.extend([&tag[..], &inner.to_be_bytes(), &[0, 0]].concat());
    }
    mvar.extend(store);
    Some(mvar)
}

/// The horizontal tables once more, for vertical type.
pub fn upright(font: &FontRef) -> Option<Vec<(&'static [u8; 4], Place)>> {
    let of = |(tag, like)| {
        let p = record(font, like)?;
        Some((tag, font.data[p + 4..p + 16].try_into().ok()?))
    };
    [(b"VVAR", b"HVAR"), (b"vhea", b"hhea"), (b"vmtx", b"hmtx")]
        .map(of)
        .into_iter()
        .collect()
}

/// What it has of a table with this start and length.
pub fn at(start: usize, length: usize) -> Place {
    let mut place = [0; 12];
    place[4..8].copy_from_slice(&(start as u32).to_be_bytes());
    place[8..].copy_from_slice(&(length as u32).to_be_bytes());
    place
}

/// The directory with some tables more, or with others in the place of those that it has.
pub fn directory(font: &FontRef, tables: &[(&[u8; 4], Place)]) -> Option<Vec<u8>> {
    let start = font.offset as usize;
    let count = u16_at(font.data, start + 4)?;
    let mut records: Vec<Vec<u8>> = font
        .data
        .get(start + 12..start + 12 + 16 * count)?
        .chunks(16)
        .filter(|record| tables.iter().all(|(tag, _)| record[..4] != tag[..]))
        .map(<[u8]>::to_vec)
        .collect();
    records.extend(tables.iter().map(|(tag, place)| [&tag[..], place].concat()));
    records.sort();
    let mut directory = font.data[start..start + 4].to_vec();
    directory.extend((records.len() as u16).to_be_bytes());
    directory.extend([0; 6]);
    directory.extend(records.concat());
    Some(directory)
}

/// What a copy of a font gets.
struct Filling {
    /// the name of its line
    kind: &'static str,
    changes: Vec<Change>,
    mvar: Vec<u8>,
    /// whether it has the tables for vertical type too
    vertical: bool,
}

/// A copy with these changes, and with its MVAR and another directory behind it.
fn one(lines: &mut Lines, face: &Face, filling: Filling, random: &mut Random) -> Option<()> {
    let Filling { mvar, changes, .. } = filling;
    let mut copy = face.font.data.to_vec();
    change(&mut copy, &changes);
    let mut tables = vec![(b"MVAR", at(copy.len(), mvar.len()))];
    if filling.vertical {
        tables.extend(upright(&face.font)?);
    }
    let directory = directory(&face.font, &tables)?;
    let whole = copy.len();
    copy.extend(mvar);
    let start = copy.len() as u32;
    copy.extend(directory);
    let font = FontRef::from_offset(&copy, start)?;
    let places = [b"VVAR", b"MVAR"].map(|tag| offset(&font, tag).to_string());
    let mut words = places.to_vec();
    words.push(bytes_text(copy[whole..].iter().copied()));
    for (p, new) in changes {
        words.extend([p.to_string(), bytes_text(new.into_iter())]);
    }
    lines.put(filling.kind, &words);
    metrics::ask(lines, &Face { font, ..*face }, PAIRS, random);
    Some(())
}

pub fn ask(lines: &mut Lines, face: &Face, random: &mut Random) {
    let Some(mut mvar) = mvar(&face.font) else {
        return;
    };
    let suits = face.has(b"glyf") && !face.has(b"vhea");
    let filled = |vertical| Filling {
        kind: "filled",
        changes: maps(&face.font),
        mvar: mvar.clone(),
        vertical,
    };
    let mut fillings = vec![filled(false)];
    if suits {
        fillings.push(filled(true));
    }
    let of_mvar = halves(&mvar, STORE);
    change(&mut mvar, &of_mvar);
    fillings.push(Filling {
        kind: "halved",
        changes: [maps(&face.font), counts(&face.font)].concat(),
        mvar,
        vertical: suits,
    });
    for filling in fillings {
        if one(lines, face, filling, random).is_none() {
            lines.leave("it is not filled: swash can't open what it becomes");
        }
    }
}
