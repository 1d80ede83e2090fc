//! Calls every function of `suolluvik.rs`, with an answer that document 01 gives or that follows from its rules, and with
//! each refusal that the function can give. Lists hold something else before each call. A failed check is a line; the last
//! line is 'N passed, M failed', and the status 1 where one failed. `tests/link` builds and runs this; what the library
//! writes on a refusal behind the wrapper, `test.c` looks at.

mod suolluvik;

use std::fmt::Debug;
use std::process::ExitCode;
use suolluvik::{
    Axis, GlyphMetrics, Instance, Metrics, MvarScalars, Refusal, Refusal::*, Scalars, Vertical,
};

#[derive(Default)]
struct Test {
    passed: u32,
    failed: u32,
}

impl Test {
    fn same<T: PartialEq + Debug>(&mut self, name: &str, found: T, expected: T) {
        if found == expected {
            self.passed += 1;
        } else {
            self.failed += 1;
            println!("failed, in Rust: {name}: {found:?} and not {expected:?}");
        }
    }
}

/// The bytes of hexadecimal digits.
fn bytes(hex: &str) -> Vec<u8> {
    let digits: Vec<u8> = hex.bytes().filter(|digit| *digit != b' ').collect();
    let pair = |pair: &[u8]| u8::from_str_radix(std::str::from_utf8(pair).unwrap(), 16).unwrap();
    digits.chunks(2).map(pair).collect()
}

/// The bytes of the first with those from `at` on replaced by the second.
fn changed(hex: &str, at: usize, by: &str) -> Vec<u8> {
    let (mut found, by) = (bytes(hex), bytes(by));
    found[at..at + by.len()].copy_from_slice(&by);
    found
}

const fn tag(letters: &[u8; 4]) -> u32 {
    u32::from_be_bytes(*letters)
}

// Document 01's stores behind an HVAR at 4, H1 with one map for advances and bearings.
const S1: &str = "00000000 00010000 00000010 00000000 00000000 0001 0000000c 0001 00000016 \
    0001 0001 0000 4000 4000 0001 0000 0001 0000 64";
const S2: &str = "00000000 00010000 00000010 00000000 00000000 0001 0000000c 0001 00000016 \
    0001 0001 0000 3000 4000 0001 0000 0001 0000 03";
const S3: &str = "00000000 00010000 00000010 00000000 00000000 0001 0000000c 0001 00000016 \
    0001 0001 c000 2000 4000 0001 0000 0001 0000 03";
const S4: &str = "00000000 00010000 00000010 00000000 00000000 0001 0000000c 0001 0000001c \
    0001 0002 c00020004000 c00020004000 0001 0002 0002 0000 0001 7fff 7fff";
const S5: &str = "00000000 00010000 00000010 00000000 00000000 0001 0000000c 0001 00000010 \
    0001 0000 0001 0000 0000";
// One row, and a byte behind it; the triple is skipped.
const ONE_ROW: &str = "00000000 00010000 00000010 00000000 00000000 0001 0000000c 0001 00000016 \
    0001 0001 0000 0000 0000 0001 0000 0001 0000 64 05";
const H1: &str = "00000000 00010000 00000018 00000010 00000010 0007 0003 000102 00 \
    0001 0000000c 0001 00000010 0000 0001 0003 0000 0001 0000 0a0b0c";
// An HVAR at 4 and a VVAR at 90, each with two advances and two bearings. A row has a byte for the first axis, up to 1, and one for
// the second, down to -1. At PLACE, in this order, HVAR's rows are 55, 23, 3 and -2.5, VVAR's 32, 16, 11 and 3.5. A glyph past
// the first has the second entry of a map: 256, which is 0 in eight bits, has it too.
const BOTH: &str = "00000000 00010000 00000010 0000004a 00000050 0001 0000000c 0001 00000028 \
    0002 0002 000040004000 000000000000 000000000000 c000c0000000 0004 0000 0002 0000 0001 \
    6414 280c 0af8 e232 0007 0002 0001 0007 0002 0203 \
    00010000 00000010 0000004a 00000050 0001 0000000c 0001 00000028 \
    0002 0002 000040004000 000000000000 000000000000 c000c0000000 0004 0000 0002 0000 0001 \
    3c08 1810 1404 0602 0007 0002 0001 0007 0002 0203";
const PLACE: &[i16] = &[8192, -4096];
// Two regions behind two subtables and a map: glyph 0 has the first one, the others have the second, which goes down to -1 on the
// first axis; of its second axis the triple is cut.
const CUT: &str =
    "00000000 00010000 00000010 00000032 00000032 0001 00000028 0002 00000010 00000019 \
    0001 0000 0001 0000 64 0001 0000 0001 0001 0a 0000 0002 0002 \
    0002 0002 000040004000 000000000000 c000c0000000 0000";
// An MVAR at 4 with the eleven measures, sorted; inner comes before outer. Its rows have a word for the first axis, and a byte
// for the second, where a missing coordinate is 0.
const MVAR: &str = "00000000 0001 0000 0000 0008 000b 0064 \
    63706874 0000 0000 68617363 0001 0000 68647363 0002 0000 686c6770 0003 0000 7374726f 0004 0000 756e646f 0005 0000 \
    756e6473 0006 0000 76617363 0007 0000 76647363 0008 0000 766c6770 0009 0000 78686774 000a 0000 \
    0001 0000000c 0001 00000028 0002 0002 000040004000 000000000000 000000000000 c000c0000000 \
    000b 0001 0002 0000 0001 002801 006402 ffc403 000a05 000c06 fff807 000609 00c80a ff9c0b 000e0d 001e0e";

/// Both forms of a delta of a glyph's advance, and both once more with a filled list.
fn advance(
    t: &mut Test,
    name: &str,
    font: &[u8],
    xvar: u32,
    glyph: u16,
    coords: &[i16],
    expected: Result<i32, Refusal>,
) {
    let name = format!("advance_delta: {name}");
    t.same(
        &name,
        suolluvik::advance_delta_fixed(font, xvar, glyph, coords),
        expected,
    );
    t.same(
        &name,
        suolluvik::advance_delta(font, xvar, glyph, coords),
        expected.map(real),
    );
    let mut list = [-1; 8];
    let name = format!("{name}, with a list");
    match Scalars::fill(font, xvar, coords, &mut list) {
        Ok(scalars) => {
            t.same(&name, scalars.advance_delta_fixed(glyph), expected);
            t.same(&name, scalars.advance_delta(glyph), expected.map(real));
        }
        Err(refusal) => t.same(&name, Err(refusal), expected),
    }
}

fn bearing(
    t: &mut Test,
    name: &str,
    font: &[u8],
    xvar: u32,
    glyph: u16,
    coords: &[i16],
    expected: Result<i32, Refusal>,
) {
    let name = format!("sb_delta: {name}");
    t.same(
        &name,
        suolluvik::sb_delta_fixed(font, xvar, glyph, coords),
        expected,
    );
    t.same(
        &name,
        suolluvik::sb_delta(font, xvar, glyph, coords),
        expected.map(real),
    );
    let mut list = [-1; 8];
    let name = format!("{name}, with a list");
    match Scalars::fill(font, xvar, coords, &mut list) {
        Ok(scalars) => {
            t.same(&name, scalars.sb_delta_fixed(glyph), expected);
            t.same(&name, scalars.sb_delta(glyph), expected.map(real));
        }
        Err(refusal) => t.same(&name, Err(refusal), expected),
    }
}

fn of_measure(
    t: &mut Test,
    name: &str,
    font: &[u8],
    mvar: u32,
    tag: u32,
    coords: &[i16],
    expected: Result<i32, Refusal>,
) {
    let name = format!("mvar_delta: {name}");
    t.same(
        &name,
        suolluvik::mvar_delta_fixed(font, mvar, tag, coords),
        expected,
    );
    t.same(
        &name,
        suolluvik::mvar_delta(font, mvar, tag, coords),
        expected.map(real),
    );
    let mut list = [-1; 8];
    let name = format!("{name}, with a list");
    match MvarScalars::fill(font, mvar, coords, &mut list) {
        Ok(scalars) => {
            t.same(&name, scalars.delta_fixed(tag), expected);
            t.same(&name, scalars.delta(tag), expected.map(real));
        }
        Err(refusal) => t.same(&name, Err(refusal), expected),
    }
}

/// Each number that is asked for here is a float.
fn real(fixed: i32) -> f32 {
    fixed as f32 / 65536.
}

fn deltas(t: &mut Test) {
    let (s1, h1, mvar) = (&bytes(S1)[..], &bytes(H1)[..], &bytes(MVAR)[..]);
    advance(t, "S1 at 8192", s1, 4, 0, &[8192], Ok(3276800));
    advance(t, "S1 at 16384", s1, 4, 0, &[16384], Ok(6553600));
    advance(t, "S1 at 0", s1, 4, 0, &[0], Ok(0));
    advance(t, "S1 at -1", s1, 4, 0, &[-1], Ok(0));
    advance(t, "S2", &bytes(S2), 4, 0, &[4096], Ok(65535));
    advance(t, "S3, no coordinates", &bytes(S3), 4, 0, &[], Ok(196608));
    advance(t, "S4", &bytes(S4), 4, 0, &[], Ok(-131072));
    advance(t, "S5", &bytes(S5), 4, 0, &[], Ok(0));
    advance(t, "no HVAR", s1, 0, 0, &[8192], Err(Absent));
    advance(
        t,
        "no store",
        &changed(S1, 8, "00000000"),
        4,
        0,
        &[8192],
        Err(Absent),
    );
    advance(t, "an empty font", &[], 4, 0, &[8192], Err(Short));
    advance(
        t,
        "S1 without its entry",
        &s1[..50],
        4,
        0,
        &[8192],
        Err(Short),
    );
    advance(
        t,
        "a region past the count",
        &changed(S1, 48, "0001"),
        4,
        0,
        &[],
        Err(Index),
    );
    advance(
        t,
        "no subtable",
        &changed(S1, 26, "0000"),
        4,
        0,
        &[],
        Err(Index),
    );
    advance(
        t,
        "more words than regions",
        &changed(S1, 44, "0002"),
        4,
        0,
        &[],
        Err(Arithmetic),
    );
    advance(
        t,
        "a store at 2^32",
        &changed(S1, 8, "fffffffc"),
        4,
        0,
        &[],
        Err(Arithmetic),
    );
    advance(
        t,
        "a map without entries",
        &changed(H1, 22, "0000"),
        4,
        0,
        &[],
        Err(Arithmetic),
    );
    let row = &bytes(ONE_ROW)[..];
    advance(t, "one row, glyph 0", row, 4, 0, &[], Ok(6553600));
    advance(t, "a row at the count", row, 4, 1, &[], Err(Index));
    advance(t, "a row past the count", row, 4, 65535, &[], Err(Index));
    advance(
        t,
        "a row at the count, more words than regions",
        &changed(ONE_ROW, 44, "0002"),
        4,
        1,
        &[],
        Err(Arithmetic),
    );
    for (glyph, delta) in [
        (0, 655360),
        (1, 720896),
        (2, 786432),
        (3, 786432),
        (65535, 786432),
    ] {
        advance(t, "H1", h1, 4, glyph, &[], Ok(delta));
        bearing(t, "H1", h1, 4, glyph, &[], Ok(delta));
    }
    let both = &bytes(BOTH)[..];
    for (name, xvar, glyph, wide, side) in [
        ("HVAR, two axes", 4, 0, 3604480, 196608),
        ("HVAR, glyph 256", 4, 256, 1507328, -163840),
        ("VVAR, two axes", 90, 0, 2097152, 720896),
        ("VVAR, glyph 256", 90, 256, 1048576, 229376),
    ] {
        advance(t, name, both, xvar, glyph, PLACE, Ok(wide));
        bearing(t, name, both, xvar, glyph, PLACE, Ok(side));
    }
    let cut = &bytes(CUT)[..];
    for (name, glyph, coords, expected) in [
        (
            "a cut region that is not named",
            0,
            &[8192][..],
            Ok(3276800),
        ),
        ("a cut region", 1, &[-8192], Err(Short)),
        ("a cut region, a scalar of 0 before", 1, &[], Err(Short)),
        ("a cut region, left outside before", 256, &[1], Ok(0)),
    ] {
        advance(t, name, cut, 4, glyph, coords, expected);
        bearing(t, name, cut, 4, glyph, coords, expected);
    }
    bearing(t, "no HVAR", h1, 0, 0, &[], Err(Absent));
    bearing(t, "no map", s1, 4, 0, &[], Err(Absent));
    bearing(
        t,
        "a font that ends in the HVAR",
        &h1[..19],
        4,
        0,
        &[],
        Err(Short),
    );
    bearing(
        t,
        "no subtable",
        &changed(H1, 34, "0000"),
        4,
        0,
        &[],
        Err(Index),
    );
    let two_rows = &changed(H1, 44, "0002")[..];
    advance(t, "two rows, glyph 1", two_rows, 4, 1, &[], Ok(720896));
    advance(t, "a row at the count", two_rows, 4, 2, &[], Err(Index));
    bearing(t, "a row at the count", two_rows, 4, 2, &[], Err(Index));
    let three_rows = &changed(BOTH, 146, "0003")[..];
    bearing(t, "VVAR, three rows", three_rows, 90, 0, PLACE, Ok(720896));
    bearing(
        t,
        "VVAR, a row at the count",
        three_rows,
        90,
        1,
        PLACE,
        Err(Index),
    );
    bearing(
        t,
        "a map without entries",
        &changed(H1, 22, "0000"),
        4,
        0,
        &[],
        Err(Arithmetic),
    );
    let hasc = tag(b"hasc");
    of_measure(t, "hasc halfway", mvar, 4, hasc, &[8192], Ok(3276800));
    of_measure(t, "hasc, two axes", mvar, 4, hasc, PLACE, Ok(3309568));
    let hdsc = tag(b"hdsc");
    of_measure(t, "hdsc, two axes", mvar, 4, hdsc, PLACE, Ok(-1916928));
    of_measure(t, "xhgt", mvar, 4, tag(b"xhgt"), &[16384], Ok(1966080));
    of_measure(t, "an MVAR at 0", &mvar[4..], 0, hasc, &[8192], Ok(3276800));
    of_measure(
        t,
        "no records",
        &changed(MVAR, 12, "0000"),
        4,
        hasc,
        &[8192],
        Err(Absent),
    );
    of_measure(
        t,
        "no store",
        &changed(MVAR, 14, "0000"),
        4,
        hasc,
        &[8192],
        Err(Absent),
    );
    of_measure(
        t,
        "a font that ends in the header",
        &mvar[..15],
        4,
        hasc,
        &[8192],
        Err(Short),
    );
    of_measure(
        t,
        "a subtable past the count",
        &changed(MVAR, 30, "0001"),
        4,
        hasc,
        &[],
        Err(Index),
    );
    of_measure(
        t,
        "a row at the count",
        &changed(MVAR, 144, "0001"),
        4,
        hasc,
        &[],
        Err(Index),
    );
    of_measure(t, "another tag", mvar, 4, tag(b"strs"), &[8192], Err(Tag));
    of_measure(
        t,
        "more words than regions",
        &changed(MVAR, 146, "0003"),
        4,
        hasc,
        &[],
        Err(Arithmetic),
    );
}

fn stores(t: &mut Test) {
    let (s1, both, mvar) = (&bytes(S1)[..], &bytes(BOTH)[..], &bytes(MVAR)[..]);
    for (name, font, xvar, expected) in [
        ("S1", s1, 4, Ok(20)),
        ("HVAR", both, 4, Ok(20)),
        ("VVAR", both, 90, Ok(106)),
        ("the last one", &changed(S1, 8, "fffffffb"), 4, Ok(u32::MAX)),
        ("2^32", &changed(S1, 8, "fffffffc"), 4, Err(Arithmetic)),
        ("no HVAR", s1, 0, Err(Absent)),
        ("no HVAR, no font", &[], 0, Err(Absent)),
        ("no store", &changed(S1, 8, "00000000"), 4, Err(Absent)),
        ("at the font's end", &s1[..12], 4, Ok(20)),
        ("cut", &s1[..11], 4, Err(Short)),
        ("past 65536", s1, 65540, Err(Short)),
        ("far past the end", s1, u32::MAX, Err(Short)),
    ] {
        let found = suolluvik::store_offset(font, xvar);
        t.same(&format!("store_offset: {name}"), found, expected);
    }
    for (name, font, start, expected) in [
        ("the measures", mvar, 4, Ok(100)),
        ("an MVAR at 0", &mvar[4..], 0, Ok(100)),
        ("the last one", &changed(MVAR, 14, "ffff"), 4, Ok(65535)),
        ("no records", &changed(MVAR, 12, "0000"), 4, Err(Absent)),
        ("no store", &changed(MVAR, 14, "0000"), 4, Err(Absent)),
        ("at the font's end", &mvar[..16], 4, Ok(100)),
        ("cut", &mvar[..15], 4, Err(Short)),
        (
            "no records, cut",
            &changed(MVAR, 12, "0000")[..15],
            4,
            Err(Short),
        ),
        ("no font", &[], 0, Err(Short)),
        ("past 65536", mvar, 65540, Err(Short)),
        ("far past the end", mvar, u32::MAX, Err(Short)),
    ] {
        let found = suolluvik::mvar_store_offset(font, start);
        t.same(&format!("mvar_store_offset: {name}"), found, expected);
    }
}

fn lists(t: &mut Test) {
    let (s1, both, mvar) = (&bytes(S1)[..], &bytes(BOTH)[..], &bytes(MVAR)[..]);
    let cut = &bytes(CUT)[..];
    // the scalars, and the whole list: what is not filled stays
    type Case<'a> = (
        &'a str,
        &'a [u8],
        u32,
        &'a [i16],
        Result<&'a [i32], Refusal>,
    );
    let fill = |t: &mut Test, (name, font, xvar, coords, expected): Case, places: usize| {
        let mut list = vec![-77; places];
        let found = Scalars::fill(font, xvar, coords, &mut list).map(|s| s.as_slice().to_vec());
        let name = format!("Scalars, {places} places: {name}");
        t.same(&name, found, expected.map(<[i32]>::to_vec));
        let mut kept = vec![-77; places];
        if let Ok(scalars) = expected {
            kept[..scalars.len()].copy_from_slice(scalars);
        }
        t.same(&format!("{name}, the list"), list, kept);
    };
    for case in [
        ("S1", s1, 4, &[8192][..], Ok(&[32768][..])),
        ("S1, no coordinates", s1, 4, &[], Ok(&[0])),
        ("S5, no regions", &bytes(S5), 4, &[], Ok(&[])),
        ("HVAR", both, 4, PLACE, Ok(&[32768, 16384])),
        ("VVAR", both, 90, &[4096, -16384], Ok(&[16384, 65536])),
        ("one coordinate", both, 4, &[8192], Ok(&[32768, 0])),
        ("a cut region", cut, 4, &[-8192], Ok(&[0, -1])),
        ("left outside", cut, 4, &[8192], Ok(&[32768, 0])),
        ("no HVAR", s1, 0, &[8192], Err(Absent)),
        (
            "no store",
            &changed(S1, 8, "00000000"),
            4,
            &[8192],
            Err(Absent),
        ),
        (
            "a store at 2^32",
            &changed(S1, 8, "fffffffc"),
            4,
            &[8192],
            Err(Arithmetic),
        ),
        ("no font", &[], 4, &[8192], Err(Short)),
        ("at the font's end", &s1[..42], 4, &[8192], Ok(&[32768])),
        ("cut", &s1[..35], 4, &[8192], Err(Short)),
        (
            "no subtables",
            &changed(S1, 26, "0000"),
            4,
            &[8192],
            Ok(&[32768]),
        ),
    ] {
        fill(t, case, 5);
        // a list that has just room, and one that has not
        if let Ok(scalars) = case.4 {
            fill(t, case, scalars.len());
            if !scalars.is_empty() {
                let (name, font, xvar, coords, _) = case;
                let short = (name, font, xvar, coords, Err(Room));
                fill(t, short, scalars.len() - 1);
            }
        }
    }

    for (name, font, start, places, expected) in [
        ("at 4", mvar, 4, 3, Ok(&[32768, 16384][..])),
        ("at 0", &mvar[4..], 0, 2, Ok(&[32768, 16384])),
        ("too short", mvar, 4, 1, Err(Room)),
        ("no records", &changed(MVAR, 12, "0000"), 4, 3, Err(Absent)),
        ("cut in the header", &mvar[..15], 4, 3, Err(Short)),
        ("cut in the counts", &mvar[..119], 4, 3, Err(Short)),
        ("cut in a region", &mvar[..143], 4, 3, Ok(&[32768, -1])),
        ("far past the end", mvar, u32::MAX, 3, Err(Short)),
    ] {
        let mut list = vec![-77; places];
        let found = MvarScalars::fill(font, start, PLACE, &mut list);
        let found = found.map(|scalars| scalars.as_slice().to_vec());
        let name = format!("MvarScalars: {name}");
        t.same(&name, found, expected.map(<[i32]>::to_vec));
        let mut kept = vec![-77; places];
        if let Ok(scalars) = expected {
            kept[..scalars.len()].copy_from_slice(scalars);
        }
        t.same(&format!("{name}, the list"), list, kept);
    }

    // 65535 regions, and no axes
    let all = &changed(S1, 32, "0000 ffff")[..];
    let mut list = vec![-77; 65536];
    let found = Scalars::fill(all, 4, &[], &mut list[..65534]).map(|_| ());
    t.same("Scalars: 65534 places", found, Err(Room));
    let found = Scalars::fill(all, 4, &[], &mut list[..65535]);
    let found = found.map(|scalars| scalars.as_slice() == vec![65536; 65535]);
    t.same("Scalars: 65535 places", found, Ok(true));
    t.same("Scalars: the place behind", list[65535], -77);
}

/// Several filled lists at once, each with all glyphs, and with all tags.
fn lines(t: &mut Test) {
    let (both, cut, mvar) = (&bytes(BOTH)[..], &bytes(CUT)[..], &bytes(MVAR)[..]);
    for coords in [PLACE, &[16384], &[-1, -16384], &[], &[-8192, -1]] {
        let mut lists = [[-1; 4]; 4];
        let [one, two, three, four] = &mut lists;
        let of_mvar = MvarScalars::fill(mvar, 4, coords, four).unwrap();
        for (font, xvar, scalars) in [
            (both, 4, Scalars::fill(both, 4, coords, one).unwrap()),
            (both, 90, Scalars::fill(both, 90, coords, two).unwrap()),
            (cut, 4, Scalars::fill(cut, 4, coords, three).unwrap()),
        ] {
            let same = |glyph: &u16| {
                let glyph = *glyph;
                let fixed = suolluvik::advance_delta_fixed(font, xvar, glyph, coords);
                let bearing = suolluvik::sb_delta_fixed(font, xvar, glyph, coords);
                scalars.advance_delta_fixed(glyph) == fixed
                    && scalars.advance_delta(glyph) == fixed.map(real)
                    && scalars.sb_delta_fixed(glyph) == bearing
                    && scalars.sb_delta(glyph) == bearing.map(real)
            };
            let name = format!("Scalars at {xvar}, {coords:?}: the glyphs that are the same");
            t.same(&name, (0..=u16::MAX).filter(same).count(), 65536);
        }
        for letters in [b"cpht", b"hasc", b"hdsc", b"vlgp", b"xhgt", b"strs"] {
            let fixed = suolluvik::mvar_delta_fixed(mvar, 4, tag(letters), coords);
            let name = format!("MvarScalars, {coords:?}: {letters:?}");
            t.same(&name, of_mvar.delta_fixed(tag(letters)), fixed);
            t.same(&name, of_mvar.delta(tag(letters)), fixed.map(real));
        }
    }
    let mut lists = [[-77; 3]; 2];
    let [one, two] = &mut lists;
    let scalars = Scalars::fill(both, 4, PLACE, one).unwrap();
    let of_mvar = MvarScalars::fill(mvar, 4, PLACE, two).unwrap();
    let copies = (scalars, of_mvar);
    t.same(
        "Debug",
        format!("{:?}, {:?}", copies.0, copies.1),
        "[32768, 16384], [32768, 16384]".to_string(),
    );
    let found = (scalars.advance_delta(0), of_mvar.delta(tag(b"hasc")));
    t.same("both copied", found, (Ok(55.), Ok(50.5)));
}

// Document 01's listing; two axes and an instance; a third axis, all below 0; instances with a PostScript name id; the axes of N2 and N3; A1's map at 4.
const LISTED: &str =
    "00010000 0010 0002 0001 0014 0000 0008 77676874 00640000 01900000 03840000 0000 0100";
const TWO: &str =
    "00010000 0010 0002 0002 0014 0001 000c 77676874 00640000 01900000 03840000 0000 0100 \
    736c6e74 fff60000 00000000 00000000 0003 0101 0102 0000 028a0000 fffb0000";
const THREE: &str =
    "00010000 0010 0002 0003 0014 0000 0010 77676874 00640000 01900000 03840000 0000 0100 \
    736c6e74 fff60000 00000000 00000000 0003 0101 62656c6f fff68000 fffcc000 ffff4000 8003 8102";
const NAMED: &str =
    "00010000 0010 0002 0001 0014 0002 000a 77676874 00640000 01900000 03840000 0000 0100 \
    0101 0000 02bc0000 0111 0102 0000 028a0000 0112";
const N2: &str =
    "00010000 0010 0002 0001 0014 0001 0008 77676874 00000000 00000000 00000000 0000 0100 \
    0102 0000 00050000";
const N3: &str =
    "00010000 0010 0002 0001 0014 0001 0008 77676874 80000000 00000000 00000000 0000 0100 \
    0102 0000 80000000";
const AVAR: &str = "00000000 00010000 0000 0001 0004 c000c000 00000000 20001000 40004000";
const WGHT: u32 = tag(b"wght");
const SLNT: u32 = tag(b"slnt");

fn axes(t: &mut Test) {
    let (listed, two, named) = (&bytes(LISTED)[..], &bytes(TWO)[..], &bytes(NAMED)[..]);
    t.same("axis_count", suolluvik::axis_count(two), 2);
    t.same("axis_count: cut", suolluvik::axis_count(&two[..9]), 0);
    t.same("instance_count", suolluvik::instance_count(named), 2);
    t.same(
        "instance_count: cut",
        suolluvik::instance_count(&named[..13]),
        0,
    );
    let weight = Axis {
        index: 0,
        tag: WGHT,
        min: 6553600,
        default: 26214400,
        max: 58982400,
        flags: 0,
        name_id: 256,
    };
    let slant = Axis {
        index: 1,
        tag: SLNT,
        min: -655360,
        default: 0,
        max: 0,
        flags: 3,
        name_id: 257,
    };
    let below = Axis {
        index: 2,
        tag: tag(b"belo"),
        min: -622592,
        default: -212992,
        max: -49152,
        flags: 0x8003,
        name_id: 0x8102,
    };
    let three = &bytes(THREE)[..];
    t.same("axis: the third one", suolluvik::axis(three, 2), Ok(below));
    let found = suolluvik::axis_by_tag(three, below.tag);
    t.same("axis_by_tag: the third one", found, Ok(below));
    let many = &changed(LISTED, 8, "8000 0000")[..];
    let found = suolluvik::axis(many, 32768);
    t.same("axis: past a count of 32768", found, Err(Index));
    t.same(
        "axis: document 01's listing",
        suolluvik::axis(listed, 0),
        Ok(weight),
    );
    t.same("axis: the second one", suolluvik::axis(two, 1), Ok(slant));
    t.same("axis: cut", suolluvik::axis(&listed[..35], 0), Err(Short));
    t.same(
        "axis: past the count",
        suolluvik::axis(listed, 1),
        Err(Index),
    );
    t.same(
        "axis_by_tag: document 01's listing",
        suolluvik::axis_by_tag(listed, WGHT),
        Ok(weight),
    );
    t.same(
        "axis_by_tag: the second one",
        suolluvik::axis_by_tag(two, SLNT),
        Ok(slant),
    );
    t.same(
        "axis_by_tag: another tag",
        suolluvik::axis_by_tag(listed, SLNT),
        Err(Tag),
    );
    t.same(
        "axis_by_tag: cut",
        suolluvik::axis_by_tag(&listed[..35], WGHT),
        Err(Tag),
    );
    let hidden = [0, 1, 2, 3].map(|flags| Axis { flags, ..weight }.is_hidden());
    t.same("Axis: hidden", hidden, [false, true, false, true]);
    let values = [
        weight.min_value(),
        weight.default_value(),
        weight.max_value(),
    ];
    t.same("Axis: values", values, [100., 400., 900.]);
    let floats = [6553600, -1, i32::MAX].map(suolluvik::fixed_to_f32);
    t.same("fixed_to_f32", floats, [100., -1. / 65536., 32768.]);

    let no_axes = &bytes("00010000 0010 0002 0000 0014 0001 0006 0101 0000 0102")[..];
    // the last two bytes are the second one's id
    let ending = |id: &str| changed(NAMED, named.len() - 2, id);
    let (zero, last, none) = (
        &ending("0000")[..],
        &ending("fffe")[..],
        &ending("ffff")[..],
    );
    let larger = &changed(NAMED, 14, "000c")[..];
    let two_axes = [
        &changed(TWO, 12, "0002 000e")[..],
        &bytes("0201 0103 0000 02bc0000 fff60000 0202"),
    ]
    .concat();
    for (name, fvar, index, name_id, postscript_name_id) in [
        ("with a PostScript name", named, 0, 0x101, Some(0x111)),
        ("the second one", named, 1, 0x102, Some(0x112)),
        ("W-203's 22 bytes", no_axes, 0, 0x101, Some(0x102)),
        ("of two axes", &two_axes[..], 1, 0x103, Some(0x202)),
        ("with a PostScript name id of 0", zero, 1, 0x102, Some(0)),
        (
            "with a PostScript name id of 65534",
            last,
            1,
            0x102,
            Some(0xfffe),
        ),
        ("with 0xFFFF for none", none, 1, 0x102, None),
        (
            "cut behind its values",
            &named[..named.len() - 2],
            1,
            0x102,
            None,
        ),
        (
            "cut in its PostScript name id",
            &named[..named.len() - 1],
            1,
            0x102,
            None,
        ),
        ("of a size with room for more", larger, 0, 0x101, None),
        ("without a PostScript name", two, 0, 0x102, None),
    ] {
        let expected = Instance {
            index,
            name_id,
            postscript_name_id,
        };
        let found = suolluvik::instance(fvar, index);
        t.same(&format!("instance: {name}"), found, Ok(expected));
    }
    let cut = &named[..named.len() - 3];
    let unsized_one = &changed(NAMED, 14, "0001")[..];
    t.same("instance: cut", suolluvik::instance(cut, 1), Err(Short));
    t.same(
        "instance: past the count",
        suolluvik::instance(named, 2),
        Err(Index),
    );
    let many = &changed(NAMED, 12, "8000")[..];
    let found = suolluvik::instance(many, 32768);
    t.same("instance: past a count of 32768", found, Err(Index));
    t.same(
        "instance: of size 1",
        suolluvik::instance(unsized_one, 0),
        Err(Arithmetic),
    );

    let mut floats =
        |name: &str, fvar: &[u8], index, room, expected: Result<u16, Refusal>, list: [f32; 3]| {
            let mut out = [-77.; 3];
            let found = suolluvik::instance_floats(fvar, index, &mut out[..room]);
            t.same(
                &format!("instance_floats: {name}"),
                (found, out),
                (expected, list),
            );
        };
    floats("one axis", named, 0, 3, Ok(1), [700., -77., -77.]);
    floats("two axes", two, 0, 2, Ok(2), [650., -5., -77.]);
    floats("cut", cut, 1, 3, Err(Short), [-77.; 3]);
    floats("past the count", named, 2, 3, Err(Index), [-77.; 3]);
    floats("past 32768", many, 32768, 3, Err(Index), [-77.; 3]);
    floats("of size 1", unsized_one, 0, 3, Err(Arithmetic), [-77.; 3]);
    floats("a list that is too short", two, 0, 1, Err(Room), [-77.; 3]);
}

fn coords(t: &mut Test) {
    let (listed, two, named, avar) = (
        &bytes(LISTED)[..],
        &bytes(TWO)[..],
        &bytes(NAMED)[..],
        &bytes(AVAR)[..],
    );
    let (n2, n3) = (&bytes(N2)[..], &bytes(N3)[..]);
    let mut settings = |name: &str,
                        fvar: &[u8],
                        avar_offset,
                        tags: &[u32],
                        values: &[f32],
                        room,
                        expected,
                        list: [i16; 3]| {
        let mut out = [-77; 3];
        let found =
            suolluvik::normalized_coords(fvar, avar, avar_offset, tags, values, &mut out[..room]);
        t.same(
            &format!("normalized_coords: {name}"),
            (found, out),
            (expected, list),
        );
    };
    for (value, coord) in [(650., 8192), (300., -5461), (50., -16384), (400., 0)] {
        settings(
            "N1",
            listed,
            0,
            &[WGHT],
            &[value],
            3,
            Ok(1),
            [coord, -77, -77],
        );
    }
    settings("N2", n2, 0, &[WGHT], &[5.], 1, Ok(1), [0, -77, -77]);
    settings(
        "A1",
        listed,
        4,
        &[WGHT],
        &[525.],
        3,
        Ok(1),
        [2048, -77, -77],
    );
    settings(
        "the last one wins",
        listed,
        0,
        &[WGHT; 2],
        &[300., 650.],
        3,
        Ok(1),
        [8192, -77, -77],
    );
    settings(
        "two axes",
        two,
        0,
        &[SLNT, WGHT],
        &[-5., 650.],
        2,
        Ok(2),
        [8192, -8192, -77],
    );
    settings(
        "an axis without a setting",
        two,
        0,
        &[SLNT],
        &[-5.],
        3,
        Ok(2),
        [0, -8192, -77],
    );
    settings("no settings", two, 0, &[], &[], 3, Ok(2), [0, 0, -77]);
    settings(
        "N3",
        n3,
        0,
        &[WGHT],
        &[-32768.],
        3,
        Err(Arithmetic),
        [-77; 3],
    );
    settings(
        "more tags than values",
        listed,
        0,
        &[WGHT; 2],
        &[650.],
        3,
        Err(Lengths),
        [-77; 3],
    );
    settings(
        "more values than tags",
        listed,
        0,
        &[WGHT],
        &[650.; 2],
        0,
        Err(Lengths),
        [-77; 3],
    );
    settings(
        "a list that is too short",
        two,
        0,
        &[WGHT],
        &[650.],
        1,
        Err(Room),
        [-77; 3],
    );
    // of 33 axes, all at one place, 32 count
    let many = changed(LISTED, 8, "0021 0000");
    let mut out = [-77; 34];
    let found = suolluvik::normalized_coords(&many, &[], 0, &[WGHT], &[650.], &mut out);
    let mut expected = [8192; 34];
    expected[32..].fill(-77);
    t.same(
        "normalized_coords: 33 axes",
        (found, out),
        (Ok(32), expected),
    );

    let mut instance =
        |name: &str, fvar: &[u8], avar_offset, index, room, expected, list: [i16; 3]| {
            let mut out = [-77; 3];
            let found =
                suolluvik::instance_coords(fvar, avar, avar_offset, index, &mut out[..room]);
            t.same(
                &format!("instance_coords: {name}"),
                (found, out),
                (expected, list),
            );
        };
    instance("650", named, 0, 1, 3, Ok(1), [8192, -77, -77]);
    instance(
        "650, with A1's map",
        named,
        4,
        1,
        1,
        Ok(1),
        [4096, -77, -77],
    );
    instance("two axes", two, 0, 0, 3, Ok(2), [8192, -8192, -77]);
    instance("N2", n2, 0, 0, 3, Ok(1), [0, -77, -77]);
    instance(
        "cut",
        &named[..named.len() - 3],
        0,
        1,
        3,
        Err(Short),
        [-77; 3],
    );
    instance("past the count", named, 0, 2, 3, Err(Index), [-77; 3]);
    let many = &changed(NAMED, 12, "8000")[..];
    instance("past 32768", many, 0, 32768, 3, Err(Index), [-77; 3]);
    instance(
        "of size 1",
        &changed(NAMED, 14, "0001"),
        0,
        0,
        3,
        Err(Arithmetic),
        [-77; 3],
    );
    instance("N3", n3, 0, 0, 3, Err(Arithmetic), [-77; 3]);
    instance(
        "a list that is too short",
        two,
        0,
        0,
        1,
        Err(Room),
        [-77; 3],
    );
}

// No two are the same, and none is 0.
const UNVARIED: Metrics = Metrics {
    ascent: 800.,
    descent: 200.,
    leading: 90.,
    vertical_ascent: 520.,
    vertical_descent: 400.,
    vertical_leading: 60.,
    cap_height: 700.,
    x_height: 500.,
    average_width: 550.,
    max_width: 1200.,
    underline_offset: -100.,
    strikeout_offset: 300.,
    stroke_size: 50.,
};

/// UNVARIED, each times a factor.
fn scaled(factor: f32) -> Metrics {
    Metrics {
        ascent: 800. * factor,
        descent: 200. * factor,
        leading: 90. * factor,
        vertical_ascent: 520. * factor,
        vertical_descent: 400. * factor,
        vertical_leading: 60. * factor,
        cap_height: 700. * factor,
        x_height: 500. * factor,
        average_width: 550. * factor,
        max_width: 1200. * factor,
        underline_offset: -100. * factor,
        strikeout_offset: 300. * factor,
        stroke_size: 50. * factor,
    }
}

fn measures(t: &mut Test) {
    let font = &bytes(MVAR)[..];
    // the rows at 8192, each a half of its word
    let varied = Metrics {
        ascent: 800. + 50.,
        descent: 200. - 30.,
        leading: 90. + 5.,
        cap_height: 700. + 20.,
        x_height: 500. + 15.,
        underline_offset: -100. - 4.,
        strikeout_offset: 300. + 6.,
        stroke_size: 50. + 3.,
        ..UNVARIED
    };
    let vertical = Metrics {
        vertical_ascent: 520. + 100.,
        vertical_descent: 400. - 50.,
        vertical_leading: 60. + 7.,
        ..varied
    };
    // and at -4096 on the second axis a quarter of its byte more
    let twice = Metrics {
        ascent: 850. + 0.5,
        descent: 170. + 0.75,
        leading: 95. + 1.25,
        vertical_ascent: 620. + 2.5,
        vertical_descent: 350. + 2.75,
        vertical_leading: 67. + 3.25,
        cap_height: 720. + 0.25,
        x_height: 515. + 3.5,
        underline_offset: -104. + 1.75,
        strikeout_offset: 306. + 1.5,
        stroke_size: 53. + 2.25,
        ..vertical
    };

    let mut materialize = |name: &str, mvar, coords: &[i16], vertical, expected: Metrics| {
        let mut measures = UNVARIED;
        let found = suolluvik::materialize_metrics(font, mvar, coords, vertical, &mut measures);
        t.same(
            &format!("materialize_metrics: {name}"),
            (found, measures),
            (Ok(()), expected),
        );
    };
    materialize("not vertical", 4, &[8192], false, varied);
    materialize("vertical", 4, &[8192], true, vertical);
    materialize("two axes", 4, PLACE, true, twice);
    materialize("no coordinates", 4, &[], true, UNVARIED);
    materialize("no MVAR", 0, &[8192], true, UNVARIED);
    materialize("none that opens", 255, &[8192], true, UNVARIED);

    for (units_per_em, ppem, factor) in [
        (2048, 16., 0.0078125),
        (2000, 16., 16. / 2000.),
        (40000, -12.5, -12.5 / 40000.),
        (0, 16., 1.),
    ] {
        let mut measures = UNVARIED;
        let found = suolluvik::scale_metrics(units_per_em, ppem, &mut measures);
        t.same("scale_metrics", (found, measures), (Ok(()), scaled(factor)));
    }
    for factor in [-3., 0.123] {
        let mut measures = UNVARIED;
        let found = suolluvik::linear_scale_metrics(factor, &mut measures);
        t.same(
            "linear_scale_metrics",
            (found, measures),
            (Ok(()), scaled(factor)),
        );
    }
}

// H1 with a map of its own for bearings: at all coordinates the advances of its glyphs vary by 10, 11 and 12, and every
// bearing by 12.
const GLYPHS: &str = "00000000 00010000 00000018 00000010 00000033 0007 0003 000102 00 \
    0001 0000000c 0001 00000010 0000 0001 0003 0000 0001 0000 0a0b0c 0007 0001 02";
const GLYF: Vertical = Vertical::VmtxGlyf { vvar: 4 };
const VORG: Vertical = Vertical::VmtxVorg { vvar: 4 };
const BARE_GLYF: Vertical = Vertical::VmtxGlyf { vvar: 0 };
const BARE_VORG: Vertical = Vertical::VmtxVorg { vvar: 0 };

fn at(units_per_em: u16, vertical: Vertical, scale: f32) -> GlyphMetrics {
    GlyphMetrics {
        units_per_em,
        hvar: 4,
        vertical,
        scale,
    }
}

fn glyphs(t: &mut Test) {
    let font = &bytes(GLYPHS)[..];
    let made = Vertical::synthesize(4, 800., 200.);
    let expected = Vertical::Synthesized {
        mvar: 4,
        advance: 1000.,
        origin: 800.,
    };
    t.same("Vertical::synthesize", made, expected);
    let expected = Vertical::Synthesized {
        mvar: 90,
        advance: -1000.75,
        origin: -800.5,
    };
    let found = Vertical::synthesize(90, -800.5, -200.25);
    t.same("Vertical::synthesize: below 0", found, expected);

    let plain = at(1000, made, 2.);
    let found = plain.advance_width(font, 0, &[], 500);
    t.same("advance_width", found, (500. + 10.) * 2.);
    t.same("lsb", plain.lsb(font, 0, &[], -20), (-20. + 12.) * 2.);
    let none = GlyphMetrics { hvar: 0, ..plain };
    t.same(
        "advance_width: no HVAR",
        none.advance_width(font, 0, &[], 500),
        1000.,
    );
    t.same("lsb: no HVAR", none.lsb(font, 0, &[], -20), -40.);
    t.same(
        "advance_width: no font",
        plain.advance_width(&[], 0, &[], 500),
        1000.,
    );
}

/// A glyph's metrics by HVAR and VVAR, at PLACE.
fn by_both(t: &mut Test) {
    let font = &bytes(BOTH)[..];
    for (glyph, level, height, top, origin) in [
        (0, [-32794.5, 16382.5], -20016.5, 144.5, -69.75),
        (256, [-32778.5, 16385.25], -20008.5, 148.25, -71.625),
    ] {
        for (vertical, origin) in [
            (Vertical::VmtxGlyf { vvar: 90 }, origin),
            (Vertical::VmtxVorg { vvar: 90 }, -5. * -0.5),
        ] {
            let m = at(1000, vertical, -0.5);
            let name = format!("glyph {glyph}, {vertical:?}");
            let found = [
                m.advance_width(font, glyph, PLACE, 65534),
                m.lsb(font, glyph, PLACE, -32768),
            ];
            t.same(&name, found, level);
            let found = [
                m.advance_height(font, glyph, PLACE, 40001),
                m.tsb(font, glyph, PLACE, -300),
                m.vertical_origin(font, glyph, PLACE, -300, Some(-5)),
            ];
            t.same(&name, found, [height, top, origin].map(Ok));
        }
    }
}

/// The vertical cases at a scale of -2.5.
fn upright(t: &mut Test) {
    let font = &bytes(GLYPHS)[..];
    let made = Vertical::synthesize(4, -800.5, -200.25);
    for (vertical, height, top) in [
        (GLYF, (500. + 11.) * -2.5, (20. + 12.) * -2.5),
        (VORG, (500. + 11.) * -2.5, (20. + 12.) * -2.5),
        (BARE_GLYF, 500. * -2.5, 20. * -2.5),
        (BARE_VORG, 500. * -2.5, 20. * -2.5),
        (made, -1000.75 * -2.5, 0.),
    ] {
        let m = at(1000, vertical, -2.5);
        let found = [m.advance_height(font, 1, &[], 500), m.tsb(font, 1, &[], 20)];
        t.same(
            &format!("upright, {vertical:?}"),
            found,
            [Ok(height), Ok(top)],
        );
    }

    // with glyf the bearing is scaled twice; a missing origin of VORG is signed
    for (name, units_per_em, vertical, y, expected) in [
        ("glyf", 1000, GLYF, Some(10), 10. + (1. + 12.) * -2.5),
        ("glyf, no VVAR", 1000, BARE_GLYF, Some(10), 10. + 1. * -2.5),
        ("glyf, no yMax", 40000, GLYF, None, 40000.),
        ("VORG", 1000, VORG, Some(880), 880.),
        ("VORG, no VVAR", 1000, BARE_VORG, Some(880), 880.),
        ("VORG, none", 40000, VORG, None, 40000. - 65536.),
        ("synthesized", 1000, made, Some(7), -800.5),
    ] {
        let found = at(units_per_em, vertical, -2.5).vertical_origin(font, 0, &[], 1, y);
        let name = format!("vertical_origin: {name}");
        t.same(&name, found, Ok(expected * -2.5));
    }
}

fn scales(t: &mut Test) {
    let made = Vertical::synthesize(4, 800., 200.);
    t.same(
        "GlyphMetrics: scale",
        at(40000, made, -1.).scale(-12.5),
        at(40000, made, -12.5 / 40000.),
    );
    t.same(
        "GlyphMetrics: no units per em",
        at(0, made, -1.).scale(16.),
        at(0, made, 1.),
    );
    t.same(
        "GlyphMetrics: linear_scale",
        at(1000, made, -1.).linear_scale(-0.5),
        at(1000, made, -0.5),
    );
}

fn materialized(t: &mut Test) {
    let mvar = &bytes(MVAR)[..];
    for (mvar_offset, coords, hasc, hdsc) in [
        (4, &[8192][..], 50., -30.),
        (4, PLACE, 50.5, -29.25),
        (4, &[], 0., 0.),
        (0, PLACE, 0., 0.),
    ] {
        let shifted = |by_advance: f32, by_origin: f32| Vertical::Synthesized {
            mvar: mvar_offset,
            advance: -1000.5 + by_advance,
            origin: -800.25 + by_origin,
        };
        t.same(
            &format!("materialize: by {mvar_offset}, at {coords:?}"),
            at(1000, shifted(0., 0.), 2.).materialize(mvar, coords),
            Ok(at(1000, shifted(hasc + hdsc, hasc), 2.)),
        );
    }
    for vertical in [GLYF, VORG] {
        let m = at(1000, vertical, 2.);
        t.same("materialize: by vmtx", m.materialize(mvar, PLACE), Ok(m));
    }
}

// An hmtx with three long records, of 500 and -20, 40000 and 5, 300 and 32767, and with two bearings behind them, -32768 and
// 17; and a VORG, by default 880, with the glyphs 1, 3 and 40000. Behind S1 and a byte they are at 52 and at 68.
const HMTX: &str = "01f4 ffec 9c40 0005 012c 7fff 8000 0011";
const VORG_TABLE: &str = "00010000 0370 0003 0001 ff88 0003 02bc 9c40 8000";

/// S1, HMTX and VORG_TABLE.
fn numbers() -> Vec<u8> {
    bytes(&[S1, "00", HMTX, VORG_TABLE].concat())
}

fn unvaried(t: &mut Test) {
    let font = &numbers()[..];
    for (name, font, xmtx, count, glyph, expected) in [
        ("the first one", font, 52, 3, 0, Ok((500, -20))),
        ("above 32767", font, 52, 3, 1, Ok((40000, 5))),
        ("the last long record", font, 52, 3, 2, Ok((300, 32767))),
        ("past the long records", font, 52, 3, 3, Ok((300, -32768))),
        ("the second past them", font, 52, 3, 4, Ok((300, 17))),
        ("past the table", font, 52, 3, 5, Ok((300, 1))),
        ("256 long records", font, 52, 256, 1, Ok((40000, 5))),
        ("at the font's end", &font[..68], 52, 3, 4, Ok((300, 17))),
        ("no long records", font, 52, 0, 0, Err(Arithmetic)),
        ("nothing", &[], 0, 0, 0, Err(Arithmetic)),
        ("no hmtx", font, 0, 3, 0, Err(Absent)),
        ("no hmtx, no font", &[], 0, 3, 0, Err(Absent)),
        ("no font", &[], 52, 3, 0, Err(Short)),
        ("cut", &font[..61], 52, 3, 2, Err(Short)),
        ("past the end", font, 52, 65535, 65535, Err(Short)),
        ("past 65536", font, 65588, 3, 1, Err(Short)),
        ("far past the end", font, u32::MAX, 3, 1, Err(Short)),
    ] {
        let found = suolluvik::xmtx_advance(font, xmtx, count, glyph);
        let advance = expected.map(|(advance, _)| advance);
        t.same(&format!("xmtx_advance: {name}"), found, advance);
        let found = suolluvik::xmtx_sb(font, xmtx, count, glyph);
        let bearing = expected.map(|(_, bearing)| bearing);
        t.same(&format!("xmtx_sb: {name}"), found, bearing);
    }
    // the advance is the last one, and no bearing is there
    let found = suolluvik::xmtx_advance(font, 52, 3, 65535);
    t.same("xmtx_advance: glyph 65535", found, Ok(300));
    let found = suolluvik::xmtx_advance(font, 52, 3, 256);
    t.same("xmtx_advance: glyph 256", found, Ok(300));
    let found = suolluvik::xmtx_sb(font, 52, 3, 256);
    t.same("xmtx_sb: glyph 256", found, Err(Short));
    let found = suolluvik::xmtx_advance(&font[..62], 52, 3, 2);
    t.same("xmtx_advance: at the font's end", found, Ok(300));
    let found = suolluvik::xmtx_sb(&font[..63], 52, 3, 2);
    t.same("xmtx_sb: cut in a long record", found, Err(Short));
    let found = suolluvik::xmtx_sb(&font[..67], 52, 3, 4);
    t.same("xmtx_sb: cut past them", found, Err(Short));
}

fn vertical_origins(t: &mut Test) {
    let font = &numbers()[..];
    let (mut unsorted, mut empty) = (font.to_vec(), font[..76].to_vec());
    unsorted[76..].copy_from_slice(&bytes("0005 ff88 0003 02bc 0001 8000"));
    empty[74..].fill(0);
    for (name, font, vorg, glyph, expected) in [
        ("the first record", font, 68, 1, Ok(-120)),
        ("the middle one", font, 68, 3, Ok(700)),
        ("the last one", font, 68, 40000, Ok(-32768)),
        ("before the first one", font, 68, 0, Ok(880)),
        ("between two", font, 68, 2, Ok(880)),
        ("behind the last one", font, 68, 65535, Ok(880)),
        ("glyph 257", font, 68, 257, Ok(880)),
        ("no records", &empty, 68, 1, Ok(880)),
        ("not sorted", &unsorted, 68, 5, Ok(880)),
        ("not sorted, the middle one", &unsorted, 68, 3, Ok(700)),
        ("no VORG", font, 0, 1, Err(Absent)),
        ("no VORG, no font", &[], 0, 1, Err(Absent)),
        ("no font", &[], 68, 1, Err(Short)),
        ("cut in the default", &font[..73], 68, 1, Err(Short)),
        ("cut in the count", &font[..75], 68, 1, Err(Short)),
        ("cut in a record's glyph", &font[..81], 68, 1, Err(Short)),
        ("cut in a record's origin", &font[..83], 68, 3, Err(Short)),
        ("cut behind its record", &font[..83], 68, 1, Ok(-120)),
        ("cut before its record", &font[..84], 68, 40000, Err(Short)),
        ("cut behind the walk", &font[..84], 68, 0, Ok(880)),
        ("past 65536", font, 65604, 1, Err(Short)),
        ("far past the end", font, u32::MAX, 1, Err(Short)),
    ] {
        let found = suolluvik::vorg_origin(font, vorg, glyph);
        t.same(&format!("vorg_origin: {name}"), found, expected);
    }
}

type Adjusted = fn(&[u8], u32, u16, u32, u16, &[i16], f32) -> Result<f32, Refusal>;

fn adjusted(t: &mut Test) {
    // BOTH with an hmtx at 176 and a vmtx at 186, each with two long records and a bearing behind them; GLYPHS with an hmtx at 60
    let vmtx = "03e8 001e ffff ff38 0007";
    let both = &bytes(&[BOTH, "01f4 ffec 9c40 0005 8000", vmtx].concat())[..];
    let mapped = &bytes(&[GLYPHS, HMTX].concat())[..];
    let font = &numbers()[..];
    let half: &[i16] = &[8192];
    let wide = suolluvik::adjusted_advance;
    let side = suolluvik::adjusted_sb;
    for (name, found, expected) in [
        (
            "S1",
            wide(font, 52, 3, 4, 0, half, 2.),
            Ok((500. + 50.) * 2.),
        ),
        (
            "S1, no coordinates",
            wide(font, 52, 3, 4, 0, &[], 2.),
            Ok(1000.),
        ),
        ("no HVAR", wide(font, 52, 3, 0, 0, half, 2.), Ok(1000.)),
        (
            "a glyph past the item count",
            wide(font, 52, 3, 4, 1, half, 2.),
            Ok(80000.),
        ),
        (
            "an HVAR past 65536",
            wide(font, 52, 3, 65540, 0, half, 2.),
            Ok(1000.),
        ),
        (
            "an HVAR far past the end",
            wide(font, 52, 3, u32::MAX, 65535, half, 2.),
            Ok(600.),
        ),
        (
            "256 long records",
            wide(font, 52, 256, 4, 0, half, 2.),
            Ok(1100.),
        ),
        (
            "at the font's end",
            wide(&font[..54], 52, 3, 4, 0, half, 2.),
            Ok(1100.),
        ),
        (
            "no coordinates",
            wide(mapped, 60, 3, 4, 65535, &[], -0.5),
            Ok((300. + 12.) * -0.5),
        ),
        (
            "two axes",
            wide(both, 176, 2, 4, 0, PLACE, -0.5),
            Ok((500. + 55.) * -0.5),
        ),
        (
            "two axes, glyph 256",
            wide(both, 176, 2, 4, 256, PLACE, -0.5),
            Ok((40000. + 23.) * -0.5),
        ),
        (
            "vmtx and VVAR",
            wide(both, 186, 2, 90, 0, PLACE, -0.5),
            Ok((1000. + 32.) * -0.5),
        ),
        (
            "vmtx and VVAR, glyph 256",
            wide(both, 186, 2, 90, 256, PLACE, -0.5),
            Ok((65535. + 16.) * -0.5),
        ),
        (
            "an infinite scale",
            wide(font, 52, 3, 4, 0, half, f32::NEG_INFINITY),
            Ok(f32::NEG_INFINITY),
        ),
    ] {
        t.same(&format!("adjusted_advance: {name}"), found, expected);
    }
    for (name, found, expected) in [
        (
            "no coordinates",
            side(mapped, 60, 3, 4, 0, &[], 2.),
            Ok((-20. + 12.) * 2.),
        ),
        (
            "past the long records",
            side(mapped, 60, 3, 4, 3, half, 2.),
            Ok((-32768. + 12.) * 2.),
        ),
        ("no HVAR", side(mapped, 60, 3, 0, 4, half, 2.), Ok(34.)),
        ("no map: S1", side(font, 52, 3, 4, 0, half, 2.), Ok(-40.)),
        (
            "an HVAR past 65536",
            side(mapped, 60, 3, 65540, 0, half, 2.),
            Ok(-40.),
        ),
        (
            "an HVAR far past the end",
            side(font, 52, 3, u32::MAX, 1, half, 2.),
            Ok(10.),
        ),
        (
            "256 long records",
            side(mapped, 60, 256, 4, 0, half, 2.),
            Ok(-16.),
        ),
        (
            "at the font's end",
            side(&mapped[..64], 60, 3, 4, 0, half, 2.),
            Ok(-16.),
        ),
        ("glyph 256", side(font, 52, 3, 4, 256, half, 2.), Err(Short)),
        (
            "two axes",
            side(both, 176, 2, 4, 0, PLACE, -0.5),
            Ok((-20. + 3.) * -0.5),
        ),
        (
            "two axes, past the long records",
            side(both, 176, 2, 4, 2, PLACE, -0.5),
            Ok((-32768. - 2.5) * -0.5),
        ),
        (
            "vmtx and VVAR",
            side(both, 186, 2, 90, 0, PLACE, -0.5),
            Ok((30. + 11.) * -0.5),
        ),
        (
            "vmtx and VVAR, past the long records",
            side(both, 186, 2, 90, 2, PLACE, -0.5),
            Ok((7. + 3.5) * -0.5),
        ),
        (
            "an infinite scale",
            side(font, 52, 3, 4, 0, half, f32::NEG_INFINITY),
            Ok(f32::INFINITY),
        ),
    ] {
        t.same(&format!("adjusted_sb: {name}"), found, expected);
    }
    for (name, adjusted) in [
        ("adjusted_advance", wide as Adjusted),
        ("adjusted_sb", side),
    ] {
        for (case, font, xmtx, count, glyph, expected) in [
            ("no long records", font, 52, 0, 0, Arithmetic),
            ("nothing", &[], 0, 0, 0, Arithmetic),
            ("no hmtx", font, 0, 3, 0, Absent),
            ("no hmtx, no font", &[], 0, 3, 0, Absent),
            ("no font", &[], 52, 3, 0, Short),
            ("cut", &font[..57], 52, 3, 1, Short),
            ("past 65536", font, 65588, 3, 0, Short),
            ("far past the end", font, u32::MAX, 3, 0, Short),
        ] {
            for scale in [2., f32::NAN] {
                let found = adjusted(font, xmtx, count, 4, glyph, half, scale);
                t.same(&format!("{name}: {case}"), found, Err(expected));
            }
        }
        let found = adjusted(font, 52, 3, 4, 0, half, f32::NAN).map(f32::is_nan);
        t.same(&format!("{name}: a NaN for the scale"), found, Ok(true));
    }
}

/// What grows: the numbers of refusals, and the version.
fn growth(t: &mut Test) {
    let numbers = [Absent, Short, Index, Tag, Arithmetic, Lengths, Room].map(Refusal::number);
    t.same("the refusals' numbers", numbers, [1, 2, 3, 4, 5, 6, 7]);
    t.same("a number without a name", Refusal::of(8), Some(Other(8)));
    let all: Vec<u8> = (0..=u8::MAX).collect();
    let found = all
        .iter()
        .map(|number| Refusal::of(*number).map_or(0, Refusal::number));
    t.same("the refusal of each number", found.collect(), all.clone());
    t.same(
        "Display",
        format!("{Room}, {}", Other(9)),
        "refused by 7: Room, refused by 9: Other(9)".to_string(),
    );
    t.same("version", suolluvik::version(), suolluvik::VERSION);
}

fn main() -> ExitCode {
    let mut t = Test::default();
    growth(&mut t);
    deltas(&mut t);
    stores(&mut t);
    lists(&mut t);
    lines(&mut t);
    axes(&mut t);
    coords(&mut t);
    measures(&mut t);
    glyphs(&mut t);
    by_both(&mut t);
    upright(&mut t);
    scales(&mut t);
    materialized(&mut t);
    unvaried(&mut t);
    vertical_origins(&mut t);
    adjusted(&mut t);
    println!("{} passed, {} failed", t.passed, t.failed);
    ExitCode::from((t.failed != 0) as u8)
}
