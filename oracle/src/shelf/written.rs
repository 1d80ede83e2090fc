//! hmtx, vmtx and VORG by the library, and widths in one call: written out for `oracle/widths`, which has
//! fontTools' and HarfBuzz's beside them.

use super::font::{faces, Font};
use super::{names, seed_of, Files, SEED};
use crate::private::internal::var::Fvar;
use crate::random::Random;
use crate::suolluvik::{self, Refusal};
use crate::text::{bytes_text, list_text};
use crate::widths::rules::Table;
use std::fs;
use std::io::{self, BufWriter, Write};
use std::os::unix::ffi::OsStrExt;
use std::path::Path;

/// So many widths of a table are written; but each coordinate list that is taken has every glyph, and two are.
const WIDTHS: usize = 60_000;

/// For each face a line `font`, as `coords` has it, with how many glyphs maxp counts. Then its tables: `advance` or
/// `sb`, hmtx or vmtx, and the numbers of every glyph, of one past the last and of 65535; `origin`, VORG and the
/// same. Then `adjusted`, hmtx or vmtx, the coordinates, and the bits of the advances of every glyph at scale 1. A
/// refusal is `r` and its number.
pub fn write(folder: &Path) -> io::Result<()> {
    let mut out = BufWriter::new(io::stdout().lock());
    for path in Files::below(folder)?.fonts {
        let data = fs::read(&path)?;
        let file = bytes_text(path.as_os_str().as_bytes().iter().copied());
        let (row, title) = names(folder, &path);
        for (face, directory) in faces(&data) {
            let font = Font::at(&data, directory);
            let glyphs = font.glyphs;
            writeln!(out, "font\t{file}\t{face}\t{row}\t{title}\t{glyphs}")?;
            let mut random = Random::new(seed_of(SEED, &path, face, 0));
            face_lines(&mut out, font, &mut random)?;
        }
    }
    out.flush()
}

fn text<T: ToString>(answer: Result<T, Refusal>) -> String {
    match answer {
        Ok(number) => number.to_string(),
        Err(refusal) => format!("r{}", refusal.number()),
    }
}

fn face_lines(out: &mut impl Write, font: Font, random: &mut Random) -> io::Result<()> {
    let data = font.data;
    let mut glyphs: Vec<u16> = (0..=font.glyphs).collect();
    if font.glyphs < 65535 {
        glyphs.push(65535);
    }
    let each =
        |number: &dyn Fn(u16) -> String| list_text(glyphs.iter().map(|glyph| number(*glyph)));
    let tables = [("hmtx", font.hmtx), ("vmtx", font.vmtx)];
    let tables = tables.into_iter().filter(|(_, table)| table.at != 0);
    let lists = lists(font, random);
    for (name, Table { at, count, xvar }) in tables {
        let advances = each(&|glyph| text(suolluvik::xmtx_advance(data, at, count, glyph)));
        let bearings = each(&|glyph| text(suolluvik::xmtx_sb(data, at, count, glyph)));
        writeln!(out, "advance\t{name}\t{advances}\nsb\t{name}\t{bearings}")?;
        if xvar == 0 {
            continue;
        }
        let most = (WIDTHS / glyphs.len()).max(2);
        for list in lists.iter().take(most) {
            let width = |glyph| {
                let width = suolluvik::adjusted_advance(data, at, count, xvar, glyph, list, 1.);
                text(width.map(|x| format!("{:08x}", x.to_bits())))
            };
            let widths = list_text((0..font.glyphs).map(width));
            let coords = list_text(list.iter().map(i16::to_string));
            writeln!(out, "adjusted\t{name}\t{coords}\t{widths}")?;
        }
    }
    if font.vorg != 0 {
        let origins = each(&|glyph| text(suolluvik::vorg_origin(data, font.vorg, glyph)));
        writeln!(out, "origin\tVORG\t{origins}")?;
    }
    Ok(())
}

/// Two inside, all ends, each end alone, the default, six more inside.
fn lists(font: Font, random: &mut Random) -> Vec<Vec<i16>> {
    let count = Fvar::new(font.fvar).axis_count() as usize;
    if count == 0 {
        return vec![];
    }
    let mut inside = || {
        let coord = |_| (random.below(32769) as i32 - 16384) as i16;
        (0..count).map(coord).collect::<Vec<i16>>()
    };
    let mut lists = vec![inside(), inside(), vec![16384; count], vec![-16384; count]];
    for axis in 0..count {
        for end in [-16384, 16384] {
            let mut list = vec![0; count];
            list[axis] = end;
            lists.push(list);
        }
    }
    lists.push(vec![0; count]);
    lists.extend((0..6).map(|_| inside()));
    lists
}
