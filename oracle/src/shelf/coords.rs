//! Coordinates by the library, with the font's own avar: written out for `oracle/avar`, which has
//! fontTools' and FreeType's beside them.

use super::ask::settings;
use super::font::{faces, Font};
use super::{names, seed_of, Files, SEED};
use crate::private::internal::var::{Fvar, VarAxis};
use crate::random::Random;
use crate::suolluvik;
use crate::text::{bytes_text, list_text};
use std::fs;
use std::io::{self, BufWriter, Write};
use std::os::unix::ffi::OsStrExt;
use std::path::Path;

/// The steps of the grid that is laid over the axes, each of which is this much ahead of the one before.
const STEPS: u64 = 6400;
const AHEAD: u64 = 1733;

/// For each variable face a line `font`: its file's bytes in hex, its number, and the folder and the
/// file as they are printed. Then its lines: `settings`, tags with the bits of floats, or `instance`
/// and the index; and the coordinates. A tab stands between two words.
pub fn write(folder: &Path) -> io::Result<()> {
    let mut out = BufWriter::new(io::stdout().lock());
    for path in Files::below(folder)?.fonts {
        let data = fs::read(&path)?;
        let file = bytes_text(path.as_os_str().as_bytes().iter().copied());
        let (row, title) = names(folder, &path);
        for (face, directory) in faces(&data) {
            let font = Font::at(&data, directory);
            if !font.has_fvar {
                continue;
            }
            writeln!(out, "font\t{file}\t{face}\t{row}\t{title}")?;
            let mut random = Random::new(seed_of(SEED, &path, face, 0));
            face_lines(&mut out, font, &mut random)?;
        }
    }
    out.flush()
}

fn coords_text(answer: Result<u16, suolluvik::Refusal>, list: &[i16]) -> String {
    match answer {
        Ok(count) => list_text(list[..count as usize].iter().map(i16::to_string)),
        Err(refusal) => format!("refused {}", refusal.number()),
    }
}

fn face_lines(out: &mut impl Write, font: Font, random: &mut Random) -> io::Result<()> {
    let fvar = Fvar::new(font.fvar);
    let axes: Vec<_> = (0..fvar.axis_count())
        .map_while(|i| fvar.get_axis(i))
        .collect();
    let mut all = settings(&axes, random, false);
    for k in 0..=STEPS {
        let at = |i: usize| (k + i as u64 * AHEAD) % (STEPS + 1);
        let step = |(i, axis): (usize, &VarAxis)| {
            let [min, max] = [axis.min.to_f32(), axis.max.to_f32()];
            (axis.tag, min + (max - min) * (at(i) as f32 / STEPS as f32))
        };
        all.push(axes.iter().enumerate().map(step).collect());
    }
    let mut list = vec![0; axes.len()];
    for pairs in all {
        let (tags, values): (Vec<u32>, Vec<f32>) = pairs.into_iter().unzip();
        let answer = suolluvik::normalized_coords(
            font.fvar, font.data, font.avar, &tags, &values, &mut list,
        );
        let pairs = tags.iter().zip(&values);
        let pairs =
            list_text(pairs.map(|(tag, value)| format!("{tag:08x}:{:08x}", value.to_bits())));
        writeln!(out, "settings\t{pairs}\t{}", coords_text(answer, &list))?;
    }
    for index in 0..fvar.instance_count() {
        let answer = suolluvik::instance_coords(font.fvar, font.data, font.avar, index, &mut list);
        writeln!(out, "instance\t{index}\t{}", coords_text(answer, &list))?;
    }
    Ok(())
}
