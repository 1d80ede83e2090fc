//! The name ids of instances by the library: written out for `oracle/names`, which has fontTools' beside them.

use super::font::{faces, Font};
use super::{names, Files};
use crate::axes::rules;
use crate::suolluvik;
use crate::text::{bytes_text, list_text, EMPTY};
use std::fs;
use std::io::{self, BufWriter, Write};
use std::os::unix::ffi::OsStrExt;
use std::path::Path;

/// What stands in an instance's record behind its values, in a table that is made.
const MADE: [(&str, fn(u16) -> Option<u16>); 4] = [
    ("no id", |_| None),
    ("ids", |index| Some(index ^ 0x0100)),
    ("0xFFFF", |_| Some(0xffff)),
    ("0xFFFF and ids", |index| {
        Some(if index % 2 == 0 { 0xffff } else { index })
    }),
];

/// For each variable face a line `font`, as `coords` has it. Then `instances`, what was done to its fvar, which is
/// nothing at first, the table, and of each instance and of one past them the name id, a colon and the PostScript name
/// id, or nothing; a refusal is `r` and its number. For a table that can't be made `unmade`, and what it would be.
pub fn write(folder: &Path) -> io::Result<()> {
    let mut out = BufWriter::new(io::stdout().lock());
    for path in Files::below(folder)?.fonts {
        let data = fs::read(&path)?;
        let file = bytes_text(path.as_os_str().as_bytes().iter().copied());
        let (row, title) = names(folder, &path);
        for (face, directory) in faces(&data) {
            let font = Font::at(&data, directory);
            if !font.has_fvar {
                continue;
            }
            writeln!(out, "font\t{file}\t{face}\t{row}\t{title}")?;
            table_line(&mut out, EMPTY, font.fvar)?;
            for (what, id) in MADE {
                match made(font.fvar, id) {
                    Some(table) => table_line(&mut out, what, &table)?,
                    None => writeln!(out, "unmade\t{what}")?,
                }
            }
        }
    }
    out.flush()
}

fn table_line(out: &mut impl Write, what: &str, table: &[u8]) -> io::Result<()> {
    let answer = |index| match suolluvik::instance(table, index) {
        Ok(instance) => {
            let id = instance.postscript_name_id;
            let id = id.map_or(String::new(), |id| id.to_string());
            format!("{}:{id}", instance.name_id)
        }
        Err(refusal) => format!("r{}", refusal.number()),
    };
    let answers = list_text((0..=suolluvik::instance_count(table)).map(answer));
    let table = bytes_text(table.iter().copied());
    writeln!(out, "instances\t{what}\t{table}\t{answers}")
}

/// The table with these behind each instance's values, in records of that size; none where the header or a value can't be
/// read.
fn made(table: &[u8], id: fn(u16) -> Option<u16>) -> Option<Vec<u8>> {
    let fvar = rules::header(table);
    let values = 4 + 4 * fvar.axis_count;
    let mut made = table.get(..rules::instance_start(&fvar, 0))?.to_vec();
    let mut size = values;
    for index in 0..fvar.instance_count {
        let start = rules::instance_start(&fvar, index);
        made.extend(table.get(start..start + values)?);
        if let Some(id) = id(index as u16) {
            made.extend(id.to_be_bytes());
            size = values + 2;
        }
    }
    made.get_mut(14..16)?
        .copy_from_slice(&(size as u16).to_be_bytes());
    Some(made)
}
