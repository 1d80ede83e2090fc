//! What the bench needs to know of a font: where its tables are, its glyphs and its axes. Nothing here is measured. A font
//! that is not well formed has no such table, or glyph 0.

use crate::suolluvik;

pub struct Font {
    pub data: Vec<u8>,
    pub axes: Vec<suolluvik::Axis>,
}

impl Font {
    pub fn new(data: Vec<u8>) -> Self {
        let mut font = Font { data, axes: vec![] };
        let fvar = font.fvar();
        font.axes = (0..suolluvik::axis_count(fvar))
            .filter_map(|i| suolluvik::axis(fvar, i).ok())
            .collect();
        font
    }

    fn u16(&self, at: usize) -> usize {
        match self.data.get(at..at + 2) {
            Some(b) => u16::from_be_bytes([b[0], b[1]]) as usize,
            None => 0,
        }
    }

    fn u32(&self, at: usize) -> usize {
        self.u16(at) << 16 | self.u16(at + 2)
    }

    /// A table's offset and length; 0 and 0 where there is none.
    fn table(&self, tag: &[u8; 4]) -> (usize, usize) {
        (0..self.u16(4))
            .map(|i| 12 + 16 * i)
            .find(|&record| self.data.get(record..record + 4) == Some(tag))
            .map_or((0, 0), |record| {
                (self.u32(record + 8), self.u32(record + 12))
            })
    }

    pub fn offset(&self, tag: &[u8; 4]) -> u32 {
        self.table(tag).0 as u32
    }

    pub fn fvar(&self) -> &[u8] {
        let (offset, len) = self.table(b"fvar");
        self.data.get(offset..offset + len).unwrap_or(&[])
    }

    pub fn glyph_count(&self) -> u16 {
        match self.table(b"maxp") {
            (0, _) => 0,
            (maxp, _) => self.u16(maxp + 4) as u16,
        }
    }

    /// The tags of MVAR's records.
    pub fn mvar_tags(&self) -> Vec<u32> {
        match self.table(b"MVAR") {
            (0, _) => vec![],
            (mvar, _) => (0..self.u16(mvar + 8))
                .map(|i| self.u32(mvar + 12 + i * self.u16(mvar + 6)) as u32)
                .collect(),
        }
    }

    /// A character's glyph, by a cmap subtable of format 4 or 12; 0 where there is none.
    pub fn glyph(&self, c: char) -> u16 {
        let (cmap, _) = self.table(b"cmap");
        if cmap == 0 {
            return 0;
        }
        let c = c as usize;
        let found = (0..self.u16(cmap + 2))
            .map(|i| cmap + self.u32(cmap + 4 + 8 * i + 4))
            .map(|subtable| match self.u16(subtable) {
                4 => self.format_4(subtable, c),
                12 => self.format_12(subtable, c),
                _ => 0,
            })
            .find(|&glyph| glyph != 0);
        found.unwrap_or(0) as u16
    }

    fn format_4(&self, subtable: usize, c: usize) -> usize {
        let twice = self.u16(subtable + 6);
        let (ends, starts) = (subtable + 14, subtable + 16 + twice);
        let Some(i) = (0..twice).step_by(2).find(|i| c <= self.u16(ends + i)) else {
            return 0;
        };
        let (start, delta) = (self.u16(starts + i), self.u16(starts + twice + i));
        let at = starts + 2 * twice + i;
        if c < start {
            return 0;
        }
        let glyph = match self.u16(at) {
            0 => c,
            range => self.u16(at + range + 2 * (c - start)),
        };
        if glyph == 0 {
            0
        } else {
            (glyph + delta) & 0xffff
        }
    }

    fn format_12(&self, subtable: usize, c: usize) -> usize {
        (0..self.u32(subtable + 12))
            .map(|i| subtable + 16 + 12 * i)
            .find(|&group| self.u32(group) <= c && c <= self.u32(group + 4))
            .map_or(0, |group| self.u32(group + 8) + c - self.u32(group))
    }
}
