//! The rules for hmtx, vmtx and VORG and for what is made of their numbers, from their text alone: the
//! reading in exact integers; the deltas, the shift by MVAR and the formulas of an advance, a bearing and
//! an origin are those of the store's and the metrics' rules. Nothing here is taken from the Rust or from
//! the Rattle, so that it judges both. A refusal is its number.

use crate::axes::rules::Answer;
use crate::metrics::rules::{origin, Place, Vertical};
use crate::store::rules::{place, Map};

/// An hmtx or a vmtx.
#[derive(Clone, Copy, Default)]
pub struct Table {
    pub at: u32,
    /// of long records, an advance and a bearing each
    pub count: u16,
    /// its HVAR or VVAR, for what is adjusted
    pub xvar: u32,
}

impl Table {
    /// Where it is, and the count: 5 for none, then 1 for no table.
    fn there(&self) -> Answer<(usize, usize)> {
        match (self.at, self.count) {
            (_, 0) => Err(5),
            (0, _) => Err(1),
            (at, count) => Ok((at as usize, count as usize)),
        }
    }
}

/// A signed number of two bytes.
fn half(font: &[u8], p: usize) -> Answer<i16> {
    let number = place(font, p, 2)? as i32;
    Ok((if number < 32768 {
        number
    } else {
        number - 65536
    }) as i16)
}

/// Of a glyph past the long records it is the last one's.
pub fn xmtx_advance(font: &[u8], table: Table, glyph: u16) -> Answer<u16> {
    let (at, count) = table.there()?;
    let record = (glyph as usize).min(count - 1);
    Ok(place(font, at + 4 * record, 2)? as u16)
}

/// Behind the long records there are bearings alone.
pub fn xmtx_sb(font: &[u8], table: Table, glyph: u16) -> Answer<i16> {
    let (at, count) = table.there()?;
    let glyph = glyph as usize;
    if glyph < count {
        half(font, at + 4 * glyph + 2)
    } else {
        half(font, at + 4 * count + 2 * (glyph - count))
    }
}

/// Order: offset 0, default, count; then the search, from l = 0, h = count, middle floor((l + h) / 2), each
/// glyph as it is met, the origin of the one that is found.
pub fn vorg_origin(font: &[u8], vorg: u32, glyph: u16) -> Answer<i16> {
    if vorg == 0 {
        return Err(1);
    }
    let vorg = vorg as usize;
    let default = half(font, vorg + 4)?;
    let (mut l, mut h) = (0, place(font, vorg + 6, 2)?);
    while l < h {
        let middle = (l + h) / 2;
        let record = vorg + 8 + 4 * middle;
        let found = place(font, record, 2)?;
        if found == glyph as usize {
            return half(font, record + 2);
        }
        if (glyph as usize) < found {
            h = middle;
        } else {
            l = middle + 1;
        }
    }
    Ok(default)
}

fn unvaried(font: &[u8], table: Table, map: Map, glyph: u16) -> Answer<i32> {
    match map {
        Map::Advance => xmtx_advance(font, table, glyph).map(i32::from),
        Map::Bearing => xmtx_sb(font, table, glyph).map(i32::from),
    }
}

/// The number read, and then as it is varied. A refused delta is 0.0, and refuses nothing.
pub fn adjusted(place: &mut Place, table: Table, map: Map, glyph: u16, scale: f32) -> Answer<f32> {
    let unvaried = unvaried(place.font, table, map, glyph)?;
    Ok(place.varied(unvaried, table.xvar, map, glyph, scale))
}

/// What a record of glyph metrics has for vertical type.
#[derive(Clone, Copy)]
pub enum Upright {
    Glyf {
        vmtx: Table,
    },
    Vorg {
        vmtx: Table,
        vorg: u32,
    },
    Synthesized {
        mvar: u32,
        advance: f32,
        origin: f32,
    },
}

impl Upright {
    /// As the functions have it that are given the numbers.
    pub fn vertical(self) -> Vertical {
        match self {
            Upright::Glyf { vmtx } => Vertical::Glyf { vvar: vmtx.xvar },
            Upright::Vorg { vmtx, .. } => Vertical::Vorg { vvar: vmtx.xvar },
            Upright::Synthesized {
                mvar,
                advance,
                origin,
            } => Vertical::Synthesized {
                mvar,
                advance,
                origin,
            },
        }
    }

    /// Of a synthesized case nothing is read.
    pub fn vmtx(self) -> Option<Table> {
        match self {
            Upright::Glyf { vmtx } | Upright::Vorg { vmtx, .. } => Some(vmtx),
            Upright::Synthesized { .. } => None,
        }
    }
}

/// An advance height or a top bearing. A synthesized one comes from the record, shifted by MVAR.
pub fn upright(
    place: &mut Place,
    upright: Upright,
    map: Map,
    glyph: u16,
    scale: f32,
) -> Answer<f32> {
    if let Some(vmtx) = upright.vmtx() {
        return adjusted(place, vmtx, map, glyph, scale);
    }
    let vertical = place.materialize_vertical(upright.vertical());
    Ok(match map {
        Map::Advance => place.height(vertical, 0, glyph, scale),
        Map::Bearing => place.top(vertical, 0, glyph, scale),
    })
}

/// With glyf and a yMax the bearing is read, with VORG the origin, else nothing.
pub fn vertical_origin(
    place: &mut Place,
    upright: Upright,
    glyph: u16,
    y_max: Option<i16>,
    units_per_em: u16,
    scale: f32,
) -> Answer<f32> {
    let (mut bearing, mut given) = (0, None);
    match upright {
        Upright::Glyf { vmtx } if y_max.is_some() => bearing = xmtx_sb(place.font, vmtx, glyph)?,
        Upright::Vorg { vorg, .. } => given = Some(vorg_origin(place.font, vorg, glyph)?),
        _ => (),
    }
    let vertical = place.materialize_vertical(upright.vertical());
    let top = || place.top(vertical, bearing, glyph, scale);
    Ok(origin(vertical, y_max, given, units_per_em, scale, top))
}
