//! What is read from hmtx, vmtx and VORG: a glyph's numbers, and its metrics in one call.

use crate::axes::rules::Answer;
use crate::falling::{self, Falls};
use crate::font::Font;
use crate::judge::{Function, Judge, Read};
use crate::measures::At;
use crate::metrics::rules::{self as metric_rules, Place};
use crate::store::rules::{Map, COUNTED, UNCOUNTED};
use crate::suolluvik::{self, Refusal, Vertical};
use crate::widths::rules::{self, Table, Upright};

/// Where swash has a face's tables, with the counts of their long records.
#[derive(Clone, Copy, Default)]
pub struct Tables {
    pub hmtx: Table,
    pub vmtx: Table,
    pub vorg: u32,
}

impl Tables {
    pub fn of(font: &Font, words: &[&str]) -> Option<Tables> {
        let numbers: Option<Vec<u32>> = words.iter().map(|word| word.parse().ok()).collect();
        match numbers?[..] {
            [hmtx, count, vmtx, upright, vorg] => Some(Tables {
                hmtx: Table {
                    at: hmtx,
                    count: u16::try_from(count).ok()?,
                    xvar: font.hvar,
                },
                vmtx: Table {
                    at: vmtx,
                    count: u16::try_from(upright).ok()?,
                    xvar: font.vvar,
                },
                vorg,
            }),
            _ => None,
        }
    }
}

fn number<T: Into<i32>>(answer: Result<T, Refusal>) -> Answer<f32> {
    answer
        .map(|n| n.into() as f32)
        .map_err(|refusal| refusal.number())
}

fn said<T: Into<i32>>(answer: Answer<T>) -> Answer<f32> {
    answer.map(|n| n.into() as f32)
}

/// What is asked, and the tables.
pub struct Reader<'a> {
    pub judge: &'a mut Judge,
    pub font: &'a Font,
    pub tables: Tables,
    pub vertical: Vertical,
    pub units_per_em: u16,
}

impl Reader<'_> {
    /// A glyph's numbers: swash's five metrics where nothing varies and nothing is scaled. In the synthesized case two
    /// of them are read, with glyf four.
    pub fn numbers(&mut self, glyph: u16, rust: [Option<f32>; 5]) {
        let [width, lsb, height, tsb, y] = rust;
        let functions = [Function::HmtxAdvance, Function::HmtxSb];
        self.pair(functions, self.tables.hmtx, glyph, [width, lsb]);
        if let Vertical::Synthesized { .. } = self.vertical {
            return;
        }
        let functions = [Function::VmtxAdvance, Function::VmtxSb];
        self.pair(functions, self.tables.vmtx, glyph, [height, tsb]);
        if let Vertical::VmtxVorg { .. } = self.vertical {
            let (data, vorg) = (&self.font.data[..], self.tables.vorg);
            let by_rules = said(rules::vorg_origin(data, vorg, glyph));
            let read = Read {
                falls: by_rules.err().and_then(|n| Falls::of(n, true)),
                said: by_rules,
                theirs: Some(falling::origin(data, vorg, glyph, self.units_per_em) as f32),
                outside: false,
            };
            let ours = number(suolluvik::vorg_origin(data, vorg, glyph));
            let arguments = || format!("VORG at {}, glyph {}", vorg, glyph);
            self.judge.read(Function::Vorg, arguments, y, ours, read);
        }
    }

    fn pair(&mut self, functions: [Function; 2], table: Table, glyph: u16, rust: [Option<f32>; 2]) {
        let Table { at, count, .. } = table;
        let data = &self.font.data[..];
        let arguments = || format!("offset {}, count {}, glyph {}", at, count, glyph);
        let ours = number(suolluvik::xmtx_advance(data, at, count, glyph));
        let by_rules = said(rules::xmtx_advance(data, table, glyph));
        let read = Read {
            falls: by_rules.err().and_then(|n| Falls::of(n, false)),
            said: by_rules,
            theirs: falling::advance(data, table, glyph).map(|n| n as f32),
            outside: false,
        };
        self.judge
            .read(functions[0], arguments, rust[0], ours, read);
        let ours = number(suolluvik::xmtx_sb(data, at, count, glyph));
        let by_rules = said(rules::xmtx_sb(data, table, glyph));
        let read = Read {
            falls: by_rules.err().and_then(|n| Falls::of(n, false)),
            said: by_rules,
            theirs: Some(falling::bearing(data, table, glyph) as f32),
            outside: false,
        };
        self.judge
            .read(functions[1], arguments, rust[1], ours, read);
    }

    /// The five metrics in one call each, but those that the synthesized case reads from nothing; the last one is the
    /// old function with what is read. Where yMax is not known it is not asked for.
    pub fn glyph(&mut self, at: &At, glyph: u16, y_max: Option<Option<i16>>, rust: &[Option<f32>]) {
        let Tables { hmtx, vmtx, .. } = self.tables;
        let functions = [Function::AdjustedWidth, Function::AdjustedLsb];
        self.adjusted(functions, hmtx, at, glyph, [rust[0], rust[1]]);
        if let Vertical::Synthesized { .. } = self.vertical {
            return;
        }
        let functions = [Function::AdjustedHeight, Function::AdjustedTsb];
        self.adjusted(functions, vmtx, at, glyph, [rust[2], rust[3]]);
        match (self.vertical, y_max) {
            (Vertical::VmtxVorg { .. }, _) => self.origin(at, glyph, None, rust[4]),
            (_, Some(y_max)) => self.origin(at, glyph, y_max, rust[4]),
            _ => (),
        }
    }

    fn arguments(&self, table: Table, at: &At, glyph: u16) -> String {
        format!(
            "{:?}, glyph {}, coordinates {:?}, scale {:?}",
            (table.at, table.count, table.xvar, self.tables.vorg),
            glyph,
            at.coords,
            at.rule_scale
        )
    }

    fn adjusted(
        &mut self,
        functions: [Function; 2],
        table: Table,
        at: &At,
        glyph: u16,
        rust: [Option<f32>; 2],
    ) {
        let (data, coords) = (&self.font.data[..], &at.coords[..]);
        let scale = at.ours.scale;
        let Table {
            at: start,
            count,
            xvar,
        } = table;
        let ours = [
            suolluvik::adjusted_advance(data, start, count, xvar, glyph, coords, scale),
            suolluvik::adjusted_sb(data, start, count, xvar, glyph, coords, scale),
        ];
        for (k, ours) in ours.iter().enumerate() {
            let map = [Map::Advance, Map::Bearing][k];
            let mut place = Place::new(data, coords, COUNTED);
            let by_rules = rules::adjusted(&mut place, table, map, glyph, at.rule_scale);
            let unvaried = match map {
                Map::Advance => falling::advance(data, table, glyph),
                Map::Bearing => Some(falling::bearing(data, table, glyph)),
            };
            let read = Read {
                falls: by_rules.err().and_then(|n| Falls::of(n, false)),
                said: by_rules,
                theirs: unvaried.and_then(|n| {
                    let mut place = Place::new(data, coords, UNCOUNTED);
                    let value = place.varied(n, xvar, map, glyph, at.rule_scale);
                    let stops = place.refused_by_5 || at.stops();
                    (!stops).then_some(value)
                }),
                outside: place.rows.outside,
            };
            let ours = ours.map_err(Refusal::number);
            let arguments = self.arguments(table, at, glyph);
            self.judge
                .read(functions[k], || arguments.clone(), rust[k], ours, read);
        }
    }

    /// The vertical origin, from VORG's or from the top bearing.
    fn origin(&mut self, at: &At, glyph: u16, y_max: Option<i16>, rust: Option<f32>) {
        let (data, coords) = (&self.font.data[..], &at.coords[..]);
        let Tables { vmtx, vorg, .. } = self.tables;
        let by_vorg = matches!(self.vertical, Vertical::VmtxVorg { .. });
        let (upright, function) = match by_vorg {
            true => (Upright::Vorg { vmtx, vorg }, Function::VorgOrigin),
            false => (Upright::Glyf { vmtx }, Function::TopOrigin),
        };
        let numbers = match (by_vorg, y_max) {
            (true, _) => suolluvik::vorg_origin(data, vorg, glyph).map(|y| (0, Some(y))),
            (_, None) => Ok((0, None)),
            _ => suolluvik::xmtx_sb(data, vmtx.at, vmtx.count, glyph).map(|sb| (sb, y_max)),
        };
        let ours = numbers
            .and_then(|(sb, y)| at.ours.vertical_origin(data, glyph, coords, sb, y))
            .map_err(Refusal::number);
        let (units, scale) = (self.units_per_em, at.rule_scale);
        let mut place = Place::new(data, coords, COUNTED);
        let by_rules = rules::vertical_origin(&mut place, upright, glyph, y_max, units, scale);
        // swash's, with what it reads
        let mut theirs = Place::new(data, coords, UNCOUNTED);
        let vertical = upright.vertical();
        let bearing = falling::bearing(data, vmtx, glyph) as i16;
        let given = match by_vorg {
            true => Some(falling::origin(data, vorg, glyph, units)),
            false => None,
        };
        let top = || theirs.top(vertical, bearing, glyph, scale);
        let value = metric_rules::origin(vertical, y_max, given, units, scale, top);
        let read = Read {
            falls: by_rules.err().and_then(|n| Falls::of(n, by_vorg)),
            said: by_rules,
            theirs: (!theirs.refused_by_5 && !at.stops()).then_some(value),
            outside: place.rows.outside,
        };
        let arguments = format!("{}, yMax {:?}", self.arguments(vmtx, at, glyph), y_max);
        self.judge
            .read(function, || arguments.clone(), rust, ours, read);
    }
}
