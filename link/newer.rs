//! A library that is newer than the wrapper may refuse by a number that has no name there. The one that this is linked to
//! refuses whatever it is asked by 8, but for a list that its deltas hang on, and writes nothing; `tests/link` makes it from the
//! header, and builds and runs this. Each function of `suolluvik.rs` that can refuse must hand the number on, and leave its lists
//! as they were. A failed check is a line; the last line is 'N passed, M failed', and the status 1 where one failed.

#[allow(dead_code)]
mod suolluvik;

use std::fmt::Debug;
use std::process::ExitCode;
use suolluvik::*;

#[derive(Default)]
struct Test {
    passed: u32,
    failed: u32,
}

impl Test {
    fn check<T: Debug>(&mut self, name: &str, holds: bool, found: T) {
        if holds {
            self.passed += 1;
        } else {
            self.failed += 1;
            println!("failed, by a newer library: {name}: {found:?}");
        }
    }

    fn refused<T: Debug>(&mut self, name: &str, found: Result<T, Refusal>) {
        let holds = matches!(found, Err(Refusal::Other(8)));
        self.check(name, holds, found);
    }
}

fn deltas(t: &mut Test) {
    t.refused("advance_delta_fixed", advance_delta_fixed(&[], 4, 0, &[]));
    t.refused("advance_delta", advance_delta(&[], 4, 0, &[]));
    t.refused("sb_delta_fixed", sb_delta_fixed(&[], 4, 0, &[]));
    t.refused("sb_delta", sb_delta(&[], 4, 0, &[]));
    t.refused("mvar_delta_fixed", mvar_delta_fixed(&[], 4, 0, &[]));
    t.refused("mvar_delta", mvar_delta(&[], 4, 0, &[]));
}

/// With a font the stores are found, and with coordinates a list is filled, of no regions: so its deltas can be asked for.
fn lists(t: &mut Test) {
    let mut list = [-77; 2];
    t.refused("store_offset", store_offset(&[], 4));
    t.refused("mvar_store_offset", mvar_store_offset(&[], 4));
    let found = Scalars::fill(&[], 4, &[0], &mut list);
    t.refused("Scalars: no store", found);
    t.refused("Scalars: fill", Scalars::fill(&[0], 4, &[], &mut list));
    let found = MvarScalars::fill(&[], 4, &[0], &mut list);
    t.refused("MvarScalars: no store", found);
    let found = MvarScalars::fill(&[0], 4, &[], &mut list);
    t.refused("MvarScalars: fill", found);
    t.check("the list of scalars", list == [-77; 2], list);
    match Scalars::fill(&[0], 4, &[0], &mut list) {
        Ok(scalars) => {
            t.refused("Scalars: advance_delta", scalars.advance_delta(0));
            let found = scalars.advance_delta_fixed(0);
            t.refused("Scalars: advance_delta_fixed", found);
            t.refused("Scalars: sb_delta", scalars.sb_delta(0));
            t.refused("Scalars: sb_delta_fixed", scalars.sb_delta_fixed(0));
        }
        found => t.check("Scalars: filled", false, found),
    }
    match MvarScalars::fill(&[0], 0, &[0], &mut list) {
        Ok(scalars) => {
            t.refused("MvarScalars: delta", scalars.delta(0));
            t.refused("MvarScalars: delta_fixed", scalars.delta_fixed(0));
        }
        found => t.check("MvarScalars: filled", false, found),
    }
}

fn axes(t: &mut Test) {
    let (mut floats, mut coords) = ([-77.; 2], [-77; 2]);
    t.refused("axis", axis(&[], 0));
    t.refused("axis_by_tag", axis_by_tag(&[], 0));
    t.refused("instance", instance(&[], 0));
    t.refused("instance_floats", instance_floats(&[], 0, &mut floats));
    t.check("instance_floats: its list", floats == [-77.; 2], floats);
    let found = normalized_coords(&[], &[], 0, &[], &[], &mut coords);
    t.refused("normalized_coords", found);
    t.check("normalized_coords: its list", coords == [-77; 2], coords);
    let found = instance_coords(&[], &[], 0, 0, &mut coords);
    t.refused("instance_coords", found);
    t.check("instance_coords: its list", coords == [-77; 2], coords);
}

fn measures(t: &mut Test) {
    let before = Metrics {
        ascent: 800.,
        stroke_size: 50.,
        ..Metrics::default()
    };
    let mut record = before;
    let found = materialize_metrics(&[], 4, &[], true, &mut record);
    t.refused("materialize_metrics", found);
    t.refused("scale_metrics", scale_metrics(1000, 16., &mut record));
    t.refused(
        "linear_scale_metrics",
        linear_scale_metrics(2., &mut record),
    );
    t.check("the record of measures", record == before, record);
}

fn glyphs(t: &mut Test) {
    for vertical in [
        Vertical::VmtxGlyf { vvar: 4 },
        Vertical::VmtxVorg { vvar: 4 },
        Vertical::Synthesized {
            mvar: 4,
            advance: 1000.,
            origin: 800.,
        },
    ] {
        let m = GlyphMetrics {
            units_per_em: 1000,
            hvar: 4,
            vertical,
            scale: 2.,
        };
        t.refused("advance_height", m.advance_height(&[], 0, &[], 500));
        t.refused("tsb", m.tsb(&[], 0, &[], 1));
        let found = m.vertical_origin(&[], 0, &[], 1, Some(10));
        t.refused("vertical_origin", found);
        // by vmtx the library is not asked
        match vertical {
            Vertical::Synthesized { .. } => t.refused("materialize", m.materialize(&[], &[])),
            _ => t.check("materialize", m.materialize(&[], &[]) == Ok(m), vertical),
        }
    }
}

fn numbers(t: &mut Test) {
    t.refused("xmtx_advance", xmtx_advance(&[], 4, 1, 0));
    t.refused("xmtx_sb", xmtx_sb(&[], 4, 1, 0));
    t.refused("vorg_origin", vorg_origin(&[], 4, 0));
    let found = adjusted_advance(&[], 4, 1, 4, 0, &[], 2.);
    t.refused("adjusted_advance", found);
    t.refused("adjusted_sb", adjusted_sb(&[], 4, 1, 4, 0, &[], 2.));
}

fn main() -> ExitCode {
    let mut t = Test::default();
    t.check("version", version() == VERSION + 1, version());
    deltas(&mut t);
    lists(&mut t);
    axes(&mut t);
    measures(&mut t);
    glyphs(&mut t);
    numbers(&mut t);
    println!("{} passed, {} failed", t.passed, t.failed);
    ExitCode::from((t.failed != 0) as u8)
}
