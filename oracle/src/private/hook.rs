
// From here on ours: what swash's metrics.rs above keeps private. A proxy is made from numbers, and
// nothing else is done.

/// What a proxy keeps for vertical type, but for the tables that are not read here.
#[derive(Copy, Clone)]
pub enum VerticalNumbers {
    Glyf {
        vvar: u32,
    },
    Vorg {
        vvar: u32,
    },
    Synthesized {
        mvar: u32,
        advance: f32,
        origin: f32,
    },
}

impl VerticalNumbers {
    fn vertical(self) -> Vertical {
        match self {
            VerticalNumbers::Glyf { vvar } => Vertical::VmtxGlyf {
                loca_fmt: 0,
                long_count: 0,
                vmtx: 0,
                vvar,
                glyf: 0,
                loca: 0,
            },
            VerticalNumbers::Vorg { vvar } => Vertical::VmtxVorg {
                long_count: 0,
                vmtx: 0,
                vvar,
                vorg: 0,
            },
            VerticalNumbers::Synthesized {
                mvar,
                advance,
                origin,
            } => Vertical::Synthesized {
                mvar,
                advance,
                origin,
            },
        }
    }
}

impl MetricsProxy {
    /// The measures come in the order of `Metrics`, each in its field's range.
    pub fn of_measures(m: [i32; 13], has_vertical_metrics: bool, mvar: u32) -> Self {
        MetricsProxy {
            has_vertical_metrics,
            ascent: m[0] as i16,
            descent: m[1] as i16,
            leading: m[2] as i16,
            vertical_ascent: m[3] as i16,
            vertical_descent: m[4] as i16,
            vertical_leading: m[5] as i16,
            cap_height: m[6] as i16,
            x_height: m[7] as i16,
            average_width: m[8] as u16,
            max_width: m[9] as u16,
            underline_offset: m[10] as i16,
            strikeout_offset: m[11] as i16,
            stroke_size: m[12] as i16,
            mvar,
            ..Self::default()
        }
    }

    pub fn of_glyphs(
        units_per_em: u16,
        hvar: u32,
        has_vvar: bool,
        vertical: VerticalNumbers,
    ) -> Self {
        MetricsProxy {
            units_per_em,
            hvar,
            has_vvar,
            vertical: vertical.vertical(),
            ..Self::default()
        }
    }
}
