
// From here on ours: what swash's var.rs above keeps private. It is called, and nothing else.

/// The delta behind `advance_delta`.
pub fn raw_advance_delta(
    data: &[u8],
    xvar: u32,
    glyph_id: u16,
    coords: &[i16],
) -> Option<Fixed> {
    metric_delta(data, xvar, 8, glyph_id, coords)
}

/// The delta behind `sb_delta`.
pub fn raw_sb_delta(data: &[u8], xvar: u32, glyph_id: u16, coords: &[i16]) -> Option<Fixed> {
    metric_delta(data, xvar, 12, glyph_id, coords)
}

impl Mvar<'_> {
    /// Record size, record count and store offset.
    pub fn numbers(&self) -> (usize, usize, u32) {
        (self.rec_size, self.rec_count, self.store)
    }

    /// The delta behind `delta`.
    pub fn raw_delta(&self, metric: RawTag) -> Option<Fixed> {
        self.read_delta(metric)
    }
}
