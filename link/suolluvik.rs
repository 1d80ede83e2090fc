//! Suolluvik for Rust: safe functions over `libsuolluvik.a`, for plain rustc, with no crate from a registry.
//!
//! `mod suolluvik;` takes this file in, in a crate of edition 2021; `link/README.md` says how to link the archive, and what to do
//! in edition 2024. The oldest rustc that it was built by is 1.63. The names are swash's where swash has the function. Each
//! takes any bytes, offsets, ids, coordinates and floats, and answers a value or a [`Refusal`]; on a refusal no lent list
//! changes. Where nothing can be refused the value comes alone. None panics.
//!
//! A font is the whole file, and offsets count from its start; 0 says that there is no such table. `fvar` is that table
//! alone. Coordinates are normalised, in 2.14; a missing one is 0. A 16.16 number is its raw integer. A tag is the number
//! that its four letters make, the first one highest: `u32::from_be_bytes(*b"wght")`.
//!
//! The thread's float environment rounds to nearest and flushes nothing to zero, as a Rust program's does.
//!
//! The answers are swash's, also where OpenType says something else, but for avar maps that OpenType does not allow, for rows
//! past a subtable's item count, for what hmtx, vmtx and VORG do not have, which is refused, where swash has some number, and
//! for an instance's PostScript name id, where swash has another number of the table; `docs/DIFFERENCES.md` has each such place.

// `tests/prototypes` holds these to the library's source.
mod exports {
    use super::Metrics;

    extern "C" {
        pub fn suolluvik_version() -> u32;
        pub fn suolluvik_advance_delta_fixed(
            font: *const u8,
            font_len: usize,
            xvar: u32,
            glyph_id: u16,
            coords: *const i16,
            coords_len: usize,
            value: *mut i32,
        ) -> u8;
        pub fn suolluvik_advance_delta(
            font: *const u8,
            font_len: usize,
            xvar: u32,
            glyph_id: u16,
            coords: *const i16,
            coords_len: usize,
            value: *mut f32,
        ) -> u8;
        pub fn suolluvik_sb_delta_fixed(
            font: *const u8,
            font_len: usize,
            xvar: u32,
            glyph_id: u16,
            coords: *const i16,
            coords_len: usize,
            value: *mut i32,
        ) -> u8;
        pub fn suolluvik_sb_delta(
            font: *const u8,
            font_len: usize,
            xvar: u32,
            glyph_id: u16,
            coords: *const i16,
            coords_len: usize,
            value: *mut f32,
        ) -> u8;
        pub fn suolluvik_mvar_delta_fixed(
            font: *const u8,
            font_len: usize,
            mvar: u32,
            tag: u32,
            coords: *const i16,
            coords_len: usize,
            value: *mut i32,
        ) -> u8;
        pub fn suolluvik_mvar_delta(
            font: *const u8,
            font_len: usize,
            mvar: u32,
            tag: u32,
            coords: *const i16,
            coords_len: usize,
            value: *mut f32,
        ) -> u8;
        pub fn suolluvik_store_offset(
            font: *const u8,
            font_len: usize,
            xvar: u32,
            value: *mut u32,
        ) -> u8;
        pub fn suolluvik_mvar_store_offset(
            font: *const u8,
            font_len: usize,
            mvar: u32,
            value: *mut u32,
        ) -> u8;
        pub fn suolluvik_fill_scalars(
            font: *const u8,
            font_len: usize,
            store: u32,
            coords: *const i16,
            coords_len: usize,
            scalars: *mut i32,
            scalars_len: usize,
            count: *mut u16,
        ) -> u8;
        pub fn suolluvik_advance_delta_fixed_with(
            font: *const u8,
            font_len: usize,
            xvar: u32,
            glyph_id: u16,
            scalars: *const i32,
            scalars_len: usize,
            value: *mut i32,
        ) -> u8;
        pub fn suolluvik_advance_delta_with(
            font: *const u8,
            font_len: usize,
            xvar: u32,
            glyph_id: u16,
            scalars: *const i32,
            scalars_len: usize,
            value: *mut f32,
        ) -> u8;
        pub fn suolluvik_sb_delta_fixed_with(
            font: *const u8,
            font_len: usize,
            xvar: u32,
            glyph_id: u16,
            scalars: *const i32,
            scalars_len: usize,
            value: *mut i32,
        ) -> u8;
        pub fn suolluvik_sb_delta_with(
            font: *const u8,
            font_len: usize,
            xvar: u32,
            glyph_id: u16,
            scalars: *const i32,
            scalars_len: usize,
            value: *mut f32,
        ) -> u8;
        pub fn suolluvik_mvar_delta_fixed_with(
            font: *const u8,
            font_len: usize,
            mvar: u32,
            tag: u32,
            scalars: *const i32,
            scalars_len: usize,
            value: *mut i32,
        ) -> u8;
        pub fn suolluvik_mvar_delta_with(
            font: *const u8,
            font_len: usize,
            mvar: u32,
            tag: u32,
            scalars: *const i32,
            scalars_len: usize,
            value: *mut f32,
        ) -> u8;
        pub fn suolluvik_axis_count(fvar: *const u8, fvar_len: usize) -> u16;
        pub fn suolluvik_instance_count(fvar: *const u8, fvar_len: usize) -> u16;
        pub fn suolluvik_axis(
            fvar: *const u8,
            fvar_len: usize,
            index: u16,
            tag: *mut u32,
            min: *mut i32,
            default_value: *mut i32,
            max: *mut i32,
            flags: *mut u16,
            name_id: *mut u16,
        ) -> u8;
        pub fn suolluvik_axis_by_tag(
            fvar: *const u8,
            fvar_len: usize,
            tag: u32,
            index: *mut u16,
            min: *mut i32,
            default_value: *mut i32,
            max: *mut i32,
            flags: *mut u16,
            name_id: *mut u16,
        ) -> u8;
        pub fn suolluvik_fixed_to_f32(fixed: i32) -> f32;
        pub fn suolluvik_instance(
            fvar: *const u8,
            fvar_len: usize,
            index: u16,
            name_id: *mut u16,
            has_postscript_name: *mut u8,
            postscript_name_id: *mut u16,
        ) -> u8;
        pub fn suolluvik_instance_floats(
            fvar: *const u8,
            fvar_len: usize,
            index: u16,
            out: *mut f32,
            out_len: usize,
            count: *mut u16,
        ) -> u8;
        pub fn suolluvik_normalized_coords(
            fvar: *const u8,
            fvar_len: usize,
            font: *const u8,
            font_len: usize,
            avar: u32,
            tags: *const u32,
            tags_len: usize,
            values: *const f32,
            values_len: usize,
            out: *mut i16,
            out_len: usize,
            count: *mut u16,
        ) -> u8;
        pub fn suolluvik_instance_coords(
            fvar: *const u8,
            fvar_len: usize,
            font: *const u8,
            font_len: usize,
            avar: u32,
            index: u16,
            out: *mut i16,
            out_len: usize,
            count: *mut u16,
        ) -> u8;
        pub fn suolluvik_materialize_metrics(
            font: *const u8,
            font_len: usize,
            mvar: u32,
            coords: *const i16,
            coords_len: usize,
            has_vertical_metrics: bool,
            measures: *mut Metrics,
            measures_len: usize,
        ) -> u8;
        pub fn suolluvik_scale_metrics(
            units_per_em: u16,
            ppem: f32,
            measures: *mut Metrics,
            measures_len: usize,
        ) -> u8;
        pub fn suolluvik_linear_scale_metrics(
            scale: f32,
            measures: *mut Metrics,
            measures_len: usize,
        ) -> u8;
        pub fn suolluvik_scale_glyph_metrics(units_per_em: u16, ppem: f32) -> f32;
        pub fn suolluvik_advance_width(
            font: *const u8,
            font_len: usize,
            hvar: u32,
            glyph_id: u16,
            coords: *const i16,
            coords_len: usize,
            unvaried: u16,
            scale: f32,
        ) -> f32;
        pub fn suolluvik_lsb(
            font: *const u8,
            font_len: usize,
            hvar: u32,
            glyph_id: u16,
            coords: *const i16,
            coords_len: usize,
            unvaried: i16,
            scale: f32,
        ) -> f32;
        pub fn suolluvik_synthesize(ascent: f32, descent: f32, advance: *mut f32, origin: *mut f32);
        pub fn suolluvik_materialize_glyph_metrics(
            font: *const u8,
            font_len: usize,
            vertical: u8,
            mvar: u32,
            coords: *const i16,
            coords_len: usize,
            advance: f32,
            origin: f32,
            advance_at: *mut f32,
            origin_at: *mut f32,
        ) -> u8;
        pub fn suolluvik_advance_height(
            font: *const u8,
            font_len: usize,
            vertical: u8,
            vvar: u32,
            synthesized: f32,
            glyph_id: u16,
            coords: *const i16,
            coords_len: usize,
            unvaried: u16,
            scale: f32,
            value: *mut f32,
        ) -> u8;
        pub fn suolluvik_tsb(
            font: *const u8,
            font_len: usize,
            vertical: u8,
            vvar: u32,
            glyph_id: u16,
            coords: *const i16,
            coords_len: usize,
            unvaried: i16,
            scale: f32,
            value: *mut f32,
        ) -> u8;
        pub fn suolluvik_vertical_origin(
            font: *const u8,
            font_len: usize,
            units_per_em: u16,
            vertical: u8,
            vvar: u32,
            synthesized: f32,
            glyph_id: u16,
            coords: *const i16,
            coords_len: usize,
            unvaried: i16,
            has_y: bool,
            y: i16,
            scale: f32,
            value: *mut f32,
        ) -> u8;
        pub fn suolluvik_xmtx_advance(
            font: *const u8,
            font_len: usize,
            xmtx: u32,
            long_metric_count: u16,
            glyph_id: u16,
            value: *mut u16,
        ) -> u8;
        pub fn suolluvik_xmtx_sb(
            font: *const u8,
            font_len: usize,
            xmtx: u32,
            long_metric_count: u16,
            glyph_id: u16,
            value: *mut i16,
        ) -> u8;
        pub fn suolluvik_vorg_origin(
            font: *const u8,
            font_len: usize,
            vorg: u32,
            glyph_id: u16,
            value: *mut i16,
        ) -> u8;
        pub fn suolluvik_adjusted_advance(
            font: *const u8,
            font_len: usize,
            xmtx: u32,
            long_metric_count: u16,
            xvar: u32,
            glyph_id: u16,
            coords: *const i16,
            coords_len: usize,
            scale: f32,
            value: *mut f32,
        ) -> u8;
        pub fn suolluvik_adjusted_sb(
            font: *const u8,
            font_len: usize,
            xmtx: u32,
            long_metric_count: u16,
            xvar: u32,
            glyph_id: u16,
            coords: *const i16,
            coords_len: usize,
            scale: f32,
            value: *mut f32,
        ) -> u8;
    }
}

/// The version of the interface that is wrapped here. It rises by one when a function, a refusal or a size of the record of
/// measures is added; nothing is taken away.
pub const VERSION: u32 = 3;

/// The version of the library that is linked. Where it is lower than [`VERSION`] the library is older than this file.
pub fn version() -> u32 {
    unsafe { exports::suolluvik_version() }
}

/// Why there is no value. A later version may name more.
#[derive(Copy, Clone, PartialEq, Eq, Debug)]
#[non_exhaustive]
pub enum Refusal {
    /// An offset of HVAR, VVAR, hmtx, vmtx, VORG, of the store or of a bearing map is 0, or an MVAR has no records.
    Absent,
    /// A read reaches past the end, or did when the list of scalars was filled.
    Short,
    /// An axis, instance, subtable, row or region index is not below its count.
    Index,
    /// A tag is not found.
    Tag,
    /// A map count of 0, no long records, more words than region indices, an offset of 2^32 or more, an instance size of 0 or
    /// 1, a value that can't be normalised.
    Arithmetic,
    /// Tags and values differ in number.
    Lengths,
    /// A list is too short for what is to be written, a list of scalars has fewer numbers than there are regions, or the
    /// library has no record of measures of this size.
    Room,
    /// A number that has no name here: the library is newer than this file.
    Other(u8),
}

impl Refusal {
    /// The library's number of it.
    pub fn number(self) -> u8 {
        match self {
            Refusal::Absent => 1,
            Refusal::Short => 2,
            Refusal::Index => 3,
            Refusal::Tag => 4,
            Refusal::Arithmetic => 5,
            Refusal::Lengths => 6,
            Refusal::Room => 7,
            Refusal::Other(number) => number,
        }
    }

    /// The refusal that has a number; none has 0.
    pub fn of(number: u8) -> Option<Refusal> {
        Some(match number {
            0 => return None,
            1 => Refusal::Absent,
            2 => Refusal::Short,
            3 => Refusal::Index,
            4 => Refusal::Tag,
            5 => Refusal::Arithmetic,
            6 => Refusal::Lengths,
            7 => Refusal::Room,
            number => Refusal::Other(number),
        })
    }
}

impl std::fmt::Display for Refusal {
    fn fmt(&self, f: &mut std::fmt::Formatter) -> std::fmt::Result {
        write!(f, "refused by {}: {self:?}", self.number())
    }
}

impl std::error::Error for Refusal {}

/// The value, unless the number is a refusal's.
fn answer<T>(number: u8, value: T) -> Result<T, Refusal> {
    match Refusal::of(number) {
        None => Ok(value),
        Some(refusal) => Err(refusal),
    }
}

// The four deltas of a glyph and the two of a measure are asked for in the same way. SAFETY of all the calls below: a slice
// is as many elements as it says, its pointer is never null and is aligned; a `&mut` overlaps nothing else.
macro_rules! delta {
    ($(#[$doc:meta])* $name:ident, $export:ident, $id:ident: $id_type:ty, $table:ident, $value:ty) => {
        $(#[$doc])*
        pub fn $name(font: &[u8], $table: u32, $id: $id_type, coords: &[i16]) -> Result<$value, Refusal> {
            let mut value = <$value>::default();
            let number = unsafe {
                exports::$export(
                    font.as_ptr(),
                    font.len(),
                    $table,
                    $id,
                    coords.as_ptr(),
                    coords.len(),
                    &mut value,
                )
            };
            answer(number, value)
        }
    };
}

delta! {
    /// The delta of a glyph's advance as a 16.16 number, by the HVAR or VVAR at the offset xvar.
    advance_delta_fixed, suolluvik_advance_delta_fixed, glyph_id: u16, xvar, i32
}
delta! {
    /// The same as a float.
    advance_delta, suolluvik_advance_delta, glyph_id: u16, xvar, f32
}
delta! {
    /// The delta of a glyph's left or top bearing as a 16.16 number, by the HVAR or VVAR at the offset xvar.
    sb_delta_fixed, suolluvik_sb_delta_fixed, glyph_id: u16, xvar, i32
}
delta! {
    /// The same as a float.
    sb_delta, suolluvik_sb_delta, glyph_id: u16, xvar, f32
}
delta! {
    /// The delta of a measure as a 16.16 number, by its tag, by the MVAR at the offset mvar; an offset of 0 is opened like any
    /// other. As in swash a record's two indices are taken in the other order than OpenType's: most records of real fonts are
    /// refused by [`Refusal::Index`].
    mvar_delta_fixed, suolluvik_mvar_delta_fixed, tag: u32, mvar, i32
}
delta! {
    /// The same as a float.
    mvar_delta, suolluvik_mvar_delta, tag: u32, mvar, f32
}

/// The offset of the store of the HVAR or VVAR at the offset xvar, which [`Scalars::fill`] asks for by itself. No xvar or no store
/// is [`Refusal::Absent`], an offset of 2^32 or more [`Refusal::Arithmetic`].
pub fn store_offset(font: &[u8], xvar: u32) -> Result<u32, Refusal> {
    let mut value = 0;
    let number =
        unsafe { exports::suolluvik_store_offset(font.as_ptr(), font.len(), xvar, &mut value) };
    answer(number, value)
}

/// The offset of the store of the MVAR at the offset mvar, from where that MVAR starts; [`MvarScalars::fill`] asks for it by
/// itself. No records or no store is [`Refusal::Absent`]; an mvar of 0 is opened like any other.
pub fn mvar_store_offset(font: &[u8], mvar: u32) -> Result<u32, Refusal> {
    let mut value = 0;
    let number = unsafe {
        exports::suolluvik_mvar_store_offset(font.as_ptr(), font.len(), mvar, &mut value)
    };
    answer(number, value)
}

/// Fills a list for the store at an offset, and cuts it to the number of its regions.
fn filled<'a>(
    font: &[u8],
    store: u32,
    coords: &[i16],
    list: &'a mut [i32],
) -> Result<&'a [i32], Refusal> {
    let mut count = 0;
    let number = unsafe {
        exports::suolluvik_fill_scalars(
            font.as_ptr(),
            font.len(),
            store,
            coords.as_ptr(),
            coords.len(),
            list.as_mut_ptr(),
            list.len(),
            &mut count,
        )
    };
    // a list that was filled is as long as that at least
    let list = list.get(..usize::from(count)).unwrap_or_default();
    answer(number, list)
}

// Each delta has a form that is read with a list.
macro_rules! delta_with {
    ($(#[$doc:meta])* $name:ident, $export:ident, $id:ident: $id_type:ty, $table:ident, $value:ty) => {
        $(#[$doc])*
        pub fn $name(&self, $id: $id_type) -> Result<$value, Refusal> {
            let mut value = <$value>::default();
            let number = unsafe {
                exports::$export(
                    self.font.as_ptr(),
                    self.font.len(),
                    self.$table,
                    $id,
                    self.list.as_ptr(),
                    self.list.len(),
                    &mut value,
                )
            };
            answer(number, value)
        }
    };
}

/// The scalars of an HVAR's or VVAR's regions at some coordinates, for a line of type: the regions are worked out once, and each
/// delta is then read with no coordinates. For every glyph it is exactly the one at those coordinates, refusals included.
///
/// Font and list are borrowed, so that neither can change before the last delta is read; and there are no scalars that are not
/// filled.
#[derive(Copy, Clone)]
pub struct Scalars<'a> {
    font: &'a [u8],
    xvar: u32,
    list: &'a [i32],
}

impl<'a> Scalars<'a> {
    /// Fills the first elements of a list, by the HVAR or VVAR at the offset xvar; those beyond stay. A list that has fewer
    /// elements than there are regions is [`Refusal::Room`]; 65535 have room for every font. Else it is refused as
    /// [`store_offset`] is, or as [`Refusal::Short`] where the number of regions can't be read.
    pub fn fill(
        font: &'a [u8],
        xvar: u32,
        coords: &[i16],
        list: &'a mut [i32],
    ) -> Result<Scalars<'a>, Refusal> {
        let list = filled(font, store_offset(font, xvar)?, coords, list)?;
        Ok(Scalars { font, xvar, list })
    }

    /// A number for each region: its scalar, from 0 to 65536, or -1 where its record runs out before that is known.
    pub fn as_slice(&self) -> &'a [i32] {
        self.list
    }

    delta_with! {
        /// What [`advance_delta_fixed`] answers.
        advance_delta_fixed, suolluvik_advance_delta_fixed_with, glyph_id: u16, xvar, i32
    }
    delta_with! {
        /// What [`advance_delta`] answers.
        advance_delta, suolluvik_advance_delta_with, glyph_id: u16, xvar, f32
    }
    delta_with! {
        /// What [`sb_delta_fixed`] answers.
        sb_delta_fixed, suolluvik_sb_delta_fixed_with, glyph_id: u16, xvar, i32
    }
    delta_with! {
        /// What [`sb_delta`] answers.
        sb_delta, suolluvik_sb_delta_with, glyph_id: u16, xvar, f32
    }
}

/// Shows the list, and of the font nothing.
impl std::fmt::Debug for Scalars<'_> {
    fn fmt(&self, f: &mut std::fmt::Formatter) -> std::fmt::Result {
        std::fmt::Debug::fmt(self.list, f)
    }
}

/// The scalars of an MVAR's regions at some coordinates, in the same way: an MVAR has a store of its own.
#[derive(Copy, Clone)]
pub struct MvarScalars<'a> {
    font: &'a [u8],
    mvar: u32,
    list: &'a [i32],
}

impl<'a> MvarScalars<'a> {
    /// Fills the first elements of a list, by the MVAR at the offset mvar; those beyond stay. Refused as [`Scalars::fill`] is, but
    /// for the offset: as [`mvar_store_offset`] is.
    pub fn fill(
        font: &'a [u8],
        mvar: u32,
        coords: &[i16],
        list: &'a mut [i32],
    ) -> Result<MvarScalars<'a>, Refusal> {
        let store = mvar_store_offset(font, mvar)?;
        // all offsets of an MVAR count from its start, which is within the font where it opens
        let start = usize::try_from(mvar).ok();
        let part = start
            .and_then(|start| font.get(start..))
            .unwrap_or_default();
        let list = filled(part, store, coords, list)?;
        Ok(MvarScalars { font, mvar, list })
    }

    /// A number for each region, as [`Scalars::as_slice`] has them.
    pub fn as_slice(&self) -> &'a [i32] {
        self.list
    }

    delta_with! {
        /// What [`mvar_delta_fixed`] answers.
        delta_fixed, suolluvik_mvar_delta_fixed_with, tag: u32, mvar, i32
    }
    delta_with! {
        /// What [`mvar_delta`] answers.
        delta, suolluvik_mvar_delta_with, tag: u32, mvar, f32
    }
}

/// Shows the list, and of the font nothing.
impl std::fmt::Debug for MvarScalars<'_> {
    fn fmt(&self, f: &mut std::fmt::Formatter) -> std::fmt::Result {
        std::fmt::Debug::fmt(self.list, f)
    }
}

/// How many axes fvar's header counts; 0 where that can't be read.
pub fn axis_count(fvar: &[u8]) -> u16 {
    unsafe { exports::suolluvik_axis_count(fvar.as_ptr(), fvar.len()) }
}

/// How many instances fvar's header counts; 0 where that can't be read.
pub fn instance_count(fvar: &[u8]) -> u16 {
    unsafe { exports::suolluvik_instance_count(fvar.as_ptr(), fvar.len()) }
}

/// A 16.16 number as the nearest float.
pub fn fixed_to_f32(fixed: i32) -> f32 {
    unsafe { exports::suolluvik_fixed_to_f32(fixed) }
}

/// Axis of variation in a variable font; min, default and max are 16.16 numbers.
#[derive(Copy, Clone, PartialEq, Eq, Debug, Default)]
pub struct Axis {
    pub index: u16,
    pub tag: u32,
    pub min: i32,
    pub default: i32,
    pub max: i32,
    pub flags: u16,
    pub name_id: u16,
}

impl Axis {
    /// Whether the axis should be hidden in a user interface.
    pub fn is_hidden(&self) -> bool {
        self.flags & 1 == 1
    }

    pub fn min_value(&self) -> f32 {
        fixed_to_f32(self.min)
    }

    pub fn default_value(&self) -> f32 {
        fixed_to_f32(self.default)
    }

    pub fn max_value(&self) -> f32 {
        fixed_to_f32(self.max)
    }
}

/// Axis `index`.
pub fn axis(fvar: &[u8], index: u16) -> Result<Axis, Refusal> {
    let mut a = Axis {
        index,
        ..Axis::default()
    };
    let number = unsafe {
        exports::suolluvik_axis(
            fvar.as_ptr(),
            fvar.len(),
            index,
            &mut a.tag,
            &mut a.min,
            &mut a.default,
            &mut a.max,
            &mut a.flags,
            &mut a.name_id,
        )
    };
    answer(number, a)
}

/// The first axis with a tag.
pub fn axis_by_tag(fvar: &[u8], tag: u32) -> Result<Axis, Refusal> {
    let mut a = Axis {
        tag,
        ..Axis::default()
    };
    let number = unsafe {
        exports::suolluvik_axis_by_tag(
            fvar.as_ptr(),
            fvar.len(),
            tag,
            &mut a.index,
            &mut a.min,
            &mut a.default,
            &mut a.max,
            &mut a.flags,
            &mut a.name_id,
        )
    };
    answer(number, a)
}

/// Named instance in a variable font. The PostScript name id stands at the end of the instance's own record, and 0xFFFF there
/// says that there is none; swash reads another number of the table.
#[derive(Copy, Clone, PartialEq, Eq, Debug, Default)]
pub struct Instance {
    pub index: u16,
    pub name_id: u16,
    pub postscript_name_id: Option<u16>,
}

/// Instance `index`.
pub fn instance(fvar: &[u8], index: u16) -> Result<Instance, Refusal> {
    let (mut name_id, mut has_postscript_name, mut postscript_name_id) = (0, 0, 0);
    let number = unsafe {
        exports::suolluvik_instance(
            fvar.as_ptr(),
            fvar.len(),
            index,
            &mut name_id,
            &mut has_postscript_name,
            &mut postscript_name_id,
        )
    };
    let postscript_name_id = (has_postscript_name == 1).then_some(postscript_name_id);
    answer(
        number,
        Instance {
            index,
            name_id,
            postscript_name_id,
        },
    )
}

/// The values of an instance, one for each axis, in the first elements of out; answers how many.
pub fn instance_floats(fvar: &[u8], index: u16, out: &mut [f32]) -> Result<u16, Refusal> {
    let mut count = 0;
    let number = unsafe {
        exports::suolluvik_instance_floats(
            fvar.as_ptr(),
            fvar.len(),
            index,
            out.as_mut_ptr(),
            out.len(),
            &mut count,
        )
    };
    answer(number, count)
}

/// The coordinates that settings give, `tags[s]` with `values[s]`, in the first elements of out; answers how many, at most 32.
/// The last setting of a tag wins; an axis without one is at 0; one with a tag that no axis has changes nothing; a NaN counts
/// as 0. avar is an offset in the font.
pub fn normalized_coords(
    fvar: &[u8],
    font: &[u8],
    avar: u32,
    tags: &[u32],
    values: &[f32],
    out: &mut [i16],
) -> Result<u16, Refusal> {
    let mut count = 0;
    let number = unsafe {
        exports::suolluvik_normalized_coords(
            fvar.as_ptr(),
            fvar.len(),
            font.as_ptr(),
            font.len(),
            avar,
            tags.as_ptr(),
            tags.len(),
            values.as_ptr(),
            values.len(),
            out.as_mut_ptr(),
            out.len(),
            &mut count,
        )
    };
    answer(number, count)
}

/// The coordinates of an instance, one for each axis, in the first elements of out; answers how many.
pub fn instance_coords(
    fvar: &[u8],
    font: &[u8],
    avar: u32,
    index: u16,
    out: &mut [i16],
) -> Result<u16, Refusal> {
    let mut count = 0;
    let number = unsafe {
        exports::suolluvik_instance_coords(
            fvar.as_ptr(),
            fvar.len(),
            font.as_ptr(),
            font.len(),
            avar,
            index,
            out.as_mut_ptr(),
            out.len(),
            &mut count,
        )
    };
    answer(number, count)
}

/// A font's measures: the library's record of thirteen floats, with swash's names; a descent is minus OpenType's descender. A
/// later version may have more behind these: `..Metrics::default()` at the end of a record leaves room for them.
#[derive(Copy, Clone, PartialEq, Debug, Default)]
#[repr(C)]
pub struct Metrics {
    pub ascent: f32,
    pub descent: f32,
    pub leading: f32,
    pub vertical_ascent: f32,
    pub vertical_descent: f32,
    pub vertical_leading: f32,
    pub cap_height: f32,
    pub x_height: f32,
    pub average_width: f32,
    pub max_width: f32,
    pub underline_offset: f32,
    pub strikeout_offset: f32,
    pub stroke_size: f32,
}

/// A record goes to the library with how many floats it has.
const METRICS_FLOATS: usize = std::mem::size_of::<Metrics>() / std::mem::size_of::<f32>();

/// From the unvaried measures, in font units, those at some coordinates, in place, by the MVAR at the offset mvar, 0 for none;
/// the vertical ones are shifted only with vertical metrics, which is to say if the font has a vhea. Where it does not open, or
/// the coordinate list is empty, they stay; where a delta is refused, so does its measure. What is shifted already is shifted
/// once more.
///
/// This and the two below refuse nothing today. Should this file's record once be longer than the library's, it is
/// [`Refusal::Room`], and the measures are as they were.
pub fn materialize_metrics(
    font: &[u8],
    mvar: u32,
    coords: &[i16],
    has_vertical_metrics: bool,
    measures: &mut Metrics,
) -> Result<(), Refusal> {
    let number = unsafe {
        exports::suolluvik_materialize_metrics(
            font.as_ptr(),
            font.len(),
            mvar,
            coords.as_ptr(),
            coords.len(),
            has_vertical_metrics,
            measures,
            METRICS_FLOATS,
        )
    };
    answer(number, ())
}

/// The measures scaled for pixels per em, in place; by 1 where there are no units per em.
pub fn scale_metrics(units_per_em: u16, ppem: f32, measures: &mut Metrics) -> Result<(), Refusal> {
    let number =
        unsafe { exports::suolluvik_scale_metrics(units_per_em, ppem, measures, METRICS_FLOATS) };
    answer(number, ())
}

/// The measures scaled by a factor, in place.
pub fn linear_scale_metrics(scale: f32, measures: &mut Metrics) -> Result<(), Refusal> {
    let number =
        unsafe { exports::suolluvik_linear_scale_metrics(scale, measures, METRICS_FLOATS) };
    answer(number, ())
}

/// What a font has for vertical type: vmtx and glyf, vmtx and VORG, or neither. `vvar` and `mvar` are offsets in the font, 0 for
/// none; advance and origin are in font units. swash looks for vmtx only where there is a vhea, and for VORG before glyf; where
/// it finds vmtx and neither of these, it synthesizes from zeros, with 0 for `mvar`.
#[derive(Copy, Clone, PartialEq, Debug)]
pub enum Vertical {
    VmtxGlyf {
        vvar: u32,
    },
    VmtxVorg {
        vvar: u32,
    },
    Synthesized {
        mvar: u32,
        advance: f32,
        origin: f32,
    },
}

impl Vertical {
    /// What swash synthesizes from a font's unvaried measures, of which the descent is minus OpenType's descender.
    pub fn synthesize(mvar: u32, ascent: f32, descent: f32) -> Vertical {
        let (mut advance, mut origin) = (0., 0.);
        unsafe { exports::suolluvik_synthesize(ascent, descent, &mut advance, &mut origin) };
        Vertical::Synthesized {
            mvar,
            advance,
            origin,
        }
    }

    /// The library's number of the case, and the offset of VVAR.
    fn number(self) -> (u8, u32) {
        match self {
            Vertical::VmtxGlyf { vvar } => (0, vvar),
            Vertical::VmtxVorg { vvar } => (1, vvar),
            Vertical::Synthesized { .. } => (2, 0),
        }
    }

    /// The synthesized advance and origin, which the library does not use in the other cases.
    fn synthesized(self) -> (f32, f32) {
        match self {
            Vertical::Synthesized {
                advance, origin, ..
            } => (advance, origin),
            _ => (0., 0.),
        }
    }
}

/// What is the same for all glyphs of a font. `hvar` is an offset in the font, 0 for none; a scale of 1 is font units. Each
/// call is lent the font and the coordinates, and given the glyph's unvaried numbers, as [`xmtx_advance`], [`xmtx_sb`] and
/// [`vorg_origin`] read them.
///
/// A refused delta is 0, as in swash. The library can refuse nothing else here but the number of a vertical case, and of these
/// [`Vertical`] has only its own; so the vertical functions refuse nothing today, and answer a `Result` for the sake of a
/// library that is newer than this file.
#[derive(Copy, Clone, PartialEq, Debug)]
pub struct GlyphMetrics {
    pub units_per_em: u16,
    pub hvar: u32,
    pub vertical: Vertical,
    pub scale: f32,
}

impl GlyphMetrics {
    /// The same, scaled for pixels per em, whatever the scale was; by 1 where there are no units per em.
    pub fn scale(self, ppem: f32) -> GlyphMetrics {
        let scale = unsafe { exports::suolluvik_scale_glyph_metrics(self.units_per_em, ppem) };
        self.linear_scale(scale)
    }

    /// The same with this scale, whatever it was.
    pub fn linear_scale(self, scale: f32) -> GlyphMetrics {
        GlyphMetrics { scale, ..self }
    }

    /// From the unvaried ones those at some coordinates: a synthesized case is shifted by MVAR, all else stays. What is shifted
    /// already is shifted once more.
    pub fn materialize(self, font: &[u8], coords: &[i16]) -> Result<GlyphMetrics, Refusal> {
        let mvar = match self.vertical {
            Vertical::Synthesized { mvar, .. } => mvar,
            _ => return Ok(self),
        };
        let (case, _) = self.vertical.number();
        let (advance, origin) = self.vertical.synthesized();
        let (mut advance_at, mut origin_at) = (0., 0.);
        let number = unsafe {
            exports::suolluvik_materialize_glyph_metrics(
                font.as_ptr(),
                font.len(),
                case,
                mvar,
                coords.as_ptr(),
                coords.len(),
                advance,
                origin,
                &mut advance_at,
                &mut origin_at,
            )
        };
        let vertical = Vertical::Synthesized {
            mvar,
            advance: advance_at,
            origin: origin_at,
        };
        answer(number, GlyphMetrics { vertical, ..self })
    }

    /// The advance width of a glyph, from hmtx's.
    pub fn advance_width(&self, font: &[u8], glyph_id: u16, coords: &[i16], unvaried: u16) -> f32 {
        unsafe {
            exports::suolluvik_advance_width(
                font.as_ptr(),
                font.len(),
                self.hvar,
                glyph_id,
                coords.as_ptr(),
                coords.len(),
                unvaried,
                self.scale,
            )
        }
    }

    /// The left side bearing of a glyph, from hmtx's.
    pub fn lsb(&self, font: &[u8], glyph_id: u16, coords: &[i16], unvaried: i16) -> f32 {
        unsafe {
            exports::suolluvik_lsb(
                font.as_ptr(),
                font.len(),
                self.hvar,
                glyph_id,
                coords.as_ptr(),
                coords.len(),
                unvaried,
                self.scale,
            )
        }
    }

    /// The advance height of a glyph, from vmtx's; or the synthesized one.
    pub fn advance_height(
        &self,
        font: &[u8],
        glyph_id: u16,
        coords: &[i16],
        unvaried: u16,
    ) -> Result<f32, Refusal> {
        let (case, vvar) = self.vertical.number();
        let (advance, _) = self.vertical.synthesized();
        let mut value = 0.;
        let number = unsafe {
            exports::suolluvik_advance_height(
                font.as_ptr(),
                font.len(),
                case,
                vvar,
                advance,
                glyph_id,
                coords.as_ptr(),
                coords.len(),
                unvaried,
                self.scale,
                &mut value,
            )
        };
        answer(number, value)
    }

    /// The top side bearing of a glyph, from vmtx's; or a synthesized 0, scaled too.
    pub fn tsb(
        &self,
        font: &[u8],
        glyph_id: u16,
        coords: &[i16],
        unvaried: i16,
    ) -> Result<f32, Refusal> {
        let (case, vvar) = self.vertical.number();
        let mut value = 0.;
        let number = unsafe {
            exports::suolluvik_tsb(
                font.as_ptr(),
                font.len(),
                case,
                vvar,
                glyph_id,
                coords.as_ptr(),
                coords.len(),
                unvaried,
                self.scale,
                &mut value,
            )
        };
        answer(number, value)
    }

    /// The vertical origin of a glyph, from its unvaried top side bearing and from y: its yMax with glyf, its origin there with
    /// VORG, if the font has one; or the synthesized one.
    pub fn vertical_origin(
        &self,
        font: &[u8],
        glyph_id: u16,
        coords: &[i16],
        unvaried: i16,
        y: Option<i16>,
    ) -> Result<f32, Refusal> {
        let (case, vvar) = self.vertical.number();
        let (_, origin) = self.vertical.synthesized();
        let mut value = 0.;
        let number = unsafe {
            exports::suolluvik_vertical_origin(
                font.as_ptr(),
                font.len(),
                self.units_per_em,
                case,
                vvar,
                origin,
                glyph_id,
                coords.as_ptr(),
                coords.len(),
                unvaried,
                y.is_some(),
                y.unwrap_or(0),
                self.scale,
                &mut value,
            )
        };
        answer(number, value)
    }
}

/// The unvaried advance of a glyph, by the hmtx or vmtx at the offset xmtx. `long_metric_count` is hhea's or vhea's: so many
/// long records, an advance and a bearing each, and behind them bearings alone; a glyph past the long records has the last one's
/// advance. A count of 0 is [`Refusal::Arithmetic`], else an offset of 0 is [`Refusal::Absent`], else a read past the font's end
/// is [`Refusal::Short`]; where the table ends is not asked.
pub fn xmtx_advance(
    font: &[u8],
    xmtx: u32,
    long_metric_count: u16,
    glyph_id: u16,
) -> Result<u16, Refusal> {
    let mut value = 0;
    let number = unsafe {
        exports::suolluvik_xmtx_advance(
            font.as_ptr(),
            font.len(),
            xmtx,
            long_metric_count,
            glyph_id,
            &mut value,
        )
    };
    answer(number, value)
}

/// The unvaried left or top bearing of a glyph, in the same way.
pub fn xmtx_sb(
    font: &[u8],
    xmtx: u32,
    long_metric_count: u16,
    glyph_id: u16,
) -> Result<i16, Refusal> {
    let mut value = 0;
    let number = unsafe {
        exports::suolluvik_xmtx_sb(
            font.as_ptr(),
            font.len(),
            xmtx,
            long_metric_count,
            glyph_id,
            &mut value,
        )
    };
    answer(number, value)
}

/// The y of a glyph's vertical origin, unvaried, by the VORG at the offset vorg, whose records are searched by halving: that of
/// the glyph's record, or the default where none is found. An offset of 0 is [`Refusal::Absent`], else a read past the font's
/// end is [`Refusal::Short`].
pub fn vorg_origin(font: &[u8], vorg: u32, glyph_id: u16) -> Result<i16, Refusal> {
    let mut value = 0;
    let number = unsafe {
        exports::suolluvik_vorg_origin(font.as_ptr(), font.len(), vorg, glyph_id, &mut value)
    };
    answer(number, value)
}

/// The advance of a glyph at some coordinates, in one call: that of [`xmtx_advance`], and its delta by the HVAR or VVAR at the
/// offset xvar, 0 for none, times the scale; a scale of 1 is font units. Refused as the unvaried one is; a refused delta is 0.
pub fn adjusted_advance(
    font: &[u8],
    xmtx: u32,
    long_metric_count: u16,
    xvar: u32,
    glyph_id: u16,
    coords: &[i16],
    scale: f32,
) -> Result<f32, Refusal> {
    let mut value = 0.;
    let number = unsafe {
        exports::suolluvik_adjusted_advance(
            font.as_ptr(),
            font.len(),
            xmtx,
            long_metric_count,
            xvar,
            glyph_id,
            coords.as_ptr(),
            coords.len(),
            scale,
            &mut value,
        )
    };
    answer(number, value)
}

/// The left or top bearing of a glyph at some coordinates, in the same way: that of [`xmtx_sb`], and its delta.
pub fn adjusted_sb(
    font: &[u8],
    xmtx: u32,
    long_metric_count: u16,
    xvar: u32,
    glyph_id: u16,
    coords: &[i16],
    scale: f32,
) -> Result<f32, Refusal> {
    let mut value = 0.;
    let number = unsafe {
        exports::suolluvik_adjusted_sb(
            font.as_ptr(),
            font.len(),
            xmtx,
            long_metric_count,
            xvar,
            glyph_id,
            coords.as_ptr(),
            coords.len(),
            scale,
            &mut value,
        )
    };
    answer(number, value)
}
