//! The tags of measures, as swash has them.

use crate::private::internal::var::mvar_tags;

/// All of swash's, in its order.
pub const TAGS: [u32; 28] = [
    mvar_tags::HASC,
    mvar_tags::HDSC,
    mvar_tags::HLGP,
    mvar_tags::HCRS,
    mvar_tags::HCRN,
    mvar_tags::HCOF,
    mvar_tags::HCLA,
    mvar_tags::HCLD,
    mvar_tags::VASC,
    mvar_tags::VDSC,
    mvar_tags::VLGP,
    mvar_tags::VCRS,
    mvar_tags::VCRN,
    mvar_tags::VCOF,
    mvar_tags::XHGT,
    mvar_tags::CPHT,
    mvar_tags::UNDO,
    mvar_tags::UNDS,
    mvar_tags::STRO,
    mvar_tags::STRS,
    mvar_tags::SBXO,
    mvar_tags::SBYO,
    mvar_tags::SBXS,
    mvar_tags::SBYS,
    mvar_tags::SPXO,
    mvar_tags::SPYO,
    mvar_tags::SPXS,
    mvar_tags::SPYS,
];
