//! Functions of the same form that do nothing: what is left is the loop, the call and the return.

use std::hint::black_box;

#[inline(never)]
pub fn advance(_: &[u8], _: u32, _: u16, _: &[i16]) -> f32 {
    black_box(0.)
}

#[inline(never)]
pub fn raw(_: &[u8], _: u32, _: u16, _: &[i16]) -> Option<i32> {
    Some(black_box(0))
}

#[inline(never)]
pub fn mvar(_: &[u8], _: u32, _: u32, _: &[i16]) -> f32 {
    black_box(0.)
}

/// As many coordinates as there are tags, so that the loop reads as many as on the other sides.
#[inline(never)]
pub fn settings(_: &[u8], tags: &[u32], _: &[f32], _: &mut [i16]) -> usize {
    black_box(tags.len())
}

#[inline(never)]
pub fn instance(fvar: &[u8], _: u16, _: &mut [i16]) -> usize {
    black_box(fvar[9] as usize)
}
