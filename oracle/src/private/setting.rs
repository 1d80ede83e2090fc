//! Stands in for swash's `setting.rs`.

#[derive(Copy, Clone)]
pub struct Setting<T> {
    pub tag: u32,
    pub value: T,
}
