//! Stands in for swash's `string.rs`. A font of ours has no names.

use std::marker::PhantomData;

#[derive(Copy, Clone, PartialEq)]
pub enum StringId {
    Other(u16),
}

pub enum LocalizedString<'a> {
    None(std::convert::Infallible, PhantomData<&'a ()>),
}

impl LocalizedString<'_> {
    pub fn id(&self) -> StringId {
        match *self {
            LocalizedString::None(never, _) => match never {},
        }
    }

    pub fn chars(&self) -> std::str::Chars<'static> {
        "".chars()
    }
}

#[derive(Copy, Clone, Default)]
pub struct LocalizedStrings<'a>(PhantomData<&'a ()>);

impl<'a> LocalizedStrings<'a> {
    pub fn find_by_id(&self, _: StringId, _: Option<&str>) -> Option<LocalizedString<'a>> {
        None
    }
}

impl<'a> Iterator for LocalizedStrings<'a> {
    type Item = LocalizedString<'a>;

    fn next(&mut self) -> Option<LocalizedString<'a>> {
        None
    }
}
