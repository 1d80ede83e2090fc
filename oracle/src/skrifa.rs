//! Stands in for the crate skrifa, to which swash hands avar. It never answers: no avar can be read.

pub mod raw {
    pub struct FontData;

    impl FontData {
        pub fn new(_: &[u8]) -> Self {
            FontData
        }
    }

    pub trait FontRead: Sized {
        fn read(data: FontData) -> Result<Self, ()>;
    }

    pub mod types {
        pub struct Fixed {
            bits: i32,
        }

        impl Fixed {
            pub fn from_bits(bits: i32) -> Self {
                Fixed { bits }
            }

            pub fn to_bits(self) -> i32 {
                self.bits
            }
        }
    }

    pub mod tables {
        pub mod avar {
            use crate::raw::{types::Fixed, FontData, FontRead};

            pub struct Avar(());

            impl FontRead for Avar {
                fn read(_: FontData) -> Result<Self, ()> {
                    Err(())
                }
            }

            impl Avar {
                pub fn axis_segment_maps(&self) -> Maps {
                    Maps(())
                }
            }

            pub struct Maps(());

            impl Maps {
                pub fn get(&self, _: usize) -> Option<Result<Map, ()>> {
                    None
                }
            }

            pub struct Map(());

            impl Map {
                pub fn apply(&self, coord: Fixed) -> Fixed {
                    coord
                }
            }
        }
    }
}
