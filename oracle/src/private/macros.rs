//! Stands in for swash's `impl_iter!`. Beside the iteration it shows what is private in
//! `variation.rs`: an element by its index, and the axis in a variation.

macro_rules! impl_iter {
    (Variations, Variation) => {
        iterate!(Variations, Variation);

        impl Variation<'_> {
            pub fn axis(&self) -> VarAxis {
                self.axis
            }
        }
    };
    ($of:ident, $item:ident) => {
        iterate!($of, $item);
    };
}

macro_rules! iterate {
    ($of:ident, $item:ident) => {
        impl<'a> $of<'a> {
            pub fn at(&self, index: usize) -> Option<$item<'a>> {
                self.get(index)
            }
        }

        impl<'a> Iterator for $of<'a> {
            type Item = $item<'a>;

            fn next(&mut self) -> Option<$item<'a>> {
                if self.pos >= self.len {
                    return None;
                }
                self.pos += 1;
                self.get(self.pos - 1)
            }
        }
    };
}
