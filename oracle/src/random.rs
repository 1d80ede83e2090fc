//! A small generator of numbers (splitmix64): the same seed gives the same cases everywhere.

pub struct Random(u64);

impl Random {
    pub fn new(seed: u64) -> Self {
        Random(seed)
    }

    pub fn bits(&mut self) -> u64 {
        self.0 = self.0.wrapping_add(0x9e37_79b9_7f4a_7c15);
        let mut z = self.0;
        z = (z ^ (z >> 30)).wrapping_mul(0xbf58_476d_1ce4_e5b9);
        z = (z ^ (z >> 27)).wrapping_mul(0x94d0_49bb_1331_11eb);
        z ^ (z >> 31)
    }

    /// A number below `n`.
    pub fn below(&mut self, n: u64) -> u64 {
        (self.bits() >> 11) % n
    }

    /// A number of at most `bits` bits, each length as likely as another.
    pub fn magnitude(&mut self, bits: u64) -> u64 {
        let length = self.below(bits + 1);
        self.below(1 << length)
    }

    pub fn pick<T: Copy>(&mut self, from: &[T]) -> T {
        from[self.below(from.len() as u64) as usize]
    }
}

/// Cases without end: one of the edges, then a random one, and so on, until the edges are used up.
pub fn edges_and_random(
    edges: Vec<String>,
    mut random: Random,
    random_case: fn(&mut Random) -> String,
) -> impl Iterator<Item = String> {
    // a prime that is larger than the number of edges: each is met once
    const STRIDE: usize = 1_000_003;
    (0..).map(move |made: usize| match made / 2 {
        turn if made % 2 == 0 && turn < edges.len() => edges[turn * STRIDE % edges.len()].clone(),
        _ => random_case(&mut random),
    })
}
