//! Cases of the 16.16 arithmetic: edges and their products, and random numbers of every magnitude.

use super::{quotients, Kind, FUNCTIONS};
use crate::random::Random;

const MIN: i64 = -(1 << 31);
const MAX: i64 = (1 << 31) - 1;

/// 0, and every power of two with its neighbours, of both signs, within the bounds.
fn word_edges(step: usize) -> Vec<i64> {
    let mut edges = vec![0, MIN, MAX, MIN + 1];
    for k in (0..32).step_by(step) {
        for near in [-1, 0, 1] {
            edges.push((1 << k) + near);
            edges.push(-(1 << k) - near);
        }
    }
    edges.retain(|x| (MIN..=MAX).contains(x));
    edges.sort();
    edges.dedup();
    edges
}

/// For every exponent the first, middle and last fractions, of both signs: zeros, subnormals,
/// infinities and NaNs are among them. Then raw halves, and the ends of the i32 range.
fn float_edges() -> Vec<i64> {
    let mut edges = vec![];
    for exponent in 0..256 {
        for fraction in [0, 1, 0x3f_ffff, 0x40_0000, 0x40_0001, 0x7f_fffe, 0x7f_ffff] {
            edges.push(exponent << 23 | fraction);
        }
    }
    for k in 0..24 {
        for near in [-3, -2, -1, 0, 1, 2, 3] {
            let half = ((1i64 << k) + near) as f32 + 0.5;
            edges.push((half.abs() / 65536.).to_bits() as i64);
        }
    }
    edges.extend([
        0x4300_0001,
        0x36ff_ffff,
        0x42c8_0000,
        0x4120_0000,
        0x46ff_ffff,
        0x4700_0000,
        0x4700_0001,
    ]);
    edges.extend(edges.clone().iter().map(|x| x | 1 << 31));
    edges.sort();
    edges.dedup();
    edges
}

fn edges(name: &str, kind: Kind) -> Vec<i64> {
    match kind {
        Kind::Word if name == "muldiv" => word_edges(5),
        Kind::Word => word_edges(1),
        // 2.14 numbers are few: all of them
        Kind::Half => (-32768..32768).collect(),
        Kind::Float => float_edges(),
        Kind::Count => vec![],
    }
}

fn random_word(random: &mut Random, edges: &[i64]) -> i64 {
    let bits = random.bits() as i64;
    let minus = if random.below(2) == 0 { 1 } else { -1 };
    let x = match random.below(6) {
        0 => bits >> 32,
        1 => random.pick(edges),
        2 => random.pick(edges) + random.below(17) as i64 - 8,
        // every magnitude
        3 => minus * random.magnitude(32) as i64,
        // few digits, far up: quotients and products that end in just a half
        4 => minus * ((random.below(64) as i64 * 2 + 1) << random.below(31)),
        // 25 bits, the last set, then zeros: a tie for a float
        _ => minus * ((1 << 24 | random.below(1 << 24) as i64 | 1) << random.below(7)),
    };
    x.clamp(MIN, MAX)
}

fn random_float(random: &mut Random, edges: &[i64]) -> i64 {
    let bits = random.bits() >> 32;
    (match random.below(5) {
        0 => bits,
        1 => random.pick(edges) as u64,
        // where the answer is neither 0 nor at the range's end
        2 | 3 => (bits & 0x807f_ffff) | (108 + random.below(36)) << 23,
        // a raw half
        _ => {
            let half = random.magnitude(24) as f32 + 0.5;
            (half / 65536.).to_bits() as u64 | (bits & 0x8000_0000)
        }
    }) as i64
}

fn text(kind: Kind, x: i64) -> String {
    match kind {
        Kind::Float => format!("{x:08x}"),
        _ => x.to_string(),
    }
}

fn line(name: &str, kinds: &[Kind], arguments: &[i64]) -> String {
    let mut line = name.to_string();
    for (kind, x) in kinds.iter().zip(arguments) {
        line.push(' ');
        line += &text(*kind, *x);
    }
    line
}

/// One function with its edges; blocks are left out.
struct Function {
    name: &'static str,
    kinds: &'static [Kind],
    edges: Vec<i64>,
}

impl Function {
    fn products(&self) -> u64 {
        (self.edges.len() as u64).pow(self.kinds.len() as u32)
    }

    /// The n-th of all ways to choose an edge for each argument.
    fn product(&self, mut n: u64) -> String {
        let mut arguments = vec![];
        for _ in self.kinds {
            arguments.push(self.edges[(n % self.edges.len() as u64) as usize]);
            n /= self.edges.len() as u64;
        }
        line(self.name, self.kinds, &arguments)
    }

    fn random(&self, random: &mut Random) -> String {
        let mut arguments = vec![];
        for kind in self.kinds {
            arguments.push(match kind {
                Kind::Float => random_float(random, &self.edges),
                Kind::Half => random.pick(&self.edges),
                _ => random_word(random, &self.edges),
            });
        }
        line(self.name, self.kinds, &arguments)
    }
}

fn functions() -> Vec<Function> {
    let whole = FUNCTIONS
        .iter()
        .filter(|(_, kinds)| kinds[0] != Kind::Count);
    whole
        .map(|(name, kinds)| Function {
            name,
            kinds,
            edges: edges(name, kinds[0]),
        })
        .collect()
}

/// Cases without end: one of the products of edges, then a random one, and so on. The products come in
/// an order that mixes the functions; once they are used up all are random.
pub struct Cases {
    functions: Vec<Function>,
    products: u64,
    made: u64,
    random: Random,
}

impl Cases {
    pub fn new(seed: u64) -> Self {
        let functions = functions();
        let products = functions.iter().map(|f| f.products()).sum();
        Cases {
            functions,
            products,
            made: 0,
            random: Random::new(seed),
        }
    }

    fn nth_product(&self, mut n: u64) -> String {
        for function in &self.functions {
            if n < function.products() {
                return function.product(n);
            }
            n -= function.products();
        }
        unreachable!()
    }
}

impl Iterator for Cases {
    type Item = String;

    fn next(&mut self) -> Option<String> {
        // a prime that is larger than the number of products: each is met once
        const STRIDE: u64 = 1_000_000_007;
        let (turn, odd) = (self.made / 2, self.made % 2 == 1);
        self.made += 1;
        if odd || turn >= self.products {
            let k = self.random.below(self.functions.len() as u64) as usize;
            Some(self.functions[k].random(&mut self.random))
        } else {
            Some(self.nth_product(turn * STRIDE % self.products))
        }
    }
}

/// Every fourth case is one of quotients.
pub fn with_quotients(seed: u64) -> impl Iterator<Item = String> {
    let mut others = Cases::new(seed);
    let mut quotients = quotients::cases(seed);
    (0..).map_while(move |turn: u64| match turn % 4 {
        3 => quotients.next(),
        _ => others.next(),
    })
}

/// The examples of the rules, and the inputs where a wrong rounding, sign, range or wrap shows.
const LISTED: &str = "\
mul 1 32768
mul 1 32767
mul -1 32768
mul -1 32767
mul -2147483648 -2147483648
div 2 3
div -2 3
div 65536 1
div 32768 1
div -32768 1
div 0 -5
div 0 0
div 5 0
div -5 0
div -2147483648 0
div -2147483648 1
div 1 -2147483648
div -2147483648 -2147483648
muldiv -1 1 0
muldiv 1 1 0
muldiv -2147483648 1 1
muldiv 1 1 2
muldiv -1 1 2
muldiv 65536 32768 1
muldiv -65536 32768 1
neg -2147483648
to_f2dot14 2147483645
to_f2dot14 2147483646
to_f2dot14 2147483647
to_f2dot14 -5461
from_i32 32767
from_i32 -32768
from_i32 32768
from_i32 2147483647
from_f32 42c80000
from_f32 c1200000
from_f32 47000000
from_f32 c7000000
from_f32 43000001
from_f32 36ffffff
from_f32 b7000000
from_f32 80000000
from_f32 7f800000
from_f32 ff800000
from_f32 7fc00000
from_f32 ffc00000
from_f32 7f800001
from_f32 ffffffff
from_f32_block 0 0
from_f32_block 0 1
from_f32_block 1124073472 4096
from_f32_block 4294967040 512
to_f32_block 0 4096
to_f32_block 2147481600 4096
to_f32_block 4294967295 2
";

/// Lines that are no case; each is answered by a question mark.
const NO_CASES: [&str; 26] = [
    "",
    " ",
    "add",
    "add 1",
    "add 1 2 3",
    "add  1 2",
    "add 1  2",
    "add 1 2 ",
    " add 1 2",
    "add 1 2147483648",
    "add -2147483649 2",
    "add 1 +2",
    "add 1 --2",
    "add 1 -",
    "add 1 0x2",
    "add 1 10000000000",
    "add 1 99999999999999999999999999",
    "ad 1 2",
    "Add 1 2",
    "from_f2dot14 32768",
    "from_f2dot14 -32769",
    "from_f32 42C80000",
    "from_f32 42c8000",
    "from_f32 042c80000",
    "to_f32_block -1 2",
    "from_f32_block 0 4294967296",
];

/// A spread of `count` lines for a stored sample, every function and edge kind in it.
pub fn sample(seed: u64, count: usize) -> Vec<String> {
    let mut lines: Vec<String> = LISTED.lines().map(str::to_string).collect();
    lines.extend(NO_CASES.map(str::to_string));
    // written otherwise, and still cases
    lines.extend(["add -0 0000000000000000000000001", "mul 0000065536 -65536"].map(str::to_string));
    let mut random = Random::new(seed);
    let functions = functions();
    for k in lines.len()..count {
        let function = &functions[k % functions.len()];
        lines.push(if k / functions.len() % 2 == 0 {
            function.product(random.below(function.products()))
        } else {
            function.random(&mut random)
        });
    }
    lines
}
