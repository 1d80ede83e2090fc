//! Cases of a quotient (W-205), div's and muldiv's: numerators at and just below the least that gives it.

use crate::random::{edges_and_random, Random};

const LEAST: u64 = 1 << 31;

/// Small ones, powers of two and their neighbours, up to the largest.
const DIVISORS: [u64; 24] = [
    1,
    2,
    3,
    4,
    5,
    7,
    10,
    255,
    256,
    257,
    65535,
    65536,
    65537,
    131_071,
    131_072,
    131_073,
    (1 << 24) + 1,
    (1 << 24) + 3,
    (1 << 30) - 1,
    1 << 30,
    (1 << 30) + 1,
    (1 << 31) - 3,
    (1 << 31) - 1,
    LEAST,
];

/// What muldiv multiplies by; div does by 65536.
const FACTORS: [u64; 6] = [1, 3, 65537, (1 << 31) - 65537, (1 << 31) - 1, LEAST];

/// A number with a sign. 2^31 has but one.
fn signed(magnitude: u64, minus: bool) -> i64 {
    let x = magnitude as i64;
    if minus || magnitude == LEAST {
        -x
    } else {
        x
    }
}

/// The case of three magnitudes; without a factor it is div's.
fn case(a: u64, factor: Option<u64>, divisor: u64, signs: u64) -> String {
    let (a, d) = (signed(a, signs & 1 == 1), signed(divisor, signs & 2 == 2));
    match factor {
        None => format!("div {a} {d}"),
        Some(b) => format!("muldiv {a} {} {d}", signed(b, signs & 4 == 4)),
    }
}

/// The least number that, multiplied by the factor, gives this quotient or more.
fn least(quotient: u128, factor: Option<u64>, divisor: u64) -> u128 {
    let (b, d) = (u128::from(factor.unwrap_or(65536)), u128::from(divisor));
    ((quotient * d).saturating_sub(d / 2) + b - 1) / b
}

/// Each divisor and factor with quotients of every length: powers of two and their neighbours.
fn edges() -> Vec<String> {
    let mut lines = vec![];
    for divisor in DIVISORS {
        for factor in [None].into_iter().chain(FACTORS.map(Some)) {
            for bits in 0..63 {
                for quotient in [(1 << bits) - 1, 1 << bits, (1 << bits) + 1] {
                    let a = least(quotient, factor, divisor);
                    for a in [a.saturating_sub(1), a] {
                        if a <= u128::from(LEAST) {
                            lines.push(case(a as u64, factor, divisor, lines.len() as u64 / 2));
                        }
                    }
                }
            }
        }
    }
    lines
}

/// Numbers of every magnitude, the first moved to where its quotient begins, or to just before.
fn random_case(random: &mut Random) -> String {
    let divisor = random.magnitude(31).max(1);
    let factor = match random.below(2) {
        0 => None,
        _ => Some(random.magnitude(31).max(1)),
    };
    let a = random.magnitude(31);
    let product = u128::from(a) * u128::from(factor.unwrap_or(65536));
    let quotient = (product + u128::from(divisor / 2)) / u128::from(divisor);
    let a = least(quotient, factor, divisor).saturating_sub(u128::from(random.below(2)));
    case(a as u64, factor, divisor, random.below(8))
}

pub fn cases(seed: u64) -> impl Iterator<Item = String> {
    edges_and_random(edges(), Random::new(seed ^ 0x7175_6f74), random_case)
}

/// Quotients of 47, 33 and 32 bits; one whose first bit alone is 1; what is around a half; the largest numerator by 1,
/// 3, 2^31 - 1 and 2^31; by 0.
const LISTED: &str = "\
div 2147483647 1
div -2147483647 1
div 65536 -1
div 32768 -1
div 3 3
div 1 131071
div 1 131072
div 1 131073
div -1 131073
muldiv -2147483648 -2147483648 1
muldiv -2147483648 -2147483648 3
muldiv -2147483648 -2147483648 2147483647
muldiv -2147483648 -2147483648 -2147483648
muldiv -2147483648 -2147483648 0
muldiv 2147483647 2147483647 1
muldiv 2147483647 2147483647 3
muldiv 2147483647 2147483647 2147483647
muldiv 2147483647 2147483647 2147483646
muldiv 2147483647 2147483647 -2147483648
muldiv 2147483647 -2147483647 0
";

/// `count` lines for the stored sample.
pub fn sample(seed: u64, count: usize) -> Vec<String> {
    let mut lines: Vec<String> = LISTED.lines().map(str::to_string).collect();
    let more = count - lines.len();
    lines.extend(cases(seed).take(more));
    lines
}
