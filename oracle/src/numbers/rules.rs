//! The rules for 16.16 numbers, from their text alone, in exact integers. Nothing here is taken
//! from the Rust or from the Rattle, so that it judges both.

const WORD: i128 = 1 << 32;

/// The signed 32-bit number that is congruent to x modulo 2^32.
pub fn wrap32(x: i128) -> i64 {
    let low = x.rem_euclid(WORD);
    (if low >= WORD / 2 { low - WORD } else { low }) as i64
}

fn signed(minus: bool, q: i128) -> i64 {
    wrap32(if minus { -q } else { q })
}

pub fn add(a: i128, b: i128) -> i64 {
    wrap32(a + b)
}

pub fn sub(a: i128, b: i128) -> i64 {
    wrap32(a - b)
}

pub fn neg(a: i128) -> i64 {
    wrap32(-a)
}

pub fn min(a: i128, b: i128) -> i64 {
    (if a < b { a } else { b }) as i64
}

pub fn max(a: i128, b: i128) -> i64 {
    (if a < b { b } else { a }) as i64
}

/// The exact product over 65,536, to the nearest, halves away from zero, kept modulo 2^32.
pub fn mul(a: i128, b: i128) -> i64 {
    let product = a * b;
    signed(product < 0, (product.abs() + 32768) / 65536)
}

/// floor((|a|·65536 + floor(|b|/2)) / |b|), modulo 2^32, then the sign, wrapping. By 0: 2147483647,
/// or -2147483647 if a < 0.
pub fn div(a: i128, b: i128) -> i64 {
    let q = match b.abs() {
        0 => 2147483647,
        d => (a.abs() * 65536 + d / 2) / d % WORD,
    };
    signed((a < 0) != (b < 0), q)
}

/// floor((|a|·|b| + floor(|c|/2)) / |c|), modulo 2^32, or 2147483647 by 0; minus where an odd number
/// of the three is below 0, wrapping.
pub fn muldiv(a: i128, b: i128, c: i128) -> i64 {
    let q = match c.abs() {
        0 => 2147483647,
        d => (a.abs() * b.abs() + d / 2) / d % WORD,
    };
    signed((a < 0) ^ (b < 0) ^ (c < 0), q)
}

pub fn from_i32(x: i128) -> i64 {
    wrap32(x * 65536)
}

pub fn from_f2dot14(x: i128) -> i64 {
    (x * 4) as i64
}

/// floor((v + 2) / 4) modulo 2^16, signed.
pub fn to_f2dot14(v: i128) -> i64 {
    let low = (v + 2).div_euclid(4).rem_euclid(65536);
    (if low >= 32768 { low - 65536 } else { low }) as i64
}

/// n, or the nearest number to it that has 24 significant bits: ties to even.
fn to_24_bits(n: u128) -> u128 {
    let length = 128 - n.leading_zeros();
    if length <= 24 {
        return n;
    }
    let unit = 1u128 << (length - 24);
    let (whole, rest) = (n / unit, n % unit);
    let up = 2 * rest > unit || (2 * rest == unit && whole % 2 == 1);
    (whole + up as u128) * unit
}

/// x·65536 + 0.5: the product is rounded once, the sum is rounded once, then the fraction is cut
/// toward zero, held to the i32 range, NaN is 0.
pub fn from_f32(bits: u32) -> i64 {
    let minus = bits >> 31 == 1;
    let end = if minus { -2147483648 } else { 2147483647 };
    let (exponent, fraction) = ((bits >> 23) & 255, (bits & 0x7f_ffff) as i128);
    let (digits, power) = match exponent {
        255 if fraction != 0 => return 0,
        255 => return end,
        0 => (fraction, -149 + 16),
        e => (fraction + 0x80_0000, e as i32 - 150 + 16),
    };
    // The product is digits·2^power, with no rounding below the range's end. Far from 0.5 the sum
    // needs no arithmetic: below 2^-40 it is cut to 0, and from 2^40 on it is past the end.
    if digits == 0 || power < -64 {
        return 0;
    }
    if power > 16 {
        return end;
    }
    // In units of 2^-64.
    let product = digits << (power + 64);
    let sum = if minus { -product } else { product } + (1 << 63);
    let cut = (to_24_bits(sum.unsigned_abs()) >> 64) as i128;
    (if sum < 0 { -cut } else { cut }).clamp(-2147483648, 2147483647) as i64
}

/// The nearest float, ties to even, over 65536: its bits.
pub fn to_f32(v: i128) -> u32 {
    if v == 0 {
        return 0;
    }
    let nearest = to_24_bits(v.unsigned_abs());
    let length = 128 - nearest.leading_zeros();
    let digits = if length <= 24 {
        nearest << (24 - length)
    } else {
        nearest >> (length - 24)
    };
    let exponent = length - 1 + 127 - 16;
    ((v < 0) as u32) << 31 | exponent << 23 | (digits as u32 & 0x7f_ffff)
}
