//! The text of cases and answers. README.md has the rules; the program `replay` keeps them too.

/// A decimal integer: perhaps a minus, then a natural number.
pub fn integer(word: &str) -> Option<i64> {
    match word.strip_prefix('-') {
        Some(digits) => natural(digits).map(|n| -n),
        None => natural(word),
    }
}

/// A natural number below 2^32: one decimal digit or more.
pub fn natural(word: &str) -> Option<i64> {
    let digits = !word.is_empty() && word.bytes().all(|b| b.is_ascii_digit());
    if digits {
        word.parse().ok().filter(|n| *n < 1 << 32)
    } else {
        None
    }
}

fn hex_digits(word: &str) -> bool {
    word.bytes().all(|b| matches!(b, b'0'..=b'9' | b'a'..=b'f'))
}

/// 32 bits, a float's or a tag's: eight hexadecimal digits in lower case.
pub fn bits(word: &str) -> Option<u32> {
    if word.len() == 8 && hex_digits(word) {
        u32::from_str_radix(word, 16).ok()
    } else {
        None
    }
}

/// What stands for no bytes, and for a list with no elements.
pub const EMPTY: &str = "-";

/// Bytes: two hexadecimal digits in lower case each.
pub fn bytes(word: &str) -> Option<Vec<u8>> {
    if word == EMPTY {
        return Some(vec![]);
    }
    if word.is_empty() || word.len() % 2 == 1 || !hex_digits(word) {
        return None;
    }
    let byte = |i: usize| u8::from_str_radix(&word[i..i + 2], 16).ok();
    (0..word.len()).step_by(2).map(byte).collect()
}

/// A list has at most this many elements.
pub const LIST: usize = 256;

/// A list of 32 bits each, with a comma between two.
pub fn list(word: &str) -> Option<Vec<u32>> {
    if word == EMPTY {
        return Some(vec![]);
    }
    let elements: Option<Vec<u32>> = word.split(',').map(bits).collect();
    elements.filter(|list| list.len() <= LIST)
}

/// A list of 2.14 numbers, raw, with a comma between two.
pub fn halves(word: &str) -> Option<Vec<i16>> {
    if word == EMPTY {
        return Some(vec![]);
    }
    let half = |element| i16::try_from(integer(element)?).ok();
    let elements: Option<Vec<i16>> = word.split(',').map(half).collect();
    elements.filter(|list| list.len() <= LIST)
}

pub fn bytes_text(bytes: impl Iterator<Item = u8>) -> String {
    let text: String = bytes.map(|b| format!("{b:02x}")).collect();
    if text.is_empty() {
        EMPTY.to_string()
    } else {
        text
    }
}

pub fn list_text(elements: impl Iterator<Item = String>) -> String {
    let elements: Vec<String> = elements.collect();
    if elements.is_empty() {
        EMPTY.to_string()
    } else {
        elements.join(",")
    }
}

pub fn float_text(x: f32) -> String {
    if x.is_nan() {
        "nan".to_string()
    } else {
        format!("{:08x}", x.to_bits())
    }
}

/// The checksum of a block, one answer at a time: sum = (sum · 1000003 + answer) mod 4294967291,
/// from 0, an answer being its 32 bits as a number. 4294967291 is the largest prime below 2^32, so
/// that one wrong answer always shows, but for a difference of that very number.
pub fn checksum(sum: u64, answer: u32) -> u64 {
    (sum * 1_000_003 + answer as u64) % 4_294_967_291
}
