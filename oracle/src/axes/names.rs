//! Cases of an instance's PostScript name id: records of every size around those that OpenType has, ids at their
//! limits, tables cut around the id; and random tables.

use super::cases::{good, index, line, put, table};
use super::rules;
use crate::random::{edges_and_random, Random};

/// 0xFFFF is none.
const IDS: [u16; 12] = [
    0, 1, 6, 255, 256, 258, 0x7fff, 0x8000, 0xff00, 0xff7f, 0xfffe, 0xffff,
];

/// Where the id of an instance would stand, behind its values.
fn place(table: &[u8], index: usize) -> usize {
    let fvar = rules::header(table);
    rules::instance_start(&fvar, index) + 4 + 4 * fvar.axis_count
}

fn ask(table: &[u8], index: impl std::fmt::Display) -> String {
    line("get_instance", table, &format!(" {index}"))
}

/// Tables of two instances, with an id in one of the two, cut around it: every id in records that have room for just
/// it, two of them in records of other sizes.
fn edges() -> Vec<String> {
    let mut lines = vec![];
    for axes in 0..=3 {
        let named = 6 + 4 * axes as u16;
        for size in [2, 3].into_iter().chain(named - 3..=named + 3) {
            let ids = if size == named { &IDS[..] } else { &IDS[10..] };
            for (axis_size, index) in [20, 0, 23].into_iter().flat_map(|a| [(a, 0), (a, 1)]) {
                for id in ids {
                    let mut table = good(axes, axis_size, size);
                    let at = place(&table, index);
                    put(&mut table, at, &id.to_be_bytes());
                    lines.push(ask(&table, index));
                    let cuts = (at - 2..at + 3).filter(|cut| *cut < table.len());
                    lines.extend(cuts.map(|cut| ask(&table[..cut], index)));
                }
            }
        }
    }
    lines
}

/// A random table, in which an id is mostly at a limit, and which may end around it.
fn random_case(random: &mut Random) -> String {
    let mut table = table(random);
    let index = index(random);
    let at = place(&table, index as usize);
    if at + 2 <= table.len() {
        let id = match random.below(4) {
            0 => random.below(65536) as u16,
            _ => random.pick(&IDS),
        };
        put(&mut table, at, &id.to_be_bytes());
        if random.below(4) == 0 {
            table.truncate(at - 1 + random.below(4) as usize);
        }
    }
    ask(&table, index)
}

pub fn cases(seed: u64) -> impl Iterator<Item = String> {
    edges_and_random(edges(), Random::new(seed ^ 0x6e61_6d65), random_case)
}

/// The id of its own record and not of the first or of the one before, 0xFFFF and its neighbours, a table that ends
/// behind the values and in the id, sizes that are none of OpenType's two, an id that is not read from the table's start.
const LISTED: &str = "\
get_instance 0001000000100002000000140001000601010000ffff 0
get_instance 0001000000100002000000140001000601010000fffe 0
get_instance 000100000010000200000014000100060101000000ff 0
get_instance 0001000000100002000000140001000601010000ff00 0
get_instance 00010000001000020000001400010006010100000000 0
get_instance 000100000010000200000014000100060101000001 0
get_instance 00010000001000020000001400020006010100000102010300000104 0
get_instance 00010000001000020000001400020006010100000102010300000104 1
get_instance 00010000001000020000001400020006010100000102010300000104 2
get_instance 00010000001000020000001400010005010100000102 0
get_instance 0001000000100002000000140001000701010000010203 0
get_instance 00010000001000020000001400010004010100000102 0
get_instance 00010000001000020000001400010002010100000102 0
get_instance 00010000001000020001001400010008776768740064000001900000038400000000010001010000028a00000102 0
get_instance 0001000000100002000100140001000a776768740064000001900000038400000000010001010000028a00000102 0
get_instance 0001000000100002000100140001000a776768740064000001900000038400000000010001010000028a0000ffff 0
get_instance 0001000000100002000100140001000a776768740064000001900000038400000000010001010000028a000001 0
get_instance 0001000000100002000100140001000a776768740064000001900000038400000000010001010000028a0000 0
get_instance 0001000000100002000100140001000a776768740064000001900000038400000000010001010000028a00 0
get_instance 0001000000100002000100140001000b776768740064000001900000038400000000010001010000028a0000010203 0
get_instance 0001000000100002000100140001000c776768740064000001900000038400000000010001010000028a000001020304 0
get_instance 0001000000100002000100000001000a0101000000010000 0
get_instance 0001000000120002000200150003000e0909090909090909090909090909090909090909090909090909090909090909090909090909090909090909010100000001000000010000010201030000000200000002000001040105000000030000000300000106 2
get_instance 0001000000120002000200150003000e090909090909090909090909090909090909090909090909090909090909090909090909090909090909090901010000000100000001000001020103000000020000000200000104010500000003000000030000ffff 2
get_instance 0001000000120002000200150003000e090909090909090909090909090909090909090909090909090909090909090909090909090909090909090901010000000100000001000001020103000000020000000200000104010500000003000000030000ffff 1
get_instance 00010000ffff0002000000140001000601010000 0
";

/// A spread of `count` lines for a stored sample.
pub fn sample(seed: u64, count: usize) -> Vec<String> {
    let listed = LISTED.lines().map(str::to_string);
    listed.chain(cases(seed)).take(count).collect()
}
