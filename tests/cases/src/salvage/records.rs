//! Good records of names, drawn with a liking for edges.

use crate::Rng;

pub const LONGEST_NAME: usize = 32;
/// A record's mark and length.
pub const HEAD: usize = 3;

/// What begins like a record where it stands in a name: 20 is a space, and the length 32 as well.
const BEGINNINGS: [&[u8]; 4] = [b"N", b"NR", b"NR ", b"NR NR NR "];

/// The record of a name.
pub fn record(name: &[u8]) -> Vec<u8> {
    [&[0x4E, 0x52, name.len() as u8], name].concat()
}

/// A record of a random name.
pub fn drawn(rng: &mut Rng) -> Vec<u8> {
    let length = match rng.below(6) {
        0 => 1,
        1 => LONGEST_NAME,
        2 => rng.between(2, 4),
        _ => rng.between(1, LONGEST_NAME),
    };
    record(&name(rng, length))
}

/// A name of this length. Now and then a record seems to begin in it, or at its very end.
pub fn name(rng: &mut Rng, length: usize) -> Vec<u8> {
    let mut name = text(rng, length);
    if rng.one_in(4) {
        let beginning = rng.pick(&BEGINNINGS);
        if let Some(last) = length.checked_sub(beginning.len()) {
            let at = if rng.coin() { last } else { rng.below(last + 1) };
            name[at..][..beginning.len()].copy_from_slice(beginning);
        }
    }
    name
}

/// So many bytes that a name may hold.
pub fn text(rng: &mut Rng, length: usize) -> Vec<u8> {
    let mut byte = || match rng.below(10) {
        0 => rng.pick(b" ~NR"),
        _ => rng.between(0x41, 0x5A) as u8,
    };
    (0..length).map(|_| byte()).collect()
}

/// Records that fill so many bytes, which are four at least, to the last one.
pub fn filling(rng: &mut Rng, bytes: usize) -> Vec<Vec<u8>> {
    const SHORTEST: usize = HEAD + 1;
    const LONGEST: usize = HEAD + LONGEST_NAME;
    let mut records = Vec::new();
    let mut left = bytes;
    while left > LONGEST {
        // What is left over has to be a record's length as well.
        let length = rng.between(SHORTEST, LONGEST.min(left - SHORTEST));
        records.push(record(&name(rng, length - HEAD)));
        left -= length;
    }
    records.push(record(&name(rng, left - HEAD)));
    records
}
