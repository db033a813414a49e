//! Names and lists of them, good ones and others, drawn with a liking for edges.

use std::collections::BTreeSet;

use crate::salvage::{self, LONGEST_NAME};
use crate::Rng;

/// A good name.
pub fn name(rng: &mut Rng) -> Vec<u8> {
    let length = match rng.below(6) {
        0 => 1,
        1 => LONGEST_NAME,
        _ => rng.between(1, 12),
    };
    salvage::name(rng, length)
}

/// Another good name that is nearly this one.
pub fn like(rng: &mut Rng, name: &[u8]) -> Vec<u8> {
    let mut like = name.to_vec();
    let last = name.len() - 1;
    match rng.below(5) {
        0 if last > 0 => {
            like.pop();
        }
        1 if name.len() < LONGEST_NAME => like.push(rng.pick(b"A z~")),
        2 => like.iter_mut().for_each(|byte| *byte = other_case(*byte)),
        3 => like[0] = nearly(like[0]),
        _ => like[last] = nearly(like[last]),
    }
    like
}

fn other_case(byte: u8) -> u8 {
    match byte {
        b'A'..=b'Z' => byte.to_ascii_lowercase(),
        _ => byte.to_ascii_uppercase(),
    }
}

/// Another byte that a name may hold, one bit away if there is one.
fn nearly(byte: u8) -> u8 {
    match byte {
        b'~' => b'|',
        _ => byte ^ 1,
    }
}

/// A name that is none, though it is nearly this one.
pub fn no_name(rng: &mut Rng, name: &[u8]) -> Vec<u8> {
    let mut bad = name.to_vec();
    match rng.below(7) {
        0 => bad.clear(),
        1 => bad.resize(LONGEST_NAME + 1, b'A'),
        2 => bad.resize(rng.pick(&[34, 64, 255, 256]), b'A'),
        3 => bad.resize(rng.pick(&[256, 65_536]) + name.len(), b'A'),
        4 => {
            // As C writes it.
            bad.truncate(LONGEST_NAME - 1);
            bad.push(0x00);
        }
        _ => {
            let at = rng.below(bad.len());
            bad[at] = no_name_byte(rng);
        }
    }
    bad
}

fn no_name_byte(rng: &mut Rng) -> u8 {
    rng.pick(&[0x1F, 0x7F, 0x1F, 0x7F, 0x00, 0x0A, 0x80, 0xC1, 0xFF])
}

/// So many different names, some of them much alike.
pub fn different(rng: &mut Rng, count: usize) -> Vec<Vec<u8>> {
    let mut names: Vec<Vec<u8>> = Vec::with_capacity(count);
    let mut known = BTreeSet::new();
    let length = match rng.below(3) {
        0 => 0,
        1 => rng.between(3, 8),
        _ => LONGEST_NAME,
    };
    while names.len() < count {
        let new = if rng.one_in(4) && !names.is_empty() {
            let known = rng.one_of(&names);
            like(rng, known)
        } else if length == 0 && names.len() < 60 {
            name(rng)
        } else {
            // There aren't many short ones.
            salvage::text(rng, length.max(3))
        };
        if known.insert(new.clone()) {
            names.push(new);
        }
    }
    names
}

/// So many different names of as many bytes each, alike up to a part in front or behind.
pub fn much_alike(rng: &mut Rng, count: usize, length: usize) -> Vec<Vec<u8>> {
    let same = salvage::text(rng, length - 3);
    let in_front = rng.coin();
    let own =
        |number: usize| [0, 1, 2].map(|digit| b'!' + (number / 90_usize.pow(digit) % 90) as u8);
    let name = |number| match in_front {
        true => [&same[..], &own(number)].concat(),
        false => [&own(number)[..], &same].concat(),
    };
    (0..count).map(name).collect()
}

/// "Each behind a length byte."
pub fn list(names: &[Vec<u8>]) -> Vec<u8> {
    let mut list = Vec::with_capacity(names.iter().map(|name| 1 + name.len()).sum());
    for name in names {
        list.push(name.len() as u8);
        list.extend_from_slice(name);
    }
    list
}

/// Spoils a list of these names: a bad name anywhere in it, or a last one cut short.
pub fn no_list(rng: &mut Rng, names: &[Vec<u8>]) -> Vec<u8> {
    let mut names = names.to_vec();
    if names.is_empty() || rng.one_in(3) {
        let length = rng.between(1, LONGEST_NAME);
        let rest = if rng.one_in(3) { 0 } else { rng.below(length) };
        let cut = [&[length as u8], &salvage::text(rng, rest)[..]].concat();
        return [list(&names), cut].concat();
    }
    let at = match rng.below(3) {
        0 => 0,
        1 => names.len() - 1,
        _ => rng.below(names.len()),
    };
    let length = names[at].len();
    match rng.below(5) {
        0 => names[at].clear(),
        1 => names[at].resize(LONGEST_NAME + 1, b'A'),
        2 => names[at].resize(rng.between(34, 255), b'A'),
        _ => names[at][rng.below(length)] = no_name_byte(rng),
    }
    list(&names)
}

/// The list with one of its names a second time: beside it, far away, or at the two ends.
pub fn with_twin(rng: &mut Rng, names: &[Vec<u8>]) -> Vec<Vec<u8>> {
    let mut twins = names.to_vec();
    let count = names.len();
    let (one, other) = match rng.below(3) {
        0 => (0, count - 1),
        1 => {
            let one = rng.below(count - 1);
            (one, one + 1)
        }
        _ => {
            let one = rng.below(count.div_ceil(4));
            (one, rng.between(one + 1, count - 1))
        }
    };
    twins[other] = twins[one].clone();
    twins
}
