//! Images of sectors, from erased ones to ones that never held a name.

use model::SECTOR;

use super::damage::spoil;
use super::records::{drawn, filling, name, record, HEAD};
use crate::Rng;

/// Bytes before a sector and behind it that nobody may read.
const FRONT: usize = 64;
const BEHIND: usize = SECTOR;

/// An image in the midst of other bytes: in front the erased stretch seems to go on, or a name;
/// behind it what the sector's end cuts off does.
pub struct Image(Vec<u8>);

impl Image {
    pub fn draw(rng: &mut Rng) -> Self {
        let mut bytes = sector(rng);
        bytes.resize(bytes.len().max(SECTOR), 0xFF);
        if rng.one_in(4) {
            end_with(rng, &mut bytes);
        }
        bytes.resize(SECTOR + BEHIND, b'B');
        Self([&[rng.pick(b"A\xFF"); FRONT], &bytes[..]].concat())
    }

    /// The sector; with a greater length some bytes behind it, with a smaller one a part of it.
    pub fn lent(&self, length: usize) -> &[u8] {
        &self.0[FRONT..][..length]
    }

    pub fn sector(&self) -> &[u8] {
        self.lent(SECTOR)
    }
}

/// A sector's bytes up to the final erased stretch, or more than a sector has.
fn sector(rng: &mut Rng) -> Vec<u8> {
    match rng.below(20) {
        0 => Vec::new(),
        1 => {
            let length = rng.between(1, SECTOR);
            rng.bytes(length)
        }
        2 => vec![rng.pick(&[0x00, 0x4E, 0x52, 0x20, 0x41]); rng.pick(&[1, 256, 300, SECTOR])],
        3 => few_bytes(rng),
        4 => beginnings(rng),
        5 => by_turns(rng, 1, 1),
        6 => {
            let (junk, name) = (rng.between(1, 3), rng.between(1, 4));
            by_turns(rng, junk, name)
        }
        7 => filling(rng, SECTOR).concat(),
        _ => sick(rng),
    }
}

/// Records, few of them or as many as there is room for, spoilt in one place or in many.
fn sick(rng: &mut Rng) -> Vec<u8> {
    let bytes = match rng.below(4) {
        0 => rng.between(4, 120),
        1 => SECTOR,
        _ => rng.between(4, SECTOR),
    };
    let mut pieces = filling(rng, bytes);
    let times = match rng.below(4) {
        0 => 0,
        1 => 1,
        2 => rng.between(2, 8),
        _ => rng.below(pieces.len() + 1),
    };
    for _ in 0..times {
        spoil(rng, &mut pieces);
    }
    pieces.concat()
}

/// Bytes that matter to a record, in any order.
fn few_bytes(rng: &mut Rng) -> Vec<u8> {
    const FEW: [&[u8]; 16] = [
        b"N", b"R", b"NR", b"NR\x01", b"NR\x02", b"NR\x03", b"\x01", b"\x02", b" ", b"A", b"~",
        b"\x7F", b"\x1F", b"\x00", b"\xFF", b"NR ",
    ];
    let length = rng.pick(&[12, 200, SECTOR]);
    let mut bytes = Vec::new();
    while bytes.len() < length {
        bytes.extend_from_slice(rng.pick(&FEW));
    }
    bytes
}

/// Something like a mark every three bytes, and now and then a byte that no name may hold: where it
/// is every 35, a name is read to its last byte each time and none is good.
fn beginnings(rng: &mut Rng) -> Vec<u8> {
    let every = rng.pick(&[33, 34, 35, 35, 35, 36, 70, 4_000]);
    let first = rng.below(every);
    let bad = rng.pick(&[0x00, 0x1F, 0x7F, 0xFF]);
    let mut bytes = b"NR ".repeat(SECTOR / 3 + 1);
    bytes.iter_mut().skip(first).step_by(every).for_each(|byte| *byte = bad);
    bytes
}

/// Junk and a record by turns: with one byte of each there are as many stretches as can be.
fn by_turns(rng: &mut Rng, junk: usize, name_length: usize) -> Vec<u8> {
    let mut bytes = Vec::new();
    while bytes.len() < SECTOR {
        bytes.extend((0..junk).map(|_| rng.pick(b"\x00\x7FNR\x01")));
        bytes.extend(record(&name(rng, name_length)));
    }
    bytes
}

/// Ends the sector with one byte or with a record, which may pass its end.
fn end_with(rng: &mut Rng, bytes: &mut Vec<u8>) {
    let record = match rng.below(4) {
        0 => vec![rng.pick(&[0x00, 0x7F, 0xFE])],
        _ => drawn(rng),
    };
    let there = match rng.below(5) {
        0 => rng.between(1, HEAD).min(record.len()),
        1 => rng.between(1, record.len()),
        2 => record.len().max(2) - 1,
        _ => record.len(),
    };
    bytes.truncate(SECTOR - there);
    bytes.extend(record);
}
