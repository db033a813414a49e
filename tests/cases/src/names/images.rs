//! Sectors of names, from erased ones to such as no call left behind.

use model::SECTOR;

use super::drawn::{like, name};
use crate::salvage::{filling, record, Image, HEAD};
use crate::Rng;

/// With FF up to a sector's length.
pub fn padded(bytes: &[u8]) -> Vec<u8> {
    let mut padded = bytes.to_vec();
    padded.resize(SECTOR, 0xFF);
    padded
}

/// The records of these names behind the bytes in front; more than a sector's if they don't fit.
pub fn records(front: &[u8], names: &[Vec<u8>]) -> Vec<u8> {
    let mut bytes = front.to_vec();
    names.iter().for_each(|name| bytes.extend(record(name)));
    bytes
}

/// The same with FF in the place of the new marks: what the first plan leaves.
pub fn unmarked(front: &[u8], names: &[Vec<u8>]) -> Vec<u8> {
    let mut bytes = front.to_vec();
    for name in names {
        bytes.extend([0xFF, 0xFF, name.len() as u8]);
        bytes.extend(name);
    }
    bytes
}

/// What is wanted of a sector that is to hold these records, once a call has to say it.
pub fn wanted(image: &[u8], front: &[u8], names: &[Vec<u8>]) -> Vec<u8> {
    match is_missing(image, front, names) {
        true => padded(&unmarked(front, names)),
        false => padded(&records(front, names)),
    }
}

/// Whether a byte of the new lengths and names doesn't stand there.
pub fn is_missing(image: &[u8], front: &[u8], names: &[Vec<u8>]) -> bool {
    let first = unmarked(front, names);
    first.iter().zip(image).any(|(wanted, byte)| *wanted != 0xFF && wanted != byte)
}

/// Whether a bit is wanted that can't be had.
pub fn needs_erase(old: &[u8], wanted: &[u8]) -> bool {
    old.iter().zip(wanted).any(|(old, wanted)| wanted & !old != 0)
}

/// How many bytes the records that are there take.
pub fn used(image: &[u8]) -> usize {
    model::names_of(image).map(|name| HEAD + name.len()).sum()
}

/// An image in which some of what is to be programmed is: bits or bytes of it, the first bytes, or
/// all but one byte, of which some bits may stand.
pub fn half_done(rng: &mut Rng, old: &[u8], wanted: &[u8]) -> Vec<u8> {
    let changing: Vec<usize> = (0..old.len()).filter(|at| old[*at] != wanted[*at]).collect();
    let Some(last) = changing.len().checked_sub(1) else { return old.to_vec() };
    let style = rng.below(4);
    let turn = rng.below(last + 1);
    let mut image = old.to_vec();
    for (index, at) in changing.into_iter().enumerate() {
        let mask = match style {
            0 => rng.byte(),
            1 if index < turn => 0xFF,
            2 => rng.pick(&[0x00, 0xFF]),
            3 if index != turn => 0xFF,
            3 if rng.coin() => rng.byte(),
            _ => 0x00,
        };
        image[at] = old[at] & !mask | old[at] & wanted[at] & mask;
    }
    image
}

/// A target of records of these names: erased, or in any state between that and finished.
pub fn target(rng: &mut Rng, front: &[u8], names: &[Vec<u8>]) -> Vec<u8> {
    let erased = padded(front);
    let first = padded(&unmarked(front, names));
    let second = padded(&records(front, names));
    match rng.below(8) {
        0 | 1 => erased,
        2 | 3 => half_done(rng, &erased, &first),
        4 => first,
        5 => half_done(rng, &first, &second),
        6 => half_done(rng, &erased, &second),
        _ => second,
    }
}

/// A sector in which a name is asked for, or marked.
pub fn sector(rng: &mut Rng, asked: &[u8]) -> Vec<u8> {
    if rng.one_in(12) {
        return Image::draw(rng).sector().to_vec();
    }
    let mut front = records(&[], &row(rng, asked));
    if rng.one_in(3) {
        fill_up(rng, asked, &mut front);
        if rng.one_in(4) && front.len() + HEAD + asked.len() <= SECTOR {
            front.extend(record(asked));
        }
    }
    let room = SECTOR - front.len();
    let other = match rng.coin() {
        true => like(rng, asked),
        false => name(rng),
    };
    let appended = if rng.coin() { asked.to_vec() } else { other };
    if rng.one_in(3) || HEAD + appended.len() > room {
        return padded(&front);
    }
    match rng.below(6) {
        0..=2 => target(rng, &front, &[appended]),
        3 => dirty(rng, &front, &appended),
        _ => behind_bad_place(rng, &front, &appended),
    }
}

/// Names of records, among them the asked one, such as are much like it, and some twice.
fn row(rng: &mut Rng, asked: &[u8]) -> Vec<Vec<u8>> {
    let count = match rng.below(4) {
        0 => 0,
        1 => rng.between(1, 3),
        _ => rng.between(1, 40),
    };
    let mut names: Vec<Vec<u8>> = (0..count).map(|_| name(rng)).collect();
    for _ in 0..rng.below(3) {
        let at = rng.below(names.len() + 1);
        names.insert(at, like(rng, asked));
    }
    if rng.one_in(3) {
        let at = rng.below(names.len() + 1);
        names.insert(at, asked.to_vec());
    }
    if rng.one_in(4) && !names.is_empty() {
        let again = rng.one_of(&names).clone();
        names.push(again);
    }
    names
}

/// Further records, up to the sector's end or to just where the asked name still fits or doesn't.
fn fill_up(rng: &mut Rng, asked: &[u8], front: &mut Vec<u8>) {
    let own = HEAD + asked.len();
    let left = match rng.below(6) {
        0 => 0,
        1 => rng.below(40),
        2 => own - 1,
        3 => own + 1,
        _ => own,
    };
    let bytes = SECTOR - front.len() - left;
    if bytes > HEAD {
        front.extend(filling(rng, bytes).concat());
    }
}

/// Bytes behind the records that no cut leaves there.
fn dirty(rng: &mut Rng, front: &[u8], appended: &[u8]) -> Vec<u8> {
    let mut image = padded(front);
    let own = HEAD + appended.len();
    let at = match rng.below(4) {
        0 => rng.below(2),
        1 => rng.below(own),
        2 => own,
        _ => rng.below(SECTOR),
    };
    let at = (front.len() + at).min(SECTOR - 1);
    let bytes = match rng.below(4) {
        0 => b"NR".to_vec(),
        1 => vec![0x00],
        2 => b"N".to_vec(),
        _ => vec![rng.byte()],
    };
    for (place, byte) in image[at..].iter_mut().zip(bytes) {
        *place &= byte;
    }
    image
}

/// A damaged record, or a gap, and good ones behind it, the asked name's among them.
fn behind_bad_place(rng: &mut Rng, front: &[u8], appended: &[u8]) -> Vec<u8> {
    let bad = match rng.below(8) {
        0 => b"NS\x01A".to_vec(),
        1 => b"MR\x01A".to_vec(),
        2 => b"NR\x00".to_vec(),
        3 => [&b"NR\x21"[..], &[b'A'; 33]].concat(),
        4 => b"NR\x02A\x7F".to_vec(),
        5 => b"NR\x02\x1FA".to_vec(),
        6 => vec![0xFF],
        _ => vec![rng.byte()],
    };
    let mut image = [front, &bad, &record(appended), &record(b"Z")].concat();
    image.truncate(SECTOR);
    padded(&image)
}
