//! What can happen to a row of records.

use super::records::{drawn, record, text, HEAD, LONGEST_NAME};
use crate::Rng;

/// Spoils one of the pieces, of which there is one at least and none is empty, or puts something
/// between them.
pub fn spoil(rng: &mut Rng, pieces: &mut Vec<Vec<u8>>) {
    let at = rng.below(pieces.len());
    match rng.below(12) {
        0 => between(rng, at, pieces),
        1 => {
            let twin = pieces[at].clone();
            pieces.insert(rng.below(pieces.len() + 1), twin);
        }
        2 => pieces[at] = hiding(rng),
        3 => pieces[at] = torn(rng),
        4 => {
            let left = rng.between(1, pieces[at].len());
            pieces[at].truncate(left);
        }
        _ => change(rng, &mut pieces[at]),
    }
}

/// Changes bytes of a piece, and not its length.
fn change(rng: &mut Rng, piece: &mut [u8]) {
    let length = piece.len();
    let at = rng.below(length);
    match rng.below(6) {
        0 => piece[at.min(1)] = rng.pick(b"NRMS\x00\xFF"),
        1 if length > 2 => {
            let said = piece[2];
            piece[2] =
                rng.pick(&[0, 1, 31, 32, 33, 255, said.wrapping_sub(1), said.wrapping_add(1)]);
        }
        2 | 3 if length > HEAD => {
            let at = rng.between(HEAD, length - 1);
            piece[at] = rng.pick(&[0x00, 0x1F, 0x7F, 0x80, 0xFF]);
        }
        4 => piece[at..].fill(rng.pick(&[0x00, 0xFF])),
        _ => piece[at] &= !(1 << rng.below(8)),
    }
}

/// Bytes that were never a record, some of them erased.
fn between(rng: &mut Rng, at: usize, pieces: &mut Vec<Vec<u8>>) {
    let junk = match rng.below(5) {
        0 => rng.bytes(1),
        1 => rng.bytes(40),
        2 => vec![0xFF; rng.between(1, 12)],
        3 => vec![rng.pick(&[0x00, 0xFF, 0x4E, 0x52]); rng.pick(&[255, 256, 257, 512, 600])],
        _ => {
            let length = rng.between(1, 80);
            text(rng, length)
        }
    };
    pieces.insert(at, junk);
}

/// A record with a damaged mark, whose name holds "NR" and a space in front of 32 good bytes: a
/// record begins inside.
fn hiding(rng: &mut Rng) -> Vec<u8> {
    let front = rng.between(0, LONGEST_NAME - HEAD);
    let front = text(rng, front);
    let mark = rng.pick(&[b"NS ", b"MR ", b"NR!", b"N\xFF "]);
    [&mark[..], &front, b"NR ", &text(rng, LONGEST_NAME)].concat()
}

/// A good record whose name ends like a mark, and behind it what would be the rest of another.
fn torn(rng: &mut Rng) -> Vec<u8> {
    let front = rng.below(LONGEST_NAME - 2);
    let name = [&text(rng, front)[..], b"NR"].concat();
    let rest = &drawn(rng)[2..];
    [&record(&name), rest].concat()
}
