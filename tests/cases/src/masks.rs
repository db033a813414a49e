//! Masks of interrupted frames.

use model::Model;

use crate::case::{Mask, On};
use crate::spoil::{self, Planted};
use crate::Rng;

/// A mask for a frame: one that it takes, or where it is to be spoilt one that it doesn't. Those of
/// status writes, and of 05 while one runs, are wrong more often than others.
pub fn mask(rng: &mut Rng, on: &On, frame: &[u8], spoils: bool, planted: &mut Planted) -> Mask {
    let begins = !frame.is_empty()
        && Model::begins_status_write(&on.state, on.wp_high, frame).unwrap_or(false);
    let status = matches!(frame, [0x01, ..]) || matches!(frame, [0x05, ..]) && on.state.pending;
    let wrong = if status { rng.one_in(3) } else { spoils && rng.coin() };
    if wrong {
        planted.plant(5);
    }
    match (wrong, begins) {
        (false, true) => Mask::Bytes(vec![rng.pick(&[0x00, 0xFF])]),
        (true, true) => Mask::Bytes(no_status_mask(rng)),
        (true, false) if status && !rng.one_in(4) => Mask::Bytes(not_empty(rng)),
        _ => {
            let length = length(rng, on, frame, wrong);
            of_length(rng, length)
        }
    }
}

/// That of the frame's target, or another.
fn length(rng: &mut Rng, on: &On, frame: &[u8], wrong: bool) -> usize {
    let right = match frame {
        [] => 0,
        _ => Model::target_length(&on.state, on.wp_high, frame).unwrap_or(0),
    };
    if wrong {
        spoil::other_length(rng, right)
    } else {
        right
    }
}

/// Not what a status write is cut with: another byte than 00 and FF, none, or more than one.
fn no_status_mask(rng: &mut Rng) -> Vec<u8> {
    match rng.below(6) {
        0 => Vec::new(),
        1 | 2 => vec![rng.pick(&[0x01, 0x7F, 0x80, 0x0F])],
        3 => vec![rng.between(0x01, 0xFE) as u8],
        4 => [rng.pick(&[0x00, 0xFF]), rng.pick(&[0x00, 0xFF])].to_vec(),
        _ => {
            let length = rng.between(2, 300);
            rng.bytes(length)
        }
    }
}

/// Where there is to be none: what a status write is cut with, or what isn't.
fn not_empty(rng: &mut Rng) -> Vec<u8> {
    match rng.below(4) {
        0 => vec![0x00],
        1 => vec![0xFF],
        2 => vec![rng.pick(&[0x00, 0xFF]); 2],
        _ => {
            let mut bytes = no_status_mask(rng);
            bytes.resize(bytes.len().max(1), 0x01);
            bytes
        }
    }
}

fn of_length(rng: &mut Rng, length: usize) -> Mask {
    match rng.below(8) {
        0 if length <= 4_101 => Mask::Bytes(vec![0x00; length]),
        1 if length <= 4_101 => Mask::Bytes(vec![0xFF; length]),
        _ if length <= 4_101 => Mask::Bytes(rng.bytes(length)),
        _ => Mask::Mixed { salt: rng.word() as u32, length },
    }
}
