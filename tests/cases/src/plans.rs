//! Regions and wanted images.

use model::LONGEST_REGION;

use crate::{first_protected, size, Rng, BORDERS, F25L008A};

/// A region: its start and its length.
pub fn region(rng: &mut Rng, chip: u8) -> (usize, usize) {
    let length = match rng.below(12) {
        0 => rng.below(2),
        1..=4 => rng.between(1, 8),
        5..=7 => rng.between(1, 40),
        8 | 9 => rng.between(1, 700),
        10 => rng.between(1, LONGEST_REGION),
        _ => LONGEST_REGION - rng.below(3),
    };
    (start(rng, chip, length), length)
}

/// Where a region of this length starts, with a liking for edges.
pub fn start(rng: &mut Rng, chip: u8, length: usize) -> usize {
    let last = size(chip) - length;
    let start = match rng.below(6) {
        0 => last - rng.below(4).min(last),
        1 => rng.below(4),
        2 => (rng.pick(&BORDERS) - rng.below(length + 4)) % size(chip),
        3 => rng.below(size(chip) / 256) * 256 + 256 - rng.below(length.min(250) + 2),
        4 => 0x1200 + rng.below(64),
        _ => rng.below(size(chip)),
    };
    start.min(last)
}

/// A wanted image: the old one with some ones turned to zeros.
pub fn wanted(rng: &mut Rng, start: usize, old: &[u8]) -> Vec<u8> {
    let style = rng.below(9);
    let word = rng.between(1, 4);
    let until = rng.below(old.len() + 1);
    let mut wanted = old.to_vec();
    for (index, byte) in wanted.iter_mut().enumerate() {
        let clears = match style {
            0 => false,
            1 => true,
            2 => rng.one_in(2),
            3 => rng.one_in(16),
            4 => ((start + index) / 2).is_multiple_of(word),
            5 => rng.one_in(old.len().max(1)),
            6 => index == 0 || index + 1 == old.len(),
            7 => index < until,
            _ => rng.one_in(3),
        };
        if clears {
            *byte &= if rng.coin() { rng.byte() } else { !(1 << rng.below(8)) };
        }
    }
    wanted
}

/// Asks for a 1 where the array has 0; no if the region has no 0.
pub fn raise(rng: &mut Rng, old: &[u8], wanted: &mut [u8]) -> bool {
    let from = rng.below(old.len().max(1));
    let order = (from..old.len()).chain(0..from);
    for index in order {
        let zeros = !old[index];
        if zeros != 0 {
            let bit = zeros & zeros.wrapping_neg();
            wanted[index] |= if rng.coin() { bit } else { zeros };
            return true;
        }
    }
    false
}

/// A level whose first protected address lies inside the region, if there is one.
pub fn level_within(start: usize, length: usize) -> Option<u8> {
    (1..=4).find(|bp| {
        let border = first_protected(F25L008A, *bp);
        start < border && border < start + length
    })
}
