//! Both sides' arrays, kept in step.

use std::ops::Range;

use crate::{size, Rng, CHIPS, F25L008A};

/// Bytes before and after what is lent, which nobody may touch.
pub const MARGIN: usize = 64;

/// A chip's array twice, once for each side.
pub struct Twins {
    size: usize,
    left: Vec<u8>,
    right: Vec<u8>,
}

pub struct Board([Twins; 2]);

impl Board {
    pub fn new(rng: &mut Rng) -> Self {
        Self(CHIPS.map(|chip| {
            let left = rng.bytes(size(chip) + 2 * MARGIN);
            Twins { size: size(chip), right: left.clone(), left }
        }))
    }

    /// The twins of a chip; of an unknown one those of the 05PA.
    pub fn of(&mut self, chip: u8) -> &mut Twins {
        &mut self.0[usize::from(chip != F25L008A)]
    }

    /// The first address at which the sides differ, and the chip.
    pub fn difference(&self) -> Option<(u8, isize)> {
        self.0.iter().zip(CHIPS).find_map(|(twins, chip)| Some((chip, twins.difference()?)))
    }
}

impl Twins {
    /// So much of both arrays as is lent; at most a margin more than the size.
    pub fn lent(&mut self, length: usize) -> (&mut [u8], &mut [u8]) {
        (&mut self.left[MARGIN..][..length], &mut self.right[MARGIN..][..length])
    }

    pub fn array(&self) -> &[u8] {
        &self.left[MARGIN..][..self.size]
    }

    /// These bytes on both sides; they lie inside the array.
    pub fn put(&mut self, start: usize, bytes: &[u8]) {
        for side in [&mut self.left, &mut self.right] {
            side[MARGIN + start..][..bytes.len()].copy_from_slice(bytes);
        }
    }

    /// The first address at which the sides differ, margins included.
    pub fn difference(&self) -> Option<isize> {
        if self.left == self.right {
            return None;
        }
        let at = self.left.iter().zip(&self.right).position(|(l, r)| l != r)?;
        Some(at as isize - MARGIN as isize)
    }

    /// The first difference in and near the window.
    pub fn difference_near(&self, window: &Range<usize>) -> Option<isize> {
        let from = window.start;
        let until = (window.end + 2 * MARGIN).min(self.left.len());
        let (left, right) = (&self.left[from..until], &self.right[from..until]);
        if left == right {
            return None;
        }
        let at = left.iter().zip(right).position(|(l, r)| l != r)?;
        Some((from + at) as isize - MARGIN as isize)
    }

    /// New contents for a window, the same on both sides: random, erased, mostly ones, or as
    /// they are. Of a large window only a part changes, of one beyond the array nothing.
    pub fn dress(&mut self, window: &Range<usize>, rng: &mut Rng) {
        const MOST: usize = 4_200;
        if window.end > self.size {
            return;
        }
        let mut window = window.clone();
        if window.len() > MOST {
            window.start += rng.below(window.len() - MOST);
            window.end = window.start + MOST;
        }
        let bytes = &mut self.left[MARGIN..][window.clone()];
        match rng.below(4) {
            0 => rng.fill(bytes),
            1 => bytes.fill(0xFF),
            2 => {
                bytes.fill(0xFF);
                for _ in 0..1 + bytes.len() / 16 {
                    let at = rng.below(bytes.len().max(1));
                    if let Some(byte) = bytes.get_mut(at) {
                        *byte = rng.byte();
                    }
                }
            }
            _ => return,
        }
        let window = window.start + MARGIN..window.end + MARGIN;
        self.right[window.clone()].copy_from_slice(&self.left[window]);
    }
}
