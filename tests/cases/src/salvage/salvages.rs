//! Random images, on which the promises are tried.

use std::fmt;

use model::SECTOR;

use super::images::Image;
use super::lent::Lent;
use super::parts::Parts;
use super::promises::{Promise, Seen};
use super::{Salvage, LONGEST_LIST};
use crate::Rng;

/// What stands in the buffers before a call.
const UNTOUCHED: u8 = 0xA5;

/// Salvages random images.
pub struct Salvages {
    rng: Rng,
    salvage: Salvage,
}

/// What a salvage showed.
pub struct Found {
    /// The promises that it put to the test.
    pub tested: Vec<Promise>,
    pub broken: Vec<Promise>,
}

impl Salvages {
    pub fn new(salvage: Salvage, seed: u64) -> Self {
        Self { rng: Rng::new(seed), salvage }
    }

    /// Salvages one more image, and what was kept of it again.
    pub fn salvage(&mut self) -> (Image, Found) {
        let image = Image::draw(&mut self.rng);
        let found = self.found(image.sector());
        (image, found)
    }

    fn found(&self, image: &[u8]) -> Found {
        let mut kept = [UNTOUCHED; SECTOR];
        let mut list = [UNTOUCHED; LONGEST_LIST];
        let mut kept_again = [UNTOUCHED; SECTOR];
        let salvaged = (self.salvage)(image, &mut kept, &mut list);
        let again = (self.salvage)(&kept, &mut kept_again, &mut [UNTOUCHED; LONGEST_LIST]);
        // Only a wrong copy tells of more than there is.
        let (list, behind) = list.split_at(list.len().min(salvaged.length as usize));
        let seen = Seen {
            parts: Parts::new(image, list),
            salvaged,
            kept: &kept,
            behind,
            untouched: UNTOUCHED,
            again,
            kept_again: &kept_again,
        };
        let all = Promise::ALL.into_iter();
        let tested = all.clone().filter(|promise| seen.tests(*promise)).collect();
        let broken = all.filter(|promise| !seen.keeps(*promise)).collect();
        Found { tested, broken }
    }

    /// An image that was tried, as Rust text that can be pasted.
    pub fn text(image: &Image) -> String {
        Lent::AMPLE.text(image)
    }
}

impl fmt::Display for Found {
    fn fmt(&self, to: &mut fmt::Formatter<'_>) -> fmt::Result {
        write!(to, "broken: {:?}", self.broken)
    }
}
