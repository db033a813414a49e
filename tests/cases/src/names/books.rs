//! Books whose scenes have names.

use model::{BOOK, SECTOR};

use super::drawn::{different, much_alike};
use crate::salvage::{HEAD, LONGEST_NAME};
use crate::Rng;

/// A list of names, and which of the scenes are read; none is past the list.
pub struct NamedBook {
    pub names: Vec<Vec<u8>>,
    pub read: Vec<bool>,
}

impl NamedBook {
    pub fn draw(rng: &mut Rng) -> Self {
        let names = match rng.below(24) {
            0 => Vec::new(),
            1..=3 => {
                let count = rng.between(100, 400);
                different(rng, count)
            }
            4 => different(rng, 1),
            _ => {
                let count = rng.between(2, 40);
                different(rng, count)
            }
        };
        Self::reading_some(rng, names)
    }

    /// One with as many names as there can be. To find out that none of them stands twice takes its
    /// time, so they are few.
    pub fn longest(rng: &mut Rng) -> Self {
        let length = rng.pick(&[3, 4, LONGEST_NAME]);
        let names = much_alike(rng, model::MOST_NAMES, length);
        Self::reading_some(rng, names)
    }

    fn reading_some(rng: &mut Rng, names: Vec<Vec<u8>>) -> Self {
        let mut book = Self { read: vec![false; names.len()], names };
        book.read_some(rng);
        book
    }

    /// None, few, many or all that fit; now and then so many that the records need exactly 4,096
    /// bytes, or one more.
    fn read_some(&mut self, rng: &mut Rng) {
        let count = self.names.len();
        match rng.below(6) {
            0 => {}
            1 => self.read.fill(true),
            2 => (0..rng.below(4).min(count)).for_each(|_| self.read[rng.below(count)] = true),
            _ => self.read.iter_mut().for_each(|read| *read = rng.coin()),
        }
        let mut needed = 0;
        for (name, read) in self.names.iter().zip(&mut self.read) {
            let record = HEAD + name.len();
            *read &= needed + record <= SECTOR;
            needed += if *read { record } else { 0 };
        }
    }

    /// A book whose records need so many bytes, which are some more than the longest has.
    pub fn needing(rng: &mut Rng, bytes: usize) -> Self {
        const SHORTEST: usize = 3;
        let mut lengths = Vec::new();
        let mut left = bytes;
        while left > HEAD + LONGEST_NAME {
            let most = (left - 2 * HEAD - SHORTEST).min(LONGEST_NAME);
            let length = rng.between(SHORTEST.max(most.saturating_sub(8)), most);
            lengths.push(length);
            left -= HEAD + length;
        }
        lengths.push(left - HEAD);
        let own = |number: usize| [b'!' + (number % 90) as u8, b'!' + (number / 90) as u8];
        let name = |(number, length): (usize, usize)| {
            let mut name = own(number).to_vec();
            name.resize(length, b'A');
            name
        };
        let names: Vec<Vec<u8>> = lengths.into_iter().enumerate().map(name).collect();
        let mut book = Self { read: vec![true; names.len()], names };
        for _ in 0..rng.below(4) {
            let at = rng.below(book.names.len() + 1);
            let unread = [b"unread", &own(book.names.len())[..]].concat();
            book.names.insert(at, unread);
            book.read.insert(at, false);
        }
        book
    }

    /// The names of the read scenes, in list order.
    pub fn read_names(&self) -> Vec<Vec<u8>> {
        let read = self.names.iter().zip(&self.read).filter(|(_, read)| **read);
        read.map(|(name, _)| name.clone()).collect()
    }

    /// The book's sector: its 512 bytes, and behind them anything, which doesn't matter.
    pub fn sector(&self, rng: &mut Rng) -> Vec<u8> {
        let mut sector = match rng.coin() {
            true => vec![0xFF; SECTOR],
            false => rng.bytes(SECTOR),
        };
        sector[..BOOK].fill(0xFF);
        for (scene, _) in self.read.iter().enumerate().filter(|(_, read)| **read) {
            sector[scene / 8] &= !(1 << (scene % 8));
        }
        sector
    }
}
