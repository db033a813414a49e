//! What is asked of a sector of names, or of a book that is made of one (02, A7).

use std::fmt;

use cases::book::sector;
use cases::literal::bytes_text;
use cases::names::{images, list, name, NamedBook, Names};
use cases::Rng;
use model::{names_of, Planned, Returned, State, BOOK, SECTOR};

pub struct Naming {
    /// Where it is to be written.
    pub target: usize,
    what: What,
}

enum What {
    Mark {
        name: Vec<u8>,
        /// The records that are there.
        front: Vec<u8>,
    },
    Move {
        book: usize,
        image: Vec<u8>,
        list: Vec<u8>,
        /// The names of the read scenes.
        read: Vec<Vec<u8>>,
    },
    Back {
        sector: usize,
        image: Vec<u8>,
        list: Vec<u8>,
        book: Vec<u8>,
    },
}

impl Naming {
    /// A name to mark, and the sector it is marked in.
    pub fn mark(rng: &mut Rng, chip: u8, number: u64) -> (Self, Vec<u8>) {
        let mut name = name(rng);
        if !number.is_multiple_of(8) {
            name.truncate(6);
        }
        let others: Vec<Vec<u8>> = (0..rng.below(5)).map(|_| cases::names::name(rng)).collect();
        let others: Vec<Vec<u8>> = others.into_iter().filter(|other| *other != name).collect();
        let front = images::records(&[], &others);
        let old = begun(rng, &front, std::slice::from_ref(&name));
        let target = sector(rng, chip);
        (Self { target, what: What::Mark { name, front } }, old)
    }

    /// A book to move, and the sector it is moved to.
    pub fn moving(rng: &mut Rng, chip: u8, number: u64) -> (Self, Vec<u8>) {
        let named = named(rng, number);
        let read = named.read_names();
        let old = begun(rng, &[], &read);
        let [book, target] = two_sectors(rng, chip);
        let (image, list) = (named.sector(rng), list(&named.names));
        (Self { target, what: What::Move { book, image, list, read } }, old)
    }

    /// Names to go back from, some of them not on the list, and the book's sector.
    pub fn back(rng: &mut Rng, chip: u8, number: u64) -> (Self, Vec<u8>) {
        let named = named(rng, number);
        let mut names = named.read_names();
        names.insert(rng.below(names.len() + 1), b"unlisted!".to_vec());
        let image = images::padded(&images::records(&[], &names));
        let mut book = vec![0xFF; SECTOR];
        book[..BOOK].copy_from_slice(&named.sector(rng)[..BOOK]);
        let old = match rng.coin() {
            true => vec![0xFF; SECTOR],
            false => images::half_done(rng, &[0xFF; SECTOR], &book),
        };
        let [sector, target] = two_sectors(rng, chip);
        let list = list(&named.names);
        (Self { target, what: What::Back { sector, image, list, book } }, old)
    }

    /// What a call wants of the target that holds these bytes now.
    pub fn wanted(&self, now: &[u8]) -> Vec<u8> {
        match &self.what {
            What::Mark { name, front } => images::wanted(now, front, std::slice::from_ref(name)),
            What::Move { read, .. } => images::wanted(now, &[], read),
            What::Back { book, .. } => book.clone(),
        }
    }

    pub fn source(&self) -> Option<(usize, &[u8])> {
        match &self.what {
            What::Mark { .. } => None,
            What::Move { book: start, image, .. } | What::Back { sector: start, image, .. } => {
                Some((*start, image))
            }
        }
    }

    /// Somebody's answer.
    pub fn plan(
        &self,
        names: &Names,
        state: State,
        wp_high: bool,
        array: &[u8],
        buffer: &mut [u8],
    ) -> Planned {
        let target = self.target;
        match &self.what {
            What::Mark { name, .. } => (names.mark)(state, wp_high, array, target, name, buffer),
            What::Move { book, list, .. } => {
                (names.there)(state, wp_high, array, *book, target, list, buffer)
            }
            What::Back { sector, list, .. } => {
                let returned = (names.back)(state, wp_high, array, *sector, target, list, buffer);
                let Returned { number, state, length, frames, microseconds, .. } = returned;
                Planned { number, state, length, frames, microseconds }
            }
        }
    }

    /// Whether the plan made where the target held the old bytes may leave these, whole or cut: no
    /// name is made up and none lost, by a first plan none added, no scene but the recorded read.
    pub fn may_leave(&self, old: &[u8], now: &[u8]) -> bool {
        let after: Vec<&[u8]> = names_of(now).collect();
        let before: Vec<&[u8]> = names_of(old).collect();
        match &self.what {
            What::Mark { name, front } => {
                let first = images::is_missing(old, front, std::slice::from_ref(name));
                let added = after.split_last() == Some((&&name[..], &before[..]));
                after == before || added && !first
            }
            What::Move { read, .. } => {
                let first = images::is_missing(old, &[], read);
                let prefix = after.len() <= read.len();
                let prefix = prefix && after.iter().zip(read).all(|(after, read)| after == read);
                if first {
                    after.is_empty()
                } else {
                    prefix
                }
            }
            What::Back { book, .. } => now.iter().zip(book).all(|(now, book)| book & !now == 0),
        }
    }

    /// Whether what is told of names is what the target holds.
    pub fn is_told(&self, names: &Names, state: State, array: &[u8], now: &[u8]) -> bool {
        let asked = match &self.what {
            What::Mark { name, .. } => std::slice::from_ref(name),
            What::Move { read, .. } => &read[..read.len().min(3)],
            What::Back { .. } => &[],
        };
        asked.iter().all(|name| {
            let told = (names.is_read)(state, array, self.target, name);
            let read = names_of(now).any(|record| record == name);
            (told.number, told.value) == (0, read.into())
        })
    }

    pub fn is_first(&self, old: &[u8]) -> bool {
        match &self.what {
            What::Mark { name, front } => {
                images::is_missing(old, front, std::slice::from_ref(name))
            }
            What::Move { read, .. } => images::is_missing(old, &[], read),
            What::Back { .. } => false,
        }
    }

    /// Whether the target is neither erased behind its records nor finished.
    pub fn is_begun(&self, old: &[u8]) -> bool {
        let behind = match &self.what {
            What::Mark { front, .. } => front.len(),
            _ => 0,
        };
        old[behind..].iter().any(|byte| *byte != 0xFF)
    }
}

/// A few short names, now and then many.
fn named(rng: &mut Rng, number: u64) -> NamedBook {
    let count = if number.is_multiple_of(20) { rng.between(20, 60) } else { rng.between(1, 5) };
    let own = |number: usize| vec![b'a' + (number % 26) as u8, b'A' + (number / 26) as u8];
    let mut names: Vec<Vec<u8>> = (0..count).map(own).collect();
    names.iter_mut().for_each(|name| name.truncate(if count < 26 { 1 } else { 2 }));
    names.iter_mut().for_each(|name| name.extend(vec![b'_'; rng.below(4)]));
    let mut read: Vec<bool> = names.iter().map(|_| rng.coin()).collect();
    read[rng.below(count)] = true;
    NamedBook { names, read }
}

/// A target for which something is left to do, and accepted.
fn begun(rng: &mut Rng, front: &[u8], names: &[Vec<u8>]) -> Vec<u8> {
    loop {
        let old = images::target(rng, front, names);
        let wanted = images::wanted(&old, front, names);
        if old != wanted && !images::needs_erase(&old, &wanted) {
            return old;
        }
    }
}

fn two_sectors(rng: &mut Rng, chip: u8) -> [usize; 2] {
    loop {
        let two = [sector(rng, chip), sector(rng, chip)];
        if two[0] != two[1] {
            return two;
        }
    }
}

/// As Rust text that can be pasted.
impl fmt::Display for Naming {
    fn fmt(&self, to: &mut fmt::Formatter<'_>) -> fmt::Result {
        match &self.what {
            What::Mark { name, .. } => write!(to, "let name = {};", bytes_text(name)),
            What::Move { book: start, image, list, .. }
            | What::Back { sector: start, image, list, .. } => {
                writeln!(to, "let (source, image) = ({start:#X}, {});", bytes_text(image))?;
                write!(to, "let list = {};", bytes_text(list))
            }
        }
    }
}
