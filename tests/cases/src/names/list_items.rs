//! Random moves and ways back, with the refusals that are planted in them.

use model::{BOOK, MOST_NAMES, SECTOR};

use super::books::NamedBook;
use super::case::Asked;
use super::draft::{lengths, Draft};
use super::drawn::{like, list, much_alike, name, no_list, with_twin};
use super::images::{self, half_done, needs_erase, padded};
use super::items::Item;
use super::{BAD_NAME, FULL, NAME_TWICE, ROOMY};
use crate::board::Board;
use crate::book::sector;
use crate::spoil::Planted;
use crate::Rng;

/// A book and a list to move.
pub fn moving(rng: &mut Rng, chip: u8, board: &mut Board) -> Item {
    let spoils = rng.coin();
    let mut planted = Planted::default();
    let mut named = match rng.below(8) {
        0 => NamedBook::needing(rng, SECTOR),
        1 => {
            planted.plant(FULL);
            let more = rng.pick(&[1, 1, 2, 35, 700]);
            NamedBook::needing(rng, SECTOR + more)
        }
        _ => any_book(rng),
    };
    let mut book = named.sector(rng);
    let target = target(rng, &named, &mut planted);
    let [from, to] = two_sectors(rng, chip);
    let good = list(&named.names);
    let given = spoilt_list(rng, spoils, &mut named.names, &mut planted);
    let exact = Asked::Move { book: from, sector: to, list: good, room: ROOMY };
    let past = named.names.len() < MOST_NAMES && spoils && rng.one_in(5);
    board.of(chip).put(to, &target);
    board.of(chip).put(from, &book);
    let exact = lengths(chip, &exact, board);
    if past {
        planted.plant(BAD_NAME);
        let scene = match rng.below(3) {
            0 => named.names.len(),
            1 => MOST_NAMES - 1,
            _ => rng.between(named.names.len(), MOST_NAMES - 1),
        };
        book[scene / 8] &= !(1 << (scene % 8));
        board.of(chip).put(from, &book);
    }
    let asked = Asked::Move { book: from, sector: to, list: given, room: ROOMY };
    Draft { chip, asked, planted, spoils }.item(rng, exact)
}

fn any_book(rng: &mut Rng) -> NamedBook {
    match rng.one_in(50) {
        true => NamedBook::longest(rng),
        false => NamedBook::draw(rng),
    }
}

/// A target of a move, now and then dirty.
fn target(rng: &mut Rng, named: &NamedBook, planted: &mut Planted) -> Vec<u8> {
    let names = named.read_names();
    let records = images::records(&[], &names);
    if records.len() > SECTOR {
        return match rng.coin() {
            true => vec![0xFF; SECTOR],
            false => {
                planted.plant(8);
                rng.bytes(SECTOR)
            }
        };
    }
    let mut target = images::target(rng, &[], &names);
    if rng.one_in(4) {
        let at = match rng.below(4) {
            0 => rng.below(2),
            1 => rng.below(records.len() + 1),
            _ => rng.below(SECTOR),
        };
        target[at.min(SECTOR - 1)] &= rng.pick(&[0x4E, 0x52, 0x00, 0x7F]);
    }
    if needs_erase(&target, &images::wanted(&target, &[], &names)) {
        planted.plant(8);
    }
    target
}

/// Names and a list to go back to a book.
pub fn back(rng: &mut Rng, chip: u8, board: &mut Board) -> Item {
    let spoils = rng.coin();
    let mut planted = Planted::default();
    let mut named = any_book(rng);
    let source = source(rng, &named);
    let [from, to] = two_sectors(rng, chip);
    let mut wanted = vec![0xFF; SECTOR];
    for (scene, name) in named.names.iter().enumerate() {
        // Few lists are long enough for this to take its time.
        if named.names.len() <= 400 && model::names_of(&source).any(|record| record == name) {
            wanted[scene / 8] &= !(1 << (scene % 8));
        }
    }
    let mut target = match rng.below(4) {
        0 => half_done(rng, &[0xFF; SECTOR], &wanted),
        1 => wanted.clone(),
        _ => vec![0xFF; SECTOR],
    };
    if rng.one_in(4) {
        let at = match rng.below(4) {
            0 => rng.between(BOOK, SECTOR - 1),
            1 => rng.pick(&[BOOK - 1, BOOK, SECTOR - 1]),
            _ => rng.below(BOOK),
        };
        target[at] &= !(1 << rng.below(8));
    }
    if named.names.len() <= 400 && needs_erase(&target, &wanted) {
        planted.plant(8);
    }
    board.of(chip).put(from, &source);
    board.of(chip).put(to, &target);
    let good = list(&named.names);
    let exact = Asked::Back { sector: from, book: to, list: good, room: ROOMY };
    let given = spoilt_list(rng, spoils, &mut named.names, &mut planted);
    let asked = Asked::Back { sector: from, book: to, list: given, room: ROOMY };
    let exact = lengths(chip, &exact, board);
    Draft { chip, asked, planted, spoils }.item(rng, exact)
}

/// Records of names that are on the list and of others, some twice.
pub fn source(rng: &mut Rng, named: &NamedBook) -> Vec<u8> {
    let mut names = named.read_names();
    for _ in 0..rng.below(4) {
        let other = match rng.below(3) {
            0 if !names.is_empty() => rng.one_of(&names).clone(),
            1 if !names.is_empty() => {
                let known = rng.one_of(&names);
                like(rng, known)
            }
            _ => name(rng),
        };
        let times = rng.between(1, 2);
        (0..times).for_each(|_| names.insert(rng.below(names.len() + 1), other.clone()));
    }
    if rng.one_in(8) {
        // One record behind another with nothing between takes four bytes: names of one byte.
        names = (0..1_024).map(|_| vec![rng.between(0x20, 0x7E) as u8]).collect();
    }
    let mut bytes = images::records(&[], &names);
    if rng.one_in(6) {
        let at = rng.below(bytes.len().max(1));
        bytes.insert(at.min(bytes.len()), rng.pick(&[0x00, 0xFF, 0x4E]));
    }
    bytes.truncate(SECTOR);
    padded(&bytes)
}

/// The list as it is given: good, with a name twice, with a bad one, or of too many.
fn spoilt_list(
    rng: &mut Rng,
    spoils: bool,
    names: &mut Vec<Vec<u8>>,
    planted: &mut Planted,
) -> Vec<u8> {
    if !spoils {
        return list(names);
    }
    if rng.one_in(3) && names.len() > 1 {
        planted.plant(NAME_TWICE);
        *names = with_twin(rng, names);
    }
    match rng.below(12) {
        0 if rng.one_in(4) => {
            planted.plant(BAD_NAME);
            let length = rng.pick(&[3, 4]);
            let mut many = much_alike(rng, MOST_NAMES + 1, length);
            if rng.coin() {
                planted.plant(NAME_TWICE);
                many = with_twin(rng, &many);
            }
            list(&many)
        }
        1..=4 => {
            planted.plant(BAD_NAME);
            no_list(rng, names)
        }
        _ => list(names),
    }
}

pub fn two_sectors(rng: &mut Rng, chip: u8) -> [usize; 2] {
    loop {
        let two = [sector(rng, chip), sector(rng, chip)];
        if two[0] != two[1] {
            return two;
        }
    }
}
