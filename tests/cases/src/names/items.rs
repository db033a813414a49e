//! Random cases, with the refusals that are planted in them.

use model::SECTOR;

use super::case::{Asked, Case};
use super::draft::{lengths, Draft};
use super::drawn::{name, no_name};
use super::images::{self, needs_erase, used};
use super::list_items::{back, moving};
use super::{BAD_NAME, FULL, ROOMY};
use crate::board::Board;
use crate::book::{no_sector, sector, WRONG_BOOK};
use crate::case::On;
use crate::salvage::HEAD;
use crate::spoil::{self, Planted};
use crate::{states, Rng, CHIPS};

/// A case and the refusals that were planted in it.
pub struct Item {
    pub case: Case,
    pub planted: Planted,
    /// Whether it has one byte less room than its script has.
    pub one_short: bool,
}

/// One more case; the board's sectors get contents to suit it.
pub fn item(rng: &mut Rng, board: &mut Board) -> Item {
    let chip = rng.pick(&CHIPS);
    match rng.below(10) {
        0..=2 => question(rng, chip, board),
        3..=5 => mark(rng, chip, board),
        6 | 7 => moving(rng, chip, board),
        _ => back(rng, chip, board),
    }
}

/// Whether a name is read; the chip may be doing anything.
fn question(rng: &mut Rng, chip: u8, board: &mut Board) -> Item {
    let mut planted = Planted::default();
    let mut name = name(rng);
    let mut start = sector(rng, chip);
    board.of(chip).put(start, &images::sector(rng, &name));
    let state = match rng.below(3) {
        0 => spoil::not_at_rest(rng, chip),
        _ => states::sound(rng, chip),
    };
    let mut on = On::new(state, rng.coin());
    if rng.one_in(3) {
        spoil::chip(rng, &mut on, &mut planted);
        if rng.coin() {
            planted.plant(WRONG_BOOK);
            start = no_sector(rng, chip);
        }
        if rng.coin() {
            planted.plant(BAD_NAME);
            name = no_name(rng, &name);
        }
    }
    let case = Case { on, asked: Asked::IsRead { sector: start, name } };
    Item { case, planted, one_short: false }
}

/// A name to mark.
fn mark(rng: &mut Rng, chip: u8, board: &mut Board) -> Item {
    let spoils = rng.one_in(3);
    let mut planted = Planted::default();
    let mut name = name(rng);
    let start = sector(rng, chip);
    let image = images::sector(rng, &name);
    if !model::names_of(&image).any(|record| record == name) {
        let front = &image[..used(&image)];
        if front.len() + HEAD + name.len() > SECTOR {
            planted.plant(FULL);
        }
        if needs_erase(&image, &images::wanted(&image, front, std::slice::from_ref(&name))) {
            planted.plant(8);
        }
    }
    board.of(chip).put(start, &image);
    let exact = Asked::Mark { sector: start, name: name.clone(), room: ROOMY };
    if spoils && rng.one_in(3) {
        planted.plant(BAD_NAME);
        name = no_name(rng, &name);
    }
    let asked = Asked::Mark { sector: start, name, room: ROOMY };
    let exact = lengths(chip, &exact, board);
    Draft { chip, asked, planted, spoils }.item(rng, exact)
}
