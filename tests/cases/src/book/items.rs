//! Random cases about books.

use model::{Calls, Model, State, BOOK};

use super::drawn::{no_scene, no_sector, scene, scenes, sector};
use super::{is_read, ROOMY, WRONG_BOOK};
use crate::board::Board;
use crate::case::{Case, On};
use crate::generator::Item;
use crate::spoil::{self, Planted};
use crate::{first_protected, states, Rng};

/// Whether a scene is read, or how many are; the chip may be doing anything.
pub fn question(rng: &mut Rng, chip: u8, walk: State, board: &mut Board) -> Item {
    let mut planted = Planted::default();
    let mut sector = dressed_sector(rng, chip, board);
    let mut scene = scene(rng);
    let state = match rng.below(4) {
        0 => walk,
        1 => spoil::not_at_rest(rng, chip),
        _ => states::sound(rng, chip),
    };
    let mut on = On::new(state, rng.coin());
    let counts = rng.one_in(3);
    if rng.coin() {
        spoil::chip(rng, &mut on, &mut planted);
        if rng.one_in(2) {
            planted.plant(WRONG_BOOK);
            sector = no_sector(rng, chip);
        }
        if !counts && rng.one_in(2) {
            planted.plant(WRONG_BOOK);
            scene = no_scene(rng);
        }
    }
    let case = match counts {
        true => Case::BookCount { on, sector },
        false => Case::BookIsRead { on, sector, scene },
    };
    Item::new(case, planted)
}

/// A list of scenes to mark.
pub fn mark(rng: &mut Rng, chip: u8, board: &mut Board) -> Item {
    let mut planted = Planted::default();
    let mut sector = dressed_sector(rng, chip, board);
    let array = board.of(chip).array();
    let mut scenes = scenes(rng, &array[sector..][..BOOK]);
    let mut on = On::new(states::at_rest(rng, chip), rng.coin());
    let spoils = rng.one_in(3);
    if spoils && rng.coin() {
        lock(rng, &mut on);
        let changes = scenes.iter().any(|scene| !is_read(&array[sector..], *scene));
        if changes && sector >= first_protected(chip, on.state.bp) {
            planted.plant(9);
        }
    }
    let mut script = vec![0; ROOMY];
    let exact = <Model>::book_mark(on.state, true, array, sector, &scenes, &mut script);
    let exact = exact.length as usize;
    let mut room = rng.pick(&[exact, exact + 1, ROOMY]);
    if spoils {
        if rng.one_in(2) && exact > 0 {
            planted.plant(10);
            room = spoil::room(rng, exact);
        }
        if rng.one_in(4) {
            planted.plant(7);
            on.state = spoil::not_at_rest(rng, chip);
        }
        if rng.one_in(3) {
            planted.plant(WRONG_BOOK);
            spoil_book(rng, chip, &mut sector, &mut scenes);
        }
        if rng.one_in(2) {
            spoil::chip(rng, &mut on, &mut planted);
        }
    }
    let case = Case::BookMark { on, sector, scenes, room };
    Item { case, planted, one_short: room + 1 == exact }
}

/// A sector whose book has contents to suit it.
fn dressed_sector(rng: &mut Rng, chip: u8, board: &mut Board) -> usize {
    let sector = sector(rng, chip);
    board.of(chip).dress(&(sector..sector + BOOK), rng);
    sector
}

/// BPL 1 and WP low; mostly all is protected.
fn lock(rng: &mut Rng, on: &mut On) {
    on.state.bpl = true;
    on.wp_high = false;
    on.state.bp = rng.pick(&[5, 6, 7, on.state.bp]);
}

/// A scene that there isn't, anywhere in the list, or a sector that there isn't, or both.
fn spoil_book(rng: &mut Rng, chip: u8, sector: &mut usize, scenes: &mut Vec<u32>) {
    let which = rng.below(3);
    if which != 0 {
        let at = match rng.below(3) {
            0 => 0,
            1 => scenes.len(),
            _ => rng.below(scenes.len() + 1),
        };
        scenes.insert(at, no_scene(rng));
    }
    if which != 1 {
        *sector = no_sector(rng, chip);
    }
}
