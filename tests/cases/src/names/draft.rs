//! Cases of the calls that plan, before they have a chip and room.

use model::{Calls, Model, State};

use super::calls::Names;
use super::case::{Asked, Case};
use super::items::Item;
use super::{ROOMY, SAME_SECTOR};
use crate::board::Board;
use crate::book::{no_sector, WRONG_BOOK};
use crate::case::On;
use crate::spoil::{self, Planted};
use crate::{first_protected, states, Rng};

/// What is drawn for the calls that plan, before it is spoilt.
pub struct Draft {
    pub chip: u8,
    pub asked: Asked,
    pub planted: Planted,
    /// Whether more is to be planted.
    pub spoils: bool,
}

impl Draft {
    /// Gives the case a chip and room, and spoils it further; `exact` is how long its script is on a
    /// chip without protection, and with all protected.
    pub fn item(self, rng: &mut Rng, exact: [usize; 2]) -> Item {
        let Draft { chip, mut asked, mut planted, spoils } = self;
        let mut on = On::new(states::at_rest(rng, chip), rng.coin());
        if spoils && rng.coin() {
            on.state.bpl = true;
            on.wp_high = false;
            on.state.bp = rng.pick(&[0, 5, 6, 7, on.state.bp]);
        }
        let target = target_of(&asked);
        let protected = target >= first_protected(chip, on.state.bp);
        let exact = exact[usize::from(protected)];
        let changes = exact > 0 || planted.numbers().any(|number| number == 8);
        if changes && protected && on.state.bpl && !on.wp_high {
            planted.plant(9);
        }
        let mut room = rng.pick(&[exact, exact + 1, ROOMY]);
        if changes && rng.one_in(if spoils { 2 } else { 6 }) {
            planted.plant(10);
            room = if exact > 0 { spoil::room(rng, exact) } else { 0 };
        }
        if spoils && rng.one_in(4) {
            planted.plant(7);
            on.state = spoil::not_at_rest(rng, chip);
        }
        asked.set_room(room);
        if spoils {
            spoil_sectors(rng, chip, &mut asked, &mut planted);
            if rng.one_in(3) {
                spoil::chip(rng, &mut on, &mut planted);
            }
        }
        Item { case: Case { on, asked }, planted, one_short: room + 1 == exact }
    }
}

/// How long the script is on a chip without protection, and with all protected.
pub fn lengths(chip: u8, asked: &Asked, board: &mut Board) -> [usize; 2] {
    let new = states::disabled(<Model>::new_chip(chip).state);
    [0, 7].map(|bp| {
        let on = On::new(State { bp, ..new }, true);
        let case = Case { on, asked: asked.clone() };
        let array = board.of(chip).array();
        case.run(&Names::of::<Model>(), array, &mut [0; ROOMY]).length()
    })
}

fn target_of(asked: &Asked) -> usize {
    match asked {
        Asked::IsRead { sector, .. } | Asked::Mark { sector, .. } | Asked::Move { sector, .. } => {
            *sector
        }
        Asked::Back { book, .. } => *book,
    }
}

/// Maybe one sector for both, maybe one that there isn't, or two.
fn spoil_sectors(rng: &mut Rng, chip: u8, asked: &mut Asked, planted: &mut Planted) {
    let mut starts = match asked {
        Asked::IsRead { sector, .. } | Asked::Mark { sector, .. } => [Some(sector), None],
        Asked::Move { book, sector, .. } | Asked::Back { sector, book, .. } => {
            [Some(sector), Some(book)]
        }
    };
    if rng.one_in(4) {
        planted.plant(WRONG_BOOK);
        let [one, other] = &mut starts;
        let which = rng.below(3);
        if let (Some(one), true) = (one, which != 0 || other.is_none()) {
            **one = no_sector(rng, chip);
        }
        if let (Some(other), true) = (other, which != 1) {
            **other = no_sector(rng, chip);
        }
    }
    if let ([Some(one), Some(other)], true) = (starts, rng.one_in(5)) {
        planted.plant(SAME_SECTOR);
        match rng.coin() {
            true => *one = *other,
            false => *other = *one,
        }
    }
}
