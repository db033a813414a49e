//! The order of refusals: all that a call can be refused for holds at first, and is then put right
//! one by one.

use model::{Calls, State, SECTOR};

use super::on_chip::{many, OnChip};
use super::Sample;
use crate::names::drawn::list;
use crate::size;

pub fn samples<C: Calls>() -> Vec<Sample> {
    vec![
        ("the order of a question's refusals", question::<C>),
        ("the order of a mark's refusals", mark::<C>),
        ("the order of a move's refusals", there::<C>),
        ("the order of a way back's refusals", back::<C>),
        ("a read scene past the list comes before a name twice", |chip| {
            let mut names = OnChip::<C>::reading(chip, &[2]);
            let past = names.refuses(18, names.there(b"\x01A\x01A"));
            names.book = 5 * SECTOR;
            past && names.refuses(19, names.there(b"\x01A\x01A"))
        }),
        ("later refusals with none between", distant::<C>),
    ]
}

/// A chip in an unsound state, with a wrong array and no sectors, and no room: busy, protected and
/// locked.
fn spoilt<C: Calls>(chip: u8) -> OnChip<C> {
    let mut names = OnChip::<C>::new(chip);
    let state = names.chip.state;
    names.chip.state = State { bp: 8, bpl: true, wel: true, left: 5, ..state };
    names.wp_high = false;
    names.lent -= 1;
    (names.sector, names.book) = (size(chip), size(chip));
    names.room = 0;
    names
}

fn sound<C>(names: &mut OnChip<C>) {
    names.chip.state.bp = 7;
}

fn rested<C>(names: &mut OnChip<C>) {
    names.chip.state.left = 0;
}

fn whole<C>(names: &mut OnChip<C>) {
    names.lent += 1;
}

fn question<C: Calls>(chip: u8) -> bool {
    let mut names = spoilt::<C>(chip);
    let one = names.refuses_to_tell(1, b"");
    sound(&mut names);
    let two = names.refuses_to_tell(2, b"");
    whole(&mut names);
    let fifteen = names.refuses_to_tell(15, b"");
    names.sector = 0;
    let eighteen = names.refuses_to_tell(18, b"");
    [one, two, fifteen, eighteen, names.tells(0, &[b"A"])] == [true; 5]
}

fn mark<C: Calls>(chip: u8) -> bool {
    let mut names = spoilt::<C>(chip);
    names.put(0, &b"NR\x01A".repeat(1_023));
    names.chip.array[SECTOR - 2] = 0;
    let one = names.refuses(1, names.mark(b"B\0"));
    sound(&mut names);
    let two = names.refuses(2, names.mark(b"B\0"));
    whole(&mut names);
    let fifteen = names.refuses(15, names.mark(b"B\0"));
    names.sector = 0;
    let eighteen = names.refuses(18, names.mark(b"B\0"));
    let twenty = names.refuses(20, names.mark(b"BB"));
    let seven = names.refuses(7, names.mark(b"B"));
    rested(&mut names);
    let eight = names.refuses(8, names.mark(b"B"));
    names.chip.array[SECTOR - 2] = 0xFF;
    let nine = names.refuses(9, names.mark(b"B"));
    names.wp_high = true;
    let ten = names.refuses(10, names.mark(b"B"));
    names.room = 100;
    let good = names.script(&names.mark(b"B")).is_some();
    [one, two, fifteen, eighteen, twenty, seven, eight, nine, ten, good] == [true; 10]
}

/// Names whose records don't fit, with one of them twice, and a bad one behind.
fn spoilt_lists() -> [Vec<u8>; 4] {
    let fits = many(600);
    let over: Vec<Vec<u8>> = fits.iter().map(|name| [name, &b"__"[..]].concat()).collect();
    let mut twice = over.clone();
    twice[599] = twice[0].clone();
    let [fits, over, twice] = [fits, over, twice].map(|names| list(&names));
    let bad = [&twice[..], b"\x00"].concat();
    [bad, twice, over, fits]
}

fn there<C: Calls>(chip: u8) -> bool {
    let [bad, twice, over, fits] = spoilt_lists();
    let mut names = spoilt::<C>(chip);
    names.chip.array[2 * SECTOR..][..65].fill(0x00);
    names.chip.array[0] = 0x4E;
    let one = names.refuses(1, names.there(&bad));
    sound(&mut names);
    let two = names.refuses(2, names.there(&bad));
    whole(&mut names);
    let fifteen = names.refuses(15, names.there(&bad));
    (names.sector, names.book) = (2 * SECTOR, 2 * SECTOR);
    let six = names.refuses(6, names.there(&bad));
    names.sector = 0;
    let eighteen = names.refuses(18, names.there(&bad));
    let nineteen = names.refuses(19, names.there(&twice));
    let twenty = names.refuses(20, names.there(&over));
    let seven = names.refuses(7, names.there(&fits));
    rested(&mut names);
    let eight = names.refuses(8, names.there(&fits));
    names.chip.array[0] = 0xFF;
    let nine = names.refuses(9, names.there(&fits));
    names.wp_high = true;
    let ten = names.refuses(10, names.there(&fits));
    names.room = crate::names::ROOMY;
    let good = names.script(&names.there(&fits)).is_some();
    [one, two, fifteen, six, eighteen, nineteen, twenty, seven, eight, nine, ten, good]
        == [true; 12]
}

fn back<C: Calls>(chip: u8) -> bool {
    let [bad, twice, _, fits] = spoilt_lists();
    let mut names = spoilt::<C>(chip);
    names.put(0, b"NR\x03000NR\x01X");
    names.chip.array[2 * SECTOR + 512] = 0;
    let one = names.refuses(1, names.back(&bad));
    sound(&mut names);
    let two = names.refuses(2, names.back(&bad));
    whole(&mut names);
    let fifteen = names.refuses(15, names.back(&bad));
    (names.sector, names.book) = (2 * SECTOR, 2 * SECTOR);
    let six = names.refuses(6, names.back(&bad));
    names.sector = 0;
    let eighteen = names.refuses(18, names.back(&bad));
    let nineteen = names.refuses(19, names.back(&twice));
    let seven = names.refuses(7, names.back(&fits));
    rested(&mut names);
    let eight = names.refuses(8, names.back(&fits));
    names.chip.array[2 * SECTOR + 512] = 0xFF;
    let nine = names.refuses(9, names.back(&fits));
    names.wp_high = true;
    let ten = names.refuses(10, names.back(&fits));
    names.room = 100;
    let good = names.script(&names.back(&fits)).is_some();
    [one, two, fifteen, six, eighteen, nineteen, seven, eight, nine, ten, good] == [true; 11]
}

/// Each of what comes late alone beside what comes early.
fn distant<C: Calls>(chip: u8) -> bool {
    let [bad, twice, over, fits] = spoilt_lists();
    let mut names = OnChip::<C>::new(chip);
    names.chip.array[2 * SECTOR..][..65].fill(0x00);
    names.room = 0;
    let lists = names.refuses(18, names.there(&bad))
        && names.refuses(19, names.there(&twice))
        && names.refuses(20, names.there(&over))
        && names.refuses(10, names.there(&fits));
    names.chip.state = State { wel: true, left: 5, ..names.chip.state };
    let busy = names.refuses(18, names.there(&bad))
        && names.refuses(19, names.back(&twice))
        && names.refuses(18, names.mark(b""))
        && names.refuses(7, names.mark(b"A"));
    names.sector = names.book;
    let equal = names.refuses_list(6, &fits) && names.refuses_list(6, &twice);
    names.lent -= 1;
    let short = names.refuses_list(2, &fits) && names.refuses(2, names.mark(b""));
    names.chip.state.next = 1;
    let unsound = names.refuses_list(1, &fits) && names.refuses_to_tell(1, b"A");
    [lists, busy, equal, short, unsound] == [true; 5]
}
