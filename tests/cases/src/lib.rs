//! Random and edge cases for any two who answer the seventeen calls, compared with each other.

pub mod book;
pub mod counts;
pub mod literal;
pub mod names;
pub mod plans;
pub mod salvage;
pub mod states;
pub mod unread;
pub mod worst;

mod bad_records;
mod board;
mod case;
mod chip;
mod compare;
mod driven;
mod frames;
mod generator;
mod levels;
mod line_sweep;
mod listing;
mod malform;
mod masks;
mod pending;
mod refused;
mod rng;
mod samples;
mod script_sweep;
mod scripts;
mod side;
mod spoil;
mod status_sweep;
mod status_write;
mod surveys;
mod sweep;

use model::Calls;

pub use case::{Case, Outcome};
pub use compare::{explore, Difference};
pub use generator::Item;
pub use rng::Rng;
pub use side::Written;

pub const F25L008A: u8 = 8;
pub const F25L05PA: u8 = 5;
pub const CHIPS: [u8; 2] = [F25L008A, F25L05PA];

/// The first addresses that the levels of the 008A protect, and its size.
pub const BORDERS: [usize; 5] = [0x08_0000, 0x0C_0000, 0x0E_0000, 0x0F_0000, 0x10_0000];

/// The names of the cases written out, with their answers, that fail: 01's samples, which bytes the chip
/// drives, the levels of protection, the status write that takes time, bad records, surveys, the plans of
/// the worst case, the flag book, sick sectors and flags by name.
pub fn written_out<C: Calls>() -> Vec<String> {
    [
        samples::failing::<C>(),
        driven::failing::<C>(),
        levels::failing::<C>(),
        status_write::failing::<C>(),
        bad_records::failing::<C>(),
        surveys::failing::<C>(),
        worst::failing::<C>(),
        book::failing::<C>(),
        salvage::failing::<C>(),
        names::failing::<C>(),
    ]
    .concat()
}

/// The bytes of a chip; of an unknown one those of the 05PA.
pub fn size(chip: u8) -> usize {
    if chip == F25L008A {
        0x10_0000
    } else {
        0x1_0000
    }
}

/// The first protected address by chip and BP2 BP1 BP0.
pub fn first_protected(chip: u8, bp: u8) -> usize {
    match (chip, bp) {
        (F25L008A, 0) => 0x10_0000,
        (F25L008A, 1) => 0x0F_0000,
        (F25L008A, 2) => 0x0E_0000,
        (F25L008A, 3) => 0x0C_0000,
        (F25L008A, 4) => 0x08_0000,
        (F25L05PA, 0 | 4) => 0x1_0000,
        _ => 0,
    }
}
