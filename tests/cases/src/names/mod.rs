//! Flags by name, and back again (02, A7): cases, random and written out, on which somebody's four
//! calls are compared with the right model's, and what they promise, tried on random ones.

mod books;
mod calls;
mod case;
mod compare;
mod draft;
mod drawn;
mod histories;
pub mod images;
mod items;
mod list_items;
mod power;
mod promises;
mod round_trips;
mod samples;
mod trials;

pub use books::NamedBook;
pub use calls::Names;
pub use case::{Asked, Case, Outcome};
pub use compare::{explore, Difference, Seen};
pub use drawn::{list, name};
pub use histories::{Came, Histories, CALLS};
pub use items::Item;
pub use power::{Cut, Mask, Powered};
pub use promises::{Found, Promise};
pub(crate) use samples::failing;
pub use trials::Trials;

/// The refusals of A7.
pub const SAME_SECTOR: u32 = 6;
pub const BAD_NAME: u32 = 18;
pub const NAME_TWICE: u32 = 19;
pub const FULL: u32 = 20;

/// Longer than any plan's script.
pub const ROOMY: usize = 27_000;
/// How much more room is enough behind a cut (00, demand 3).
pub const MORE_ROOM: usize = 22;
