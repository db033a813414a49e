//! Salvaging sick sectors of names (02, A9): images, random and written out, on which somebody's
//! salvage is compared with the right model's, and what it promises, tried on random ones.

mod compare;
mod damage;
mod images;
mod lent;
mod parts;
mod promises;
mod records;
mod salvages;
mod samples;

use model::Salvaged;

pub use compare::{explore, Call, Difference};
pub use images::Image;
pub use lent::{Lent, WRONG_LENGTHS};
pub(crate) use parts::Parts;
pub use promises::Promise;
pub(crate) use records::{filling, name, record, text, HEAD, LONGEST_NAME};
pub use salvages::{Found, Salvages};
pub(crate) use samples::failing;

/// Somebody's call: the sector, the kept records' buffer and the list's.
pub type Salvage = fn(&[u8], &mut [u8], &mut [u8]) -> Salvaged;

/// Stretches and the records between them take at least one byte and four: 5 n is at most 4,100.
pub const MOST_STRETCHES: usize = 820;
/// The list of so many.
pub const LONGEST_LIST: usize = 4 * MOST_STRETCHES;
