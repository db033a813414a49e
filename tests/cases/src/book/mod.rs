//! The flag book (02, A2): its cases, random and written out, and what its marks promise, tried on
//! random ones.

mod books;
mod drawn;
mod items;
mod marks;
mod on_chip;
mod promises;
mod samples;
mod sweep;

use model::SCENES;

pub use books::{Books, Found};
pub(crate) use drawn::no_sector;
pub use drawn::{scenes, sector, short_list};
pub(crate) use items::{mark, question};
pub use marks::Mark;
pub use promises::Promise;
pub(crate) use samples::failing;
pub(crate) use sweep::BookSweep;

/// The refusal of a scene or a sector that there isn't.
pub const WRONG_BOOK: u32 = 15;
/// Longer than any mark's script.
pub const ROOMY: usize = 4_000;

/// "Scene s is bit s modulo 8, lowest first, of byte s / 8; 1 is unread."
pub fn is_read(book: &[u8], scene: u32) -> bool {
    book[scene as usize / 8] >> (scene % 8) & 1 == 0
}

/// The same book with the listed scenes read.
pub fn marked(book: &[u8], scenes: &[u32]) -> Vec<u8> {
    let mut marked = book.to_vec();
    for scene in scenes {
        marked[*scene as usize / 8] &= !(1 << (scene % 8));
    }
    marked
}

/// The scenes that are read.
fn read_scenes(book: &[u8]) -> impl Iterator<Item = u32> + '_ {
    (0..SCENES).filter(|scene| is_read(book, *scene))
}
