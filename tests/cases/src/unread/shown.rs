//! What the frames of a script show.

use model::LONGEST_SCRIPT;

/// The two slices, long enough for any script.
pub struct Shown {
    output: Vec<u8>,
    driven: Vec<u8>,
}

impl Shown {
    pub fn new() -> Self {
        Self { output: vec![0; LONGEST_SCRIPT], driven: vec![0; LONGEST_SCRIPT] }
    }

    /// Puts this byte wherever so many bytes will be shown.
    pub fn clear(&mut self, length: usize, untouched: u8) {
        self.lent(0, length).into_iter().for_each(|slice| slice.fill(untouched));
    }

    /// Both from a byte on, so many.
    pub fn lent(&mut self, from: usize, length: usize) -> [&mut [u8]; 2] {
        [&mut self.output, &mut self.driven].map(|slice| &mut slice[from..][..length])
    }
}
