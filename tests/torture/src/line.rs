//! What is shown while a plan's frames are sent.

/// The two slices.
pub struct Line {
    output: Vec<u8>,
    driven: Vec<u8>,
}

impl Line {
    /// Filled with what no frame shows in either.
    pub fn new(length: usize) -> Self {
        Self { output: vec![0x5A; length], driven: vec![0x5A; length] }
    }

    pub fn slices(&mut self) -> [&mut [u8]; 2] {
        [&mut self.output, &mut self.driven]
    }

    /// None of a plan's frames is answered.
    pub fn check_silent(&self) -> Result<(), String> {
        let silent = |(output, driven): (&u8, &u8)| (*output, *driven) == (0xFF, 0);
        match self.output.iter().zip(&self.driven).all(silent) {
            true => Ok(()),
            false => Err("a byte of a plan's frames is driven".into()),
        }
    }
}
