//! An array that is the same before every script: a stretch of bytes over and over, so that only
//! what a script changes has to be kept, and put back.

const STRETCH: usize = 4_096;

pub struct Array {
    bytes: Vec<u8>,
    stretch: Vec<u8>,
}

/// A stretch that was changed.
#[derive(PartialEq)]
pub struct Changed {
    from: usize,
    after: Vec<u8>,
}

/// Bytes of an array before and after, from an address up.
pub struct Change<'a> {
    pub from: usize,
    pub before: &'a [u8],
    pub after: &'a [u8],
}

/// A byte of an array before and after.
pub struct ByteChange {
    pub address: usize,
    pub before: u8,
    pub after: u8,
}

impl Array {
    pub fn new(size: usize) -> Self {
        let byte = |i: u32| (i.wrapping_mul(0x9E37_79B1) >> 24) as u8;
        let stretch: Vec<u8> = (0..STRETCH as u32).map(byte).collect();
        Self { bytes: stretch.repeat(size / STRETCH), stretch }
    }

    pub fn lent(&mut self) -> &mut [u8] {
        &mut self.bytes
    }

    /// Puts the array back as it was; what was changed.
    pub fn put_back(&mut self) -> Vec<Changed> {
        let mut all = Vec::new();
        for (index, bytes) in self.bytes.chunks_mut(STRETCH).enumerate() {
            if bytes != self.stretch {
                all.push(Changed { from: index * STRETCH, after: bytes.to_vec() });
                bytes.copy_from_slice(&self.stretch);
            }
        }
        all
    }

    pub fn change<'a>(&'a self, changed: &'a Changed) -> Change<'a> {
        Change { from: changed.from, before: &self.stretch, after: &changed.after }
    }
}

impl Change<'_> {
    /// Its bytes at an address and above.
    pub fn bytes_from(&self, address: usize) -> impl Iterator<Item = ByteChange> + '_ {
        let passed = address.saturating_sub(self.from).min(self.before.len());
        let bytes = self.before[passed..].iter().zip(&self.after[passed..]);
        (self.from + passed..).zip(bytes).map(|(address, (&before, &after))| ByteChange {
            address,
            before,
            after,
        })
    }
}

/// An array before a script, as a Rust binding.
pub fn text(size: usize) -> String {
    format!(
        "let mut array: Vec<u8> = (0..{size:#X}_u32)\
         .map(|i| ((i % {STRETCH}).wrapping_mul(0x9E37_79B1) >> 24) as u8).collect();"
    )
}
