//! A sector's places by what an answer says of them.

use model::SECTOR;

/// The parts of a sector.
pub struct Parts<'a> {
    pub image: &'a [u8],
    /// Start and length of each stretch, as listed.
    pub stretches: Vec<(usize, usize)>,
    /// How often each place is listed.
    listed: Vec<u32>,
    /// Where "all trailing FF" begin.
    pub used: usize,
}

impl<'a> Parts<'a> {
    pub fn new(image: &'a [u8], list: &[u8]) -> Self {
        let number = |high: u8, low: u8| usize::from(u16::from_be_bytes([high, low]));
        let entry = |entry: &[u8]| (number(entry[0], entry[1]), number(entry[2], entry[3]));
        let stretches: Vec<(usize, usize)> = list.chunks_exact(4).map(entry).collect();
        let mut listed = vec![0; SECTOR];
        for &(start, length) in &stretches {
            listed.iter_mut().skip(start).take(length).for_each(|times| *times += 1);
        }
        let used = image.iter().rposition(|byte| *byte != 0xFF).map_or(0, |last| last + 1);
        Self { image, stretches, listed, used }
    }

    /// The listed places.
    pub fn dropped(&self) -> impl Iterator<Item = usize> + '_ {
        (0..SECTOR).filter(|at| self.listed[*at] > 0)
    }

    /// The stretches that are neither listed nor erased, with their starts.
    pub fn kept(&self) -> Vec<(usize, &'a [u8])> {
        let mut start = 0;
        let mut kept = Vec::new();
        for run in self.listed[..self.used].chunk_by(|one, next| (*one > 0) == (*next > 0)) {
            if run[0] == 0 {
                kept.push((start, &self.image[start..][..run.len()]));
            }
            start += run.len();
        }
        kept
    }

    /// Whether no place is listed twice, none of the erased ones is, and none that there isn't.
    pub fn is_no_place_twice(&self) -> bool {
        self.listed.iter().all(|times| *times <= 1)
            && self.stretches.iter().all(|(start, length)| start + length <= self.used)
    }
}
