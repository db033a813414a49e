//! What a salvage promises, and which of it one keeps.

use model::{names_of, Salvaged, SECTOR};

use super::parts::Parts;
use super::records::HEAD;

/// What holds of any sector that is salvaged with room for the longest list.
#[derive(Clone, Copy, Debug, PartialEq, Eq, PartialOrd, Ord)]
pub enum Promise {
    Accepted,
    /// "Kept and dropped and the final erased stretch cover the sector once each."
    CoveredOnce,
    /// At no dropped place stands a whole good record.
    NoneLost,
    /// What is neither dropped nor erased is whole good records, and they are what was written:
    /// byte for byte, in the old order.
    KeptWhole,
    /// Starts rise, and no stretch touches the next.
    ListRises,
    /// What was kept, salvaged again, is the same.
    SameAgain,
    /// And nothing of it is dropped.
    NoneDroppedAgain,
    /// A reader of what was kept sees all kept names.
    NamesSeen,
    /// First of them come the names that it saw before.
    NamesStay,
    /// Behind the kept records is FF, and behind the list nothing is touched.
    RestsRight,
}

/// What was seen of a salvage.
pub struct Seen<'a> {
    /// By its list.
    pub parts: Parts<'a>,
    pub salvaged: Salvaged,
    /// The kept records' buffer.
    pub kept: &'a [u8],
    /// The list's buffer behind the list, and what stood there before.
    pub behind: &'a [u8],
    pub untouched: u8,
    /// What was kept salvaged again.
    pub again: Salvaged,
    pub kept_again: &'a [u8],
}

impl Promise {
    pub const ALL: [Self; 10] = [
        Self::Accepted,
        Self::CoveredOnce,
        Self::NoneLost,
        Self::KeptWhole,
        Self::ListRises,
        Self::SameAgain,
        Self::NoneDroppedAgain,
        Self::NamesSeen,
        Self::NamesStay,
        Self::RestsRight,
    ];
}

impl Seen<'_> {
    /// Whether it keeps a promise.
    pub fn keeps(&self, promise: Promise) -> bool {
        let Parts { image, stretches, .. } = &self.parts;
        match promise {
            Promise::Accepted => self.salvaged.number == 0,
            Promise::CoveredOnce => self.is_covered_once(),
            Promise::NoneLost => {
                self.parts.dropped().all(|at| names_of(&image[at..]).next().is_none())
            }
            Promise::KeptWhole => self.is_kept_whole(),
            Promise::ListRises => {
                let apart = stretches.windows(2).all(|two| two[0].0 + two[0].1 < two[1].0);
                apart && stretches.iter().all(|(_, length)| *length > 0)
            }
            Promise::SameAgain => self.kept_again == self.kept,
            Promise::NoneDroppedAgain => {
                let Salvaged { kept, .. } = self.salvaged;
                self.again == Salvaged { number: 0, length: 0, kept }
            }
            Promise::NamesSeen => names_of(self.kept).eq(self.kept_names()),
            Promise::NamesStay => {
                let mut after = names_of(self.kept);
                names_of(image).all(|name| after.next() == Some(name))
            }
            Promise::RestsRight => {
                let mut filled = self.kept.iter().skip(self.salvaged.kept as usize);
                filled.all(|byte| *byte == 0xFF)
                    && self.behind.iter().all(|byte| *byte == self.untouched)
            }
        }
    }

    /// Whether it puts a promise to the test.
    pub fn tests(&self, promise: Promise) -> bool {
        let Parts { image, stretches, used, .. } = &self.parts;
        let drops = !stretches.is_empty();
        let keeps = self.salvaged.kept > 0;
        let seen_before = || names_of(image).count();
        match promise {
            Promise::Accepted => true,
            Promise::CoveredOnce => drops && keeps && *used < SECTOR,
            Promise::NoneLost => self.parts.dropped().any(|at| image[at..].starts_with(b"NR")),
            Promise::KeptWhole | Promise::NamesSeen => {
                (1..self.kept_names().count()).contains(&seen_before())
            }
            Promise::ListRises => stretches.len() > 1,
            Promise::SameAgain | Promise::NoneDroppedAgain => drops && keeps,
            Promise::NamesStay => drops && seen_before() > 0,
            Promise::RestsRight => drops && keeps && !self.behind.is_empty(),
        }
    }

    fn is_covered_once(&self) -> bool {
        let Parts { stretches, used, .. } = &self.parts;
        let dropped: usize = stretches.iter().map(|(_, length)| length).sum();
        let erased = SECTOR - used;
        self.parts.is_no_place_twice() && self.salvaged.kept as usize + dropped + erased == SECTOR
    }

    fn is_kept_whole(&self) -> bool {
        let kept = self.parts.kept();
        let records = |bytes| names_of(bytes).map(|name| HEAD + name.len()).sum::<usize>();
        let written = self.kept.get(..self.salvaged.kept as usize);
        kept.iter().all(|(_, bytes)| records(bytes) == bytes.len())
            && written.is_some_and(|written| written.iter().eq(kept.iter().flat_map(|kept| kept.1)))
    }

    /// The names in what is neither dropped nor erased.
    fn kept_names(&self) -> impl Iterator<Item = &[u8]> {
        self.parts.kept().into_iter().flat_map(|(_, bytes)| names_of(bytes))
    }
}
