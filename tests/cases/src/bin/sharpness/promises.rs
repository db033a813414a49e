//! The promises of A2, which the right model's books keep and those of some copies break.

use std::fmt;

use cases::book::{Books, Promise};
use cases::CHIPS;
use model::{Calls, Fault, Model};

use crate::broken::Broken;

/// How many of the marks that the library is asked for are asked of each copy, on each chip.
const MARKS: usize = 50;

/// What a copy does; the right model does the rest.
#[derive(Clone, Copy, Debug, PartialEq, Eq, PartialOrd, Ord)]
enum Part {
    Answering,
    Marking,
}

type Tried = (Part, Promise);

/// What copies have to break: all there is.
const HAVE_TO_BREAK: [(Fault, Tried); 15] = [
    (Fault::SceneBitFromTop, (Part::Answering, Promise::ListedRead)),
    (Fault::SceneBitFromTop, (Part::Marking, Promise::ListedRead)),
    (Fault::SceneBitFromTop, (Part::Marking, Promise::OthersKept)),
    (Fault::OneIsRead, (Part::Answering, Promise::ListedRead)),
    (Fault::OneIsRead, (Part::Answering, Promise::NoneUnread)),
    (Fault::RepeatToggles, (Part::Marking, Promise::Accepted)),
    (Fault::RepeatToggles, (Part::Marking, Promise::ListedRead)),
    (Fault::LastByteNotCounted, (Part::Answering, Promise::Counted)),
    (Fault::WholeSectorCounted, (Part::Answering, Promise::Counted)),
    (Fault::LastSceneDropped, (Part::Marking, Promise::ListedRead)),
    (Fault::LongListCut, (Part::Marking, Promise::ListedRead)),
    (Fault::BookFromAddress0, (Part::Marking, Promise::OthersKept)),
    (Fault::MarkedAtAddress0, (Part::Marking, Promise::RestKept)),
    (Fault::NoWaitAfterStep1, (Part::Marking, Promise::ListedRead)),
    (Fault::WaitBefore01, (Part::Marking, Promise::ListedRead)),
];

/// The promises that a copy breaks, each with the first mark that shows it.
#[derive(Default)]
pub struct Promises(Broken<Tried>);

impl Promises {
    pub fn of<C: Calls>(seed: u64) -> Self {
        let mut promises = Self::default();
        for chip in CHIPS {
            promises.note(Part::Answering, Books::new::<C, Model>(chip, seed));
            promises.note(Part::Marking, Books::new::<Model, C>(chip, seed));
        }
        promises
    }

    fn note(&mut self, part: Part, mut books: Books) {
        for index in 0..MARKS {
            for promise in books.mark().1.broken {
                self.0.note((part, promise), index);
            }
        }
    }

    /// What the copy with this fault has to break and doesn't.
    pub fn missing(&self, fault: Fault) -> Vec<String> {
        self.0.missing(fault, &HAVE_TO_BREAK)
    }
}

impl fmt::Display for Promises {
    fn fmt(&self, to: &mut fmt::Formatter<'_>) -> fmt::Result {
        for ((part, promise), mark) in self.0.each() {
            write!(to, "  {promise:?} {part:?} {mark}")?;
        }
        Ok(())
    }
}

/// Whether the right model keeps the promises.
pub fn are_kept(seed: u64) -> bool {
    let kept = CHIPS.map(|chip| {
        let mut books = Books::new::<Model, Model>(chip, seed);
        (0..MARKS).filter(|_| books.mark().1.broken.is_empty()).count()
    });
    println!("marks on each chip with which it keeps the promises of A2: {kept:?} of {MARKS}");
    kept == [MARKS; 2]
}
