//! What marks, moves and ways back promise.

/// What holds of any sector, any name and any good list, on a chip at rest that isn't locked, with
/// the room of the worst case, and after a cut with 22 bytes more than before.
#[derive(Clone, Copy, Debug, PartialEq, Eq, PartialOrd, Ord)]
pub enum Promise {
    /// What needs no erase and fits is accepted.
    Accepted,
    /// 20 comes exactly where the records need more than 4,096 bytes.
    FullExactly,
    /// Behind a mark, finished or cut, the names are those before, or these and the new one.
    MarkKeepsNames,
    /// Behind a first plan, finished or cut, there is no new name.
    FirstAddsNone,
    /// A name that is there is the empty script, whatever stands behind the records.
    PresentKept,
    /// Behind a cut the same call is accepted again.
    AgainAccepted,
    /// Behind both plans the name is read, as are all before it, and FF stands behind the records.
    Marked,
    /// Behind a move, finished or cut, the names are the first of those of the read scenes.
    MovePrefix,
    /// Behind both plans they are all of these, in list order, and FF stands behind the records.
    Moved,
    /// "Moving there and back gives the same flags."
    ThereAndBack,
    /// Back and there, a name on the list is read exactly if it was.
    BackAndThere,
    /// Behind a way back, finished or cut, no scene is read but those whose name has a record.
    OnlyRecordedRead,
    /// "How many records had a name not on the list."
    Unlisted,
    /// The sources stay as they were, and all else outside the target.
    RestKept,
    /// A name is told to be read exactly if a record has it.
    Told,
    /// Over a history, a name that is read was read at its start or was asked for.
    NoneMadeUp,
    /// No mark takes a name away.
    NoneLost,
}

impl Promise {
    pub const ALL: [Self; 17] = [
        Self::Accepted,
        Self::FullExactly,
        Self::MarkKeepsNames,
        Self::FirstAddsNone,
        Self::PresentKept,
        Self::AgainAccepted,
        Self::Marked,
        Self::MovePrefix,
        Self::Moved,
        Self::ThereAndBack,
        Self::BackAndThere,
        Self::OnlyRecordedRead,
        Self::Unlisted,
        Self::RestKept,
        Self::Told,
        Self::NoneMadeUp,
        Self::NoneLost,
    ];
}

/// What a trial showed.
#[derive(Default)]
pub struct Found {
    /// The promises that it put to the test.
    pub tested: Vec<Promise>,
    pub broken: Vec<Promise>,
}

impl Found {
    /// Notes whether a promise is kept, and whether that puts it to the test.
    pub fn note(&mut self, promise: Promise, holds: bool, tests: bool) {
        if !holds && !self.broken.contains(&promise) {
            self.broken.push(promise);
        }
        if tests && !self.tested.contains(&promise) {
            self.tested.push(promise);
        }
    }
}
