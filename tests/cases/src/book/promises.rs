//! What a mark promises, and which of it a mark keeps.

use model::{Told, SCENES};

/// What holds once the script of a mark is run.
#[derive(Clone, Copy, Debug, PartialEq, Eq, PartialOrd, Ord)]
pub enum Promise {
    /// It is accepted: the chip is at rest, and not locked where that matters.
    Accepted,
    /// Every listed scene is read.
    ListedRead,
    /// "No scene outside the list may have turned read."
    OthersKept,
    /// None has turned unread.
    NoneUnread,
    /// As many are counted as are read.
    Counted,
    /// Every byte of the array outside the book is as before.
    RestKept,
}

/// What was seen of a mark.
pub struct Seen {
    pub accepted: bool,
    /// Every scene, in the order of the book.
    pub flags: Vec<Flag>,
    /// What was told when the scenes were counted after it.
    pub count: Told,
    pub rest_kept: bool,
}

/// Whether a scene is read, before and after, and whether it is listed.
pub struct Flag {
    pub before: bool,
    pub after: bool,
    pub listed: bool,
}

impl Promise {
    pub const ALL: [Self; 6] = [
        Self::Accepted,
        Self::ListedRead,
        Self::OthersKept,
        Self::NoneUnread,
        Self::Counted,
        Self::RestKept,
    ];
}

impl Seen {
    /// Whether the mark keeps a promise.
    pub fn keeps(&self, promise: Promise) -> bool {
        let mut flags = self.flags.iter();
        match promise {
            Promise::Accepted => self.accepted,
            Promise::ListedRead => flags.all(|flag| !flag.listed || flag.after),
            Promise::OthersKept => flags.all(|flag| flag.listed || flag.before || !flag.after),
            Promise::NoneUnread => flags.all(|flag| !flag.before || flag.after),
            Promise::Counted => (self.count.number, self.count.value) == (0, self.read_after()),
            Promise::RestKept => self.rest_kept,
        }
    }

    /// Whether it puts a promise to the test.
    pub fn tests(&self, promise: Promise) -> bool {
        match promise {
            Promise::Accepted => true,
            Promise::ListedRead | Promise::RestKept => self.programs(|_| true),
            Promise::OthersKept => self.programs(|flag| !flag.listed && !flag.before),
            Promise::NoneUnread => self.programs(|flag| flag.before),
            Promise::Counted => (1..SCENES).contains(&self.read_after()),
        }
    }

    /// Whether a byte that has to change holds such a scene.
    fn programs(&self, is_such: fn(&Flag) -> bool) -> bool {
        let mut bytes = self.flags.chunks(8);
        bytes.any(|byte| byte.iter().any(Flag::is_new) && byte.iter().any(is_such))
    }

    fn read_after(&self) -> u32 {
        self.flags.iter().map(|flag| u32::from(flag.after)).sum()
    }
}

impl Flag {
    /// Whether it has to turn read.
    fn is_new(&self) -> bool {
        self.listed && !self.before
    }
}
