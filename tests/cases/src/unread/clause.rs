//! The clauses, and what they forbid.

use super::array::{ByteChange, Change};
use super::premises::Premises;

/// The clauses of A14, in its words.
#[derive(Clone, Copy, Debug, PartialEq, Eq, PartialOrd, Ord)]
pub enum Clause {
    /// "If no erase frame is taken during the run, no bit of the array goes from 0 to 1."
    NoBitRaised,
    /// "If a byte is protected before every record of the run, it has the same value after."
    ProtectedKept,
    /// "With WEL 0 at the start and no 06 frame in it, the whole array is the same."
    DisabledKept,
}

/// What of a run a clause was tried on.
#[derive(Clone, Copy, Debug, PartialEq, Eq, PartialOrd, Ord)]
pub enum Extent {
    /// All records.
    Script,
    /// One record, or more that end with it.
    Part,
}

/// A clause that doesn't hold, and the first byte that tells.
pub struct Breach {
    pub clause: Clause,
    pub extent: Extent,
    pub byte: ByteChange,
}

impl Clause {
    pub const ALL: [Self; 3] = [Self::NoBitRaised, Self::ProtectedKept, Self::DisabledKept];

    /// It speaks of the bytes from here up: of all, of the protected ones or of none.
    fn speaks_from(self, premises: &Premises) -> usize {
        match self {
            Self::NoBitRaised if !premises.erases => 0,
            Self::ProtectedKept => premises.protected_from,
            Self::DisabledKept if premises.disabled => 0,
            _ => usize::MAX,
        }
    }

    fn forbids(self, byte: &ByteChange) -> bool {
        match self {
            Self::NoBitRaised => byte.after & !byte.before != 0,
            Self::ProtectedKept | Self::DisabledKept => byte.after != byte.before,
        }
    }
}

impl Change<'_> {
    /// The clauses with these premises that it breaks.
    pub fn breaches(&self, premises: &Premises, extent: Extent) -> Vec<Breach> {
        if self.before == self.after {
            return Vec::new();
        }
        let breach = |clause: Clause| {
            let mut bytes = self.bytes_from(clause.speaks_from(premises));
            let byte = bytes.find(|byte| clause.forbids(byte))?;
            Some(Breach { clause, extent, byte })
        };
        Clause::ALL.into_iter().filter_map(breach).collect()
    }
}
