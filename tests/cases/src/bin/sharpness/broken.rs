//! What a wrong copy breaks, beside being told apart by a case.

use std::collections::BTreeMap;
use std::fmt::Debug;

/// What a copy breaks, each with the number of the first script, plan or sector that shows it.
pub struct Broken<T>(BTreeMap<T, usize>);

impl<T> Default for Broken<T> {
    fn default() -> Self {
        Self(BTreeMap::new())
    }
}

impl<T: Copy + Debug + Ord> Broken<T> {
    pub fn note(&mut self, what: T, number: usize) {
        self.0.entry(what).or_insert(number);
    }

    pub fn has(&self, what: T) -> bool {
        self.0.contains_key(&what)
    }

    pub fn each(&self) -> impl Iterator<Item = (T, usize)> + '_ {
        self.0.iter().map(|(what, number)| (*what, *number))
    }

    /// What the copy with this fault has to break by the table, and doesn't.
    pub fn missing<F: PartialEq>(&self, fault: F, have_to_break: &[(F, T)]) -> Vec<String> {
        let own = have_to_break.iter().filter(|(copy, _)| *copy == fault);
        let missing = own.filter(|(_, what)| !self.has(*what));
        missing.map(|(_, what)| format!("{what:?}")).collect()
    }
}
