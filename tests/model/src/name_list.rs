//! The list of names by position (02, A7): "each behind a length byte".

use crate::names::Form;
use crate::names_fault::NamesFault as Fault;

/// How many names a list may have: as many as a book has scenes.
pub const MOST_NAMES: usize = 4_096;
/// Only a wrong copy takes the last of them.
const PLACES: usize = MOST_NAMES + 1;

/// The names up to the first bad one.
pub struct List<'a> {
    names: [&'a [u8]; PLACES],
    count: usize,
    /// Whether a bad name follows.
    pub bad_name: bool,
    /// Whether good ones follow that are too many.
    pub too_many: bool,
}

/// The names in their own order, each with its position.
pub struct Sorted<'a> {
    names: [(&'a [u8], usize); PLACES],
    count: usize,
}

impl<'a> List<'a> {
    #[inline(always)]
    pub fn read(fault: Fault, bytes: &'a [u8]) -> Self {
        let bad_name = bytes.is_empty() && Fault::EmptyListRefused.is(fault);
        let mut list = Self { names: [&[]; PLACES], count: 0, bad_name, too_many: false };
        let mut rest = bytes;
        while let [length, behind @ ..] = rest {
            let name = match behind.get(..usize::from(*length)) {
                None if Fault::CutNameTaken.is(fault) => behind,
                None if Fault::LengthAtEndLeftOut.is(fault) && behind.is_empty() => break,
                name => name.unwrap_or(&[]),
            };
            let cut_short = name.len() < usize::from(*length);
            list.bad_name =
                cut_short && !Fault::CutNameTaken.is(fault) || !form(fault).is_name(name);
            list.too_many = list.count == most(fault);
            if list.bad_name || list.too_many {
                break;
            }
            list.names[list.count] = name;
            list.count += 1;
            rest = &behind[name.len()..];
        }
        list
    }

    pub fn names(&self) -> &[&'a [u8]] {
        &self.names[..self.count]
    }

    /// Whether a name stands twice among those at positions that count.
    #[inline(always)]
    pub fn has_twice(&self, fault: Fault, counts: impl Fn(usize) -> bool) -> bool {
        if Fault::NeighboursCompared.is(fault) {
            return self.names().windows(2).any(|two| two[0] == two[1]);
        }
        let sorted = self.sorted(Fault::ListCaseFolded.is(fault));
        let mut names = sorted.names().iter().filter(|entry| counts(entry.1)).map(|entry| entry.0);
        let Some(mut last) = names.next() else { return false };
        names.any(|name| is_twice(fault, core::mem::replace(&mut last, name), name))
    }

    /// The names in their own order; only in a wrong copy that of names with small letters alone.
    /// It depends on no fault, so that there is only one of it.
    pub fn sorted(&self, small: bool) -> Sorted<'a> {
        let mut sorted = Sorted { names: [(&[], 0); PLACES], count: self.count };
        for (position, name) in self.names().iter().enumerate() {
            sorted.names[position] = (*name, position);
        }
        let (names, _) = sorted.names.split_at_mut(self.count);
        match small {
            true => names.sort_unstable_by(|one, other| folded(one.0).cmp(folded(other.0))),
            false => names.sort_unstable_by_key(|entry| entry.0),
        }
        sorted
    }
}

impl<'a> Sorted<'a> {
    fn names(&self) -> &[(&'a [u8], usize)] {
        &self.names[..self.count]
    }

    /// Where the list has this name.
    pub fn position(&self, name: &[u8]) -> Option<usize> {
        let found = self.names().binary_search_by(|entry| entry.0.cmp(name)).ok()?;
        Some(self.names[found].1)
    }
}

/// Whether two that are neighbours in their order are the same.
#[inline(always)]
fn is_twice(fault: Fault, one: &[u8], next: &[u8]) -> bool {
    if Fault::BeginningIsTwice.is(fault) {
        next.starts_with(one)
    } else if Fault::ListCaseFolded.is(fault) {
        one.eq_ignore_ascii_case(next)
    } else {
        one == next
    }
}

fn folded(name: &[u8]) -> impl Iterator<Item = u8> + '_ {
    name.iter().map(u8::to_ascii_lowercase)
}

#[inline(always)]
fn most(fault: Fault) -> usize {
    if Fault::Names4097Taken.is(fault) {
        MOST_NAMES + 1
    } else if Fault::Names4096Refused.is(fault) {
        MOST_NAMES - 1
    } else {
        MOST_NAMES
    }
}

/// What a name of the list looks like.
#[inline(always)]
fn form(fault: Fault) -> Form {
    let mut form = Form::RIGHT;
    if Fault::EmptyNameListed.is(fault) {
        form.shortest = 0;
    } else if Fault::Name32ListedRefused.is(fault) {
        form.longest = 31;
    } else if Fault::Name33Listed.is(fault) {
        form.longest = 33;
    } else if Fault::Byte1fListed.is(fault) {
        form.first_byte = 0x1F;
    } else if Fault::Byte7fListed.is(fault) {
        form.last_byte = 0x7F;
    }
    form
}
