//! Sorts of cases about flags by name worth counting.

use std::collections::BTreeSet;

use model::{names_of, BOOK, MOST_NAMES, SECTOR};

use super::sorts::{holding, sorts};
use crate::names::images::{padded, records, unmarked, used};
use crate::names::{Outcome, FULL};
use crate::salvage::HEAD;

sorts!(QuestionSort {
    ReadFirst,
    ReadLast,
    /// Its record ends at the sector's last byte.
    ReadAtEnd,
    ReadTwice,
    /// A record's name begins with it.
    UnreadLonger,
    /// It begins with a record's name.
    UnreadShorter,
    UnreadOtherCase,
    UnreadLastByte,
    UnreadBehindBadPlace,
    UnreadErased,
    Shortest,
    Longest,
});

sorts!(TargetSort {
    /// Nothing of what is wanted stands there.
    First,
    FirstHalfDone,
    /// Lengths and names stand there, and nothing of the marks.
    Second,
    SecondHalfDone,
    FitsExactly,
    OneByteOver,
    /// Refused by 8: a mark alone stands before a name that isn't whole.
    MarkBeforeName,
    /// By 8: a byte behind the records alone.
    DirtBehind,
    /// By 8: a byte of a length or name.
    OtherName,
});

sorts!(PresentSort {
    Present,
    /// There would be no room for it again.
    Full,
    DirtBehind,
});

sorts!(MoveSort {
    EmptyList,
    NoneRead,
    AllRead,
    /// 4,096 names.
    LongestList,
    ReadLast,
    /// The book's sector isn't erased behind the book.
    BehindBook,
    Finished,
});

sorts!(BackSort {
    Empty,
    EmptyWithUnlisted,
    Unlisted,
    /// A name that isn't on the list has two records.
    UnlistedTwice,
    ListedTwice,
    NoneListed,
    HalfDone,
    /// As many as there can be, 1,024.
    MostRecords,
    LongestList,
    /// A name of the list has a record only behind a bad place.
    BehindBadPlace,
    /// Refused by 8: a scene alone is read that isn't to be.
    DirtInBook,
    /// By 8: a byte behind the book alone.
    DirtBehindBook,
});

sorts!(BadNameSort {
    Empty,
    Length33,
    /// A good length, were it cut to 8 bits.
    LengthOver8Bits,
    Byte1f,
    Byte7f,
    /// A name as C writes it.
    Byte00AtEnd,
});

sorts!(BadListSort {
    EmptyName,
    Length33,
    Byte1f,
    Byte7f,
    CutShort,
    /// A length with no name behind it.
    LengthAtEnd,
    OneTooMany,
    /// A read scene past the list: the first there is, the last, any.
    JustPast,
    LastPast,
    Past,
});

sorts!(TwiceSort {
    Neighbours,
    /// A hundred names between them at least.
    FarApart,
    FirstAndLast,
    /// Neither scene is read.
    Unread,
});

/// The sorts of a question that was answered.
pub fn of_question(image: &[u8], name: &[u8]) -> impl Iterator<Item = QuestionSort> {
    let names: Vec<&[u8]> = names_of(image).collect();
    let places: Vec<usize> = (0..names.len()).filter(|at| names[*at] == name).collect();
    let read = !places.is_empty();
    let other = |is_other: &dyn Fn(&[u8]) -> bool| {
        !read && names.iter().any(|record| *record != name && is_other(record))
    };
    let but_last = |name: &[u8]| name[..name.len() - 1].to_vec();
    let record = records(&[], &[name.to_vec()]);
    let behind = image[used(image)..].windows(record.len()).any(|bytes| bytes == record);
    let last = names.len().checked_sub(1);
    holding([
        (places.first() == Some(&0), QuestionSort::ReadFirst),
        (read && names.len() > 1 && places.last() == last.as_ref(), QuestionSort::ReadLast),
        (image.ends_with(&record) && places.last() == last.as_ref(), QuestionSort::ReadAtEnd),
        (places.len() > 1, QuestionSort::ReadTwice),
        (other(&|record| record.starts_with(name)), QuestionSort::UnreadLonger),
        (other(&|record| name.starts_with(record)), QuestionSort::UnreadShorter),
        (other(&|record| record.eq_ignore_ascii_case(name)), QuestionSort::UnreadOtherCase),
        (other(&|record| but_last(record) == but_last(name)), QuestionSort::UnreadLastByte),
        (!read && behind, QuestionSort::UnreadBehindBadPlace),
        (names.is_empty(), QuestionSort::UnreadErased),
        (name.len() == 1, QuestionSort::Shortest),
        (name.len() == 32, QuestionSort::Longest),
    ])
}

/// The sorts of a target in which records of these names are to stand behind those in front; the
/// call was accepted, or refused by 8 or 20.
pub fn of_target(
    image: &[u8],
    front: usize,
    names: &[Vec<u8>],
    number: u32,
) -> impl Iterator<Item = TargetSort> {
    let needed = front + names.iter().map(|name| HEAD + name.len()).sum::<usize>();
    let front = &image[..front];
    let fits = needed <= SECTOR && !names.is_empty();
    let mut first = unmarked(front, names);
    let mut second = records(front, names);
    first.resize(SECTOR.max(first.len()), 0xFF);
    second.resize(SECTOR.max(second.len()), 0xFF);
    let own = |at: &usize| *at >= front.len() && *at < needed;
    let part = |at: &usize| first[*at] != 0xFF;
    let places = || (0..SECTOR).filter(own);
    let missing = places().filter(part).any(|at| image[at] != first[at]);
    let begun = places().filter(part).any(|at| image[at] != 0xFF);
    let mark_begun = places().filter(|at| !part(at)).any(|at| image[at] != 0xFF);
    let whole = image == second;
    let accepted = fits && number == 0;
    let wanted = if missing { &first } else { &second };
    let raised: Vec<usize> = (0..SECTOR).filter(|at| wanted[*at] & !image[*at] != 0).collect();
    let all = |is_such: &dyn Fn(&usize) -> bool| {
        fits && number == 8 && !raised.is_empty() && raised.iter().all(is_such)
    };
    holding([
        (accepted && missing && !begun, TargetSort::First),
        (accepted && missing && begun, TargetSort::FirstHalfDone),
        (accepted && !missing && !mark_begun, TargetSort::Second),
        (accepted && !missing && mark_begun && !whole, TargetSort::SecondHalfDone),
        (accepted && needed == SECTOR, TargetSort::FitsExactly),
        (number == FULL && needed == SECTOR + 1, TargetSort::OneByteOver),
        (missing && all(&|at| own(at) && !part(at)), TargetSort::MarkBeforeName),
        (all(&|at| *at >= needed), TargetSort::DirtBehind),
        (all(&|at| own(at) && part(at)), TargetSort::OtherName),
    ])
}

/// The sorts of the marking of a name that is there.
pub fn of_present(image: &[u8], name: &[u8]) -> impl Iterator<Item = PresentSort> {
    let there = names_of(image).any(|record| record == name);
    let used = used(image);
    holding([
        (there, PresentSort::Present),
        (there && used + HEAD + name.len() > SECTOR, PresentSort::Full),
        (there && image != padded(&image[..used]), PresentSort::DirtBehind),
    ])
}

/// The sorts of an accepted move.
pub fn of_move(
    book: &[u8],
    names: &[Vec<u8>],
    read: &[Vec<u8>],
    script: &[u8],
) -> impl Iterator<Item = MoveSort> {
    let last = names.len().checked_sub(1);
    let is_read = |scene: usize| book[scene / 8] >> (scene % 8) & 1 == 0;
    holding([
        (names.is_empty(), MoveSort::EmptyList),
        (!names.is_empty() && read.is_empty(), MoveSort::NoneRead),
        (!names.is_empty() && read.len() == names.len(), MoveSort::AllRead),
        (names.len() == MOST_NAMES, MoveSort::LongestList),
        (last.is_some_and(is_read), MoveSort::ReadLast),
        (book[BOOK..].iter().any(|byte| *byte != 0xFF), MoveSort::BehindBook),
        (!read.is_empty() && script.is_empty(), MoveSort::Finished),
    ])
}

/// The sorts of a way back that was accepted, or refused by 8.
pub fn of_back(
    source: &[u8],
    target: &[u8],
    names: &[Vec<u8>],
    outcome: &Outcome,
) -> impl Iterator<Item = BackSort> {
    let accepted = outcome.number() == 0;
    let empty = accepted && outcome.length() == 0;
    let listed: BTreeSet<&[u8]> = names.iter().map(|name| &name[..]).collect();
    let (known, unknown): (Vec<&[u8]>, Vec<&[u8]>) =
        names_of(source).partition(|name| listed.contains(name));
    let different = |names: &[&[u8]]| names.iter().collect::<BTreeSet<_>>().len();
    let wanted = wanted_book(names, &known);
    let raised: Vec<usize> = (0..SECTOR).filter(|at| wanted[*at] & !target[*at] != 0).collect();
    let behind = &source[used(source)..];
    let is_behind = |name: &[u8]| {
        let record = records(&[], &[name.to_vec()]);
        !known.contains(&name) && behind.windows(record.len()).any(|bytes| bytes == record)
    };
    // Lists are long where there is little to look for.
    let any_behind = names.len() < 100 && listed.iter().any(|name| is_behind(name));
    let begun = target.iter().any(|byte| *byte != 0xFF);
    holding([
        (empty, BackSort::Empty),
        (empty && !unknown.is_empty(), BackSort::EmptyWithUnlisted),
        (accepted && !unknown.is_empty(), BackSort::Unlisted),
        (accepted && different(&unknown) < unknown.len(), BackSort::UnlistedTwice),
        (accepted && different(&known) < known.len(), BackSort::ListedTwice),
        (accepted && known.is_empty() && !unknown.is_empty(), BackSort::NoneListed),
        (accepted && !empty && begun, BackSort::HalfDone),
        (accepted && known.len() + unknown.len() == SECTOR / 4, BackSort::MostRecords),
        (accepted && names.len() == MOST_NAMES, BackSort::LongestList),
        (accepted && any_behind, BackSort::BehindBadPlace),
        (!accepted && raised.iter().all(|at| *at < BOOK), BackSort::DirtInBook),
        (!accepted && raised.iter().all(|at| *at >= BOOK), BackSort::DirtBehindBook),
    ])
}

/// The book in which the scenes of these names are read.
fn wanted_book(names: &[Vec<u8>], known: &[&[u8]]) -> Vec<u8> {
    let known: BTreeSet<&[u8]> = known.iter().copied().collect();
    let mut wanted = vec![0xFF; SECTOR];
    for (scene, _) in names.iter().enumerate().filter(|(_, name)| known.contains(&name[..])) {
        wanted[scene / 8] &= !(1 << (scene % 8));
    }
    wanted
}

/// What is wrong with a name.
pub fn of_bad_name(name: &[u8]) -> impl Iterator<Item = BadNameSort> {
    let good = |byte: &u8| (0x20..=0x7E).contains(byte);
    let length = (1..=32).contains(&name.len());
    let only = |bad: u8| length && name.iter().all(|byte| good(byte) || *byte == bad);
    let all = name.iter().all(good);
    let cut = name.len() > 255 && (1..=32).contains(&(name.len() % 256));
    holding([
        (name.is_empty(), BadNameSort::Empty),
        (all && name.len() == 33, BadNameSort::Length33),
        (all && cut, BadNameSort::LengthOver8Bits),
        (only(0x1F), BadNameSort::Byte1f),
        (only(0x7F), BadNameSort::Byte7f),
        (only(0x00) && name.last() == Some(&0), BadNameSort::Byte00AtEnd),
    ])
}

/// What is wrong with a list, or with the book that is moved by it.
pub fn of_bad_list(list: &[u8], book: Option<&[u8]>) -> impl Iterator<Item = BadListSort> {
    let (names, rest) = names_listed(list);
    let (length, behind) = rest
        .split_first()
        .map_or((None, rest), |(length, rest)| (Some(usize::from(*length)), rest));
    let good = |byte: &u8| (0x20..=0x7E).contains(byte);
    let name = behind.get(..length.unwrap_or(0)).filter(|_| length.is_some());
    let is_length = length.is_some_and(|length| (1..=32).contains(&length));
    let only = |bad: u8| {
        let only = |name: &[u8]| name.iter().all(|byte| good(byte) || *byte == bad);
        is_length && name.is_some_and(only)
    };
    let read = |scene: usize| book.is_some_and(|book| book[scene / 8] >> (scene % 8) & 1 == 0);
    let past: Vec<usize> = (names.len()..MOST_NAMES).filter(|scene| read(*scene)).collect();
    let alone = length.is_none() && past.len() == 1;
    let too_many = length.is_none() && names.len() == MOST_NAMES + 1;
    holding([
        (length == Some(0), BadListSort::EmptyName),
        (
            length == Some(33) && name.is_some_and(|name| name.iter().all(good)),
            BadListSort::Length33,
        ),
        (only(0x1F), BadListSort::Byte1f),
        (only(0x7F), BadListSort::Byte7f),
        (is_length && name.is_none() && !behind.is_empty(), BadListSort::CutShort),
        (is_length && name.is_none() && behind.is_empty(), BadListSort::LengthAtEnd),
        (too_many, BadListSort::OneTooMany),
        (alone && past == [names.len()], BadListSort::JustPast),
        (alone && past == [MOST_NAMES - 1], BadListSort::LastPast),
        (alone, BadListSort::Past),
    ])
}

/// The good names of a list up to the first bad one, and what stands from there on.
pub fn names_listed(list: &[u8]) -> (Vec<Vec<u8>>, &[u8]) {
    let mut names = Vec::new();
    let mut rest = list;
    while let [length @ 1..=32, behind @ ..] = rest {
        let good = |name: &&[u8]| name.iter().all(|byte| (0x20..=0x7E).contains(byte));
        let Some(name) = behind.get(..usize::from(*length)).filter(good) else { break };
        names.push(name.to_vec());
        rest = &behind[name.len()..];
    }
    (names, rest)
}

/// How the equal names of a list lie, if there are two.
pub fn of_twice(names: &[Vec<u8>], book: Option<&[u8]>) -> impl Iterator<Item = TwiceSort> {
    let mut sorted: Vec<(&[u8], usize)> =
        names.iter().enumerate().map(|(at, name)| (&name[..], at)).collect();
    sorted.sort_unstable();
    let twins = sorted.windows(2).filter(|two| two[0].0 == two[1].0);
    let twins: Vec<(usize, usize)> = twins.map(|two| (two[0].1, two[1].1)).collect();
    let only = match twins[..] {
        [two] => Some(two),
        _ => None,
    };
    let is =
        |holds: &dyn Fn(usize, usize) -> bool| only.is_some_and(|(one, other)| holds(one, other));
    let unread = |scene: usize| book.is_some_and(|book| book[scene / 8] >> (scene % 8) & 1 == 1);
    let last = names.len().saturating_sub(1);
    holding([
        (is(&|one, other| one + 1 == other), TwiceSort::Neighbours),
        (is(&|one, other| one + 100 < other), TwiceSort::FarApart),
        (is(&|one, other| one == 0 && other == last), TwiceSort::FirstAndLast),
        (is(&|one, other| unread(one) && unread(other)), TwiceSort::Unread),
    ])
}
