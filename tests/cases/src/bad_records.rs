//! Each thing that can be wrong with a record (02, A1), with its refusal written out: at the
//! script's front and behind good records, with other bad ones behind it, and where the run or the
//! script is refused for something else.

use model::{kind, Calls, Ran, Record, State, Surveyed, LONGEST_SCRIPT};

use crate::chip::Chip;
use crate::literal::bytes_text;
use crate::{scripts, CHIPS};

/// A bad record: its first bytes, how many more there are of it, and its refusal.
type Bad = (&'static [u8], usize, u32);

const BAD: [Bad; 34] = [
    // The mark is cut short, whatever the one byte is.
    (&[0x5A], 0, 14),
    (&[0x46], 0, 14),
    (&[0x00], 0, 14),
    (&[0xFF], 0, 14),
    // An unknown mark, whatever stands behind it.
    (&[0x00, 0x00], 0, 12),
    (&[0xFF, 0xFF], 0, 12),
    (&[0x5A, 0x5A], 0, 12),
    (&[0x46, 0x5A], 0, 12),
    (&[0x00, 0x5A], 0, 12),
    (&[0x00, 0x46, 0x00, 0x01, 0x06], 0, 12),
    (&[0x5A, 0x45, 0x00, 0x00], 0, 12),
    (&[0x5A, 0x58, 0x10, 0x06], 4_102, 12),
    (&[0x54, 0x43], 4, 12),
    // A frame's length is cut short.
    (&[0x5A, 0x46], 0, 14),
    (&[0x5A, 0x46, 0x00], 0, 14),
    (&[0x5A, 0x46, 0xFF], 0, 14),
    // So is a wait.
    (&[0x5A, 0x57], 0, 14),
    (&[0x5A, 0x57, 0x00], 0, 14),
    (&[0x5A, 0x57, 0x00, 0x00], 0, 14),
    (&[0x5A, 0x57, 0x5A, 0x46, 0x00], 0, 14),
    // A frame's length is 0 or over 4,101, whether or not as many bytes are left.
    (&[0x5A, 0x46, 0x00, 0x00], 0, 13),
    (&[0x5A, 0x46, 0x00, 0x00], 1, 13),
    (&[0x5A, 0x46, 0x10, 0x06], 0, 13),
    (&[0x5A, 0x46, 0x10, 0x06], 4_101, 13),
    (&[0x5A, 0x46, 0x10, 0x06], 4_102, 13),
    (&[0x5A, 0x46, 0x7F, 0x00], 0, 13),
    (&[0x5A, 0x46, 0xFF, 0xFF], 0, 13),
    (&[0x5A, 0x46, 0xFF, 0xFF], 20_000, 13),
    // The rest is cut short.
    (&[0x5A, 0x46, 0x00, 0x01], 0, 14),
    (&[0x5A, 0x46, 0x00, 0x02], 1, 14),
    (&[0x5A, 0x46, 0x10, 0x05], 0, 14),
    (&[0x5A, 0x46, 0x10, 0x05], 4_100, 14),
    // It is the same record, and bad for the same, where more bad ones stand in it.
    (&[0x5A, 0x46, 0x10, 0x05, 0x5A, 0x46, 0x00, 0x00], 0, 14),
    (&[0x5A, 0x46, 0x00, 0x09, 0x00, 0x00, 0x5A, 0x46, 0xFF, 0xFF], 0, 14),
];

/// What can stand behind a bad record whose end isn't the script's: nothing, or others.
const BEHIND: [&[u8]; 5] = [
    &[],
    &[0x00, 0x00],
    &[0x5A, 0x46, 0x00, 0x00],
    &[0x5A],
    &[0x5A, 0x46, 0x00, 0x01, 0x06, 0x5A, 0x57, 0x00],
];

/// A script with a bad record.
struct Script {
    bytes: Vec<u8>,
    /// Where the bad record begins, and its refusal.
    offset: usize,
    number: u32,
    /// The bytes of the frames before it.
    output: usize,
}

/// The scripts that are answered otherwise.
pub fn failing<C: Calls>() -> Vec<String> {
    let mut chips = CHIPS.map(Chip::<C>::new);
    let mut failing = Vec::new();
    for script in scripts() {
        let told = is_told::<C>(&script);
        if !told || !chips.iter_mut().all(|chip| is_refused(chip, &script)) {
            let Script { bytes, offset, number, .. } = &script;
            let shown = bytes_text(&bytes[..bytes.len().min(offset + 12)]);
            failing.push(format!("{number} at {offset} of {} bytes: {shown}", bytes.len()));
        }
    }
    failing
}

fn scripts() -> Vec<Script> {
    let mut all = Vec::new();
    for (good, output) in good() {
        for (first, more, number) in BAD {
            let behind = if number == 14 { &BEHIND[..1] } else { &BEHIND };
            for behind in behind {
                let bytes = [&good, first, &vec![0xFE; more], behind].concat();
                all.push(Script { bytes, offset: good.len(), number, output });
            }
        }
    }
    all
}

/// Good records to stand in front, and the bytes of their frames.
fn good() -> [(Vec<u8>, usize); 5] {
    let mut frame = Vec::new();
    scripts::put_frame(&mut frame, &[0x06]);
    let mut wait = Vec::new();
    scripts::put_wait(&mut wait, 7);
    let many = [wait.repeat(500), frame.repeat(700)].concat();
    [(Vec::new(), 0), (frame, 1), (wait, 0), (scripts::sample(), 18), (many, 700)]
}

/// Whether the survey tells of it, and so does the reader there, which reads all before it.
fn is_told<C: Calls>(script: &Script) -> bool {
    let Script { bytes, offset, number, .. } = script;
    let (number, offset) = (*number, *offset);
    let mut at = 0;
    while at < offset {
        let record = C::read(bytes, at);
        if record.number != 0 || record.next <= at {
            return false;
        }
        at = record.next;
    }
    let long = lengthened(bytes);
    at == offset
        && C::survey(bytes) == Surveyed { number, offset, ..Surveyed::default() }
        && C::read(bytes, offset) == refused_record(number, offset)
        && C::survey(&long) == Surveyed { number: 11, ..Surveyed::default() }
        && C::read(&long, offset) == refused_record(11, offset)
        && [bytes.len() + 1, usize::MAX]
            .into_iter()
            .all(|past| C::read(bytes, past) == refused_record(14, past))
}

fn refused_record(number: u32, offset: usize) -> Record {
    Record { number, kind: kind::REFUSED, next: offset, ..Record::default() }
}

/// The script with more bytes than scripts may have.
fn lengthened(script: &[u8]) -> Vec<u8> {
    let mut long = script.to_vec();
    long.resize(LONGEST_SCRIPT + 1, 0);
    long
}

/// Whether a run is refused for it, whatever the slices' lengths, but not where 1, 2 or 11 hold;
/// and changes nothing.
fn is_refused<C: Calls>(chip: &mut Chip<C>, script: &Script) -> bool {
    let Script { bytes, offset, number, output } = script;
    let sound = chip.state;
    let unsound = State { bp: 8, ..sound };
    let size = chip.array.len();
    let long = lengthened(bytes);
    let mut is = |number: u32, offset: usize, state: State, array: usize, script: &[u8]| {
        let lengths = [*output, 0, output + 1, bytes.len()];
        let pairs = lengths.into_iter().flat_map(|first| lengths.map(|second| [first, second]));
        pairs.into_iter().all(|pair| {
            let mut slices = pair.map(|length| vec![0xA5; length]);
            let [shown, driven] = &mut slices;
            let ran = C::run(state, true, &mut chip.array[..array], script, shown, driven);
            ran == Ran { number, state, frames: 0, microseconds: 0, offset }
                && slices.iter().flatten().all(|byte| *byte == 0xA5)
        })
    };
    is(*number, *offset, sound, size, bytes)
        && is(1, 0, unsound, size, bytes)
        && is(1, 0, unsound, size - 1, &long)
        && is(2, 0, sound, size - 1, bytes)
        && is(2, 0, sound, size - 1, &long)
        && is(11, 0, sound, size, &long)
        && chip.array.iter().all(|byte| *byte == 0xFF)
}
