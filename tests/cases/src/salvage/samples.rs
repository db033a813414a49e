//! Sectors written out, with what has to be kept of them and listed.

use model::{Calls, Salvaged, SECTOR};

use super::lent::WRONG_LENGTHS;
use super::{Salvage, LONGEST_LIST};

/// What stands in the buffers before a call.
const UNTOUCHED: u8 = 0xA5;
/// A length that is 0 once it is cut to 16 bits.
const OVER_16_BITS: usize = 1 << 16;

/// A sector's first bytes, with FF behind them; what is kept; the list.
type Short = (&'static str, &'static [u8], &'static [u8], &'static [u8]);

const SHORT: [Short; 21] = [
    ("an erased sector", b"", b"", &[]),
    ("a good record", b"NR\x05Scene", b"NR\x05Scene", &[]),
    ("a damaged first mark", b"OR\x02abNR\x03xyz", b"NR\x03xyz", &[0, 0, 0, 5]),
    (
        "a damaged mark between good records",
        b"NR\x01aNS\x02bcNR\x01d",
        b"NR\x01aNR\x01d",
        &[0, 4, 0, 5],
    ),
    ("half a mark", b"NNR\x01aRNR\x01b", b"NR\x01aNR\x01b", &[0, 0, 0, 1, 0, 5, 0, 1]),
    ("a mark alone", b"NR", b"", &[0, 0, 0, 2]),
    ("FF inside a record", b"NR\x04a\xFFcdNR\x01z", b"NR\x01z", &[0, 0, 0, 7]),
    ("FF between records", b"NR\x01a\xFF\xFFNR\x01b", b"NR\x01aNR\x01b", &[0, 4, 0, 2]),
    ("FF in front", b"\xFFNR\x01a", b"NR\x01a", &[0, 0, 0, 1]),
    ("FF behind a dropped byte", b"NR\x01a\x00", b"NR\x01a", &[0, 4, 0, 1]),
    ("FF for a name's last byte", b"NR\x02a", b"", &[0, 0, 0, 4]),
    (
        "a record that begins inside a damaged one",
        b"NS ab NR 0123456789ABCDEFGHIJKLMNOPQRSTUV",
        b"NR 0123456789ABCDEFGHIJKLMNOPQRSTUV",
        &[0, 0, 0, 6],
    ),
    ("a length that says too much", b"NR\x08ab\x00NR\x01z", b"NR\x01z", &[0, 0, 0, 6]),
    ("a mark inside a kept record", b"NR\x03aNR\x01z", b"NR\x03aNR", &[0, 6, 0, 2]),
    ("equal names", b"NR\x02ab\0NR\x02abNR\x02ab", b"NR\x02abNR\x02abNR\x02ab", &[0, 5, 0, 1]),
    ("20 and 7E in a name", b"NR\x02 ~", b"NR\x02 ~", &[]),
    ("1F in a name", b"NR\x02a\x1F", b"", &[0, 0, 0, 5]),
    ("7F in a name", b"NR\x02\x7Fb", b"", &[0, 0, 0, 5]),
    ("length 0", b"NR\x00NR\x01a", b"NR\x01a", &[0, 0, 0, 3]),
    (
        "length 32",
        b"NR\x200123456789ABCDEFGHIJKLMNOPQRSTUVW",
        b"NR\x200123456789ABCDEFGHIJKLMNOPQRSTUV",
        &[0, 35, 0, 1],
    ),
    ("length 33", b"NR\x210123456789ABCDEFGHIJKLMNOPQRSTUVW", b"", &[0, 0, 0, 36]),
];

struct Sample {
    name: &'static str,
    sector: Vec<u8>,
    kept: Vec<u8>,
    list: Vec<u8>,
}

/// The names of the samples that fail.
pub fn failing<C: Calls>() -> Vec<String> {
    let short = SHORT.into_iter().map(|(name, first, kept, list)| Sample {
        name,
        sector: padded(first),
        kept: kept.to_vec(),
        list: list.to_vec(),
    });
    let failing =
        short.chain(at_the_end()).chain(long()).filter(|sample| !sample.holds(C::salvage));
    let mut names: Vec<String> =
        failing.map(|sample| format!("salvage: {}", sample.name)).collect();
    if !refuses_other_lengths(C::salvage) {
        names.push("salvage: sector slices of other lengths".into());
    }
    names
}

/// Where the sector's end matters.
fn at_the_end() -> [Sample; 5] {
    let behind = |erased: usize, last: &[u8]| [&vec![0xFF; erased], last].concat();
    let full = b"NR\x01A".repeat(1_024);
    let but_one = [&full[..4_088], b"NR\x04last"].concat();
    [
        Sample {
            name: "a record that ends at byte 4,095",
            sector: behind(4_091, b"NR\x02zz"),
            kept: b"NR\x02zz".to_vec(),
            list: vec![0x00, 0x00, 0x0F, 0xFB],
        },
        Sample {
            name: "a record cut off by the sector's end",
            sector: [&b"NR\x01a"[..], &behind(4_087, b"NR\x03zz")].concat(),
            kept: b"NR\x01a".to_vec(),
            list: vec![0x00, 0x04, 0x0F, 0xFC],
        },
        Sample {
            name: "a byte alone at the end",
            sector: behind(4_095, b"N"),
            kept: Vec::new(),
            list: vec![0x00, 0x00, 0x10, 0x00],
        },
        Sample {
            name: "one dropped byte behind a row of records",
            sector: [&but_one, &[0x00][..]].concat(),
            kept: but_one,
            list: vec![0x0F, 0xFF, 0x00, 0x01],
        },
        Sample {
            name: "a sector full of records",
            sector: full.clone(),
            kept: full,
            list: Vec::new(),
        },
    ]
}

/// Where much is dropped.
fn long() -> [Sample; 4] {
    let front = b"NR\x01A".repeat(128);
    let turns = [0x00, b'N', b'R', 1, b'A'].repeat(820);
    let starts = (0..820).map(|number| (5 * number as u16).to_be_bytes());
    let mut marks = b"NR ".repeat(1_366);
    marks.iter_mut().skip(34).step_by(35).for_each(|byte| *byte = 0x00);
    [
        Sample {
            name: "no FF and no record",
            sector: vec![0x00; SECTOR],
            kept: Vec::new(),
            list: vec![0x00, 0x00, 0x10, 0x00],
        },
        Sample {
            name: "a start and a length over 255",
            sector: padded(&[&front, &[0x00; 300][..], b"NR\x01B"].concat()),
            kept: [&front, &b"NR\x01B"[..]].concat(),
            list: vec![0x02, 0x00, 0x01, 0x2C],
        },
        Sample {
            name: "820 stretches",
            sector: turns[..SECTOR].to_vec(),
            kept: b"NR\x01A".repeat(819),
            list: starts.flat_map(|[high, low]| [high, low, 0, 1]).collect(),
        },
        Sample {
            name: "a mark every three bytes and a bad byte every 35",
            sector: marks[..SECTOR].to_vec(),
            kept: Vec::new(),
            list: vec![0x00, 0x00, 0x10, 0x00],
        },
    ]
}

/// With FF up to a sector's length.
fn padded(bytes: &[u8]) -> Vec<u8> {
    let mut padded = bytes.to_vec();
    padded.resize(SECTOR, 0xFF);
    padded
}

impl Sample {
    /// Whether it is salvaged with enough room, exactly so much or more; with less it is 10.
    fn holds(&self, salvage: Salvage) -> bool {
        let exact = self.list.len();
        let mut enough = [exact, exact + 1, LONGEST_LIST, OVER_16_BITS].into_iter();
        let mut less = [1, 2, 3, 4, exact].into_iter().filter(|less| (1..=exact).contains(less));
        enough.all(|room| self.is_salvaged(salvage, room))
            && less.all(|less| is_refused(salvage, 10, &self.sector, SECTOR, exact - less))
    }

    fn is_salvaged(&self, salvage: Salvage, room: usize) -> bool {
        let mut kept = vec![UNTOUCHED; SECTOR];
        let mut list = vec![UNTOUCHED; room];
        let salvaged = salvage(&self.sector, &mut kept, &mut list);
        let mut right_list = self.list.clone();
        right_list.resize(room, UNTOUCHED);
        let (length, count) = (self.list.len() as u32, self.kept.len() as u32);
        salvaged == Salvaged { number: 0, length, kept: count }
            && kept == padded(&self.kept)
            && list == right_list
    }
}

/// Whether a salvage with these lengths is refused with this number, and changes nothing.
fn is_refused(salvage: Salvage, number: u32, sector: &[u8], kept: usize, room: usize) -> bool {
    let mut kept = vec![UNTOUCHED; kept];
    let mut list = vec![UNTOUCHED; room];
    salvage(sector, &mut kept, &mut list) == Salvaged { number, length: 0, kept: 0 }
        && kept.iter().chain(&list).all(|byte| *byte == UNTOUCHED)
}

/// Whether it is 2 where one of the sector slices has another length or both have, whether or not
/// the list fits; and where neither has, 10.
fn refuses_other_lengths(salvage: Salvage) -> bool {
    let sick = vec![0x00; OVER_16_BITS + SECTOR];
    let refuses =
        |number, sector, kept, room| is_refused(salvage, number, &sick[..sector], kept, room);
    let mut wrong = WRONG_LENGTHS.into_iter().chain([sick.len()]);
    wrong.all(|wrong| {
        let pairs = [(wrong, SECTOR), (SECTOR, wrong), (wrong, wrong)];
        let mut rooms = [0, 3, 4, LONGEST_LIST].into_iter();
        rooms.all(|room| pairs.iter().all(|(sector, kept)| refuses(2, *sector, *kept, room)))
    }) && [0, 3].into_iter().all(|room| refuses(10, SECTOR, SECTOR, room))
}
