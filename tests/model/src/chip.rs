//! The two chips (000 and 004; 01, "The two chips and what is modelled").

use crate::fault::Fault;

/// What an opcode asks for.
#[derive(Clone, Copy, Debug, PartialEq, Eq)]
pub enum Kind {
    Unknown,
    ReadStatus,
    Read,
    FastRead,
    Jedec,
    Signature,
    ReadId,
    WriteEnable,
    WriteDisable,
    EnableStatusWrite,
    WriteStatus,
    EraseSector,
    EraseBlock,
    EraseChip,
    Program,
    WordProgram,
    PowerDown,
}

impl Kind {
    /// Whether the chip drives something while such a frame is sent, if that is long enough.
    pub fn is_answered(self) -> bool {
        use Kind::{FastRead, Jedec, Read, ReadId, ReadStatus, Signature};
        matches!(self, ReadStatus | Read | FastRead | Jedec | Signature | ReadId)
    }
}

pub const SECTOR: usize = 4_096;
pub const BLOCK: usize = 65_536;
pub const PAGE: usize = 256;
pub const MANUFACTURER: u8 = 0x8C;

/// Everything in which the chips differ.
pub struct Chip {
    pub number: u8,
    pub size: usize,
    pub jedec: [u8; 3],
    pub device: u8,
    /// The byte of an AB frame from which the signature is driven.
    pub signature_from: usize,
    /// Whether 02 takes a page; otherwise it takes one byte.
    pub pages: bool,
    /// Whether the chip has AAI and 50.
    pub aai: bool,
    /// Whether it has TB and power-down, and keeps its protection bits without power.
    pub tb: bool,
    /// How long a status write takes; 0 where it is done at once.
    pub status_time: u32,
    pub program_time: u32,
    pub block_time: u32,
    /// Of all operations the longest.
    pub chip_time: u32,
    /// By BP2 BP1 BP0; the size where nothing is protected.
    pub first_protected: [u32; 8],
    pub kinds: [Kind; 256],
}

pub const SECTOR_TIME: u32 = 90_000;
/// 004, "Erase and programming performance": write status register time, T_W, typical 5 ms (02, A4).
pub const STATUS_TIME: u32 = 5_000;
pub const WORD_TIME: u32 = 7;

pub static F25L008A: Chip = Chip {
    number: 8,
    size: 0x10_0000,
    jedec: [MANUFACTURER, 0x20, 0x14],
    device: 0x13,
    signature_from: 1,
    pages: false,
    aai: true,
    tb: false,
    status_time: 0,
    program_time: 7,
    block_time: 1_000_000,
    chip_time: 8_000_000,
    // 000, Table 2.
    first_protected: [0x10_0000, 0x0F_0000, 0x0E_0000, 0x0C_0000, 0x08_0000, 0, 0, 0],
    kinds: kinds(&[(0x50, Kind::EnableStatusWrite), (0xAD, Kind::WordProgram)]),
};

pub static F25L05PA: Chip = Chip {
    number: 5,
    size: 0x1_0000,
    jedec: [MANUFACTURER, 0x30, 0x10],
    device: 0x05,
    signature_from: 4,
    pages: true,
    aai: false,
    tb: true,
    status_time: STATUS_TIME,
    program_time: 1_500,
    block_time: 750_000,
    chip_time: 1_000_000,
    // 004, Table 3.
    first_protected: [0x1_0000, 0, 0, 0, 0x1_0000, 0, 0, 0],
    kinds: kinds(&[(0xB9, Kind::PowerDown)]),
};

impl Chip {
    pub fn numbered(number: u8) -> Option<&'static Chip> {
        match number {
            8 => Some(&F25L008A),
            5 => Some(&F25L05PA),
            _ => None,
        }
    }

    /// An address modulo the size, which is a power of two.
    pub fn reduced(&self, address: usize) -> usize {
        address & (self.size - 1)
    }

    /// The first protected address of a level, by the table.
    pub(crate) fn first_at<const FAULT: u8>(&self, level: u8) -> u32 {
        let (size, first) = (self.size as u32, self.first_protected[usize::from(level)]);
        match level {
            _ if !self.aai => first,
            0 if Fault::Level0ProtectsABlock.within(FAULT) => self.first_protected[1],
            1..=5 if Fault::HalfBlocksProtected.within(FAULT) => size - (size - first) / 2,
            6.. if Fault::Levels6And7Open.within(FAULT) => size,
            _ => first,
        }
    }

    pub fn kind(&self, opcode: u8) -> Kind {
        self.kinds[opcode as usize]
    }
}

/// The opcodes both chips know, and the given ones.
const fn kinds(own: &[(u8, Kind)]) -> [Kind; 256] {
    const COMMON: [(u8, Kind); 14] = [
        (0x01, Kind::WriteStatus),
        (0x02, Kind::Program),
        (0x03, Kind::Read),
        (0x04, Kind::WriteDisable),
        (0x05, Kind::ReadStatus),
        (0x06, Kind::WriteEnable),
        (0x0B, Kind::FastRead),
        (0x20, Kind::EraseSector),
        (0x60, Kind::EraseChip),
        (0x90, Kind::ReadId),
        (0x9F, Kind::Jedec),
        (0xAB, Kind::Signature),
        (0xC7, Kind::EraseChip),
        (0xD8, Kind::EraseBlock),
    ];
    with(with([Kind::Unknown; 256], &COMMON), own)
}

const fn with(mut kinds: [Kind; 256], entries: &[(u8, Kind)]) -> [Kind; 256] {
    let mut i = 0;
    while i < entries.len() {
        kinds[entries[i].0 as usize] = entries[i].1;
        i += 1;
    }
    kinds
}
