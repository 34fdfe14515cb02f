//! Lengths and offsets: document 01, "Disk, memory, tail".

pub const MEMORY_LEN: usize = 4_096;
pub const TAIL_LEN: usize = 16_384;
pub const DISK_LEN: usize = 33_691;

pub const POINTER: usize = 0;
pub const IMAGE_A: usize = 1;
pub const IMAGE_B: usize = 8_654;
pub const IMAGE_LEN: usize = 8_653;
pub const LOG: usize = 17_307;
pub const LOG_LEN: usize = 16_384;

pub const MAX_TXS: usize = 8;
pub const MAX_UNDOS: usize = 16;
pub const MAX_LENGTH: usize = 32;
/// The read ranges that a running transaction may have (document 02, A.2).
pub const MAX_READS: usize = 16;
/// The savepoints that it may have (A.7).
pub const MAX_SAVEPOINTS: usize = 4;

/// A page (document 02, A.5: drawer).
pub const PAGE_LEN: usize = 256;
pub const PAGES: usize = 16;

/// The range rule of redo records, image undo records and number 8:
/// length 1 to 32, address + length at most 4,096. Never wraps.
pub fn range_ok(address: usize, length: usize) -> bool {
    (1..=MAX_LENGTH).contains(&length) && address <= MEMORY_LEN && address + length <= MEMORY_LEN
}

/// A range of memory.
#[derive(Clone, Copy, Debug, PartialEq, Eq)]
pub struct Range {
    pub address: usize,
    pub length: usize,
}

impl Range {
    /// Some byte lies in both.
    pub fn meets(self, other: Range) -> bool {
        self.address < other.address + other.length && other.address < self.address + self.length
    }

    /// Its first and its last byte lie in two pages.
    pub fn crosses_pages(self) -> bool {
        self.address / PAGE_LEN != (self.address + self.length - 1) / PAGE_LEN
    }

    pub fn has(self, place: usize) -> bool {
        self.places().contains(&place)
    }

    pub fn places(self) -> std::ops::Range<usize> {
        self.address..self.address + self.length
    }
}

/// An unsigned number of two bytes, highest byte first.
pub fn be16(bytes: &[u8]) -> u16 {
    u16::from_be_bytes([bytes[0], bytes[1]])
}

/// An unsigned number of four bytes, highest byte first.
pub fn be32(bytes: &[u8]) -> u32 {
    u32::from_be_bytes([bytes[0], bytes[1], bytes[2], bytes[3]])
}
