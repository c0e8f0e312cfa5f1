//! A party's record: its 32 bytes, its validity and its side.

pub const BYTES: usize = 32;
pub const LN: u32 = 0;
pub const RN: u32 = 1;

#[derive(Clone, Copy, Debug, Default, PartialEq, Eq)]
pub struct Record {
    pub operation: u8,
    pub stage: u8,
    pub k: u16,
    pub v: u32,
    pub first: u64,
    pub second: u64,
}

/// The value of a word; its counter stands above.
pub fn value(word: u64) -> u32 {
    word as u32
}

pub fn is_push(operation: u8) -> bool {
    operation == 0 || operation == 2
}

pub fn order_fits(operation: u8, order: u32) -> bool {
    if is_push(operation) {
        order >= 3
    } else {
        order == 0
    }
}

impl Record {
    /// The record that the bytes spell, unless one of the last 8 is not zero.
    pub fn from_bytes(bytes: &[u8; BYTES]) -> Option<Record> {
        let word = |at: usize| u64::from_le_bytes(bytes[at..at + 8].try_into().unwrap());
        if word(24) != 0 {
            return None;
        }
        Some(Record {
            operation: bytes[0],
            stage: bytes[1],
            k: u16::from_le_bytes([bytes[2], bytes[3]]),
            v: u32::from_le_bytes([bytes[4], bytes[5], bytes[6], bytes[7]]),
            first: word(8),
            second: word(16),
        })
    }

    pub fn to_bytes(self) -> [u8; BYTES] {
        let mut bytes = [0; BYTES];
        bytes[0] = self.operation;
        bytes[1] = self.stage;
        bytes[2..4].copy_from_slice(&self.k.to_le_bytes());
        bytes[4..8].copy_from_slice(&self.v.to_le_bytes());
        bytes[8..16].copy_from_slice(&self.first.to_le_bytes());
        bytes[16..24].copy_from_slice(&self.second.to_le_bytes());
        bytes
    }

    /// At stage 1, with nothing read yet.
    pub fn begun(operation: u8, v: u32) -> Record {
        Record {
            operation,
            stage: 1,
            v,
            ..Record::default()
        }
    }

    pub fn is_right(&self) -> bool {
        self.operation < 2
    }

    pub fn is_push(&self) -> bool {
        is_push(self.operation)
    }

    pub fn own_null(&self) -> u32 {
        if self.is_right() {
            RN
        } else {
            LN
        }
    }

    pub fn far_null(&self) -> u32 {
        if self.is_right() {
            LN
        } else {
            RN
        }
    }

    /// The neighbour's place; k is in range.
    pub fn neighbour(&self) -> usize {
        if self.is_right() {
            usize::from(self.k) - 1
        } else {
            usize::from(self.k) + 1
        }
    }

    /// Whether a place may be k, on this record's side. A hint is compared as a whole before it is narrowed.
    pub fn in_range(&self, max: u16, place: u32) -> bool {
        if self.is_right() {
            (1..=u32::from(max) + 1).contains(&place)
        } else {
            place <= u32::from(max)
        }
    }

    pub fn at_wall(&self, max: u16) -> bool {
        if self.is_right() {
            u32::from(self.k) == u32::from(max) + 1
        } else {
            self.k == 0
        }
    }

    pub fn is_valid(&self, max: u16) -> bool {
        if self.stage == 0 {
            return *self == Record::default();
        }
        if self.operation > 3 || !order_fits(self.operation, self.v) {
            return false;
        }
        let placed = self.in_range(max, u32::from(self.k));
        match self.stage {
            1 => self.k == 0 && self.first == 0 && self.second == 0,
            2 => placed && self.second == 0,
            3 => placed && !self.is_push(),
            4 | 5 => placed && !(self.is_push() && self.at_wall(max)),
            _ => false,
        }
    }
}
