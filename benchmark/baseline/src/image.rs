//! The image: its header, its words and its records, in the lent bytes themselves.
use crate::answer::refusal;
use crate::record::{self, Record};

const MARK: &[u8] = b"PDS";
const VERSION: u16 = 1;
const HEADER: usize = 8;
const WORD: usize = 8;

/// An image whose header was taken.
pub struct Image<'a> {
    bytes: &'a mut [u8],
    pub max: u16,
    parties: u8,
}

/// Whether MAX, the party count and the exact length agree.
pub fn sizes_fit(length: usize, max: u32, parties: u32) -> bool {
    (1..=4094).contains(&max)
        && (1..=16).contains(&parties)
        && length == HEADER + WORD * (max as usize + 2) + record::BYTES * parties as usize
}

impl<'a> Image<'a> {
    /// Takes a header, or refuses it with 1, 2 or 1 again.
    pub fn open(bytes: &'a mut [u8]) -> Result<Image<'a>, u32> {
        if bytes.len() < HEADER {
            return Err(refusal::SIZE);
        }
        if &bytes[0..3] != MARK || u16::from_le_bytes([bytes[3], bytes[4]]) != VERSION {
            return Err(refusal::MARK);
        }
        let parties = bytes[5];
        let max = u16::from_le_bytes([bytes[6], bytes[7]]);
        if !sizes_fit(bytes.len(), u32::from(max), u32::from(parties)) {
            return Err(refusal::SIZE);
        }
        Ok(Image {
            bytes,
            max,
            parties,
        })
    }

    /// Lays a fresh image over bytes whose sizes fit.
    pub fn lay(bytes: &'a mut [u8], max: u16, parties: u8, divide: u16) {
        bytes.fill(0);
        bytes[0..3].copy_from_slice(MARK);
        bytes[3..5].copy_from_slice(&VERSION.to_le_bytes());
        bytes[5] = parties;
        bytes[6..8].copy_from_slice(&max.to_le_bytes());
        let mut image = Image {
            bytes,
            max,
            parties,
        };
        for place in usize::from(divide) + 1..usize::from(max) + 2 {
            image.set_word(place, u64::from(record::RN));
        }
    }

    pub fn word(&self, place: usize) -> u64 {
        let at = HEADER + WORD * place;
        u64::from_le_bytes(self.bytes[at..at + WORD].try_into().unwrap())
    }

    fn set_word(&mut self, place: usize, word: u64) {
        let at = HEADER + WORD * place;
        self.bytes[at..at + WORD].copy_from_slice(&word.to_le_bytes());
    }

    /// Whether the swap won. It writes only if the whole word equals; 9 where it would win and the counter cannot rise.
    pub fn swap(&mut self, place: usize, from: u64, to: u32) -> Result<bool, u32> {
        if self.word(place) != from {
            return Ok(false);
        }
        let counter = (from >> 32) as u32;
        let raised = counter.checked_add(1).ok_or(refusal::COUNTER)?;
        self.set_word(place, u64::from(raised) << 32 | u64::from(to));
        Ok(true)
    }

    /// Where a party's record begins, or 3.
    pub fn record_at(&self, party: u32) -> Result<usize, u32> {
        if party >= u32::from(self.parties) {
            return Err(refusal::PARTY);
        }
        Ok(HEADER + WORD * (usize::from(self.max) + 2) + record::BYTES * party as usize)
    }

    /// The record that begins there, or 4 if it is not valid.
    pub fn record(&self, at: usize) -> Result<Record, u32> {
        let bytes = self.bytes[at..at + record::BYTES].try_into().unwrap();
        let record = Record::from_bytes(bytes).ok_or(refusal::NOT_VALID)?;
        if !record.is_valid(self.max) {
            return Err(refusal::NOT_VALID);
        }
        Ok(record)
    }

    pub fn set_record(&mut self, at: usize, record: Record) {
        self.bytes[at..at + record::BYTES].copy_from_slice(&record.to_bytes());
    }
}
