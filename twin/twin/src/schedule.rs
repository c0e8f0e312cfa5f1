//! The schedule file: its bytes, and every refusal in its order.

use crate::answer::{BAD_LENGTH, BAD_MARK, BAD_PLACE};
use crate::bytes::{get, put};
use crate::fault::{Fault, Twin};
use crate::strip::max_fits;
use crate::table::count_fits;

pub const MARK: &[u8] = b"PDO";
pub const VERSION: u64 = 1;
pub const HEADER: usize = 10;
pub const ENTRY: usize = 8;
pub const MOST_ENTRIES: usize = 2048;

pub const START: u8 = 0;
pub const STEP: u8 = 1;
pub const WITHDRAW: u8 = 2;

/// Eight bytes as they stand; `number` is an order or a hint.
#[derive(Clone, Copy, PartialEq, Eq, Debug)]
pub struct Entry {
    pub act: u8,
    pub party: u8,
    pub operation: u8,
    pub zero: u8,
    pub number: u32,
}

#[derive(Clone, PartialEq, Eq, Debug)]
pub struct Schedule {
    pub parties: usize,
    pub max: usize,
    pub divide: usize,
    pub entries: Vec<Entry>,
}

impl Entry {
    /// What is 11, whatever the party and its record.
    pub fn has_bad_field(&self) -> bool {
        self.act > 2
            || self.operation > 3
            || (self.act != START && self.operation != 0)
            || self.zero != 0
            || (self.act == WITHDRAW && self.number != 0)
    }

    fn from_bytes(bytes: &[u8]) -> Entry {
        Entry {
            act: bytes[0],
            party: bytes[1],
            operation: bytes[2],
            zero: bytes[3],
            number: get(bytes, 4, 4) as u32,
        }
    }

    fn to_bytes(self) -> Vec<u8> {
        let mut bytes = vec![self.act, self.party, self.operation, self.zero, 0, 0, 0, 0];
        put(&mut bytes, 4, 4, u64::from(self.number));
        bytes
    }
}

impl Twin {
    /// 1, 2, 1 again for what the header says and for the length, then 8.
    pub fn schedule_read(self, file: &[u8]) -> Result<Schedule, u32> {
        if file.len() < HEADER {
            return Err(BAD_LENGTH);
        }
        let version_wrong = get(file, 3, 2) != VERSION && !self.has(Fault::VersionNotCompared);
        if &file[0..3] != MARK || version_wrong {
            return Err(BAD_MARK);
        }
        let parties = get(file, 5, 1);
        let max = get(file, 6, 2);
        let divide = get(file, 8, 2);
        if !count_fits(parties) || !max_fits(max) {
            return Err(BAD_LENGTH);
        }
        let body = self.body(file);
        if body.len() % ENTRY != 0 || body.len() / ENTRY > MOST_ENTRIES {
            return Err(BAD_LENGTH);
        }
        if divide > max {
            return Err(BAD_PLACE);
        }
        Ok(Schedule {
            parties: parties as usize,
            max: max as usize,
            divide: divide as usize,
            entries: body.chunks(ENTRY).map(Entry::from_bytes).collect(),
        })
    }

    fn body(self, file: &[u8]) -> &[u8] {
        let body = &file[HEADER..];
        let most = ENTRY * MOST_ENTRIES;
        if self.has(Fault::LongFileCut) && body.len() > most {
            return &body[..most];
        }
        body
    }
}

/// The file of a schedule; nothing is checked, so a generator may write bad ones.
pub fn schedule_write(schedule: &Schedule) -> Vec<u8> {
    let mut file = MARK.to_vec();
    file.resize(HEADER, 0);
    put(&mut file, 3, 2, VERSION);
    put(&mut file, 5, 1, schedule.parties as u64);
    put(&mut file, 6, 2, schedule.max as u64);
    put(&mut file, 8, 2, schedule.divide as u64);
    for entry in &schedule.entries {
        file.extend(entry.to_bytes());
    }
    file
}
