//! The image for the C firmware: the same calls on bytes, and whole images.

use crate::answer::*;
use crate::bytes::{get, put};
use crate::fault::{Fault, Twin};
use crate::record::Record;
use crate::strip::{length_fits, max_fits};
use crate::table::count_fits;
use crate::word::Word;

pub const MARK: &[u8] = b"PDS";
pub const VERSION: u64 = 1;
const HEADER: usize = 8;
const PARTY: usize = 32;

/// What the header of a sound image says.
#[derive(Clone, Copy)]
struct Header {
    parties: usize,
    max: usize,
}

pub fn length(parties: usize, max: usize) -> usize {
    HEADER + 8 * (max + 2) + PARTY * parties
}

fn record_at(header: Header, party: usize) -> usize {
    HEADER + 8 * (header.max + 2) + PARTY * party
}

impl Twin {
    /// The checks 1, 2 and 1 again, that every call on an image begins with.
    fn header(self, image: &[u8]) -> Result<Header, u32> {
        if image.len() < HEADER {
            return Err(BAD_LENGTH);
        }
        let version_wrong = get(image, 3, 2) != VERSION && !self.has(Fault::VersionNotCompared);
        if &image[0..3] != MARK || version_wrong {
            return Err(BAD_MARK);
        }
        let parties = get(image, 5, 1);
        let max = get(image, 6, 2);
        if !count_fits(parties) || !max_fits(max) {
            return Err(BAD_LENGTH);
        }
        if image.len() != length(parties as usize, max as usize) {
            return Err(BAD_LENGTH);
        }
        Ok(Header {
            parties: parties as usize,
            max: max as usize,
        })
    }

    /// 4 if the last eight bytes are not zero; the rest is the word form's to check.
    fn get_record(self, image: &[u8], at: usize) -> Result<Record, u32> {
        if get(image, at + 24, 8) != 0 && !self.has(Fault::SpareBytesUnchecked) {
            return Err(BAD_RECORD);
        }
        Ok(spelt_record(image, at))
    }

    /// How many records of a whole image are checked.
    fn checked(self, parties: usize) -> usize {
        if self.has(Fault::FirstRecordChecked) {
            1
        } else {
            parties
        }
    }

    /// Everything up to the named record, in the table's order.
    fn named(
        self,
        image: &[u8],
        bad_field: bool,
        party: u64,
    ) -> Result<(Header, usize, Record), u32> {
        let header = self.header(image)?;
        if let Some(number) = self.name_refusal(bad_field, party, header.parties) {
            return Err(number);
        }
        let at = record_at(header, party as usize);
        Ok((header, at, self.get_record(image, at)?))
    }

    pub fn image_lay(self, image: &mut [u8], parties: u64, max: u64, divide: u64) -> Answer {
        if !count_fits(parties) || !max_fits(max) {
            return Answer::of(BAD_LENGTH);
        }
        let (parties, max) = (parties as usize, max as usize);
        if image.len() != length(parties, max) {
            return Answer::of(BAD_LENGTH);
        }
        let mut strip = vec![0; max + 2];
        let answer = self.lay(&mut strip, divide);
        if !answer.is_refusal() {
            put_all(image, &strip, &vec![Record::default(); parties]);
        }
        answer
    }

    pub fn image_start(self, image: &mut [u8], party: u64, operation: u64, v: u32) -> Answer {
        let (header, at, record) = match self.named(image, operation > 3, party) {
            Ok(found) => found,
            Err(number) => return Answer::of(number),
        };
        let (answer, after) = self.start(header.max as u64, record, operation, v);
        if !answer.is_refusal() {
            put_record(image, at, &after);
        }
        answer
    }

    pub fn image_step(self, image: &mut [u8], party: u64, hint: u64) -> Answer {
        let (header, at, record) = match self.named(image, false, party) {
            Ok(found) => found,
            Err(number) => return Answer::of(number),
        };
        let mut strip = get_strip(image, header.max + 2);
        let (answer, after) = self.step(&mut strip, record, hint);
        if !answer.is_refusal() {
            put_strip(image, &strip);
            put_record(image, at, &after);
        }
        answer
    }

    pub fn image_withdraw(self, image: &mut [u8], party: u64) -> Answer {
        let (header, at, record) = match self.named(image, false, party) {
            Ok(found) => found,
            Err(number) => return Answer::of(number),
        };
        let (answer, after) = self.withdraw(header.max as u64, record);
        if !answer.is_refusal() {
            put_record(image, at, &after);
        }
        answer
    }

    /// Reads a whole image into a lent strip and table; every record is checked.
    pub fn image_read(self, image: &[u8], strip: &mut [Word], table: &mut [Record]) -> Answer {
        if !length_fits(strip.len()) || !count_fits(table.len() as u64) {
            return Answer::of(BAD_LENGTH);
        }
        let header = match self.header(image) {
            Ok(header) => header,
            Err(number) => return Answer::of(number),
        };
        if header.max + 2 != strip.len() || header.parties != table.len() {
            return Answer::of(BAD_LENGTH);
        }
        if self.has(Fault::StripBeforeCheck) {
            strip.copy_from_slice(&get_strip(image, strip.len()));
        }
        for party in 0..self.checked(header.parties) {
            match self.get_record(image, record_at(header, party)) {
                Ok(record) if record.is_valid(header.max) => (),
                _ => return Answer::of(BAD_RECORD),
            }
        }
        strip.copy_from_slice(&get_strip(image, strip.len()));
        for (party, record) in table.iter_mut().enumerate() {
            *record = spelt_record(image, record_at(header, party));
        }
        Answer::of(GOES_ON)
    }

    /// Writes a whole image; no byte already there is looked at.
    pub fn image_write(self, image: &mut [u8], strip: &[Word], table: &[Record]) -> Answer {
        if !length_fits(strip.len()) || !count_fits(table.len() as u64) {
            return Answer::of(BAD_LENGTH);
        }
        let max = strip.len() - 2;
        if image.len() != length(table.len(), max) {
            return Answer::of(BAD_LENGTH);
        }
        let checked = &table[..self.checked(table.len())];
        if checked.iter().any(|record| !record.is_valid(max)) {
            return Answer::of(BAD_RECORD);
        }
        let before = image.to_vec();
        put_all(image, strip, table);
        if self.has(Fault::SpareBytesLeft) {
            let last = image.len() - 8;
            image[last..].copy_from_slice(&before[last..]);
        }
        Answer::of(GOES_ON)
    }
}

fn spelt_record(image: &[u8], at: usize) -> Record {
    Record {
        operation: get(image, at, 1) as u8,
        stage: get(image, at + 1, 1) as u8,
        k: get(image, at + 2, 2) as u16,
        v: get(image, at + 4, 4) as u32,
        first: get(image, at + 8, 8),
        second: get(image, at + 16, 8),
    }
}

fn get_strip(image: &[u8], words: usize) -> Vec<Word> {
    (0..words).map(|i| get(image, HEADER + 8 * i, 8)).collect()
}

fn put_strip(image: &mut [u8], strip: &[Word]) {
    for (i, word) in strip.iter().enumerate() {
        put(image, HEADER + 8 * i, 8, *word);
    }
}

fn put_record(image: &mut [u8], at: usize, record: &Record) {
    put(image, at, 1, u64::from(record.operation));
    put(image, at + 1, 1, u64::from(record.stage));
    put(image, at + 2, 2, u64::from(record.k));
    put(image, at + 4, 4, u64::from(record.v));
    put(image, at + 8, 8, record.first);
    put(image, at + 16, 8, record.second);
    put(image, at + 24, 8, 0);
}

/// Header, words and records, with no question asked: the generator damages them later.
pub fn put_all(image: &mut [u8], strip: &[Word], table: &[Record]) {
    let header = Header {
        parties: table.len(),
        max: strip.len() - 2,
    };
    image[0..3].copy_from_slice(MARK);
    put(image, 3, 2, VERSION);
    put(image, 5, 1, header.parties as u64);
    put(image, 6, 2, header.max as u64);
    put_strip(image, strip);
    for (party, record) in table.iter().enumerate() {
        put_record(image, record_at(header, party), record);
    }
}
