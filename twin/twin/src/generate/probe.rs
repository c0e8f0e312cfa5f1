//! Random lines for the probe.

use crate::bytes::to_hex;
use crate::generate::image::{self, Call};
use crate::generate::strip;
use crate::probe::{join_record, join_table, join_words, MOST_PARTIES, MOST_WORDS};
use crate::random::Random;
use crate::record::Record;
use crate::word::Word;

/// A strip or a record: lay, find, measure, start, withdraw or step.
pub fn strip_line(random: &mut Random) -> String {
    let words = any_strip(random);
    let max = words.len().saturating_sub(2);
    match random.below(12) {
        0 | 1 => {
            let divide = random.below(max as u64 + 4) + 65_536 * (random.below(8) / 7);
            format!("lay {}{}", divide, join_words(&words))
        }
        2 => format!("find right{}", join_words(&words)),
        3 => format!("find left{}", join_words(&words)),
        4 | 5 => format!("measure{}", join_words(&words)),
        6 => start_line(random, &words),
        7 => {
            let record = any_record(random, &words);
            format!("withdraw {}{}", any_max(random, max), join_record(&record))
        }
        _ => {
            let record = any_record(random, &words);
            let hint = strip::any_hint(random, max);
            format!(
                "step {}{}{}",
                hint,
                join_record(&record),
                join_words(&words)
            )
        }
    }
}

/// An image: the four calls of the C firmware.
pub fn image_line(random: &mut Random) -> String {
    let image = image::any(random);
    let hex = to_hex(&image);
    match image::call(random, &image) {
        Call::Lay {
            parties,
            max,
            divide,
        } => {
            format!("image-lay {} {} {} {}", parties, max, divide, hex)
        }
        Call::Start {
            party,
            operation,
            v,
        } => {
            format!("image-start {} {} {} {}", party, operation, v, hex)
        }
        Call::Step { party, hint } => format!("image-step {} {} {}", party, hint, hex),
        Call::Withdraw { party } => format!("image-withdraw {} {}", party, hex),
    }
}

/// Mostly a strip; sometimes too short or too long by a word.
pub fn any_strip(random: &mut Random) -> Vec<Word> {
    match random.below(60) {
        0 => (0..random.below(3)).map(|_| random.next() % 4).collect(),
        1 => {
            let mut words = strip::shaped(random, 4094);
            words.truncate(random.pick(&[2, 3, 4095, 4096]));
            words
        }
        2 => {
            let mut words = strip::shaped(random, 4094);
            words.push(1);
            words
        }
        _ => {
            let max = random.between(1, 12) as usize;
            strip::strip(random, max)
        }
    }
}

pub fn any_record(random: &mut Random, words: &[Word]) -> Record {
    if words.len() < 3 {
        return Record::default();
    }
    if random.percent(30) {
        strip::spoilt_record(random, words)
    } else {
        strip::record(random, words)
    }
}

pub fn any_max(random: &mut Random, max: usize) -> u64 {
    match random.below(8) {
        0 => random.pick(&[0, 1, 4094, 4095, 65_535, 65_537]),
        _ => max as u64,
    }
}

fn start_line(random: &mut Random, words: &[Word]) -> String {
    let max = words.len().saturating_sub(2);
    let record = if random.percent(50) {
        Record::default()
    } else {
        any_record(random, words)
    };
    let operation = random.pick(&[0, 1, 2, 3, 0, 1, 2, 3, 4, 256, 257]);
    let order = random.pick(&[0, 0, 1, 2, 3, 4, u32::MAX]);
    let max = any_max(random, max);
    format!(
        "start {}{} {} {}",
        max,
        join_record(&record),
        operation,
        order
    )
}

/// A whole image is read. The lent lengths mostly agree with the header; where
/// no lengths could, they are mostly sound, so that the header is looked at.
pub fn read_line(random: &mut Random) -> String {
    let image = image::any(random);
    let mut parties = u64::from(image.get(5).copied().unwrap_or(1));
    let mut words = 3;
    if image.len() >= 8 {
        words = u64::from(image[6]) + 256 * u64::from(image[7]) + 2;
    }
    if !(1..=16).contains(&parties) && random.percent(80) {
        parties = random.between(1, 16);
    }
    if !(3..=4096).contains(&words) && random.percent(80) {
        words = random.between(3, 9);
    }
    match random.below(16) {
        0 => words -= 1,
        1 => parties += 1,
        2 => {
            words = random.below(4);
            parties = random.pick(&[0, 1, 16, 17]);
        }
        _ => (),
    }
    format!(
        "read {} {} {}",
        words.min(MOST_WORDS),
        parties.min(MOST_PARTIES),
        to_hex(&image)
    )
}

/// A whole image is written, from a strip, a table and bytes of mostly fitting
/// lengths; what the bytes were does not count.
pub fn write_line(random: &mut Random) -> String {
    let words = strip_to_write(random);
    let table = table_to_write(random, &words);
    let mut length = 8 + 8 * words.len() + 32 * table.len();
    match random.below(20) {
        0 => length -= 1,
        1 => length += 1,
        2 => length = random.below(65) as usize,
        _ => (),
    }
    let bytes: Vec<u8> = (0..length).map(|_| random.next() as u8).collect();
    format!(
        "write {}{} {}{} {}",
        words.len(),
        join_words(&words),
        table.len(),
        join_table(&table),
        to_hex(&bytes)
    )
}

fn strip_to_write(random: &mut Random) -> Vec<Word> {
    match random.below(200) {
        0 => strip::shaped(random, 4094),
        1 => strip::shaped(random, 4095),
        2..=8 => (0..random.below(3)).map(|_| random.next()).collect(),
        _ => {
            let max = random.between(1, 8) as usize;
            strip::strip(random, max)
        }
    }
}

/// One in three has spoilt records among the others.
fn table_to_write(random: &mut Random, words: &[Word]) -> Vec<Record> {
    let parties = match random.below(20) {
        0 => random.pick(&[0, 17]),
        1 => 16,
        _ => random.between(1, 6),
    };
    let spoils = random.percent(33);
    (0..parties)
        .map(|_| {
            if words.len() < 3 {
                Record::default()
            } else if spoils && random.percent(40) {
                strip::spoilt_record(random, words)
            } else {
                strip::record(random, words)
            }
        })
        .collect()
}
