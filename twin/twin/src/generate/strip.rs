//! Random strips, and random records that fit them or nearly do.

use crate::random::Random;
use crate::record::{in_range, is_push, neighbour, wall, Record};
use crate::word::{counter, value, word, Word, FIRST_ORDER, LAST_COUNTER, LN, RN};

/// Mostly small, so that parties meet; now and then the greatest.
pub fn max(random: &mut Random) -> usize {
    let most = match random.below(200) {
        0 => return 4094,
        1..=9 => 100,
        _ => 6,
    };
    random.between(1, most) as usize
}

/// Small, any, or at its end.
pub fn any_counter(random: &mut Random) -> u32 {
    match random.below(8) {
        0 | 1 => LAST_COUNTER,
        2 => LAST_COUNTER - 1,
        3 => random.next() as u32,
        _ => random.below(4) as u32,
    }
}

pub fn any_order(random: &mut Random) -> u32 {
    match random.below(8) {
        0 => u32::MAX,
        1 => (random.next() as u32).max(FIRST_ORDER),
        _ => random.between(3, 9) as u32,
    }
}

fn any_value(random: &mut Random) -> u32 {
    match random.below(4) {
        0 => any_order(random),
        _ => random.below(5) as u32,
    }
}

/// Some LN, some orders, some RN, with any counters.
pub fn shaped(random: &mut Random, max: usize) -> Vec<Word> {
    let words = max as u64 + 2;
    let lefts = random.between(1, words - 1);
    let mut rights = random.between(1, words - lefts);
    if random.percent(30) {
        rights = words - lefts;
    }
    let calm = random.percent(40);
    let value_at = |random: &mut Random, place: u64| {
        if place < lefts {
            LN
        } else if place >= words - rights {
            RN
        } else {
            any_order(random)
        }
    };
    (0..words)
        .map(|place| {
            let value = value_at(random, place);
            let counter = if calm {
                random.below(3) as u32
            } else {
                any_counter(random)
            };
            word(counter, value)
        })
        .collect()
}

/// Two in three are shaped; the others are a shaped one spoilt, or anything.
pub fn strip(random: &mut Random, max: usize) -> Vec<Word> {
    let mut strip = shaped(random, max);
    match random.below(6) {
        0 => {
            let place = random.below(strip.len() as u64) as usize;
            let value = if random.percent(40) {
                2
            } else {
                any_value(random)
            };
            strip[place] = word(any_counter(random), value);
        }
        1 => {
            for cell in strip.iter_mut() {
                *cell = word(any_counter(random), any_value(random));
            }
        }
        _ => (),
    }
    strip
}

/// A word as the cell holds it, or held it, or one that only looks alike.
fn seen(random: &mut Random, cell: Word) -> Word {
    match random.below(12) {
        0 => word(counter(cell).wrapping_sub(1), value(cell)),
        1 => word(counter(cell), any_value(random)),
        2 => random.next(),
        3 => word(any_counter(random), value(cell)),
        _ => cell,
    }
}

/// A valid record whose words are mostly those of the strip, so that swaps win.
pub fn record(random: &mut Random, strip: &[Word]) -> Record {
    let max = strip.len() - 2;
    let stage = random.below(6) as u8;
    let operation = random.below(4) as u8;
    if stage == 0 {
        return Record::default();
    }
    let v = if is_push(operation) {
        any_order(random)
    } else {
        0
    };
    if stage == 1 {
        return Record::at_stage_1(operation, v);
    }
    let k = place_for(random, operation, strip);
    let mut record = Record {
        operation,
        stage,
        k: k as u16,
        v,
        first: 0,
        second: 0,
    };
    record.first = seen(random, strip[neighbour(operation, k)]);
    if stage > 2 {
        record.second = seen(random, strip[k]);
    }
    if !record.is_valid(max) {
        // A push in stage 3, or at the wall in 4 or 5: stage 2 is as good.
        record.stage = 2;
        record.second = 0;
    }
    record
}

/// The same, mostly in stage 4 or 5 with both words as the strip has them.
pub fn winning_record(random: &mut Random, strip: &[Word]) -> Record {
    let any = record(random, strip);
    if any.stage < 2 {
        return any;
    }
    let k = usize::from(any.k);
    let winning = Record {
        stage: random.between(4, 5) as u8,
        first: strip[neighbour(any.operation, k)],
        second: strip[k],
        ..any
    };
    if winning.is_valid(strip.len() - 2) {
        winning
    } else {
        any
    }
}

/// A place in range; mostly a border of the strip, often the wall.
fn place_for(random: &mut Random, operation: u8, strip: &[Word]) -> usize {
    let max = strip.len() - 2;
    let places: Vec<usize> = (0..strip.len())
        .filter(|&p| in_range(operation, p as u64, max))
        .collect();
    let differs = |p: &usize| value(strip[*p]) != value(strip[neighbour(operation, *p)]);
    let borders: Vec<usize> = places.iter().copied().filter(differs).collect();
    match random.below(10) {
        0 => wall(operation, max),
        1..=6 if !borders.is_empty() => random.pick(&borders),
        _ => random.pick(&places),
    }
}

/// The same with one field changed, mostly so that it is valid no more.
pub fn spoilt_record(random: &mut Random, strip: &[Word]) -> Record {
    let mut record = record(random, strip);
    let max = strip.len() as u64 - 2;
    match random.below(7) {
        0 => record.operation = random.pick(&[0, 1, 2, 3, 4, 5, 128, 255]),
        1 => record.stage = random.pick(&[0, 1, 2, 3, 4, 5, 6, 7, 255]),
        2 => record.k = random.pick(&[0, 1, max as u16, max as u16 + 1, max as u16 + 2, 65_535]),
        3 => record.v = random.pick(&[0, 1, 2, 3, u32::MAX]),
        4 => record.first = random.pick(&[0, 1, u64::MAX]),
        5 => record.second = random.pick(&[0, 1, u64::MAX]),
        _ => (),
    }
    record
}

/// In range, just out of it, or in range only after narrowing.
pub fn any_hint(random: &mut Random, max: usize) -> u32 {
    let near = random.below(max as u64 + 3) as u32;
    match random.below(12) {
        0 | 1 => near + 65_536 * random.between(1, 65_535) as u32,
        2 => random.next() as u32,
        3 => random.pick(&[0, max as u32 + 1, max as u32 + 2, u32::MAX]),
        _ => near,
    }
}
