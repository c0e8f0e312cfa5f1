//! Random images, sound and damaged, and random calls on them.

use crate::answer::Answer;
use crate::bytes::put;
use crate::fault::Twin;
use crate::generate::strip;
use crate::image::{length, put_all};
use crate::random::Random;
use crate::record::Record;

/// One of the four calls of the C firmware, with its numbers.
#[derive(Clone, Copy, PartialEq, Eq, Debug)]
pub enum Call {
    Lay { parties: u32, max: u32, divide: u32 },
    Start { party: u32, operation: u32, v: u32 },
    Step { party: u32, hint: u32 },
    Withdraw { party: u32 },
}

impl Twin {
    pub fn image_call(self, image: &mut [u8], call: &Call) -> Answer {
        match *call {
            Call::Lay {
                parties,
                max,
                divide,
            } => self.image_lay(image, parties.into(), max.into(), divide.into()),
            Call::Start {
                party,
                operation,
                v,
            } => self.image_start(image, party.into(), operation.into(), v),
            Call::Step { party, hint } => self.image_step(image, party.into(), hint.into()),
            Call::Withdraw { party } => self.image_withdraw(image, party.into()),
        }
    }
}

/// An image in which every record is valid.
pub fn sound(random: &mut Random) -> Vec<u8> {
    image(random, strip::record)
}

/// An image in which some records are spoilt and some spare bytes not zero.
pub fn spoilt(random: &mut Random) -> Vec<u8> {
    let mut image = image(random, |random, words| {
        if random.percent(50) {
            strip::spoilt_record(random, words)
        } else {
            strip::record(random, words)
        }
    });
    if random.percent(30) {
        let from_the_end = 32 * random.below(u64::from(image[5])) + random.between(1, 8);
        let at = image.len() - from_the_end as usize;
        image[at] = random.between(1, 255) as u8;
    }
    image
}

fn image<F: Fn(&mut Random, &[u64]) -> Record>(random: &mut Random, record: F) -> Vec<u8> {
    let max = strip::max(random);
    let parties = if random.percent(70) {
        random.between(1, 3)
    } else {
        random.between(1, 16)
    };
    let words = strip::strip(random, max);
    let table: Vec<Record> = (0..parties).map(|_| record(random, &words)).collect();
    let mut image = vec![0; length(table.len(), max)];
    put_all(&mut image, &words, &table);
    image
}

/// Any of the above, and in one of four the header or length is damaged too.
pub fn any(random: &mut Random) -> Vec<u8> {
    let mut image = if random.percent(50) {
        sound(random)
    } else {
        spoilt(random)
    };
    if random.percent(25) {
        damage(random, &mut image);
        if random.percent(20) {
            damage(random, &mut image);
        }
    }
    image
}

/// Spoils mark, version, counts or length.
pub fn damage(random: &mut Random, image: &mut Vec<u8>) {
    let byte = random.next() as u8;
    if image.len() < 8 {
        return;
    }
    match random.below(8) {
        0 => image[random.below(3) as usize] = byte,
        1 => put(image, 3, 2, random.pick(&[0, 2, 256, 257, 65_535])),
        2 => image[5] = random.pick(&[0, 1, 16, 17, 255, byte]),
        3 => put(
            image,
            6,
            2,
            random.pick(&[0, 1, 4094, 4095, 65_535, u64::from(byte)]),
        ),
        4 => image.truncate(random.below(72) as usize),
        5 => image.truncate(image.len() - 1),
        6 => image.push(byte),
        _ => image.extend(vec![0; random.pick(&[8, 32])]),
    }
}

/// A call on this image; its numbers are mostly sound.
pub fn call(random: &mut Random, image: &[u8]) -> Call {
    let parties = image.get(5).copied().unwrap_or(1);
    let max = if image.len() < 8 {
        1
    } else {
        usize::from(image[6]) + 256 * usize::from(image[7])
    };
    let party = match random.below(16) {
        0 => u32::from(parties),
        1 => 256 + random.below(2) as u32,
        2 => random.next() as u32,
        _ => random.below(u64::from(parties.max(1))) as u32,
    };
    // An idle party mostly starts, a busy one mostly steps.
    let starts = if is_idle(image, party) { 11 } else { 2 };
    match random.below(16) {
        0 => lay_call(random, u32::from(parties), max as u32),
        1 => Call::Withdraw { party },
        draw if draw - 2 < starts => start_call(random, party),
        _ => Call::Step {
            party,
            hint: strip::any_hint(random, max),
        },
    }
}

/// Counted from the end, where the records are; a damaged image may mislead.
fn is_idle(image: &[u8], party: u32) -> bool {
    let parties = image.get(5).copied().map_or(0, usize::from);
    let party = party as usize;
    if party >= parties || image.len() < 32 * parties {
        return false;
    }
    image[image.len() - 32 * (parties - party) + 1] == 0
}

fn lay_call(random: &mut Random, parties: u32, max: u32) -> Call {
    let divide = random.below(u64::from(max) + 2) as u32;
    let mut numbers = [parties, max, divide];
    if random.percent(30) {
        let which = random.below(3) as usize;
        let old = numbers[which];
        numbers[which] = random.pick(&[0, 17, 4095, old.wrapping_add(65_536), u32::MAX]);
    }
    Call::Lay {
        parties: numbers[0],
        max: numbers[1],
        divide: numbers[2],
    }
}

fn start_call(random: &mut Random, party: u32) -> Call {
    let operation = match random.below(5) {
        0 => random.pick(&[4, 255, 256, 257, u32::MAX]),
        _ => random.below(4) as u32,
    };
    let v = match random.below(4) {
        0 => random.below(4) as u32,
        _ if operation % 2 == 0 => strip::any_order(random),
        _ => 0,
    };
    Call::Start {
        party,
        operation,
        v,
    }
}
