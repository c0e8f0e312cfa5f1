//! Random schedule files of four kinds.

use crate::bytes::put;
use crate::fault::Twin;
use crate::generate::strip;
use crate::random::Random;
use crate::record::{is_push, is_right, Record};
use crate::run::Run;
use crate::schedule::*;

#[derive(Clone, Copy, PartialEq, Eq, Debug)]
pub enum Kind {
    /// No entry is refused; hints are good.
    Sensible,
    /// 2 to 16 parties on MAX 1 to 4, hints often stale or wrong.
    Contended,
    /// Either of them with refused entries among the rest.
    Wild,
    /// A file of the other kinds with a bad header or length.
    Damaged,
}

pub const KINDS: [(Kind, &str); 4] = [
    (Kind::Sensible, "sensible"),
    (Kind::Contended, "contended"),
    (Kind::Wild, "wild"),
    (Kind::Damaged, "damaged"),
];

impl Kind {
    pub fn by_name(name: &str) -> Option<Kind> {
        KINDS.iter().find(|pair| pair.1 == name).map(|pair| pair.0)
    }
}

/// The bytes of a file of this kind.
pub fn file(random: &mut Random, kind: Kind) -> Vec<u8> {
    match kind {
        Kind::Sensible => schedule_write(&sensible(random)),
        Kind::Contended => schedule_write(&contended(random)),
        Kind::Wild => schedule_write(&wild(random)),
        Kind::Damaged => damaged(random),
    }
}

/// Plays along while it writes, so that it knows stages and good hints.
struct Draft {
    run: Run,
    divide: usize,
    entries: Vec<Entry>,
    next_order: u32,
    /// In how many of a hundred the hint is any place in range.
    careless: u64,
}

impl Draft {
    fn new(max: usize, divide: usize, parties: usize, careless: u64) -> Draft {
        let run = Run::new(Twin::faithful(), max, divide, parties);
        Draft {
            run,
            divide,
            entries: Vec::new(),
            next_order: 3,
            careless,
        }
    }

    fn add(&mut self, entry: Entry) {
        self.run.play(&entry);
        self.entries.push(entry);
    }

    fn done(self) -> Schedule {
        Schedule {
            parties: self.run.table.len(),
            max: self.run.max,
            divide: self.divide,
            entries: self.entries,
        }
    }

    /// An entry that this party may have now.
    fn fitting(&mut self, random: &mut Random, party: u8) -> Entry {
        let record = self.run.table[usize::from(party)];
        if record.is_idle() {
            return self.start(random, party);
        }
        if random.percent(2) {
            return Entry {
                act: WITHDRAW,
                party,
                operation: 0,
                zero: 0,
                number: 0,
            };
        }
        let number = self.hint(random, &record);
        Entry {
            act: STEP,
            party,
            operation: 0,
            zero: 0,
            number,
        }
    }

    fn start(&mut self, random: &mut Random, party: u8) -> Entry {
        let operation = random.below(4) as u8;
        let number = if is_push(operation) {
            self.next_order += 1;
            if random.percent(10) {
                strip::any_order(random)
            } else {
                self.next_order
            }
        } else {
            0
        };
        Entry {
            act: START,
            party,
            operation,
            zero: 0,
            number,
        }
    }

    fn hint(&mut self, random: &mut Random, record: &Record) -> u32 {
        let right = is_right(record.operation);
        if record.stage != 1 {
            // Not looked at: it may be anything.
            return if random.percent(80) {
                0
            } else {
                random.next() as u32
            };
        }
        if random.percent(self.careless) {
            return random.below(self.run.max as u64 + 1) as u32 + u32::from(right);
        }
        let twin = Twin::faithful();
        let found = if right {
            twin.find_right(&self.run.strip)
        } else {
            twin.find_left(&self.run.strip)
        };
        found.place as u32
    }

    /// Lets parties drawn at random act in turns of one to a few entries.
    fn go_on(&mut self, random: &mut Random, entries: usize, steady: u64, refused: u64) {
        let parties = self.run.table.len() as u64;
        let mut party = random.below(parties) as u8;
        while self.entries.len() < entries {
            if !random.percent(steady) {
                party = random.below(parties) as u8;
            }
            let entry = if random.percent(refused) {
                self.nasty(random, party)
            } else {
                self.fitting(random, party)
            };
            self.add(entry);
        }
    }

    /// An entry that is mostly refused.
    fn nasty(&mut self, random: &mut Random, party: u8) -> Entry {
        let mut entry = self.fitting(random, party);
        match random.below(12) {
            0 => entry.act = random.between(3, 255) as u8,
            1 => entry.party = random.between(self.run.table.len() as u64, 255) as u8,
            2 => entry.operation = random.pick(&[1, 2, 3, 4, 5, 255]),
            3 => entry.zero = random.between(1, 255) as u8,
            4 => entry.act = WITHDRAW,
            5 | 6 => {
                entry.act = STEP;
                entry.operation = 0;
            }
            7 => {
                entry.act = START;
                entry.operation = random.below(4) as u8;
            }
            8 => entry.number = random.below(4) as u32,
            9 if random.percent(50) => entry.number = strip::any_hint(random, self.run.max),
            // In range only for one who narrows it first.
            9 => entry.number = entry.number.wrapping_add(65_536),
            10 => {
                entry.zero = 1;
                entry.party = random.pick(&[self.run.table.len() as u8, 255]);
            }
            _ => entry = any_entry(random),
        }
        entry
    }
}

fn any_entry(random: &mut Random) -> Entry {
    Entry {
        act: random.below(4) as u8,
        party: random.below(20) as u8,
        operation: random.below(5) as u8,
        zero: random.pick(&[0, 0, 0, 1]),
        number: random.below(8) as u32,
    }
}

/// Mostly short; now and then as long as a file may be.
fn entry_count(random: &mut Random) -> usize {
    match random.below(50) {
        0 => MOST_ENTRIES,
        1 => 0,
        2..=5 => random.between(200, 1000) as usize,
        _ => random.between(1, 150) as usize,
    }
}

pub fn sensible(random: &mut Random) -> Schedule {
    let max = strip::max(random);
    let divide = random.below(max as u64 + 1) as usize;
    let parties = random.between(1, 16) as usize;
    let mut draft = Draft::new(max, divide, parties, 5);
    let entries = entry_count(random);
    draft.go_on(random, entries, 70, 0);
    draft.done()
}

pub fn contended(random: &mut Random) -> Schedule {
    let mut draft = contended_draft(random);
    let entries = entry_count(random);
    let steady = random.between(0, 80);
    draft.go_on(random, entries, steady, 0);
    draft.done()
}

fn contended_draft(random: &mut Random) -> Draft {
    let max = random.between(1, 4) as usize;
    let divide = random.below(max as u64 + 1) as usize;
    let parties = if random.percent(50) {
        random.between(2, 4)
    } else {
        random.between(2, 16)
    };
    let careless = random.pick(&[5, 20, 50]);
    Draft::new(max, divide, parties as usize, careless)
}

pub fn wild(random: &mut Random) -> Schedule {
    let mut draft = contended_draft(random);
    let entries = entry_count(random);
    let steady = random.between(0, 80);
    let refused = random.between(5, 60);
    draft.go_on(random, entries, steady, refused);
    draft.done()
}

fn damaged(random: &mut Random) -> Vec<u8> {
    let mut schedule = match random.below(3) {
        0 => sensible(random),
        1 => contended(random),
        _ => wild(random),
    };
    if random.percent(15) {
        let entry = Entry {
            act: STEP,
            party: 0,
            operation: 0,
            zero: 0,
            number: 1,
        };
        let entries = MOST_ENTRIES as u64 + random.between(1, 3);
        schedule.entries.resize(entries as usize, entry);
    }
    let mut file = schedule_write(&schedule);
    for _ in 0..random.between(1, 2) {
        damage(random, &mut file);
    }
    file
}

/// Spoils mark, version, header numbers or length.
fn damage(random: &mut Random, file: &mut Vec<u8>) {
    let byte = random.next() as u8;
    let max = if file.len() < HEADER {
        0
    } else {
        u64::from(file[6]) + 256 * u64::from(file[7])
    };
    match random.below(10) {
        8 => file.extend(vec![byte; random.between(1, 9) as usize]),
        9 => file.truncate(random.below(20) as usize),
        _ if file.len() < HEADER => (),
        0 => file[random.below(3) as usize] = byte,
        1 => put(file, 3, 2, random.pick(&[0, 2, 256, 257, 65_535])),
        2 => file[5] = random.pick(&[0, 17, 255, byte]),
        3 => put(
            file,
            6,
            2,
            random.pick(&[0, 4095, 4096, 65_535, u64::from(byte)]),
        ),
        4 => put(file, 8, 2, random.pick(&[max + 1, 65_535, u64::from(byte)])),
        5 => file.truncate(file.len() - random.between(1, 7).min(file.len() as u64) as usize),
        6 => {
            let at = random.below(file.len() as u64) as usize;
            file[at] ^= 1 << random.below(8);
        }
        _ => (),
    }
}
