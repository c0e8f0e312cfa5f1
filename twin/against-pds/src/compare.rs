//! Sequences of calls on one image, by the library and by the twins.
#![forbid(unsafe_code)]

use crate::room::{Lent, Place, Room};
use crate::trap;
use twin::bytes::to_hex;
use twin::diff::{Door, Report};
use twin::fault::FAULTS;
use twin::generate::image::{any, call, Call};
use twin::random::Random;
use twin::Twin;

/// The packed answer to a call on lent bytes.
pub type Library<'a> = &'a dyn Fn(&mut [u8], &Call) -> u64;

pub struct Comparison<'a> {
    library: Library<'a>,
    room: Room,
    pub tally: Tally,
    /// Prints each call before it is made, and then what came of it.
    pub talks: bool,
}

impl<'a> Comparison<'a> {
    pub fn new(library: Library<'a>, every: usize) -> Comparison<'a> {
        let report = Report::new(Door::Images);
        Comparison {
            library,
            room: Room::new(),
            tally: Tally {
                report,
                every,
                sampled: 0,
            },
            talks: false,
        }
    }

    /// At least `count` calls, or all up to the first difference.
    pub fn run(&mut self, seed: u64, count: usize) {
        let mut random = Random::new(seed);
        while self.tally.report.inputs < count && self.tally.report.differences.is_empty() {
            self.sequence(random.next());
        }
    }

    /// One image and all calls on it; the image stays in the room meanwhile.
    pub fn sequence(&mut self, seed: u64) {
        let mut random = Random::new(seed);
        let mut before = any(&mut random);
        let mut lent = self.room.lend(place(&mut random), &before);
        for number in 0..calls(&mut random) {
            let call = call(&mut random, &before);
            let asked = Asked {
                seed,
                number,
                call,
                before,
            };
            let answered = asked.by_library(self.library, &mut lent, self.talks);
            if !self.tally.agrees(&asked, &answered) {
                return;
            }
            before = answered.after;
        }
    }
}

/// Mostly flush with the end; otherwise with the start, or of any alignment.
fn place(random: &mut Random) -> Place {
    match random.below(8) {
        0 => Place::Start,
        1 => Place::At(random.between(1, 64) as usize),
        _ => Place::End,
    }
}

/// Mostly few calls, so that there are many images; now and then a long fight.
fn calls(random: &mut Random) -> usize {
    let most = random.pick(&[4, 4, 4, 16, 16, 100]);
    random.between(1, most) as usize
}

/// A call, and the image before it.
struct Asked {
    /// Its sequence, and its number there.
    seed: u64,
    number: usize,
    call: Call,
    before: Vec<u8>,
}

/// What came of a call.
#[derive(PartialEq, Eq)]
struct Answered {
    packed: u64,
    after: Vec<u8>,
    /// Whether every byte outside the image is as it was.
    outside_untouched: bool,
}

impl Asked {
    fn by(&self, twin: Twin) -> Answered {
        let mut after = self.before.clone();
        let packed = twin.image_call(&mut after, &self.call).packed();
        Answered {
            packed,
            after,
            outside_untouched: true,
        }
    }

    fn by_library(&self, library: Library, lent: &mut Lent, talks: bool) -> Answered {
        if talks {
            println!("{}", self.text());
        }
        trap::note(self.seed, self.number);
        let packed = library(lent.image(), &self.call);
        let answered = Answered {
            packed,
            after: lent.image().to_vec(),
            outside_untouched: lent.rest_is_untouched(),
        };
        if talks {
            println!("{}", answered.text("library"));
        }
        answered
    }

    fn text(&self) -> String {
        let before = to_hex(&self.before);
        format!("call {}: {:?}\nbefore {}", self.number, self.call, before)
    }

    fn difference(&self, answered: &Answered, right: &Answered) -> String {
        let lines = [
            format!("difference in {}", self.text()),
            answered.text("library"),
            right.text("twin"),
            super::how_to_repeat(self.seed),
        ];
        lines.join("\n")
    }
}

impl Answered {
    fn text(&self, who: &str) -> String {
        let outside = if self.outside_untouched {
            ""
        } else {
            ", a byte outside was written"
        };
        let (number, order) = (self.packed as u32, self.packed >> 32);
        let after = to_hex(&self.after);
        format!(
            "{}: number {} order {}{}, after\n       {}",
            who, number, order, outside, after
        )
    }
}

/// What was found so far.
pub struct Tally {
    pub report: Report,
    /// One call in so many is made by the wrong twins too.
    every: usize,
    pub sampled: usize,
}

impl Tally {
    /// Counts the answer if it is the twin's, and otherwise keeps the difference.
    fn agrees(&mut self, asked: &Asked, answered: &Answered) -> bool {
        let right = asked.by(Twin::faithful());
        if *answered != right {
            let text = asked.difference(answered, &right);
            self.report.differences.push(text);
            return false;
        }
        self.report.count(answered.packed as u32);
        if self.report.inputs % self.every == 0 {
            self.show(asked, answered);
        }
        self.report.inputs += 1;
        true
    }

    /// Counts the wrong twins that differ from the library.
    fn show(&mut self, asked: &Asked, answered: &Answered) {
        self.sampled += 1;
        for ((fault, _), shown) in FAULTS.iter().zip(&mut self.report.shown) {
            if Door::Images.shows(*fault) && asked.by(Twin::wrong(*fault)) != *answered {
                *shown += 1;
            }
        }
    }

    /// Differences; or, where there is none, what else is not as it must be.
    pub fn complaints(&self) -> Vec<String> {
        if self.report.differences.is_empty() {
            self.report.complaints()
        } else {
            self.report.differences.clone()
        }
    }
}
