//! A schedule run entry by entry, with the entry where each result took effect.

use crate::answer::*;
use crate::fault::{Fault, Twin};
use crate::record::Record;
use crate::schedule::{Entry, Schedule, START, STEP};
use crate::word::Word;

/// One line of the listing; `effect` is `-` where there is none.
#[derive(Clone, Copy, PartialEq, Eq, Debug)]
pub struct Line {
    pub entry: usize,
    pub party: u8,
    pub number: u32,
    pub carried: u32,
    pub effect: Option<usize>,
}

impl Line {
    pub fn answer(&self) -> Answer {
        Answer {
            number: self.number,
            carried: self.carried,
        }
    }
}

pub struct Run {
    twin: Twin,
    pub max: usize,
    pub strip: Vec<Word>,
    pub table: Vec<Record>,
    pub lines: Vec<Line>,
    /// Each party's last step that was not refused.
    last_step: Vec<Option<usize>>,
    /// For the fault that keeps it.
    last_carried: u32,
}

impl Run {
    /// A fresh strip and idle parties; the numbers are a sound schedule's.
    pub fn new(twin: Twin, max: usize, divide: usize, parties: usize) -> Run {
        let mut strip = vec![0; max + 2];
        twin.lay(&mut strip, divide as u64);
        Run {
            twin,
            max,
            strip,
            table: vec![Record::default(); parties],
            lines: Vec::new(),
            last_step: vec![None; parties],
            last_carried: 0,
        }
    }

    /// Plays one entry and writes its line.
    pub fn play(&mut self, entry: &Entry) -> Line {
        let at = self.lines.len();
        let mut answer = self.answer(entry);
        let effect = self.effect(at, entry, answer.number);
        if answer.is_refusal() && self.twin.has(Fault::CarriedKept) {
            answer.carried = self.last_carried;
        }
        self.remember(at, entry, answer);
        let line = Line {
            entry: at,
            party: entry.party,
            number: answer.number,
            carried: answer.carried,
            effect,
        };
        self.lines.push(line);
        line
    }

    fn answer(&mut self, entry: &Entry) -> Answer {
        let party = u64::from(entry.party);
        let bad = entry.has_bad_field();
        if let Some(number) = self.twin.name_refusal(bad, party, self.table.len()) {
            return Answer::of(number);
        }
        let max = self.max as u64;
        let number = entry.number;
        let record = &mut self.table[usize::from(entry.party)];
        let (answer, after) = match entry.act {
            START => {
                let operation = u64::from(entry.operation);
                self.twin.start(max, *record, operation, number)
            }
            STEP => self.twin.step(&mut self.strip, *record, number.into()),
            _ => self.twin.withdraw(max, *record),
        };
        *record = after;
        answer
    }

    /// FULL and EMPTY took effect at the party's own step just before the answer.
    fn effect(&self, at: usize, entry: &Entry, number: u32) -> Option<usize> {
        let before = || self.last_step[usize::from(entry.party)];
        match number {
            PUSHED | POPPED => Some(at),
            FULL if self.twin.has(Fault::FullAtAnswer) => Some(at),
            EMPTY if self.twin.has(Fault::EmptyAtSecondLook) => Some(at),
            FULL | EMPTY => before(),
            _ => None,
        }
    }

    fn remember(&mut self, at: usize, entry: &Entry, answer: Answer) {
        let party = usize::from(entry.party);
        let stepped = entry.act == STEP && !answer.is_refusal();
        let counted = answer.is_refusal() && self.twin.has(Fault::RefusedEntryCounted);
        if party < self.table.len() && (stepped || counted) {
            self.last_step[party] = Some(at);
        }
        if answer.number == POPPED {
            self.last_carried = answer.carried;
        }
    }
}

impl Twin {
    pub fn run(self, schedule: &Schedule) -> Run {
        let mut run = Run::new(self, schedule.max, schedule.divide, schedule.parties);
        for entry in &schedule.entries {
            run.play(entry);
        }
        run
    }
}
