//! The plain strip, which says what is right, and the replay of a run on it.

use crate::answer::*;
use crate::fault::Twin;
use crate::record::{is_push, is_right};
use crate::run::Line;
use crate::schedule::{Entry, Schedule, START, STEP, WITHDRAW};
use crate::strip::orders_of;
use crate::word::Word;

/// L free places, the orders, R free places.
#[derive(Clone, PartialEq, Eq, Debug)]
pub struct PlainStrip {
    pub left: usize,
    pub orders: Vec<u32>,
    pub right: usize,
}

impl PlainStrip {
    pub fn fresh(max: usize, divide: usize) -> PlainStrip {
        PlainStrip {
            left: divide,
            orders: Vec::new(),
            right: max - divide,
        }
    }

    pub fn play(&mut self, operation: u8, v: u32) -> Answer {
        if !is_right(operation) {
            return self.mirrored(|mirror| mirror.play_right(is_push(operation), v));
        }
        self.play_right(is_push(operation), v)
    }

    fn mirrored<F: Fn(&mut PlainStrip) -> Answer>(&mut self, play: F) -> Answer {
        self.mirror();
        let answer = play(self);
        self.mirror();
        answer
    }

    fn mirror(&mut self) {
        std::mem::swap(&mut self.left, &mut self.right);
        self.orders.reverse();
    }

    fn play_right(&mut self, push: bool, v: u32) -> Answer {
        if push {
            if self.right == 0 {
                return Answer::of(FULL);
            }
            self.orders.push(v);
            self.right -= 1;
            return Answer::of(PUSHED);
        }
        match self.orders.pop() {
            None => Answer::of(EMPTY),
            Some(order) => {
                self.right += 1;
                Answer::popped(order)
            }
        }
    }
}

/// A finished operation, as entries and lines tell it.
#[derive(Clone, Copy, Debug)]
pub struct Finished {
    pub operation: u8,
    pub v: u32,
    pub answer: Answer,
    pub started: usize,
    pub answered: usize,
    pub effect: usize,
}

/// A start that is neither answered nor withdrawn yet.
#[derive(Clone, Copy)]
struct Started {
    operation: u8,
    v: u32,
    at: usize,
}

impl Started {
    fn ends(self, line: &Line, effect: usize) -> Finished {
        Finished {
            operation: self.operation,
            v: self.v,
            answer: line.answer(),
            started: self.at,
            answered: line.entry,
            effect,
        }
    }
}

/// What can be seen wrong in a line by itself.
fn line_fits(at: usize, entry: &Entry, line: &Line) -> Result<(), String> {
    if line.entry != at || line.party != entry.party {
        return Err(format!("line {} names another entry", at));
    }
    if line.effect.is_some() != is_result(line.number) {
        return Err(format!("line {}: effect and number do not fit", at));
    }
    if line.carried != 0 && line.number != POPPED {
        return Err(format!("line {} carries an order without taking one", at));
    }
    Ok(())
}

/// Reads the finished operations; an error says which line makes no sense.
pub fn finished(schedule: &Schedule, lines: &[Line]) -> Result<Vec<Finished>, String> {
    if lines.len() != schedule.entries.len() {
        return Err("lines and entries differ in number".to_string());
    }
    let mut open: Vec<Option<Started>> = vec![None; schedule.parties];
    let mut done = Vec::new();
    for (at, (entry, line)) in schedule.entries.iter().zip(lines).enumerate() {
        line_fits(at, entry, line)?;
        if is_refusal(line.number) {
            continue;
        }
        let nonsense = || format!("line {} answers what its entry cannot", at);
        let slot = open.get_mut(usize::from(entry.party));
        let slot = slot.ok_or_else(nonsense)?;
        match (entry.act, line.effect) {
            (START, None) => {
                let (operation, v) = (entry.operation, entry.number);
                *slot = Some(Started { operation, v, at });
            }
            (WITHDRAW, None) => *slot = None,
            (STEP, None) => (),
            (STEP, Some(effect)) => {
                let started = slot.take().ok_or_else(nonsense)?;
                done.push(started.ends(line, effect));
            }
            _ => return Err(nonsense()),
        }
    }
    Ok(done)
}

/// The effect is one of the operation's own steps that was not refused.
fn effect_is_own(schedule: &Schedule, lines: &[Line], one: &Finished) -> bool {
    let party = schedule.entries[one.answered].party;
    one.effect > one.started
        && one.effect <= one.answered
        && schedule.entries[one.effect].party == party
        && schedule.entries[one.effect].act == STEP
        && !is_refusal(lines[one.effect].number)
}

/// Plays the finished operations in the order of their effects on a plain strip
/// of the same divide; every answer and the end must agree. Gives how many.
pub fn replay(schedule: &Schedule, lines: &[Line], strip: &[Word]) -> Result<usize, String> {
    let mut done = finished(schedule, lines)?;
    if let Some(one) = done.iter().find(|one| !effect_is_own(schedule, lines, one)) {
        return Err(format!(
            "the effect of line {} is no step of its own",
            one.answered
        ));
    }
    done.sort_by_key(|one| one.effect);
    let mut plain = PlainStrip::fresh(schedule.max, schedule.divide);
    for one in &done {
        let right = plain.play(one.operation, one.v);
        if right != one.answer {
            return Err(format!(
                "line {} answers {:?}, right is {:?}",
                one.answered, one.answer, right
            ));
        }
    }
    end_agrees(&plain, strip)?;
    Ok(done.len())
}

fn end_agrees(plain: &PlainStrip, strip: &[Word]) -> Result<(), String> {
    let measured = Twin::faithful().measure(strip);
    let numbers = (measured.left, measured.orders, measured.right);
    let right = (plain.left, plain.orders.len(), plain.right);
    if measured.number != GOES_ON || numbers != right {
        return Err(format!(
            "the end measures {:?}, right is {:?}",
            measured, right
        ));
    }
    if orders_of(strip) != plain.orders {
        return Err("the end holds other orders".to_string());
    }
    Ok(())
}
