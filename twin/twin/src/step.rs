//! Start, step and withdraw over a record by value: the table of stages.

use crate::answer::*;
use crate::fault::{Fault, Twin};
use crate::record::*;
use crate::strip::{length_fits, max_fits};
use crate::word::{counter, value, word, Word, FIRST_ORDER, LAST_COUNTER};

/// What a call leaves: its answer and the record afterwards.
pub type After = (Answer, Record);

/// How one swap ends; Worn is a swap that would win on a worn counter.
#[derive(Clone, Copy, PartialEq, Eq)]
enum Swap {
    Won,
    Lost,
    Worn,
}

/// One swap: where, the word expected there, and the value to put.
struct Wish {
    place: usize,
    expected: Word,
    put: u32,
}

impl Twin {
    pub fn start(self, max: u64, record: Record, operation: u64, v: u32) -> After {
        if !max_fits(max) {
            return (Answer::of(BAD_LENGTH), record);
        }
        if operation > 3 {
            return (Answer::of(BAD_FIELD), record);
        }
        if !record.is_valid(max as usize) {
            return (Answer::of(BAD_RECORD), record);
        }
        if !record.is_idle() {
            return (Answer::of(BUSY), record);
        }
        if !order_fits(operation as u8, v) {
            return (Answer::of(BAD_ORDER), record);
        }
        (Answer::of(GOES_ON), Record::at_stage_1(operation as u8, v))
    }

    pub fn withdraw(self, max: u64, record: Record) -> After {
        if !max_fits(max) {
            return (Answer::of(BAD_LENGTH), record);
        }
        match self.busy_refusal(&record, max as usize) {
            Some(number) => (Answer::of(number), record),
            None => (Answer::of(GOES_ON), Record::default()),
        }
    }

    pub fn step(self, strip: &mut [Word], record: Record, hint: u64) -> After {
        if !length_fits(strip.len()) {
            return (Answer::of(BAD_LENGTH), record);
        }
        let max = strip.len() - 2;
        if let Some(number) = self.busy_refusal(&record, max) {
            return (Answer::of(number), record);
        }
        let hint = if self.has(Fault::HintNarrowed) {
            hint % 65_536
        } else {
            hint
        };
        let looks = record.stage == 1 || self.has(Fault::HintAlwaysCompared);
        if looks && !in_range(record.operation, hint, max) {
            return (Answer::of(BAD_PLACE), record);
        }
        match record.stage {
            1 => take_hint(strip, record, hint as u16),
            2 => self.read_k(strip, record),
            3 => self.look_again(strip, record),
            4 => self.first_swap(strip, record),
            _ => self.second_swap(strip, record),
        }
    }

    /// Step and withdraw both need a valid, busy record.
    fn busy_refusal(self, record: &Record, max: usize) -> Option<u32> {
        if self.has(Fault::DirtyIdleIsSix) && record.is_idle() {
            return Some(IDLE);
        }
        if !record.is_valid(max) {
            return Some(BAD_RECORD);
        }
        if record.is_idle() {
            return Some(IDLE);
        }
        None
    }

    fn read_k(self, strip: &[Word], record: Record) -> After {
        let max = strip.len() - 2;
        let k = usize::from(record.k);
        let mut record = record;
        record.second = strip[k];
        let own = own_null(record.operation);
        if value(record.first) == own || value(record.second) != own {
            return self.back(record);
        }
        if is_push(record.operation) && k == wall(record.operation, max) {
            if self.has(Fault::FullByCount) && held(strip) < max {
                return self.back(record);
            }
            return (Answer::of(FULL), Record::default());
        }
        let far = value(record.first) == far_null(record.operation);
        record.stage = if !is_push(record.operation) && far {
            3
        } else {
            4
        };
        (Answer::of(GOES_ON), record)
    }

    fn look_again(self, strip: &[Word], record: Record) -> After {
        let place = neighbour(record.operation, usize::from(record.k));
        if strip[place] == record.first {
            return (Answer::of(EMPTY), Record::default());
        }
        if self.has(Fault::StageThreeBack) {
            return self.back(record);
        }
        (Answer::of(GOES_ON), Record { stage: 4, ..record })
    }

    fn first_swap(self, strip: &mut [Word], record: Record) -> After {
        let wish = if self.in_wrong_order(&record) {
            stage_5_wish(&record)
        } else {
            stage_4_wish(&record)
        };
        match self.swap(strip, &wish) {
            Swap::Won => (Answer::of(GOES_ON), Record { stage: 5, ..record }),
            Swap::Lost => self.back(record),
            Swap::Worn => (Answer::of(WORN), record),
        }
    }

    fn second_swap(self, strip: &mut [Word], record: Record) -> After {
        let wish = if self.in_wrong_order(&record) {
            stage_4_wish(&record)
        } else {
            stage_5_wish(&record)
        };
        let result = if is_push(record.operation) {
            Answer::of(PUSHED)
        } else {
            Answer::popped(value(record.first))
        };
        let kept = if self.has(Fault::CarriedKept) {
            result.carried
        } else {
            0
        };
        match self.swap(strip, &wish) {
            Swap::Won => (result, Record::default()),
            Swap::Lost => self.back(record),
            Swap::Worn => (
                Answer {
                    number: WORN,
                    carried: kept,
                },
                record,
            ),
        }
    }

    fn in_wrong_order(self, record: &Record) -> bool {
        if is_push(record.operation) {
            self.has(Fault::KCounterFirst)
        } else {
            self.has(Fault::NeighbourFirstInPop)
        }
    }

    /// Writes only if the whole word is the expected one and its counter can rise.
    fn swap(self, strip: &mut [Word], wish: &Wish) -> Swap {
        let cell = strip[wish.place];
        if self.has(Fault::LostSwapNine) && counter(cell) == LAST_COUNTER {
            return Swap::Worn;
        }
        let same = if self.has(Fault::ValuesCompared) {
            value(cell) == value(wish.expected)
        } else {
            cell == wish.expected
        };
        if !same {
            return Swap::Lost;
        }
        if counter(wish.expected) == LAST_COUNTER {
            return Swap::Worn;
        }
        strip[wish.place] = word(counter(wish.expected) + 1, wish.put);
        Swap::Won
    }

    /// The attempt is over, the operation is not.
    fn back(self, record: Record) -> After {
        let fresh = Record::at_stage_1(record.operation, record.v);
        if self.has(Fault::ReturnKeepsWords) {
            return (Answer::of(GOES_ON), Record { stage: 1, ..record });
        }
        (Answer::of(GOES_ON), fresh)
    }
}

fn take_hint(strip: &[Word], record: Record, hint: u16) -> After {
    let first = strip[neighbour(record.operation, usize::from(hint))];
    (
        Answer::of(GOES_ON),
        Record {
            stage: 2,
            k: hint,
            first,
            ..record
        },
    )
}

/// Push: the neighbour keeps its value. Pop: k keeps being own null.
fn stage_4_wish(record: &Record) -> Wish {
    let k = usize::from(record.k);
    if is_push(record.operation) {
        let place = neighbour(record.operation, k);
        Wish {
            place,
            expected: record.first,
            put: value(record.first),
        }
    } else {
        Wish {
            place: k,
            expected: record.second,
            put: own_null(record.operation),
        }
    }
}

/// Push: the order goes into k. Pop: own null goes over the neighbour's order.
fn stage_5_wish(record: &Record) -> Wish {
    let k = usize::from(record.k);
    if is_push(record.operation) {
        Wish {
            place: k,
            expected: record.second,
            put: record.v,
        }
    } else {
        let place = neighbour(record.operation, k);
        Wish {
            place,
            expected: record.first,
            put: own_null(record.operation),
        }
    }
}

/// The number of orders, for the fault that counts them.
fn held(strip: &[Word]) -> usize {
    strip.iter().filter(|&&w| value(w) >= FIRST_ORDER).count()
}
