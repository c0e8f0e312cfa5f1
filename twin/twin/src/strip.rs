//! Lay, find and measure over a lent strip.

use crate::answer::*;
use crate::fault::{Fault, Twin};
use crate::word::{value, word, Word, FIRST_ORDER, LN, RN};

/// A strip has MAX+2 words, with MAX from 1 to 4,094.
pub fn length_fits(words: usize) -> bool {
    (3..=4096).contains(&words)
}

pub fn max_fits(max: u64) -> bool {
    (1..=4094).contains(&max)
}

/// What measure tells of a shaped strip; all 0 with a refusal.
#[derive(Clone, Copy, PartialEq, Eq, Debug)]
pub struct Measured {
    pub number: u32,
    pub left: usize,
    pub orders: usize,
    pub right: usize,
}

/// Where find stopped; place 0 with a refusal, but also truly.
#[derive(Clone, Copy, PartialEq, Eq, Debug)]
pub struct Found {
    pub number: u32,
    pub place: usize,
}

impl Twin {
    pub fn lay(self, strip: &mut [Word], divide: u64) -> Answer {
        if !length_fits(strip.len()) {
            return Answer::of(BAD_LENGTH);
        }
        let max = strip.len() - 2;
        if divide > max as u64 {
            return Answer::of(BAD_PLACE);
        }
        for (place, cell) in strip.iter_mut().enumerate() {
            let null = if place as u64 <= divide { LN } else { RN };
            *cell = word(0, null);
        }
        Answer::of(GOES_ON)
    }

    pub fn find_right(self, strip: &[Word]) -> Found {
        let stops = |p: usize| value(strip[p]) == RN && value(strip[p - 1]) != RN;
        self.find(strip, (1..strip.len()).collect(), stops)
    }

    pub fn find_left(self, strip: &[Word]) -> Found {
        let stops = |p: usize| value(strip[p]) == LN && value(strip[p + 1]) != LN;
        let from_max_down = (0..strip.len().saturating_sub(1)).rev().collect();
        self.find(strip, from_max_down, stops)
    }

    fn find<F: Fn(usize) -> bool>(self, strip: &[Word], places: Vec<usize>, stops: F) -> Found {
        if !length_fits(strip.len()) {
            return Found {
                number: BAD_LENGTH,
                place: 0,
            };
        }
        let mut places = places;
        if self.has(Fault::FindFromFarEnd) {
            places.reverse();
        }
        for place in places {
            if stops(place) {
                return Found {
                    number: GOES_ON,
                    place,
                };
            }
        }
        Found {
            number: NO_SUCH_PLACE,
            place: 0,
        }
    }

    pub fn measure(self, strip: &[Word]) -> Measured {
        let refused = |number| Measured {
            number,
            left: 0,
            orders: 0,
            right: 0,
        };
        if !length_fits(strip.len()) {
            return refused(BAD_LENGTH);
        }
        let first_order = if self.has(Fault::ReservedIsOrder) {
            2
        } else {
            FIRST_ORDER
        };
        let values: Vec<u32> = strip.iter().map(|&w| value(w)).collect();
        let lefts = values.iter().take_while(|&&v| v == LN).count();
        let rest = &values[lefts..];
        let orders = rest.iter().take_while(|&&v| v >= first_order).count();
        let tail = &rest[orders..];
        let rights = tail.iter().take_while(|&&v| v == RN).count();
        if lefts == 0 || rights == 0 || rights != tail.len() {
            return refused(NOT_SHAPED);
        }
        Measured {
            number: GOES_ON,
            left: lefts - 1,
            orders,
            right: rights - 1,
        }
    }
}

/// The values of the orders, from left to right.
pub fn orders_of(strip: &[Word]) -> Vec<u32> {
    strip
        .iter()
        .map(|&w| value(w))
        .filter(|&v| v >= FIRST_ORDER)
        .collect()
}
