//! A party's record, and when it is valid.

use crate::word::{Word, FIRST_ORDER, LN, RN};

pub const RIGHT_PUSH: u8 = 0;
pub const RIGHT_POP: u8 = 1;
pub const LEFT_PUSH: u8 = 2;
pub const LEFT_POP: u8 = 3;

/// Idle is all zero.
#[derive(Clone, Copy, PartialEq, Eq, Debug, Default)]
pub struct Record {
    pub operation: u8,
    pub stage: u8,
    pub k: u16,
    pub v: u32,
    pub first: Word,
    pub second: Word,
}

pub fn is_right(operation: u8) -> bool {
    operation == RIGHT_PUSH || operation == RIGHT_POP
}

pub fn is_push(operation: u8) -> bool {
    operation == RIGHT_PUSH || operation == LEFT_PUSH
}

pub fn own_null(operation: u8) -> u32 {
    if is_right(operation) {
        RN
    } else {
        LN
    }
}

pub fn far_null(operation: u8) -> u32 {
    if is_right(operation) {
        LN
    } else {
        RN
    }
}

/// The place at which a push is FULL.
pub fn wall(operation: u8, max: usize) -> usize {
    if is_right(operation) {
        max + 1
    } else {
        0
    }
}

pub fn neighbour(operation: u8, k: usize) -> usize {
    if is_right(operation) {
        k - 1
    } else {
        k + 1
    }
}

/// 1..MAX+1 on the right, 0..MAX on the left, for k and for a hint.
pub fn in_range(operation: u8, place: u64, max: usize) -> bool {
    let max = max as u64;
    if is_right(operation) {
        (1..=max + 1).contains(&place)
    } else {
        place <= max
    }
}

/// A push carries an order, a pop nothing.
pub fn order_fits(operation: u8, v: u32) -> bool {
    if is_push(operation) {
        v >= FIRST_ORDER
    } else {
        v == 0
    }
}

impl Record {
    /// What a start makes, and what a lost attempt returns to.
    pub fn at_stage_1(operation: u8, v: u32) -> Record {
        Record {
            operation,
            stage: 1,
            v,
            ..Record::default()
        }
    }

    pub fn is_idle(&self) -> bool {
        self.stage == 0
    }

    pub fn is_valid(&self, max: usize) -> bool {
        if self.stage == 0 {
            return *self == Record::default();
        }
        if self.stage > 5 || self.operation > 3 || !order_fits(self.operation, self.v) {
            return false;
        }
        let k_fits = in_range(self.operation, u64::from(self.k), max);
        let at_wall = usize::from(self.k) == wall(self.operation, max);
        match self.stage {
            1 => self.k == 0 && self.first == 0 && self.second == 0,
            2 => k_fits && self.second == 0,
            3 => k_fits && !is_push(self.operation),
            _ => k_fits && !(is_push(self.operation) && at_wall),
        }
    }
}
