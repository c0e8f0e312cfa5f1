//! The numbers that come back.

pub const GOES_ON: u32 = 0;
pub const BAD_LENGTH: u32 = 1;
pub const BAD_MARK: u32 = 2;
pub const BAD_PARTY: u32 = 3;
pub const BAD_RECORD: u32 = 4;
pub const BUSY: u32 = 5;
pub const IDLE: u32 = 6;
pub const BAD_ORDER: u32 = 7;
pub const BAD_PLACE: u32 = 8;
pub const WORN: u32 = 9;
pub const NO_SUCH_PLACE: u32 = 10;
pub const BAD_FIELD: u32 = 11;
pub const NOT_SHAPED: u32 = 12;
pub const PUSHED: u32 = 16;
pub const POPPED: u32 = 17;
pub const FULL: u32 = 18;
pub const EMPTY: u32 = 19;

/// A number and the order it carries, which is 0 unless the number is POPPED.
#[derive(Clone, Copy, PartialEq, Eq, Debug)]
pub struct Answer {
    pub number: u32,
    pub carried: u32,
}

impl Answer {
    pub fn of(number: u32) -> Answer {
        Answer { number, carried: 0 }
    }

    pub fn popped(order: u32) -> Answer {
        Answer {
            number: POPPED,
            carried: order,
        }
    }

    pub fn is_refusal(self) -> bool {
        is_refusal(self.number)
    }

    /// The form in which the C firmware gets it.
    pub fn packed(self) -> u64 {
        u64::from(self.number) + 4_294_967_296 * u64::from(self.carried)
    }
}

pub fn is_refusal(number: u32) -> bool {
    (1..=12).contains(&number)
}

/// PUSHED, POPPED, FULL and EMPTY end an operation.
pub fn is_result(number: u32) -> bool {
    (16..=19).contains(&number)
}
