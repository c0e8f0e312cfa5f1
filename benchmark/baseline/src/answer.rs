//! What a call answers, with document 01's numbers.

/// The number of a refusal.
pub mod refusal {
    pub const SIZE: u32 = 1;
    pub const MARK: u32 = 2;
    pub const PARTY: u32 = 3;
    pub const NOT_VALID: u32 = 4;
    pub const BUSY: u32 = 5;
    pub const IDLE: u32 = 6;
    pub const ORDER: u32 = 7;
    pub const OUTSIDE: u32 = 8;
    pub const COUNTER: u32 = 9;
    pub const OPERATION: u32 = 11;
}

#[derive(Clone, Copy, Debug, PartialEq, Eq)]
pub enum Answer {
    GoesOn,
    Pushed,
    Popped(u32),
    Full,
    Empty,
    Refused(u32),
}

impl Answer {
    pub fn number(self) -> u32 {
        match self {
            Answer::GoesOn => 0,
            Answer::Pushed => 16,
            Answer::Popped(_) => 17,
            Answer::Full => 18,
            Answer::Empty => 19,
            Answer::Refused(number) => number,
        }
    }

    pub fn carried(self) -> u32 {
        match self {
            Answer::Popped(order) => order,
            _ => 0,
        }
    }

    /// number + 2^32 × carried order
    pub fn packed(self) -> u64 {
        u64::from(self.number()) | u64::from(self.carried()) << 32
    }
}

impl From<Result<Answer, u32>> for Answer {
    fn from(done: Result<Answer, u32>) -> Answer {
        done.unwrap_or_else(Answer::Refused)
    }
}
