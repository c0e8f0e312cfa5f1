//! What a call answers, and why it may refuse.
use crate::numbers;
use core::fmt;

/// What a step that was not refused answers.
#[derive(Clone, Copy, Debug, PartialEq, Eq, Hash)]
#[must_use = "an order that was popped is in the answer alone"]
pub enum Answer {
    /// The operation goes on: 0.
    GoesOn,
    /// The order stands in the strip: 16.
    Pushed,
    /// The order that was taken: 17.
    Popped(u32),
    /// A push found no free place at its own end: 18. The other end may have room.
    Full,
    /// A pop found no order: 19.
    Empty,
}

impl Answer {
    /// The number in document 01.
    #[must_use]
    pub const fn number(self) -> u32 {
        match self {
            Answer::GoesOn => 0,
            Answer::Pushed => 16,
            Answer::Popped(_) => 17,
            Answer::Full => 18,
            Answer::Empty => 19,
        }
    }

    /// What a step's packed answer means.
    pub(crate) const fn unpacked(packed: u64) -> Result<Answer, Refusal> {
        match numbers::number(packed) {
            0 => Ok(Answer::GoesOn),
            16 => Ok(Answer::Pushed),
            17 => Ok(Answer::Popped(numbers::order(packed))),
            18 => Ok(Answer::Full),
            19 => Ok(Answer::Empty),
            number => Err(Refusal::numbered(number)),
        }
    }
}

/// Why a call was refused. A refused call changes nothing.
///
/// The variants stand in the order in which they are looked for; [`Refusal::WrongSize`] is looked for again after
/// [`Refusal::WrongMark`].
#[derive(Clone, Copy, Debug, PartialEq, Eq, Hash)]
pub enum Refusal {
    /// MAX, party count or length wrong: 1.
    WrongSize,
    /// Mark or version wrong: 2.
    WrongMark,
    /// Operation above 3: 11. An [`Operation`](crate::Operation) never is; a number may be.
    WrongOperation,
    /// Party number not below the party count: 3.
    WrongParty,
    /// The party's record is not valid: 4.
    NotValid,
    /// Start on a busy record: 5.
    Busy,
    /// Step or withdraw on an idle record: 6.
    Idle,
    /// Push of 0, 1 or 2, or a pop started with an order other than 0: 7.
    WrongOrder,
    /// Divide or stage 1 hint outside its range: 8.
    Outside,
    /// A swap would win but the word's counter is 4,294,967,295: 9. The operation remains where it is.
    CounterAtEnd,
    /// A number that document 01 gives no image call. The proved library answers none; a later one might.
    Unknown(u32),
}

/// What the packed answer of a call that is done at once means.
pub(crate) const fn done(packed: u64) -> Result<(), Refusal> {
    match numbers::number(packed) {
        0 => Ok(()),
        number => Err(Refusal::numbered(number)),
    }
}

impl Refusal {
    /// The number in document 01.
    #[must_use]
    pub const fn number(self) -> u32 {
        match self {
            Refusal::WrongSize => 1,
            Refusal::WrongMark => 2,
            Refusal::WrongParty => 3,
            Refusal::NotValid => 4,
            Refusal::Busy => 5,
            Refusal::Idle => 6,
            Refusal::WrongOrder => 7,
            Refusal::Outside => 8,
            Refusal::CounterAtEnd => 9,
            Refusal::WrongOperation => 11,
            Refusal::Unknown(number) => number,
        }
    }

    const fn numbered(number: u32) -> Refusal {
        match number {
            1 => Refusal::WrongSize,
            2 => Refusal::WrongMark,
            3 => Refusal::WrongParty,
            4 => Refusal::NotValid,
            5 => Refusal::Busy,
            6 => Refusal::Idle,
            7 => Refusal::WrongOrder,
            8 => Refusal::Outside,
            9 => Refusal::CounterAtEnd,
            11 => Refusal::WrongOperation,
            _ => Refusal::Unknown(number),
        }
    }
}

impl fmt::Display for Refusal {
    fn fmt(&self, f: &mut fmt::Formatter<'_>) -> fmt::Result {
        let why = match self {
            Refusal::WrongSize => "MAX, party count or length wrong",
            Refusal::WrongMark => "mark or version wrong",
            Refusal::WrongParty => "party number not below the party count",
            Refusal::NotValid => "the party's record is not valid",
            Refusal::Busy => "start on a busy record",
            Refusal::Idle => "step or withdraw on an idle record",
            Refusal::WrongOrder => "an order that the operation cannot have",
            Refusal::Outside => "divide or hint outside its range",
            Refusal::CounterAtEnd => "the word's counter cannot rise",
            Refusal::WrongOperation => "operation above 3",
            Refusal::Unknown(_) => "a number that document 01 does not have",
        };
        write!(f, "refused {}: {why}", self.number())
    }
}
