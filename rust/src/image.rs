//! An image over lent bytes, and the operations.
use crate::answer::done;
use crate::{numbers, Answer, Refusal};

/// An operation, with the order that it pushes.
#[derive(Clone, Copy, Debug, PartialEq, Eq, Hash)]
pub enum Operation {
    /// Pushes an order at the right end: 0.
    RightPush(u32),
    /// Pops an order at the right end: 1.
    RightPop,
    /// Pushes an order at the left end: 2.
    LeftPush(u32),
    /// Pops an order at the left end: 3.
    LeftPop,
}

impl Operation {
    /// The number in document 01.
    #[must_use]
    pub const fn number(self) -> u32 {
        match self {
            Operation::RightPush(_) => 0,
            Operation::RightPop => 1,
            Operation::LeftPush(_) => 2,
            Operation::LeftPop => 3,
        }
    }

    /// The order that is pushed; 0 for a pop.
    #[must_use]
    pub const fn order(self) -> u32 {
        match self {
            Operation::RightPush(order) | Operation::LeftPush(order) => order,
            Operation::RightPop | Operation::LeftPop => 0,
        }
    }
}

/// An image, in bytes that are lent for as long as this lives.
///
/// Every call looks at the bytes anew and checks all that it uses, so nothing need be true of them. A call borrows the image for
/// writing: no two run at a time on one image, as the library asks.
#[derive(Debug)]
pub struct Image<'a> {
    bytes: &'a mut [u8],
}

impl<'a> Image<'a> {
    /// Lays a fresh image: words 0..=divide free for the left end, the others for the right end, every party idle.
    ///
    /// Looks at the length only, at no byte already there.
    ///
    /// # Errors
    /// In order: [`WrongSize`](Refusal::WrongSize) unless max is 1 to 4,094, parties 1 to 16 and the length is
    /// [`length(max, parties)`](crate::length); [`Outside`](Refusal::Outside) if the divide is above max.
    pub fn lay(bytes: &'a mut [u8], max: u32, parties: u32, divide: u32) -> Result<Self, Refusal> {
        done(numbers::lay(bytes, max, parties, divide))?;
        Ok(Image { bytes })
    }

    /// An image that was laid before, or any other bytes: the calls find out.
    pub fn lent(bytes: &'a mut [u8]) -> Self {
        Image { bytes }
    }

    /// Starts an operation of an idle party.
    ///
    /// # Errors
    /// In order: [`WrongSize`](Refusal::WrongSize), [`WrongMark`](Refusal::WrongMark), [`WrongSize`](Refusal::WrongSize) for the
    /// header; [`WrongParty`](Refusal::WrongParty); [`NotValid`](Refusal::NotValid); [`Busy`](Refusal::Busy);
    /// [`WrongOrder`](Refusal::WrongOrder).
    pub fn start(&mut self, party: u32, operation: Operation) -> Result<(), Refusal> {
        done(numbers::start(self.bytes, party, operation.number(), operation.order()))
    }

    /// Steps a party's operation by one access to the strip. The hint is looked at in stage 1 alone and may be wrong: the
    /// operation then tries again. After an answer other than [`Answer::GoesOn`] the party is idle.
    ///
    /// # Errors
    /// In order: [`WrongSize`](Refusal::WrongSize), [`WrongMark`](Refusal::WrongMark), [`WrongSize`](Refusal::WrongSize) for the
    /// header; [`WrongParty`](Refusal::WrongParty); [`NotValid`](Refusal::NotValid); [`Idle`](Refusal::Idle);
    /// [`Outside`](Refusal::Outside); [`CounterAtEnd`](Refusal::CounterAtEnd).
    pub fn step(&mut self, party: u32, hint: u32) -> Result<Answer, Refusal> {
        Answer::unpacked(numbers::step(self.bytes, party, hint))
    }

    /// Withdraws a party's operation, at whatever stage it stands. It took no effect.
    ///
    /// # Errors
    /// In order: [`WrongSize`](Refusal::WrongSize), [`WrongMark`](Refusal::WrongMark), [`WrongSize`](Refusal::WrongSize) for the
    /// header; [`WrongParty`](Refusal::WrongParty); [`NotValid`](Refusal::NotValid); [`Idle`](Refusal::Idle).
    pub fn withdraw(&mut self, party: u32) -> Result<(), Refusal> {
        done(numbers::withdraw(self.bytes, party))
    }

    /// A hint for an operation, by a scan: the first place whose value is RN for the right end, the last whose value is LN for the
    /// left, 0 if there is none. It is true of the strip as it stands, and may be wrong one step later.
    #[must_use]
    pub fn hint(&self, operation: Operation) -> u32 {
        let null = match operation {
            Operation::RightPush(_) | Operation::RightPop => 1,
            Operation::LeftPush(_) | Operation::LeftPop => 0,
        };
        let mut places = (0..).zip(self.words()).filter(|&(_, word)| word as u32 == null);
        let found = if null == 1 { places.next() } else { places.last() };
        found.map_or(0, |(place, _)| place)
    }

    /// The words of the strip, each counter × 2^32 + value; none if there is no header.
    pub fn words(&self) -> impl Iterator<Item = u64> + '_ {
        let max = match *self.bytes {
            [_, _, _, _, _, _, low, high, ..] => usize::from(low) + 256 * usize::from(high),
            _ => 0,
        };
        let words = self.bytes.chunks_exact(8).skip(1).take(max + 2);
        words.map(|word| word.iter().rev().fold(0, |number, &byte| number << 8 | u64::from(byte)))
    }

    /// The bytes as they stand.
    #[must_use]
    pub fn as_bytes(&self) -> &[u8] {
        self.bytes
    }

    /// The bytes, given back.
    #[must_use]
    pub fn into_bytes(self) -> &'a mut [u8] {
        self.bytes
    }
}
