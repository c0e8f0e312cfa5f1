//! A word is counter × 2^32 + value.

pub type Word = u64;

pub const LN: u32 = 0;
pub const RN: u32 = 1;
/// Value 2 is never an order; the orders begin after it.
pub const FIRST_ORDER: u32 = 3;
/// A counter that stands here can rise no more.
pub const LAST_COUNTER: u32 = 4_294_967_295;

const TWO_TO_32: u64 = 4_294_967_296;

pub fn word(counter: u32, value: u32) -> Word {
    u64::from(counter) * TWO_TO_32 + u64::from(value)
}

pub fn value(word: Word) -> u32 {
    (word % TWO_TO_32) as u32
}

pub fn counter(word: Word) -> u32 {
    (word / TWO_TO_32) as u32
}
