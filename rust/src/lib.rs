//! The strip in an image, for Rust: safe functions over the proved library `libpds.a`.
//!
//! An image is one region of bytes: a header, a strip of MAX+2 words and a record for each party. Parties push and pop orders at
//! the right and the left end of the strip, without a lock: [`Image::start`] writes an operation into the party's record, and each
//! [`Image::step`] makes one access to the strip, until the step that answers. Between any two steps of one party the others may
//! make as many of theirs as they like.
//!
//! The library is proved: every call takes any bytes and numbers, touches only what it was lent, and refuses by a stated number
//! with nothing changed. This crate is not proved. It is small, has no memory of its own, copies nothing and cannot panic; its only
//! `unsafe` is the four foreign calls in [`numbers`], where a slice becomes a pointer and a length.
//!
//! ```
//! use pds::{Answer, Image, Operation, Refusal};
//!
//! # fn main() -> Result<(), Refusal> {
//! let mut bytes = [0; pds::length(62, 4)];
//! let mut image = Image::lay(&mut bytes, 62, 4, 31)?;
//!
//! // party 2 pushes order 7 at the right end: stages 1, 2 and 4 go on, stage 5 answers
//! let push = Operation::RightPush(7);
//! image.start(2, push)?;
//! let hint = image.hint(push);
//! for _ in 0..3 {
//!     assert_eq!(image.step(2, hint)?, Answer::GoesOn);
//! }
//! assert_eq!(image.step(2, hint)?, Answer::Pushed);
//!
//! // party 0 has started nothing: refused, and nothing changed
//! assert_eq!(image.step(0, hint), Err(Refusal::Idle));
//! # Ok(())
//! # }
//! ```
#![no_std]
#![deny(unsafe_code)]
#![warn(missing_docs)]

mod answer;
mod image;
pub mod numbers;

pub use answer::{Answer, Refusal};
pub use image::{Image, Operation};

/// The most that MAX may be; the least is 1.
pub const MOST_MAX: u32 = 4094;
/// The most parties that an image may have; the least is 1.
pub const MOST_PARTIES: u32 = 16;
/// The least number that is an order: 0, 1 and 2 are not.
pub const LEAST_ORDER: u32 = 3;

/// The exact length of an image in bytes, so that one can stand in static memory:
///
/// ```
/// static IMAGE: [u8; pds::length(14, 5)] = [0; pds::length(14, 5)];
/// # assert_eq!(IMAGE.len(), 8 + 8 * 16 + 32 * 5);
/// ```
#[must_use]
pub const fn length(max: u32, parties: u32) -> usize {
    let words = (max as usize).saturating_add(2).saturating_mul(8);
    let records = (parties as usize).saturating_mul(32);
    words.saturating_add(records).saturating_add(8)
}
