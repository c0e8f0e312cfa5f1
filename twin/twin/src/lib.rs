//! Document 01 written a second time, from its text alone, in plain safe Rust.
//!
//! It is naive on purpose: what the document says in a sentence is a line here,
//! and nothing is made fast. Its only use is to be compared with the proved
//! library, so the two share no line. Every call is a method of [`Twin`], which
//! can also be made wrong in one named way (see [`fault`]): a comparison that
//! does not notice a wrong twin is worth nothing.
#![forbid(unsafe_code)]
#![deny(warnings)]

pub mod answer;
pub mod bytes;
pub mod diff;
pub mod fault;
pub mod generate;
pub mod image;
pub mod listing;
pub mod plain;
pub mod probe;
pub mod random;
pub mod record;
pub mod run;
pub mod schedule;
pub mod step;
pub mod strip;
pub mod table;
pub mod word;

pub use answer::Answer;
pub use fault::{Fault, Twin};
pub use record::Record;
pub use word::Word;
