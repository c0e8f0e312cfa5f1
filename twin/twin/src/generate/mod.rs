//! Random inputs from a seed: schedules of four kinds, images, strips, records
//! and probe lines. The twin's own tests and the differential tests use them.

pub mod image;
pub mod probe;
pub mod schedule;
pub mod strip;
pub mod table;
