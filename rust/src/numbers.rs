//! The four calls as C has them: numbers in, and one packed number out. For whoever holds numbers, such as the entries of a
//! schedule; [`Image`](crate::Image) says the same with types.
//!
//! Every function takes any bytes and numbers and answers number + 2^32 × carried order, with document 01's numbers.
#![allow(unsafe_code)]

extern "C" {
    fn pds_lay(image: *mut u8, length: u64, max: u32, parties: u32, divide: u32) -> u64;
    fn pds_start(image: *mut u8, length: u64, party: u32, operation: u32, order: u32) -> u64;
    fn pds_step(image: *mut u8, length: u64, party: u32, hint: u32) -> u64;
    fn pds_withdraw(image: *mut u8, length: u64, party: u32) -> u64;
}

/// The number of a packed answer.
#[must_use]
pub const fn number(answer: u64) -> u32 {
    answer as u32
}

/// The carried order of a packed answer: 0 unless the number is 17.
#[must_use]
pub const fn order(answer: u64) -> u32 {
    (answer >> 32) as u32
}

/// Lays a fresh image. Refusals, in order: 1, 8.
#[must_use]
pub fn lay(image: &mut [u8], max: u32, parties: u32, divide: u32) -> u64 {
    // SAFETY: pointer and length are those of lent bytes; the library touches no others and keeps no pointer
    unsafe { pds_lay(image.as_mut_ptr(), image.len() as u64, max, parties, divide) }
}

/// Starts an operation, 0 to 3 as in document 01; a pop with order 0. Refusals, in order: 1, 2, 1, 11, 3, 4, 5, 7.
#[must_use]
pub fn start(image: &mut [u8], party: u32, operation: u32, order: u32) -> u64 {
    // SAFETY: pointer and length are those of lent bytes; the library touches no others and keeps no pointer
    unsafe { pds_start(image.as_mut_ptr(), image.len() as u64, party, operation, order) }
}

/// Steps a party's operation by one access. Refusals, in order: 1, 2, 1, 3, 4, 6, 8, 9.
#[must_use]
pub fn step(image: &mut [u8], party: u32, hint: u32) -> u64 {
    // SAFETY: pointer and length are those of lent bytes; the library touches no others and keeps no pointer
    unsafe { pds_step(image.as_mut_ptr(), image.len() as u64, party, hint) }
}

/// Withdraws a party's operation. Refusals, in order: 1, 2, 1, 3, 4, 6.
#[must_use]
pub fn withdraw(image: &mut [u8], party: u32) -> u64 {
    // SAFETY: pointer and length are those of lent bytes; the library touches no others and keeps no pointer
    unsafe { pds_withdraw(image.as_mut_ptr(), image.len() as u64, party) }
}
