//! The library to be compared, by its C interface.

use twin::generate::image::Call;

extern "C" {
    fn pds_lay(image: *mut u8, length: u64, max: u32, parties: u32, divide: u32) -> u64;
    fn pds_start(image: *mut u8, length: u64, party: u32, operation: u32, order: u32) -> u64;
    fn pds_step(image: *mut u8, length: u64, party: u32, hint: u32) -> u64;
    fn pds_withdraw(image: *mut u8, length: u64, party: u32) -> u64;
}

/// The packed answer to one call on the lent bytes.
pub fn call(image: &mut [u8], call: &Call) -> u64 {
    let (at, length) = (image.as_mut_ptr(), image.len() as u64);
    // All that the interface asks is that `length` bytes from `at` on may be
    // read and written until it returns; every other number may be any.
    match *call {
        Call::Lay {
            parties,
            max,
            divide,
        } => unsafe { pds_lay(at, length, max, parties, divide) },
        Call::Start {
            party,
            operation,
            v,
        } => unsafe { pds_start(at, length, party, operation, v) },
        Call::Step { party, hint } => unsafe { pds_step(at, length, party, hint) },
        Call::Withdraw { party } => unsafe { pds_withdraw(at, length, party) },
    }
}
