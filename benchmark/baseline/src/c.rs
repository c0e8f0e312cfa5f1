//! The four calls for C, as in include/pds.h.
use crate::{lay, start, step, withdraw};

/// The bytes that a C caller lends. A pointer without bytes is not looked at, so it may be null.
///
/// # Safety
/// `image` points to `length` bytes that nobody else uses during the call.
unsafe fn lent<'a>(image: *mut u8, length: u64) -> &'a mut [u8] {
    if length == 0 {
        return &mut [];
    }
    // SAFETY: as the caller promises
    unsafe { std::slice::from_raw_parts_mut(image, length as usize) }
}

macro_rules! exported {
    ($lay:ident, $start:ident, $step:ident, $withdraw:ident) => {
        /// # Safety
        /// `image` points to `length` bytes that nobody else uses during the call.
        #[no_mangle]
        pub unsafe extern "C" fn $lay(
            image: *mut u8,
            length: u64,
            max: u32,
            parties: u32,
            divide: u32,
        ) -> u64 {
            lay(unsafe { lent(image, length) }, max, parties, divide).packed()
        }

        /// # Safety
        /// `image` points to `length` bytes that nobody else uses during the call.
        #[no_mangle]
        pub unsafe extern "C" fn $start(
            image: *mut u8,
            length: u64,
            party: u32,
            operation: u32,
            order: u32,
        ) -> u64 {
            start(unsafe { lent(image, length) }, party, operation, order).packed()
        }

        /// # Safety
        /// `image` points to `length` bytes that nobody else uses during the call.
        #[no_mangle]
        pub unsafe extern "C" fn $step(image: *mut u8, length: u64, party: u32, hint: u32) -> u64 {
            step(unsafe { lent(image, length) }, party, hint).packed()
        }

        /// # Safety
        /// `image` points to `length` bytes that nobody else uses during the call.
        #[no_mangle]
        pub unsafe extern "C" fn $withdraw(image: *mut u8, length: u64, party: u32) -> u64 {
            withdraw(unsafe { lent(image, length) }, party).packed()
        }
    };
}

exported!(base_lay, base_start, base_step, base_withdraw);

#[cfg(feature = "pds_names")]
exported!(pds_lay, pds_start, pds_step, pds_withdraw);
