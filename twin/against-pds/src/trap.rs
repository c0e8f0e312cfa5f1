//! Says which call it was if the library touches an inaccessible byte, or ends
//! in a trap of the processor.

use std::os::raw::c_int;
use std::sync::atomic::{AtomicU64, Ordering};

extern "C" {
    fn signal(number: c_int, handler: extern "C" fn(c_int)) -> usize;
}

/// Illegal instruction, breakpoint, abort, bus error, arithmetic, segment.
const SIGNALS: [c_int; 6] = [4, 5, 6, 7, 8, 11];

static SEQUENCE: AtomicU64 = AtomicU64::new(0);
static CALL: AtomicU64 = AtomicU64::new(0);

/// The next call of the library is this one.
pub fn note(sequence: u64, call: usize) {
    SEQUENCE.store(sequence, Ordering::Relaxed);
    CALL.store(call as u64, Ordering::Relaxed);
}

pub fn set() {
    for number in SIGNALS {
        // The handler does not return, so nothing goes on in a broken state.
        unsafe { signal(number, caught) };
    }
}

/// Comes in the middle of a call of the library, which holds no lock of ours.
extern "C" fn caught(number: c_int) {
    let (sequence, call) = (
        SEQUENCE.load(Ordering::Relaxed),
        CALL.load(Ordering::Relaxed),
    );
    eprintln!("signal {} in call {} of its sequence", number, call);
    eprintln!("{}", super::how_to_repeat(sequence));
    std::process::exit(1);
}
