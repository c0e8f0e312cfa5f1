//! The comparison itself, with twins in the library's place.

use crate::compare::Comparison;
use crate::room::{Place, Room};
use std::process::Command;
use twin::diff::Door;
use twin::fault::FAULTS;
use twin::generate::image::Call;
use twin::random::seed_or;
use twin::Twin;

/// What the comparison says of a library that is this twin.
fn complaints(twin: Twin, count: usize) -> Vec<String> {
    let library = |image: &mut [u8], call: &Call| twin.image_call(image, call).packed();
    let mut comparison = Comparison::new(&library, 1);
    comparison.run(seed_or(71), count);
    comparison.tally.complaints()
}

#[test]
fn a_right_library_passes() {
    assert_eq!(complaints(Twin::faithful(), 50_000), Vec::<String>::new());
}

#[test]
fn a_wrong_library_does_not() {
    for (fault, name) in FAULTS {
        if Door::Images.shows(fault) {
            let first = &complaints(Twin::wrong(fault), 50_000)[0];
            assert!(first.starts_with("difference in call "), "{}", name);
            assert!(first.contains("repeat: twin-images sequence "), "{}", name);
        }
    }
}

#[test]
fn a_write_outside_is_seen() {
    let mut room = Room::new();
    for (byte, untouched) in [(-1, false), (0, true), (63, true), (64, false)] {
        let mut lent = room.lend(Place::At(9), &[0; 64]);
        let at = lent.image().as_mut_ptr().wrapping_offset(byte);
        // In the room, though not always in the image.
        unsafe { *at ^= 1 };
        assert_eq!(lent.rest_is_untouched(), untouched, "{}", byte);
        unsafe { *at ^= 1 };
    }
}

/// Reads one byte outside the image, as a wrong library might.
fn read_outside(place: Place, byte: isize) {
    let mut room = Room::new();
    let mut lent = room.lend(place, &[0; 64]);
    let at = lent.image().as_mut_ptr().wrapping_offset(byte);
    crate::trap::set();
    crate::trap::note(72, 3);
    println!("{}", unsafe { at.read_volatile() });
}

#[test]
#[ignore = "the next test runs it and expects it to be stopped"]
fn reads_before() {
    read_outside(Place::Start, -1);
}

#[test]
#[ignore = "the next test runs it and expects it to be stopped"]
fn reads_after() {
    read_outside(Place::End, 64);
}

#[test]
fn a_read_outside_is_stopped() {
    for name in ["tests::reads_before", "tests::reads_after"] {
        let this = std::env::current_exe().expect("a test is a program");
        let mut command = Command::new(this);
        command.args([name, "--exact", "--ignored", "--nocapture"]);
        let output = command.output().expect("the test starts");
        assert_eq!(output.status.code(), Some(1), "{}", name);
        let said = String::from_utf8_lossy(&output.stderr);
        assert!(said.contains("in call 3"), "{}", said);
        assert!(said.contains("sequence 72"), "{}", said);
    }
}
