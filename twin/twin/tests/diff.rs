//! The comparison itself, with the twin's own programs as the other side.
#![forbid(unsafe_code)]
#![deny(warnings)]

use std::path::PathBuf;
use twin::diff::{Door, Program, Report};
use twin::random::seed_or;

const RUN: &str = env!("CARGO_BIN_EXE_twin-run");
const PROBE: &str = env!("CARGO_BIN_EXE_twin-probe");

fn compare(test: &str, door: Door, line: &str, seed: u64, count: usize) -> Report {
    let directory = PathBuf::from(env!("CARGO_TARGET_TMPDIR")).join(test);
    let program = Program {
        line,
        directory: &directory,
    };
    match door {
        Door::Schedules => program.schedules(seed, count),
        _ => program.lines(door, seed, count),
    }
}

fn agrees(door: Door, line: &str, seed: u64, count: usize) {
    let report = compare("right", door, line, seed, count);
    println!("{:?}, seed {}: {}", door, seed, report.text());
    assert_eq!(report.complaints(), Vec::<String>::new());
}

/// No difference, every number seen, every wrong twin caught.
#[test]
fn a_right_program_passes() {
    agrees(Door::Schedules, RUN, seed_or(61), 250);
    agrees(Door::Strips, PROBE, seed_or(62), 10_000);
    agrees(Door::Tables, PROBE, seed_or(69), 6000);
    agrees(Door::Images, PROBE, seed_or(63), 10_000);
    agrees(Door::Reads, PROBE, seed_or(67), 2000);
    agrees(Door::Writes, PROBE, seed_or(68), 2000);
}

/// A program with a mistake does not pass; one mistake for each door is enough
/// here, as the test above has compared all of them with a right program.
#[test]
fn a_wrong_program_does_not() {
    for (door, program, fault, count) in [
        (Door::Strips, PROBE, "find-from-far-end", 2000),
        (Door::Tables, PROBE, "first-record-stored", 2000),
        (Door::Images, PROBE, "spare-bytes-unchecked", 2000),
        (Door::Reads, PROBE, "first-record-checked", 2000),
        (Door::Writes, PROBE, "spare-bytes-left", 2000),
        (Door::Schedules, RUN, "full-at-answer", 10),
    ] {
        let line = format!("{} --fault {}", program, fault);
        let report = compare("wrong", door, &line, seed_or(64), count);
        assert!(!report.differences.is_empty(), "{:?} {}", door, fault);
        let complaint = &report.complaints()[0];
        assert!(complaint.starts_with("repeat: "), "{}", complaint);
    }
}

/// A program that ends badly, or says nothing, is noticed too.
#[test]
fn a_silent_program_does_not() {
    let report = compare("silent", Door::Strips, "false", seed_or(65), 10);
    assert_eq!(report.differences.len(), 10);
    let report = compare("silent", Door::Schedules, "true", seed_or(66), 1);
    assert_eq!(report.differences.len(), 4);
}
