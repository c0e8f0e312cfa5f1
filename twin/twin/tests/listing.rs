//! M3: document 01's listing byte for byte, and the small rules around it.
#![forbid(unsafe_code)]
#![deny(warnings)]

use twin::listing;
use twin::plain::replay;
use twin::schedule::{schedule_write, Entry, Schedule};
use twin::{Fault, Twin};

const LISTING: &str = "strip 2 1 parties 2
0 0 0 0 -
1 1 0 0 -
2 0 0 0 -
3 0 0 0 -
4 0 0 0 -
5 1 0 0 -
6 1 0 0 -
7 0 16 0 7
8 1 19 0 6
cells 0.0 0.1 7.1 1.0
";

fn entries(rows: &[(u8, u8, u8, u32)]) -> Vec<Entry> {
    let entry = |&(act, party, operation, number): &(u8, u8, u8, u32)| Entry {
        act,
        party,
        operation,
        zero: 0,
        number,
    };
    rows.iter().map(entry).collect()
}

fn m3() -> Schedule {
    let rows = [
        (0, 0, 0, 7),
        (0, 1, 1, 0),
        (1, 0, 0, 2),
        (1, 0, 0, 0),
        (1, 0, 0, 0),
        (1, 1, 0, 2),
        (1, 1, 0, 0),
        (1, 0, 0, 0),
        (1, 1, 0, 0),
    ];
    Schedule {
        parties: 2,
        max: 2,
        divide: 1,
        entries: entries(&rows),
    }
}

fn list(schedule: &Schedule) -> String {
    Twin::faithful().listing(&schedule_write(schedule))
}

#[test]
fn m3_the_listing() {
    assert_eq!(list(&m3()), LISTING);
}

#[test]
fn the_listing_reads_back_and_replays() {
    let read = listing::read(LISTING).expect("a listing");
    assert_eq!(replay(&m3(), &read.lines, &read.strip), Ok(2));
}

#[test]
fn empty_at_the_second_look_does_not_replay() {
    let run = Twin::wrong(Fault::EmptyAtSecondLook).run(&m3());
    assert!(replay(&m3(), &run.lines, &run.strip).is_err());
}

#[test]
fn no_entries_print_header_and_cells() {
    let schedule = Schedule {
        parties: 16,
        max: 1,
        divide: 0,
        entries: Vec::new(),
    };
    assert_eq!(list(&schedule), "strip 1 0 parties 16\ncells 0.0 1.0 1.0\n");
}

/// The party column is the entry's byte, and 11 comes before 3.
#[test]
fn refused_entries_are_listed() {
    let mut schedule = m3();
    schedule.entries = entries(&[
        (0, 2, 0, 7),
        (0, 255, 4, 7),
        (3, 0, 0, 0),
        (1, 0, 1, 0),
        (2, 0, 0, 1),
        (1, 0, 0, 0),
        (0, 0, 0, 2),
        (0, 0, 1, 5),
        (0, 0, 0, 3),
        (0, 0, 0, 2),
        (1, 0, 0, 65_538),
        (2, 0, 0, 0),
        (2, 0, 0, 0),
    ]);
    let numbers: Vec<u32> = Twin::faithful()
        .run(&schedule)
        .lines
        .iter()
        .map(|l| l.number)
        .collect();
    assert_eq!(numbers, [3, 11, 11, 11, 11, 6, 7, 7, 0, 5, 8, 0, 6]);
    let text = list(&schedule);
    assert!(text.contains("\n1 255 11 0 -\n"));
}

/// FULL after a refused entry in between still points to the stage 1 read.
#[test]
fn refused_entries_do_not_count_for_an_effect() {
    let rows = [
        (0, 0, 0, 7),
        (1, 0, 0, 3),
        (0, 0, 0, 9),
        (1, 0, 1, 0),
        (1, 0, 0, 0),
    ];
    let schedule = Schedule {
        parties: 1,
        max: 2,
        divide: 2,
        entries: entries(&rows),
    };
    assert!(list(&schedule).contains("\n4 0 18 0 1\n"));
}
