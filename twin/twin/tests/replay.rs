//! Random runs explained by the plain strip: each result at its effect.
#![forbid(unsafe_code)]
#![deny(warnings)]

use std::collections::BTreeMap;
use twin::generate::schedule::{contended, sensible, wild};
use twin::listing;
use twin::plain::replay;
use twin::random::{seed_or, Random};
use twin::schedule::{schedule_write, Schedule};
use twin::{Fault, Twin};

type Make = fn(&mut Random) -> Schedule;

/// Replays what a listing's text says; gives how often each number occurred.
fn replay_all(make: Make, own_seed: u64, runs: usize) -> BTreeMap<u32, usize> {
    let seed = seed_or(own_seed);
    let mut random = Random::new(seed);
    let mut numbers = BTreeMap::new();
    let mut explained = 0;
    for run in 0..runs {
        let schedule = make(&mut random);
        let text = Twin::faithful().listing(&schedule_write(&schedule));
        let read = listing::read(&text).expect("a listing");
        assert_eq!(
            (read.max, read.divide, read.parties),
            (schedule.max, schedule.divide, schedule.parties)
        );
        for line in &read.lines {
            *numbers.entry(line.number).or_insert(0) += 1;
        }
        match replay(&schedule, &read.lines, &read.strip) {
            Ok(operations) => explained += operations,
            Err(why) => panic!("seed {} run {}: {}", seed, run, why),
        }
    }
    println!(
        "seed {}: {} runs, {} operations explained, numbers {:?}",
        seed, runs, explained, numbers
    );
    numbers
}

fn must_occur(numbers: &BTreeMap<u32, usize>, all: &[u32]) {
    for number in all {
        assert!(numbers.contains_key(number), "no {}", number);
    }
}

#[test]
fn sensible_runs() {
    let numbers = replay_all(sensible, 11, 3000);
    must_occur(&numbers, &[0, 16, 17, 18, 19]);
    assert_eq!(numbers.len(), 5, "a sensible run has no refusal");
}

#[test]
fn contended_runs() {
    let numbers = replay_all(contended, 12, 5000);
    must_occur(&numbers, &[0, 16, 17, 18, 19]);
    assert_eq!(numbers.len(), 5, "a contended run has no refusal");
}

#[test]
fn wild_runs() {
    let numbers = replay_all(wild, 13, 5000);
    must_occur(&numbers, &[0, 3, 5, 6, 7, 8, 11, 16, 17, 18, 19]);
    assert_eq!(numbers.len(), 11);
}

/// The replay itself must notice mistakes, or it explains nothing.
#[test]
fn the_replay_notices_wrong_twins() {
    let seed = seed_or(14);
    for fault in [
        Fault::EmptyAtSecondLook,
        Fault::FullAtAnswer,
        Fault::ValuesCompared,
        Fault::KCounterFirst,
        Fault::NeighbourFirstInPop,
        Fault::RefusedEntryCounted,
        Fault::CarriedKept,
    ] {
        let mut random = Random::new(seed);
        let mut noticed = 0;
        for _ in 0..1000 {
            let schedule = wild(&mut random);
            let run = Twin::wrong(fault).run(&schedule);
            noticed += usize::from(replay(&schedule, &run.lines, &run.strip).is_err());
        }
        println!(
            "seed {}: the replay notices {:?} in {} of 1000 runs",
            seed, fault, noticed
        );
        assert!(noticed > 0, "{:?}", fault);
    }
}
