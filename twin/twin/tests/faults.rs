//! Teeth: each wrong twin differs from the faithful one on generated inputs, at
//! the doors that can show it and at no other.
#![forbid(unsafe_code)]
#![deny(warnings)]

use twin::diff::Door;
use twin::fault::FAULTS;
use twin::generate::image::{any, call};
use twin::generate::schedule::{file, KINDS};
use twin::random::{seed_or, Random};
use twin::{Fault, Twin};

const FILES: usize = 500;
const CALLS: usize = 20_000;
const LINES: usize = 6000;

/// The doors of the probe; image calls are made without it.
const PROBED: [Door; 4] = [Door::Strips, Door::Tables, Door::Reads, Door::Writes];

/// On how many of the inputs a wrong twin shows.
#[derive(Default)]
struct Shown {
    files: usize,
    calls: usize,
    /// For each door of the probe.
    lines: [usize; 4],
}

/// Every input once, through the faithful twin and through all wrong ones.
fn show_all(seed: u64) -> Vec<Shown> {
    let mut shown: Vec<Shown> = FAULTS.iter().map(|_| Shown::default()).collect();
    let mut random = Random::new(seed);
    for (kind, _) in KINDS {
        for _ in 0..FILES {
            let file = file(&mut random, kind);
            let right = Twin::faithful().listing(&file);
            for (i, (fault, _)) in FAULTS.iter().enumerate() {
                shown[i].files += usize::from(Twin::wrong(*fault).listing(&file) != right);
            }
        }
    }
    for _ in 0..CALLS {
        let image = any(&mut random);
        let call = call(&mut random, &image);
        let play = |twin: Twin| {
            let mut bytes = image.clone();
            (twin.image_call(&mut bytes, &call), bytes)
        };
        let right = play(Twin::faithful());
        for (i, (fault, _)) in FAULTS.iter().enumerate() {
            shown[i].calls += usize::from(play(Twin::wrong(*fault)) != right);
        }
    }
    for (at, door) in PROBED.iter().enumerate() {
        for _ in 0..LINES {
            let line = door.line(&mut random);
            let right = Twin::faithful().probe(&line);
            for (i, (fault, _)) in FAULTS.iter().enumerate() {
                let wrong = Twin::wrong(*fault).probe(&line);
                shown[i].lines[at] += usize::from(wrong != right);
            }
        }
    }
    shown
}

#[test]
fn each_wrong_twin_shows_where_it_can() {
    let seed = seed_or(51);
    println!(
        "seed {}: {} files, {} image calls, {} lines for each door of the probe",
        seed,
        4 * FILES,
        CALLS,
        LINES
    );
    let shown = show_all(seed);
    for ((fault, name), shown) in FAULTS.iter().zip(&shown) {
        println!(
            "{:24} {:5} files {:5} calls {:5?} lines",
            name, shown.files, shown.calls, shown.lines
        );
        let check = |door: Door, inputs: usize| {
            assert_eq!(inputs > 0, door.shows(*fault), "{} at {:?}", name, door);
        };
        check(Door::Schedules, shown.files);
        check(Door::Images, shown.calls);
        for (door, lines) in PROBED.iter().zip(shown.lines) {
            check(*door, lines);
        }
    }
}

#[test]
fn names_lead_to_faults() {
    for (fault, name) in FAULTS {
        assert_eq!(Fault::by_name(name), Some(fault));
    }
    assert_eq!(Fault::by_name("none"), None);
}
