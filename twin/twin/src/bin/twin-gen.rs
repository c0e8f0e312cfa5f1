//! `twin-gen KIND SEED COUNT DIR`: writes COUNT random schedule files of the KIND
//! sensible, contended, wild or damaged to DIR, as KIND-SEED-NUMBER.pdo.
//!
//! The kinds probe-strips, probe-tables, probe-images, probe-reads and
//! probe-writes write one file KIND-SEED.txt with COUNT lines for the probe. The
//! same arguments give the same bytes.
#![forbid(unsafe_code)]
#![deny(warnings)]

use std::path::Path;
use twin::diff::Door;
use twin::generate::schedule::{file, Kind};
use twin::random::Random;

const USE: &str = "use: twin-gen KIND SEED COUNT DIR, with KIND one of \
    sensible, contended, wild, damaged, probe-strips, probe-tables, probe-images, probe-reads, \
    probe-writes";

fn main() {
    let arguments: Vec<String> = std::env::args().skip(1).collect();
    if arguments.len() != 4 {
        eprintln!("{}", USE);
        std::process::exit(2);
    }
    let seed: u64 = arguments[1].parse().expect(USE);
    let count: usize = arguments[2].parse().expect(USE);
    let directory = Path::new(&arguments[3]);
    std::fs::create_dir_all(directory).expect("DIR can be made");
    let kind = arguments[0].as_str();
    let mut random = Random::new(seed);
    let text = directory.join(format!("{}-{}.txt", kind, seed));
    match kind.strip_prefix("probe-").and_then(Door::by_name) {
        None | Some(Door::Schedules) => files(&mut random, kind, seed, count, directory),
        Some(door) => lines(&mut random, count, door, &text),
    }
}

fn lines(random: &mut Random, count: usize, door: Door, path: &Path) {
    let text: String = (0..count).map(|_| door.line(random) + "\n").collect();
    std::fs::write(path, text).expect("DIR can be written");
}

fn files(random: &mut Random, name: &str, seed: u64, count: usize, directory: &Path) {
    let kind = Kind::by_name(name).expect(USE);
    for number in 0..count {
        let path = directory.join(format!("{}-{}-{}.pdo", name, seed, number));
        std::fs::write(path, file(random, kind)).expect("DIR can be written");
    }
}
