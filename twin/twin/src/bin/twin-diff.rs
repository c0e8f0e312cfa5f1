//! `twin-diff DOOR PROGRAM SEED COUNT DIR`: asks another program and compares.
//!
//! DOOR `schedules` runs PROGRAM once for each of COUNT schedule files of each of
//! the four kinds, as strip-run is run. DOOR `strips` (also records), `tables`
//! (lent records), `images` (calls on them), `reads` or `writes` (whole images)
//! gives it COUNT lines at once, as twin-probe takes them. PROGRAM may have
//! arguments, blanks between them. SEED makes the inputs; an input that shows a
//! difference is kept in DIR, with a line that says how to repeat it.
//!
//! Ends with 1 if there is a difference, if a number that the door can give did
//! not come back, or if a wrong twin that the door can show was not caught.
#![forbid(unsafe_code)]
#![deny(warnings)]

use std::path::Path;
use twin::diff::{Door, Program};

const USE: &str =
    "use: twin-diff schedules|strips|tables|images|reads|writes PROGRAM SEED COUNT DIR";

fn main() {
    let arguments: Vec<String> = std::env::args().skip(1).collect();
    if arguments.len() != 5 {
        eprintln!("{}", USE);
        std::process::exit(2);
    }
    let door = Door::by_name(&arguments[0]).expect(USE);
    let seed: u64 = arguments[2].parse().expect(USE);
    let count: usize = arguments[3].parse().expect(USE);
    let program = Program {
        line: &arguments[1],
        directory: Path::new(&arguments[4]),
    };
    println!("{} against {}, seed {}", arguments[0], program.line, seed);
    let report = match door {
        Door::Schedules => program.schedules(seed, count),
        _ => program.lines(door, seed, count),
    };
    print!("{}", report.text());
    let complaints = report.complaints();
    for complaint in complaints.iter().take(20) {
        println!("{}", complaint);
    }
    if !complaints.is_empty() {
        std::process::exit(1);
    }
}
