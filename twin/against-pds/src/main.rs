//! `twin-images SEED COUNT`: makes at least COUNT calls on images by the linked
//! libpds.a and by the twin, and compares every answer and every byte.
//!
//! Images are sound and damaged, with counters at their end, and each takes a
//! sequence of calls. They lie in memory between two inaccessible pages. About
//! 50,000 of the calls are also made by each wrong twin that can show here.
//!
//! Ends with 1 at the first difference, after saying how to repeat it; also if a
//! number never came back, or if a wrong twin was not caught.
//!
//! `twin-images sequence SEED` plays one sequence and prints every call of it.
#![deny(warnings)]

mod compare;
mod pds;
mod room;
#[cfg(test)]
mod tests;
mod trap;

use compare::Comparison;
use twin::diff::Door;
use twin::fault::FAULTS;

const USE: &str = "use: twin-images SEED COUNT, or twin-images sequence SEED";
const SAMPLE: usize = 50_000;

fn how_to_repeat(sequence: u64) -> String {
    format!("repeat: twin-images sequence {}", sequence)
}

fn main() {
    let arguments: Vec<String> = std::env::args().skip(1).collect();
    trap::set();
    let good = match arguments.iter().map(String::as_str).collect::<Vec<_>>()[..] {
        ["sequence", seed] => sequence(number(seed)),
        [seed, count] => all(number(seed), number(count) as usize),
        _ => stop(),
    };
    std::process::exit(i32::from(!good));
}

fn number(text: &str) -> u64 {
    text.parse().unwrap_or_else(|_| stop())
}

fn stop<T>() -> T {
    eprintln!("{}", USE);
    std::process::exit(2);
}

fn sequence(seed: u64) -> bool {
    let mut comparison = Comparison::new(&pds::call, 1);
    comparison.talks = true;
    comparison.sequence(seed);
    complain(&comparison.tally.report.differences)
}

fn all(seed: u64, count: usize) -> bool {
    println!("image calls against libpds.a, seed {}", seed);
    let mut comparison = Comparison::new(&pds::call, (count / SAMPLE).max(1));
    comparison.run(seed, count);
    let tally = &comparison.tally;
    print!("{}", tally.report.text());
    println!("the wrong twins made {} of the calls", tally.sampled);
    print!("{}", left_to_others());
    complain(&tally.complaints())
}

/// The wrong twins that image calls cannot show, with the doors that can.
fn left_to_others() -> String {
    let left = FAULTS.iter().filter(|pair| !Door::Images.shows(pair.0));
    left.map(|(fault, name)| {
        let doors = Door::that_show(*fault);
        format!("wrong twin {:24} cannot show here: see {:?}\n", name, doors)
    })
    .collect()
}

fn complain(complaints: &[String]) -> bool {
    for complaint in complaints {
        println!("{}", complaint);
    }
    complaints.is_empty()
}
