//! The text door.
#![forbid(unsafe_code)]
#![deny(warnings)]

use std::collections::BTreeMap;
use twin::generate::probe::{image_line, read_line, strip_line, write_line};
use twin::generate::table::table_line;
use twin::random::{seed_or, Random};
use twin::Twin;

fn answers(lines: &[(&str, &str)]) {
    for (line, answer) in lines {
        assert_eq!(Twin::faithful().probe(line), *answer, "{}", line);
    }
}

#[test]
fn commands_and_answers() {
    let two32 = 4_294_967_296u64;
    let pushed = format!("16 0 0 0 0 0 0 0 0 {} {} 1", two32, two32 + 7);
    let step = format!("step 0 0 5 2 7 {} 1 0 {} 1 1", two32, two32);
    answers(&[
        ("lay 1 5 5 5 5", "0 0 0 1 1"),
        ("lay 3 5 5 5 5", "8 5 5 5 5"),
        ("lay 0 5 5", "1 5 5"),
        ("lay 0", "1"),
        ("find right 0 0 1 1", "0 2"),
        ("find left 0 5 1", "0 0"),
        ("find left 1 1 1", "10 0"),
        ("find right", "1 0"),
        ("measure 0 0 9 1", "0 1 1 0"),
        ("measure 0 2 1", "12 0 0 0"),
        ("start 2 0 0 0 0 0 0 0 7", "0 0 0 1 0 7 0 0"),
        ("start 2 0 0 0 0 0 0 4 7", "11 0 0 0 0 0 0 0"),
        ("withdraw 2 0 1 0 7 0 0", "0 0 0 0 0 0 0 0"),
        ("withdraw 2 0 1 0 2 0 0", "4 0 0 1 0 2 0 0"),
        ("step 2 0 1 0 7 0 0 0 0 1 1", "0 0 0 2 2 7 0 0 0 0 1 1"),
        ("step 65538 0 1 0 7 0 0 0 0 1 1", "8 0 0 1 0 7 0 0 0 0 1 1"),
        (step.as_str(), pushed.as_str()),
        ("read 3 1 -", "1 0 0 0 0 0 0 0 0 0"),
        ("image-withdraw 0 00", "1 00"),
        ("", "?"),
        ("lay", "?"),
        ("lay x 0 0 0", "?"),
        ("find up 0 0 1", "?"),
        ("withdraw 2 256 1 0 2 0 0", "?"),
        ("withdraw 2 0 1 0 2 0 0 0", "?"),
    ]);
}

#[test]
fn a_record_lent_alone() {
    answers(&[
        ("start-record 2 0 0 0 0 0 0 0 7", "0 0 0 1 0 7 0 0"),
        ("start-record 4095 0 0 0 0 0 0 4 7", "1 0 0 0 0 0 0 0"),
        ("start-record 2 9 9 9 9 9 9 4 7", "11 0 9 9 9 9 9 9"),
        ("start-record 2 9 9 9 9 9 9 0 7", "4 0 9 9 9 9 9 9"),
        ("start-record 2 0 1 0 7 0 0 0 2", "5 0 0 1 0 7 0 0"),
        ("start-record 2 0 0 0 0 0 0 1 3", "7 0 0 0 0 0 0 0"),
        ("start-record 2 0 0 0 0 0 0 0 4294967296", "?"),
        ("withdraw-record 2 0 1 0 7 0 0", "0 0 0 0 0 0 0 0"),
        ("withdraw-record 2 0 0 0 0 0 0", "6 0 0 0 0 0 0 0"),
        ("withdraw-record 0 0 0 0 0 0 0", "1 0 0 0 0 0 0 0"),
        (
            "step-record 2 0 1 0 7 0 0 0 0 1 1",
            "0 0 0 2 2 7 0 0 0 0 1 1",
        ),
        (
            "step-record 4294967298 0 1 0 7 0 0 0 0 1 1",
            "8 0 0 1 0 7 0 0 0 0 1 1",
        ),
        ("step-record 0 0 1 0 7 0 0 0 1", "1 0 0 1 0 7 0 0 0 1"),
        ("step-record 0 0 1 0 7 0 0", "1 0 0 1 0 7 0 0"),
    ]);
}

/// MAX 2 and 7.1 at place 2, as M1 leaves it; its right pop has won at place 3.
#[test]
fn a_pop_carries_its_order() {
    let strip = "0 4294967296 4294967303 4294967297";
    let pop = "1 5 3 0 4294967303 1";
    let after = "0 0 0 0 0 0 0 4294967296 8589934593 4294967297";
    let other = "9 9 9 9 9 9";
    for (line, answer) in [
        (
            format!("step-record 0 {} {}", pop, strip),
            format!("17 7 {}", after),
        ),
        (
            format!("step-in 1 0 2 {} {} {}", other, pop, strip),
            format!("17 7 {} {}", other, after),
        ),
        (
            format!("step-in 0 0 2 {} {} {}", other, pop, strip),
            format!("4 0 {} {} {}", other, pop, strip),
        ),
        (
            format!("step-in 2 0 2 {} {} {}", other, pop, strip),
            format!("3 0 {} {} {}", other, pop, strip),
        ),
    ] {
        answers(&[(&line, &answer)]);
    }
}

#[test]
fn a_record_in_a_table() {
    let two = "9 9 9 9 9 9 0 0 0 0 0 0";
    for (names, answer) in [
        ("2 1 0 7", "0 0 9 9 9 9 9 9 0 1 0 7 0 0"),
        ("2 1 0 2", "7 0 9 9 9 9 9 9 0 0 0 0 0 0"),
        ("2 0 0 7", "4 0 9 9 9 9 9 9 0 0 0 0 0 0"),
        ("2 2 0 7", "3 0 9 9 9 9 9 9 0 0 0 0 0 0"),
        ("2 4294967297 0 7", "3 0 9 9 9 9 9 9 0 0 0 0 0 0"),
        ("2 2 4 7", "11 0 9 9 9 9 9 9 0 0 0 0 0 0"),
        ("0 2 4 7", "1 0 9 9 9 9 9 9 0 0 0 0 0 0"),
        ("2 1 0 4294967296", "?"),
    ] {
        answers(&[(&format!("start-in {} 2 {}", names, two), answer)]);
    }
    answers(&[
        (
            "withdraw-in 2 0 2 0 1 0 7 0 0 9 9 9 9 9 9",
            "0 0 0 0 0 0 0 0 9 9 9 9 9 9",
        ),
        ("withdraw-in 2 0 1 0 0 0 0 0 0", "6 0 0 0 0 0 0 0"),
        ("withdraw-in 4095 1 1 0 0 0 0 0 0", "1 0 0 0 0 0 0 0"),
        ("withdraw-in 2 0 2 0 1 0 7 0 0", "?"),
        ("withdraw-in 2 0 1 0 1 0 7 0 0 0", "?"),
        (
            "step-in 0 4 1 1 1 0 0 0 0 0 0 1 1",
            "8 0 1 1 0 0 0 0 0 0 1 1",
        ),
        ("step-in 1 4 1 1 1 0 0 0 0 0 1", "1 0 1 1 0 0 0 0 0 1"),
    ]);
}

/// 1 for none and 17 comes before 11, and 11 before 3; 18 are not read.
#[test]
fn tables_of_every_length() {
    let busy = " 1 1 0 0 0 0";
    for (parties, start, others) in [(0, 1, 1), (1, 11, 3), (16, 11, 3), (17, 1, 1)] {
        let table = format!(" {}{}", parties, busy.repeat(parties));
        let after = busy.repeat(parties);
        answers(&[
            (
                &format!("start-in 2 17 4 0{}", table),
                &format!("{} 0{}", start, after),
            ),
            (
                &format!("withdraw-in 2 17{}", table),
                &format!("{} 0{}", others, after),
            ),
            (
                &format!("step-in 17 0{} 0 0 1", table),
                &format!("{} 0{} 0 0 1", others, after),
            ),
        ]);
    }
    answers(&[
        (
            &format!("withdraw-in 4094 15 16{}", busy.repeat(16)),
            &format!("0 0{} 0 0 0 0 0 0", busy.repeat(15)),
        ),
        (&format!("withdraw-in 2 0 18{}", busy.repeat(18)), "?"),
    ]);
}

/// Counts the numbers; an image call's answer is packed.
fn count(make: fn(&mut Random) -> String, seed: u64, lines: usize) -> BTreeMap<u32, usize> {
    let mut random = Random::new(seed);
    let mut numbers = BTreeMap::new();
    for _ in 0..lines {
        let line = make(&mut random);
        let answer = Twin::faithful().probe(&line);
        let first: u64 = match answer.split(' ').next().and_then(|text| text.parse().ok()) {
            Some(number) => number,
            None => panic!("seed {}: {} answers {}", seed, line, answer),
        };
        *numbers.entry(first as u32).or_insert(0) += 1;
    }
    println!("seed {}: {} lines, numbers {:?}", seed, lines, numbers);
    numbers
}

#[test]
fn every_number_occurs_at_the_strip_door() {
    let numbers = count(strip_line, seed_or(41), 20_000);
    let seen: Vec<u32> = numbers.keys().copied().collect();
    assert_eq!(seen, [0, 1, 4, 5, 6, 7, 8, 9, 10, 11, 12, 16, 17, 18, 19]);
}

#[test]
fn every_number_occurs_at_the_table_door() {
    let numbers = count(table_line, seed_or(45), 6000);
    let seen: Vec<u32> = numbers.keys().copied().collect();
    assert_eq!(seen, [0, 1, 3, 4, 5, 6, 7, 8, 9, 11, 16, 17, 18, 19]);
}

#[test]
fn every_number_occurs_at_the_image_door() {
    let numbers = count(image_line, seed_or(42), 20_000);
    let seen: Vec<u32> = numbers.keys().copied().collect();
    assert_eq!(seen, [0, 1, 2, 3, 4, 5, 6, 7, 8, 9, 11, 16, 17, 18, 19]);
}

#[test]
fn every_number_occurs_with_whole_images() {
    let numbers = count(read_line, seed_or(43), 4000);
    let seen: Vec<u32> = numbers.keys().copied().collect();
    assert_eq!(seen, [0, 1, 2, 4]);
    let numbers = count(write_line, seed_or(44), 4000);
    let seen: Vec<u32> = numbers.keys().copied().collect();
    assert_eq!(seen, [0, 1, 4]);
}
