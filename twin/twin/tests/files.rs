//! Schedule files, whole and damaged: which refusal comes first.
#![forbid(unsafe_code)]
#![deny(warnings)]

use std::collections::BTreeMap;
use twin::generate::schedule::{file, Kind, KINDS};
use twin::listing;
use twin::random::{seed_or, Random};
use twin::schedule::schedule_write;
use twin::Twin;

const TWIN: fn() -> Twin = Twin::faithful;

fn refusal(file: &[u8]) -> u32 {
    match TWIN().schedule_read(file) {
        Ok(_) => 0,
        Err(number) => {
            assert_eq!(TWIN().listing(file), format!("refused {}\n", number));
            number
        }
    }
}

/// MAX 2, divide 1, two parties and so many bytes after the header.
fn header(after: usize) -> Vec<u8> {
    let mut file = b"PDO\x01\x00\x02\x02\x00\x01\x00".to_vec();
    file.resize(10 + after, 0);
    file
}

#[test]
fn lengths() {
    for bytes in 0..10 {
        assert_eq!(refusal(&header(0)[..bytes]), 1);
        assert_eq!(refusal(&vec![0; bytes]), 1);
    }
    for (after, number) in [
        (0, 0),
        (1, 1),
        (7, 1),
        (8, 0),
        (9, 1),
        (16_384, 0),
        (16_385, 1),
        (16_392, 1),
        (80_000, 1),
    ] {
        assert_eq!(refusal(&header(after)), number, "{} bytes", after);
    }
}

#[test]
fn a_wrong_mark_comes_before_header_and_length_and_the_divide_last() {
    for after in [0, 1, 8, 16_392] {
        for (at, new) in [(0, b'Q'), (1, 0), (2, b'S'), (3, 0), (3, 2), (4, 1)] {
            let mut file = header(after);
            file[at] = new;
            file[5] = 0;
            file[8] = 9;
            assert_eq!(refusal(&file), 2);
        }
    }
    for (at, new, number) in [
        (5, 0, 1),
        (5, 17, 1),
        (5, 16, 0),
        (6, 0, 1),
        (7, 16, 1),
        (7, 15, 0),
        (8, 3, 8),
        (9, 1, 8),
        (8, 2, 0),
    ] {
        let mut file = header(8);
        file[at] = new;
        assert_eq!(refusal(&file), number, "byte {} = {}", at, new);
        file.push(0);
        assert_eq!(refusal(&file), 1);
    }
    // MAX 4,094 is taken and 4,095 is not.
    let mut file = header(0);
    file[6] = 0xfe;
    file[7] = 0x0f;
    assert_eq!(refusal(&file), 0);
    file[6] = 0xff;
    assert_eq!(refusal(&file), 1);
}

/// Said again, differently: the number that a damaged file deserves.
fn deserved(file: &[u8]) -> u32 {
    if file.len() < 10 {
        return 1;
    }
    let max = u16::from_le_bytes([file[6], file[7]]);
    let divide = u16::from_le_bytes([file[8], file[9]]);
    let numbers_fit = (1..=16).contains(&file[5]) && (1..=4094).contains(&max);
    let length_fits = (file.len() - 10) & 7 == 0 && file.len() <= 16_394;
    if !file.starts_with(b"PDO\x01\x00") {
        2
    } else if !numbers_fit || !length_fits {
        1
    } else if divide > max {
        8
    } else {
        0
    }
}

#[test]
fn damaged_files() {
    let seed = seed_or(31);
    let mut random = Random::new(seed);
    let mut numbers: BTreeMap<u32, usize> = BTreeMap::new();
    for _ in 0..4000 {
        let file = file(&mut random, Kind::Damaged);
        let number = refusal(&file);
        assert_eq!(number, deserved(&file), "seed {}", seed);
        *numbers.entry(number).or_insert(0) += 1;
    }
    println!("seed {}: 4000 damaged files, refusals {:?}", seed, numbers);
    let seen: Vec<u32> = numbers.keys().copied().collect();
    assert_eq!(seen, [0, 1, 2, 8]);
}

/// What is read is what was written, and every entry has its line.
#[test]
fn files_read_back() {
    let seed = seed_or(32);
    let mut random = Random::new(seed);
    for (kind, name) in KINDS {
        for _ in 0..300 {
            let file = file(&mut random, kind);
            let schedule = match TWIN().schedule_read(&file) {
                Ok(schedule) => schedule,
                Err(_) => {
                    assert_eq!(kind, Kind::Damaged);
                    continue;
                }
            };
            assert_eq!(schedule_write(&schedule), file, "seed {} {}", seed, name);
            let read = listing::read(&TWIN().listing(&file)).expect("a listing");
            assert_eq!(read.lines.len(), schedule.entries.len());
            assert_eq!(read.strip.len(), schedule.max + 2);
        }
    }
}

/// The contended kind keeps its promise about parties and MAX.
#[test]
fn contended_files_are_narrow() {
    let mut random = Random::new(seed_or(33));
    for _ in 0..500 {
        let file = file(&mut random, Kind::Contended);
        assert!((2..=16).contains(&file[5]));
        assert!((1..=4).contains(&file[6]) && file[7] == 0);
    }
}
