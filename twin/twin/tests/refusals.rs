//! The order of the checks, call by call.
#![forbid(unsafe_code)]
#![deny(warnings)]

use twin::image::length;
use twin::word::{word, LN, RN};
use twin::{Answer, Record, Twin};

const TWIN: fn() -> Twin = Twin::faithful;

/// MAX 2, two parties, party 1 busy in stage 1 with a right push of 7.
fn image() -> Vec<u8> {
    let mut image = vec![0xee; length(2, 2)];
    assert_eq!(TWIN().image_lay(&mut image, 2, 2, 1), Answer::of(0));
    assert_eq!(TWIN().image_start(&mut image, 1, 0, 7), Answer::of(0));
    image
}

#[test]
fn the_bytes_of_an_image() {
    let image = image();
    assert_eq!(image.len(), 8 + 8 * 4 + 32 * 2);
    assert_eq!(&image[0..8], b"PDS\x01\x00\x02\x02\x00");
    assert_eq!(&image[8..24], &[0; 16]);
    assert_eq!(
        &image[24..40],
        &[1, 0, 0, 0, 0, 0, 0, 0, 1, 0, 0, 0, 0, 0, 0, 0]
    );
    assert_eq!(&image[40..72], &[0; 32]);
    assert_eq!(&image[72..80], &[0, 1, 0, 0, 7, 0, 0, 0]);
    assert_eq!(length(1, 1), 64);
}

/// Plays all three calls that read an image, on a copy each.
fn numbers(image: &[u8], party: u64, operation: u64, v: u32, hint: u64) -> [u32; 3] {
    let mut copies = [image.to_vec(), image.to_vec(), image.to_vec()];
    let numbers = [
        TWIN()
            .image_start(&mut copies[0], party, operation, v)
            .number,
        TWIN().image_step(&mut copies[1], party, hint).number,
        TWIN().image_withdraw(&mut copies[2], party).number,
    ];
    for (copy, number) in copies.iter().zip(numbers) {
        assert!(number == 0 || copy == image, "a refusal wrote");
    }
    numbers
}

#[test]
fn mark_and_length() {
    for bytes in 0..64 {
        let expected = if bytes < 8 { 1 } else { 2 };
        assert_eq!(numbers(&vec![0; bytes], 99, 99, 0, 99), [expected; 3]);
    }
    let mut sound = image();
    for (at, new) in [(0, 0), (1, 0), (2, b'O'), (3, 2), (4, 1)] {
        let old = std::mem::replace(&mut sound[at], new);
        sound.push(0);
        assert_eq!(numbers(&sound, 99, 99, 0, 99), [2; 3]);
        sound.pop();
        sound[at] = old;
    }
    for (at, new) in [(5, 0), (5, 17), (5, 3), (6, 0), (6, 3), (7, 16)] {
        let old = std::mem::replace(&mut sound[at], new);
        assert_eq!(numbers(&sound, 99, 99, 0, 99), [1; 3]);
        sound[at] = old;
    }
    sound.push(0);
    assert_eq!(numbers(&sound, 99, 99, 0, 99), [1; 3]);
}

#[test]
fn operation_party_record_and_the_rest() {
    let sound = image();
    assert_eq!(numbers(&sound, 2, 4, 0, 0), [11, 3, 3]);
    assert_eq!(numbers(&sound, 2, 256, 0, 0), [11, 3, 3]);
    assert_eq!(numbers(&sound, 256, 0, 0, 0), [3, 3, 3]);
    assert_eq!(numbers(&sound, 0, 0, 2, 0), [7, 6, 6]);
    assert_eq!(numbers(&sound, 0, 1, 3, 0), [7, 6, 6]);
    assert_eq!(numbers(&sound, 1, 0, 2, 0), [5, 8, 0]);
    assert_eq!(numbers(&sound, 1, 0, 2, 65_537), [5, 8, 0]);
    assert_eq!(numbers(&sound, 1, 0, 2, 1), [5, 0, 0]);
}

#[test]
fn a_record_that_is_not_valid_is_4_and_the_other_is_not_looked_at() {
    for at in 72..104 {
        let mut spoilt = image();
        spoilt[at] ^= 0x80;
        let expected = if (76..80).contains(&at) { 0 } else { 4 };
        assert_eq!(numbers(&spoilt, 1, 0, 2, 1)[1], expected, "byte {}", at);
        assert_eq!(numbers(&spoilt, 0, 0, 3, 1), [0, 6, 6]);
        let (mut strip, mut table) = ([0; 4], [Record::default(); 2]);
        assert_eq!(
            TWIN().image_read(&spoilt, &mut strip, &mut table).number,
            expected
        );
    }
    // An idle record that is not all zero is 4 and not 6.
    let mut spoilt = image();
    spoilt[40] = 1;
    assert_eq!(numbers(&spoilt, 0, 0, 2, 99), [4, 4, 4]);
}

#[test]
fn laying_looks_at_the_length_and_never_at_a_byte() {
    for (parties, max, divide, number) in [
        (2, 2, 0, 0),
        (2, 2, 2, 0),
        (2, 2, 3, 8),
        (2, 2, 65_536, 8),
        (2, 3, 9, 1),
        (0, 2, 9, 1),
        (17, 2, 9, 1),
        (65_538, 2, 0, 1),
        (2, 65_538, 0, 1),
    ] {
        let mut image = vec![0x55; length(2, 2)];
        assert_eq!(
            TWIN().image_lay(&mut image, parties, max, divide),
            Answer::of(number)
        );
        assert_eq!(image[9] == 0x55, number != 0);
    }
}

#[test]
fn reading_and_writing_whole() {
    let sound = image();
    let (mut strip, mut table) = (vec![7; 4], vec![Record::default(); 2]);
    let answer = TWIN().image_read(&sound, &mut strip, &mut table);
    assert_eq!(answer, Answer::of(0));
    assert_eq!(table[1], Record::at_stage_1(0, 7));
    let mut bytes = vec![0x55; sound.len()];
    table[0].stage = 6;
    let answer = TWIN().image_write(&mut bytes, &strip, &table);
    assert_eq!(answer, Answer::of(4));
    assert!(bytes.iter().all(|&b| b == 0x55));
    table[0] = Record::default();
    let answer = TWIN().image_write(&mut bytes, &strip, &table);
    assert_eq!(answer, Answer::of(0));
    assert_eq!(bytes, sound);
    // A bad length of the lent strip is seen before the mark.
    for (words, number) in [(2, 1), (3, 2)] {
        let answer = TWIN().image_read(&[0; 64], &mut vec![0; words], &mut table);
        assert_eq!(answer, Answer::of(number));
    }
}

#[test]
fn lengths_that_do_not_agree() {
    let sound = image();
    for (words, parties) in [
        (3, 2),
        (5, 2),
        (4, 1),
        (4, 3),
        (4, 17),
        (4, 0),
        (2, 2),
        (4097, 2),
    ] {
        let mut strip = vec![7; words];
        let mut table = vec![Record::at_stage_1(1, 0); parties];
        let answer = TWIN().image_read(&sound, &mut strip, &mut table);
        assert_eq!(answer, Answer::of(1));
        assert!(strip.iter().all(|&w| w == 7));
        let mut bytes = vec![0x55; sound.len()];
        let answer = TWIN().image_write(&mut bytes, &strip, &table);
        assert_eq!(answer, Answer::of(1));
        assert!(bytes.iter().all(|&b| b == 0x55));
    }
}

#[test]
fn tables() {
    let busy = Record::at_stage_1(1, 0);
    for (parties, party, operation, number) in [
        (0, 0, 9, 1),
        (17, 0, 9, 1),
        (16, 16, 9, 11),
        (16, 16, 1, 3),
        (16, 15, 1, 5),
    ] {
        let mut table = vec![busy; parties];
        assert_eq!(
            TWIN()
                .table_start(2, &mut table, party, operation, 0)
                .number,
            number
        );
        assert_eq!(table, vec![busy; parties]);
    }
    let mut table = vec![busy; 3];
    assert_eq!(TWIN().table_withdraw(0, &mut table, 3).number, 1);
    assert_eq!(TWIN().table_withdraw(4095, &mut table, 3).number, 1);
    assert_eq!(TWIN().table_withdraw(4094, &mut table, 3).number, 3);
    assert_eq!(TWIN().table_withdraw(4094, &mut table, 1).number, 0);
    assert_eq!(table, vec![busy, Record::default(), busy]);
}

/// Only a swap that would win can be 9, and 9 leaves all as it was.
#[test]
fn nine_only_where_the_whole_word_equals() {
    let last = u32::MAX;
    let cells = [word(0, LN), word(last, 5), word(last, RN)];
    let pop = Record {
        operation: 1,
        stage: 4,
        k: 2,
        v: 0,
        first: cells[1],
        second: cells[2],
    };
    let mut strip = cells;
    assert_eq!(TWIN().step(&mut strip, pop, 0), (Answer::of(9), pop));
    let other = Record {
        second: word(last - 1, RN),
        ..pop
    };
    assert_eq!(
        TWIN().step(&mut strip, other, 0).1,
        Record::at_stage_1(1, 0)
    );
    let end = Record { stage: 5, ..pop };
    assert_eq!(TWIN().step(&mut strip, end, 0), (Answer::of(9), end));
    assert_eq!(strip, cells);
}

/// Records no run can reach are stepped to the letter: a pop may take 0, 1 or 2.
#[test]
fn unreachable_records_are_stepped_too() {
    for taken in 0..3 {
        let mut strip = [word(0, LN), word(0, taken), word(0, RN)];
        let pop = Record {
            operation: 1,
            stage: 5,
            k: 2,
            v: 0,
            first: word(0, taken),
            second: 8,
        };
        let (answer, after) = TWIN().step(&mut strip, pop, 0);
        assert_eq!((answer, after), (Answer::popped(taken), Record::default()));
        assert_eq!(strip[1], word(1, RN));
    }
}

#[test]
fn measure_of_strips_shaped_and_not() {
    let strip = [word(3, LN), word(1, 5), word(0, RN), word(9, RN)];
    let m = TWIN().measure(&strip);
    assert_eq!((m.number, m.left, m.orders, m.right), (0, 0, 1, 1));
    for cells in [
        [0, 0, 0],
        [1, 1, 1],
        [0, 2, 1],
        [1, 5, 0],
        [0, 1, 0],
        [5, 1, 1],
        [0, 5, 5],
    ] {
        let m = TWIN().measure(&cells);
        let measured = (m.number, m.left, m.orders, m.right);
        assert_eq!(measured, (12, 0, 0, 0), "{:?}", cells);
    }
}

#[test]
fn find_from_both_sides() {
    for (cells, right, left) in [
        ([0, 5, 1], (0, 2), (0, 0)),
        ([0, 0, 0], (10, 0), (10, 0)),
        ([1, 1, 1], (10, 0), (10, 0)),
        ([1, 5, 0], (10, 0), (10, 0)),
        ([0, 2, 1], (0, 2), (0, 0)),
        ([0, 1, 0], (0, 1), (0, 0)),
        ([1, 0, 1], (0, 2), (0, 1)),
    ] {
        let (r, l) = (TWIN().find_right(&cells), TWIN().find_left(&cells));
        assert_eq!((r.number, r.place), right, "{:?}", cells);
        assert_eq!((l.number, l.place), left, "{:?}", cells);
    }
}
