//! The bench marks M1 to M11; MAX 2 and divide 1 unless said.
#![forbid(unsafe_code)]
#![deny(warnings)]

use twin::answer::*;
use twin::record::{LEFT_POP, LEFT_PUSH, RIGHT_POP, RIGHT_PUSH};
use twin::word::{counter, value, word, LAST_COUNTER, LN, RN};
use twin::{Answer, Record, Twin, Word};

const TWIN: fn() -> Twin = Twin::faithful;

fn fresh(divide: u64) -> Vec<Word> {
    let mut strip = vec![9; 4];
    assert_eq!(TWIN().lay(&mut strip, divide), Answer::of(0));
    strip
}

fn cells(strip: &[Word]) -> String {
    let cells: Vec<String> = strip
        .iter()
        .map(|&w| format!("{}.{}", value(w), counter(w)))
        .collect();
    cells.join(" ")
}

fn started(operation: u8, v: u32) -> Record {
    let (answer, record) = TWIN().start(2, Record::default(), u64::from(operation), v);
    assert_eq!(answer, Answer::of(0));
    record
}

/// Steps and gives the answer; the record goes on in place.
fn step(strip: &mut [Word], record: &mut Record, hint: u64) -> Answer {
    let (answer, after) = TWIN().step(strip, *record, hint);
    *record = after;
    answer
}

/// Steps that all go on; gives the stage reached.
fn steps(strip: &mut [Word], record: &mut Record, hint: u64, count: usize) -> u8 {
    for _ in 0..count {
        assert_eq!(step(strip, record, hint), Answer::of(0));
    }
    record.stage
}

/// M1's strip.
fn with_seven() -> Vec<Word> {
    let mut strip = fresh(1);
    let mut push = started(RIGHT_PUSH, 7);
    steps(&mut strip, &mut push, 2, 3);
    assert_eq!(step(&mut strip, &mut push, 2), Answer::of(PUSHED));
    assert_eq!(push, Record::default());
    strip
}

#[test]
fn m1_a_push_alone_takes_four_steps() {
    assert_eq!(cells(&with_seven()), "0.0 0.1 7.1 1.0");
}

#[test]
fn m2_full_at_one_end_though_the_other_has_room() {
    let mut strip = with_seven();
    let mut push = started(RIGHT_PUSH, 8);
    steps(&mut strip, &mut push, 3, 1);
    assert_eq!(step(&mut strip, &mut push, 0), Answer::of(FULL));
    assert_eq!(push, Record::default());
    assert_eq!(TWIN().measure(&strip).left, 1);
    assert_eq!(cells(&strip), "0.0 0.1 7.1 1.0");
}

#[test]
fn m4_push_and_pop_spoil_each_other() {
    let mut strip = fresh(1);
    let mut pop = started(RIGHT_POP, 0);
    steps(&mut strip, &mut pop, 2, 1);
    assert_eq!(pop.first, word(0, LN));
    let mut push = started(RIGHT_PUSH, 7);
    assert_eq!(steps(&mut strip, &mut push, 2, 3), 5);
    assert_eq!(steps(&mut strip, &mut pop, 0, 1), 3);
    assert_eq!(steps(&mut strip, &mut pop, 0, 1), 4);
    assert_eq!(steps(&mut strip, &mut pop, 0, 1), 5);
    assert_eq!(steps(&mut strip, &mut push, 0, 1), 1);
    assert_eq!(steps(&mut strip, &mut pop, 0, 1), 1);
    assert_eq!(push, Record::at_stage_1(RIGHT_PUSH, 7));
    assert_eq!(pop, Record::at_stage_1(RIGHT_POP, 0));
    assert_eq!(cells(&strip), "0.0 0.1 1.1 1.0");
}

#[test]
fn m5_both_ends_want_the_last_order() {
    let mut strip = with_seven();
    let mut right = started(RIGHT_POP, 0);
    let mut left = started(LEFT_POP, 0);
    assert_eq!(steps(&mut strip, &mut right, 3, 3), 5);
    assert_eq!(steps(&mut strip, &mut left, 1, 3), 5);
    assert_eq!(step(&mut strip, &mut right, 0), Answer::popped(7));
    assert_eq!(steps(&mut strip, &mut left, 0, 1), 1);
    assert_eq!(steps(&mut strip, &mut left, 1, 2), 3);
    assert_eq!(step(&mut strip, &mut left, 0), Answer::of(EMPTY));
    assert_eq!(cells(&strip), "0.0 0.2 1.2 1.1");
}

#[test]
fn m6_a_wrong_hint_costs_two_steps_and_no_word() {
    let mut strip = fresh(1);
    let mut push = started(RIGHT_PUSH, 7);
    assert_eq!(steps(&mut strip, &mut push, 3, 2), 1);
    assert_eq!(push, Record::at_stage_1(RIGHT_PUSH, 7));
    assert_eq!(strip, fresh(1));
}

#[test]
fn m7_with_divide_2_the_right_is_full_and_the_left_free() {
    let mut strip = fresh(2);
    let mut right = started(RIGHT_PUSH, 7);
    steps(&mut strip, &mut right, 3, 1);
    assert_eq!(step(&mut strip, &mut right, 0), Answer::of(FULL));
    let mut left = started(LEFT_PUSH, 9);
    steps(&mut strip, &mut left, 2, 3);
    assert_eq!(step(&mut strip, &mut left, 0), Answer::of(PUSHED));
    assert_eq!(cells(&strip), "0.0 0.0 9.1 1.1");
}

#[test]
fn m8_hints_in_and_out_of_range() {
    let cases = [
        (RIGHT_PUSH, 0, 8),
        (RIGHT_PUSH, 3, 0),
        (LEFT_PUSH, 2, 0),
        (LEFT_PUSH, 3, 8),
    ];
    for (operation, hint, number) in cases {
        let mut strip = fresh(1);
        let mut push = started(operation, 7);
        assert_eq!(step(&mut strip, &mut push, hint), Answer::of(number));
        assert_eq!(push.stage, if number == 0 { 2 } else { 1 });
    }
}

#[test]
fn m9_order_2_is_refused_and_3_starts() {
    let idle = Record::default();
    assert_eq!(TWIN().start(2, idle, 0, 2), (Answer::of(7), idle));
    assert_eq!(TWIN().start(2, idle, 0, 3).0, Answer::of(0));
}

#[test]
fn m10_a_counter_at_its_end() {
    for (old, number, new) in [
        (LAST_COUNTER - 1, 0, LAST_COUNTER),
        (LAST_COUNTER, 9, LAST_COUNTER),
    ] {
        let mut strip = vec![word(0, LN), word(old, LN), word(0, RN), word(0, RN)];
        let mut push = started(RIGHT_PUSH, 7);
        assert_eq!(steps(&mut strip, &mut push, 2, 2), 4);
        let before = push;
        assert_eq!(step(&mut strip, &mut push, 0), Answer::of(number));
        assert_eq!(strip[1], word(new, LN));
        if number == 9 {
            assert_eq!(push, before);
        }
    }
}

#[test]
fn m11_lengths_of_a_strip() {
    for (words, number) in [(2, 1), (3, 0), (4096, 0), (4097, 1)] {
        let mut strip = vec![word(0, LN); words];
        assert_eq!(TWIN().lay(&mut strip, 1).number, number);
        assert_eq!(TWIN().find_right(&strip).number, number);
        assert_eq!(TWIN().find_left(&strip).number, number);
        assert_eq!(TWIN().measure(&strip).number, number);
        let busy = Record::at_stage_1(RIGHT_POP, 0);
        assert_eq!(TWIN().step(&mut strip, busy, 1).0.number, number);
        let mut table = vec![busy];
        assert_eq!(
            TWIN().table_step(&mut strip, &mut table, 0, 1).number,
            number
        );
    }
}
