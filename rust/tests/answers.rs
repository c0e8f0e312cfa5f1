//! Document 01's marks M1, M2, M5 and M7 with their answers, hints and words. MAX 2, two parties, divide 1 unless said.
use pds::{numbers, Answer, Image, Operation, Refusal};

fn laid(divide: u32) -> [u8; pds::length(2, 2)] {
    let mut bytes = [0xa5; pds::length(2, 2)];
    assert!(Image::lay(&mut bytes, 2, 2, divide).is_ok());
    bytes
}

fn steps(image: &mut Image, party: u32, hint: u32, answers: &[Answer]) {
    for &answer in answers {
        assert_eq!(image.step(party, hint), Ok(answer));
    }
}

fn push(image: &mut Image, party: u32, operation: Operation, hint: u32) {
    assert_eq!(image.start(party, operation), Ok(()));
    steps(image, party, hint, &[Answer::GoesOn, Answer::GoesOn, Answer::GoesOn, Answer::Pushed]);
}

fn cells(image: &Image) -> Vec<(u32, u64)> {
    image.words().map(|word| (word as u32, word >> 32)).collect()
}

#[test]
fn m1_and_m2_a_right_push_and_full() {
    let mut bytes = laid(1);
    let mut image = Image::lent(&mut bytes);
    assert_eq!(image.hint(Operation::RightPush(7)), 2);
    push(&mut image, 0, Operation::RightPush(7), 2);
    assert_eq!(cells(&image), [(0, 0), (0, 1), (7, 1), (1, 0)]);
    assert_eq!(image.hint(Operation::RightPush(8)), 3);
    assert_eq!(image.start(0, Operation::RightPush(8)), Ok(()));
    steps(&mut image, 0, 3, &[Answer::GoesOn, Answer::Full]);
}

#[test]
fn m5_two_pops_for_one_order() {
    let mut bytes = laid(1);
    let mut image = Image::lent(&mut bytes);
    push(&mut image, 0, Operation::RightPush(7), 2);
    assert_eq!(image.start(0, Operation::RightPop), Ok(()));
    assert_eq!(image.start(1, Operation::LeftPop), Ok(()));
    assert_eq!(image.hint(Operation::LeftPop), 1);
    steps(&mut image, 0, 3, &[Answer::GoesOn; 3]);
    steps(&mut image, 1, 1, &[Answer::GoesOn; 3]);
    steps(&mut image, 0, 3, &[Answer::Popped(7)]);
    steps(&mut image, 1, 1, &[Answer::GoesOn, Answer::GoesOn, Answer::GoesOn, Answer::Empty]);
}

#[test]
fn m7_full_on_one_side_alone() {
    let mut bytes = laid(2);
    let mut image = Image::lent(&mut bytes);
    assert_eq!(image.start(0, Operation::RightPush(7)), Ok(()));
    steps(&mut image, 0, 3, &[Answer::GoesOn, Answer::Full]);
    push(&mut image, 0, Operation::LeftPush(9), 2);
    assert_eq!(image.into_bytes()[8 + 16], 9);
}

#[test]
fn a_withdrawn_operation_took_no_effect() {
    let mut bytes = laid(1);
    let mut image = Image::lent(&mut bytes);
    assert_eq!(image.start(1, Operation::LeftPush(5)), Ok(()));
    assert_eq!(image.withdraw(1), Ok(()));
    assert_eq!(image.step(1, 1), Err(Refusal::Idle));
    assert_eq!(image.as_bytes(), laid(1));
}

/// The same call through numbers and through types.
#[test]
fn numbers_are_packed() {
    let (mut bytes, mut other) = (laid(1), laid(1));
    push(&mut Image::lent(&mut bytes), 0, Operation::LeftPush(9), 1);
    push(&mut Image::lent(&mut other), 0, Operation::LeftPush(9), 1);
    assert_eq!(numbers::start(&mut bytes, 0, Operation::LeftPop.number(), 0), 0);
    assert_eq!(Image::lent(&mut other).start(0, Operation::LeftPop), Ok(()));
    let mut answer = 0;
    while answer == 0 {
        answer = numbers::step(&mut bytes, 0, 0);
        assert_eq!(Image::lent(&mut other).step(0, 0).map(Answer::number), Ok(numbers::number(answer)));
        assert_eq!(bytes, other);
    }
    assert_eq!(answer, 17 + (9 << 32));
    assert_eq!((numbers::number(answer), numbers::order(answer)), (17, 9));
}

/// Bytes without a header have no words, and a header that claims more words than there are has those that are there.
#[test]
fn a_scan_takes_any_bytes() {
    let mut bytes = [255; 40];
    for length in 0..=bytes.len() {
        let image = Image::lent(&mut bytes[..length]);
        assert_eq!(image.words().count(), (length / 8).saturating_sub(1));
        assert_eq!(image.hint(Operation::RightPop), 0);
    }
}
