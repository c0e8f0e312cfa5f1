//! Each refusal that an image call can answer, with its number and nothing changed, through the types and as numbers.
use pds::{numbers, Image, Operation, Refusal};

const MAX: u32 = 2;
const PARTIES: u32 = 2;
const RECORD: usize = 8 + 8 * 4;

fn laid() -> [u8; pds::length(MAX, PARTIES)] {
    let mut bytes = [0xa5; pds::length(MAX, PARTIES)];
    assert!(Image::lay(&mut bytes, MAX, PARTIES, 1).is_ok());
    bytes
}

/// A call is refused so, and leaves the bytes as they were.
fn refused(bytes: &[u8], call: impl Fn(&mut Image) -> Option<Refusal>, refusal: Refusal, number: u32) {
    let mut lent = bytes.to_vec();
    assert_eq!(call(&mut Image::lent(&mut lent)), Some(refusal));
    assert_eq!(refusal.number(), number);
    assert_eq!(lent, bytes);
}

fn step(image: &mut Image) -> Option<Refusal> {
    image.step(0, 2).err()
}

#[test]
fn wrong_size_1() {
    refused(&[0; 7], step, Refusal::WrongSize, 1);
    let mut bytes = laid();
    bytes[5] = 17;
    refused(&bytes, step, Refusal::WrongSize, 1);
    for (max, parties) in [(0, 2), (4095, 2), (2, 0), (2, 17), (3, 2), (u32::MAX, u32::MAX)] {
        assert_eq!(Image::lay(&mut bytes, max, parties, 0).err(), Some(Refusal::WrongSize));
    }
}

#[test]
fn wrong_mark_2() {
    refused(&[0; 8], step, Refusal::WrongMark, 2);
    let mut bytes = laid();
    bytes[3] = 2;
    refused(&bytes, step, Refusal::WrongMark, 2);
}

#[test]
fn wrong_party_3() {
    refused(&laid(), |image| image.withdraw(PARTIES).err(), Refusal::WrongParty, 3);
    refused(&laid(), |image| image.step(256, 2).err(), Refusal::WrongParty, 3);
}

#[test]
fn not_valid_4() {
    let mut bytes = laid();
    bytes[RECORD + 24] = 1;
    refused(&bytes, step, Refusal::NotValid, 4);
}

#[test]
fn busy_5() {
    let mut bytes = laid();
    assert_eq!(Image::lent(&mut bytes).start(0, Operation::LeftPop), Ok(()));
    refused(&bytes, |image| image.start(0, Operation::RightPush(2)).err(), Refusal::Busy, 5);
}

#[test]
fn idle_6() {
    refused(&laid(), step, Refusal::Idle, 6);
    refused(&laid(), |image| image.withdraw(1).err(), Refusal::Idle, 6);
}

#[test]
fn wrong_order_7() {
    for order in 0..pds::LEAST_ORDER {
        refused(&laid(), |image| image.start(0, Operation::LeftPush(order)).err(), Refusal::WrongOrder, 7);
    }
    assert_eq!(numbers::start(&mut laid(), 0, Operation::RightPop.number(), 7), 7);
}

#[test]
fn outside_8() {
    let mut bytes = laid();
    assert_eq!(Image::lay(&mut bytes, MAX, PARTIES, MAX + 1).err(), Some(Refusal::Outside));
    assert_eq!(bytes, laid());
    assert_eq!(Image::lent(&mut bytes).start(0, Operation::RightPush(7)), Ok(()));
    refused(&bytes, |image| image.step(0, 0).err(), Refusal::Outside, 8);
    refused(&bytes, |image| image.step(0, 65536 + 2).err(), Refusal::Outside, 8);
}

#[test]
fn counter_at_end_9() {
    let mut bytes = laid();
    bytes[20..24].fill(255);
    let mut image = Image::lent(&mut bytes);
    assert_eq!(image.start(0, Operation::RightPush(7)), Ok(()));
    assert!(image.step(0, 2).is_ok() && image.step(0, 2).is_ok());
    refused(&bytes, step, Refusal::CounterAtEnd, 9);
}

/// The types have no operation above 3, so 11 is a matter of numbers.
#[test]
fn wrong_operation_11() {
    let mut bytes = laid();
    assert_eq!(numbers::start(&mut bytes, 2, 4, 7), 11);
    assert_eq!(Refusal::WrongOperation.number(), 11);
    assert_eq!(bytes, laid());
}

#[test]
fn a_refusal_says_its_number() {
    assert_eq!(Refusal::Idle.to_string(), "refused 6: step or withdraw on an idle record");
}
