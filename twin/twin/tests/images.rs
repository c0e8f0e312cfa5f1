//! Random images: the round trip, and calls on bytes against calls on words.
#![forbid(unsafe_code)]
#![deny(warnings)]

use std::collections::BTreeMap;
use twin::generate::image::{any, call, sound, spoilt, Call};
use twin::generate::strip;
use twin::image::length;
use twin::random::{seed_or, Random};
use twin::{Answer, Record, Twin, Word};

const TWIN: fn() -> Twin = Twin::faithful;

fn lent(image: &[u8]) -> (Vec<Word>, Vec<Record>) {
    let words = usize::from(image[6]) + 256 * usize::from(image[7]) + 2;
    (
        vec![u64::MAX; words],
        vec![Record::default(); usize::from(image[5])],
    )
}

#[test]
fn the_round_trip() {
    let seed = seed_or(21);
    let mut random = Random::new(seed);
    let (mut read, mut refused) = (0, 0);
    for _ in 0..20_000 {
        let image = if random.percent(70) {
            sound(&mut random)
        } else {
            spoilt(&mut random)
        };
        let (mut strip, mut table) = lent(&image);
        let before = (strip.clone(), table.clone());
        let answer = TWIN().image_read(&image, &mut strip, &mut table);
        if answer.number != 0 {
            assert_eq!(answer, Answer::of(4));
            assert_eq!((strip, table), before);
            refused += 1;
            continue;
        }
        let mut again = vec![0xee; image.len()];
        assert_eq!(
            TWIN().image_write(&mut again, &strip, &table),
            Answer::of(0)
        );
        assert_eq!(again, image, "seed {}", seed);
        read += 1;
    }
    println!(
        "seed {}: {} images read and written again, {} refused",
        seed, read, refused
    );
    assert!(read > 10_000 && refused > 1000);
}

/// The other way round: from words and records to bytes and back.
#[test]
fn the_round_trip_from_words() {
    let seed = seed_or(22);
    let mut random = Random::new(seed);
    for _ in 0..5000 {
        let max = strip::max(&mut random);
        let words = strip::strip(&mut random, max);
        let parties = random.between(1, 16) as usize;
        let table: Vec<Record> = (0..parties)
            .map(|_| strip::record(&mut random, &words))
            .collect();
        let mut image = vec![0xee; length(parties, max)];
        assert_eq!(
            TWIN().image_write(&mut image, &words, &table),
            Answer::of(0)
        );
        let (mut words_again, mut table_again) = lent(&image);
        assert_eq!(
            TWIN().image_read(&image, &mut words_again, &mut table_again),
            Answer::of(0)
        );
        assert_eq!((words_again, table_again), (words, table), "seed {}", seed);
    }
}

/// The same call through strip and table; only for images that can be read whole.
fn by_table(image: &[u8], call: &Call) -> (Answer, Vec<u8>) {
    let (mut strip, mut table) = lent(image);
    assert_eq!(
        TWIN().image_read(image, &mut strip, &mut table),
        Answer::of(0)
    );
    let max = strip.len() as u64 - 2;
    let answer = match *call {
        Call::Lay { .. } => panic!("laying reads nothing"),
        Call::Start {
            party,
            operation,
            v,
        } => TWIN().table_start(max, &mut table, party.into(), operation.into(), v),
        Call::Step { party, hint } => {
            TWIN().table_step(&mut strip, &mut table, party.into(), hint.into())
        }
        Call::Withdraw { party } => TWIN().table_withdraw(max, &mut table, party.into()),
    };
    let mut after = vec![0; image.len()];
    assert_eq!(
        TWIN().image_write(&mut after, &strip, &table),
        Answer::of(0)
    );
    (answer, after)
}

#[test]
fn calls_on_bytes_are_calls_on_words() {
    let seed = seed_or(23);
    let mut random = Random::new(seed);
    let mut compared = 0;
    for _ in 0..10_000 {
        let mut image = sound(&mut random);
        for _ in 0..5 {
            let call = call(&mut random, &image);
            if let Call::Lay { .. } = call {
                continue;
            }
            let expected = by_table(&image, &call);
            let answer = TWIN().image_call(&mut image, &call);
            assert_eq!(
                (answer, &image),
                (expected.0, &expected.1),
                "seed {} {:?}",
                seed,
                call
            );
            compared += 1;
        }
    }
    println!(
        "seed {}: {} calls on bytes agree with the word form",
        seed, compared
    );
}

/// Every number an image call can give must turn up, and a refusal writes nothing.
#[test]
fn every_number_occurs_and_refusals_write_nothing() {
    let seed = seed_or(24);
    let mut random = Random::new(seed);
    let mut numbers: BTreeMap<u32, usize> = BTreeMap::new();
    for _ in 0..50_000 {
        let mut image = any(&mut random);
        for _ in 0..4 {
            let before = image.clone();
            let call = call(&mut random, &image);
            let answer = TWIN().image_call(&mut image, &call);
            *numbers.entry(answer.number).or_insert(0) += 1;
            if answer.is_refusal() {
                assert_eq!(
                    (answer.carried, &image),
                    (0, &before),
                    "seed {} {:?}",
                    seed,
                    call
                );
            }
        }
    }
    println!("seed {}: 200000 image calls, numbers {:?}", seed, numbers);
    let seen: Vec<u32> = numbers.keys().copied().collect();
    assert_eq!(seen, [0, 1, 2, 3, 4, 5, 6, 7, 8, 9, 11, 16, 17, 18, 19]);
}
