//! Random lines for the probe: the calls on lent records.

use crate::generate::probe::{any_max, any_record, any_strip};
use crate::generate::strip;
use crate::probe::{join_record, join_table, join_words};
use crate::random::Random;
use crate::record::Record;
use crate::word::Word;

/// A start, a withdrawal or mostly a step, of a record lent alone or in a table.
pub fn table_line(random: &mut Random) -> String {
    let words = any_strip(random);
    let alone = random.percent(30);
    match random.below(8) {
        0 | 1 => start_line(random, &words, alone),
        2 => withdraw_line(random, &words, alone),
        _ => step_line(random, &words, alone),
    }
}

fn start_line(random: &mut Random, words: &[Word], alone: bool) -> String {
    let max = lent_max(random, words);
    let operation = random.pick(&[0, 1, 2, 3, 0, 1, 2, 3, 4, 255, 256]);
    let operation = maybe_wide(random, operation);
    let order = match random.below(3) {
        0 => strip::any_order(random),
        1 => 0,
        _ => random.below(4) as u32,
    };
    let record = if random.percent(50) {
        Record::default()
    } else {
        any_record(random, words)
    };
    if alone {
        let record = join_record(&record);
        return format!("start-record {}{} {} {}", max, record, operation, order);
    }
    let (party, table) = in_table(random, words, record);
    format!(
        "start-in {} {} {} {}{}",
        max, party, operation, order, table
    )
}

fn withdraw_line(random: &mut Random, words: &[Word], alone: bool) -> String {
    let max = lent_max(random, words);
    let record = any_record(random, words);
    if alone {
        return format!("withdraw-record {}{}", max, join_record(&record));
    }
    let (party, table) = in_table(random, words, record);
    format!("withdraw-in {} {}{}", max, party, table)
}

fn step_line(random: &mut Random, words: &[Word], alone: bool) -> String {
    let hint = strip::any_hint(random, words.len().saturating_sub(2));
    let hint = maybe_wide(random, hint.into());
    let record = if words.len() >= 3 && random.percent(40) {
        strip::winning_record(random, words)
    } else {
        any_record(random, words)
    };
    let words_after = join_words(words);
    if alone {
        return format!(
            "step-record {}{}{}",
            hint,
            join_record(&record),
            words_after
        );
    }
    let (party, table) = in_table(random, words, record);
    format!("step-in {} {}{}{}", party, hint, table, words_after)
}

/// Mostly the number itself, otherwise one that is it only after narrowing.
fn maybe_wide(random: &mut Random, number: u64) -> u64 {
    match random.below(16) {
        0 => number + 4_294_967_296 * random.between(1, 4_294_967_295),
        _ => number,
    }
}

fn lent_max(random: &mut Random, words: &[Word]) -> u64 {
    let max = any_max(random, words.len().saturating_sub(2));
    maybe_wide(random, max)
}

/// A table in which the record is mostly the party's; its text begins with the
/// count.
fn in_table(random: &mut Random, words: &[Word], record: Record) -> (u64, String) {
    let parties = match random.below(16) {
        0 => 0,
        1 => 17,
        2 => 16,
        3 | 4 => 1,
        _ => random.between(2, 6),
    };
    let mut table: Vec<Record> = (0..parties).map(|_| other(random, words)).collect();
    let inside = random.below(parties.max(1));
    if let Some(named) = table.get_mut(inside as usize) {
        *named = record;
    }
    let party = match random.below(12) {
        0 => parties,
        1 => inside + random.pick(&[16, 17, 256, 65_536]),
        _ => inside,
    };
    let text = format!(" {}{}", parties, join_table(&table));
    (maybe_wide(random, party), text)
}

/// Only the named record is looked at: another may be anything.
fn other(random: &mut Random, words: &[Word]) -> Record {
    if random.percent(70) {
        return any_record(random, words);
    }
    Record {
        operation: random.next() as u8,
        stage: random.next() as u8,
        k: random.next() as u16,
        v: random.next() as u32,
        first: random.next(),
        second: random.next(),
    }
}
