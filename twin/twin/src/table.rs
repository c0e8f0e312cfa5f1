//! The same calls on lent records: one lent alone, or the numbered one of a lent
//! table. What the call by value leaves is stored where the record stood.

use crate::answer::*;
use crate::fault::{Fault, Twin};
use crate::record::Record;
use crate::step::After;
use crate::strip::max_fits;
use crate::word::Word;

pub fn count_fits(parties: u64) -> bool {
    (1..=16).contains(&parties)
}

/// What a call on a table is given to find the record by.
struct Named {
    /// As it was handed over, or as the strip's length has it.
    max: u64,
    bad_field: bool,
    party: u64,
}

impl Twin {
    /// 11 for the operation comes before 3 for the party.
    pub fn name_refusal(self, bad_field: bool, party: u64, parties: usize) -> Option<u32> {
        let no_party = party >= parties as u64;
        if self.has(Fault::ElevenAfterThree) && no_party {
            return Some(BAD_PARTY);
        }
        if bad_field {
            return Some(BAD_FIELD);
        }
        if no_party {
            return Some(BAD_PARTY);
        }
        None
    }

    pub fn record_start(self, max: u64, record: &mut Record, operation: u64, v: u32) -> Answer {
        let after = self.start(max, *record, operation, v);
        self.store_alone(record, after)
    }

    pub fn record_withdraw(self, max: u64, record: &mut Record) -> Answer {
        let after = self.withdraw(max, *record);
        self.store_alone(record, after)
    }

    pub fn record_step(self, strip: &mut [Word], record: &mut Record, hint: u64) -> Answer {
        let after = self.step(strip, *record, hint);
        self.store_alone(record, after)
    }

    pub fn table_start(
        self,
        max: u64,
        table: &mut [Record],
        party: u64,
        operation: u64,
        v: u32,
    ) -> Answer {
        let named = Named {
            max,
            bad_field: operation > 3,
            party,
        };
        self.on_named(table, &named, |r| self.start(max, r, operation, v))
    }

    pub fn table_withdraw(self, max: u64, table: &mut [Record], party: u64) -> Answer {
        let named = Named {
            max,
            bad_field: false,
            party,
        };
        self.on_named(table, &named, |r| self.withdraw(max, r))
    }

    pub fn table_step(
        self,
        strip: &mut [Word],
        table: &mut [Record],
        party: u64,
        hint: u64,
    ) -> Answer {
        let named = Named {
            max: strip.len().saturating_sub(2) as u64,
            bad_field: false,
            party,
        };
        self.on_named(table, &named, |r| self.step(strip, r, hint))
    }

    /// The checks that come before the record's own, then the call on it.
    fn on_named<F>(self, table: &mut [Record], named: &Named, call: F) -> Answer
    where
        F: FnOnce(Record) -> After,
    {
        if !max_fits(named.max) || !self.table_fits(table) {
            return Answer::of(BAD_LENGTH);
        }
        let refusal = self.name_refusal(named.bad_field, named.party, table.len());
        if let Some(number) = refusal {
            return Answer::of(number);
        }
        let spoilt = |record: &Record| !record.is_valid(named.max as usize);
        if self.has(Fault::EveryRecordChecked) && table.iter().any(spoilt) {
            return Answer::of(BAD_RECORD);
        }
        let party = named.party as usize;
        let after = call(table[party]);
        let place = if self.has(Fault::FirstRecordStored) {
            0
        } else {
            party
        };
        self.store(&mut table[place], after)
    }

    fn table_fits(self, table: &[Record]) -> bool {
        count_fits(table.len() as u64) || self.has(Fault::AnyTableLength)
    }

    /// A record lent alone has no number, so there is no 3 before this.
    fn store_alone(self, record: &mut Record, after: After) -> Answer {
        let before = *record;
        let answer = self.store(record, after);
        if self.has(Fault::LentRecordKept) {
            *record = before;
        }
        answer
    }

    /// A refusal writes nothing.
    fn store(self, record: &mut Record, after: After) -> Answer {
        let (answer, after) = after;
        if !answer.is_refusal() {
            *record = after;
        }
        if self.has(Fault::PoppedOrderDropped) {
            return Answer::of(answer.number);
        }
        answer
    }
}
