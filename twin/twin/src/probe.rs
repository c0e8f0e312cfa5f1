//! The text door: one command a line, one line of answer each.
//!
//! Commands and answers are written down at the top of src/bin/twin-probe.rs.

use crate::answer::Answer;
use crate::bytes::{from_hex, to_hex};
use crate::fault::Twin;
use crate::record::Record;
use crate::step::After;
use crate::word::Word;

/// One more than a strip and a table may have: no more is lent.
pub const MOST_WORDS: u64 = 4097;
pub const MOST_PARTIES: u64 = 17;

/// The fields of a line that are not read yet.
struct Fields<'a> {
    rest: Vec<&'a str>,
}

impl<'a> Fields<'a> {
    fn new(line: &'a str) -> Fields<'a> {
        let mut rest: Vec<&str> = line.split_whitespace().collect();
        rest.reverse();
        Fields { rest }
    }

    fn text(&mut self) -> Option<&'a str> {
        self.rest.pop()
    }

    fn number<T: std::str::FromStr>(&mut self) -> Option<T> {
        self.text()?.parse().ok()
    }

    fn record(&mut self) -> Option<Record> {
        Some(Record {
            operation: self.number()?,
            stage: self.number()?,
            k: self.number()?,
            v: self.number()?,
            first: self.number()?,
            second: self.number()?,
        })
    }

    /// Records after their count.
    fn table(&mut self) -> Option<Vec<Record>> {
        let parties: u64 = self.number()?;
        if parties > MOST_PARTIES {
            return None;
        }
        (0..parties).map(|_| self.record()).collect()
    }

    fn words(&mut self) -> Option<Vec<Word>> {
        let mut words = Vec::new();
        while !self.rest.is_empty() {
            words.push(self.number()?);
        }
        Some(words)
    }

    fn hex(&mut self) -> Option<Vec<u8>> {
        from_hex(self.text()?)
    }

    /// Nothing may follow a command that is read.
    fn end(&self) -> Option<()> {
        if self.rest.is_empty() {
            Some(())
        } else {
            None
        }
    }
}

pub fn join_words(words: &[Word]) -> String {
    words.iter().map(|word| format!(" {}", word)).collect()
}

pub fn join_record(r: &Record) -> String {
    format!(
        " {} {} {} {} {} {}",
        r.operation, r.stage, r.k, r.v, r.first, r.second
    )
}

pub fn join_table(table: &[Record]) -> String {
    table.iter().map(join_record).collect()
}

fn join_answer(answer: Answer, table: &[Record]) -> String {
    let records = join_table(table);
    format!("{} {}{}", answer.number, answer.carried, records)
}

fn join_image(answer: Answer, image: &[u8]) -> String {
    format!("{} {}", answer.packed(), to_hex(image))
}

type Start = fn(Twin, u64, Record, u64, u32) -> After;
type Withdraw = fn(Twin, u64, Record) -> After;
type Step = fn(Twin, &mut [Word], Record, u64) -> After;

// A record lent alone, in the form of the call by value: their lines are alike.

fn start_lent(twin: Twin, max: u64, mut record: Record, operation: u64, v: u32) -> After {
    let answer = twin.record_start(max, &mut record, operation, v);
    (answer, record)
}

fn withdraw_lent(twin: Twin, max: u64, mut record: Record) -> After {
    let answer = twin.record_withdraw(max, &mut record);
    (answer, record)
}

fn step_lent(twin: Twin, strip: &mut [Word], mut record: Record, hint: u64) -> After {
    let answer = twin.record_step(strip, &mut record, hint);
    (answer, record)
}

impl Twin {
    /// The answer to one line, without its newline.
    pub fn probe(self, line: &str) -> String {
        self.probe_fields(&mut Fields::new(line))
            .unwrap_or_else(|| "?".to_string())
    }

    fn probe_fields(self, fields: &mut Fields) -> Option<String> {
        match fields.text()? {
            "lay" => self.probe_lay(fields),
            "find" => self.probe_find(fields),
            "measure" => self.probe_measure(fields),
            "start" => self.probe_start(fields, Twin::start),
            "withdraw" => self.probe_withdraw(fields, Twin::withdraw),
            "step" => self.probe_step(fields, Twin::step),
            "start-record" => self.probe_start(fields, start_lent),
            "withdraw-record" => self.probe_withdraw(fields, withdraw_lent),
            "step-record" => self.probe_step(fields, step_lent),
            "start-in" => self.probe_start_in(fields),
            "withdraw-in" => self.probe_withdraw_in(fields),
            "step-in" => self.probe_step_in(fields),
            "read" => self.probe_read(fields),
            "write" => self.probe_write(fields),
            "image-lay" => self.probe_image_lay(fields),
            "image-start" => self.probe_image_start(fields),
            "image-step" => self.probe_image_step(fields),
            "image-withdraw" => self.probe_image_withdraw(fields),
            _ => None,
        }
    }

    fn probe_lay(self, fields: &mut Fields) -> Option<String> {
        let divide = fields.number()?;
        let mut strip = fields.words()?;
        let answer = self.lay(&mut strip, divide);
        Some(format!("{}{}", answer.number, join_words(&strip)))
    }

    fn probe_find(self, fields: &mut Fields) -> Option<String> {
        let side = fields.text()?;
        let strip = fields.words()?;
        let found = match side {
            "right" => self.find_right(&strip),
            "left" => self.find_left(&strip),
            _ => return None,
        };
        Some(format!("{} {}", found.number, found.place))
    }

    fn probe_measure(self, fields: &mut Fields) -> Option<String> {
        let strip = fields.words()?;
        let m = self.measure(&strip);
        Some(format!("{} {} {} {}", m.number, m.left, m.orders, m.right))
    }

    fn probe_start(self, fields: &mut Fields, call: Start) -> Option<String> {
        let max = fields.number()?;
        let record = fields.record()?;
        let operation = fields.number()?;
        let order = fields.number()?;
        fields.end()?;
        let (answer, after) = call(self, max, record, operation, order);
        Some(join_answer(answer, &[after]))
    }

    fn probe_withdraw(self, fields: &mut Fields, call: Withdraw) -> Option<String> {
        let max = fields.number()?;
        let record = fields.record()?;
        fields.end()?;
        let (answer, after) = call(self, max, record);
        Some(join_answer(answer, &[after]))
    }

    fn probe_step(self, fields: &mut Fields, call: Step) -> Option<String> {
        let hint = fields.number()?;
        let record = fields.record()?;
        let mut strip = fields.words()?;
        let (answer, after) = call(self, &mut strip, record, hint);
        Some(join_answer(answer, &[after]) + &join_words(&strip))
    }

    fn probe_start_in(self, fields: &mut Fields) -> Option<String> {
        let max = fields.number()?;
        let party = fields.number()?;
        let operation = fields.number()?;
        let order = fields.number()?;
        let mut table = fields.table()?;
        fields.end()?;
        let answer = self.table_start(max, &mut table, party, operation, order);
        Some(join_answer(answer, &table))
    }

    fn probe_withdraw_in(self, fields: &mut Fields) -> Option<String> {
        let max = fields.number()?;
        let party = fields.number()?;
        let mut table = fields.table()?;
        fields.end()?;
        let answer = self.table_withdraw(max, &mut table, party);
        Some(join_answer(answer, &table))
    }

    fn probe_step_in(self, fields: &mut Fields) -> Option<String> {
        let party = fields.number()?;
        let hint = fields.number()?;
        let mut table = fields.table()?;
        let mut strip = fields.words()?;
        let answer = self.table_step(&mut strip, &mut table, party, hint);
        Some(join_answer(answer, &table) + &join_words(&strip))
    }

    fn probe_read(self, fields: &mut Fields) -> Option<String> {
        let words: u64 = fields.number()?;
        let parties: u64 = fields.number()?;
        let image = fields.hex()?;
        fields.end()?;
        if words > MOST_WORDS || parties > MOST_PARTIES {
            return None;
        }
        let mut strip = vec![0; words as usize];
        let mut table = vec![Record::default(); parties as usize];
        let answer = self.image_read(&image, &mut strip, &mut table);
        let words = join_words(&strip);
        Some(format!("{}{}{}", answer.number, words, join_table(&table)))
    }

    fn probe_write(self, fields: &mut Fields) -> Option<String> {
        let words: u64 = fields.number()?;
        let strip: Option<Vec<Word>> = (0..words).map(|_| fields.number()).collect();
        let table = fields.table()?;
        let mut image = fields.hex()?;
        fields.end()?;
        if words > MOST_WORDS {
            return None;
        }
        let answer = self.image_write(&mut image, &strip?, &table);
        Some(format!("{} {}", answer.number, to_hex(&image)))
    }

    fn probe_image_lay(self, fields: &mut Fields) -> Option<String> {
        let parties = fields.number()?;
        let max = fields.number()?;
        let divide = fields.number()?;
        let mut image = fields.hex()?;
        fields.end()?;
        let answer = self.image_lay(&mut image, parties, max, divide);
        Some(join_image(answer, &image))
    }

    fn probe_image_start(self, fields: &mut Fields) -> Option<String> {
        let party = fields.number()?;
        let operation = fields.number()?;
        let order = fields.number()?;
        let mut image = fields.hex()?;
        fields.end()?;
        let answer = self.image_start(&mut image, party, operation, order);
        Some(join_image(answer, &image))
    }

    fn probe_image_step(self, fields: &mut Fields) -> Option<String> {
        let party = fields.number()?;
        let hint = fields.number()?;
        let mut image = fields.hex()?;
        fields.end()?;
        let answer = self.image_step(&mut image, party, hint);
        Some(join_image(answer, &image))
    }

    fn probe_image_withdraw(self, fields: &mut Fields) -> Option<String> {
        let party = fields.number()?;
        let mut image = fields.hex()?;
        fields.end()?;
        let answer = self.image_withdraw(&mut image, party);
        Some(join_image(answer, &image))
    }
}
