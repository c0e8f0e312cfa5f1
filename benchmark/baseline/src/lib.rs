//! The four calls on an image as an ordinary careful Rust programmer writes them: safe, in place, every check of document 01
//! in its order. The proved library is measured against this, and compared with it call by call.
#![deny(warnings)]
#![deny(unsafe_op_in_unsafe_fn)]

pub mod answer;
pub mod c;
mod image;
mod record;

use answer::refusal;
pub use answer::Answer;
use image::{sizes_fit, Image};
use record::{order_fits, value, Record};

pub fn lay(bytes: &mut [u8], max: u32, parties: u32, divide: u32) -> Answer {
    if !sizes_fit(bytes.len(), max, parties) {
        return Answer::Refused(refusal::SIZE);
    }
    if divide > max {
        return Answer::Refused(refusal::OUTSIDE);
    }
    Image::lay(bytes, max as u16, parties as u8, divide as u16);
    Answer::GoesOn
}

pub fn start(bytes: &mut [u8], party: u32, operation: u32, order: u32) -> Answer {
    try_start(bytes, party, operation, order).into()
}

pub fn step(bytes: &mut [u8], party: u32, hint: u32) -> Answer {
    try_step(bytes, party, hint).into()
}

pub fn withdraw(bytes: &mut [u8], party: u32) -> Answer {
    try_withdraw(bytes, party).into()
}

fn try_start(bytes: &mut [u8], party: u32, operation: u32, order: u32) -> Result<Answer, u32> {
    let mut image = Image::open(bytes)?;
    if operation > 3 {
        return Err(refusal::OPERATION);
    }
    let operation = operation as u8;
    let at = image.record_at(party)?;
    if image.record(at)?.stage != 0 {
        return Err(refusal::BUSY);
    }
    if !order_fits(operation, order) {
        return Err(refusal::ORDER);
    }
    image.set_record(at, Record::begun(operation, order));
    Ok(Answer::GoesOn)
}

fn try_withdraw(bytes: &mut [u8], party: u32) -> Result<Answer, u32> {
    let mut image = Image::open(bytes)?;
    let at = image.record_at(party)?;
    if image.record(at)?.stage == 0 {
        return Err(refusal::IDLE);
    }
    image.set_record(at, Record::default());
    Ok(Answer::GoesOn)
}

fn try_step(bytes: &mut [u8], party: u32, hint: u32) -> Result<Answer, u32> {
    let mut image = Image::open(bytes)?;
    let at = image.record_at(party)?;
    let mut record = image.record(at)?;
    let answer = match record.stage {
        0 => return Err(refusal::IDLE),
        1 => aim(&image, &mut record, hint)?,
        2 => judge(&image, &mut record),
        3 => recheck(&image, &mut record),
        4 => claim(&mut image, &mut record)?,
        _ => finish(&mut image, &mut record)?,
    };
    image.set_record(at, record);
    Ok(answer)
}

/// Stage 1: takes the hint and reads the neighbour.
fn aim(image: &Image, record: &mut Record, hint: u32) -> Result<Answer, u32> {
    if !record.in_range(image.max, hint) {
        return Err(refusal::OUTSIDE);
    }
    record.k = hint as u16;
    record.first = image.word(record.neighbour());
    record.stage = 2;
    Ok(Answer::GoesOn)
}

/// Stage 2: reads k and judges both words.
fn judge(image: &Image, record: &mut Record) -> Answer {
    record.second = image.word(usize::from(record.k));
    let own = record.own_null();
    if value(record.first) == own || value(record.second) != own {
        return again(record);
    }
    if record.is_push() && record.at_wall(image.max) {
        return end(record, Answer::Full);
    }
    let may_be_empty = !record.is_push() && value(record.first) == record.far_null();
    record.stage = if may_be_empty { 3 } else { 4 };
    Answer::GoesOn
}

/// Stage 3: reads the neighbour again.
fn recheck(image: &Image, record: &mut Record) -> Answer {
    if image.word(record.neighbour()) == record.first {
        return end(record, Answer::Empty);
    }
    record.stage = 4;
    Answer::GoesOn
}

/// Stage 4: the swap that raises a counter and no value.
fn claim(image: &mut Image, record: &mut Record) -> Result<Answer, u32> {
    let won = if record.is_push() {
        image.swap(record.neighbour(), record.first, value(record.first))?
    } else {
        image.swap(usize::from(record.k), record.second, record.own_null())?
    };
    if !won {
        return Ok(again(record));
    }
    record.stage = 5;
    Ok(Answer::GoesOn)
}

/// Stage 5: the swap that pushes or pops.
fn finish(image: &mut Image, record: &mut Record) -> Result<Answer, u32> {
    let (won, answer) = if record.is_push() {
        let won = image.swap(usize::from(record.k), record.second, record.v)?;
        (won, Answer::Pushed)
    } else {
        let won = image.swap(record.neighbour(), record.first, record.own_null())?;
        (won, Answer::Popped(value(record.first)))
    };
    Ok(if won {
        end(record, answer)
    } else {
        again(record)
    })
}

/// Back to stage 1: k and both words become 0.
fn again(record: &mut Record) -> Answer {
    *record = Record::begun(record.operation, record.v);
    Answer::GoesOn
}

/// After a result the record is all zero.
fn end(record: &mut Record, answer: Answer) -> Answer {
    *record = Record::default();
    answer
}
