//! The listing as text, both ways.

use crate::fault::Twin;
use crate::run::{Line, Run};
use crate::schedule::Schedule;
use crate::word::{counter, value, word, Word};

/// A listing read back, so that another program's listing can be replayed.
#[derive(Clone, PartialEq, Eq, Debug)]
pub struct Listing {
    pub max: usize,
    pub divide: usize,
    pub parties: usize,
    pub lines: Vec<Line>,
    pub strip: Vec<Word>,
}

impl Twin {
    /// What strip-run prints for the bytes of a schedule file.
    pub fn listing(self, file: &[u8]) -> String {
        match self.schedule_read(file) {
            Err(number) => format!("refused {}\n", number),
            Ok(schedule) => write(&schedule, &self.run(&schedule)),
        }
    }
}

pub fn write(schedule: &Schedule, run: &Run) -> String {
    let mut text = format!(
        "strip {} {} parties {}\n",
        schedule.max, schedule.divide, schedule.parties
    );
    for line in &run.lines {
        text.push_str(&write_line(line));
    }
    text.push_str("cells");
    for &cell in &run.strip {
        text.push_str(&format!(" {}.{}", value(cell), counter(cell)));
    }
    text.push('\n');
    text
}

fn write_line(line: &Line) -> String {
    let effect = match line.effect {
        Some(entry) => entry.to_string(),
        None => "-".to_string(),
    };
    format!(
        "{} {} {} {} {}\n",
        line.entry, line.party, line.number, line.carried, effect
    )
}

/// None if the text is not a listing, or does not end in a newline.
pub fn read(text: &str) -> Option<Listing> {
    let mut rows: Vec<&str> = text.strip_suffix('\n')?.split('\n').collect();
    let cells = rows.pop()?;
    if rows.is_empty() {
        return None;
    }
    let header: Vec<&str> = rows.remove(0).split(' ').collect();
    if header.len() != 5 || header[0] != "strip" || header[3] != "parties" {
        return None;
    }
    let lines: Option<Vec<Line>> = rows.into_iter().map(read_line).collect();
    Some(Listing {
        max: header[1].parse().ok()?,
        divide: header[2].parse().ok()?,
        parties: header[4].parse().ok()?,
        lines: lines?,
        strip: read_cells(cells)?,
    })
}

fn read_line(row: &str) -> Option<Line> {
    let fields: Vec<&str> = row.split(' ').collect();
    if fields.len() != 5 {
        return None;
    }
    let effect = if fields[4] == "-" {
        None
    } else {
        Some(fields[4].parse().ok()?)
    };
    Some(Line {
        entry: fields[0].parse().ok()?,
        party: fields[1].parse().ok()?,
        number: fields[2].parse().ok()?,
        carried: fields[3].parse().ok()?,
        effect,
    })
}

fn read_cells(row: &str) -> Option<Vec<Word>> {
    let cells = row.strip_prefix("cells ")?;
    cells.split(' ').map(read_cell).collect()
}

fn read_cell(cell: &str) -> Option<Word> {
    let (value, counter) = cell.split_once('.')?;
    Some(word(counter.parse().ok()?, value.parse().ok()?))
}
