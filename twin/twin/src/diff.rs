//! Comparison with another program, input by input.
//!
//! The program is asked once for each input; its answer must be the faithful
//! twin's, and each wrong twin that this door can show must differ from it on
//! some input. A difference keeps the input in a directory.

use crate::fault::{Fault, Twin, FAULTS};
use crate::generate::probe::{image_line, read_line, strip_line, write_line};
use crate::generate::schedule::{file, KINDS};
use crate::generate::table::table_line;
use crate::listing;
use crate::random::Random;
use std::collections::BTreeMap;
use std::fs::{self, File};
use std::path::{Path, PathBuf};
use std::process::Command;

#[derive(Clone, Copy, PartialEq, Eq, Debug)]
pub enum Door {
    /// strip-run: a schedule file in, a listing out.
    Schedules,
    /// The probe's lines of strips and records.
    Strips,
    /// The probe's lines of lent records.
    Tables,
    /// The probe's lines of calls on images.
    Images,
    /// The probe's lines that read whole images.
    Reads,
    /// The probe's lines that write whole images.
    Writes,
}

impl Door {
    pub fn by_name(name: &str) -> Option<Door> {
        match name {
            "schedules" => Some(Door::Schedules),
            "strips" => Some(Door::Strips),
            "tables" => Some(Door::Tables),
            "images" => Some(Door::Images),
            "reads" => Some(Door::Reads),
            "writes" => Some(Door::Writes),
            _ => None,
        }
    }

    /// A line for the probe; a schedule is a file and has none of its own.
    pub fn line(self, random: &mut Random) -> String {
        match self {
            Door::Schedules | Door::Strips => strip_line(random),
            Door::Tables => table_line(random),
            Door::Images => image_line(random),
            Door::Reads => read_line(random),
            Door::Writes => write_line(random),
        }
    }

    /// Every number this door can give.
    pub fn numbers(self) -> &'static [u32] {
        match self {
            Door::Schedules => &[0, 1, 2, 3, 5, 6, 7, 8, 11, 16, 17, 18, 19],
            Door::Strips => &[0, 1, 4, 5, 6, 7, 8, 9, 10, 11, 12, 16, 17, 18, 19],
            Door::Tables => &[0, 1, 3, 4, 5, 6, 7, 8, 9, 11, 16, 17, 18, 19],
            Door::Images => &[0, 1, 2, 3, 4, 5, 6, 7, 8, 9, 11, 16, 17, 18, 19],
            Door::Reads => &[0, 1, 2, 4],
            Door::Writes => &[0, 1, 4],
        }
    }

    /// The doors from which this mistake can be seen.
    pub fn that_show(fault: Fault) -> &'static [Door] {
        use Door::*;
        use Fault::*;
        match fault {
            EmptyAtSecondLook | FullAtAnswer | RefusedEntryCounted | LongFileCut => &[Schedules],
            LostSwapNine | DirtyIdleIsSix => &[Strips, Tables, Images],
            ElevenAfterThree => &[Schedules, Tables, Images],
            VersionNotCompared => &[Schedules, Images, Reads],
            SpareBytesUnchecked => &[Images, Reads],
            FindFromFarEnd | ReservedIsOrder => &[Strips],
            FirstRecordChecked => &[Reads, Writes],
            StripBeforeCheck => &[Reads],
            SpareBytesLeft => &[Writes],
            PoppedOrderDropped | FirstRecordStored | EveryRecordChecked | AnyTableLength
            | LentRecordKept => &[Tables],
            _ => &[Schedules, Strips, Tables, Images],
        }
    }

    pub fn shows(self, fault: Fault) -> bool {
        Door::that_show(fault).contains(&self)
    }
}

/// What a comparison found.
pub struct Report {
    pub door: Door,
    pub inputs: usize,
    /// One text for each difference: the input kept, and both answers' heads.
    pub differences: Vec<String>,
    /// How often each number came back.
    pub numbers: BTreeMap<u32, usize>,
    /// On how many inputs each wrong twin differs from the program.
    pub shown: Vec<usize>,
}

impl Report {
    pub fn new(door: Door) -> Report {
        Report {
            door,
            inputs: 0,
            differences: Vec::new(),
            numbers: BTreeMap::new(),
            shown: vec![0; FAULTS.len()],
        }
    }

    pub fn count(&mut self, number: u32) {
        *self.numbers.entry(number).or_insert(0) += 1;
    }

    /// Compares one answer of the program with those of all twins.
    fn compare<F: Fn(Twin) -> String>(&mut self, answer: &str, twin: F) -> bool {
        self.inputs += 1;
        for (i, (fault, _)) in FAULTS.iter().enumerate() {
            if self.door.shows(*fault) && twin(Twin::wrong(*fault)) != answer {
                self.shown[i] += 1;
            }
        }
        twin(Twin::faithful()) == answer
    }

    /// Everything that is not as it must be, in words.
    pub fn complaints(&self) -> Vec<String> {
        let mut all = self.differences.clone();
        for number in self.door.numbers() {
            if !self.numbers.contains_key(number) {
                all.push(format!("number {} never came back", number));
            }
        }
        for ((fault, name), shown) in FAULTS.iter().zip(&self.shown) {
            if self.door.shows(*fault) && *shown == 0 {
                all.push(format!("wrong twin {} was not caught", name));
            }
        }
        all
    }

    pub fn text(&self) -> String {
        let mut text = format!(
            "{} inputs, {} differences, numbers {:?}\n",
            self.inputs,
            self.differences.len(),
            self.numbers
        );
        for ((fault, name), shown) in FAULTS.iter().zip(&self.shown) {
            if self.door.shows(*fault) {
                text.push_str(&format!("wrong twin {:24} caught by {}\n", name, shown));
            }
        }
        text
    }
}

/// Another program with its arguments, blanks between them.
pub struct Program<'a> {
    pub line: &'a str,
    /// Where inputs are written and, on a difference, kept.
    pub directory: &'a Path,
}

impl Program<'_> {
    /// What it prints; a program that ends badly says so and so differs.
    fn answer(&self, input: &Path) -> String {
        let mut parts = self.line.split_whitespace();
        let name = parts.next().expect("a program");
        let input = File::open(input).expect("the input was written");
        let output = Command::new(name).args(parts).stdin(input).output();
        let output = output.expect("the program starts");
        let mut text = String::from_utf8_lossy(&output.stdout).to_string();
        if !output.status.success() {
            text.push_str(&format!("ended with {}\n", output.status));
        }
        text
    }

    fn write(&self, name: &str, bytes: &[u8]) -> PathBuf {
        let path = self.directory.join(name);
        fs::create_dir_all(self.directory).expect("the directory can be made");
        fs::write(&path, bytes).expect("the directory can be written");
        path
    }

    /// `count` schedule files of each kind, one run of the program each.
    pub fn schedules(&self, seed: u64, count: usize) -> Report {
        let mut report = Report::new(Door::Schedules);
        let mut random = Random::new(seed);
        for (kind, name) in KINDS {
            for number in 0..count {
                let file = file(&mut random, kind);
                let path = self.write(&format!("{}-{}-{}.pdo", name, seed, number), &file);
                let answer = self.answer(&path);
                count_listing(&mut report, &answer);
                if report.compare(&answer, |twin| twin.listing(&file)) {
                    fs::remove_file(path).expect("the input was there");
                } else {
                    let path = path.display();
                    let how = format!("repeat: {} < {} against twin-run", self.line, path);
                    report.differences.push(how);
                }
            }
        }
        report
    }

    /// `count` lines for a probe, in one run of the program.
    pub fn lines(&self, door: Door, seed: u64, count: usize) -> Report {
        let mut report = Report::new(door);
        let mut random = Random::new(seed);
        let lines: Vec<String> = (0..count).map(|_| door.line(&mut random)).collect();
        let path = self.write(
            &format!("lines-{}.txt", seed),
            (lines.join("\n") + "\n").as_bytes(),
        );
        let answers = self.answer(&path);
        let mut answers = answers.lines();
        for line in &lines {
            let answer = answers.next().unwrap_or("no answer");
            count_first(&mut report, answer);
            if !report.compare(answer, |twin| twin.probe(line)) {
                report
                    .differences
                    .push(self.keep_line(seed, report.inputs, line, answer));
            }
        }
        if let Some(more) = answers.next() {
            report
                .differences
                .push(format!("an answer to no line: {}", more));
        }
        if report.differences.is_empty() {
            fs::remove_file(path).expect("the input was there");
        }
        report
    }

    fn keep_line(&self, seed: u64, number: usize, line: &str, answer: &str) -> String {
        let name = format!("line-{}-{}.txt", seed, number);
        let path = self.write(&name, format!("{}\n", line).as_bytes());
        let right = Twin::faithful().probe(line);
        let path = path.display();
        format!(
            "repeat: {} < {} against twin-probe: {} and not {}",
            self.line,
            path,
            head(answer),
            head(&right)
        )
    }
}

fn head(text: &str) -> String {
    text.chars().take(80).collect()
}

/// The number of each line of a listing, or of its refusal.
fn count_listing(report: &mut Report, answer: &str) {
    if let Some(number) = answer.trim_end().strip_prefix("refused ") {
        if let Ok(number) = number.parse() {
            report.count(number);
        }
    }
    if let Some(listing) = listing::read(answer) {
        for line in &listing.lines {
            report.count(line.number);
        }
    }
}

/// The number before the first blank; an image call's is packed with its order.
fn count_first(report: &mut Report, answer: &str) {
    let first = answer.split(' ').next().unwrap_or("");
    if let Ok(number) = first.parse::<u64>() {
        report.count(number as u32);
    }
}
