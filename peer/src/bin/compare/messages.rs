//! One order message after the other on both sides: lines written, messages read.

use std::collections::BTreeMap;

use peer::message::{faults, Fault, BYTES, ROWS, WORDS};

use crate::worker::{Answered, Command, Worker};
use crate::wrong::Wrong;
use crate::Difference;

/// One call.
#[derive(Clone)]
pub enum Call {
    /// The N of a line is written, with a house message, to so many bytes.
    Write { line: Vec<u8>, house: Vec<u8>, size: usize },
    /// A message is read to so many words.
    Read { message: Vec<u8>, count: usize },
}

/// Calls that are made one after the other.
#[derive(Clone)]
pub struct Batch {
    pub mode: u8,
    pub pattern: u8,
    pub calls: Vec<Call>,
}

/// The words of a message that is read.
const NAMES: [&str; WORDS] = [
    "identifier from",
    "identifier to",
    "MPID from",
    "MPID to",
    "symbol ID",
    "side",
    "size",
    "price",
];

/// The answers that a call can give: done, and the refusals.
const NUMBERS: [i64; 4] = [0, 41, 42, 43];

/// How often each answer was met.
#[derive(Clone)]
pub struct Answers {
    /// By number, of calls that write and of calls that read.
    written: BTreeMap<i64, u64>,
    read: BTreeMap<i64, u64>,
    /// Messages that are 42, by what alone is wrong with them.
    alone: BTreeMap<Fault, u64>,
    several: u64,
}

impl Default for Answers {
    fn default() -> Answers {
        let none = || NUMBERS.into_iter().map(|number| (number, 0)).collect();
        let alone = Fault::ALL.into_iter().map(|fault| (fault, 0)).collect();
        Answers { written: none(), read: none(), alone, several: 0 }
    }
}

impl Answers {
    /// Counts one answer.
    pub fn add(&mut self, call: &Call, answer: &Answered) {
        let number = -answer.result.min(0);
        match call {
            Call::Write { .. } => *self.written.entry(number).or_default() += 1,
            Call::Read { message, .. } => {
                *self.read.entry(number).or_default() += 1;
                if number == 42 {
                    match faults(message)[..] {
                        [fault] => *self.alone.entry(fault).or_default() += 1,
                        _ => self.several += 1,
                    }
                }
            }
        }
    }

    pub fn merge(&mut self, other: &Answers) {
        for (mine, more) in [(&mut self.written, &other.written), (&mut self.read, &other.read)] {
            for (&number, n) in more {
                *mine.entry(number).or_default() += n;
            }
        }
        for (&fault, n) in &other.alone {
            *self.alone.entry(fault).or_default() += n;
        }
        self.several += other.several;
    }

    /// All calls.
    pub fn all(&self) -> u64 {
        self.written.values().chain(self.read.values()).sum()
    }

    /// What can happen and did not.
    pub fn never(&self) -> Vec<String> {
        let mut never = Vec::new();
        for (what, numbers) in [("write", &self.written), ("read", &self.read)] {
            let missing = numbers.iter().filter(|(_, n)| **n == 0);
            never.extend(missing.map(|(number, _)| format!("{what} {number}")));
        }
        let missing = self.alone.iter().filter(|(_, n)| **n == 0);
        never.extend(missing.map(|(&fault, _)| format!("42 for {}", name(fault))));
        never
    }

    /// The tables for people.
    pub fn text(&self) -> String {
        let mut text = format!("order messages by number:\n{:8}", "");
        for &number in self.written.keys() {
            text += &match number {
                0 => format!("{:>8}", "done"),
                number => format!("{number:8}"),
            };
        }
        for (what, numbers) in [("write", &self.written), ("read", &self.read)] {
            text += &format!("\n{what:8}");
            for n in numbers.values() {
                text += &format!("{n:8}");
            }
        }
        text += "\nmessages read that are 42, by what alone is wrong with them:\n";
        for fault in Fault::ALL {
            text += &format!("{:8}  {}\n", self.alone[&fault], name(fault));
        }
        text + &format!("{:8}  more than one thing\n", self.several)
    }
}

/// What is wrong, for people.
pub fn name(fault: Fault) -> String {
    match fault {
        Fault::Form(field) => field.row().name.to_string(),
        Fault::Padding => "what comes after the Client Order ID".to_string(),
    }
}

impl Call {
    /// The peer's side.
    pub fn peer(&self, pattern: u8, wrong: Wrong) -> Answered {
        match self {
            Call::Write { line, house, size } => {
                let mut buffer = vec![pattern; *size];
                let result = wrong.write(line, house, &mut buffer);
                Answered::seen(result, &buffer, pattern)
            }
            Call::Read { message, count } => {
                let mut words = vec![u64::from_le_bytes([pattern; 8]); *count];
                let result = wrong.read(message, &mut words);
                Answered::seen_words(result, &words, pattern)
            }
        }
    }

    fn ask(&self, command: Command) -> Command {
        match self {
            Call::Write { line, house, size } => {
                let command = command.u8(0).u16(line.len()).u16(house.len()).u16(*size);
                command.bytes(line).bytes(house)
            }
            Call::Read { message, count } => {
                command.u8(1).u16(message.len()).u16(8 * count).bytes(message)
            }
        }
    }

    /// What a side gave, for people; `other` is what the other gave, and parts that are the
    /// same are left out.
    pub fn text(&self, answer: &Answered, other: &Answered) -> String {
        let mut text = answer.result.to_string();
        let parts = |answer: &Answered| match self {
            Call::Write { .. } => rows(&answer.bytes),
            Call::Read { .. } => words(&answer.bytes),
        };
        let theirs = parts(other);
        for part in parts(answer).into_iter().filter(|part| !theirs.contains(part)) {
            text += &format!(", {part}");
        }
        text + &answer.beside()
    }

    /// In what the two sides differ.
    pub fn difference(&self, ours: &Answered, theirs: &Answered) -> Option<String> {
        if ours == theirs {
            return None;
        }
        let what = match self {
            Call::Write { line, .. } => format!("\"{}\" written", line.escape_ascii()),
            Call::Read { .. } => "a message read".to_string(),
        };
        let (a, b) = (self.text(ours, theirs), self.text(theirs, ours));
        Some(format!("{what}: library {a}, peer {b}"))
    }
}

/// Bytes as hexadecimal digits.
pub fn hex(bytes: &[u8]) -> String {
    bytes.iter().map(|byte| format!("{byte:02x}")).collect()
}

/// The rows of a message, each with where it begins and its name, and what is past them.
pub fn rows(bytes: &[u8]) -> Vec<String> {
    let mut rows = Vec::new();
    for row in ROWS {
        let place = row.field.place();
        let part = &bytes[place.start.min(bytes.len())..place.end.min(bytes.len())];
        if !part.is_empty() {
            rows.push(format!("{} {} {}", place.start, row.name, hex(part)));
        }
    }
    if bytes.len() > BYTES {
        rows.push(format!("{BYTES} and on {}", hex(&bytes[BYTES..])));
    }
    rows
}

/// The words of a message that was read, and what is past them.
fn words(bytes: &[u8]) -> Vec<String> {
    let (words, rest) = bytes.as_chunks();
    let names = NAMES.into_iter().chain(std::iter::repeat("past them"));
    let word = |(name, &word): (&str, &[u8; 8])| format!("{name} {}", u64::from_le_bytes(word));
    let mut text: Vec<String> = names.zip(words).map(word).collect();
    if !rest.is_empty() {
        text.push(format!("and {}", hex(rest)));
    }
    text
}

impl Batch {
    /// What is asked.
    pub fn ask(&self) -> Command {
        let command = Command::new(b'O').u8(self.mode).u8(self.pattern).u32(self.calls.len());
        self.calls.iter().fold(command, |command, call| call.ask(command))
    }
}

/// Runs a batch on both sides; on a difference, says which call.
pub fn compare(
    batch: &Batch,
    worker: &mut Worker,
    wrong: Wrong,
    answers: &mut Answers,
) -> Result<(), (Option<usize>, Difference)> {
    worker.send(batch.ask());
    let mut peer = Vec::with_capacity(batch.calls.len());
    for call in &batch.calls {
        let answer = call.peer(batch.pattern, wrong);
        answers.add(call, &answer);
        peer.push(answer);
    }
    let stopped = |text| (None, Difference { steps: 0, text });
    let mut reply = worker.reply().map_err(stopped)?;
    for (i, (call, theirs)) in batch.calls.iter().zip(&peer).enumerate() {
        if let Some(text) = call.difference(&reply.answer(), theirs) {
            return Err((Some(i), Difference { steps: 0, text }));
        }
    }
    Ok(())
}
