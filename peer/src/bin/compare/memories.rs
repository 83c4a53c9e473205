//! One memory after the other on both sides: the state rules, a record, a closing line.

use std::collections::BTreeMap;

use peer::memory;

use crate::count::numbers;
use crate::map;
use crate::worker::{Answered, Command, Reply, Worker};
use crate::wrong::Wrong;
use crate::Difference;

/// Words that are lent, and what is asked of them in several variants.
#[derive(Clone)]
pub struct Batch {
    pub mode: u8,
    pub pattern: u8,
    pub base: Vec<u64>,
    pub variants: Vec<Variant>,
}

/// The base cut to `count` words, with some words replaced; then a record and a closing line.
#[derive(Clone)]
pub struct Variant {
    pub count: usize,
    pub pokes: Vec<(u32, u64)>,
    pub line: Vec<u8>,
    pub size: usize,
    pub place: u64,
    pub closing_size: usize,
}

/// What memories were like.
#[derive(Clone)]
pub struct Tally {
    pub good: u64,
    /// By the first rule that is broken.
    pub refused: BTreeMap<&'static str, u64>,
    /// Answers by number: 0, those that a record can be given, 21 and 22.
    pub numbers: BTreeMap<u8, u64>,
}

impl Default for Tally {
    fn default() -> Tally {
        let numbers = numbers().chain([0, 21, 22]).map(|number| (number, 0)).collect();
        Tally { good: 0, refused: BTreeMap::new(), numbers }
    }
}

impl Tally {
    pub fn merge(&mut self, other: &Tally) {
        self.good += other.good;
        for (rule, n) in &other.refused {
            *self.refused.entry(rule).or_default() += n;
        }
        for (&number, n) in &other.numbers {
            *self.numbers.entry(number).or_default() += n;
        }
    }

    pub fn refused_all(&self) -> u64 {
        self.refused.values().sum()
    }

    fn add(&mut self, words: &[u64], record: &Answered) {
        match memory::broken_rule(words) {
            Some(rule) => *self.refused.entry(rule).or_default() += 1,
            None => self.good += 1,
        }
        let number = match record.result {
            1.. => {
                let field = record.bytes.split(|&b| b == b'\t').nth(3).unwrap_or_default();
                String::from_utf8_lossy(field).parse().unwrap_or(0)
            }
            refused => refused.unsigned_abs() as u8,
        };
        *self.numbers.entry(number).or_default() += 1;
    }
}

/// What one side made of a variant.
#[derive(PartialEq, Eq)]
pub struct Judged {
    pub state: i64,
    pub record: Answered,
    /// The words that the record changed.
    pub changed: Vec<(u32, u64)>,
    pub closing: Answered,
}

/// A base cut to so many words, with some words replaced.
pub fn cut(base: &[u64], count: usize, pokes: &[(u32, u64)]) -> Vec<u64> {
    let mut words = base[..count].to_vec();
    for &(index, word) in pokes {
        if let Some(cell) = words.get_mut(index as usize) {
            *cell = word;
        }
    }
    words
}

/// The same, asked for.
pub fn ask_cut(command: Command, count: usize, pokes: &[(u32, u64)]) -> Command {
    let poke =
        |command: Command, &(index, word): &(u32, u64)| command.u32(index as usize).u64(word);
    pokes.iter().fold(command.u32(count).u32(pokes.len()), poke)
}

/// The words that differ, as they are after.
pub fn changed(before: &[u64], after: &[u64]) -> Vec<(u32, u64)> {
    let pairs = before.iter().zip(after).enumerate();
    pairs.filter(|(_, (a, b))| a != b).map(|(i, (_, &b))| (i as u32, b)).collect()
}

/// The words that are lent from now on, and that are the base.
pub fn lend(mode: u8, base: &[u64]) -> Command {
    Command::new(b'W').u8(mode).u32(base.len()).words(base)
}

impl Batch {
    /// The words of a variant.
    pub fn words(&self, variant: &Variant) -> Vec<u64> {
        cut(&self.base, variant.count, &variant.pokes)
    }

    /// The words that are lent from now on.
    pub fn lend(&self) -> Command {
        lend(self.mode, &self.base)
    }

    /// What is asked of them.
    pub fn ask(&self) -> Command {
        let command = Command::new(b'V').u8(self.pattern).u32(self.variants.len());
        self.variants.iter().fold(command, |command, v| {
            let command = ask_cut(command, v.count, &v.pokes);
            let command = command.u16(v.line.len()).u16(v.size).bytes(&v.line);
            command.u64(v.place).u16(v.closing_size)
        })
    }

    /// The peer's side of a variant.
    pub fn peer(&self, variant: &Variant, wrong: Wrong, tally: &mut Tally) -> Judged {
        let before = self.words(variant);
        let state = if wrong.state_ok(&before) { 0 } else { -22 };
        let mut words = before.clone();
        let mut buffer = vec![self.pattern; variant.size];
        let result = memory::record(&mut words, &variant.line, &mut buffer);
        let record = Answered::seen(result, &buffer, self.pattern);
        tally.add(&before, &record);
        let changed = changed(&before, &words);
        let mut buffer = vec![self.pattern; variant.closing_size];
        let result = memory::closing(&words, variant.place as usize, &mut buffer);
        let closing = Answered::seen(result, &buffer, self.pattern);
        Judged { state, record, changed, closing }
    }
}

impl Judged {
    /// The library's side of a variant.
    pub fn read(reply: &mut Reply) -> Judged {
        let (state, record) = (reply.i64(), reply.answer());
        Judged { state, record, changed: reply.changed(), closing: reply.answer() }
    }

    /// The first thing in which two sides differ.
    pub fn difference(&self, peer: &Judged, words: usize) -> Option<String> {
        if self.state != peer.state {
            return Some(format!("state: library {}, peer {}", self.state, peer.state));
        }
        if self.record != peer.record {
            let (a, b) = (self.record.text(), peer.record.text());
            return Some(format!("record: library {a}, peer {b}"));
        }
        if self.changed != peer.changed {
            let (a, b) = (changes(&self.changed, words), changes(&peer.changed, words));
            return Some(format!("words changed by the record: library {a}; peer {b}"));
        }
        if self.closing != peer.closing {
            let (a, b) = (self.closing.text(), peer.closing.text());
            return Some(format!("closing line: library {a}, peer {b}"));
        }
        None
    }
}

/// Changed words for people.
pub fn changes(changed: &[(u32, u64)], words: usize) -> String {
    let one = |&(i, word): &(u32, u64)| format!("{i} ({}) = {word}", map::name(i as usize, words));
    match changed {
        [] => "none".to_string(),
        some => some.iter().map(one).collect::<Vec<_>>().join(", "),
    }
}

/// Runs a batch on both sides; on a difference, says which variant.
pub fn compare(
    batch: &Batch,
    worker: &mut Worker,
    wrong: Wrong,
    tally: &mut Tally,
) -> Result<(), (Option<usize>, Difference)> {
    worker.send(batch.lend());
    worker.send(batch.ask());
    let peer: Vec<Judged> = batch.variants.iter().map(|v| batch.peer(v, wrong, tally)).collect();
    let stopped = |text| (None, Difference { steps: 0, text });
    worker.reply().map_err(stopped)?;
    let mut reply = worker.reply().map_err(stopped)?;
    for (i, theirs) in peer.iter().enumerate() {
        let ours = Judged::read(&mut reply);
        if let Some(text) = ours.difference(theirs, batch.variants[i].count) {
            return Err((Some(i), Difference { steps: 0, text }));
        }
    }
    Ok(())
}
