//! One block of lines after the other on both sides: the answer lines, how far the lines were
//! taken, and what is in memory afterwards. The library's side also does each block by record
//! calls and says whether they come to the same.

use peer::line::MOST_LINE;

use crate::memories::{ask_cut, changed, changes, cut, lend};
use crate::worker::{Answered, Command, Reply, Worker};
use crate::wrong::Wrong;
use crate::Difference;

/// Words that are lent, and blocks over them.
#[derive(Clone)]
pub struct Batch {
    pub mode: u8,
    pub pattern: u8,
    pub base: Vec<u64>,
    pub calls: Vec<Call>,
}

/// One block and the length of the buffer.
#[derive(Clone)]
pub struct Call {
    /// Over the base again, cut to so many words and with some words replaced; if not, over
    /// the words as the call before left them.
    pub again: Option<(usize, Vec<(u32, u64)>)>,
    pub text: Vec<u8>,
    pub size: usize,
}

/// What `taken` holds before a call.
const UNTAKEN: [u64; 2] = [0xC3C3_C3C3_C3C3_C3C3; 2];

/// What one side made of a block.
#[derive(Clone, PartialEq, Eq)]
pub struct Given {
    pub answer: Answered,
    /// Lines taken and their bytes.
    pub taken: [u64; 2],
    /// The words that the block changed.
    pub changed: Vec<(u32, u64)>,
}

/// How a block can end.
const ENDS: [&str; 7] = [
    "all lines taken",
    "all lines taken, a last part without LF left",
    "lines left, fewer than 32 bytes of the buffer left",
    "no LF",
    "no byte",
    "21",
    "22",
];

/// How often blocks ended in each way, and the lines that were taken.
#[derive(Clone, Default)]
pub struct Ends {
    blocks: [u64; ENDS.len()],
    pub lines: u64,
    /// Those over 160 bytes.
    long: u64,
}

impl Ends {
    /// Counts one block.
    pub fn add(&mut self, call: &Call, given: &Given) {
        let [lines, bytes] = match given.answer.result {
            0.. => given.taken,
            _ => [0, 0],
        };
        let (taken, left) = call.text.split_at(bytes as usize);
        let end = match given.answer.result {
            -22 => 6,
            -21 => 5,
            _ if call.text.is_empty() => 4,
            _ if left.contains(&b'\n') => 2,
            _ if lines == 0 => 3,
            _ => usize::from(!left.is_empty()),
        };
        self.blocks[end] += 1;
        self.lines += lines;
        let long = |line: &&[u8]| line.len() > MOST_LINE + 1;
        self.long += taken.split_inclusive(|&b| b == b'\n').filter(long).count() as u64;
    }

    pub fn merge(&mut self, other: &Ends) {
        for (mine, more) in self.blocks.iter_mut().zip(other.blocks) {
            *mine += more;
        }
        self.lines += other.lines;
        self.long += other.long;
    }

    /// All blocks.
    pub fn all(&self) -> u64 {
        self.blocks.iter().sum()
    }

    /// What can happen and did not.
    pub fn never(&self) -> Vec<String> {
        let missing = ENDS.iter().zip(self.blocks).filter(|(_, n)| *n == 0);
        missing.map(|(end, _)| format!("a block: {end}")).collect()
    }

    /// The table for people.
    pub fn text(&self) -> String {
        let mut text = "blocks of lines by how they ended:\n".to_string();
        for (end, n) in ENDS.iter().zip(self.blocks) {
            text += &format!("{n:8}  {end}\n");
        }
        text + &format!("{:8}  lines taken, {} of them over 160 bytes\n", self.lines, self.long)
    }
}

impl Call {
    /// A block over the words as they are.
    pub fn on(text: &[u8], size: usize) -> Call {
        Call { again: None, text: text.to_vec(), size }
    }

    /// A block over the first words of the base.
    pub fn over(count: usize, text: &[u8], size: usize) -> Call {
        Call { again: Some((count, Vec::new())), ..Call::on(text, size) }
    }

    fn ask(&self, command: Command) -> Command {
        let command = match &self.again {
            Some((count, pokes)) => ask_cut(command.u8(1), *count, pokes),
            None => command.u8(0),
        };
        command.u32(self.text.len()).u32(self.size).bytes(&self.text)
    }

    /// The words that the call begins from, where these are the ones before it.
    pub fn begin(&self, base: &[u64], words: &mut Vec<u64>) {
        if let Some((count, pokes)) = &self.again {
            *words = cut(base, *count, pokes);
        }
    }

    /// The peer's side over these words.
    pub fn peer(&self, words: &mut [u64], pattern: u8, wrong: Wrong) -> Given {
        let before = words.to_vec();
        let (mut buffer, mut taken) = (vec![pattern; self.size], UNTAKEN);
        let result = wrong.block(words, &self.text, &mut buffer, &mut taken);
        let answer = Answered::seen(result, &buffer, pattern);
        Given { answer, taken, changed: changed(&before, words) }
    }
}

impl Given {
    /// The library's side.
    pub fn read(reply: &mut Reply) -> Given {
        let (answer, taken) = (reply.answer(), [reply.u64(), reply.u64()]);
        Given { answer, taken, changed: reply.changed() }
    }

    /// How far the lines were taken, for people.
    pub fn taken(&self) -> String {
        match self.taken {
            UNTAKEN => "taken: as found".to_string(),
            [lines, bytes] => format!("taken: lines {lines}, bytes {bytes}"),
        }
    }

    /// The first thing in which two sides differ.
    pub fn difference(&self, peer: &Given, words: usize) -> Option<String> {
        if self.answer != peer.answer {
            let (a, b) = (self.answer.text(), peer.answer.text());
            return Some(format!("block: library {a}, peer {b}"));
        }
        if self.taken != peer.taken {
            return Some(format!("block: library {}, peer {}", self.taken(), peer.taken()));
        }
        if self.changed != peer.changed {
            let (a, b) = (changes(&self.changed, words), changes(&peer.changed, words));
            return Some(format!("words changed by the block: library {a}; peer {b}"));
        }
        None
    }
}

impl Batch {
    /// The words that are lent.
    pub fn lend(&self) -> Command {
        lend(self.mode, &self.base)
    }

    /// The blocks over them.
    pub fn ask(&self) -> Command {
        let command = Command::new(b'B').u8(self.pattern).u32(self.calls.len());
        self.calls.iter().fold(command, |command, call| call.ask(command))
    }

    /// The first calls alone.
    pub fn first(&self, calls: usize) -> Batch {
        Batch { base: self.base.clone(), calls: self.calls[..calls].to_vec(), ..*self }
    }

    /// One call alone, over the words that it begins from by the peer.
    pub fn alone(&self, which: usize) -> Batch {
        let mut base = self.base.clone();
        for call in &self.calls[..which] {
            call.begin(&self.base, &mut base);
            call.peer(&mut base, self.pattern, Wrong::No);
        }
        let call = &self.calls[which];
        call.begin(&self.base, &mut base);
        let calls = vec![Call::over(base.len(), &call.text, call.size)];
        Batch { base, calls, ..*self }
    }
}

/// Runs a batch on both sides; on a difference, says which call.
pub fn compare(
    batch: &Batch,
    worker: &mut Worker,
    wrong: Wrong,
    ends: &mut Ends,
) -> Result<(), (Option<usize>, Difference)> {
    worker.send(batch.lend());
    worker.send(batch.ask());
    let mut words = batch.base.clone();
    let mut peer = Vec::with_capacity(batch.calls.len());
    for call in &batch.calls {
        call.begin(&batch.base, &mut words);
        let given = call.peer(&mut words, batch.pattern, wrong);
        // What is wrong on purpose need not be within the block.
        if wrong == Wrong::No {
            ends.add(call, &given);
        }
        peer.push((words.len(), given));
    }
    let stopped = |text| (None, Difference { steps: 0, text });
    worker.reply().map_err(stopped)?;
    let mut reply = worker.reply().map_err(stopped)?;
    for (i, (count, theirs)) in peer.iter().enumerate() {
        if let Some(text) = Given::read(&mut reply).difference(theirs, *count) {
            return Err((Some(i), Difference { steps: 0, text }));
        }
    }
    Ok(())
}
