//! Ways in which the peer's side can be made wrong on purpose, to see that it is noticed.

use std::ops::RangeInclusive;

use peer::days::CEILING;
use peer::gate::{Answer, Gate};
use peer::{memory, message};

use crate::lapse::Lapse;
use crate::map::Region;
use crate::slip::Slip;

/// The numbers of the six metrics.
const METRICS: RangeInclusive<u8> = 31..=36;

/// What is wrong.
#[derive(Clone, Copy, PartialEq, Eq, Debug)]
pub enum Wrong {
    No,
    /// This number is answered as the next one.
    Number(u8),
    /// This outcome is answered as another.
    Outcome(u8),
    /// Of the metrics above their limits the last is given instead of the first.
    Last,
    /// A request that is to be sent is answered as not to be sent.
    Sent,
    /// A buffer of 31 bytes is taken for long enough.
    Buffer,
    /// A traded value is one too much in the words.
    Word,
    /// A blocked group is closed as not blocked.
    Closing,
    /// Open values are not held against the table.
    Sums,
    /// Order messages are written or read wrongly.
    Message(Slip),
    /// Blocks of lines are taken wrongly.
    Block(Lapse),
}

impl Wrong {
    /// The shortest buffer for an answer.
    pub fn least_buffer(self) -> usize {
        32 - usize::from(self == Wrong::Buffer)
    }

    /// Has a gate with so many words judge a line, and changes the answer line.
    pub fn record(self, gate: &mut Gate, words: usize, line: &[u8], to: &mut Vec<u8>) -> Answer {
        let before = (self == Wrong::Last).then(|| gate.clone());
        let answer = gate.record(line, to);
        let number = |number: u8| (3, number.to_string().into_bytes());
        let (field, text) = match (self, before) {
            (Wrong::Number(n), _) if answer.number == n => number(n + 1),
            (_, Some(before)) if METRICS.contains(&answer.number) => {
                number(last_metric(&before, words, line))
            }
            (Wrong::Outcome(o), _) if answer.outcome == o => (2, vec![o ^ 1]),
            (Wrong::Sent, _) if answer.sent => (4, b"0\n".to_vec()),
            _ => return answer,
        };
        let mut fields: Vec<&[u8]> = to.split(|&b| b == b'\t').collect();
        fields[field] = &text;
        *to = fields.join(&b'\t');
        answer
    }

    /// Changes a closing line.
    pub fn closing(self, line: &mut [u8]) {
        if let (Wrong::Closing, [.., flag, _]) = (self, line) {
            *flag = b'N';
        }
    }

    /// Changes the words.
    pub fn words(self, words: &mut [u64]) {
        let traded = Region::Group.at(0, 0, 10);
        if self == Wrong::Word && words.get(traded).is_some_and(|&w| w > 0) {
            words[traded] += 1;
        }
    }

    /// Writes an order as a message.
    pub fn write(self, line: &[u8], house: &[u8], to: &mut [u8]) -> i64 {
        match self {
            Wrong::Message(slip) => slip.write(line, house, to),
            _ => message::write(line, house, to),
        }
    }

    /// Reads a message.
    pub fn read(self, message: &[u8], to: &mut [u64]) -> i64 {
        match self {
            Wrong::Message(slip) => slip.read(message, to),
            _ => message::read(message, to),
        }
    }

    /// Judges a block of lines.
    pub fn block(self, mem: &mut [u64], text: &[u8], to: &mut [u8], taken: &mut [u64; 2]) -> i64 {
        match self {
            Wrong::Block(lapse) => lapse.block(mem, text, to, taken),
            _ => memory::block(mem, text, to, taken),
        }
    }

    /// Whether the words meet the state rules.
    pub fn state_ok(self, words: &[u64]) -> bool {
        memory::state_ok(words) || (self == Wrong::Sums && memory::state_ok(&with_sums(words)))
    }
}

/// The last metric that refuses this line: each that does has its limit lifted in turn.
fn last_metric(gate: &Gate, words: usize, line: &[u8]) -> u8 {
    let mut words = vec![0; words];
    memory::store(gate, &mut words);
    let mut last = 0;
    loop {
        let number = memory::load(&words).record(line, &mut Vec::new()).number;
        if number == last || !METRICS.contains(&number) {
            return last;
        }
        last = number;
        let limit = usize::from(number - METRICS.start() + 1);
        for group in 0..Region::Group.used(&words) {
            words[Region::Group.at(0, group, limit)] = CEILING;
        }
    }
}

/// The same words with open values that are the sums over the table.
fn with_sums(words: &[u64]) -> Vec<u64> {
    let mut words = words.to_vec();
    if words.len() < memory::LEAST_WORDS {
        return words;
    }
    let room = memory::room(words.len());
    for group in 0..Region::Group.used(&words) {
        let mut open = [0u64; 2];
        for place in 0..Region::Key.used(&words) {
            let own =
                words[Region::Key.at(room, place, 0)] == words[Region::Group.at(room, group, 0)];
            let order = Region::Order.at(room, place, 0);
            let left = words[order + 1].wrapping_sub(words[order + 2]);
            let sell = words[Region::Request.at(room, place, 6)] != u64::from(b'B');
            if own {
                let sum = &mut open[usize::from(sell)];
                *sum = sum.wrapping_add(left.wrapping_mul(words[order]));
            }
        }
        words[Region::Group.at(room, group, 12)] = open[0];
        words[Region::Group.at(room, group, 13)] = open[1];
    }
    words
}

#[cfg(test)]
mod tests {
    use super::*;

    #[test]
    fn the_last_metric_is_given() {
        for (wrong, expected) in [(Wrong::No, "33"), (Wrong::Last, "36"), (Wrong::Number(33), "34")]
        {
            let mut gate = Gate::new(1);
            let mut to = Vec::new();
            for line in ["G\tABCD\t0\t0\t0\t0\t0\t0\t1\tN\n", "S\t7\n", "O\n"] {
                wrong.record(&mut gate, memory::words(1), line.as_bytes(), &mut to);
            }
            to.clear();
            wrong.record(&mut gate, memory::words(1), b"N\tT1\tABCD\t7\tB\t1\t100\n", &mut to);
            assert_eq!(to, format!("N\tT1\tR\t{expected}\t0\n").into_bytes());
        }
    }
}
