//! The smallest input on which the two sides still differ.

use peer::gate::Gate;
use peer::memory;
use peer::message::{BYTES, WORDS};

use crate::alter::book_order;
use crate::blocks::{self, Ends};
use crate::count::Counts;
use crate::day::{self, Day, Step};
use crate::map::{self, Region};
use crate::memories::{self, Batch, Tally, Variant};
use crate::messages::{self, Answers, Call};
use crate::orders::{plain_house, plain_message, PLAIN_LINE};
use crate::worker::{Program, Worker};
use crate::wrong::Wrong;
use crate::Difference;

/// Lines are left out of a block that does not have more, and bytes of one that does not.
const MOST_LINES: usize = 5_000;
const MOST_BYTES: usize = 100;

/// Every try has a worker of its own.
pub struct Shrinker<'a> {
    pub program: &'a Program,
    pub wrong: Wrong,
}

/// Leaves out as many items as can be while it still fails.
fn fewest<T: Clone>(mut items: Vec<T>, mut fails: impl FnMut(&[T]) -> bool) -> Vec<T> {
    let mut part = items.len().div_ceil(2);
    while part > 0 {
        let mut from = 0;
        let mut fewer = false;
        while from < items.len() {
            let to = (from + part).min(items.len());
            let tried = [&items[..from], &items[to..]].concat();
            if fails(&tried) {
                items = tried;
                fewer = true;
            } else {
                from = to;
            }
        }
        // Single items are gone through until none can be left out.
        part = match part {
            1 if fewer => 1,
            part => part / 2,
        };
    }
    items
}

/// What becomes of each step's notice: K or A takes its number, S does not.
fn outcomes(day: &Day) -> Vec<u8> {
    let mut gate = Gate::new(memory::room(day.words));
    let mut outcome = |step: &Step| match step.size >= 32 {
        true => gate.record(&step.line, &mut Vec::new()).outcome,
        false => b'-',
    };
    day.steps.iter().map(&mut outcome).collect()
}

/// Only these steps, with numbers that leave no gap where a notice is left out.
fn renumbered(steps: &[Step], outcomes: &[u8], kept: &[usize]) -> Vec<Step> {
    let mut last = 0;
    let renumber = |&i: &usize| {
        let mut step = steps[i].clone();
        let mut fields: Vec<&[u8]> = step.line.split(|&b| b == b'\t').collect();
        let number = match outcomes[i] {
            b'K' | b'A' => {
                last += 1;
                last
            }
            b'S' => {
                let number = String::from_utf8_lossy(fields[1]).parse().unwrap_or(last);
                number.min(last).max(1)
            }
            _ => return step,
        };
        let number = number.to_string().into_bytes();
        fields[1] = &number;
        step.line = fields.join(&b'\t');
        step
    };
    kept.iter().map(renumber).collect()
}

impl Shrinker<'_> {
    fn day_fails(&self, day: &Day) -> Option<Difference> {
        let mut worker = Worker::start(self.program).ok()?;
        day::compare(day, &mut worker, self.wrong, &mut Counts::default()).err()
    }

    /// The fewest lines, the smallest room.
    pub fn day(&self, day: &Day, difference: &Difference) -> Day {
        let mut least = day.clone();
        least.steps.truncate(difference.steps);
        least.every = least.steps.len().max(1);
        if self.day_fails(&least).is_none() {
            least = day.clone();
        }
        least = self.smaller_room(least);
        let outcomes = outcomes(&least);
        let frame = least.clone();
        let with = |kept: &[usize]| Day {
            steps: renumbered(&frame.steps, &outcomes, kept),
            every: frame.every.min(kept.len().max(1)),
            ..frame.clone()
        };
        let all = (0..least.steps.len()).collect();
        let kept = fewest(all, |kept| self.day_fails(&with(kept)).is_some());
        self.plainer(self.smaller_room(with(&kept)))
    }

    /// Zeros before the fresh state, usual buffers.
    fn plainer(&self, day: Day) -> Day {
        let mut plain = Day { fill: 0, ..day.clone() };
        plain.steps.iter_mut().for_each(|step| step.size = 32);
        match self.day_fails(&plain) {
            Some(_) => plain,
            None => day,
        }
    }

    fn smaller_room(&self, day: Day) -> Day {
        let rooms = [0, 1, 2, 5, 40].map(|room| Day { words: memory::words(room), ..day.clone() });
        let fails = |tried: &Day| tried.words < day.words && self.day_fails(tried).is_some();
        rooms.into_iter().find(fails).unwrap_or(day)
    }

    fn batch_fails(&self, batch: &Batch) -> bool {
        let Ok(mut worker) = Worker::start(self.program) else {
            return false;
        };
        memories::compare(batch, &mut worker, self.wrong, &mut Tally::default()).is_err()
    }

    /// A batch with the one variant that fails.
    fn single(&self, batch: &Batch, which: Option<usize>) -> Option<Batch> {
        let alone = |i: usize| {
            let variant = &batch.variants[i];
            let base = batch.words(variant);
            let variant = Variant { pokes: Vec::new(), ..variant.clone() };
            Batch { base, variants: vec![variant], ..*batch }
        };
        let all = which.map_or(0..batch.variants.len(), |i| i..i + 1);
        all.map(alone).find(|batch| self.batch_fails(batch))
    }

    /// The least words, places, groups and symbols, and the shortest memory.
    pub fn memory(&self, batch: &Batch, which: Option<usize>) -> Option<Batch> {
        let mut least = self.single(batch, which)?;
        let with_words = |words: &[u64], least: &Batch| {
            let variant = Variant { count: words.len(), ..least.variants[0].clone() };
            Batch { base: words.to_vec(), variants: vec![variant], ..*least }
        };
        // Without the record, without the closing line.
        let mut tried = least.clone();
        (tried.variants[0].line, tried.variants[0].size) = (Vec::new(), 0);
        if self.batch_fails(&tried) {
            least = tried;
        }
        let mut tried = least.clone();
        (tried.variants[0].place, tried.variants[0].closing_size) = (0, 0);
        if self.batch_fails(&tried) {
            least = tried;
        }
        // A shorter line.
        let frame = least.clone();
        let with_line = |line: &[u8]| {
            let mut tried = frame.clone();
            tried.variants[0].line = line.to_vec();
            tried
        };
        let line = frame.variants[0].line.clone();
        least = with_line(&fewest(line, |line| self.batch_fails(&with_line(line))));
        let words = least_words(&least.base, |words| self.batch_fails(&with_words(words, &least)));
        Some(with_words(&words, &least))
    }

    fn blocks_fail(&self, batch: &blocks::Batch) -> bool {
        let Ok(mut worker) = Worker::start(self.program) else {
            return false;
        };
        blocks::compare(batch, &mut worker, self.wrong, &mut Ends::default()).is_err()
    }

    /// One block over the words that it begins from, with the fewest lines and words; the calls
    /// up to it, if it does not fail alone.
    pub fn blocks(&self, batch: &blocks::Batch, which: Option<usize>) -> blocks::Batch {
        // The fewest calls that fail.
        let (mut low, mut high) = (0, batch.calls.len() - 1);
        while which.is_none() && low < high {
            let middle = (low + high) / 2;
            match self.blocks_fail(&batch.first(middle + 1)) {
                true => high = middle,
                false => low = middle + 1,
            }
        }
        let which = which.unwrap_or(low);
        let frame = batch.alone(which);
        if !self.blocks_fail(&frame) {
            return batch.first(which + 1);
        }
        let with = |words: &[u64], text: &[u8], size: usize| {
            let calls = vec![blocks::Call::over(words.len(), text, size)];
            blocks::Batch { base: words.to_vec(), calls, ..frame }
        };
        let fails = |words: &[u64], text: &[u8], size| self.blocks_fail(&with(words, text, size));
        let (words, call) = (&frame.base, &frame.calls[0]);
        let mut lines: Vec<&[u8]> = call.text.split_inclusive(|&b| b == b'\n').collect();
        if lines.len() <= MOST_LINES {
            lines = fewest(lines, |lines| fails(words, &lines.concat(), call.size));
        }
        let mut text = lines.concat();
        if text.len() <= MOST_BYTES {
            text = fewest(text, |text| fails(words, text, call.size));
        }
        let shorter = [0, 1, 32, 33, 42, 43, 64, 512].into_iter().filter(|&size| size < call.size);
        let size = shorter.into_iter().find(|&size| fails(words, &text, size));
        let size = size.unwrap_or(call.size);
        with(&least_words(words, |words| fails(words, &text, size)), &text, size)
    }

    fn messages_fail(&self, batch: &messages::Batch) -> bool {
        let Ok(mut worker) = Worker::start(self.program) else {
            return false;
        };
        messages::compare(batch, &mut worker, self.wrong, &mut Answers::default()).is_err()
    }

    /// The fewest calls; of one call, the fewest bytes that are not plain.
    pub fn messages(&self, batch: &messages::Batch, which: Option<usize>) -> messages::Batch {
        let with = |calls: &[Call]| messages::Batch { calls: calls.to_vec(), ..*batch };
        let fails = |calls: &[Call]| self.messages_fail(&with(calls));
        let alone = which.map(|i| vec![batch.calls[i].clone()]).filter(|call| fails(call));
        let calls = alone.unwrap_or_else(|| fewest(batch.calls.clone(), fails));
        let one = |call: Call| fails(&[call]);
        match &calls[..] {
            [Call::Write { line, house, size }] => {
                let write = |line: &[u8], house: &[u8], size: usize| {
                    let (line, house) = (line.to_vec(), house.to_vec());
                    Call::Write { line, house, size }
                };
                let size = if one(write(line, house, BYTES)) { BYTES } else { *size };
                let line = match one(write(PLAIN_LINE, house, size)) {
                    true => PLAIN_LINE.to_vec(),
                    false => fewest(line.clone(), |line| one(write(line, house, size))),
                };
                let house = plainest(house, &plain_house(), |house| one(write(&line, house, size)));
                with(&[write(&line, &house, size)])
            }
            [Call::Read { message, count }] => {
                let read = |message: &[u8], count: usize| {
                    let message = message.to_vec();
                    Call::Read { message, count }
                };
                let count = if one(read(message, WORDS)) { WORDS } else { *count };
                let message = plainest(message, &plain_message(), |m| one(read(m, count)));
                with(&[read(&message, count)])
            }
            _ => with(&calls),
        }
    }
}

/// Fewer rows, a shorter memory, and zeros.
fn least_words(words: &[u64], fails: impl Fn(&[u64]) -> bool) -> Vec<u64> {
    let mut least = words.to_vec();
    for region in [Region::Key, Region::Symbol, Region::Group] {
        if least.len() < memory::LEAST_WORDS {
            break;
        }
        let rows: Vec<usize> = (0..region.used(&least)).collect();
        let keep = |rows: &[usize]| keep_rows(&least, region, rows);
        let rows = fewest(rows, |rows| fails(&keep(rows)));
        if rows.len() < region.used(&least) {
            least = keep(&rows);
        }
    }
    let count = least.len();
    for shorter in [0, 1, 1_668, 1_669, 1_686, 1_703, memory::words(memory::room(count))] {
        let tried = map::resize(&least, shorter);
        if shorter < count && fails(&tried) {
            least = tried;
            break;
        }
    }
    let used: Vec<usize> = (0..least.len()).filter(|&i| least[i] != 0).collect();
    let only = |kept: &[usize]| {
        let mut words = vec![0; least.len()];
        kept.iter().for_each(|&i| words[i] = least[i]);
        words
    };
    only(&fewest(used, |kept| fails(&only(kept))))
}

/// A plain message, or the bytes with as many as can be replaced by its bytes.
fn plainest(bytes: &[u8], plain: &[u8], fails: impl Fn(&[u8]) -> bool) -> Vec<u8> {
    if fails(plain) {
        return plain.to_vec();
    }
    let plain = |at: usize| plain.get(at).copied().unwrap_or(0);
    let other: Vec<usize> = (0..bytes.len()).filter(|&at| bytes[at] != plain(at)).collect();
    let keep = |kept: &[usize]| {
        let mut all: Vec<u8> = (0..bytes.len()).map(plain).collect();
        kept.iter().for_each(|&at| all[at] = bytes[at]);
        all
    };
    keep(&fewest(other, |kept| fails(&keep(kept))))
}

/// Only these rows of a region; of places the key, request and order, with totals that go
/// with what is left.
fn keep_rows(words: &[u64], region: Region, rows: &[usize]) -> Vec<u64> {
    let room = memory::room(words.len());
    let mut kept = words.to_vec();
    let (regions, count): (&[Region], usize) = match region {
        Region::Group => (&[Region::Group], 2),
        Region::Symbol => (&[Region::Symbol], 3),
        _ => (&[Region::Key, Region::Request, Region::Order], 4),
    };
    if count == 4 {
        for place in (0..Region::Key.used(words)).filter(|place| !rows.contains(place)) {
            book_order(&mut kept, place, false);
        }
    }
    for region in regions {
        let (first, _, width) = region.shape(room);
        let used = region.used(words);
        for (to, &from) in rows.iter().enumerate() {
            let (to, from) = (first + to * width, first + from * width);
            kept[to..to + width].copy_from_slice(&words[from..from + width]);
        }
        kept[first + rows.len() * width..first + used * width].fill(0);
    }
    // A count that is too high stays so.
    let missing = region.used(words) - rows.len();
    kept[count] = words[count].wrapping_sub(missing as u64);
    kept
}

#[cfg(test)]
mod tests {
    use super::{fewest, plainest};

    #[test]
    fn only_what_is_needed_is_left() {
        let needed = [3, 50, 97];
        let fails = |items: &[u32]| needed.iter().all(|n| items.contains(n));
        assert_eq!(fewest((0..100).collect(), fails), needed);
        assert_eq!(fewest((0..100).collect(), |_: &[u32]| true), []);
    }

    #[test]
    fn only_bytes_that_are_needed_stay() {
        let bytes: Vec<u8> = (100..140).collect();
        let fails = |tried: &[u8]| tried.len() == 40 && tried[7] == 107 && tried[39] == 139;
        let mut expected = vec![b'x'; 30];
        expected.resize(40, 0);
        (expected[7], expected[39]) = (107, 139);
        assert_eq!(plainest(&bytes, &[b'x'; 30], fails), expected);
    }
}
