//! Whole days drawn at random, aimed at both sides of every line of document 01.
//!
//! A day is drawn line by line beside a gate of this crate, whose answers say how far the
//! day has come; a seed and an index give the same day on every machine.

mod aims;
pub mod book;
pub mod damage;
mod hand;
pub mod moves;
pub mod pieces;
pub mod rng;
pub mod style;

use std::collections::VecDeque;

use crate::gate::{Answer, Gate};
use book::Book;
use damage::damage;
use moves::propose;
use pieces::{any_group, any_mpid, Line};
use rng::Rng;
use style::{Style, STYLES};

/// The greatest symbol ID and notice number.
pub const MOST_NUMBER: u64 = 4_294_967_295;
/// The greatest size.
pub const MOST_SIZE: u64 = 1_000_000;
/// The greatest price that a line can hold.
pub const MOST_PRICE: u64 = 999_999_999_999;
/// The ceiling.
pub const CEILING: u64 = 4_000_000_000_000_000_000;

/// What a day will be like.
#[derive(Clone, Debug)]
pub struct Plan {
    /// The places of the table.
    pub room: usize,
    /// The lines of the day.
    pub lines: usize,
    /// What it is mostly about.
    pub style: Style,
    /// Groups and symbols that are tried to be listed.
    groups: usize,
    symbols: usize,
    rng: Rng,
}

impl Plan {
    /// The plan of one day.
    pub fn new(seed: u64, index: u64) -> Plan {
        let mut rng = Rng::new(seed, 1, index);
        let style = STYLES[(index % STYLES.len() as u64) as usize].clone();
        let groups = match rng.weighted(&[20, 55, 13, 7, 5]) {
            0 => 1,
            1 => rng.between(2, 4),
            2 => rng.between(5, 20),
            3 => 64,
            _ => rng.between(65, 70),
        };
        let symbols = match rng.weighted(&[3, 17, 55, 17, 4, 4]) {
            0 => 0,
            1 => 1,
            2 => rng.between(2, 6),
            3 => rng.between(7, 60),
            4 => 256,
            _ => rng.between(275, 300),
        };
        let (room, lines) = match rng.weighted(&[30, 30, 30, 50, 500, 170, 180, 10]) {
            0 => (0, rng.between(10, 80)),
            1 => (1, rng.between(20, 100)),
            2 => (2, rng.between(20, 120)),
            3 => (rng.between(3, 9), rng.between(30, 150)),
            4 => {
                let room = rng.between(10, 60);
                (room, rng.between(room, 4 * room + 60))
            }
            5 => {
                let room = rng.between(61, 200);
                (room, rng.between(room, 3 * room))
            }
            6 => (400, rng.between(300, 1100)),
            _ => {
                let room = rng.between(800, 2500);
                (room, rng.between(room / 2, 2 * room))
            }
        };
        let setup = groups + symbols;
        Plan {
            room: room as usize,
            lines: (lines + setup) as usize,
            style,
            groups: groups as usize,
            symbols: symbols as usize,
            rng,
        }
    }

    /// The same with another room.
    pub fn with_room(self, room: usize) -> Plan {
        Plan { room, ..self }
    }

    /// The lines that its setup takes, about.
    pub fn setup(&self) -> usize {
        self.groups + self.symbols + 2
    }

    /// The same with so many lines.
    pub fn with_lines(self, lines: usize) -> Plan {
        Plan { lines, ..self }
    }
}

/// A day that is being drawn.
#[derive(Clone)]
pub struct Maker {
    /// The day as judged so far.
    pub gate: Gate,
    /// What is known of it.
    pub book: Book,
    /// The source of what follows.
    pub rng: Rng,
    /// What it is mostly about.
    pub style: Style,
    queue: VecDeque<Vec<u8>>,
    left: usize,
}

impl Maker {
    /// A day that has not begun.
    pub fn new(plan: Plan) -> Maker {
        let mut maker = Maker {
            gate: Gate::new(plan.room),
            book: Book::default(),
            rng: plan.rng,
            style: plan.style,
            queue: VecDeque::new(),
            left: plan.lines,
        };
        maker.plan_setup(plan.groups, plan.symbols);
        maker
    }

    /// The lines up to O, with some that do not belong there.
    fn plan_setup(&mut self, groups: usize, symbols: usize) {
        let rng = &mut self.rng;
        let mut lines = Vec::new();
        for _ in 0..groups {
            let mpid = any_mpid(rng);
            lines.push(any_group(rng, &self.style, &mpid));
            if rng.chance(6) {
                lines.push(any_group(rng, &self.style, &mpid));
            }
        }
        // Neighbours, or far apart with the same low bits.
        let (first, stride) =
            rng.pick(&[(1, 1), (7, 1), (4_294_966_900, 1), (5, 256), (3, 65_536)]);
        for i in 0..symbols as u64 {
            let id = match rng.below(20) {
                0 => rng.pick(&[1, 2, first, MOST_NUMBER]),
                1 => rng.between(1, MOST_NUMBER),
                _ => first + i * stride,
            };
            lines.push(Line::new(b'S').number(id.clamp(1, MOST_NUMBER)).end());
        }
        if rng.chance(70) {
            rng.shuffle(&mut lines);
        }
        for line in lines {
            if rng.chance(4) {
                let lines = propose(&self.book, &self.style, rng);
                self.queue.extend(lines.into_iter().filter(|line| line != b"O\n"));
            }
            if rng.chance(8 + self.style.damage / 2) {
                self.queue.push_back(damage(rng, &line));
            }
            self.queue.push_back(line);
        }
        // A few days are never opened, or once more than needed.
        if !rng.chance(2) {
            self.queue.push_back(b"O\n".to_vec());
        }
        if rng.chance(10) {
            self.queue.push_back(b"O\n".to_vec());
        }
    }

    /// Draws the next line and judges it; nothing after the last. The answer line is
    /// appended to `out`.
    pub fn step(&mut self, out: &mut Vec<u8>) -> Option<(Vec<u8>, Answer)> {
        self.left = self.left.checked_sub(1)?;
        while self.queue.is_empty() {
            self.queue.extend(propose(&self.book, &self.style, &mut self.rng));
        }
        let line = self.queue.pop_front()?;
        let answer = self.gate.record(&line, out);
        self.book.note(&line, &answer);
        Some((line, answer))
    }
}

/// All lines of a day.
pub fn lines(plan: Plan) -> Vec<Vec<u8>> {
    let mut maker = Maker::new(plan);
    let mut out = Vec::new();
    std::iter::from_fn(|| {
        out.clear();
        maker.step(&mut out).map(|(line, _)| line)
    })
    .collect()
}

#[cfg(test)]
mod tests {
    use super::*;
    use std::collections::BTreeMap;

    #[test]
    fn a_seed_and_an_index_give_one_day() {
        let day = |seed, index| lines(Plan::new(seed, index));
        assert_eq!(day(1, 5), day(1, 5));
        assert_ne!(day(1, 5), day(2, 5));
        assert_ne!(day(1, 5), day(1, 6));
    }

    #[test]
    fn days_meet_every_number() {
        let mut met = BTreeMap::new();
        for index in 0..200 {
            let mut maker = Maker::new(Plan::new(1, index));
            let mut out = Vec::new();
            while let Some((_, answer)) = maker.step(&mut out) {
                *met.entry(answer.number).or_insert(0) += 1;
            }
        }
        let numbers = (0..=14).chain(16..=20).chain(31..=36);
        assert!(met.keys().copied().eq(numbers), "{met:?}");
        assert!(met.values().all(|&times| times > 20), "{met:?}");
    }
}
