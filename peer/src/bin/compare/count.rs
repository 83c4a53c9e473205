//! How often each kind of record met each number.

use std::collections::BTreeMap;

use peer::gate::Answer;

const KINDS: &[u8; 13] = b"?GSONMCBRQFDH";

/// What a row counts: an outcome without a number, or a number.
#[derive(Clone, Copy, PartialEq, Eq, PartialOrd, Ord)]
enum Row {
    Passed,
    /// A request that is not sent again.
    Again,
    Booked,
    Seen,
    Number(u8),
}

use Row::Number;

/// The kinds that can have a row's outcome. Number 15 is no longer given; 31 to 36 stand in
/// its place (document 02, order 1).
const POSSIBLE: [(Row, &str); 29] = [
    (Row::Passed, "GSONMCBR"),
    (Row::Again, "NMC"),
    (Row::Booked, "QFDH"),
    (Row::Seen, "QFDH"),
    (Number(1), "?"),
    (Number(2), "GSONMCBRQFDH"),
    (Number(3), "GS"),
    (Number(4), "GS"),
    (Number(5), "NMCBRFDH"),
    (Number(6), "NMCBR"),
    (Number(7), "NMCBR"),
    (Number(8), "NQ"),
    (Number(9), "MCFDH"),
    (Number(10), "NM"),
    (Number(11), "N"),
    (Number(12), "NM"),
    (Number(13), "NM"),
    (Number(14), "NM"),
    (Number(16), "M"),
    (Number(17), "MC"),
    (Number(18), "QFDH"),
    (Number(19), "FD"),
    (Number(20), "F"),
    (Number(31), "NM"),
    (Number(32), "NM"),
    (Number(33), "NM"),
    (Number(34), "NM"),
    (Number(35), "NM"),
    (Number(36), "NM"),
];

/// The numbers that a record can be given.
pub fn numbers() -> impl Iterator<Item = u8> {
    POSSIBLE.into_iter().filter_map(|(row, _)| match row {
        Number(number) => Some(number),
        _ => None,
    })
}

fn possible(row: Row, kind: u8) -> bool {
    POSSIBLE.iter().any(|(r, kinds)| *r == row && kinds.as_bytes().contains(&kind))
}

/// The table. A number that is not expected has a row as soon as it is met.
#[derive(Clone)]
pub struct Counts {
    rows: BTreeMap<Row, [u64; KINDS.len()]>,
}

impl Default for Counts {
    fn default() -> Counts {
        Counts { rows: POSSIBLE.iter().map(|&(row, _)| (row, [0; KINDS.len()])).collect() }
    }
}

impl Counts {
    /// Counts one answer to a record of this kind (`?` for number 1).
    pub fn add(&mut self, kind: u8, answer: &Answer) {
        let row = match answer.outcome {
            b'P' if !answer.sent && b"NMC".contains(&kind) => Row::Again,
            b'P' => Row::Passed,
            b'K' => Row::Booked,
            b'S' => Row::Seen,
            _ => Number(answer.number),
        };
        if let Some(column) = KINDS.iter().position(|&k| k == kind) {
            self.rows.entry(row).or_default()[column] += 1;
        }
    }

    pub fn merge(&mut self, other: &Counts) {
        for (&row, more) in &other.rows {
            for (cell, n) in self.rows.entry(row).or_default().iter_mut().zip(more) {
                *cell += n;
            }
        }
    }

    /// What can happen and did not.
    pub fn never(&self) -> Vec<String> {
        let mut never = Vec::new();
        for (&row, cells) in &self.rows {
            for (&kind, &n) in KINDS.iter().zip(cells) {
                if n == 0 && possible(row, kind) {
                    never.push(format!("{} {}", char::from(kind), name(row)));
                }
            }
        }
        never
    }

    /// The table for people; a blank is what cannot happen.
    pub fn text(&self) -> String {
        let mut text = format!("{:8}", "");
        for &kind in KINDS {
            text += &format!("{:>8}", char::from(kind));
        }
        text += &format!("{:>9}\n", "all");
        for (&row, cells) in &self.rows {
            text += &format!("{:8}", name(row));
            for (&kind, &n) in KINDS.iter().zip(cells) {
                match n == 0 && !possible(row, kind) {
                    true => text += &format!("{:8}", ""),
                    false => text += &format!("{n:8}"),
                }
            }
            text += &format!("{:9}\n", cells.iter().sum::<u64>());
        }
        text
    }
}

fn name(row: Row) -> String {
    match row {
        Row::Passed => "P".to_string(),
        Row::Again => "P again".to_string(),
        Row::Booked => "K".to_string(),
        Row::Seen => "S".to_string(),
        Number(number) => number.to_string(),
    }
}

#[cfg(test)]
mod tests {
    use super::*;
    use peer::days::{Maker, Plan};

    #[test]
    fn days_stay_in_the_table() {
        let mut counts = Counts::default();
        for index in 0..160 {
            let mut maker = Maker::new(Plan::new(2, index));
            let mut out = Vec::new();
            while let Some((_, answer)) = maker.step(&mut out) {
                counts.add(out[0], &answer);
                out.clear();
            }
        }
        for (&row, cells) in &counts.rows {
            for (&kind, &n) in KINDS.iter().zip(cells) {
                let cell = format!("{} {}", char::from(kind), name(row));
                assert!(n == 0 || possible(row, kind), "{cell}");
            }
        }
        assert_eq!(counts.never(), [""; 0]);
    }
}
