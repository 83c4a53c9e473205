//! The days and the states that are timed: no limit stops an order, and orders are told by their numbers.

use crate::days::rng::Rng;
use crate::days::CEILING;
use crate::gate::Gate;
use crate::memory;
use std::fmt::Write as _;

const GROUPS: usize = 8;
const SYMBOLS: u64 = 64;
/// The number of the last notice of setup.
pub const NOTICES: u64 = SYMBOLS;

/// The places that the small and the large day have room for.
pub const ROOM: usize = 400;
/// The places of the greatest table.
pub const GREATEST: usize = memory::MOST_PLACES;

fn mpid(group: u64) -> String {
    format!("DSK{}", (b'A' + group as u8) as char)
}

/// The lines of setup: groups that no limit stops, symbols, the opening, and a quote of 10.00 for each symbol.
fn setup() -> Vec<String> {
    let mut lines = Vec::new();
    for group in 0..GROUPS as u64 {
        let mut line = format!("G\t{}", mpid(group));
        for _ in 0..6 {
            let _ = write!(line, "\t{CEILING}");
        }
        lines.push(line + "\t1000000\tY\n");
    }
    lines.extend((1..=SYMBOLS).map(|symbol| format!("S\t{symbol}\n")));
    lines.push("O\n".into());
    lines.extend((1..=SYMBOLS).map(|n| format!("Q\t{n}\t{n}\t9990000\t10000000\n")));
    lines
}

fn desk_of(order: u64) -> String {
    mpid(order % GROUPS as u64)
}

/// The N of an order, told by its number.
pub fn order(number: u64) -> String {
    let side = if number.is_multiple_of(2) { 'B' } else { 'S' };
    format!(
        "N\tORDER-{number:07}\t{}\t{}\t{side}\t1000000\t10000000\n",
        desk_of(number),
        1 + number % SYMBOLS
    )
}

/// A notice of this number: one share of an order is filled.
pub fn fill(notice: u64, order: u64) -> String {
    format!("F\t{notice}\t{}\tORDER-{order:07}\t1\t9990000\n", desk_of(order))
}

/// The lines of trading, over orders that are numbered from 0: of twenty, five orders (a retry, or 7, once the table is full), five retries, five
/// fills, two reductions, two quotes and one line that breaks a form.
fn trading(
    draw: &mut Rng,
    lines: usize,
    mut orders: u64,
    places: u64,
    mut notice: u64,
) -> Vec<String> {
    let mut day = Vec::with_capacity(lines);
    for _ in 0..lines {
        let some = draw.below(orders.clamp(1, places));
        let desk = desk_of(some);
        let mut number = || {
            notice += 1;
            notice
        };
        day.push(match draw.below(20) {
            0..=4 => {
                orders += 1;
                order(orders - 1)
            }
            5..=9 => order(some),
            10..=14 => fill(number(), some),
            15..=16 => format!("D\t{}\t{desk}\tORDER-{some:07}\t1\n", number()),
            17..=18 => format!("Q\t{}\t{}\t9990000\t10000000\n", number(), 1 + draw.below(SYMBOLS)),
            _ => "N\tORDER\t\n".into(),
        });
    }
    day
}

fn day(seed: u64, lines: usize) -> Vec<String> {
    let mut day = setup();
    let more = lines - day.len();
    day.extend(trading(&mut Rng::new(seed, 0, 0), more, 0, ROOM as u64, SYMBOLS));
    day
}

/// A day of 1,000 lines from a fresh state, which leaves places free.
pub fn small() -> Vec<String> {
    day(1, 1_000)
}

/// A day of 300,000 lines from a fresh state, which takes every place after some 1,600 of them.
pub fn large() -> Vec<String> {
    day(2, 300_000)
}

/// So many lines over the greatest table, whose every place is taken; fewer are the first of more.
pub fn over(lines: usize) -> Vec<String> {
    let places = GREATEST as u64;
    trading(&mut Rng::new(3, 0, 0), lines, places, places, SYMBOLS)
}

/// The words of a state with so many places, of which so many are taken.
pub fn traded(places: usize, taken: u64) -> Vec<u64> {
    let mut gate = Gate::new(places);
    let mut answer = Vec::new();
    for line in setup().into_iter().chain((0..taken).map(order)) {
        answer.clear();
        gate.record(line.as_bytes(), &mut answer);
    }
    let mut words = vec![0; memory::words(places)];
    memory::store(&gate, &mut words);
    words
}
