//! Lines, and what they are made of.

use super::rng::Rng;
use super::style::Style;
use super::{CEILING, MOST_PRICE, MOST_SIZE};

/// The greatest price that an N or M may have.
pub const TOP_PRICE: u64 = 999_999_990_000;

/// Prices on both sides of a line.
#[rustfmt::skip]
pub const EDGE_PRICES: [u64; 22] = [
    1, 99, 100, 101, 150, 199, 200, 999_800, 999_900, 999_950, 999_999, 1_000_000, 1_000_100,
    1_005_000, 1_009_999, 1_010_000, 999_999_980_000, 999_999_989_999, TOP_PRICE, TOP_PRICE + 1,
    MOST_PRICE - 1, MOST_PRICE,
];

/// A line, field by field.
pub struct Line(Vec<u8>);

impl Line {
    /// Begins with its kind.
    pub fn new(kind: u8) -> Line {
        Line(vec![kind])
    }

    /// A field of text.
    pub fn text(mut self, text: &[u8]) -> Line {
        self.0.push(b'\t');
        self.0.extend_from_slice(text);
        self
    }

    /// A field with a number.
    pub fn number(self, number: u64) -> Line {
        self.text(number.to_string().as_bytes())
    }

    /// Ends with its LF.
    pub fn end(mut self) -> Vec<u8> {
        self.0.push(b'\n');
        self.0
    }
}

/// The step between prices at this price.
pub fn tick(price: u64) -> u64 {
    match price < 1_000_000 {
        true => 100,
        false => 10_000,
    }
}

/// The price on tick at or below this one, in range.
pub fn on_tick(price: u64) -> u64 {
    (price - price % tick(price)).clamp(100, TOP_PRICE)
}

/// A group's line.
pub fn group_line(mpid: &[u8], limits: [u64; 6], most_size: u64, short_sales: bool) -> Vec<u8> {
    let mut line = Line::new(b'G').text(mpid);
    for limit in limits {
        line = line.number(limit);
    }
    line.number(most_size).text(if short_sales { b"Y" } else { b"N" }).end()
}

/// A group with limits of some kind, for the setup.
pub fn any_group(rng: &mut Rng, style: &Style, mpid: &[u8]) -> Vec<u8> {
    let mut limits = [CEILING; 6];
    let grid = |rng: &mut Rng| rng.between(1, 40) * 10_000_000 + rng.pick(&[0, 0, 1]);
    let typical = |rng: &mut Rng| rng.between(1_000, 5_000_000) * 10_000 - rng.pick(&[0, 0, 1, 99]);
    match style.limits(rng) {
        0 => {}
        1 => limits[rng.index(6)] = grid(rng) - rng.pick(&[0, 1]),
        2 => limits = limits.map(|_| grid(rng) - rng.pick(&[0, 1])),
        3 => limits = limits.map(|_| typical(rng)),
        4 => limits[rng.index(6)] = rng.pick(&[0, 0, 1, 99, 100, 10_000]),
        5 => limits = limits.map(|_| rng.spread(CEILING)),
        _ => limits[rng.index(6)] = CEILING - rng.spread(1_000_000_000_000),
    }
    let most_size = match rng.below(10) {
        0 => 1,
        1 => 100,
        2 => 25_000,
        3 => rng.spread(MOST_SIZE),
        _ => MOST_SIZE,
    };
    group_line(mpid, limits, most_size, rng.chance(65))
}

/// Any MPID.
pub fn any_mpid(rng: &mut Rng) -> [u8; 4] {
    const LETTERS: &[u8; 36] = b"ABCDEFGHIJKLMNOPQRSTUVWXYZ0123456789";
    match rng.below(12) {
        0 => rng.pick(&[*b"AAAA", *b"ZZZZ", *b"0000", *b"9999", *b"A000", *b"0A9Z"]),
        1 => [b'M', b'M', rng.pick(b"01"), rng.pick(LETTERS)],
        _ => [(); 4].map(|_| rng.pick(LETTERS)),
    }
}

/// Any byte of an identifier.
pub fn any_byte(rng: &mut Rng) -> u8 {
    match rng.between(33, 125) as u8 {
        b'|' => b'~',
        byte => byte,
    }
}
