//! What the tests share: a day's worth of helpers and a small generator.
#![allow(dead_code)]

use peer::gate::Gate;
use peer::memory;

/// Turns the paper's spaces into tabs and adds the LF.
pub fn line(text: &str) -> Vec<u8> {
    let mut line = text.replace(' ', "\t").into_bytes();
    line.push(b'\n');
    line
}

/// The answer of one line, with spaces for tabs and without the LF.
pub fn say(gate: &mut Gate, text: &str) -> String {
    let mut out = Vec::new();
    gate.record(&line(text), &mut out);
    assert_eq!(out.pop(), Some(b'\n'));
    String::from_utf8(out).unwrap().replace('\t', " ")
}

/// The closing line of a group, with spaces.
pub fn close(gate: &Gate, place: usize) -> String {
    let mut out = Vec::new();
    assert!(gate.closing(place, &mut out));
    assert_eq!(out.pop(), Some(b'\n'));
    String::from_utf8(out).unwrap().replace('\t', " ")
}

/// A gate after these lines, all of which must pass.
pub fn after(room: usize, lines: &[&str]) -> Gate {
    let mut gate = Gate::new(room);
    for text in lines {
        let answer = say(&mut gate, text);
        assert!(answer.contains(" P 0 ") || answer.contains(" K 0 "), "{text}: {answer}");
    }
    gate
}

/// Every answer line and closing line of a day, by the gate.
pub fn day(input: &[u8], room: usize) -> Vec<u8> {
    let mut gate = Gate::new(room);
    let mut out = Vec::new();
    for line in input.split_inclusive(|&b| b == b'\n') {
        gate.record(line, &mut out);
    }
    for place in 0..gate.groups() {
        gate.closing(place, &mut out);
    }
    out
}

/// The same by the calls over lent words.
pub fn day_in_words(input: &[u8], room: usize) -> Vec<u8> {
    let mut mem = vec![!0; memory::words(room)];
    assert!(memory::fresh(&mut mem));
    let mut out = Vec::new();
    let mut buffer = [0; 96];
    for line in input.split_inclusive(|&b| b == b'\n') {
        let written = memory::record(&mut mem, line, &mut buffer[..32]);
        assert!(written > 0);
        out.extend_from_slice(&buffer[..written as usize]);
    }
    for place in 0.. {
        match memory::closing(&mem, place, &mut buffer) {
            -5 => break,
            written => out.extend_from_slice(&buffer[..usize::try_from(written).unwrap()]),
        }
    }
    out
}

/// Document 01's day: its lines, and its answer lines with the closing line.
pub fn document_01_day() -> [Vec<u8>; 2] {
    let input = "G ABCD 5000000000 5000000000 2000000000 2000000000 6000000000 6000000000 25000 N
S 7
O
Q 1 7 9990000 10000000
N T1 ABCD 7 B 100 10000000
N T1 ABCD 7 B 100 10000000
N T1 ABCD 7 B 200 10000000
N T2 ABCD 7 B 101 10000000
F 2 ABCD T1 40 9990000
F 2 ABCD T1 40 9990000
N T2 ABCD 7 B 101 10000000
D 4 ABCD T1 60
C T3 ABCD T1
D 3 ABCD T1 60
M T4 ABCD T1 100 10000000
";
    let expected = "G ABCD P 0 0
S 7 P 0 0
O - P 0 0
Q 1 K 0 0
N T1 P 0 1
N T1 P 0 0
N T1 R 6 0
N T2 R 33 0
F 2 K 0 0
F 2 S 0 0
N T2 R 33 0
D 4 R 18 0
C T3 P 0 1
D 3 K 0 0
M T4 R 9 0
E ABCD 399600000 0 0 0 N
";
    [input, expected].map(|text| text.replace(' ', "\t").into_bytes())
}

/// A xorshift generator.
pub struct Random(u64);

impl Random {
    pub fn new(seed: u64) -> Random {
        Random(seed.wrapping_mul(0x9e37_79b9_7f4a_7c15) | 1)
    }

    pub fn word(&mut self) -> u64 {
        self.0 ^= self.0 << 13;
        self.0 ^= self.0 >> 7;
        self.0 ^= self.0 << 17;
        self.0
    }

    pub fn below(&mut self, bound: u64) -> u64 {
        self.word() % bound
    }

    pub fn pick<T: Copy>(&mut self, from: &[T]) -> T {
        from[self.below(from.len() as u64) as usize]
    }
}

const MPIDS: [&str; 3] = ["ABCD", "WXYZ", "0000"];
const SYMBOLS: [u64; 3] = [7, 8, 4_294_967_295];
const SIZES: [u64; 6] = [1, 2, 40, 60, 100, 101];
const ODD_SIZES: [u64; 4] = [25_000, 25_001, 999_999, 1_000_000];
const PRICES: [u64; 4] = [9_990_000, 10_000_000, 10_010_000, 10_990_000];
const ODD_PRICES: [u64; 10] = [
    1,
    99,
    100,
    999_900,
    999_950,
    1_000_000,
    1_005_000,
    11_000_000,
    999_999_990_000,
    999_999_999_999,
];
const CEILING: u64 = 4_000_000_000_000_000_000;
const LIMITS: [u64; 5] = [0, 1_000_000_000, 5_000_000_000, 1_000_000_000_000, CEILING];

/// Lines of a random day: names from a small stock, so that they meet, and retries.
pub struct Days {
    pub random: Random,
    number: u64,
    told: Vec<String>,
    orders: Vec<(String, &'static str)>,
}

impl Days {
    pub fn new(seed: u64) -> Days {
        Days { random: Random::new(seed), number: 0, told: Vec::new(), orders: Vec::new() }
    }

    /// A line of the setup; some are refused.
    pub fn setup(&mut self) -> Vec<u8> {
        let r = &mut self.random;
        let text = match r.below(12) {
            0..=4 => {
                // No limits, one alone, or some.
                let (way, alone) = (r.below(6), r.below(6));
                let limits: Vec<String> = (0..6)
                    .map(|place| match way {
                        0 => CEILING,
                        1..=4 if place != alone => CEILING,
                        5 if r.below(4) > 0 => CEILING,
                        _ => r.pick(&LIMITS),
                    })
                    .map(|limit| limit.to_string())
                    .collect();
                let size = r.pick(&[100, 25_000, 1_000_000]);
                let short = r.pick(&["Y", "Y", "N"]);
                format!("G {} {} {size} {short}", r.pick(&MPIDS), limits.join(" "))
            }
            5..=9 => format!("S {}", r.pick(&SYMBOLS)),
            10 => "N T1 ABCD 7 B 100 10000000".to_string(),
            _ => "Q 1 7 0 0".to_string(),
        };
        line(&text)
    }

    /// A line after O: one in ten is told again, and one in forty is broken.
    pub fn line(&mut self) -> Vec<u8> {
        let r = &mut self.random;
        if r.below(10) == 0 && !self.told.is_empty() {
            return line(&self.told[r.below(self.told.len() as u64) as usize]);
        }
        let id = format!("T{}", r.below(150));
        let mut mpid = if r.below(30) == 0 { "NOPE" } else { r.pick(&MPIDS) };
        let symbol = if r.below(30) == 0 { 99 } else { r.pick(&SYMBOLS) };
        let size = if r.below(20) == 0 { r.pick(&ODD_SIZES) } else { r.pick(&SIZES) };
        let price = if r.below(10) == 0 { r.pick(&ODD_PRICES) } else { r.pick(&PRICES) };
        let mut target = format!("T{}", r.below(150));
        if r.below(5) > 0 && !self.orders.is_empty() {
            let at = r.below(self.orders.len() as u64) as usize;
            target = self.orders[at].0.clone();
            if r.below(20) > 0 {
                mpid = self.orders[at].1;
            }
        }
        let number = match r.below(20) {
            0 => self.number.max(1),
            1 => self.number + 2,
            _ => self.number + 1,
        };
        let kind = r.below(40);
        let text = match kind {
            0..=12 => {
                let side = r.pick(&["B", "B", "S", "H", "E"]);
                self.orders.push((id.clone(), mpid));
                format!("N {id} {mpid} {symbol} {side} {size} {price}")
            }
            13..=18 => format!("M {id} {mpid} {target} {size} {price}"),
            19..=21 => format!("C {id} {mpid} {target}"),
            22 => format!("B {id} {mpid}"),
            23..=25 => format!("R {id} {mpid}"),
            26..=28 => {
                let (bid, offer) = (r.pick(&[0, 1, price]), r.pick(&[0, 999_999_999_999, price]));
                format!("Q {number} {symbol} {bid} {offer}")
            }
            29..=34 => format!("F {number} {mpid} {target} {size} {price}"),
            35..=36 => format!("D {number} {mpid} {target} {size}"),
            37..=38 => format!("H {number} {mpid} {target}"),
            _ => format!("N {id} {mpid} {symbol} B 0 {price}"),
        };
        if (26..39).contains(&kind) && number == self.number + 1 {
            self.number = number;
        }
        self.told.push(text.clone());
        line(&text)
    }
}
