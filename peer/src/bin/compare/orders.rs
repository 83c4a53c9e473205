//! Orders and messages to compare: right ones, such with something altered, random ones, and
//! every length.

use peer::days::damage::damage;
use peer::days::pieces::{any_byte, any_mpid, Line};
use peer::days::rng::Rng;
use peer::days::{lines, Plan, MOST_NUMBER, MOST_PRICE, MOST_SIZE};
use peer::line::{self, Record};
use peer::message::{self, Field, BYTES, TYPE, WORDS, ZEROS};

use crate::lengths;
use crate::messages::{Batch, Call};
use crate::worker::{AT_START, LINE_READ_ONLY};

/// Calls of one batch.
pub const CALLS: usize = 250;
/// House messages, messages and buffers have 0 to so many bytes.
pub const MOST_BYTES: usize = 200;
/// Messages are read to 0 to so many words.
pub const MOST_WORDS: usize = 16;

/// The parts of what is gone through one by one.
pub const PARTS: usize = 2 * (FIRST_BASE + BASES.len());
const FIRST_BASE: usize = 5;

/// Messages whose every byte is given every value.
const BASES: [&[u8]; 4] = [
    b"N\tT1\tABCD\t7\tB\t100\t10000000\n",
    b"N\t12345678901234567890\tZZ99\t4294967295\tS\t1000000\t999999999999\n",
    b"N\t!\t0000\t1\tH\t1\t1\n",
    b"N\t1234567890123456789\tA0Z9\t65536\tE\t65536\t4294967296\n",
];

/// The plain order.
pub const PLAIN_LINE: &[u8] = BASES[0];

/// A house message for a displayed limit order of regular hours that is not routed.
pub fn plain_house() -> Vec<u8> {
    let mut house = vec![0; BYTES];
    let mut put = |field: Field, bytes: &[u8]| house[field.place()].copy_from_slice(bytes);
    put(Field::MessageType, &TYPE);
    put(Field::Mpid, b"    ");
    put(Field::OrderInstructions, &[1 << 3, 0]);
    put(Field::TimeInForce, b"R");
    put(Field::OrderType, b"1");
    put(Field::PriceSliding, b"N");
    put(Field::SelfTradeProtectionGroup, b" ");
    put(Field::Routing, &[2]);
    put(Field::Capacity, b"A");
    put(Field::PurgeGroup, b" ");
    house
}

/// The plain order's message.
pub fn plain_message() -> Vec<u8> {
    written(PLAIN_LINE, &plain_house())
}

/// The message of a line, by the peer.
fn written(line: &[u8], house: &[u8]) -> Vec<u8> {
    let mut message = vec![0; BYTES];
    message::write(line, house, &mut message);
    message
}

/// One part of what is gone through: both sides of the guard pages, then every length of a
/// house message, of the output, of a line and of a message, and every byte.
pub fn sweep(part: usize) -> Batch {
    let mut rng = Rng::new(part as u64, 8, 0);
    let changed = |bytes: &[u8], at: usize, byte: u8| {
        let mut bytes = bytes.to_vec();
        bytes[at] = byte;
        bytes
    };
    let house = any_house(&mut rng);
    let other_house = changed(&house, 1, b'2');
    let message = written(PLAIN_LINE, &house);
    let other = changed(&message, 0, b'n');
    let broken = changed(&message, Field::PurgeGroup.place().start, b'A');
    let write = |line: &[u8], house: &[u8], size| {
        let (line, house) = (line.to_vec(), house.to_vec());
        Call::Write { line, house, size }
    };
    let read = |message: &[u8], count| Call::Read { message: message.to_vec(), count };
    let no_order = b"N\tT1\tABCD\t7\tB\t0\t10000000\n";
    let mut calls = Vec::new();
    match part / 2 {
        0 => {
            for length in 0..=MOST_BYTES {
                for mut house in [house.clone(), other_house.clone(), plain_house()] {
                    house.resize_with(length, || rng.draw() as u8);
                    calls.push(write(PLAIN_LINE, &house, BYTES));
                    calls.push(write(no_order, &house, BYTES));
                    calls.push(write(PLAIN_LINE, &house, BYTES - 1));
                }
            }
        }
        1 => {
            for size in 0..=MOST_BYTES {
                calls.push(write(PLAIN_LINE, &house, size));
                calls.push(write(PLAIN_LINE, &other_house, size));
                calls.push(write(no_order, &house, size));
            }
            for count in 0..=MOST_WORDS {
                calls.extend([&message, &other, &broken].map(|message| read(message, count)));
            }
        }
        2 => {
            for content in 0..lengths::CONTENTS {
                for length in 0..=lengths::MOST_LINE {
                    let line = lengths::line(content, length, &mut rng);
                    calls.push(write(&line, &house, BYTES));
                }
            }
        }
        3 => {
            for length in 0..=MOST_BYTES {
                for message in [&message, &other, &broken] {
                    let mut zeros = message.clone();
                    zeros.resize(length, 0);
                    let mut any = message.clone();
                    any.resize_with(length, || rng.draw() as u8);
                    calls.extend([read(&zeros, WORDS), read(&any, WORDS), read(&any, 0)]);
                }
            }
        }
        // Identifiers of every length, with every byte at their end.
        4 => {
            let place = Field::ClientOrderId.place();
            for length in 0..=place.len() {
                for byte in 0..=255 {
                    let mut message = message.clone();
                    message[place.clone()].fill(0);
                    message[place.start..place.start + length].fill(b'x');
                    if let Some(last) = length.checked_sub(1) {
                        message[place.start + last] = byte;
                    }
                    calls.push(read(&message, WORDS));
                }
            }
        }
        base => {
            // Half of the bytes on either side of the guard pages.
            let message = written(BASES[base - FIRST_BASE], &house);
            for at in (0..BYTES).filter(|at| at % 2 == part % 2) {
                calls.extend((0..=255).map(|byte| read(&changed(&message, at, byte), WORDS)));
            }
        }
    }
    let read_only = if part % 4 < 2 { 0 } else { LINE_READ_ONLY };
    Batch { mode: [0, AT_START][part % 2] | read_only, pattern: 0xA5, calls }
}

/// The batch of this index.
pub fn make(seed: u64, index: u64, calls: usize) -> Batch {
    let mut rng = Rng::new(seed, 7, index);
    let mut mode = rng.pick(&[0, AT_START]);
    if rng.chance(20) {
        mode |= LINE_READ_ONLY;
    }
    let pattern = rng.pick(b"\xAA\x00\xFF\n0 ");
    // A day's lines.
    let plan = Plan::new(seed, index);
    let most = plan.setup() + 100;
    let day = lines(plan.with_lines(most));
    let order = |line: &Vec<u8>| matches!(line::read(line), Some(Record::N { .. }));
    let (orders, others) = day.into_iter().partition(order);
    let mut drawing = Drawing { rng, orders, others };
    let draw = |i: usize| match i % 2 {
        0 => drawing.write(),
        _ => drawing.read(),
    };
    Batch { mode, pattern, calls: (0..calls).map(draw).collect() }
}

/// A number of a field with this most.
fn any_number(rng: &mut Rng, most: u64) -> u64 {
    match rng.below(8) {
        0 => 1,
        1 => most,
        2 => most - rng.below(300),
        3 => rng.between(1, most),
        _ => rng.spread(most),
    }
}

/// An N with anything in its fields.
fn any_order(rng: &mut Rng) -> Vec<u8> {
    let any = rng.between(1, 20);
    let length = rng.pick(&[1, 20, any, any]);
    let id: Vec<u8> = (0..length).map(|_| any_byte(rng)).collect();
    let line = Line::new(b'N').text(&id).text(&any_mpid(rng)).number(any_number(rng, MOST_NUMBER));
    let line = line.text(&[rng.pick(b"BSHE")]).number(any_number(rng, MOST_SIZE));
    line.number(any_number(rng, MOST_PRICE)).end()
}

/// A house message, with anything in its fields.
fn any_house(rng: &mut Rng) -> Vec<u8> {
    let mut house = match rng.below(10) {
        0 => plain_house(),
        1 => vec![rng.pick(&[0, b' ', b'A', 0xFF]); BYTES],
        _ => (0..BYTES).map(|_| rng.draw() as u8).collect(),
    };
    house[Field::MessageType.place()].copy_from_slice(&TYPE);
    house
}

/// Another type or another length.
fn spoil_layout(rng: &mut Rng, bytes: &mut Vec<u8>) {
    match rng.below(6) {
        0 => {
            bytes[..2].copy_from_slice(rng.pick(&[b"n1", b"1N", b"N2", b"O1", b"NR", b"N ", b" N"]))
        }
        1 => bytes[rng.index(2)] ^= 1 << rng.below(8),
        2 => bytes[..2].copy_from_slice(&(rng.draw() as u16).to_le_bytes()),
        3 => bytes.truncate(BYTES - 1),
        4 => bytes.push(rng.pick(&[0, b' ', b'N'])),
        _ => bytes.resize_with(rng.index(MOST_BYTES + 1), || rng.draw() as u8),
    }
}

/// Bytes on both sides of the edges of every text, and some that no text has.
#[rustfmt::skip]
const BYTES_OF_TEXT: [u8; 24] = [
    0, 0, 1, 9, 10, 31, 32, 32, 33, 47, 48, 57, 58, 64, 65, 90, 91, 97, 122, 124, 126, 127, 128,
    255,
];

/// What calls are drawn from.
struct Drawing {
    rng: Rng,
    orders: Vec<Vec<u8>>,
    others: Vec<Vec<u8>>,
}

impl Drawing {
    fn order(&mut self) -> Vec<u8> {
        match self.orders.get(self.rng.index(self.orders.len())) {
            Some(line) if self.rng.chance(40) => line.clone(),
            _ => any_order(&mut self.rng),
        }
    }

    /// A line that mostly is no N.
    fn other(&mut self) -> Vec<u8> {
        let order = self.order();
        match self.others.get(self.rng.index(self.others.len())) {
            Some(line) if self.rng.chance(30) => match self.rng.chance(80) {
                true => line.clone(),
                false => damage(&mut self.rng, line),
            },
            _ => damage(&mut self.rng, &order),
        }
    }

    /// Which of three things are wrong: mostly none or one.
    fn wrong(&mut self) -> [bool; 3] {
        match self.rng.below(20) {
            0 => [true, false, false],
            1..=3 => [false, true, false],
            4 => [false, false, true],
            5 | 6 => [(); 3].map(|()| self.rng.chance(50)),
            _ => [false; 3],
        }
    }

    fn write(&mut self) -> Call {
        let [house_wrong, line_wrong, short] = self.wrong();
        let mut house = any_house(&mut self.rng);
        if house_wrong {
            spoil_layout(&mut self.rng, &mut house);
        }
        let line = if line_wrong { self.other() } else { self.order() };
        let size = self.length(short, BYTES, MOST_BYTES);
        Call::Write { line, house, size }
    }

    fn read(&mut self) -> Call {
        let [layout_wrong, field_wrong, short] = self.wrong();
        let (order, house) = (self.order(), any_house(&mut self.rng));
        let mut message = written(&order, &house);
        if field_wrong || self.rng.chance(50) {
            self.alter(&mut message);
        }
        if layout_wrong {
            spoil_layout(&mut self.rng, &mut message);
        }
        Call::Read { message, count: self.length(short, WORDS, MOST_WORDS) }
    }

    /// A length of the output: mostly the least that is enough.
    fn length(&mut self, short: bool, least: usize, most: usize) -> usize {
        match (short, self.rng.below(4)) {
            (true, 0) => least - 1,
            (true, _) => self.rng.index(least),
            (false, 0) => self.rng.between(least as u64, most as u64) as usize,
            _ => least,
        }
    }

    /// Alters a message.
    fn alter(&mut self, message: &mut [u8]) {
        match self.rng.weighted(&[20, 8, 14, 6, 10, 10, 16, 4, 2]) {
            0 => self.any_byte(message),
            1 => (0..self.rng.between(2, 4)).for_each(|_| self.any_byte(message)),
            2 => self.identifier(message),
            3 => self.text_byte(message, Field::Mpid),
            4 => {
                // Side bits, with or without the other instructions.
                let at = Field::OrderInstructions.place().start;
                message[at] = match self.rng.chance(50) {
                    true => self.rng.draw() as u8,
                    false => message[at] & !7 | self.rng.below(8) as u8,
                };
            }
            5 => self.number(message),
            6 => {
                // What is always the same, and what stands beside it.
                let field = self.rng.pick(&ZEROS);
                let place = field.place();
                match self.rng.below(6) {
                    0 => message[place.start] = 1,
                    1 => message[place.end - 1] = self.rng.pick(&[1, 0x80, 0xFF]),
                    2 => message[place].fill(0xFF),
                    3 => message[place.start - 1] ^= 1,
                    4 => self.text_byte(message, Field::PurgeGroup),
                    _ => {
                        message[place.start + self.rng.index(place.len())] |= 1 << self.rng.below(8)
                    }
                }
            }
            7 => (0..8).for_each(|_| self.alter_one(message)),
            _ => message[2..].fill_with(|| self.rng.draw() as u8),
        }
    }

    /// One byte of one field that says something of the order.
    fn alter_one(&mut self, message: &mut [u8]) {
        let field = self.rng.pick(&[Field::Mpid, Field::ClientOrderId, Field::PurgeGroup]);
        match self.rng.chance(50) {
            true => self.text_byte(message, field),
            false => self.number(message),
        }
    }

    /// Any byte but the type's.
    fn any_byte(&mut self, message: &mut [u8]) {
        let at = 2 + self.rng.index(BYTES - 2);
        message[at] = match self.rng.below(3) {
            0 => self.rng.pick(&BYTES_OF_TEXT),
            1 => message[at] ^ 1 << self.rng.below(8),
            _ => self.rng.draw() as u8,
        };
    }

    fn text_byte(&mut self, message: &mut [u8], field: Field) {
        let place = field.place();
        message[place.start + self.rng.index(place.len())] = self.rng.pick(&BYTES_OF_TEXT);
    }

    /// The Client Order ID, and what comes after it.
    fn identifier(&mut self, message: &mut [u8]) {
        let place = Field::ClientOrderId.place();
        let text = &mut message[place];
        let end = text.iter().position(|&b| b == 0).unwrap_or(text.len());
        let byte = self.rng.pick(&BYTES_OF_TEXT);
        match self.rng.below(8) {
            0 => text.fill(0),
            1 => text[0] = byte,
            // The last byte, the one after it, the one after that, and the field's last.
            2 => text[end.saturating_sub(1)] = byte,
            3 if end < text.len() => text[end] = byte,
            4 if end + 1 < text.len() => text[end + 1] = byte,
            5 => text[text.len() - 1] = byte,
            // Spaces or anything else up to the field's end.
            6 => text[end..].fill(self.rng.pick(&[b' ', byte])),
            _ => text[self.rng.index(text.len())] = byte,
        }
    }

    /// A number at the edge of its range, past it, or with a high byte that is easily lost.
    fn number(&mut self, message: &mut [u8]) {
        let (field, most) = self.rng.pick(&[
            (Field::SymbolId, MOST_NUMBER),
            (Field::Size, MOST_SIZE),
            (Field::Size, MOST_SIZE),
            (Field::Price, MOST_PRICE),
            (Field::Price, MOST_PRICE),
        ]);
        let high = 1 << self.rng.between(16, 63);
        let number = match self.rng.below(8) {
            0 | 1 => 0,
            2 => 1,
            3 => most,
            4 => most + 1,
            5 => most + self.rng.spread(1_000_000),
            6 => high | any_number(&mut self.rng, most),
            _ => u64::MAX >> self.rng.below(64),
        };
        let length = field.row().length;
        message[field.place()].copy_from_slice(&number.to_le_bytes()[..length]);
    }
}

#[cfg(test)]
mod tests {
    use super::*;
    use crate::messages::Answers;
    use crate::wrong::Wrong;

    #[test]
    fn every_answer_is_met() {
        let mut answers = Answers::default();
        for index in 0..100 {
            for call in make(2, index, CALLS).calls {
                answers.add(&call, &call.peer(0xAA, Wrong::No));
            }
        }
        assert_eq!(answers.never(), [""; 0]);
    }

    #[test]
    fn every_byte_and_every_length_is_gone_through() {
        let (mut lengths, mut sizes) = ([0; MOST_BYTES + 1], [0; MOST_BYTES + 1]);
        let (mut houses, mut counts) = ([0; MOST_BYTES + 1], [0; MOST_WORDS + 1]);
        let mut values = vec![[0; 256]; BYTES];
        for call in (0..PARTS).flat_map(|part| sweep(part).calls) {
            match call {
                Call::Write { house, size, .. } => {
                    houses[house.len()] += 1;
                    sizes[size] += 1;
                }
                Call::Read { message, count } => {
                    lengths[message.len()] += 1;
                    counts[count] += 1;
                    for (at, &byte) in message.iter().enumerate().take(BYTES) {
                        values[at][usize::from(byte)] += 1;
                    }
                }
            }
        }
        for met in [&lengths[..], &sizes, &houses, &counts] {
            assert!(met.iter().all(|&n| n > 0));
        }
        assert!(values.iter().flatten().all(|&n| n > 0));
    }

    #[test]
    fn the_plain_ones_are_right() {
        assert_eq!(message::write(PLAIN_LINE, &plain_house(), &mut [0; BYTES]), 131);
        assert_eq!(message::read(&plain_message(), &mut [0; WORDS]), 8);
    }
}
