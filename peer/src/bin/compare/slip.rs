//! Ways in which the peer's side of order messages can be made wrong on purpose.

use peer::days::{MOST_PRICE, MOST_SIZE};
use peer::message::{self, faults, Fault, Field, BYTES, ROWS, TYPE, WORDS, ZEROS};

use crate::messages::name;
use crate::orders::{plain_house, PLAIN_LINE};

/// What is wrong.
#[derive(Clone, Copy, PartialEq, Eq, Debug)]
pub enum Slip {
    /// This number is answered as the next one.
    Number(i64),

    // ---- writing ----
    /// The price has its highest byte first.
    WritePrice,
    /// The size stands one byte further on.
    WriteSize,
    /// A sell is written as a sell short.
    WriteSide,
    /// The identifier has spaces after it.
    WriteSpaces,
    /// The house message's other instructions are lost.
    Instructions,
    /// This bit of them is lost.
    Bit(u32),
    /// The house message's value of a field is lost.
    Lost(Field),
    /// A field that is always the same is taken from the house message.
    Taken(Field),
    /// A line without its LF is taken.
    NoEnd,
    /// A house message of another type is taken.
    HouseType,
    /// A house message of this length is taken.
    HouseLength(usize),
    /// A buffer that is too short by one is taken.
    ShortBuffer,
    /// A buffer that is just long enough is refused.
    LongBuffer,
    /// The refusals are tried in this order.
    WriteOrder([i64; 3]),

    // ---- reading ----
    /// The price is taken with its highest byte first.
    ReadPrice,
    /// The size is taken one byte further on.
    ReadSize,
    /// A sell short exempt is taken for a sell short.
    ReadSide,
    /// The identifier's end is its last byte.
    ReadEnd,
    /// Something that is wrong is let pass.
    Passed(Fault),
    /// These side bits are let pass.
    Side(u8),
    /// The number above the greatest of a field is let pass.
    Above(Field),
    /// This byte is let pass in a field.
    Byte(Field, u8),
    /// A message of another type is taken.
    MessageType,
    /// A message of this length is taken.
    MessageLength(usize),
    /// Words that are too few by one are taken.
    FewWords,
    /// Words that are just enough are refused.
    ManyWords,
    /// The refusals are tried in this order.
    ReadOrder([i64; 3]),
}

/// Every way, for people.
pub fn all() -> Vec<(Slip, String)> {
    let field = |field: Field| field.row().name;
    let text = |(slip, what): (Slip, &str)| (slip, what.to_string());
    let numbers = [41, 42, 43];
    let mut all: Vec<_> =
        numbers.map(|n| (Slip::Number(n), format!("number {n} answered as {}", n + 1))).to_vec();
    let first = [
        (Slip::WritePrice, "a price written with its highest byte first"),
        (Slip::WriteSize, "a size written one byte further on"),
        (Slip::WriteSide, "a sell written as a sell short"),
        (Slip::WriteSpaces, "an identifier written with spaces after it"),
        (Slip::Instructions, "the house message's other instructions lost"),
        (Slip::Bit(3), "bit 3 of the house message's instructions lost"),
        (Slip::Bit(15), "bit 15 of the house message's instructions lost"),
    ];
    all.extend(first.map(text));
    all.extend(ROWS.map(|row| row.field).into_iter().filter(|&f| from_house(f)).map(|f| {
        let at = f.place().start;
        (Slip::Lost(f), format!("the house message's {} (at {at}) lost", field(f)))
    }));
    all.extend(
        ZEROS
            .into_iter()
            .chain([Field::PurgeGroup])
            .map(|f| (Slip::Taken(f), format!("{} taken from the house message", field(f)))),
    );
    let rest = [
        (Slip::NoEnd, "a line without its LF written"),
        (Slip::HouseType, "a house message of another type taken"),
        (Slip::HouseLength(BYTES - 1), "a house message of 130 bytes taken"),
        (Slip::HouseLength(BYTES + 1), "a house message of 132 bytes taken"),
        (Slip::ShortBuffer, "an order written to 130 bytes"),
        (Slip::LongBuffer, "a buffer of 131 bytes refused"),
        (Slip::WriteOrder([42, 41, 43]), "42 before 41 in writing"),
        (Slip::WriteOrder([41, 43, 42]), "43 before 42 in writing"),
        (Slip::ReadPrice, "a price read with its highest byte first"),
        (Slip::ReadSize, "a size read one byte further on"),
        (Slip::ReadSide, "a sell short exempt read as a sell short"),
        (Slip::ReadEnd, "an identifier's end read as its last byte"),
    ];
    all.extend(rest.map(text));
    all.extend(Fault::ALL.map(|f| (Slip::Passed(f), format!("{} not tested in reading", name(f)))));
    let rest = [
        (Slip::Side(0b001), "a sell without an indicator read"),
        (Slip::Side(0b010), "a buy with indicator 1 read"),
        (Slip::Side(0b100), "a buy with indicator 2 read"),
        (Slip::Side(0b110), "a buy with indicator 3 read"),
        (Slip::Above(Field::Size), "a size of 1,000,001 read"),
        (Slip::Above(Field::Price), "a price of 1,000,000,000,000 read"),
        (Slip::Byte(Field::ClientOrderId, b' '), "an identifier with a space read"),
        (Slip::Byte(Field::ClientOrderId, b'|'), "an identifier with | read"),
        (Slip::Byte(Field::ClientOrderId, 127), "an identifier with byte 127 read"),
        (Slip::Byte(Field::Mpid, b'a'), "an MPID with a small a read"),
        (Slip::Byte(Field::Mpid, b' '), "an MPID with a space read"),
        (Slip::MessageType, "a message of another type read"),
        (Slip::MessageLength(BYTES - 1), "a message of 130 bytes read"),
        (Slip::MessageLength(BYTES + 1), "a message of 132 bytes read"),
        (Slip::FewWords, "a message read to 7 words"),
        (Slip::ManyWords, "8 words refused"),
        (Slip::ReadOrder([42, 41, 43]), "42 before 41 in reading"),
        (Slip::ReadOrder([41, 43, 42]), "43 before 42 in reading"),
    ];
    all.extend(rest.map(text));
    all
}

/// Whether all of a field comes from the house message.
fn from_house(field: Field) -> bool {
    use Field::{ClientOrderId, Mpid, OrderInstructions, Price, Size, SymbolId};
    let own = [Field::MessageType, Mpid, ClientOrderId, SymbolId, Price, Size, OrderInstructions];
    !own.contains(&field) && !ZEROS.contains(&field) && field != Field::PurgeGroup
}

/// The first of these numbers that refuses.
fn first(order: [i64; 3], refuses: impl Fn(i64) -> bool) -> Option<i64> {
    order.into_iter().find(|&number| refuses(number))
}

/// The bytes as a message with the layout's length and type.
fn laid_out(bytes: &[u8]) -> Vec<u8> {
    let mut message = bytes.to_vec();
    message.resize(BYTES, 0);
    message[Field::MessageType.place()].copy_from_slice(&TYPE);
    message
}

impl Slip {
    /// Writes an order, wrongly.
    pub fn write(self, line: &[u8], house: &[u8], to: &mut [u8]) -> i64 {
        self.result(self.written(line, house, to))
    }

    /// Reads a message, wrongly.
    pub fn read(self, message: &[u8], to: &mut [u64]) -> i64 {
        self.result(self.words(message, to))
    }

    fn result(self, result: i64) -> i64 {
        match self {
            Slip::Number(number) if result == -number => result - 1,
            _ => result,
        }
    }

    fn written(self, line: &[u8], house: &[u8], to: &mut [u8]) -> i64 {
        let (mut line, mut house) = (line.to_vec(), house.to_vec());
        match self {
            Slip::NoEnd if !line.ends_with(b"\n") => line.push(b'\n'),
            Slip::HouseType if house.len() == BYTES => house = laid_out(&house),
            Slip::HouseLength(length) if house.len() == length => house.resize(BYTES, 0),
            Slip::LongBuffer if to.len() == BYTES => {
                return message::write(&line, &house, &mut to[1..]);
            }
            Slip::ShortBuffer if to.len() == BYTES - 1 => {
                let mut message = [0; BYTES];
                let result = message::write(&line, &house, &mut message);
                if result > 0 {
                    to.copy_from_slice(&message[..BYTES - 1]);
                }
                return result;
            }
            Slip::WriteOrder(order) => {
                let number = first(order, |number| match number {
                    41 => message::write(PLAIN_LINE, &house, &mut [0; BYTES]) == -41,
                    42 => message::write(&line, &plain_house(), &mut [0; BYTES]) == -42,
                    _ => to.len() < BYTES,
                });
                if let Some(number) = number {
                    return -number;
                }
            }
            _ => {}
        }
        let result = message::write(&line, &house, to);
        if result > 0 {
            self.alter(&house, to);
        }
        result
    }

    /// Alters a message that was written.
    fn alter(self, house: &[u8], message: &mut [u8]) {
        let instructions = Field::OrderInstructions.place().start;
        match self {
            Slip::WritePrice => message[Field::Price.place()].reverse(),
            Slip::WriteSize => {
                let place = Field::Size.place();
                message.copy_within(place.clone(), place.start + 1);
            }
            Slip::WriteSide if message[instructions] & 7 == 0b011 => message[instructions] ^= 0b110,
            Slip::WriteSpaces => {
                let field = &mut message[Field::ClientOrderId.place()];
                field.iter_mut().filter(|b| **b == 0).for_each(|b| *b = b' ');
            }
            Slip::Instructions => {
                message[instructions] &= 7;
                message[instructions + 1] = 0;
            }
            Slip::Bit(bit) => message[instructions + bit as usize / 8] &= !(1 << (bit % 8)),
            Slip::Lost(field) => message[field.place()].fill(0),
            Slip::Taken(field) => message[field.place()].copy_from_slice(&house[field.place()]),
            _ => {}
        }
    }

    fn words(self, message: &[u8], to: &mut [u64]) -> i64 {
        let mut message = message.to_vec();
        match self {
            Slip::MessageType if message.len() == BYTES => message = laid_out(&message),
            Slip::MessageLength(length) if message.len() == length => message.resize(BYTES, 0),
            Slip::ManyWords if to.len() == WORDS => return message::read(&message, &mut to[1..]),
            Slip::FewWords if to.len() == WORDS - 1 => {
                let mut words = [0; WORDS];
                let result = message::read(&message, &mut words);
                if result > 0 {
                    to.copy_from_slice(&words[..WORDS - 1]);
                }
                return result;
            }
            Slip::ReadOrder(order) => {
                let number = first(order, |number| match number {
                    41 => message::read(&message, &mut [0; WORDS]) == -41,
                    42 => !faults(&laid_out(&message)).is_empty(),
                    _ => to.len() < WORDS,
                });
                if let Some(number) = number {
                    return -number;
                }
            }
            _ if to.len() >= WORDS && self.lets_pass(&message) => {
                to[..WORDS].copy_from_slice(&as_found(&message));
                return WORDS as i64;
            }
            _ => {}
        }
        let result = message::read(&message, to);
        if result > 0 {
            match self {
                Slip::ReadPrice => to[7] = to[7].swap_bytes(),
                Slip::ReadSize => to[6] = number(&message, Field::Size.place().start + 1, 4),
                Slip::ReadSide if to[5] == u64::from(b'E') => to[5] = b'H'.into(),
                Slip::ReadEnd => to[1] -= 1,
                _ => {}
            }
        }
        result
    }

    /// Whether a message that is 42 for one thing alone is let pass.
    fn lets_pass(self, message: &[u8]) -> bool {
        let [fault] = faults(message)[..] else {
            return false;
        };
        match self {
            Slip::Passed(passed) => passed == fault,
            Slip::Side(bits) => {
                fault == Fault::Form(Field::OrderInstructions)
                    && message[Field::OrderInstructions.place().start] & 7 == bits
            }
            Slip::Above(field) => {
                let most = if field == Field::Size { MOST_SIZE } else { MOST_PRICE };
                fault == Fault::Form(field)
                    && number(message, field.place().start, field.row().length) == most + 1
            }
            Slip::Byte(field, byte) => {
                let mut mended = message.to_vec();
                let bytes = mended[field.place()].iter_mut();
                bytes.filter(|b| **b == byte).for_each(|b| *b = b'A');
                fault == Fault::Form(field) && faults(&mended).is_empty()
            }
            _ => false,
        }
    }
}

/// The number of so many bytes from here on.
fn number(message: &[u8], from: usize, length: usize) -> u64 {
    let mut bytes = [0; 8];
    bytes[..length].copy_from_slice(&message[from..from + length]);
    u64::from_le_bytes(bytes)
}

/// The words of a message of which nothing is tested.
fn as_found(message: &[u8]) -> [u64; WORDS] {
    let number = |field: Field| number(message, field.place().start, field.row().length);
    let id = Field::ClientOrderId.place();
    let length = message[id.clone()].iter().position(|&b| b == 0).unwrap_or(id.len());
    let mpid = Field::Mpid.place();
    let [from, to, mpid_from, mpid_to] =
        [id.start, id.start + length, mpid.start, mpid.end].map(|at| at as u64);
    let side = b"BSBSBHBE"[(number(Field::OrderInstructions) & 7) as usize];
    let (symbol, size) = (number(Field::SymbolId), number(Field::Size));
    [from, to, mpid_from, mpid_to, symbol, side.into(), size, number(Field::Price)]
}
