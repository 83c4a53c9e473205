//! The exchange's own order message (document 02, order 2): the New Order Request of source
//! document 000, 4.1.1, with the data types of its 1.5.
//!
//! Where our copy of that table is damaged, the rows of 4.2.2, which repeats them, say what
//! is taken here.

use std::ops::{Range, RangeInclusive};

use crate::line::{self, Ident, Mpid, Record, Side, NUMBER, PRICE, SIZE};

/// The data types of the rows.
#[derive(Clone, Copy, Debug, PartialEq, Eq)]
pub enum Type {
    /// Text, with spaces up to the field's end.
    Alphanumeric,
    /// Text, with nulls up to the field's end.
    String,
    /// A number without a sign, its lowest byte first.
    BinaryU,
    /// Millionths of a dollar as BinaryU.
    Price6U,
    /// The same with a sign.
    Price6S,
}

/// The fields, in the order of the table.
#[derive(Clone, Copy, Debug, PartialEq, Eq, PartialOrd, Ord)]
#[rustfmt::skip]
#[allow(missing_docs)]
pub enum Field {
    MessageType, Reserved, Mpid, ClientOrderId, SymbolId, Price, Size, OrderInstructions,
    TimeInForce, OrderType, PriceSliding, SelfTradeProtection, SelfTradeProtectionGroup, Routing,
    TradingCollar, Capacity, Account, ClearingAccount, MinQty, MaxFloorQty, DisplayRangeQty,
    PegOffset, LocateAccount, PurgeGroup, ReservedAtEnd,
}

/// A row of the table.
#[derive(Clone, Copy, Debug, PartialEq, Eq)]
pub struct Row {
    /// Its field.
    pub field: Field,
    /// The name that the table gives to it.
    pub name: &'static str,
    /// Its bytes.
    pub length: usize,
    /// Its data type.
    pub data: Type,
}

const fn row(field: Field, name: &'static str, length: usize, data: Type) -> Row {
    Row { field, name, length, data }
}

/// The table of 4.1.1.
#[rustfmt::skip]
pub const ROWS: [Row; 25] = [
    row(Field::MessageType, "Message Type", 2, Type::Alphanumeric),
    row(Field::Reserved, "Reserved", 8, Type::BinaryU),
    row(Field::Mpid, "MPID", 4, Type::Alphanumeric),
    row(Field::ClientOrderId, "Client Order ID", 20, Type::String),
    row(Field::SymbolId, "Symbol ID", 4, Type::BinaryU),
    row(Field::Price, "Price", 8, Type::Price6U),
    row(Field::Size, "Size", 4, Type::BinaryU),
    row(Field::OrderInstructions, "Order Instructions", 2, Type::BinaryU),
    row(Field::TimeInForce, "Time In Force(TIF)", 1, Type::Alphanumeric),
    row(Field::OrderType, "Order Type", 1, Type::Alphanumeric),
    row(Field::PriceSliding, "Price Sliding and Re-price Frequency", 1, Type::Alphanumeric),
    row(Field::SelfTradeProtection, "Self-Trade Protection", 1, Type::BinaryU),
    row(Field::SelfTradeProtectionGroup, "Self-Trade Protection Group", 1, Type::Alphanumeric),
    row(Field::Routing, "Routing", 1, Type::BinaryU),
    row(Field::TradingCollar, "Trading Collar Dollar Value", 8, Type::Price6S),
    row(Field::Capacity, "Capacity", 1, Type::Alphanumeric),
    row(Field::Account, "Account", 16, Type::String),
    row(Field::ClearingAccount, "Clearing Account", 4, Type::String),
    row(Field::MinQty, "MinQty", 4, Type::BinaryU),
    row(Field::MaxFloorQty, "MaxFloor Qty", 4, Type::BinaryU),
    row(Field::DisplayRangeQty, "Display Range Qty", 4, Type::BinaryU),
    row(Field::PegOffset, "Peg Offset", 8, Type::Price6S),
    row(Field::LocateAccount, "Locate Account", 4, Type::String),
    row(Field::PurgeGroup, "Purge Group", 1, Type::Alphanumeric),
    row(Field::ReservedAtEnd, "Reserved", 19, Type::BinaryU),
];

/// Where each row begins, and where the last ends.
const BEGINS: [usize; ROWS.len() + 1] = {
    let mut begins = [0; ROWS.len() + 1];
    let mut i = 0;
    while i < ROWS.len() {
        begins[i + 1] = begins[i] + ROWS[i].length;
        i += 1;
    }
    begins
};

/// The bytes of a message.
pub const BYTES: usize = BEGINS[ROWS.len()];
/// The words in which a message is read.
pub const WORDS: usize = 8;
/// The message type of a New Order Request.
pub const TYPE: [u8; 2] = *b"N1";

/// The fields that are zero, whatever the house message says.
pub const ZEROS: [Field; 4] =
    [Field::MinQty, Field::MaxFloorQty, Field::DisplayRangeQty, Field::PegOffset];

impl Field {
    /// Its row.
    pub const fn row(self) -> Row {
        ROWS[self as usize]
    }

    /// Its bytes in a message.
    pub const fn place(self) -> Range<usize> {
        BEGINS[self as usize]..BEGINS[self as usize + 1]
    }

    /// What a message has there.
    fn of(self, message: &[u8; BYTES]) -> &[u8] {
        &message[self.place()]
    }

    /// The number that a message has there.
    fn number(self, message: &[u8; BYTES]) -> u64 {
        let mut bytes = [0; 8];
        bytes[..self.row().length].copy_from_slice(self.of(message));
        u64::from_le_bytes(bytes)
    }

    /// The number that a message has there, if it is in range.
    fn number_in(self, message: &[u8; BYTES], range: RangeInclusive<u64>) -> Option<u64> {
        Some(self.number(message)).filter(|number| range.contains(number))
    }

    /// Writes a number; it has no more bytes than the field.
    fn put_number(self, message: &mut [u8; BYTES], number: u64) {
        message[self.place()].copy_from_slice(&number.to_le_bytes()[..self.row().length]);
    }

    /// Writes text that is no longer than the field, and what comes after text of its type.
    fn put_text(self, message: &mut [u8; BYTES], text: &[u8]) {
        let (head, rest) = message[self.place()].split_at_mut(text.len());
        head.copy_from_slice(text);
        rest.fill(if self.row().data == Type::String { 0 } else { b' ' });
    }
}

/// The bits of Order Instructions that tell the side.
const SIDE_BITS: u64 = 0b111;

/// The side's bits: bit 0 is set for a sell, bits 1 and 2 are the short sale indicator.
fn side_bits(side: Side) -> u64 {
    let (sell, indicator) = match side {
        Side::B => (0, 0),
        Side::S => (1, 1),
        Side::H => (1, 2),
        Side::E => (1, 3),
    };
    sell | indicator << 1
}

/// A message with the layout's length and type. `None` is 41.
fn layout(bytes: &[u8]) -> Option<&[u8; BYTES]> {
    let message: &[u8; BYTES] = bytes.try_into().ok()?;
    (Field::MessageType.of(message) == TYPE).then_some(message)
}

/// Writes the N of a line, lent with its LF, at the start of the buffer; what it does not
/// carry comes from the house message. The bytes of the message, or below 0 -41, -42 or -43,
/// and nothing is written.
pub fn write(line: &[u8], house: &[u8], to: &mut [u8]) -> i64 {
    let Some(house) = layout(house) else {
        return -41;
    };
    let Some(Record::N { id, mpid, symbol, side, size, price }) = line::read(line) else {
        return -42;
    };
    let Some(message) = to.first_chunk_mut() else {
        return -43;
    };
    *message = *house;
    Field::Mpid.put_text(message, mpid.bytes());
    Field::ClientOrderId.put_text(message, id.bytes());
    Field::SymbolId.put_number(message, symbol);
    Field::Price.put_number(message, price);
    Field::Size.put_number(message, size);
    let others = Field::OrderInstructions.number(house) & !SIDE_BITS;
    Field::OrderInstructions.put_number(message, others | side_bits(side));
    for field in ZEROS {
        field.put_number(message, 0);
    }
    // No group: nothing but what comes after text.
    Field::PurgeGroup.put_text(message, b"");
    BYTES as i64
}

/// Reads a message: the N's fields as words at the start of `to`. They are where the
/// identifier begins in the message and where it ends, the same of the MPID, the symbol ID,
/// the side's letter, the size and the price. The number of words, or below 0 -41, -42 or
/// -43, and nothing is written.
pub fn read(message: &[u8], to: &mut [u64]) -> i64 {
    let Some(message) = layout(message) else {
        return -41;
    };
    let Some(Order { id, side, symbol, size, price }) = order(message) else {
        return -42;
    };
    let Some(words) = to.first_chunk_mut::<WORDS>() else {
        return -43;
    };
    let from = Field::ClientOrderId.place().start;
    let [id_from, id_to] = [from, from + id.bytes().len()].map(|at| at as u64);
    let Range { start, end } = Field::Mpid.place();
    let [mpid_from, mpid_to] = [start, end].map(|at| at as u64);
    let side = u64::from(side.letter());
    *words = [id_from, id_to, mpid_from, mpid_to, symbol, side, size, price];
    WORDS as i64
}

/// What a message says of an N.
struct Order {
    id: Ident,
    side: Side,
    symbol: u64,
    size: u64,
    price: u64,
}

/// `None` is 42.
fn order(message: &[u8; BYTES]) -> Option<Order> {
    let fine = mpid(message).is_some()
        && padded(message)
        && ZEROS.iter().all(|&field| zero(message, field))
        && no_group(message);
    let order = Order {
        id: identifier(message)?,
        side: side(message)?,
        symbol: Field::SymbolId.number_in(message, NUMBER)?,
        size: Field::Size.number_in(message, SIZE)?,
        price: Field::Price.number_in(message, PRICE)?,
    };
    fine.then_some(order)
}

/// The text of the Client Order ID, up to its first null, and what comes after it.
fn text(message: &[u8; BYTES]) -> (&[u8], &[u8]) {
    let field = Field::ClientOrderId.of(message);
    let end = field.iter().position(|&b| b == 0).unwrap_or(field.len());
    field.split_at(end)
}

fn identifier(message: &[u8; BYTES]) -> Option<Ident> {
    Ident::new(text(message).0)
}

/// Nothing but nulls comes after the identifier.
fn padded(message: &[u8; BYTES]) -> bool {
    text(message).1.iter().all(|&b| b == 0)
}

fn mpid(message: &[u8; BYTES]) -> Option<Mpid> {
    Mpid::new(Field::Mpid.of(message).try_into().ok()?)
}

fn side(message: &[u8; BYTES]) -> Option<Side> {
    let bits = Field::OrderInstructions.number(message) & SIDE_BITS;
    [Side::B, Side::S, Side::H, Side::E].into_iter().find(|&side| side_bits(side) == bits)
}

fn zero(message: &[u8; BYTES], field: Field) -> bool {
    field.of(message).iter().all(|&b| b == 0)
}

fn no_group(message: &[u8; BYTES]) -> bool {
    Field::PurgeGroup.of(message) == b" "
}

/// What can be wrong with a message that has the layout's length and type; each is 42.
#[derive(Clone, Copy, Debug, PartialEq, Eq, PartialOrd, Ord)]
pub enum Fault {
    /// A field is outside its form, or not what it always is.
    Form(Field),
    /// Something comes after the identifier's last byte.
    Padding,
}

impl Fault {
    /// All of them, in the order of the table.
    pub const ALL: [Fault; 12] = [
        Fault::Form(Field::Mpid),
        Fault::Form(Field::ClientOrderId),
        Fault::Padding,
        Fault::Form(Field::SymbolId),
        Fault::Form(Field::Price),
        Fault::Form(Field::Size),
        Fault::Form(Field::OrderInstructions),
        Fault::Form(Field::MinQty),
        Fault::Form(Field::MaxFloorQty),
        Fault::Form(Field::DisplayRangeQty),
        Fault::Form(Field::PegOffset),
        Fault::Form(Field::PurgeGroup),
    ];

    /// Whether a message has it.
    fn is_in(self, message: &[u8; BYTES]) -> bool {
        let Fault::Form(field) = self else {
            return !padded(message);
        };
        !match field {
            Field::Mpid => mpid(message).is_some(),
            Field::ClientOrderId => identifier(message).is_some(),
            Field::SymbolId => field.number_in(message, NUMBER).is_some(),
            Field::Price => field.number_in(message, PRICE).is_some(),
            Field::Size => field.number_in(message, SIZE).is_some(),
            Field::OrderInstructions => side(message).is_some(),
            Field::PurgeGroup => no_group(message),
            _ => !ZEROS.contains(&field) || zero(message, field),
        }
    }
}

/// Everything that is wrong with a message; nothing of one that is 41.
pub fn faults(message: &[u8]) -> Vec<Fault> {
    match layout(message) {
        Some(message) => Fault::ALL.into_iter().filter(|fault| fault.is_in(message)).collect(),
        None => Vec::new(),
    }
}
