//! "What is kept": groups, symbols, and the places of the table with their orders.

use crate::checks::Totals;
use crate::line::{Ident, Mpid, Record, Side};
use crate::table::{Key, Keyed};

/// The most groups a day can list.
pub const MOST_GROUPS: usize = 64;
/// The most symbols a day can list.
pub const MOST_SYMBOLS: usize = 256;

/// A listed group.
#[derive(Clone)]
pub struct Group {
    pub mpid: Mpid,
    pub limits: [u64; 6],
    pub max_size: u64,
    pub short_sales: bool,
    pub blocked: bool,
    pub totals: Totals,
}

/// A listed symbol. A bid or offer of 0 is none known.
#[derive(Clone)]
pub struct Symbol {
    pub id: u64,
    pub bid: u64,
    pub offer: u64,
}

/// What is kept per order. `symbol` is the row of its symbol.
#[derive(Clone, Copy)]
pub struct Order {
    pub side: Side,
    pub symbol: u16,
    pub price: u64,
    pub size: u64,
    pub done: u64,
    pub cancel_asked: bool,
}

impl Order {
    /// Size - done; the order is open while it is above 0.
    pub fn remaining(&self) -> u64 {
        self.size - self.done
    }

    /// Remaining x price.
    pub fn open_value(&self) -> u64 {
        self.remaining() * self.price
    }
}

/// A place of the table: a request, the number it got, and the order of a passed N. What a
/// target is looked up by, and what it finds, stand together in one cache line.
#[derive(Clone)]
#[repr(C, align(64))]
pub struct Place {
    /// Owner and identifier.
    pub key: Key,
    pub order: Option<Order>,
    pub number: u8,
    /// What else a retry must match.
    pub fields: Fields,
}

/// A number that a place can remember: those of "Outcomes" that say so, with 31 to 36 in
/// the place of 15 (document 02, order 1), and 0 for a request that passed.
pub fn remembered(number: u64) -> bool {
    matches!(number, 0 | 8..=14 | 16 | 17 | 31..=36)
}

/// A request's kind, target (three words), symbol ID, side, size and price, as they stand
/// in the lent words. A field that the kind does not have is 0.
pub type Fields = [u64; 8];

/// The fields of a request; other kinds are never asked for.
pub fn fields(request: &Record) -> Fields {
    let (kind, [t0, t1, t2], [symbol, side, size, price]) = match *request {
        Record::N { symbol, side, size, price, .. } => {
            (b'N', [0; 3], [symbol, side.letter().into(), size, price])
        }
        Record::M { target, size, price, .. } => (b'M', target.words(), [0, 0, size, price]),
        Record::C { target, .. } => (b'C', target.words(), [0; 4]),
        Record::B { .. } => (b'B', [0; 3], [0; 4]),
        _ => (b'R', [0; 3], [0; 4]),
    };
    [kind.into(), t0, t1, t2, symbol, side, size, price]
}

/// The key of a group.
pub fn group_key(mpid: Mpid) -> Key {
    [mpid.word(), 0, 0]
}

/// The key of a symbol.
pub fn symbol_key(id: u64) -> Key {
    [id, 0, 0]
}

/// The key of a place: an identifier's twenty bytes leave room for the owner's MPID.
pub fn place_key(mpid: Mpid, id: &Ident) -> Key {
    let [first, second, third] = id.words();
    [first, second, third | mpid.word() << 32]
}

impl Keyed for Group {
    fn key(&self) -> Key {
        group_key(self.mpid)
    }
}

impl Keyed for Symbol {
    fn key(&self) -> Key {
        symbol_key(self.id)
    }
}

impl Keyed for Place {
    fn key(&self) -> Key {
        self.key
    }
}
