//! The judging of a day: setup, requests and notices, in the order of checks that ends
//! the section "Outcomes".

use crate::books::{fields, group_key, place_key, symbol_key, Group, Order, Place, Symbol};
use crate::books::{MOST_GROUPS, MOST_SYMBOLS};
use crate::checks::{on_tick, protected, Totals};
use crate::line::{self, yes_or_no, Filled, Ident, Line, Mpid, Out, Record, Side, CEILING};
use crate::memory::{ANSWER_ROOM, MOST_PLACES};
use crate::table::{Keyed, Table};

/// What becomes of one record.
#[derive(Clone, Copy, Debug, PartialEq, Eq)]
pub struct Answer {
    /// The letter P, K, S, R or A.
    pub outcome: u8,
    /// The number, 0 for P, K and S.
    pub number: u8,
    /// An order message is to be sent.
    pub sent: bool,
}

/// How far a block of lines was taken (document 02, order 4).
#[derive(Clone, Copy, Debug, Default, PartialEq, Eq)]
pub struct Taken {
    /// The lines taken.
    pub lines: usize,
    /// The bytes of these lines.
    pub bytes: usize,
    /// The bytes of their answer lines.
    pub written: usize,
}

/// An answer that sends nothing.
const fn answer(outcome: u8, number: u8) -> Answer {
    Answer { outcome, number, sent: false }
}

const PASSED: Answer = answer(b'P', 0);
const BOOKED: Answer = answer(b'K', 0);
const SEEN: Answer = answer(b'S', 0);

fn refused(number: u8) -> Answer {
    answer(b'R', number)
}

/// The outcome that goes with a request's remembered number.
fn of_request(number: u8) -> Answer {
    answer(if number == 0 { b'P' } else { b'R' }, number)
}

/// Fails with this number.
fn stop(broken: bool, number: u8) -> Result<(), u8> {
    match broken {
        true => Err(number),
        false => Ok(()),
    }
}

/// One day, from its setup on.
#[derive(Clone)]
pub struct Gate {
    pub(crate) room: usize,
    pub(crate) open: bool,
    /// The last notice number taken.
    pub(crate) last: u64,
    pub(crate) groups: Table<Group>,
    pub(crate) symbols: Table<Symbol>,
    pub(crate) places: Table<Place>,
}

impl Gate {
    /// A fresh state with room for this many places, at most 65,535.
    pub fn new(room: usize) -> Gate {
        let room = room.min(MOST_PLACES);
        Gate::sized(room, [MOST_GROUPS, MOST_SYMBOLS, room])
    }

    /// The same, with memory set aside for so many rows; the tables grow if need be.
    pub(crate) fn sized(room: usize, [groups, symbols, places]: [usize; 3]) -> Gate {
        let (groups, symbols) = (Table::new(groups), Table::new(symbols));
        let places = Table::new(places);
        Gate { room, open: false, last: 0, groups, symbols, places }
    }

    /// How many groups are listed.
    pub fn groups(&self) -> usize {
        self.groups.len()
    }

    /// How many places are taken.
    pub fn places_taken(&self) -> usize {
        self.places.len()
    }

    /// How many places the table can have.
    pub fn room(&self) -> usize {
        self.room
    }

    /// Judges one line, lent with its LF, and appends its answer line ("A whole day").
    pub fn record(&mut self, line: &[u8], out: &mut Vec<u8>) -> Answer {
        self.answer(line, line::read(line).as_ref(), out)
    }

    /// Judges the lines that end in this text, one after the other, and writes their answer
    /// lines from the buffer's start on. Stops before the first line for which fewer than 32
    /// bytes are left, and before a last part without LF.
    pub fn block(&mut self, text: &[u8], to: &mut [u8]) -> Taken {
        let (mut lines, mut rest) = (0, text);
        let mut out = Filled { to, written: 0 };
        while out.to.len() - out.written >= ANSWER_ROOM {
            let (record, length) = match line::first(rest) {
                Some((record, length)) => (Some(record), length),
                None => match rest.iter().position(|&b| b == b'\n') {
                    Some(end) => (None, end + 1),
                    None => break,
                },
            };
            let (line, after) = rest.split_at(length);
            self.answer(line, record.as_ref(), &mut out);
            rest = after;
            lines += 1;
        }
        Taken { lines, bytes: text.len() - rest.len(), written: out.written }
    }

    /// Judges the record of a line, or number 1 where it has none, and writes its answer line.
    #[inline]
    fn answer(&mut self, line: &[u8], record: Option<&Record>, out: &mut impl Out) -> Answer {
        let Some(record) = record else {
            out.put(b"?\t-\tR\t1\t0\n");
            return refused(1);
        };
        let answer = self.judge(record);
        let Answer { outcome, number, sent } = answer;
        // The second field of an answer is that of the line; O has none.
        let name = line.split(|&b| b == b'\t' || b == b'\n').nth(1).filter(|name| !name.is_empty());
        let mut l = Line::new(out, line[0]);
        l.text(name.unwrap_or(b"-")).letter(outcome).number(number.into());
        l.letter(b'0' + u8::from(sent)).end();
        answer
    }

    /// Appends the closing line of the group at this place in listing order. Where there
    /// is none, appends nothing and is false.
    pub fn closing(&self, place: usize, out: &mut Vec<u8>) -> bool {
        let Some(group) = self.groups.get(place) else {
            return false;
        };
        let Totals { traded: [tb, ts], open: [ob, os] } = group.totals;
        let mut l = Line::new(out, b'E');
        l.text(group.mpid.bytes()).number(tb).number(ts).number(ob).number(os);
        l.letter(yes_or_no(group.blocked)).end();
        true
    }

    /// 2, then the checks of the kind.
    fn judge(&mut self, record: &Record) -> Answer {
        let setup = matches!(record, Record::G { .. } | Record::S { .. } | Record::O);
        if setup == self.open {
            return refused(2);
        }
        match *record {
            Record::G { mpid, limits, max_size, short_sales } => {
                let (blocked, totals) = (false, Totals::default());
                let group = Group { mpid, limits, max_size, short_sales, blocked, totals };
                list(&mut self.groups, MOST_GROUPS, group)
            }
            Record::S { symbol } => {
                let symbol = Symbol { id: symbol, bid: 0, offer: 0 };
                list(&mut self.symbols, MOST_SYMBOLS, symbol)
            }
            Record::O => {
                self.open = true;
                PASSED
            }
            Record::N { id, mpid, .. }
            | Record::M { id, mpid, .. }
            | Record::C { id, mpid, .. }
            | Record::B { id, mpid }
            | Record::R { id, mpid } => self.request(record, mpid, &id),
            Record::Q { number, .. }
            | Record::F { number, .. }
            | Record::D { number, .. }
            | Record::H { number, .. } => self.notice(record, number),
        }
    }

    /// "Requests and identifiers": 5, the known identifier, 7, then the checks of the kind.
    fn request(&mut self, record: &Record, mpid: Mpid, id: &Ident) -> Answer {
        let Ok(group) = self.groups.find(group_key(mpid)) else {
            return refused(5);
        };
        let key = place_key(mpid, id);
        let fields = fields(record);
        let free = match self.places.find(key) {
            Ok(row) => {
                let known = &self.places[row];
                return if known.fields == fields { of_request(known.number) } else { refused(6) };
            }
            Err(_) if self.places.len() >= self.room => return refused(7),
            Err(free) => free,
        };
        let judged = self.check(group, mpid, record);
        let number = judged.err().unwrap_or(0);
        let order = judged.ok().flatten();
        self.places.add(free, Place { key, fields, number, order });
        let message = matches!(record, Record::N { .. } | Record::M { .. } | Record::C { .. });
        Answer { sent: number == 0 && message, ..of_request(number) }
    }

    /// The checks of a request's kind in their order, and what it does if it passes. A
    /// passed N gives its order.
    fn check(&mut self, group: usize, mpid: Mpid, record: &Record) -> Result<Option<Order>, u8> {
        let group = &mut self.groups[group];
        match *record {
            Record::N { symbol, side, size, price, .. } => {
                let symbol = self.symbols.find(symbol_key(symbol)).map_err(|_| 8)?;
                let quote = &self.symbols[symbol];
                stop(group.blocked, 10)?;
                stop(matches!(side, Side::H | Side::E) && !group.short_sales, 11)?;
                stop(size > group.max_size, 12)?;
                stop(!on_tick(price), 13)?;
                stop(protected(side, price, quote.bid, quote.offer), 14)?;
                let mut after = group.totals;
                after.open[side.column()] += size * price;
                after.within(&group.limits)?;
                group.totals = after;
                let symbol = symbol as u16;
                return Ok(Some(Order { side, symbol, price, size, done: 0, cancel_asked: false }));
            }
            Record::M { target, size, price, .. } => {
                let order = open_order(&mut self.places, mpid, &target)?;
                let quote = &self.symbols[usize::from(order.symbol)];
                stop(order.cancel_asked, 17)?;
                stop(group.blocked, 10)?;
                stop(size > group.max_size, 12)?;
                stop(size <= order.done, 16)?;
                stop(!on_tick(price), 13)?;
                stop(protected(order.side, price, quote.bid, quote.offer), 14)?;
                let changed = Order { size, price, ..*order };
                let mut after = group.totals;
                let open = &mut after.open[order.side.column()];
                *open = *open - order.open_value() + changed.open_value();
                after.within(&group.limits)?;
                group.totals = after;
                *order = changed;
            }
            Record::C { target, .. } => {
                let order = open_order(&mut self.places, mpid, &target)?;
                stop(order.cancel_asked, 17)?;
                order.cancel_asked = true;
            }
            // B and R: nothing after 7 stops them.
            _ => group.blocked = matches!(record, Record::B { .. }),
        }
        Ok(None)
    }

    /// Notices: seen, 18, then the number is taken whatever becomes of the notice.
    fn notice(&mut self, record: &Record, number: u64) -> Answer {
        if number <= self.last {
            return SEEN;
        }
        if number > self.last + 1 {
            return refused(18);
        }
        self.last = number;
        match self.book(record) {
            Ok(()) => BOOKED,
            Err(number) => answer(b'A', number),
        }
    }

    /// The checks of a notice's kind in their order, and what it books.
    fn book(&mut self, record: &Record) -> Result<(), u8> {
        match *record {
            Record::Q { symbol, bid, offer, .. } => {
                let row = self.symbols.find(symbol_key(symbol)).map_err(|_| 8)?;
                self.symbols[row] = Symbol { id: symbol, bid, offer };
            }
            Record::F { mpid, target, size, price, .. } => {
                self.execute(mpid, &target, size, price)?;
            }
            // A reduction trades no value, so that 20 cannot come of it.
            Record::D { mpid, target, size, .. } => self.execute(mpid, &target, size, 0)?,
            Record::H { mpid, target, .. } => {
                self.groups.find(group_key(mpid)).map_err(|_| 5)?;
                open_order(&mut self.places, mpid, &target)?.cancel_asked = false;
            }
            _ => {}
        }
        Ok(())
    }

    /// F and D: 5, 9, 19, 20.
    fn execute(&mut self, mpid: Mpid, target: &Ident, size: u64, price: u64) -> Result<(), u8> {
        let group = self.groups.find(group_key(mpid)).map_err(|_| 5)?;
        let group = &mut self.groups[group];
        let order = open_order(&mut self.places, mpid, target)?;
        stop(size > order.remaining(), 19)?;
        let side = order.side.column();
        let mut after = group.totals;
        after.open[side] -= size * order.price;
        after.traded[side] += size * price;
        stop(after.gross() > CEILING, 20)?;
        group.totals = after;
        group.blocked |= after.within(&group.limits).is_err();
        order.done += size;
        Ok(())
    }
}

/// Setup: 3, 4.
fn list<T: Keyed>(table: &mut Table<T>, most: usize, row: T) -> Answer {
    match table.find(row.key()) {
        Ok(_) => refused(3),
        Err(_) if table.len() >= most => refused(4),
        Err(free) => {
            table.add(free, row);
            PASSED
        }
    }
}

/// The open order of this MPID that a target names, or 9.
fn open_order<'a>(
    places: &'a mut Table<Place>,
    mpid: Mpid,
    target: &Ident,
) -> Result<&'a mut Order, u8> {
    let row = places.find(place_key(mpid, target)).map_err(|_| 9)?;
    places[row].order.as_mut().filter(|order| order.remaining() > 0).ok_or(9)
}
