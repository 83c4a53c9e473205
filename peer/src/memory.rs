//! The day kept in lent 64-bit words: the map of the words, the state rules of "Outcomes",
//! and the public calls with their numbers.
//!
//! A state is judged by building a gate from it row by row; the first rule that is broken
//! ends the building.

use crate::books::{group_key, place_key, symbol_key, Fields, Group, Order, Place, Symbol};
use crate::books::{remembered, MOST_GROUPS, MOST_SYMBOLS};
use crate::checks::Totals;
use crate::gate::{Gate, Taken};
use crate::line::{Ident, Mpid, Side, CEILING, LIMIT, NUMBER, PRICE, QUOTE, SIZE};

/// The words of head, groups and symbols. Fewer are no state.
pub const LEAST_WORDS: usize = SYMBOLS + MOST_SYMBOLS * SYMBOL;
/// The words of one place: its key, its request and its order.
pub const PLACE_WORDS: usize = KEY + REQUEST + ORDER;
/// The most places a table can have.
pub const MOST_PLACES: usize = 65_535;

/// The shortest buffer for an answer line, and for a closing line.
pub(crate) const ANSWER_ROOM: usize = 32;
const CLOSING_ROOM: usize = 96;

// The words of a row, and where the regions begin.
const HEAD: usize = 5;
const GROUP: usize = 14;
const SYMBOL: usize = 3;
const KEY: usize = 4;
const REQUEST: usize = 9;
const ORDER: usize = 4;
const GROUPS: usize = HEAD;
const SYMBOLS: usize = GROUPS + MOST_GROUPS * GROUP;

/// How many places so many words have room for.
pub fn room(words: usize) -> usize {
    (words.saturating_sub(LEAST_WORDS) / PLACE_WORDS).min(MOST_PLACES)
}

/// How many words it takes to have this room.
pub fn words(room: usize) -> usize {
    LEAST_WORDS + PLACE_WORDS * room.min(MOST_PLACES)
}

/// Makes a fresh state. False is 23: the memory is too short, and nothing is written.
pub fn fresh(mem: &mut [u64]) -> bool {
    let fits = mem.len() >= LEAST_WORDS;
    if fits {
        mem.fill(0);
    }
    fits
}

/// No state rule is broken. False is 22.
pub fn state_ok(mem: &[u64]) -> bool {
    broken_rule(mem).is_none()
}

/// The first state rule that these words break, in words.
pub fn broken_rule(mem: &[u64]) -> Option<&'static str> {
    build(mem).err()
}

/// The gate that stands in these words. Where a state rule is broken, a fresh one.
pub fn load(mem: &[u64]) -> Gate {
    build(mem).unwrap_or_else(|_| Gate::new(room(mem.len())))
}

/// Writes the head and every row in use, and nothing else. Words that are too few for the
/// gate's places are left as found.
pub fn store(gate: &Gate, mem: &mut [u64]) {
    put(gate, mem, 0);
}

/// Judges one line. Above 0 is the length of the answer line at the start of the buffer;
/// below 0 is -21 or -22, and nothing is written.
pub fn record(mem: &mut [u64], line: &[u8], to: &mut [u8]) -> i64 {
    if to.len() < ANSWER_ROOM {
        return -21;
    }
    let Ok(mut gate) = build(mem) else {
        return -22;
    };
    let before = gate.places_taken();
    let mut answer = Vec::with_capacity(ANSWER_ROOM);
    gate.record(line, &mut answer);
    put(&gate, mem, before);
    give(&answer, to)
}

/// Judges the lines that end in a text, as far as the buffer goes. 0 or more is the length of
/// their answer lines at the start of the buffer, and `taken` is how many lines were taken and
/// how many bytes they have; below 0 is -21 or -22, and nothing is written.
pub fn block(mem: &mut [u64], text: &[u8], to: &mut [u8], taken: &mut [u64; 2]) -> i64 {
    if to.len() < ANSWER_ROOM {
        return -21;
    }
    let Ok(mut gate) = build(mem) else {
        return -22;
    };
    let before = gate.places_taken();
    let Taken { lines, bytes, written } = gate.block(text, to);
    put(&gate, mem, before);
    *taken = [lines, bytes].map(|count| count as u64);
    written as i64
}

/// The closing line of the group at this place in listing order. Above 0 is its length at
/// the start of the buffer; below 0 is -21, -22 or -5, and nothing is written.
pub fn closing(mem: &[u64], place: usize, to: &mut [u8]) -> i64 {
    if to.len() < CLOSING_ROOM {
        return -21;
    }
    let Ok(gate) = build(mem) else {
        return -22;
    };
    let mut line = Vec::with_capacity(CLOSING_ROOM);
    match gate.closing(place, &mut line) {
        true => give(&line, to),
        false => -5,
    }
}

/// Copies a line to the start of a buffer that has room for it.
fn give(line: &[u8], to: &mut [u8]) -> i64 {
    to[..line.len()].copy_from_slice(line);
    line.len() as i64
}

/// Fails with this rule.
fn rule(kept: bool, words: &'static str) -> Result<(), &'static str> {
    match kept {
        true => Ok(()),
        false => Err(words),
    }
}

/// A mark is 0 or 1.
fn mark(word: u64, words: &'static str) -> Result<bool, &'static str> {
    rule(word <= 1, words)?;
    Ok(word == 1)
}

/// The letter that a word holds, or a byte that is no letter.
fn letter(word: u64) -> u8 {
    u8::try_from(word).unwrap_or(0)
}

/// Where keys, requests and orders begin.
fn places(room: usize) -> [usize; 3] {
    let keys = LEAST_WORDS;
    let requests = keys + KEY * room;
    let orders = requests + REQUEST * room;
    [keys, requests, orders]
}

/// The first rows of a region.
fn rows<const N: usize>(mem: &[u64], from: usize, count: usize) -> &[[u64; N]] {
    mem[from..from + N * count].as_chunks().0
}

fn rows_mut<const N: usize>(mem: &mut [u64], from: usize, count: usize) -> &mut [[u64; N]] {
    mem[from..from + N * count].as_chunks_mut().0
}

/// The gate that stands in these words, or the first state rule that they break.
fn build(mem: &[u64]) -> Result<Gate, &'static str> {
    let (head, _) = mem.split_first_chunk::<HEAD>().ok_or("the state is too short")?;
    rule(mem.len() >= LEAST_WORDS, "the state is too short")?;
    let room = room(mem.len());
    let [open, last, groups, symbols, taken] = *head;
    let open = mark(open, "the opened mark is 0 or 1")?;
    rule(last == 0 || NUMBER.contains(&last), "the last number is in range")?;
    rule(groups <= MOST_GROUPS as u64, "at most 64 groups")?;
    rule(symbols <= MOST_SYMBOLS as u64, "at most 256 symbols")?;
    rule(taken <= room as u64, "places within room")?;
    rule(open || taken == 0, "before O no place taken")?;
    let [groups, symbols, taken] = [groups, symbols, taken].map(|count| count as usize);

    // A record adds one row at most; the tables grow with a block.
    let mut gate = Gate::sized(room, [groups, symbols, taken].map(|count| count + 1));
    (gate.open, gate.last) = (open, last);
    for words in rows(mem, GROUPS, groups) {
        let group = group(words)?;
        rule(open || group.totals == Totals::default(), "before O every total 0")?;
        let Err(free) = gate.groups.find(group_key(group.mpid)) else {
            return Err("MPIDs distinct");
        };
        gate.groups.add(free, group);
    }
    for &[id, bid, offer] in rows::<SYMBOL>(mem, SYMBOLS, symbols) {
        rule(NUMBER.contains(&id), "a symbol's ID is in range")?;
        rule(QUOTE.contains(&bid) && QUOTE.contains(&offer), "a bid or offer is in range")?;
        let Err(free) = gate.symbols.find(symbol_key(id)) else {
            return Err("symbols distinct");
        };
        gate.symbols.add(free, Symbol { id, bid, offer });
    }

    let [keys, requests, orders] = places(room);
    let keys = rows::<KEY>(mem, keys, taken);
    let requests = rows::<REQUEST>(mem, requests, taken);
    let orders = rows::<ORDER>(mem, orders, taken);
    let mut sums = [[0u128; 2]; MOST_GROUPS];
    for ((&[owner, id @ ..], words), figures) in keys.iter().zip(requests).zip(orders) {
        let owner = Mpid::from_word(owner).ok_or("a request's MPID listed")?;
        let group = gate.groups.find(group_key(owner)).map_err(|_| "a request's MPID listed")?;
        let id = Ident::from_words(id).ok_or("an identifier has the form")?;
        let (fields, number) = request(words)?;
        let order = order(&gate, &fields, number, figures)?;
        if let Some(order) = &order {
            sums[group][order.side.column()] += u128::from(order.open_value());
        }
        let key = place_key(owner, &id);
        let Err(free) = gate.places.find(key) else {
            return Err("identifier pairs distinct");
        };
        gate.places.add(free, Place { key, fields, number, order });
    }
    for (group, sums) in gate.groups.iter().zip(sums) {
        let Totals { traded, open } = group.totals;
        rule(open.map(u128::from) == sums, "open values are the sums over the table")?;
        let gross: u128 = traded.iter().chain(&open).copied().map(u128::from).sum();
        rule(gross <= u128::from(CEILING), "gross of both at most the ceiling")?;
    }
    Ok(gate)
}

/// A group's own fields.
fn group(words: &[u64; GROUP]) -> Result<Group, &'static str> {
    let [mpid, limits @ .., max_size, short_sales, blocked, tb, ts, ob, os] = *words;
    let mpid = Mpid::from_word(mpid).ok_or("a group's MPID has the form")?;
    rule(limits.iter().all(|limit| LIMIT.contains(limit)), "a limit is in range")?;
    rule(SIZE.contains(&max_size), "a maximum size is in range")?;
    let short_sales = mark(short_sales, "the short sales mark is 0 or 1")?;
    let blocked = mark(blocked, "the blocked mark is 0 or 1")?;
    rule(tb <= CEILING && ts <= CEILING, "a traded value is in range")?;
    let totals = Totals { traded: [tb, ts], open: [ob, os] };
    Ok(Group { mpid, limits, max_size, short_sales, blocked, totals })
}

/// A place's request and its remembered number.
fn request(words: &[u64; REQUEST]) -> Result<(Fields, u8), &'static str> {
    let [kind, number, t0, t1, t2, symbol, side, size, price] = *words;
    rule(remembered(number), "a remembered number is 0, 8 to 14, 16, 17 or 31 to 36")?;
    let target = || rule(Ident::from_words([t0, t1, t2]).is_some(), "a target has the form");
    let sized = || {
        rule(SIZE.contains(&size), "a request's size is in range")?;
        rule(PRICE.contains(&price), "a request's price is in range")
    };
    let others = match letter(kind) {
        b'N' => {
            rule(NUMBER.contains(&symbol), "a request's symbol ID is in range")?;
            rule(Side::from_letter(letter(side)).is_some(), "a side is one of the four")?;
            sized()?;
            t0 | t1 | t2
        }
        b'M' => {
            target()?;
            sized()?;
            symbol | side
        }
        b'C' => {
            target()?;
            symbol | side | size | price
        }
        b'B' | b'R' => t0 | t1 | t2 | symbol | side | size | price,
        _ => return Err("a kind is one of the five"),
    };
    rule(others == 0, "a field that the kind does not have is 0")?;
    Ok(([kind, t0, t1, t2, symbol, side, size, price], number as u8))
}

/// The order of a passed N. The figures of any other place are 0.
fn order(
    gate: &Gate,
    fields: &Fields,
    number: u8,
    words: &[u64; ORDER],
) -> Result<Option<Order>, &'static str> {
    let [kind, .., symbol, side, _, _] = *fields;
    if letter(kind) != b'N' || number != 0 {
        rule(*words == [0; ORDER], "the figures of a place that is no passed N are 0")?;
        return Ok(None);
    }
    let [price, size, done, cancel_asked] = *words;
    let side = Side::from_letter(letter(side)).ok_or("a side is one of the four")?;
    let symbol = gate.symbols.find(symbol_key(symbol)).map_err(|_| "an order's symbol listed")?;
    let symbol = symbol as u16;
    rule(PRICE.contains(&price), "an order's price is in range")?;
    rule(SIZE.contains(&size), "an order's size is in range")?;
    rule(done <= size, "done at most size")?;
    let cancel_asked = mark(cancel_asked, "the cancel asked mark is 0 or 1")?;
    Ok(Some(Order { side, symbol, price, size, done, cancel_asked }))
}

/// Writes the head, every group, symbol and order in use, and the keys and requests of the
/// places from this one on: those of the places before it never change.
fn put(gate: &Gate, mem: &mut [u64], from: usize) {
    let room = room(mem.len());
    let taken = gate.places.len();
    if mem.len() < LEAST_WORDS || taken > room {
        return;
    }
    let [groups, symbols] = [gate.groups.len(), gate.symbols.len()];
    let counts = [groups, symbols, taken].map(|count| count as u64);
    rows_mut(mem, 0, 1)[0] = [gate.open.into(), gate.last, counts[0], counts[1], counts[2]];
    for (words, group) in rows_mut(mem, GROUPS, groups).iter_mut().zip(gate.groups.iter()) {
        let [l1, l2, l3, l4, l5, l6] = group.limits;
        let [short_sales, blocked] = [group.short_sales, group.blocked].map(u64::from);
        let Totals { traded: [tb, ts], open: [ob, os] } = group.totals;
        let [mpid, max_size] = [group.mpid.word(), group.max_size];
        *words = [mpid, l1, l2, l3, l4, l5, l6, max_size, short_sales, blocked, tb, ts, ob, os];
    }
    for (words, symbol) in rows_mut(mem, SYMBOLS, symbols).iter_mut().zip(gate.symbols.iter()) {
        *words = [symbol.id, symbol.bid, symbol.offer];
    }
    let [keys, requests, orders] = places(room);
    for (row, place) in gate.places.iter().enumerate().skip(from) {
        // A key has the owner above the identifier's last four bytes; a row has it apart.
        let [first, second, third] = place.key;
        rows_mut(mem, keys, taken)[row] = [third >> 32, first, second, third & 0xffff_ffff];
        let [kind, t0, t1, t2, symbol, side, size, price] = place.fields;
        let number = place.number.into();
        rows_mut(mem, requests, taken)[row] = [kind, number, t0, t1, t2, symbol, side, size, price];
    }
    for (words, place) in rows_mut(mem, orders, taken).iter_mut().zip(gate.places.iter()) {
        *words = match &place.order {
            Some(order) => [order.price, order.size, order.done, order.cancel_asked.into()],
            None => [0; ORDER],
        };
    }
}
