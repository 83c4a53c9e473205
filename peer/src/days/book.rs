//! What a generator knows of the day so far, so that it can aim at both sides of a line.
//!
//! It only steers: a wrong figure here makes fewer good cases, never a wrong comparison.

use std::collections::{HashMap, VecDeque};

use crate::books::remembered;
use crate::gate::Answer;

/// A listed group. Pairs are buys and sells.
#[derive(Clone, Debug, Default)]
#[allow(missing_docs)]
pub struct Group {
    pub mpid: [u8; 4],
    pub limits: [u64; 6],
    pub most_size: u64,
    pub short_sales: bool,
    pub blocked: bool,
    pub traded: [i128; 2],
    pub open: [i128; 2],
}

/// A listed symbol.
#[derive(Clone, Debug, Default)]
#[allow(missing_docs)]
pub struct Symbol {
    pub id: u64,
    pub bid: u64,
    pub offer: u64,
}

/// An order: a passed N.
#[derive(Clone, Debug)]
#[allow(missing_docs)]
pub struct Order {
    pub symbol: u64,
    pub side: u8,
    pub price: u64,
    pub size: u64,
    pub done: u64,
    pub asked: bool,
}

/// A place of the table.
#[derive(Clone, Debug)]
#[allow(missing_docs)]
pub struct Place {
    pub mpid: [u8; 4],
    pub id: Vec<u8>,
    pub line: Vec<u8>,
    pub order: Option<Order>,
}

/// The day so far.
#[derive(Clone, Debug, Default)]
#[allow(missing_docs)]
pub struct Book {
    pub opened: bool,
    pub last: u64,
    pub groups: Vec<Group>,
    pub symbols: Vec<Symbol>,
    pub places: Vec<Place>,
    /// The last lines, of whatever kind.
    pub recent: VecDeque<Vec<u8>>,
    /// The place of an MPID and identifier.
    known: HashMap<([u8; 4], Vec<u8>), usize>,
}

impl Order {
    /// 0 for buys, 1 for sells.
    pub fn column(&self) -> usize {
        usize::from(self.side != b'B')
    }

    /// What is left of it.
    pub fn remaining(&self) -> u64 {
        self.size.saturating_sub(self.done)
    }

    fn open_value(&self) -> i128 {
        i128::from(self.remaining()) * i128::from(self.price)
    }
}

impl Group {
    /// 004's six metrics, in their order.
    pub fn metrics(&self) -> [i128; 6] {
        let ([tb, ts], [ob, os]) = (self.traded, self.open);
        let (net_trade, net_open) = (tb - ts, ob - os);
        let (gross_trade, gross_open) = (tb + ts, ob + os);
        [
            gross_trade,
            net_trade.abs(),
            gross_open,
            net_open.abs(),
            gross_trade + gross_open,
            (net_trade + net_open).abs(),
        ]
    }

    fn block_if_above(&mut self) {
        let metrics = self.metrics();
        let above = |i: usize| metrics[i] > i128::from(self.limits[i]);
        self.blocked |= (0..6).any(above);
    }
}

/// Four bytes of an MPID field.
fn four(bytes: &[u8]) -> [u8; 4] {
    bytes.try_into().unwrap_or_default()
}

impl Book {
    /// The group with this MPID.
    pub fn group(&self, mpid: [u8; 4]) -> Option<&Group> {
        self.groups.iter().find(|g| g.mpid == mpid)
    }

    /// The symbol with this ID.
    pub fn symbol(&self, id: u64) -> Option<&Symbol> {
        self.symbols.iter().find(|s| s.id == id)
    }

    /// Adds a place; false if its MPID and identifier have one.
    pub fn add_place(&mut self, place: Place) -> bool {
        let key = (place.mpid, place.id.clone());
        if self.known.contains_key(&key) {
            return false;
        }
        self.known.insert(key, self.places.len());
        self.places.push(place);
        true
    }

    fn order_and_group(&mut self, mpid: &[u8], id: &[u8]) -> Option<(&mut Order, &mut Group)> {
        let at = *self.known.get(&(four(mpid), id.to_vec()))?;
        let group = self.groups.iter_mut().find(|g| g.mpid == mpid)?;
        Some((self.places[at].order.as_mut()?, group))
    }

    /// Takes note of a line and what became of it.
    pub fn note(&mut self, line: &[u8], answer: &Answer) {
        if self.recent.len() == 24 {
            self.recent.pop_front();
        }
        self.recent.push_back(line.to_vec());
        // Only a line of good form has another number than 1.
        if answer.number == 1 {
            return;
        }
        let fields = Fields::of(line);
        match answer.outcome {
            b'K' | b'A' => {
                self.last = fields.number(1);
                if answer.outcome == b'K' {
                    self.note_notice(&fields);
                }
            }
            b'P' if matches!(fields.kind(), b'G' | b'S' | b'O') => self.note_setup(&fields),
            b'P' | b'R' if remembered(answer.number.into()) => {
                let (id, mpid) = (fields.text(1).to_vec(), four(fields.text(2)));
                let line = line.to_vec();
                let new = self.add_place(Place { mpid, id, line, order: None });
                if new && answer.outcome == b'P' {
                    self.note_request(&fields);
                }
            }
            _ => {}
        }
    }

    fn note_setup(&mut self, fields: &Fields) {
        match fields.kind() {
            b'G' => self.groups.push(Group {
                mpid: four(fields.text(1)),
                limits: [2, 3, 4, 5, 6, 7].map(|i| fields.number(i)),
                most_size: fields.number(8),
                short_sales: fields.text(9) == b"Y",
                ..Group::default()
            }),
            b'S' => self.symbols.push(Symbol { id: fields.number(1), ..Symbol::default() }),
            _ => self.opened = true,
        }
    }

    /// A notice that was booked.
    fn note_notice(&mut self, fields: &Fields) {
        if fields.kind() == b'Q' {
            let id = fields.number(2);
            if let Some(s) = self.symbols.iter_mut().find(|s| s.id == id) {
                (s.bid, s.offer) = (fields.number(3), fields.number(4));
            }
            return;
        }
        let Some((order, group)) = self.order_and_group(fields.text(2), fields.text(3)) else {
            return;
        };
        if fields.kind() == b'H' {
            order.asked = false;
            return;
        }
        let (size, column) = (fields.number(4), order.column());
        order.done += size;
        group.open[column] -= i128::from(size) * i128::from(order.price);
        if fields.kind() == b'F' {
            group.traded[column] += i128::from(size) * i128::from(fields.number(5));
        }
        group.block_if_above();
    }

    /// A request that passed and was added last.
    fn note_request(&mut self, fields: &Fields) {
        let (id, mpid) = (fields.text(1), fields.text(2));
        match fields.kind() {
            b'N' => {
                if let Some(place) = self.places.last_mut() {
                    place.order = Some(Order {
                        symbol: fields.number(3),
                        side: fields.text(4).first().copied().unwrap_or(b'B'),
                        size: fields.number(5),
                        price: fields.number(6),
                        done: 0,
                        asked: false,
                    });
                }
                if let Some((order, group)) = self.order_and_group(mpid, id) {
                    group.open[order.column()] += order.open_value();
                }
            }
            b'M' => {
                if let Some((order, group)) = self.order_and_group(mpid, fields.text(3)) {
                    group.open[order.column()] -= order.open_value();
                    (order.size, order.price) = (fields.number(4), fields.number(5));
                    group.open[order.column()] += order.open_value();
                }
            }
            b'C' => {
                if let Some((order, _)) = self.order_and_group(mpid, fields.text(3)) {
                    order.asked = true;
                }
            }
            kind => {
                if let Some(group) = self.groups.iter_mut().find(|g| g.mpid == mpid) {
                    group.blocked = kind == b'B';
                }
            }
        }
    }
}

/// The fields of a line of good form.
struct Fields<'a>(Vec<&'a [u8]>);

impl Fields<'_> {
    fn of(line: &[u8]) -> Fields<'_> {
        let text = line.strip_suffix(b"\n").unwrap_or(line);
        Fields(text.split(|&b| b == b'\t').collect())
    }

    fn kind(&self) -> u8 {
        self.text(0).first().copied().unwrap_or(0)
    }

    fn text(&self, i: usize) -> &[u8] {
        self.0.get(i).copied().unwrap_or_default()
    }

    fn number(&self, i: usize) -> u64 {
        let digit = |value: u64, &b: &u8| {
            let digit = u64::from(b.wrapping_sub(b'0'));
            value.wrapping_mul(10).wrapping_add(digit)
        };
        self.text(i).iter().fold(0, digit)
    }
}
