//! What the next lines are drawn from: the book, and parts of lines that fit it.

use super::book::{Book, Group, Order, Place, Symbol};
use super::pieces::{any_byte, any_mpid, on_tick, tick, Line, EDGE_PRICES, TOP_PRICE};
use super::rng::Rng;
use super::style::Style;
use super::{MOST_NUMBER, MOST_PRICE, MOST_SIZE};

/// One draw of lines.
pub(super) struct Hand<'a> {
    pub book: &'a Book,
    pub style: &'a Style,
    pub rng: &'a mut Rng,
    pub lines: Vec<Vec<u8>>,
    /// Notices among the lines that are expected to take their number.
    pub notices: u64,
}

impl<'a> Hand<'a> {
    pub fn push(&mut self, line: Line) {
        self.lines.push(line.end());
    }

    /// A listed group.
    pub fn any_listed(&mut self) -> Option<&'a Group> {
        self.book.groups.get(self.rng.index(self.book.groups.len()))
    }

    /// A listed group that is not blocked, if a few draws find one.
    pub fn open_group(&mut self) -> Option<&'a Group> {
        for _ in 0..4 {
            let group = self.any_listed()?;
            if !group.blocked {
                return Some(group);
            }
        }
        self.any_listed()
    }

    /// Mostly a listed MPID.
    pub fn mpid(&mut self) -> [u8; 4] {
        match self.open_group() {
            Some(group) if !self.rng.chance(3) => group.mpid,
            Some(group) if self.rng.chance(60) => {
                let mut near = group.mpid;
                near[self.rng.index(4)] = self.rng.pick(b"ABYZ019");
                near
            }
            _ => any_mpid(self.rng),
        }
    }

    /// A listed symbol.
    pub fn any_symbol(&mut self) -> Option<&'a Symbol> {
        self.book.symbols.get(self.rng.index(self.book.symbols.len()))
    }

    /// Mostly a listed symbol's ID.
    pub fn symbol_id(&mut self) -> u64 {
        match self.any_symbol() {
            Some(symbol) if !self.rng.chance(4) => symbol.id,
            Some(symbol) if self.rng.chance(50) => (symbol.id + 1).min(MOST_NUMBER),
            _ => self.rng.pick(&[1, 2, 65_536, MOST_NUMBER - 1, MOST_NUMBER]),
        }
    }

    /// An identifier, mostly a new one.
    pub fn identifier(&mut self) -> Vec<u8> {
        match self.rng.weighted(&[40, 30, 10, 12, 4]) {
            0 => format!("T{}", self.rng.below(1_000_000)).into_bytes(),
            1 => (0..self.rng.between(1, 20)).map(|_| any_byte(self.rng)).collect(),
            2 => (0..20).map(|_| any_byte(self.rng)).collect(),
            3 => match self.any_place() {
                Some(place) => self.beside(&place.id),
                None => vec![any_byte(self.rng)],
            },
            _ => vec![any_byte(self.rng)],
        }
    }

    /// Next to a known identifier: one byte more, less or changed, or its parts exchanged.
    pub fn beside(&mut self, known: &[u8]) -> Vec<u8> {
        let mut id = known.to_vec();
        match self.rng.below(5) {
            _ if id.is_empty() => id.push(b'!'),
            0 if id.len() < 20 => id.push(any_byte(self.rng)),
            1 if id.len() > 1 => drop(id.pop()),
            2 if id.len() >= 16 => id[..16].rotate_left(8),
            3 => {
                let end = id.len();
                id[..end.min(8)].reverse();
            }
            _ => {
                let at = self.rng.index(id.len());
                id[at] = any_byte(self.rng);
            }
        }
        id
    }

    /// A place of the table.
    pub fn any_place(&mut self) -> Option<&'a Place> {
        let places = &self.book.places;
        // The last ones more often.
        let back = match self.rng.chance(50) {
            true => self.rng.index(places.len().min(12)),
            false => self.rng.index(places.len()),
        };
        places.iter().nth_back(back)
    }

    /// A place with an open order, if a few draws find one.
    pub fn open_order(&mut self) -> Option<(&'a Place, &'a Order)> {
        for _ in 0..12 {
            let place = self.any_place()?;
            if let Some(order) = place.order.as_ref().filter(|o| o.remaining() > 0) {
                return Some((place, order));
            }
        }
        None
    }

    /// The same with no cancel asked, if a few draws find one.
    pub fn free_order(&mut self) -> Option<(&'a Place, &'a Order)> {
        let mut draws = (0..6).map_while(|_| self.open_order());
        draws.find(|(_, order)| !order.asked)
    }

    /// An MPID and a target: mostly an open order of its own.
    pub fn target(&mut self) -> ([u8; 4], Vec<u8>, Option<&'a Order>) {
        let open = self.open_order();
        match (open, self.rng.weighted(&[82, 4, 4, 6, 2])) {
            (Some((place, order)), 0) => (place.mpid, place.id.clone(), Some(order)),
            // Another MPID's order.
            (Some((place, order)), 1) => (self.mpid(), place.id.clone(), Some(order)),
            (Some((place, order)), 2) => (place.mpid, self.beside(&place.id), Some(order)),
            (None, 2) => (self.mpid(), self.identifier(), None),
            (_, 4) => (any_mpid(self.rng), self.identifier(), None),
            // Any place: done, refused, no order at all.
            _ => match self.any_place() {
                Some(place) => (place.mpid, place.id.clone(), place.order.as_ref()),
                None => (self.mpid(), self.identifier(), None),
            },
        }
    }

    /// Buys and sells about as often.
    pub fn side(&mut self) -> u8 {
        self.rng.pick(b"BBBBBSSSHE")
    }

    /// A size, also at this most and one above it.
    pub fn size(&mut self, most: u64) -> u64 {
        if self.style.grid {
            return self.rng.between(1, 5);
        }
        let weights = if self.style.large { [1, 1, 0, 1, 6, 0, 1] } else { [2, 4, 3, 3, 2, 1, 2] };
        match self.rng.weighted(&weights) {
            0 => 1,
            1 => self.rng.between(1, 10),
            2 => 100,
            3 => self.rng.between(1, most),
            4 => most,
            5 => (most + 1).min(MOST_SIZE),
            _ => self.rng.spread(MOST_SIZE),
        }
        .clamp(1, MOST_SIZE)
    }

    /// An order's price, mostly near the quote.
    pub fn price(&mut self, symbol: Option<&Symbol>, side: u8) -> u64 {
        if self.style.grid && !self.rng.chance(3) {
            return self.rng.pick(&[10_000_000, 10_000_000, 10_000_000, 10_010_000, 9_990_000]);
        }
        if self.style.large && !self.rng.chance(20) {
            return self.rng.pick(&[100, 100, 10_000, TOP_PRICE, 500_000_000_000]);
        }
        let quote = symbol.map_or(0, |s| if side == b'B' { s.offer } else { s.bid });
        match self.rng.weighted(&[60, 25, 6, 5]) {
            0 if quote > 0 => {
                let (step, up) = (tick(quote), self.rng.below(8));
                on_tick(match self.rng.chance(50) {
                    true => quote + up * step - 4 * step.min(quote / 4),
                    false => quote / 1000 * self.rng.between(930, 1070),
                })
            }
            2 => self.rng.pick(&EDGE_PRICES),
            3 => {
                let price = on_tick(self.rng.spread(TOP_PRICE));
                (price + self.rng.pick(&[1, 50, 100, 5_000, 9_999])).min(MOST_PRICE)
            }
            _ => on_tick(self.rng.spread(TOP_PRICE)),
        }
    }

    /// A fill's price: any in the form's range.
    pub fn fill_price(&mut self, order: Option<&Order>) -> u64 {
        let own = order.map_or(10_000_000, |o| o.price);
        if self.style.grid && !self.rng.chance(5) {
            return self.rng.pick(&[10_000_000, 10_000_000, 10_000_000, 10_000_001, 9_999_999]);
        }
        if self.style.large && !self.rng.chance(30) {
            return self.rng.pick(&[MOST_PRICE, MOST_PRICE, TOP_PRICE, 500_000_000_000]);
        }
        match self.rng.below(10) {
            0..=5 => own,
            6 => own.saturating_sub(self.rng.below(100)).max(1),
            7 => (own + self.rng.below(100)).min(MOST_PRICE),
            8 => self.rng.pick(&EDGE_PRICES),
            _ => self.rng.spread(MOST_PRICE),
        }
    }

    /// A notice number: mostly the next.
    pub fn notice(&mut self) -> u64 {
        let next = self.book.last + self.notices + 1;
        let number = match self.rng.weighted(&[86, 3, 3, 3, 3, 2]) {
            0 => {
                self.notices += 1;
                next
            }
            1 => self.book.last,
            2 => self.rng.between(1, self.book.last.max(1)),
            3 => next + 1,
            4 => next + self.rng.spread(1_000_000),
            _ => self.rng.pick(&[1, MOST_NUMBER, MOST_NUMBER - 1]),
        };
        number.clamp(1, MOST_NUMBER)
    }

    /// The next notice number.
    pub fn next_notice(&mut self) -> u64 {
        self.notices += 1;
        (self.book.last + self.notices).clamp(1, MOST_NUMBER)
    }
}
