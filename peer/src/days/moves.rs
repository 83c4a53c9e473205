//! The next lines of a day, drawn from what is known of it.

use super::book::{Book, Order};
use super::damage::damage;
use super::hand::Hand;
use super::pieces::{any_group, any_mpid, on_tick, tick, Line, TOP_PRICE};
use super::rng::Rng;
use super::style::{Act, Style};
use super::{MOST_PRICE, MOST_SIZE};

/// The next lines of a day: mostly one, sometimes a few that belong together.
pub fn propose(book: &Book, style: &Style, rng: &mut Rng) -> Vec<Vec<u8>> {
    let mut hand = Hand { book, style, rng, lines: Vec::new(), notices: 0 };
    match book.opened {
        true => hand.after_opening(),
        false => hand.before_opening(),
    }
    let mut lines = hand.lines;
    for line in &mut lines {
        if rng.chance(style.damage) {
            *line = damage(rng, line);
        }
    }
    lines
}

impl Hand<'_> {
    fn before_opening(&mut self) {
        match self.rng.weighted(&[30, 30, 8, 20]) {
            0 => self.setup_group(),
            1 => self.setup_symbol(),
            2 => self.push(Line::new(b'O')),
            _ => {
                let act = Style::any_act(self.rng);
                self.perform(act);
            }
        }
    }

    fn after_opening(&mut self) {
        let mut act = self.style.act(self.rng);
        // Without an open order there is little to do with one.
        if act.needs_order() && self.rng.chance(80) && self.open_order().is_none() {
            act = Act::New;
        }
        self.perform(act);
    }

    fn perform(&mut self, act: Act) {
        match act {
            Act::New => self.new_order(),
            Act::Change => self.change(),
            Act::Cancel => self.cancel(),
            Act::Block => self.block(b'B'),
            Act::Unblock => self.block(b'R'),
            Act::Quote => self.quote(),
            Act::Fill => self.fill(),
            Act::Reduce => self.reduce(),
            Act::CancelRefused => self.cancel_refused(),
            Act::Retry => self.retry(),
            Act::Altered => self.altered(),
            Act::Elsewhere => self.elsewhere(),
            Act::Echo => self.echo(),
            Act::Protect => self.at_protection(),
            Act::AimNew => self.at_limit_new(),
            Act::AimChange => self.at_limit_change(),
            Act::AimFill => self.at_limit_fill(),
            Act::AimReduce => self.at_limit_reduce(),
            Act::AimFreed => self.above_limit_freed(),
            Act::Setup => match self.rng.below(3) {
                0 => self.setup_group(),
                1 => self.setup_symbol(),
                _ => self.push(Line::new(b'O')),
            },
        }
    }

    // ---- setup ----

    fn setup_group(&mut self) {
        let mpid = match self.rng.chance(40) {
            true => self.mpid(),
            false => any_mpid(self.rng),
        };
        let line = any_group(self.rng, self.style, &mpid);
        self.lines.push(line);
    }

    fn setup_symbol(&mut self) {
        let id = self.symbol_id();
        self.push(Line::new(b'S').number(id));
    }

    // ---- requests ----

    fn new_order(&mut self) {
        let (mpid, symbol_id, side) = (self.mpid(), self.symbol_id(), self.side());
        let most = self.book.group(mpid).map_or(100, |g| g.most_size);
        let size = self.size(most);
        let price = self.price(self.book.symbol(symbol_id), side);
        if self.book.group(mpid).is_some_and(|g| g.blocked) && self.rng.chance(40) {
            self.block_of(b'R', mpid);
        }
        let id = self.identifier();
        self.push_new(&id, mpid, symbol_id, side, size, price);
    }

    #[rustfmt::skip]
    pub fn push_new(&mut self, id: &[u8], mpid: [u8; 4], symbol: u64, side: u8, size: u64, price: u64) {
        let line = Line::new(b'N').text(id).text(&mpid).number(symbol).text(&[side]);
        self.push(line.number(size).number(price));
    }

    pub fn push_change(&mut self, mpid: [u8; 4], target: &[u8], size: u64, price: u64) {
        let id = self.identifier();
        let line = Line::new(b'M').text(&id).text(&mpid).text(target);
        self.push(line.number(size).number(price));
    }

    fn change(&mut self) {
        let (mpid, target, order) = self.target();
        let most = self.book.group(mpid).map_or(100, |g| g.most_size);
        let any = self.size(most);
        let size = match order {
            Some(order) => match self.rng.below(8) {
                0 => order.size,
                1 => order.done + 1,
                2 => order.done,
                3 => order.done.saturating_sub(1),
                4 => order.size + 1,
                5 => self.rng.between(1, order.size),
                _ => any,
            },
            None => any,
        };
        let symbol = order.and_then(|o| self.book.symbol(o.symbol));
        let price = match order {
            Some(order) if self.rng.chance(50) => order.price,
            Some(order) => self.price(symbol, order.side),
            None => self.price(None, b'B'),
        };
        self.push_change(mpid, &target, size.clamp(1, MOST_SIZE), price.clamp(1, MOST_PRICE));
    }

    fn cancel(&mut self) {
        let (mpid, target, _) = self.target();
        let id = self.identifier();
        self.push(Line::new(b'C').text(&id).text(&mpid).text(&target));
    }

    fn block(&mut self, kind: u8) {
        let mpid = match self.any_listed() {
            Some(group) if self.rng.chance(90) => group.mpid,
            _ => self.mpid(),
        };
        self.block_of(kind, mpid);
    }

    pub fn block_of(&mut self, kind: u8, mpid: [u8; 4]) {
        let id = self.identifier();
        self.push(Line::new(kind).text(&id).text(&mpid));
    }

    // ---- requests and lines that were there before ----

    fn retry(&mut self) {
        match self.any_place() {
            Some(place) => self.lines.push(place.line.clone()),
            None => self.new_order(),
        }
    }

    /// A known identifier with another request.
    fn altered(&mut self) {
        let Some(place) = self.any_place() else {
            return self.new_order();
        };
        let (id, mpid) = (place.id.clone(), place.mpid);
        if self.rng.chance(30) {
            let kind = self.rng.pick(b"BRC");
            let line = Line::new(kind).text(&id).text(&mpid);
            return match kind {
                b'C' => self.push(line.text(&id)),
                _ => self.push(line),
            };
        }
        let text = &place.line[..place.line.len() - 1];
        let mut fields: Vec<Vec<u8>> = text.split(|&b| b == b'\t').map(<[u8]>::to_vec).collect();
        match fields.len() {
            // B and R have no other field than the kind.
            ..=3 => fields[0] = vec![if place.line[0] == b'B' { b'R' } else { b'B' }],
            n => {
                let at = 3 + self.rng.index(n - 3);
                let field = String::from_utf8_lossy(&fields[at]).into_owned();
                fields[at] = match (field.parse::<u64>(), place.line[0], at) {
                    (_, b'N', 4) => vec![self.side()],
                    (_, b'M' | b'C', 3) => {
                        let target = fields[at].clone();
                        self.beside(&target)
                    }
                    (Ok(number), ..) => {
                        let up = self.rng.chance(50) || number <= 1;
                        let other = if up { number.saturating_add(1) } else { number - 1 };
                        other.to_string().into_bytes()
                    }
                    _ => self.identifier(),
                };
            }
        }
        let mut line = fields.join(&b'\t');
        line.push(b'\n');
        self.lines.push(line);
    }

    /// A known identifier under another MPID.
    fn elsewhere(&mut self) {
        let Some(place) = self.any_place() else {
            return self.new_order();
        };
        let mpid = self.mpid();
        let text = &place.line[..place.line.len() - 1];
        let mut fields: Vec<&[u8]> = text.split(|&b| b == b'\t').collect();
        if fields.len() > 2 {
            fields[2] = &mpid;
        }
        let mut line = fields.join(&b'\t');
        line.push(b'\n');
        self.lines.push(line);
    }

    fn echo(&mut self) {
        let recent = &self.book.recent;
        match recent.get(self.rng.index(recent.len())) {
            Some(line) => self.lines.push(line.clone()),
            None => self.new_order(),
        }
    }

    // ---- notices ----

    fn quote(&mut self) {
        let (number, symbol) = (self.notice(), self.symbol_id());
        let (bid, offer) = match self.rng.weighted(&[50, 20, 10, 10]) {
            _ if self.style.large => self.rng.pick(&[(0, 0), (0, 0), (1, MOST_PRICE)]),
            _ if self.style.grid => {
                self.rng.pick(&[(0, 0), (9_990_000, 10_000_000), (10_000_000, 0)])
            }
            0 => {
                let bid = on_tick(self.rng.spread(TOP_PRICE));
                (bid, bid + self.rng.below(20) * tick(bid))
            }
            1 => match self.open_order() {
                Some((_, order)) => (order.price, order.price + tick(order.price)),
                None => (0, 0),
            },
            2 => (0, 0),
            _ => {
                let edge = |rng: &mut Rng| match rng.chance(50) {
                    true => rng.pick(&[0, 0, 1, 99, MOST_PRICE, 1_000_000]),
                    false => rng.spread(MOST_PRICE),
                };
                (edge(self.rng), edge(self.rng))
            }
        };
        self.push_quote(number, symbol, bid, offer.min(MOST_PRICE));
    }

    pub fn push_quote(&mut self, number: u64, symbol: u64, bid: u64, offer: u64) {
        let line = Line::new(b'Q').number(number).number(symbol);
        self.push(line.number(bid).number(offer));
    }

    /// A size for a fill or reduction of this order.
    fn part_of(&mut self, order: Option<&Order>) -> u64 {
        let left = order.map_or(100, Order::remaining);
        let size = match self.rng.below(10) {
            0..=2 => self.rng.between(1, left),
            3 | 4 => 1,
            5 => left.saturating_sub(1),
            6 => left + 1,
            7 if self.rng.chance(30) => self.rng.spread(MOST_SIZE),
            _ => left,
        };
        size.clamp(1, MOST_SIZE)
    }

    fn fill(&mut self) {
        let (mpid, target, order) = self.target();
        let (number, size) = (self.notice(), self.part_of(order));
        let price = self.fill_price(order).clamp(1, MOST_PRICE);
        self.push_fill(number, mpid, &target, size, price);
    }

    pub fn push_fill(&mut self, number: u64, mpid: [u8; 4], target: &[u8], size: u64, price: u64) {
        let line = Line::new(b'F').number(number).text(&mpid).text(target);
        self.push(line.number(size).number(price));
    }

    fn reduce(&mut self) {
        let (mpid, target, order) = self.target();
        let (number, size) = (self.notice(), self.part_of(order));
        self.push_reduction(number, mpid, &target, size);
    }

    pub fn push_reduction(&mut self, number: u64, mpid: [u8; 4], target: &[u8], size: u64) {
        let line = Line::new(b'D').number(number).text(&mpid).text(target);
        self.push(line.number(size));
    }

    fn cancel_refused(&mut self) {
        let (mpid, target, _) = self.target();
        let number = self.notice();
        self.push(Line::new(b'H').number(number).text(&mpid).text(&target));
    }
}
