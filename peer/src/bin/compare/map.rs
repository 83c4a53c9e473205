//! Where each thing stands in the lent words (docs/STATE.md), by regions of rows of fields.

use peer::days::book::{Book, Group, Order, Place, Symbol};
use peer::days::pieces::{group_line, Line};
use peer::days::{MOST_PRICE, MOST_SIZE};
use peer::memory::{room, LEAST_WORDS};

/// The regions, in their order.
#[derive(Clone, Copy, PartialEq, Eq, Debug)]
pub enum Region {
    Head,
    Group,
    Symbol,
    Key,
    Request,
    Order,
}

use Region::{Head, Request};

pub const REGIONS: [Region; 6] =
    [Head, Region::Group, Region::Symbol, Region::Key, Request, Region::Order];

impl Region {
    /// Its first word, its rows and the words of a row.
    pub fn shape(self, room: usize) -> (usize, usize, usize) {
        match self {
            Head => (0, 1, 5),
            Region::Group => (5, 64, 14),
            Region::Symbol => (901, 256, 3),
            Region::Key => (LEAST_WORDS, room, 4),
            Request => (LEAST_WORDS + 4 * room, room, 9),
            Region::Order => (LEAST_WORDS + 13 * room, room, 4),
        }
    }

    /// The word of a field.
    pub fn at(self, room: usize, row: usize, field: usize) -> usize {
        let (first, _, width) = self.shape(room);
        first + row * width + field
    }

    /// The rows in use by the counts, no more than there are.
    pub fn used(self, words: &[u64]) -> usize {
        let (_, rows, _) = self.shape(room(words.len()));
        let count = match self {
            Head => return 1,
            Region::Group => words[2],
            Region::Symbol => words[3],
            _ => words[4],
        };
        rows.min(usize::try_from(count).unwrap_or(rows))
    }

    fn fields(self) -> &'static [&'static str] {
        match self {
            Head => &["open", "last number", "groups", "symbols", "places"],
            Region::Group => &[
                "MPID",
                "limit 1",
                "limit 2",
                "limit 3",
                "limit 4",
                "limit 5",
                "limit 6",
                "maximum size",
                "short sales",
                "blocked",
                "traded buys",
                "traded sells",
                "open buys",
                "open sells",
            ],
            Region::Symbol => &["ID", "bid", "offer"],
            Region::Key => &["MPID", "identifier 1", "identifier 2", "identifier 3"],
            Request => &[
                "kind", "number", "target 1", "target 2", "target 3", "symbol", "side", "size",
                "price",
            ],
            Region::Order => &["price", "size", "done", "cancel asked"],
        }
    }
}

/// Which region, row and field a word is.
pub fn find(index: usize, words: usize) -> Option<(Region, usize, usize)> {
    let room = room(words);
    REGIONS.into_iter().find_map(|region| {
        let (first, rows, width) = region.shape(room);
        let offset = index.checked_sub(first).filter(|&o| o < rows * width)?;
        Some((region, offset / width, offset % width))
    })
}

/// What a word is, for people.
pub fn name(index: usize, words: usize) -> String {
    match find(index, words) {
        Some((Head, _, field)) => format!("head: {}", Head.fields()[field]),
        Some((region, row, field)) => {
            let row_name = format!("{region:?}").to_lowercase();
            format!("{row_name} {row}: {}", region.fields()[field])
        }
        None => "past the last place".to_string(),
    }
}

/// The same rows in another length, as far as they fit.
pub fn resize(words: &[u64], count: usize) -> Vec<u64> {
    let mut to = vec![0; count];
    let (from_room, to_room) = (room(words.len()), room(count));
    for region in REGIONS {
        let (from, rows, width) = region.shape(from_room);
        let (start, fit, _) = region.shape(to_room);
        let length = (rows.min(fit) * width).min(count.saturating_sub(start));
        let length = length.min(words.len().saturating_sub(from));
        if length > 0 {
            to[start..start + length].copy_from_slice(&words[from..from + length]);
        }
    }
    to
}

/// The text that is packed in these words, up to the first zero.
fn text(words: &[u64]) -> Vec<u8> {
    let bytes = words.iter().flat_map(|word| word.to_le_bytes());
    bytes.take_while(|&b| b != 0).take(20).collect()
}

fn mpid(word: u64) -> [u8; 4] {
    (word as u32).to_le_bytes()
}

/// The day that stands in these words, for a generator. Nothing is expected of the words.
pub fn book(words: &[u64]) -> Book {
    let mut book = Book::default();
    if words.len() < LEAST_WORDS {
        return book;
    }
    let room = room(words.len());
    let row = |region: Region, row: usize| {
        let (first, _, width) = region.shape(room);
        &words[first + row * width..first + (row + 1) * width]
    };
    book.opened = words[0] != 0;
    book.last = words[1] & 0xFFFF_FFFF;
    for i in 0..Region::Group.used(words) {
        let w = row(Region::Group, i);
        let group = Group {
            mpid: mpid(w[0]),
            limits: [w[1], w[2], w[3], w[4], w[5], w[6]],
            most_size: w[7].min(2_000_000),
            short_sales: w[8] == 1,
            blocked: w[9] == 1,
            traded: [w[10].into(), w[11].into()],
            open: [w[12].into(), w[13].into()],
        };
        let line = group_line(&group.mpid, group.limits, group.most_size, group.short_sales);
        book.recent.push_back(line);
        book.groups.push(group);
    }
    for i in 0..Region::Symbol.used(words) {
        let w = row(Region::Symbol, i);
        let (bid, offer) = (w[1].min(MOST_PRICE), w[2].min(MOST_PRICE));
        book.symbols.push(Symbol { id: w[0] & 0xFFFF_FFFF, bid, offer });
    }
    for i in 0..Region::Key.used(words).min(3000) {
        let (key, r, o) = (row(Region::Key, i), row(Request, i), row(Region::Order, i));
        let (mut id, mpid) = (text(&key[1..]), mpid(key[0]));
        if id.is_empty() {
            id.push(b'!');
        }
        let mut line = Line::new(r[0] as u8).text(&id).text(&mpid);
        match r[0] as u8 {
            b'N' => line = line.number(r[5]).text(&[r[6] as u8]).number(r[7]).number(r[8]),
            b'M' => line = line.text(&text(&r[2..5])).number(r[7]).number(r[8]),
            b'C' => line = line.text(&text(&r[2..5])),
            _ => {}
        }
        let order = (r[0] == u64::from(b'N') && r[1] == 0).then(|| Order {
            symbol: r[5] & 0xFFFF_FFFF,
            side: r[6] as u8,
            price: o[0].min(2 * MOST_PRICE),
            size: o[1].min(2 * MOST_SIZE),
            done: o[2].min(2 * MOST_SIZE),
            asked: o[3] == 1,
        });
        book.add_place(Place { mpid, id, line: line.end(), order });
    }
    book
}

#[cfg(test)]
mod tests {
    use super::*;

    #[test]
    fn every_word_has_one_name() {
        let words = LEAST_WORDS + 17 * 3 + 5;
        let mut names: Vec<String> = (0..words - 5).map(|i| name(i, words)).collect();
        names.sort();
        names.dedup();
        assert_eq!(names.len(), words - 5);
        assert_eq!(name(0, words), "head: open");
        assert_eq!(name(900, words), "group 63: open sells");
        assert_eq!(name(1668, words), "symbol 255: offer");
        assert_eq!(name(1669 + 4 * 3, words), "request 0: kind");
        assert_eq!(name(words - 6, words), "order 2: cancel asked");
        assert_eq!(name(words - 1, words), "past the last place");
    }

    #[test]
    fn rows_stay_when_the_length_changes() {
        let words: Vec<u64> = (0..LEAST_WORDS as u64 + 17 * 3).collect();
        let shorter = resize(&words, LEAST_WORDS + 17 * 2);
        assert_eq!(shorter[..LEAST_WORDS], words[..LEAST_WORDS]);
        assert_eq!(shorter[Region::Order.at(2, 1, 3)], words[Region::Order.at(3, 1, 3)]);
    }
}
