//! "The day's lines": one record a line, each line with one reading and each record with
//! one line.

use std::ops::RangeInclusive;

/// The most bytes before the LF.
pub const MOST_LINE: usize = 160;
/// The ceiling: the greatest limit, and the most that gross of both may reach.
pub const CEILING: u64 = 4_000_000_000_000_000_000;
/// Symbol IDs and notice numbers.
pub const NUMBER: RangeInclusive<u64> = 1..=4_294_967_295;
/// Sizes and maximum sizes.
pub const SIZE: RangeInclusive<u64> = 1..=1_000_000;
/// Prices in N, M and F.
pub const PRICE: RangeInclusive<u64> = 1..=999_999_999_999;
/// Bids and offers: a price, or 0 for none known.
pub const QUOTE: RangeInclusive<u64> = 0..=999_999_999_999;
/// Limits. A limit of 0 is a limit of zero.
pub const LIMIT: RangeInclusive<u64> = 0..=CEILING;

/// An MPID: four bytes, each A to Z or 0 to 9.
#[derive(Clone, Copy, Debug, PartialEq, Eq)]
pub struct Mpid([u8; 4]);

impl Mpid {
    /// These four bytes, if they have the form.
    pub fn new(bytes: [u8; 4]) -> Option<Mpid> {
        let fine = |b: &u8| b.is_ascii_uppercase() || b.is_ascii_digit();
        bytes.iter().all(fine).then_some(Mpid(bytes))
    }

    /// The four bytes.
    pub fn bytes(&self) -> &[u8] {
        &self.0
    }

    /// The bytes in one word, the first lowest.
    pub fn word(self) -> u64 {
        u64::from(u32::from_le_bytes(self.0))
    }

    /// The MPID that is packed in this word, if one is.
    pub fn from_word(word: u64) -> Option<Mpid> {
        Mpid::new(u32::try_from(word).ok()?.to_le_bytes())
    }
}

/// An identifier or target: 1 to 20 bytes of ASCII 33 to 126 except `|`.
#[derive(Clone, Copy, Debug, PartialEq, Eq)]
#[repr(align(8))]
pub struct Ident {
    /// Zeros after the last byte.
    padded: [u8; 24],
}

impl Ident {
    /// These bytes, if they have the form.
    pub fn new(bytes: &[u8]) -> Option<Ident> {
        Ident::leading(bytes).filter(|id| id.bytes() == bytes)
    }

    /// The longest run of identifier bytes at the start, if it has 1 to 20.
    #[inline]
    fn leading(from: &[u8]) -> Option<Ident> {
        let padded = from.first_chunk().copied().unwrap_or_else(|| {
            let mut padded = [0; 24];
            padded[..from.len()].copy_from_slice(from);
            padded
        });
        Ident::run(Ident { padded }.words())
    }

    /// The same for bytes that are packed in words.
    #[inline]
    fn run([first, second, third]: [u64; 3]) -> Option<Ident> {
        let (first, full) = leading_bytes(first);
        let (second, full) = if full { leading_bytes(second) } else { (0, false) };
        let (third, _) = if full { leading_bytes(third) } else { (0, false) };
        let mut padded = [0; 24];
        for (eight, word) in padded.as_chunks_mut().0.iter_mut().zip([first, second, third]) {
            *eight = word.to_le_bytes();
        }
        (first != 0 && third >> 32 == 0).then_some(Ident { padded })
    }

    /// The bytes, without padding.
    #[inline]
    pub fn bytes(&self) -> &[u8] {
        let [first, second, third] = self.words();
        let spare = match (second, third) {
            (0, 0) => 16 + first.leading_zeros() / 8,
            (_, 0) => 8 + second.leading_zeros() / 8,
            _ => third.leading_zeros() / 8,
        };
        &self.padded[..24 - spare as usize]
    }

    /// Packed eight bytes a word, the first lowest, zeros after the last.
    #[inline]
    pub fn words(&self) -> [u64; 3] {
        let (words, _) = self.padded.as_chunks();
        [words[0], words[1], words[2]].map(u64::from_le_bytes)
    }

    /// The identifier that is packed in these words, if one is.
    #[inline]
    pub fn from_words(words: [u64; 3]) -> Option<Ident> {
        // What stands after the run makes the words differ.
        Ident::run(words).filter(|id| id.words() == words)
    }
}

/// The identifier bytes from the lowest on, zeros after them, and whether all eight are.
/// All are tried at once: each flag is the high bit of a byte; the lowest flag of each kind
/// is exact, those above it may be false, and only the lowest of all is used.
#[inline]
fn leading_bytes(word: u64) -> (u64, bool) {
    const ONES: u64 = u64::MAX / 255;
    const HIGH: u64 = ONES << 7;
    let below_33 = word.wrapping_sub(ONES * 33) & !word;
    let above_126 = word.wrapping_add(ONES) | word;
    let bars = word ^ (ONES * b'|' as u64);
    let bar = bars.wrapping_sub(ONES) & !bars;
    match (below_33 | above_126 | bar) & HIGH {
        0 => (word, true),
        flags => (word & ((1 << (flags.trailing_zeros() & !7)) - 1), false),
    }
}

/// The side of an order. H and E count as sells everywhere.
#[derive(Clone, Copy, Debug, PartialEq, Eq)]
#[repr(u8)]
pub enum Side {
    /// Buy.
    B = b'B',
    /// Sell.
    S = b'S',
    /// Sell short.
    H = b'H',
    /// Sell short exempt.
    E = b'E',
}

impl Side {
    /// The side that this letter names.
    pub fn from_letter(letter: u8) -> Option<Side> {
        [Side::B, Side::S, Side::H, Side::E].into_iter().find(|side| side.letter() == letter)
    }

    /// Its letter.
    pub fn letter(self) -> u8 {
        self as u8
    }

    /// Its place in a pair of totals: 0 for buys, 1 for sells.
    pub fn column(self) -> usize {
        usize::from(self != Side::B)
    }
}

/// One record: a kind with its own fields, in the order of the line.
#[derive(Clone, Copy, Debug, PartialEq, Eq)]
#[rustfmt::skip]
#[allow(missing_docs)]
pub enum Record {
    /// Group.
    G { mpid: Mpid, limits: [u64; 6], max_size: u64, short_sales: bool },
    /// Symbol.
    S { symbol: u64 },
    /// Open.
    O,
    /// New order.
    N { id: Ident, mpid: Mpid, symbol: u64, side: Side, size: u64, price: u64 },
    /// Change.
    M { id: Ident, mpid: Mpid, target: Ident, size: u64, price: u64 },
    /// Cancel.
    C { id: Ident, mpid: Mpid, target: Ident },
    /// Block.
    B { id: Ident, mpid: Mpid },
    /// Remove block.
    R { id: Ident, mpid: Mpid },
    /// Quote.
    Q { number: u64, symbol: u64, bid: u64, offer: u64 },
    /// Fill.
    F { number: u64, mpid: Mpid, target: Ident, size: u64, price: u64 },
    /// Reduction.
    D { number: u64, mpid: Mpid, target: Ident, size: u64 },
    /// Cancel refused.
    H { number: u64, mpid: Mpid, target: Ident },
}

/// What is left of a line. Every field takes the tab before it.
struct Fields<'a> {
    rest: &'a [u8],
}

impl Fields<'_> {
    fn tab(&mut self) -> Option<()> {
        self.rest = self.rest.strip_prefix(b"\t")?;
        Some(())
    }

    /// A field of so many bytes.
    fn bytes<const N: usize>(&mut self) -> Option<[u8; N]> {
        self.tab()?;
        let (&bytes, rest) = self.rest.split_first_chunk()?;
        self.rest = rest;
        Some(bytes)
    }

    fn mpid(&mut self) -> Option<Mpid> {
        Mpid::new(self.bytes()?)
    }

    fn ident(&mut self) -> Option<Ident> {
        self.tab()?;
        let id = Ident::leading(self.rest)?;
        self.rest = &self.rest[id.bytes().len()..];
        Some(id)
    }

    fn side(&mut self) -> Option<Side> {
        let [letter] = self.bytes()?;
        Side::from_letter(letter)
    }

    fn yes_or_no(&mut self) -> Option<bool> {
        let [letter] = self.bytes()?;
        b"YN".contains(&letter).then_some(letter == b'Y')
    }

    /// Decimal, without sign or leading zero, within a range.
    fn number(&mut self, range: RangeInclusive<u64>) -> Option<u64> {
        self.tab()?;
        let mut value = 0u64;
        let mut digits = 0;
        for &b in self.rest {
            let digit = b.wrapping_sub(b'0');
            if digit > 9 {
                break;
            }
            value = value.wrapping_mul(10).wrapping_add(u64::from(digit));
            digits += 1;
        }
        // Nineteen digits never wrap, and the ceiling has no more.
        let (text, rest) = self.rest.split_at(digits);
        self.rest = rest;
        let plain = (1..=19).contains(&digits) && (digits == 1 || text[0] != b'0');
        (plain && range.contains(&value)).then_some(value)
    }
}

/// The record of a line that is lent with its LF. `None` is number 1.
pub fn read(line: &[u8]) -> Option<Record> {
    let (record, length) = first(line)?;
    (length == line.len()).then_some(record)
}

/// The record of the first line of a text, and the length of that line with its LF. No
/// field has an LF, so that the line need not be looked for before it is read.
#[inline]
#[rustfmt::skip]
pub fn first(text: &[u8]) -> Option<(Record, usize)> {
    let (&kind, rest) = text.split_first()?;
    let mut f = Fields { rest };
    let record = match kind {
        b'G' => {
            let mpid = f.mpid()?;
            let mut limits = [0; 6];
            for limit in &mut limits {
                *limit = f.number(LIMIT)?;
            }
            Record::G { mpid, limits, max_size: f.number(SIZE)?, short_sales: f.yes_or_no()? }
        }
        b'S' => Record::S { symbol: f.number(NUMBER)? },
        b'O' => Record::O,
        b'N' => Record::N {
            id: f.ident()?, mpid: f.mpid()?, symbol: f.number(NUMBER)?,
            side: f.side()?, size: f.number(SIZE)?, price: f.number(PRICE)?,
        },
        b'M' => Record::M {
            id: f.ident()?, mpid: f.mpid()?, target: f.ident()?,
            size: f.number(SIZE)?, price: f.number(PRICE)?,
        },
        b'C' => Record::C { id: f.ident()?, mpid: f.mpid()?, target: f.ident()? },
        b'B' => Record::B { id: f.ident()?, mpid: f.mpid()? },
        b'R' => Record::R { id: f.ident()?, mpid: f.mpid()? },
        b'Q' => Record::Q {
            number: f.number(NUMBER)?, symbol: f.number(NUMBER)?,
            bid: f.number(QUOTE)?, offer: f.number(QUOTE)?,
        },
        b'F' => Record::F {
            number: f.number(NUMBER)?, mpid: f.mpid()?, target: f.ident()?,
            size: f.number(SIZE)?, price: f.number(PRICE)?,
        },
        b'D' => Record::D {
            number: f.number(NUMBER)?, mpid: f.mpid()?, target: f.ident()?, size: f.number(SIZE)?,
        },
        b'H' => Record::H { number: f.number(NUMBER)?, mpid: f.mpid()?, target: f.ident()? },
        _ => return None,
    };
    let rest = f.rest.strip_prefix(b"\n")?;
    let length = text.len() - rest.len();
    (length <= MOST_LINE + 1).then_some((record, length))
}

/// Where lines are written to, one after the other.
pub(crate) trait Out {
    fn put(&mut self, bytes: &[u8]);
}

impl Out for Vec<u8> {
    fn put(&mut self, bytes: &[u8]) {
        self.extend_from_slice(bytes);
    }
}

/// A buffer, and how many bytes are written from its start on.
pub(crate) struct Filled<'a> {
    pub(crate) to: &'a mut [u8],
    pub(crate) written: usize,
}

impl Out for Filled<'_> {
    #[inline]
    fn put(&mut self, bytes: &[u8]) {
        self.to[self.written..][..bytes.len()].copy_from_slice(bytes);
        self.written += bytes.len();
    }
}

/// A line under way: its kind, then fields, each with the tab before it.
pub(crate) struct Line<'a, O>(&'a mut O);

impl<O: Out> Line<'_, O> {
    pub(crate) fn new(out: &mut O, kind: u8) -> Line<'_, O> {
        out.put(&[kind]);
        Line(out)
    }

    pub(crate) fn text(&mut self, text: &[u8]) -> &mut Self {
        self.0.put(b"\t");
        self.0.put(text);
        self
    }

    pub(crate) fn letter(&mut self, letter: u8) -> &mut Self {
        self.0.put(&[b'\t', letter]);
        self
    }

    pub(crate) fn number(&mut self, mut value: u64) -> &mut Self {
        let mut text = [0; 20];
        let mut at = text.len();
        loop {
            at -= 1;
            text[at] = b'0' + (value % 10) as u8;
            value /= 10;
            if value == 0 {
                break;
            }
        }
        self.text(&text[at..])
    }

    pub(crate) fn end(&mut self) {
        self.0.put(b"\n");
    }
}

/// The letter of a mark.
pub(crate) fn yes_or_no(yes: bool) -> u8 {
    match yes {
        true => b'Y',
        false => b'N',
    }
}

/// Appends the record's one line, with its LF.
#[rustfmt::skip]
pub fn write(record: &Record, out: &mut Vec<u8>) {
    match *record {
        Record::G { mpid, limits: [a, b, c, d, e, f], max_size, short_sales } =>
            Line::new(out, b'G').text(mpid.bytes()).number(a).number(b).number(c).number(d)
            .number(e).number(f).number(max_size).letter(yes_or_no(short_sales)).end(),
        Record::S { symbol } => Line::new(out, b'S').number(symbol).end(),
        Record::O => Line::new(out, b'O').end(),
        Record::N { id, mpid, symbol, side, size, price } => Line::new(out, b'N').text(id.bytes())
            .text(mpid.bytes()).number(symbol).letter(side.letter()).number(size).number(price)
            .end(),
        Record::M { id, mpid, target, size, price } => Line::new(out, b'M').text(id.bytes())
            .text(mpid.bytes()).text(target.bytes()).number(size).number(price).end(),
        Record::C { id, mpid, target } => Line::new(out, b'C').text(id.bytes())
            .text(mpid.bytes()).text(target.bytes()).end(),
        Record::B { id, mpid } => Line::new(out, b'B').text(id.bytes()).text(mpid.bytes()).end(),
        Record::R { id, mpid } => Line::new(out, b'R').text(id.bytes()).text(mpid.bytes()).end(),
        Record::Q { number, symbol, bid, offer } => Line::new(out, b'Q').number(number)
            .number(symbol).number(bid).number(offer).end(),
        Record::F { number, mpid, target, size, price } => Line::new(out, b'F').number(number)
            .text(mpid.bytes()).text(target.bytes()).number(size).number(price).end(),
        Record::D { number, mpid, target, size } => Line::new(out, b'D').number(number)
            .text(mpid.bytes()).text(target.bytes()).number(size).end(),
        Record::H { number, mpid, target } => Line::new(out, b'H').number(number)
            .text(mpid.bytes()).text(target.bytes()).end(),
    }
}
