//! "Per-order checks (004)" and the six metrics of "What is kept".

use crate::line::Side;

/// A row of price protection, for order prices below `below`.
struct Row {
    below: u64,
    percent: u64,
    dollars: u64,
}

const fn row(below: u64, percent: u64, dollars: u64) -> Row {
    Row { below, percent, dollars }
}

const ROWS: [Row; 5] = [
    row(1_000_000, 10, 150_000),
    row(10_000_000, 10, 150_000),
    row(50_000_000, 10, 1_000_000),
    row(100_000_000, 10, 5_000_000),
    row(500_000_000, 5, 10_000_000),
];
const OTHERWISE: Row = row(u64::MAX, 3, 25_000_000);

/// The price is in range and on its tick.
pub fn on_tick(price: u64) -> bool {
    let tick = if price < 1_000_000 { 100 } else { 10_000 };
    (100..=999_999_990_000).contains(&price) && price.is_multiple_of(tick)
}

/// Price protection refuses an order of this side and price. The row goes by the order's
/// own price, nothing is rounded, and a quote of 0 is none known.
pub fn protected(side: Side, price: u64, bid: u64, offer: u64) -> bool {
    let row = ROWS.iter().find(|row| price < row.below).unwrap_or(&OTHERWISE);
    let (quote, through) = match side {
        Side::B => (offer, price.saturating_sub(offer)),
        _ => (bid, bid.saturating_sub(price)),
    };
    // The bar is above 0, so that a price on the near side of the quote never meets it.
    quote != 0 && 100 * through >= (row.percent * quote).max(100 * row.dollars)
}

/// A group's totals, each a pair of buys and sells. Gross of both is at most the ceiling,
/// and one order or fill adds at most 10^18, so that no sum of them wraps.
#[derive(Clone, Copy, Debug, Default, PartialEq, Eq)]
pub struct Totals {
    /// Traded values TB and TS.
    pub traded: [u64; 2],
    /// Open values OB and OS.
    pub open: [u64; 2],
}

impl Totals {
    /// Gross of both.
    pub fn gross(&self) -> u64 {
        let [[tb, ts], [ob, os]] = [self.traded, self.open];
        tb + ts + ob + os
    }

    /// No metric is above its limit. Otherwise the number of the first that is: 31 to 36, in
    /// the order of the limits (document 02, order 1).
    pub fn within(&self, limits: &[u64; 6]) -> Result<(), u8> {
        let [[tb, ts], [ob, os]] = [self.traded, self.open];
        let metrics = [
            tb + ts,
            tb.abs_diff(ts),
            ob + os,
            ob.abs_diff(os),
            self.gross(),
            (tb + ob).abs_diff(ts + os),
        ];
        for (number, (metric, limit)) in (31..).zip(metrics.iter().zip(limits)) {
            if metric > limit {
                return Err(number);
            }
        }
        Ok(())
    }
}
