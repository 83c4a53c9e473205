//! What a day is mostly about.

use super::rng::Rng;

/// What a draw is about.
#[derive(Clone, Copy, Debug)]
#[allow(missing_docs)]
pub enum Act {
    New,
    Change,
    Cancel,
    Block,
    Unblock,
    Quote,
    Fill,
    Reduce,
    CancelRefused,
    /// A request again.
    Retry,
    /// A known identifier with another request.
    Altered,
    /// A known identifier under another MPID.
    Elsewhere,
    /// One of the last lines again.
    Echo,
    /// A price at the line of price protection.
    Protect,
    /// Exposure at a limit.
    AimNew,
    AimChange,
    AimFill,
    AimReduce,
    /// A change by a group above a trade limit, its block removed.
    AimFreed,
    /// G, S, O.
    Setup,
}

impl Act {
    /// It is about an open order.
    pub fn needs_order(self) -> bool {
        use Act::{AimChange, AimFill, AimFreed, AimReduce};
        use Act::{Cancel, CancelRefused, Change, Fill, Reduce};
        let aims = matches!(self, AimChange | AimFill | AimReduce | AimFreed);
        aims || matches!(self, Change | Cancel | Fill | Reduce | CancelRefused)
    }
}

#[rustfmt::skip]
const ACTS: [Act; 20] = [
    Act::New, Act::Change, Act::Cancel, Act::Block, Act::Unblock,
    Act::Quote, Act::Fill, Act::Reduce, Act::CancelRefused,
    Act::Retry, Act::Altered, Act::Elsewhere, Act::Echo,
    Act::Protect, Act::AimNew, Act::AimChange, Act::AimFill, Act::AimReduce,
    Act::AimFreed, Act::Setup,
];

/// How often each act is drawn, and with what kind of figures.
#[derive(Clone, Debug)]
pub struct Style {
    /// Its name.
    pub name: &'static str,
    /// So many lines in a hundred are damaged.
    pub damage: u64,
    /// Few prices and small sizes, so that totals fall on limits by themselves.
    pub grid: bool,
    /// Values near the ceiling.
    pub large: bool,
    weights: [u64; 20],
    limits: [u64; 7],
}

const fn style(name: &'static str, damage: u64, weights: [u64; 20], limits: [u64; 7]) -> Style {
    Style { name, damage, grid: false, large: false, weights, limits }
}

/// The styles of days. Weights are in the order of `ACTS` (requests, notices, what is known,
/// aims, setup), those of limits in the order of `any_group`.
#[rustfmt::skip]
pub const STYLES: [Style; 8] = [
    style("usual", 3,
        [24, 10, 7, 1, 3,  6, 10, 5, 4,  6, 5, 2, 2,  6, 5, 4, 4, 2, 1,  1],
        [12, 3, 1, 5, 1, 1, 2]),
    style("retries", 1,
        [20, 8, 5, 2, 3,  3, 6, 3, 2,  20, 18, 8, 8,  2, 2, 1, 1, 1, 1,  1],
        [12, 2, 1, 5, 1, 1, 1]),
    style("notices", 1,
        [22, 6, 10, 1, 4,  10, 20, 12, 12,  2, 2, 1, 3,  2, 2, 1, 4, 3, 1,  0],
        [14, 2, 1, 4, 0, 1, 2]),
    style("prices", 0,
        [8, 4, 1, 0, 1,  4, 2, 1, 1,  1, 1, 0, 0,  60, 2, 2, 1, 0, 0,  0],
        [9, 0, 0, 0, 0, 0, 1]),
    style("limits", 0,
        [10, 4, 2, 1, 6,  2, 6, 2, 1,  2, 1, 0, 1,  1, 26, 24, 18, 8, 6,  0],
        [0, 6, 4, 6, 2, 3, 3]),
    Style { grid: true, ..style("grid", 0,
        [30, 12, 4, 1, 7,  2, 14, 9, 2,  2, 1, 1, 1,  0, 4, 9, 4, 6, 5,  0],
        [1, 10, 6, 1, 1, 0, 0]) },
    Style { large: true, ..style("ceiling", 0,
        [24, 8, 2, 1, 6,  2, 24, 4, 1,  2, 1, 0, 1,  0, 6, 4, 22, 3, 0,  0],
        [12, 0, 0, 0, 0, 1, 5]) },
    style("damage", 45,
        [24, 10, 7, 3, 3,  6, 10, 5, 4,  4, 4, 2, 6,  2, 2, 1, 2, 1, 1,  3],
        [10, 3, 1, 4, 1, 1, 1]),
];

impl Style {
    /// What the next draw is about.
    pub fn act(&self, rng: &mut Rng) -> Act {
        ACTS[rng.weighted(&self.weights)]
    }

    /// Each act as often.
    pub fn any_act(rng: &mut Rng) -> Act {
        rng.pick(&ACTS)
    }

    /// What kind of limits a group gets.
    pub fn limits(&self, rng: &mut Rng) -> usize {
        rng.weighted(&self.limits)
    }
}
