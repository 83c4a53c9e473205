//! Ways to change a memory: broken, or within the rules but as no day leaves it.

use peer::days::rng::Rng;
use peer::days::{CEILING, MOST_NUMBER, MOST_PRICE, MOST_SIZE};
use peer::memory;

use crate::map::{Region, REGIONS};

/// A row in use of some region.
fn used_row(rng: &mut Rng, words: &[u64]) -> (Region, usize) {
    let regions: Vec<Region> = REGIONS.into_iter().filter(|r| r.used(words) > 0).collect();
    let region = rng.pick(&regions);
    (region, rng.index(region.used(words)))
}

/// Changes one word in use.
pub fn break_word(rng: &mut Rng, words: &mut [u64]) {
    let room = memory::room(words.len());
    let (region, row) = used_row(rng, words);
    let (_, _, width) = region.shape(room);
    let field = rng.index(width);
    let at = region.at(room, row, field);
    let old = words[at];
    words[at] = match rng.below(12) {
        0 => 0,
        1 => old.wrapping_add(1),
        2 => old.wrapping_sub(1),
        3 => old ^ (1 << rng.below(64)),
        4 => rng.draw(),
        5 => rng.pick(b"NMCBRSHEGQFDO\x00\x01\x02").into(),
        // One byte, for packed text.
        6 | 7 => {
            let shift = 8 * rng.below(8);
            let byte = u64::from(rng.pick(b"\x00\x00 !0AZ[az|~\x7F\x80\xFF"));
            old & !(0xFF << shift) | byte << shift
        }
        8 => words[region.at(room, rng.index(region.used(words)), field)],
        _ => edge(rng, room),
    };
}

/// A number on either side of some range.
fn edge(rng: &mut Rng, room: usize) -> u64 {
    let edges = [
        1,
        2,
        8,
        14,
        17,
        31,
        36,
        64,
        256,
        2_147_483_648,
        i64::MAX as u64,
        u64::MAX,
        room as u64,
        MOST_NUMBER,
        MOST_SIZE,
        MOST_PRICE,
        CEILING,
        1 << 32,
        10_000,
        100,
    ];
    let edge = rng.pick(&edges);
    match rng.below(4) {
        0 => edge.wrapping_add(1),
        1 => edge.wrapping_sub(1),
        _ => edge,
    }
}

/// Makes two rows alike, or exchanges them.
pub fn pair(rng: &mut Rng, words: &mut [u64]) {
    let room = memory::room(words.len());
    let (region, row) = used_row(rng, words);
    let (_, _, width) = region.shape(room);
    let other = rng.index(region.used(words));
    let (a, b) = (region.at(room, row, 0), region.at(room, other, 0));
    match rng.below(3) {
        0 => (0..width).for_each(|i| words[a + i] = words[b + i]),
        1 => (0..width).for_each(|i| words.swap(a + i, b + i)),
        // The same place twice: its key, request and order, so that only the pair is wrong.
        _ => {
            for region in [Region::Key, Region::Request, Region::Order] {
                let (_, _, width) = region.shape(room);
                if region.used(words) > row.max(other) {
                    let (a, b) = (region.at(room, row, 0), region.at(room, other, 0));
                    (0..width).for_each(|i| words[a + i] = words[b + i]);
                }
            }
        }
    }
}

/// Changes a count.
pub fn counts(rng: &mut Rng, words: &mut [u64]) {
    let room = memory::room(words.len()) as u64;
    let at = rng.between(2, 4) as usize;
    words[at] = match rng.below(7) {
        0 => words[at].wrapping_sub(1),
        1 | 2 => words[at].wrapping_add(1),
        3 => [64, 256, room][at - 2],
        4 => [65, 257, room + 1][at - 2],
        5 => rng.pick(&[u64::MAX, 1 << 32, (1 << 32) + words[at], 1 << 63]),
        _ => 0,
    };
}

/// The words of a group.
fn group(words: &mut [u64], row: usize) -> &mut [u64] {
    let first = Region::Group.at(0, row, 0);
    &mut words[first..first + 14]
}

fn metrics(group: &[u64]) -> [u64; 6] {
    let [tb, ts, ob, os] = [group[10], group[11], group[12], group[13]];
    let [gt, go] = [tb.wrapping_add(ts), ob.wrapping_add(os)];
    let net = tb.wrapping_add(ob).abs_diff(ts.wrapping_add(os));
    [gt, tb.abs_diff(ts), go, ob.abs_diff(os), gt.wrapping_add(go), net]
}

/// Something that a day hardly comes to, mostly within the rules; the place it is about.
pub fn odd(rng: &mut Rng, words: &mut [u64]) -> Option<usize> {
    let groups = Region::Group.used(words);
    let row = rng.index(groups);
    match rng.below(12) {
        0 => words[1] = rng.pick(&[MOST_NUMBER, MOST_NUMBER - 1, MOST_NUMBER - 2, MOST_NUMBER + 1]),
        1 => words[0] ^= 1,
        2 if Region::Symbol.used(words) > 0 => {
            let row = rng.index(Region::Symbol.used(words));
            let at = Region::Symbol.at(0, row, rng.between(1, 2) as usize);
            words[at] = match rng.below(3) {
                0 => 0,
                1 => MOST_PRICE,
                _ => rng.spread(MOST_PRICE),
            };
        }
        // Any request remembered with another number; then it is no order.
        3 | 4 => return remember(rng, words),
        5..=7 => return figures(rng, words),
        8 => too_many(rng, words),
        _ if groups == 0 => {}
        9 => {
            let g = group(words, row);
            g[rng.between(8, 9) as usize] ^= 1;
            g[7] = rng.spread(MOST_SIZE);
        }
        10 => {
            let g = group(words, row);
            let metric = rng.index(6);
            let near = rng.pick(&[0, 0, 1, u64::MAX]);
            g[1 + metric] = metrics(g)[metric].wrapping_add(near).min(CEILING);
        }
        // Gross of both at the ceiling or next to it.
        _ => {
            let g = group(words, row);
            let (traded, other) = if rng.chance(50) { (10, 11) } else { (11, 10) };
            let rest = g[other].wrapping_add(g[12]).wrapping_add(g[13]);
            let near = rng.pick(&[0, 0, 0, 1, 1, u64::MAX, 0u64.wrapping_sub(1_000_000)]);
            g[traded] = CEILING.wrapping_sub(rest).wrapping_add(near);
        }
    }
    None
}

/// Takes an order's open value out of its group's total, or puts it back.
pub fn book_order(words: &mut [u64], place: usize, back: bool) {
    let room = memory::room(words.len());
    let owner = words[Region::Key.at(room, place, 0)];
    let request = Region::Request.at(room, place, 0);
    if words[request] != u64::from(b'N') || words[request + 1] != 0 {
        return;
    }
    let order = Region::Order.at(room, place, 0);
    let left = words[order + 1].wrapping_sub(words[order + 2]);
    let value = left.wrapping_mul(words[order]);
    let column = if words[request + 6] == u64::from(b'B') { 12 } else { 13 };
    for row in 0..Region::Group.used(words) {
        let g = group(words, row);
        if g[0] == owner {
            g[column] = match back {
                true => g[column].wrapping_add(value),
                false => g[column].wrapping_sub(value),
            };
        }
    }
}

/// Remembered numbers, and those next to them.
const REMEMBERED: [u64; 20] =
    [0, 7, 8, 8, 9, 14, 15, 16, 17, 17, 18, 30, 31, 31, 32, 33, 34, 35, 36, 37];

/// Another remembered number, with figures and totals that go with it.
fn remember(rng: &mut Rng, words: &mut [u64]) -> Option<usize> {
    let (room, places) = (memory::room(words.len()), Region::Key.used(words));
    if places == 0 {
        return None;
    }
    let place = rng.index(places);
    book_order(words, place, false);
    words[Region::Request.at(room, place, 1)] = rng.pick(&REMEMBERED);
    let order = Region::Order.at(room, place, 0);
    if words[Region::Request.at(room, place, 1)] != 0 {
        words[order..order + 4].fill(0);
    }
    Some(place)
}

/// Another price, size, done or mark of an order, with totals that go with it.
fn figures(rng: &mut Rng, words: &mut [u64]) -> Option<usize> {
    let (room, places) = (memory::room(words.len()), Region::Key.used(words));
    if places == 0 {
        return None;
    }
    let mut place = rng.index(places);
    // Look on for an order.
    for _ in 0..places {
        if words[Region::Order.at(room, place, 1)] > 0 {
            break;
        }
        place = (place + 1) % places;
    }
    book_order(words, place, false);
    let order = Region::Order.at(room, place, 0);
    let size = words[order + 1];
    match rng.below(8) {
        0 => words[order] = rng.spread(MOST_PRICE),
        1 => words[order] = rng.pick(&[1, MOST_PRICE, MOST_PRICE + 1]),
        2 => words[order + 1] = rng.pick(&[MOST_SIZE, MOST_SIZE + 1, words[order + 2]]),
        3 => words[order + 2] = size,
        4 => words[order + 2] = size.wrapping_add(1),
        5 => words[order + 2] = rng.below(size.wrapping_add(1)),
        6 => words[order + 2] = 0,
        _ => words[order + 3] ^= 1,
    }
    book_order(words, place, true);
    // A maximum size below what is done, as no day comes to.
    let done = words[order + 2];
    let owner = words[Region::Key.at(room, place, 0)];
    if done > 1 && done <= MOST_SIZE && rng.chance(40) {
        for row in 0..Region::Group.used(words) {
            let g = group(words, row);
            if g[0] == owner {
                g[7] = rng.between(1, done - 1);
            }
        }
    }
    Some(place)
}

/// Orders so large that their sum passes 64 bits, with totals that a careless sum would give.
fn too_many(rng: &mut Rng, words: &mut [u64]) {
    let (room, places) = (memory::room(words.len()), Region::Key.used(words));
    let groups = Region::Group.used(words);
    let mut sums = vec![[0u128; 2]; groups];
    let large = rng.pick(&[CEILING.into(), 1u128 << 63, 1 << 64, 1 << 65]);
    for place in 0..places {
        let owner = words[Region::Key.at(room, place, 0)];
        let Some(row) = (0..groups).find(|&row| group(words, row)[0] == owner) else {
            continue;
        };
        let request = Region::Request.at(room, place, 0);
        let order = Region::Order.at(room, place, 0);
        if words[request] != u64::from(b'N') || words[request + 1] != 0 {
            continue;
        }
        let column = usize::from(words[request + 6] != u64::from(b'B'));
        if sums[row][column] < large {
            words[order] = MOST_PRICE;
            words[order + 1] = MOST_SIZE;
            words[order + 2] = 0;
        }
        let left = words[order + 1].saturating_sub(words[order + 2]);
        sums[row][column] += u128::from(left) * u128::from(words[order]);
    }
    for (row, sum) in sums.into_iter().enumerate() {
        let way = rng.below(4);
        let total = sum.map(|sum| match way {
            0 => sum as u64,
            1 => sum.min(CEILING.into()) as u64,
            2 => (sum % (1 << 63)) as u64,
            _ => sum.min(u64::MAX.into()) as u64,
        });
        let g = group(words, row);
        (g[12], g[13]) = (total[0], total[1]);
        if rng.chance(50) {
            (g[10], g[11]) = (0, 0);
        }
    }
}
