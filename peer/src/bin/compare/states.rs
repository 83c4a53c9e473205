//! Memories to compare: good ones out of drawn days, broken ones, odd ones, random ones.

use peer::days::book::{Book, Place};
use peer::days::moves::propose;
use peer::days::pieces::Line;
use peer::days::rng::Rng;
use peer::days::style::STYLES;
use peer::days::{Maker, Plan, CEILING, MOST_NUMBER};
use peer::memory::{self, LEAST_WORDS, MOST_PLACES, PLACE_WORDS};

use crate::alter::{break_word, counts, odd, pair};
use crate::map::{self, REGIONS};
use crate::memories::{changed, Batch, Variant};
use crate::worker::{AT_START, LINE_READ_ONLY, WORDS_READ_ONLY};

/// Variants of one base.
pub const VARIANTS: usize = 25;

/// The lengths that are gone through one by one.
pub const LENGTHS: usize = 1_721;

/// How often each number was met.
type Met = [u64; 256];

/// What a base is.
#[derive(Clone, Copy)]
pub enum Kind {
    /// Each variant has another length, from this one on; zeros, anything, or a setup.
    Lengths { content: usize, first: usize },
    /// Out of a drawn day.
    Day,
    /// Random words.
    Random,
    /// So many places.
    Places(usize),
}

/// The batch of this index.
pub fn make(seed: u64, index: u64, kind: Kind, variants: usize) -> Batch {
    let mut rng = Rng::new(seed, 3, index);
    let room = match kind {
        Kind::Lengths { .. } => 0,
        Kind::Places(places) => places,
        _ => room(&mut rng),
    };
    let (base, seed) = match kind {
        Kind::Lengths { content, .. } => {
            let mut words = vec![0; LENGTHS];
            match content {
                0 => {}
                1 => words.fill_with(|| rng.draw()),
                _ => words = good(&mut rng, 0, LENGTHS - LEAST_WORDS),
            }
            (words, rng.draw())
        }
        Kind::Random => (random(&mut rng, room), rng.draw()),
        _ => {
            // More words than the most places take are words past the last place.
            let spare = if room == MOST_PLACES { 1_000 } else { rng.index(PLACE_WORDS) };
            (good(&mut rng, room, spare), rng.draw())
        }
    };
    let mut rng = Rng::new(seed, 4, index);
    let mut mode = rng.pick(&[0, AT_START]) | WORDS_READ_ONLY;
    if rng.chance(20) {
        mode |= LINE_READ_ONLY;
    }
    let mut met = [0; 256];
    let variants = (0..variants).map(|i| variant(&mut rng, &base, kind, i, &mut met)).collect();
    Batch { mode, pattern: rng.pick(b"\xAA\x00\xFF\n0"), base, variants }
}

fn room(rng: &mut Rng) -> usize {
    match rng.weighted(&[4, 4, 4, 8, 60, 12, 6, 1]) {
        0 => 0,
        1 => 1,
        2 => 2,
        3 => rng.index(10),
        4 => rng.between(10, 60) as usize,
        5 => rng.between(60, 150) as usize,
        6 => 400,
        _ => rng.between(400, 3000) as usize,
    }
}

/// A state out of a drawn day, with anything in the words that are not in use.
fn good(rng: &mut Rng, room: usize, spare: usize) -> Vec<u64> {
    let plan = Plan::new(rng.draw(), rng.below(1000)).with_room(room);
    let lines = match room {
        // Sometimes it has not come far.
        0..500 if rng.chance(8) => rng.index(plan.setup() + 1),
        0..500 => plan.setup() + rng.index(3 * room + 10),
        _ => 2 * room,
    };
    let mut maker = Maker::new(plan.with_lines(lines));
    let mut out = Vec::new();
    while maker.step(&mut out).is_some() {
        out.clear();
    }
    let mut words = vec![0; memory::words(room) + spare];
    memory::store(&maker.gate, &mut words);
    fill_free(rng, &mut words);
    words
}

/// Puts anything into the words that are not in use.
pub fn fill_free(rng: &mut Rng, words: &mut [u64]) {
    let way = rng.below(5);
    let (count, room) = (words.len(), memory::room(words.len()));
    for region in REGIONS {
        let (first, rows, width) = region.shape(room);
        let used = region.used(words);
        for row in used..rows {
            for field in 0..width {
                words[first + row * width + field] = match way {
                    0 => 0,
                    1 => u64::MAX,
                    2 => rng.below(300),
                    // A row like one in use, so that a count too high makes a pair.
                    3 if used > 0 => words[first + (row % used) * width + field],
                    _ => rng.draw(),
                };
            }
        }
    }
    for cell in &mut words[LEAST_WORDS + room * PLACE_WORDS..count] {
        *cell = if way == 0 { 0 } else { rng.draw() };
    }
}

/// Random words with a head that may make sense.
fn random(rng: &mut Rng, room: usize) -> Vec<u64> {
    let small = rng.chance(50);
    let count = memory::words(room) + rng.index(PLACE_WORDS);
    let word = |rng: &mut Rng| if small { rng.spread(CEILING) - 1 } else { rng.draw() };
    let mut words: Vec<u64> = (0..count).map(|_| word(rng)).collect();
    if rng.chance(90) {
        words[0] = rng.below(2);
        words[1] = rng.below(MOST_NUMBER + 1);
        words[2] = rng.below(4);
        words[3] = rng.below(4);
        words[4] = rng.below(4).min(room as u64);
    }
    words
}

/// `met` is how often a number was met in this batch.
fn variant(rng: &mut Rng, base: &[u64], kind: Kind, i: usize, met: &mut Met) -> Variant {
    let mut words = base.to_vec();
    let mut count = base.len();
    let mut focus = None;
    match kind {
        Kind::Lengths { first, .. } => count = (first + i) % LENGTHS,
        Kind::Random => {
            if rng.chance(50) {
                break_word(rng, &mut words);
            }
        }
        _ => match rng.weighted(&[20, 36, 8, 26, 5, 5]) {
            0 => {}
            1 => break_word(rng, &mut words),
            2 => (0..rng.between(2, 4)).for_each(|_| break_word(rng, &mut words)),
            3 => {
                (0..rng.between(1, 3)).for_each(|_| focus = odd(rng, &mut words).or(focus));
                if rng.chance(20) {
                    break_word(rng, &mut words);
                }
            }
            4 => pair(rng, &mut words),
            _ => counts(rng, &mut words),
        },
    }
    let pokes = changed(base, &words);
    let mut book = map::book(&words[..count]);
    // Lines about the place that was changed.
    if let Some(place) = focus.and_then(|place| book.places.get(place).cloned()) {
        if rng.chance(70) {
            book.places = vec![place];
        }
    }
    let line = match book.places.first().and_then(|place| twice_wrong(rng, place, &book)) {
        Some(line) if rng.chance(50) => line,
        _ => line(rng, &words[..count], &book, met),
    };
    let groups = book.groups.len() as u64;
    Variant {
        count,
        pokes,
        line,
        size: if rng.chance(3) { 31 } else { rng.pick(&[32, 32, 32, 33, 64]) },
        place: match rng.below(10) {
            0 => groups,
            1 => rng.pick(&[63, 64, u64::MAX, 1 << 32]),
            _ => rng.below(groups.max(1)),
        },
        closing_size: if rng.chance(3) { 95 } else { rng.pick(&[96, 96, 97, 128]) },
    }
}

/// A change to a size that is too large and not above done; no day comes to such an order.
fn twice_wrong(rng: &mut Rng, place: &Place, book: &Book) -> Option<Vec<u8>> {
    let order = place.order.as_ref().filter(|order| order.remaining() > 0)?;
    let most = book.group(place.mpid)?.most_size;
    let size = (order.done > most).then(|| rng.between(most + 1, order.done))?;
    let line = Line::new(b'M').text(b"=").text(&place.mpid).text(&place.id);
    Some(line.number(size).number(order.price).end())
}

/// A line for these words; of a few, the one whose number was met least.
fn line(rng: &mut Rng, words: &[u64], book: &Book, met: &mut Met) -> Vec<u8> {
    let mut draw = || {
        let style = &STYLES[rng.index(STYLES.len())];
        propose(book, style, rng).pop().unwrap_or_else(|| b"O\n".to_vec())
    };
    if words.len() > memory::words(200) || !memory::state_ok(words) {
        return draw();
    }
    let gate = memory::load(words);
    let judged = |line: Vec<u8>| {
        let answer = gate.clone().record(&line, &mut Vec::new());
        (usize::from(answer.number), line)
    };
    let drawn: Vec<_> = (0..4).map(|_| judged(draw())).collect();
    // Records that are not refused are worth more.
    let worth = |number: usize| if number == 0 { met[0] / 4 } else { met[number] };
    let least = drawn.into_iter().min_by_key(|&(number, _)| worth(number));
    let (number, line) = least.unwrap_or_default();
    met[number] += 1;
    line
}
