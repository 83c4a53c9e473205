//! Every length of a buffer and of a line, and the calls about lengths of memories.

use peer::days::rng::Rng;
use peer::gate::Gate;
use peer::memory::{self, LEAST_WORDS, MOST_PLACES};

use crate::memories::{Batch, Variant};
use crate::worker::{Command, Worker, AT_START, LINE_READ_ONLY, WORDS_READ_ONLY};
use crate::Difference;

/// Buffers have 0 to so many bytes.
pub const MOST_BUFFER: usize = 100;
/// Lines have 0 to so many bytes.
pub const MOST_LINE: usize = 400;

/// The parts of this comparison.
pub const PARTS: usize = 2 * (3 + CONTENTS);
pub const CONTENTS: usize = 10;

const DAY: [&[u8]; 7] = [
    b"G\tABCD\t5000000000\t5000000000\t2000000000\t2000000000\t6000000000\t6000000000\t25000\tN\n",
    b"G\tZZZZ\t0\t0\t0\t0\t0\t4000000000000000000\t1000000\tY\n",
    b"S\t7\n",
    b"O\n",
    b"Q\t1\t7\t9990000\t10000000\n",
    b"N\tT1\tABCD\t7\tB\t100\t10000000\n",
    b"F\t2\tABCD\tT1\t40\t9990000\n",
];

/// A small day in its words.
pub fn small_day() -> Vec<u64> {
    let mut gate = Gate::new(3);
    let mut out = Vec::new();
    for line in DAY {
        gate.record(line, &mut out);
    }
    let mut words = vec![0; memory::words(3)];
    memory::store(&gate, &mut words);
    words
}

/// One part: both sides of the guard pages, then buffers on three memories and lines.
pub fn make(part: usize) -> Batch {
    let mode = [0, AT_START][part % 2] | WORDS_READ_ONLY;
    let mut base = small_day();
    let whole = base.len();
    let mut rng = Rng::new(part as u64, 5, 0);
    let variants: Vec<Variant> = match part / 2 {
        which @ 0..3 => {
            if which == 1 {
                base[4] = u64::MAX;
            }
            let count = if which == 2 { LEAST_WORDS - 1 } else { whole };
            let one = |size: usize, line: &[u8], place: u64| Variant {
                count,
                pokes: Vec::new(),
                line: line.to_vec(),
                size,
                place,
                closing_size: size,
            };
            (0..=MOST_BUFFER)
                .flat_map(|size| {
                    [
                        one(size, b"N\t12345678901234567890\tABCD\t7\tS\t1\t10000000\n", 0),
                        one(size, b"Q\t4294967295\t4294967295\t999999999999\t0\n", 1),
                        one(size, b"no line", 2),
                    ]
                })
                .collect()
        }
        content => (0..=MOST_LINE)
            .map(|length| Variant {
                count: whole,
                pokes: Vec::new(),
                line: line(content - 3, length, &mut rng),
                size: 32,
                place: 0,
                closing_size: 96,
            })
            .collect(),
    };
    let read_only = if part % 4 < 2 { 0 } else { LINE_READ_ONLY };
    Batch { mode: mode | read_only, pattern: 0xA5, base, variants }
}

/// A line of this length.
pub fn line(content: usize, length: usize, rng: &mut Rng) -> Vec<u8> {
    // A beginning, and what follows until the line is long enough.
    let (start, filler): (&[u8], u8) = match content {
        0 => (b"N\tT2\tABCD\t7\tB\t1\t10000000", b'0'),
        1 => (b"", b'\t'),
        2 => (b"N\t", b'x'),
        3 => (b"G\tABCE\t1\t1\t1\t1\t1\t1\t1\tN", b'9'),
        4 => (b"Q\t3\t7\t", b'9'),
        5 => (b"F\t3\tABCD\tT1\t1\t", b'1'),
        6 => (b"N\tT3\tABCD\t7\tB\t1\t10000000\n", b'\n'),
        7 => (b"C\tT4\tABCD\tT1\n", b'\t'),
        _ => (b"", b'\n'),
    };
    let mut bytes: Vec<u8> = start.iter().copied().take(length).collect();
    bytes.resize_with(length, || if content >= 8 { rng.draw() as u8 } else { filler });
    // Most end as a line has to.
    if content != 8 && content != 5 {
        if let Some(last) = bytes.last_mut() {
            *last = b'\n';
        }
    }
    bytes
}

/// How many words a room needs, and how many places words have.
pub fn sizes(worker: &mut Worker) -> Result<(), Difference> {
    let mut rng = Rng::new(0, 6, 0);
    let mut numbers: Vec<u64> = (0..2_000).chain(65_000..66_000).collect();
    let most = memory::words(MOST_PLACES) as u64;
    numbers.extend(most - 40..most + 40);
    numbers.extend((0..64).flat_map(|bit| [(1 << bit) - 1, 1 << bit, (1 << bit) + 1]));
    // Some that wrap when they are multiplied.
    numbers.extend((1..17).map(|n| u64::MAX / 17 * n));
    numbers.extend((0..2_000).map(|_| rng.draw() >> rng.below(64)));
    numbers.push(u64::MAX);
    for which in 0..2 {
        let command = Command::new(b'N').u32(numbers.len());
        worker.send(numbers.iter().fold(command, |c, &n| c.u8(which).u64(n)));
        let reply = worker.reply().map_err(|text| Difference { steps: 0, text })?;
        for (&n, ours) in numbers.iter().zip(reply.words()) {
            let theirs = match which {
                0 if n > MOST_PLACES as u64 => 0,
                0 => memory::words(n as usize),
                _ => memory::room(n as usize),
            } as u64;
            if ours != theirs {
                let call = ["words", "places"][usize::from(which)];
                let text = format!("{call}({n}): library {ours}, peer {theirs}");
                return Err(Difference { steps: 0, text });
            }
        }
    }
    Ok(())
}

/// A fresh state in memories of many lengths.
pub fn fresh(worker: &mut Worker) -> Result<(), Difference> {
    let stopped = |text| Difference { steps: 0, text };
    let most = memory::words(MOST_PLACES);
    for count in (0..=1_760).chain([4_000, 8_469, 20_000, most, most + 16]) {
        let fill = if count % 2 == 0 { u64::MAX } else { count as u64 };
        worker.send(Command::new(b'Z').u8((count % 3 == 0).into()).u32(count).u64(fill));
        worker.send(Command::new(b'G'));
        let result = worker.reply().map_err(stopped)?.i64();
        let reply = worker.reply().map_err(stopped)?;
        let mut theirs = vec![fill; count];
        let expected = if memory::fresh(&mut theirs) { 0 } else { -23 };
        if result != expected || !reply.words().eq(theirs) {
            let text = format!("fresh state in {count} words: library {result}, peer {expected}");
            return Err(Difference { steps: 0, text });
        }
    }
    Ok(())
}
