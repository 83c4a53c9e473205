//! Blocks to compare: days in blocks as a host would lend them, blocks over good and broken
//! memories, every length of the buffer and every cut.

use peer::days::rng::Rng;
use peer::days::{lines, Plan};
use peer::memory::{self, LEAST_WORDS, PLACE_WORDS};

use crate::blocks::{Batch, Call};
use crate::lengths::{self, line, small_day, CONTENTS};
use crate::memories;
use crate::states::{self, fill_free, Kind};
use crate::worker::{AT_START, LINE_READ_ONLY};

fn ends(text: &[u8]) -> usize {
    text.iter().filter(|&&b| b == b'\n').count()
}

/// How far the peer takes a block.
fn taken(words: &mut [u64], text: &[u8], size: usize) -> usize {
    let mut taken = [0; 2];
    memory::block(words, text, &mut vec![0; size], &mut taken);
    taken[1] as usize
}

/// The bytes of a block's answer lines.
fn written(words: &[u64], text: &[u8]) -> usize {
    let mut buffer = vec![0; 32 * (ends(text) + 1)];
    let result = memory::block(&mut words.to_vec(), text, &mut buffer, &mut [0; 2]);
    usize::try_from(result).unwrap_or(0)
}

/// A buffer for a block with so many lines: long enough for all, for some, for one or for none.
fn size(rng: &mut Rng, lines: usize) -> usize {
    match rng.below(10) {
        0 => rng.pick(&[0, 1, 16, 30, 31]),
        1 => rng.between(32, 72) as usize,
        2..=4 => 32 + rng.index(32 * lines + 1),
        _ => 32 * (lines + 1) + rng.index(64),
    }
}

/// Something between the lines of a day; what is very long only where that is wanted.
fn between(rng: &mut Rng, long: bool) -> Vec<u8> {
    let any = rng.pick(b"\x00 \t\r0Nx\xFF");
    let (byte, length) = match rng.below(6) {
        0 | 1 => (b'\n', rng.between(1, 40)),
        2 => (any, rng.between(1, 40)),
        3 | 4 => (any, rng.between(155, 400)),
        _ if long => (any, rng.pick(&[4_095, 4_096, 65_535, 65_536, 65_537, 100_000])),
        _ => (any, rng.between(400, 1_000)),
    };
    let mut bytes = vec![byte; length as usize];
    if length <= 400 && rng.chance(30) {
        bytes.fill_with(|| rng.draw() as u8);
    }
    if rng.chance(70) {
        bytes.push(b'\n');
    }
    bytes
}

/// The day of this index, cut to so many lines, in blocks. The bytes come in parts that are cut
/// anywhere; what was not taken is lent again with the next part.
pub fn day(seed: u64, index: u64, most: usize) -> Batch {
    let plan = Plan::new(seed, index);
    let mut rng = Rng::new(seed, 9, index);
    let mut base = vec![0; memory::words(plan.room) + rng.index(PLACE_WORDS)];
    fill_free(&mut rng, &mut base);
    // How many bytes come at a time.
    let usual = match most.min(plan.lines) {
        0..80 => rng.pick(&[4, 12, 40, 150, 600]),
        _ => rng.pick(&[40, 150, 600, 2_500, 10_000, 100_000]),
    };
    let mut text = Vec::new();
    for line in lines(plan).into_iter().take(most) {
        text.extend(line);
        if rng.below(400) == 0 {
            text.extend(between(&mut rng, usual > 500));
        }
    }
    let (mut words, mut calls) = (base.clone(), Vec::new());
    let (mut from, mut to) = (0, 0);
    while to < text.len() || text[from..].contains(&b'\n') {
        to = text.len().min(to + rng.index(2 * usual + 1));
        let lent = &text[from..to];
        let size = size(&mut rng, ends(lent));
        calls.push(Call::on(lent, size));
        from += taken(&mut words, lent, size);
    }
    calls.extend([Call::on(&text[from..], 32), Call::on(b"", rng.pick(&[31, 32, 33]))]);
    let mode = rng.pick(&[0, 0, AT_START]) | rng.pick(&[0, 0, 0, LINE_READ_ONLY]);
    Batch { mode, pattern: rng.pick(b"\xAA\x00\xFF\n\t0\x55"), base, calls }
}

/// Blocks over the memories of this index, with lines that were drawn for them.
pub fn memories(seed: u64, index: u64, kind: Kind, variants: usize) -> Batch {
    let memories::Batch { mode, pattern, base, variants } =
        states::make(seed, index, kind, variants);
    let mut rng = Rng::new(seed, 10, index);
    let lines: Vec<&[u8]> = variants.iter().map(|variant| &variant.line[..]).collect();
    let block = |(i, variant): (usize, &memories::Variant)| {
        let count = rng.pick(&[0, 1, 2, 3, 4, 6, 10]);
        let some: Vec<&[u8]> = lines.iter().cycle().skip(i).take(count).copied().collect();
        let text = some.concat();
        let size = size(&mut rng, ends(&text));
        Call { again: Some((variant.count, variant.pokes.clone())), text, size }
    };
    let calls = variants.iter().enumerate().map(block).collect();
    Batch { mode, pattern, base, calls }
}

/// Lines over the small day of `lengths`: orders with the longest answers, a fill, a retry, a
/// broken line.
const LINES: &[u8] = b"N\t12345678901234567890\tABCD\t7\tS\t1\t1\n\
    F\t3\tABCD\tT1\t40\t9990000\n\
    N\tT1\tABCD\t7\tB\t100\t10000000\n\
    no line\n\
    N\tT2\tABCD\t7\tB\t30\t10000000\n\
    Q\t4294967295\t4294967295\t999999999999\t0\n\
    D\t4\tABCD\tT2\t30\n\
    B\tABCDEFGHIJKLMNOPQRST\tZZZZ\n";

/// Blocks that are lent with every length of the buffer.
fn several(which: usize) -> Vec<u8> {
    let long = [&[b'x'; 161][..], b"\n"].concat();
    match which {
        0 => LINES.to_vec(),
        1 => (b'A'..=b'H')
            .flat_map(|b| [b"N\t1234567890123456789", &[b][..], b"\tABCD\t7\tS\t1\t1\n"].concat())
            .collect(),
        2 => b"\n".repeat(20),
        3 => [&b"O\n\0\n"[..], &long, LINES, &long, b"\r\n\xFF\n\n", LINES, b"O"].concat(),
        4 => {
            let mut rng = Rng::new(4, 11, 0);
            (0..600).map(|_| rng.pick(b"\n\n\t\x00\xFFNO7ABCD")).collect()
        }
        _ => DAY.concat(),
    }
}

const SEVERAL: usize = 6;

/// A day from its setup on.
const DAY: [&[u8]; 9] = [
    b"G\tABCD\t5000000000\t5000000000\t2000000000\t2000000000\t6000000000\t6000000000\t25000\tN\n",
    b"S\t7\n",
    b"O\n",
    b"Q\t1\t7\t9990000\t10000000\n",
    b"N\tT1\tABCD\t7\tB\t100\t10000000\n",
    b"N\tT1\tABCD\t7\tB\t100\t10000000\n",
    b"N\tT2\tABCD\t7\tB\t101\t10000000\n",
    b"F\t2\tABCD\tT1\t40\t9990000\n",
    b"C\tT3\tABCD\tT1\n",
];

/// The parts of what is gone through one by one.
pub const PARTS: usize = 2 * (FIRST_CONTENT + CONTENTS);
const FIRST_SEVERAL: usize = 3;
const CUTS: usize = FIRST_SEVERAL + SEVERAL;
const LONG: usize = CUTS + 1;
const BYTES: usize = LONG + 1;
const MANY: usize = BYTES + 1;
const FIRST_CONTENT: usize = MANY + 1;

/// One part, on each side of the guard pages: buffers on three memories, buffers of several
/// blocks, cuts, long lines, bytes, many lines, and lines of every length between others.
pub fn sweep(part: usize) -> Batch {
    let mode = [0, AT_START][part % 2] | [0, 0, LINE_READ_ONLY][part % 3];
    let mut base = small_day();
    let whole = base.len();
    let mut rng = Rng::new(part as u64, 12, 0);
    let calls: Vec<Call> = match part / 2 {
        which @ 0..FIRST_SEVERAL => {
            if which == 1 {
                base[4] = u64::MAX;
            }
            let count = if which == 2 { LEAST_WORDS - 1 } else { whole };
            let texts = [b"", &b"\n"[..], b"no line", b"S\t7", b"\n\n\n\n\n\n", LINES];
            let sized = |size| texts.map(|text| Call::over(count, text, size));
            (0..=lengths::MOST_BUFFER).flat_map(sized).collect()
        }
        which @ FIRST_SEVERAL..CUTS => {
            let text = several(which - FIRST_SEVERAL);
            if which == CUTS - 1 {
                base = vec![0; memory::words(4)];
            }
            let sizes = 0..=written(&base, &text) + 64;
            sizes.map(|size| Call::over(base.len(), &text, size)).collect()
        }
        CUTS => {
            base = vec![0; memory::words(4)];
            let text = DAY.concat();
            let cut = |at: usize| {
                let from = taken(&mut base.clone(), &text[..at], 512);
                [Call::over(base.len(), &text[..at], 512), Call::on(&text[from..], 512)]
            };
            (0..=text.len()).flat_map(cut).collect()
        }
        LONG => long_lines(whole),
        BYTES => (0..=255)
            .flat_map(|b| {
                let text = [b"B\tT9\tABCD\n", &[b, b'\n', b, b][..], LINES, &[b]].concat();
                [Call::over(whole, &text, 512), Call::over(whole, &text[10..], 64)]
            })
            .collect(),
        MANY => {
            let seen = b"Q\t1\t7\t9990000\t0\n".repeat(1_000);
            let mut calls = vec![Call::over(whole, &seen, 40_000)];
            // More lines than sixteen bits count.
            if mode & AT_START == 0 {
                calls.push(Call::over(whole, &b"\n".repeat(66_000), 660_022));
                calls.push(Call::over(whole, &b"\n".repeat(66_000), 655_391));
            }
            calls
        }
        content => (0..=lengths::MOST_LINE)
            .map(|length| {
                let line = line(content - FIRST_CONTENT, length, &mut rng);
                let text = [b"B\tT9\tABCD\n", &line[..], b"R\tT8\tABCD\n"].concat();
                Call::over(whole, &text, size(&mut rng, ends(&text)))
            })
            .collect(),
    };
    Batch { mode, pattern: 0xA5, base, calls }
}

/// Lines that are too long, between others, with and without an LF.
fn long_lines(count: usize) -> Vec<Call> {
    let lengths = [159, 160, 161, 162, 163, 321, 322, 323, 4_095, 4_096, 4_097];
    let longer = [65_534, 65_535, 65_536, 65_537, 65_538, 131_072, 200_000];
    let start = b"N\tT3\tABCD\t7\tB\t1\t10000000";
    let mut calls = Vec::new();
    for length in lengths.into_iter().chain(longer) {
        for (byte, whole) in [(b'0', true), (0, false), (b'\t', false), (0xFF, false)] {
            let mut line = if whole { start.to_vec() } else { Vec::new() };
            line.resize(length, byte);
            let text = [b"B\tT9\tABCD\n", &line[..], b"\nR\tT8\tABCD\n", &line].concat();
            // The first answer has 11 bytes: the buffer is long enough for all, for the long
            // line, for none but the first. Then the long line without its LF.
            calls.extend([512, 43, 42].map(|size| Call::over(count, &text, size)));
            calls.push(Call::over(count, &text[10..10 + length], 64));
        }
    }
    calls
}

#[cfg(test)]
mod tests {
    use super::*;

    /// The most bytes of a block and of a buffer that the worker lends.
    const MOST: usize = 1 << 20;

    #[test]
    fn blocks_fit_the_worker() {
        let sweeps = (0..PARTS).map(sweep);
        let days = (0..40).map(|index| day(1, index, usize::MAX));
        for call in sweeps.chain(days).flat_map(|batch| batch.calls) {
            assert!(call.text.len() <= MOST && call.size <= MOST);
        }
    }

    #[test]
    fn a_day_in_blocks_is_taken_line_by_line() {
        for index in 0..40 {
            let batch = day(2, index, usize::MAX);
            let (mut words, mut text) = (batch.base.clone(), Vec::new());
            for call in batch.calls {
                let bytes = taken(&mut words, &call.text, call.size);
                text.extend_from_slice(&call.text[..bytes]);
            }
            let mut by_line = batch.base;
            for line in text.split_inclusive(|&b| b == b'\n') {
                assert!(memory::record(&mut by_line, line, &mut [0; 32]) > 0);
            }
            assert!(text.ends_with(b"\n") && by_line == words);
        }
    }
}
