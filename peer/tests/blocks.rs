//! Blocks of lines: the same answers and the same memory as line by line (document 02, order 4).

mod common;

use common::{document_01_day, line, Days};
use peer::gate::{Gate, Taken};
use peer::memory::{self, block, broken_rule, record, store};

/// Document 01's day in lines and answer lines.
fn day() -> [Vec<u8>; 2] {
    let [text, mut answers] = document_01_day();
    let closing = answers.split_inclusive(|&b| b == b'\n').next_back().map_or(0, <[u8]>::len);
    answers.truncate(answers.len() - closing);
    [text, answers]
}

/// What is in a buffer, or in `taken`, before a call.
const FILL: u8 = 0xee;
const UNTAKEN: [u64; 2] = [u64::MAX, 0x1234];

fn fresh(room: usize) -> Vec<u64> {
    vec![0; memory::words(room)]
}

/// A block as so many record calls, each with what is left of the buffer.
fn by_records(mem: &mut [u64], text: &[u8], to: &mut [u8], taken: &mut [u64; 2]) -> i64 {
    if to.len() < 32 {
        return -21;
    }
    if broken_rule(mem).is_some() {
        return -22;
    }
    *taken = [0, 0];
    let mut at = 0;
    for line in text.split_inclusive(|&b| b == b'\n') {
        if to.len() - at < 32 || !line.ends_with(b"\n") {
            break;
        }
        let written = record(mem, line, &mut to[at..]);
        assert!(written > 0);
        at += written as usize;
        taken[0] += 1;
        taken[1] += line.len() as u64;
    }
    at as i64
}

/// One block in both ways from the same words, and by a gate; everything is the same. The
/// words are those after it.
fn same(mem: &mut [u64], text: &[u8], size: usize) -> (i64, [u64; 2], Vec<u8>) {
    let (mut ours, mut theirs) = (mem.to_vec(), mem.to_vec());
    let (mut a, mut b) = (vec![FILL; size], vec![FILL; size]);
    let (mut taken, mut told) = (UNTAKEN, UNTAKEN);
    let written = block(&mut ours, text, &mut a, &mut taken);
    assert_eq!(written, by_records(&mut theirs, text, &mut b, &mut told), "{size}");
    assert_eq!(taken, told, "{size}");
    assert!(a == b && ours == theirs, "{size}: {:?}", String::from_utf8_lossy(text));
    if written >= 0 {
        let mut gate = memory::load(mem);
        let mut c = vec![FILL; size];
        let Taken { lines, bytes, written: length } = gate.block(text, &mut c);
        assert_eq!((length as i64, [lines as u64, bytes as u64]), (written, taken));
        let mut stored = mem.to_vec();
        store(&gate, &mut stored);
        assert!(c == a && stored == ours);
    } else {
        assert!(taken == UNTAKEN && ours == mem && a.iter().all(|&b| b == FILL));
    }
    mem.copy_from_slice(&ours);
    (written, taken, a)
}

#[test]
fn document_01_in_one_block() {
    let [text, expected] = day();
    let mut to = [FILL; 512];
    let taken = Gate::new(400).block(&text, &mut to);
    assert_eq!(taken, Taken { lines: 15, bytes: text.len(), written: expected.len() });
    assert_eq!(to[..expected.len()], expected);
    assert!(to[expected.len()..].iter().all(|&b| b == FILL));

    let (written, taken, to) = same(&mut fresh(400), &text, 512);
    assert_eq!((written, taken), (expected.len() as i64, [15, text.len() as u64]));
    assert_eq!(to[..expected.len()], expected);
}

/// In two blocks, the first cut at any byte; what it does not take comes again in the second.
#[test]
fn document_01_cut_anywhere() {
    let [text, expected] = day();
    let mut whole = fresh(4);
    same(&mut whole, &text, 512);
    for cut in 0..=text.len() {
        let mut mem = fresh(4);
        let (first, taken, a) = same(&mut mem, &text[..cut], 512);
        let ends = text[..cut].iter().filter(|&&b| b == b'\n').count();
        assert_eq!(taken[0], ends as u64);
        let from = taken[1] as usize;
        assert!(from <= cut && !text[from..cut].contains(&b'\n'));
        let (second, more, b) = same(&mut mem, &text[from..], 512);
        assert_eq!((taken[0] + more[0], taken[1] + more[1]), (15, text.len() as u64));
        assert_eq!([&a[..first as usize], &b[..second as usize]].concat(), expected);
        assert!(mem == whole, "cut at {cut}");
    }
}

/// Every length of the buffer: as many lines as find 32 bytes left.
#[test]
fn every_buffer() {
    let [text, expected] = day();
    let lengths: Vec<usize> = expected.split_inclusive(|&b| b == b'\n').map(<[u8]>::len).collect();
    for size in 0..=expected.len() + 64 {
        let (written, taken, to) = same(&mut fresh(4), &text, size);
        if size < 32 {
            assert_eq!((written, taken), (-21, UNTAKEN));
            continue;
        }
        let (mut lines, mut at) = (0, 0);
        while lines < lengths.len() && size - at >= 32 {
            at += lengths[lines];
            lines += 1;
        }
        assert_eq!((written, taken[0]), (at as i64, lines as u64), "{size}");
        assert_eq!(to[..at], expected[..at]);
    }
}

#[test]
fn what_is_no_line() {
    let broken = b"?\t-\tR\t1\t0\n";
    let says = |text: &[u8], lines: u64, bytes: usize| {
        let (written, taken, to) = same(&mut fresh(1), text, 512);
        assert_eq!((written, taken), (10 * lines as i64, [lines, bytes as u64]));
        assert_eq!(to[..10 * lines as usize], broken.repeat(lines as usize));
    };
    says(b"", 0, 0);
    says(b"O", 0, 0);
    says(b"S\t7", 0, 0);
    says(b"\n", 1, 1);
    says(b"\n\n\nO", 3, 3);
    says(b"\0\n\xff\n\r\n\0", 3, 6);
    for length in [159, 160, 161, 162, 321, 322, 323, 65_535, 65_536, 65_537, 300_000] {
        let long = vec![b'S'; length];
        says(&long, 0, 0);
        says(&[&long[..], b"\n"].concat(), 1, length + 1);
        says(&[&long[..], b"\n", &long].concat(), 1, length + 1);
        says(&[b"\n", &long[..], b"\n\n"].concat(), 3, length + 3);
        // The longest line is looked at to its end, and what follows is a line of its own.
        let (written, taken, _) = same(&mut fresh(1), &[&long[..], b"\nS\t7\n"].concat(), 512);
        assert_eq!((written, taken), (20, [2, length as u64 + 5]));
    }
}

#[test]
fn refused_and_nothing_changed() {
    let [text, _] = day();
    let mut bad = fresh(4);
    bad[4] = 1;
    let mut short = vec![0; memory::LEAST_WORDS - 1];
    for text in [&b""[..], b"O", b"\n", &text] {
        for size in 0..100 {
            let number = if size < 32 { -21 } else { -22 };
            assert_eq!(same(&mut bad, text, size).0, number);
            assert_eq!(same(&mut short, text, size).0, number);
            assert_eq!(same(&mut [], text, size).0, number);
            assert_eq!(same(&mut fresh(0), text, size).0 < 0, size < 32);
        }
    }
}

/// Random days in random blocks, with buffers that are often too short for all lines.
#[test]
fn random_days() {
    for seed in 1..60 {
        let mut days = Days::new(seed);
        let room = (seed % 7 * 25) as usize;
        let mut text: Vec<u8> = (0..20).flat_map(|_| days.setup()).collect();
        text.extend(line("O"));
        text.extend((0..380).flat_map(|_| days.line()));
        let mut mem = fresh(room);
        let mut from = 0;
        while from < text.len() {
            let length = days.random.below(2_000) as usize;
            let size = days.random.pick(&[31, 32, 33, 40, 64, 100, 400, 4_000]);
            let (_, taken, _) = same(&mut mem, &text[from..text.len().min(from + length)], size);
            from += if size < 32 { 0 } else { taken[1] as usize };
        }
        let mut gate = Gate::new(room);
        text.split_inclusive(|&b| b == b'\n').for_each(|line| {
            gate.record(line, &mut Vec::new());
        });
        let mut expected = fresh(room);
        store(&gate, &mut expected);
        assert!(mem == expected, "seed {seed}");
    }
}
