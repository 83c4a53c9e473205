//! Random days: the gate and the lent words agree line by line, and no state is hostile
//! enough to make a call fail.

mod common;

use common::{day, day_in_words, line, Days, Random};
use peer::gate::Gate;
use peer::memory::{self, broken_rule, closing, load, record, state_ok, store};
use std::collections::BTreeMap;

/// Every word that is not in use, told apart by where it stands.
fn rubbish(at: usize) -> u64 {
    (at as u64).wrapping_mul(0x9e37_79b9_7f4a_7c15)
}

/// Fresh words with rubbish in everything that is not in use.
fn lent(room: usize, more: usize) -> Vec<u64> {
    let mut mem: Vec<u64> = (0..memory::words(room) + more).map(rubbish).collect();
    mem[..5].fill(0);
    mem
}

/// Kinds with their numbers, by how often they came.
type Tally = BTreeMap<(char, u8), usize>;

/// A day of so many lines, by the gate and in words at once.
fn both(seed: u64, room: usize, lines: usize, tally: &mut Tally) -> (Gate, Vec<u64>) {
    let mut days = Days::new(seed);
    let mut gate = Gate::new(room);
    let mut mem = lent(room, (seed % 17) as usize);
    for number in 0..lines {
        let line = match number {
            0..20 => days.setup(),
            20 => line("O"),
            _ => days.line(),
        };
        let mut out = Vec::new();
        let answer = gate.record(&line, &mut out);
        let mut to = [0xee; 40];
        let written = record(&mut mem, &line, &mut to);
        assert_eq!(written, out.len() as i64);
        assert_eq!(to[..out.len()], out[..]);
        assert!(to[out.len()..].iter().all(|&b| b == 0xee));
        *tally.entry((out[0] as char, answer.number)).or_default() += 1;

        let mut expected = lent(room, (seed % 17) as usize);
        store(&gate, &mut expected);
        assert!(mem == expected, "{}", String::from_utf8_lossy(&line));
        assert_eq!(broken_rule(&mem), None);
        for place in (0..=gate.groups()).filter(|_| number % 20 == 0) {
            let mut out = Vec::new();
            let mut to = [0xee; 96];
            let there = gate.closing(place, &mut out);
            let written = closing(&mem, place, &mut to);
            assert_eq!(written, if there { out.len() as i64 } else { -5 });
            assert_eq!(to[..out.len()], out[..]);
            assert!(to[out.len()..].iter().all(|&b| b == 0xee));
        }
    }
    (gate, mem)
}

#[test]
fn gate_and_words_agree() {
    let mut tally = Tally::new();
    for seed in 1..80 {
        both(seed, (seed % 7 * 25) as usize, 400, &mut tally);
    }
    // The days reach every outcome of every kind but 4 and 20.
    let expected: [(char, &[u8]); 11] = [
        ('G', &[0, 3]),
        ('S', &[0, 3]),
        ('N', &[0, 2, 5, 6, 7, 8, 10, 11, 12, 13, 14, 31, 32, 33, 34, 35, 36]),
        ('M', &[0, 5, 6, 7, 9, 10, 12, 13, 14, 16, 17, 31, 32, 33, 34, 35, 36]),
        ('C', &[0, 5, 6, 7, 9, 17]),
        ('B', &[0, 5, 6, 7]),
        ('R', &[0, 5, 6, 7]),
        ('Q', &[0, 2, 8, 18]),
        ('F', &[0, 5, 9, 18, 19]),
        ('D', &[0, 5, 9, 18, 19]),
        ('H', &[0, 5, 9, 18]),
    ];
    for (kind, numbers) in expected {
        for &number in numbers {
            assert!(tally.contains_key(&(kind, number)), "{kind} {number}");
        }
    }
}

#[test]
fn load_goes_on_where_store_left_off() {
    for seed in 100..120 {
        let (mut gate, mem) = both(seed, 60, 150, &mut Tally::new());
        let mut loaded = load(&mem);
        assert_eq!(loaded.places_taken(), gate.places_taken());
        let mut days = Days::new(seed + 1000);
        for _ in 0..400 {
            let line = days.line();
            let (mut one, mut other) = (Vec::new(), Vec::new());
            assert_eq!(gate.record(&line, &mut one), loaded.record(&line, &mut other));
            assert_eq!(one, other);
        }
        let (mut one, mut other) = (mem.clone(), mem.clone());
        store(&gate, &mut one);
        store(&loaded, &mut other);
        assert!(one == other);
    }
}

/// One to three words of a valid state changed: the calls hold whatever comes of it.
#[test]
fn changed_words() {
    let mut random = Random::new(77);
    let (mut fine, mut broken) = (0, 0);
    for seed in 200..216 {
        let (gate, mem) = both(seed, 40, 200, &mut Tally::new());
        let room = gate.room();
        for _ in 0..400 {
            let mut mem = mem.clone();
            for _ in 0..=random.below(3) {
                let at = match random.below(4) {
                    0 => random.below(5) as usize,
                    1 => 5 + random.below(14 * gate.groups().max(1) as u64) as usize,
                    2 => random.below(mem.len() as u64) as usize,
                    _ => 1669 + 4 * room + random.below(13 * room as u64) as usize,
                };
                mem[at] = match random.below(6) {
                    0 => 0,
                    1 => 1,
                    2 => random.word(),
                    3 => random.below(1_000_001),
                    4 => mem[at].wrapping_add(1),
                    _ => mem[random.below(mem.len() as u64) as usize],
                };
            }
            let found = mem.clone();
            let mut days = Days::new(random.word());
            let mut to = [9; 96];
            if state_ok(&mem) {
                fine += 1;
                for _ in 0..10 {
                    let line = days.line();
                    let mut gate = load(&mem);
                    let mut out = Vec::new();
                    gate.record(&line, &mut out);
                    let written = record(&mut mem, &line, &mut to);
                    assert_eq!(to[..usize::try_from(written).unwrap()], out[..]);
                    assert_eq!(broken_rule(&mem), None);
                }
            } else {
                broken += 1;
                assert_eq!(record(&mut mem, &days.line(), &mut to), -22);
                assert_eq!(closing(&mem, 0, &mut to), -22);
                assert!(mem == found && to == [9; 96]);
            }
        }
    }
    assert!(fine > 500 && broken > 500, "{fine} {broken}");
}

#[test]
fn random_words_of_any_length() {
    let mut random = Random::new(5);
    for _ in 0..300 {
        let length = random.below(5000) as usize;
        let mut mem: Vec<u64> = (0..length).map(|_| random.word()).collect();
        if let [open, last, groups, symbols, places, ..] = &mut mem[..] {
            (*open, *last) = (1, 1);
            (*groups, *symbols, *places) = (random.below(66), random.below(258), random.below(300));
        }
        let found = mem.clone();
        let ok = state_ok(&mem);
        let written = record(&mut mem, &line("O"), &mut [0; 32]);
        assert_eq!(written == -22, !ok);
        assert!(ok || mem == found);
    }
}

/// A full table of 65,535 places is tried in little more than a pass.
#[test]
fn a_full_table() {
    let room = 65_535;
    let mut gate = Gate::new(room);
    let mut out = Vec::new();
    let group = format!("G ABCD {} 1000000 Y", ["4000000000000000000"; 6].join(" "));
    for text in [&group[..], "S 7", "O"] {
        gate.record(&line(text), &mut out);
    }
    for number in 0..room + 1 {
        gate.record(&line(&format!("N {number} ABCD 7 B 1 1000000")), &mut out);
    }
    assert!(out.ends_with(b"N\t65535\tR\t7\t0\n"));
    assert_eq!(gate.places_taken(), room);
    let mut mem = vec![0; memory::words(room) + 16];
    store(&gate, &mut mem);
    assert!(state_ok(&mem));
    let mut to = [0; 32];
    assert_eq!(record(&mut mem, &line("F 1 ABCD 65534 1 1"), &mut to), 10);
    assert_eq!(&to[..10], b"F\t1\tK\t0\t0\n");
    // The same identifier at both ends.
    let (first, last) = (1669, 1669 + 4 * (room - 1));
    mem.copy_within(first..first + 4, last);
    assert_eq!(broken_rule(&mem), Some("identifier pairs distinct"));
}

#[test]
fn whole_random_days() {
    for seed in 300..310 {
        let mut days = Days::new(seed);
        let mut input = Vec::new();
        for _ in 0..30 {
            input.extend(days.setup());
        }
        input.extend(line("O"));
        for _ in 0..800 {
            input.extend(days.line());
        }
        input.extend(b"O");
        assert!(day(&input, 30) == day_in_words(&input, 30));
    }
}
