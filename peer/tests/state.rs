//! The lent words: the map, every state rule broken alone, and valid states that are odd.

mod common;

use common::{after, line};
use peer::memory::{self, broken_rule, closing, fresh, load, record, state_ok, store, words};

const ROOM: usize = 8;
const KEYS: usize = 1669;
const REQUESTS: usize = KEYS + 4 * ROOM;
const ORDERS: usize = KEYS + 13 * ROOM;
const CEILING: u64 = 4_000_000_000_000_000_000;

/// Two groups, two symbols, and six places: a part-filled buy that was changed, a refused N
/// with a symbol that is not listed, a passed M, a passed C, a B and an R. Whatever is not in
/// use holds rubbish, and there are words past the last whole place.
fn base() -> Vec<u64> {
    let gate = after(
        ROOM,
        &[
            "G ABCD 1000000000 1000000000 1000000000 1000000000 1000000000 1000000000 1000 Y",
            "G WXYZ 1000000000 1000000000 1000000000 1000000000 1000000000 1000000000 1000 N",
            "S 7",
            "S 9",
            "O",
            "Q 1 7 9990000 10000000",
            "N T1 ABCD 7 B 10 1000000",
        ],
    );
    let mut mem = vec![0xdead_beef_dead_beef; words(ROOM) + 16];
    store(&gate, &mut mem);
    for text in [
        "N T2 ABCD 8 S 10 1000000",
        "M T3 ABCD T1 20 1010000",
        "C T4 ABCD T1",
        "F 2 ABCD T1 5 1000000",
        "B T5 WXYZ",
        "R T6 WXYZ",
    ] {
        assert!(record(&mut mem, &line(text), &mut [0; 32]) > 0);
    }
    assert_eq!(broken_rule(&mem), None);
    mem
}

/// Words set in a base state, and the rule that this breaks.
fn breaks(changes: &[(usize, u64)], rule: &str) {
    let mut mem = base();
    for &(at, word) in changes {
        mem[at] = word;
    }
    assert_eq!(broken_rule(&mem), Some(rule), "{changes:?}");
    assert!(!state_ok(&mem));
    let found = mem.clone();
    let mut to = [7; 96];
    assert_eq!(record(&mut mem, &line("O"), &mut to[..31]), -21);
    assert_eq!(record(&mut mem, &line("O"), &mut to), -22);
    assert_eq!(closing(&mem, 0, &mut to[..95]), -21);
    assert_eq!(closing(&mem, 0, &mut to), -22);
    assert_eq!(closing(&mem, 9, &mut to), -22);
    assert!(mem == found && to == [7; 96]);
}

fn keeps(changes: &[(usize, u64)]) {
    let mut mem = base();
    for &(at, word) in changes {
        mem[at] = word;
    }
    assert_eq!(broken_rule(&mem), None, "{changes:?}");
    let mut again = mem.clone();
    store(&load(&mem), &mut again);
    assert!(mem == again, "{changes:?}");
}

fn group(row: usize, field: usize) -> usize {
    5 + 14 * row + field
}

fn symbol(row: usize, field: usize) -> usize {
    901 + 3 * row + field
}

fn key(row: usize, field: usize) -> usize {
    KEYS + 4 * row + field
}

fn request(row: usize, field: usize) -> usize {
    REQUESTS + 9 * row + field
}

fn order(row: usize, field: usize) -> usize {
    ORDERS + 4 * row + field
}

#[test]
fn the_map() {
    assert_eq!((memory::LEAST_WORDS, memory::PLACE_WORDS, memory::MOST_PLACES), (1669, 17, 65_535));
    assert_eq!(words(400), 8469);
    for (count, room) in
        [(0, 0), (1668, 0), (1669, 0), (1685, 0), (1686, 1), (8469, 400), (8485, 400)]
    {
        assert_eq!(memory::room(count), room);
    }
    assert_eq!(memory::room(words(65_535)), 65_535);
    assert_eq!(memory::room(words(65_535) + 17), 65_535);
    assert_eq!(memory::room(usize::MAX), 65_535);
    assert_eq!(words(usize::MAX), words(65_535));

    let mem = base();
    assert_eq!(mem[..5], [1, 2, 2, 2, 6]);
    assert_eq!(mem[group(0, 0)].to_le_bytes(), *b"ABCD\0\0\0\0");
    assert_eq!(
        mem[group(0, 1)..group(0, 10)],
        [10u64.pow(9); 6].iter().copied().chain([1000, 1, 0]).collect::<Vec<_>>()
    );
    assert_eq!(mem[group(0, 10)..group(1, 0)], [5_000_000, 0, 15 * 1_010_000, 0]);
    assert_eq!(mem[symbol(0, 0)..symbol(2, 0)], [7, 9_990_000, 10_000_000, 9, 0, 0]);
    assert_eq!(mem[key(0, 0)..key(1, 0)], [mem[group(0, 0)], u64::from(b'T') | 0x3100, 0, 0]);
    let [n, m, c, b, r] = b"NMCBR".map(u64::from);
    assert_eq!(mem[request(0, 0)..request(1, 0)], [n, 0, 0, 0, 0, 7, 66, 10, 1_000_000]);
    assert_eq!(mem[request(1, 0)..request(2, 0)], [n, 8, 0, 0, 0, 8, 83, 10, 1_000_000]);
    assert_eq!(mem[request(2, 0)..request(3, 0)], [m, 0, 0x3154, 0, 0, 0, 0, 20, 1_010_000]);
    assert_eq!(mem[request(3, 0)..request(4, 0)], [c, 0, 0x3154, 0, 0, 0, 0, 0, 0]);
    assert_eq!(mem[request(4, 0)..request(5, 0)], [b, 0, 0, 0, 0, 0, 0, 0, 0]);
    assert_eq!(mem[request(5, 0)..request(6, 0)], [r, 0, 0, 0, 0, 0, 0, 0, 0]);
    assert_eq!(mem[order(0, 0)..order(1, 0)], [1_010_000, 20, 5, 1]);
    assert!(mem[order(1, 0)..order(6, 0)].iter().all(|&word| word == 0));
    // What is not in use was left as found.
    let rubbish =
        |range: std::ops::Range<usize>| mem[range].iter().all(|&w| w == 0xdead_beef_dead_beef);
    assert!(
        rubbish(group(2, 0)..901) && rubbish(symbol(2, 0)..KEYS) && rubbish(key(6, 0)..REQUESTS)
    );
    assert!(rubbish(request(6, 0)..ORDERS) && rubbish(order(6, 0)..mem.len()));
}

#[test]
fn fresh_states() {
    let mut short = [5; 1668];
    assert!(!fresh(&mut short) && short == [5; 1668]);
    assert_eq!(broken_rule(&short), Some("the state is too short"));
    for count in [0, 1, 4, 5, 1668] {
        assert!(!state_ok(&vec![0; count]));
    }
    for count in [1669, 1700, words(3) + 5] {
        let mut mem = vec![5; count];
        assert!(fresh(&mut mem) && mem.iter().all(|&word| word == 0) && state_ok(&mem));
        assert_eq!(closing(&mem, 0, &mut [0; 96]), -5);
    }
    // No room for a place: requests are 7, notices are judged.
    let mut mem = vec![0; 1669];
    let mut to = [b'.'; 33];
    for text in [&base_group("ABCD")[..], "S 7", "O"] {
        assert!(record(&mut mem, &line(text), &mut to) > 0);
    }
    to.fill(b'.');
    assert_eq!(record(&mut mem, &line("B T1 ABCD"), &mut to), 11);
    assert_eq!(&to, b"B\tT1\tR\t7\t0\n......................");
    assert_eq!(record(&mut mem, &line("Q 1 7 0 0"), &mut to), 10);
    assert_eq!(record(&mut mem, b"", &mut to), 10);
    assert_eq!(&to[..10], b"?\t-\tR\t1\t0\n");
}

fn base_group(mpid: &str) -> String {
    format!("G {mpid} 0 0 0 0 0 0 1 Y")
}

#[test]
fn head_rules() {
    for word in [2, u64::MAX] {
        breaks(&[(0, word)], "the opened mark is 0 or 1");
    }
    breaks(&[(1, 4_294_967_296)], "the last number is in range");
    breaks(&[(2, 65)], "at most 64 groups");
    breaks(&[(3, 257)], "at most 256 symbols");
    breaks(&[(4, ROOM as u64 + 1)], "places within room");
    breaks(&[(4, u64::MAX)], "places within room");
    breaks(&[(0, 0)], "before O no place taken");
    breaks(&[(0, 0), (4, 0)], "before O every total 0");
    breaks(&[(0, 0), (4, 0), (group(0, 12), 0)], "before O every total 0");
    keeps(&[(0, 0), (4, 0), (group(0, 10), 0), (group(0, 12), 0)]);
    breaks(&[(2, 3)], "a group's MPID has the form");
    breaks(&[(3, 3)], "a symbol's ID is in range");
    breaks(&[(4, 7)], "a request's MPID listed");
    keeps(&[(1, 0)]);
    keeps(&[(1, 4_294_967_295)]);
}

#[test]
fn group_rules() {
    let abcd = base()[group(0, 0)];
    for word in [0, abcd | 1 << 32, abcd ^ 0x20, u64::MAX] {
        breaks(&[(group(0, 0), word)], "a group's MPID has the form");
    }
    breaks(&[(group(1, 0), abcd)], "MPIDs distinct");
    for field in 1..=6 {
        breaks(&[(group(1, field), CEILING + 1)], "a limit is in range");
        keeps(&[(group(1, field), CEILING)]);
        keeps(&[(group(0, field), 0)]);
    }
    for word in [0, 1_000_001, u64::MAX] {
        breaks(&[(group(0, 7), word)], "a maximum size is in range");
    }
    keeps(&[(group(0, 7), 1), (group(1, 7), 1_000_000)]);
    breaks(&[(group(0, 8), 2)], "the short sales mark is 0 or 1");
    breaks(&[(group(0, 9), 2)], "the blocked mark is 0 or 1");
    keeps(&[(group(0, 8), 0), (group(0, 9), 1)]);
    breaks(&[(group(0, 10), CEILING + 1)], "a traded value is in range");
    breaks(&[(group(0, 11), u64::MAX)], "a traded value is in range");
    let open = 15 * 1_010_000;
    breaks(&[(group(0, 12), open + 1)], "open values are the sums over the table");
    breaks(&[(group(0, 12), 0), (group(0, 13), open)], "open values are the sums over the table");
    breaks(&[(group(1, 13), u64::MAX)], "open values are the sums over the table");
    breaks(&[(group(0, 10), CEILING - open + 1)], "gross of both at most the ceiling");
    breaks(
        &[(group(0, 10), CEILING), (group(0, 11), CEILING)],
        "gross of both at most the ceiling",
    );
    keeps(&[(group(0, 10), CEILING - open)]);
    keeps(&[(group(1, 10), CEILING)]);
}

#[test]
fn symbol_rules() {
    for word in [0, 4_294_967_296] {
        breaks(&[(symbol(1, 0), word)], "a symbol's ID is in range");
    }
    breaks(&[(symbol(1, 0), 7)], "symbols distinct");
    breaks(&[(symbol(0, 1), 1_000_000_000_000)], "a bid or offer is in range");
    breaks(&[(symbol(0, 2), 1_000_000_000_000)], "a bid or offer is in range");
    breaks(&[(symbol(0, 0), 4_294_967_295)], "an order's symbol listed");
    keeps(&[(symbol(1, 0), 4_294_967_295), (symbol(1, 1), 999_999_999_999), (symbol(1, 2), 1)]);
}

#[test]
fn key_and_request_rules() {
    let mem = base();
    let [abcd, wxyz] = [mem[group(0, 0)], mem[group(1, 0)]];
    for word in [0, abcd + 1, abcd | 1 << 40, u64::MAX] {
        breaks(&[(key(1, 0), word)], "a request's MPID listed");
    }
    keeps(&[(key(1, 0), wxyz)]);
    breaks(&[(key(0, 0), wxyz)], "open values are the sums over the table");
    let t1 = mem[key(0, 1)];
    for id in [[0; 3], [0x2054, 0, 0], [0x7c, 0, 0], [0x7f, 0, 0], [t1, t1, 0], [t1, 0, t1]] {
        let words: Vec<_> = (1..4).map(|field| (key(3, field), id[field - 1])).collect();
        breaks(&words, "an identifier has the form");
        let words: Vec<_> = (2..5).map(|field| (request(3, field), id[field - 2])).collect();
        breaks(&words, "a target has the form");
        let words: Vec<_> = (2..5).map(|field| (request(2, field), id[field - 2])).collect();
        breaks(&words, "a target has the form");
    }
    breaks(&[(key(1, 1), t1)], "identifier pairs distinct");
    keeps(&[(key(4, 1), t1)]);

    for word in [0, 66 << 8, 78 + 256, 70] {
        breaks(&[(request(5, 0), word)], "a kind is one of the five");
    }
    // Of 8 to 17 without 15, and 31 to 36 (document 02, order 1).
    for row in 0..6 {
        for word in [1, 7, 15, 18, 19, 20, 21, 22, 30, 37, 256, 256 + 33, 1 << 33, u64::MAX] {
            let rule = "a remembered number is 0, 8 to 14, 16, 17 or 31 to 36";
            breaks(&[(request(row, 1), word)], rule);
        }
    }
    for row in 1..6 {
        for word in [8, 9, 10, 11, 12, 13, 14, 16, 17, 31, 32, 33, 34, 35, 36] {
            keeps(&[(request(row, 1), word)]);
        }
    }
    for word in [0, 4_294_967_296] {
        breaks(&[(request(1, 5), word)], "a request's symbol ID is in range");
    }
    breaks(&[(request(0, 5), 8)], "an order's symbol listed");
    keeps(&[(request(0, 5), 9)]);
    for word in [0, 65, 66 + 256, u64::MAX] {
        breaks(&[(request(1, 6), word)], "a side is one of the four");
    }
    for word in *b"BSHE" {
        keeps(&[(request(1, 6), u64::from(word))]);
    }
    for row in [0, 1, 2] {
        for word in [0, 1_000_001] {
            breaks(&[(request(row, 7), word)], "a request's size is in range");
        }
        for word in [0, 1_000_000_000_000] {
            breaks(&[(request(row, 8), word)], "a request's price is in range");
        }
        keeps(&[(request(row, 7), 1_000_000), (request(row, 8), 999_999_999_999)]);
    }
    for (row, fields) in [(1, 2..5), (2, 5..7), (3, 5..9), (4, 2..9), (5, 2..9)] {
        for field in fields {
            breaks(&[(request(row, field), 66)], "a field that the kind does not have is 0");
        }
    }
    // A passed M or C may name anything.
    keeps(&[(request(2, 2), 0x21), (request(3, 2), 0x21)]);
}

#[test]
fn order_rules() {
    for word in [0, 1_000_000_000_000] {
        breaks(&[(order(0, 0), word)], "an order's price is in range");
    }
    for word in [0, 1_000_001] {
        breaks(&[(order(0, 1), word)], "an order's size is in range");
    }
    for word in [21, u64::MAX] {
        breaks(&[(order(0, 2), word)], "done at most size");
    }
    breaks(&[(order(0, 3), 2)], "the cancel asked mark is 0 or 1");
    breaks(&[(order(0, 2), 6)], "open values are the sums over the table");
    keeps(&[(order(0, 2), 20), (group(0, 12), 0)]);
    keeps(&[(order(0, 0), 7), (group(0, 12), 15 * 7), (order(0, 3), 0)]);
    for row in 1..6 {
        for field in 0..4 {
            breaks(&[(order(row, field), 1)], "the figures of a place that is no passed N are 0");
        }
    }
    // A passed N made a refused one: its figures are no longer an order's.
    breaks(&[(request(0, 1), 33)], "the figures of a place that is no passed N are 0");
    // A side changed: the value is on the wrong side.
    breaks(&[(request(0, 6), u64::from(b'E'))], "open values are the sums over the table");
    keeps(&[(request(0, 6), u64::from(b'E')), (group(0, 12), 0), (group(0, 13), 15 * 1_010_000)]);
}

/// Sums that pass 2^64 and come round to the open value are still no sums.
#[test]
fn sums_do_not_wrap() {
    let room = 40;
    let gate = after(room, &["G ABCD 0 0 0 0 0 0 1 Y", "S 7", "O"]);
    let mut mem = vec![0; words(room)];
    store(&gate, &mut mem);
    let abcd = mem[group(0, 0)];
    let (size, price) = (1_000_000u64, 999_999_999_999u64);
    let mut sum = 0u64;
    for row in 0..room {
        let place = KEYS + 4 * row;
        mem[place..place + 4].copy_from_slice(&[abcd, 0x3030 + row as u64, 0, 0]);
        let place = KEYS + 4 * room + 9 * row;
        mem[place..place + 9].copy_from_slice(&[78, 0, 0, 0, 0, 7, 66, size, price]);
        let place = KEYS + 13 * room + 4 * row;
        mem[place..place + 4].copy_from_slice(&[price, size, 0, 0]);
        sum = sum.wrapping_add(size * price);
    }
    mem[4] = room as u64;
    mem[group(0, 12)] = sum;
    assert_eq!(broken_rule(&mem), Some("open values are the sums over the table"));
    // Four of them are within the ceiling.
    mem[4] = 4;
    mem[group(0, 12)] = 4 * size * price;
    assert_eq!(broken_rule(&mem), None);
}

fn answer(mem: &mut [u64], text: &str) -> String {
    let mut to = [b'.'; 32];
    let written = record(mem, &line(text), &mut to) as usize;
    assert!(to[written..].iter().all(|&b| b == b'.'));
    assert_eq!(broken_rule(mem), None);
    String::from_utf8(to[..written - 1].to_vec()).unwrap().replace('\t', " ")
}

#[test]
fn valid_states_that_are_odd() {
    // The last number is the greatest there is: every notice was seen.
    let mut mem = base();
    mem[1] = 4_294_967_295;
    let found = mem.clone();
    for text in ["Q 4294967295 7 1 1", "F 1 ABCD T1 1 1"] {
        assert!(answer(&mut mem, text).ends_with(" S 0 0"));
    }
    assert!(mem == found);
    mem[1] = 4_294_967_294;
    assert_eq!(answer(&mut mem, "Q 4294967295 7 1 2"), "Q 4294967295 K 0 0");
    assert_eq!((mem[1], mem[symbol(0, 1)], mem[symbol(0, 2)]), (4_294_967_295, 1, 2));

    // A metric that is above its limit already: N is 31, a D books and blocks.
    let mut mem = base();
    mem[group(0, 10)] = 1_000_000_001;
    assert_eq!(answer(&mut mem, "N T7 ABCD 7 B 1 1000000"), "N T7 R 31 0");
    assert_eq!((mem[request(6, 0)], mem[request(6, 1)]), (u64::from(b'N'), 31));
    assert_eq!(answer(&mut mem, "D 3 ABCD T1 1"), "D 3 K 0 0");
    assert_eq!((mem[group(0, 9)], mem[order(0, 2)], mem[group(0, 12)]), (1, 6, 14 * 1_010_000));

    // Done equals size, and places that are no passed N: no target.
    let mut mem = base();
    (mem[order(0, 2)], mem[group(0, 12)]) = (20, 0);
    assert_eq!(answer(&mut mem, "F 3 ABCD T1 1 1"), "F 3 A 9 0");
    for target in ["T2", "T3", "T4", "T5", "T9"] {
        let text = format!("H {} ABCD {target}", mem[1] + 1);
        assert!(answer(&mut mem, &text).ends_with(" A 9 0"));
    }
    // Remembered numbers are given again as they stand.
    let mut mem = base();
    (mem[request(4, 1)], mem[request(3, 1)], mem[request(2, 1)]) = (17, 8, 36);
    assert_eq!(answer(&mut mem, "B T5 WXYZ"), "B T5 R 17 0");
    assert_eq!(answer(&mut mem, "C T4 ABCD T1"), "C T4 R 8 0");
    assert_eq!(answer(&mut mem, "M T3 ABCD T1 20 1010000"), "M T3 R 36 0");
    assert_eq!(answer(&mut mem, "R T6 WXYZ"), "R T6 P 0 0");

    // At the ceiling with limits at the ceiling: nothing more passes, nothing wraps.
    let mut mem = base();
    for field in 1..=6 {
        mem[group(0, field)] = CEILING;
    }
    mem[group(0, 7)] = 1_000_000;
    mem[group(0, 10)] = CEILING - 15 * 1_010_000;
    mem[order(0, 3)] = 0;
    assert_eq!(answer(&mut mem, "N T7 ABCD 9 S 1000000 999999990000"), "N T7 R 35 0");
    assert_eq!(answer(&mut mem, "M T8 ABCD T1 20 1010000"), "M T8 P 0 1");
    assert_eq!(answer(&mut mem, "F 3 ABCD T1 1 1010001"), "F 3 A 20 0");
    assert_eq!(answer(&mut mem, "F 4 ABCD T1 15 1010000"), "F 4 K 0 0");
    assert_eq!(mem[group(0, 10)], CEILING);
    assert_eq!(answer(&mut mem, "C T9 ABCD T1"), "C T9 R 7 0");
}
