//! Document 01's cases on both sides of a line, the order of checks, and which limit stopped
//! an order (document 02, order 1).

mod common;

use common::{after, close, say};
use peer::gate::{Answer, Gate};

const FREE: &str = "G ABCD 4000000000000000000 4000000000000000000 4000000000000000000 \
                    4000000000000000000 4000000000000000000 4000000000000000000 1000000 Y";

/// An open day with group ABCD without limits and symbol 7.
fn open() -> Gate {
    after(100, &[FREE, "S 7", "O"])
}

fn quoted(bid: u64, offer: u64) -> Gate {
    let mut gate = open();
    assert_eq!(say(&mut gate, &format!("Q 1 7 {bid} {offer}")), "Q 1 K 0 0");
    gate
}

#[test]
fn starred_cases() {
    let cases = [
        (1, 0, 10_000_000, "B", 11_000_000, 14),
        (2, 0, 10_000_000, "B", 10_990_000, 0),
        (3, 0, 9_000_000, "B", 9_900_000, 14),
        (4, 0, 9_000_000, "B", 9_890_000, 0),
        (5, 0, 99_000_000, "B", 108_950_000, 0),
        (6, 0, 99_000_000, "B", 109_000_000, 14),
        (7, 100_000_000, 0, "S", 90_000_000, 14),
        (8, 100_000_000, 0, "S", 90_010_000, 0),
        (9, 100_000, 0, "S", 50_000, 0),
        (10, 0, 0, "B", 1_005_000, 13),
        (11, 0, 0, "B", 999_900, 0),
        (12, 0, 0, "B", 999_950, 13),
    ];
    for (case, bid, offer, side, price, number) in cases {
        let mut gate = quoted(bid, offer);
        let (outcome, sent) = if number == 0 { ("P", 1) } else { ("R", 0) };
        let answer = say(&mut gate, &format!("N T1 ABCD 7 {side} 1 {price}"));
        assert_eq!(answer, format!("N T1 {outcome} {number} {sent}"), "case {case}");
    }
}

#[test]
fn open_value_at_its_limit() {
    for (place, refused) in [(2, 33), (3, 34), (4, 35), (5, 36)] {
        for (limit, answer) in [(1_000_000_000, "P 0 1"), (999_999_999, &format!("R {refused} 0"))]
        {
            let mut limits = [CEILING; 6];
            limits[place] = limit;
            let mut gate = after(10, &[&limited(limits), "S 7", "O"]);
            let answered = say(&mut gate, "N T1 ABCD 7 B 100 10000000");
            assert_eq!(answered, format!("N T1 {answer}"));
        }
    }
}

const CEILING: u64 = 4_000_000_000_000_000_000;

/// Group ABCD with these limits.
fn limited(limits: [u64; 6]) -> String {
    format!("G ABCD {} 1000000 N", limits.map(|limit| limit.to_string()).join(" "))
}

/// The metrics after either request of `TOO_MUCH` on the day of `traded`: TB is 1,000,000, TS
/// 300,000, OB 290,000 (N: 9 x 10,000 + 20 x 10,000; M: 29 x 10,000), OS 9 x 10,000.
const METRICS: [u64; 6] = [1_300_000, 700_000, 380_000, 200_000, 1_680_000, 900_000];
const TOO_MUCH: [&str; 2] = ["N T3 ABCD 7 B 20 10000", "M T3 ABCD T1 30 10000"];

/// A day with these limits and an order on each side, of which one share of ten was filled.
fn filled(limits: [u64; 6]) -> Gate {
    after(
        20,
        &[
            &limited(limits),
            "S 7",
            "O",
            "N T1 ABCD 7 B 10 10000",
            "N T2 ABCD 7 S 10 10000",
            "F 1 ABCD T1 1 1000000",
            "F 2 ABCD T2 1 300000",
        ],
    )
}

/// The same with the block removed that the fills may have set.
fn traded(limits: [u64; 6]) -> Gate {
    let mut gate = filled(limits);
    assert_eq!(say(&mut gate, "R R1 ABCD"), "R R1 P 0 0");
    gate
}

/// Document 02, order 1, on every choice of metrics that fail: one millionth above their
/// limits, the others equal to theirs. The first that fails is given.
#[test]
fn the_first_metric_above_its_limit() {
    for failing in 0..64 {
        let mut limits = METRICS;
        for (place, limit) in limits.iter_mut().enumerate() {
            *limit -= failing >> place & 1;
        }
        let answer = match (0..6).find(|place| failing >> place & 1 == 1) {
            Some(first) => format!("R {} 0", 31 + first),
            None => "P 0 1".to_string(),
        };
        for request in TOO_MUCH {
            let answered = say(&mut traded(limits), request);
            assert_eq!(answered, format!("{} {answer}", &request[..4]), "{failing:06b}");
        }
    }
}

/// Each metric alone: equal to its limit, then one millionth above it.
#[test]
fn each_metric_alone() {
    for place in 0..6 {
        for less in [0, 1] {
            let mut limits = [CEILING; 6];
            limits[place] = METRICS[place] - less;
            let answer = if less == 0 { "P 0 1".into() } else { format!("R {} 0", 31 + place) };
            for request in TOO_MUCH {
                let answered = say(&mut traded(limits), request);
                assert_eq!(answered, format!("{} {answer}", &request[..4]));
                // A fill that passes a trade limit has blocked the group.
                if place < 2 && less == 1 {
                    let blocked = format!("{} R 10 0", &request[..4]);
                    assert_eq!(say(&mut filled(limits), request), blocked);
                }
            }
        }
    }
}

/// What was refused stays refused with its number when its limit has room, and when another
/// metric would fail first.
#[test]
fn which_limit_is_remembered() {
    for (place, metric) in METRICS.into_iter().enumerate() {
        let mut limits = [CEILING; 6];
        limits[place] = metric - 1;
        for request in TOO_MUCH {
            let mut gate = traded(limits);
            let refused = format!("{} R {} 0", &request[..4], 31 + place);
            assert_eq!(say(&mut gate, request), refused);
            let again = request.replacen("T3", "T4", 1);
            match place {
                // Gross trade never falls.
                0 => assert_eq!(say(&mut gate, &again), refused.replace("T3", "T4")),
                // 1,000 more sold, or a share less open to buy: each is enough.
                _ => {
                    let room = if place == 1 { "F 3 ABCD T2 1 1000" } else { "D 3 ABCD T1 1" };
                    assert!(say(&mut gate, room).ends_with(" K 0 0"));
                    assert_eq!(say(&mut gate, request), refused);
                    assert_eq!(say(&mut gate, &again), format!("{} P 0 1", &again[..4]));
                }
            }
            assert_eq!(say(&mut gate, request), refused);
            let differs = request.replace("10000", "10100");
            assert_eq!(say(&mut gate, &differs), format!("{} R 6 0", &request[..4]));
        }
    }
    // Net open is refused first; then a fill brings gross trade above its limit.
    let mut limits = [CEILING; 6];
    (limits[0], limits[3]) = (METRICS[0], METRICS[3] - 1);
    for request in TOO_MUCH {
        let mut gate = traded(limits);
        let refused = format!("{} R 34 0", &request[..4]);
        assert_eq!(say(&mut gate, request), refused);
        assert_eq!(say(&mut gate, "F 3 ABCD T1 1 1"), "F 3 K 0 0");
        assert_eq!(say(&mut gate, "N T4 ABCD 7 B 1 100"), "N T4 R 10 0");
        assert_eq!(say(&mut gate, "R R2 ABCD"), "R R2 P 0 0");
        assert_eq!(say(&mut gate, "N T5 ABCD 7 B 1 100"), "N T5 R 31 0");
        assert_eq!(say(&mut gate, request), refused);
    }
}

#[test]
fn price_range_and_ticks() {
    for (price, number) in [
        (1u64, 13),
        (99, 13),
        (100, 0),
        (150, 13),
        (999_900, 0),
        (999_999, 13),
        (1_000_000, 0),
        (1_000_100, 13),
        (999_999_990_000, 0),
        (999_999_999_999, 13),
    ] {
        let (outcome, sent) = if number == 0 { ("P", 1) } else { ("R", 0) };
        let answer = say(&mut open(), &format!("N T1 ABCD 7 B 1 {price}"));
        assert_eq!(answer, format!("N T1 {outcome} {number} {sent}"), "{price}");
    }
}

#[test]
fn every_row_of_price_protection() {
    // Offer, the first buy price that is refused, and its tick.
    for (offer, refused, tick) in [
        (100_000, 250_000, 100),
        (5_000_000, 5_500_000, 10_000),
        (1_000_000, 1_150_000, 10_000),
        (20_000_000, 22_000_000, 10_000),
        (80_000_000, 88_000_000, 10_000),
        (300_000_000, 315_000_000, 10_000),
        (1_000_000_000, 1_030_000_000, 10_000),
    ] {
        let mut gate = quoted(0, offer);
        let at = say(&mut gate, &format!("N T1 ABCD 7 B 1 {refused}"));
        let below = say(&mut gate, &format!("N T2 ABCD 7 B 1 {}", refused - tick));
        assert_eq!([at.as_str(), below.as_str()], ["N T1 R 14 0", "N T2 P 0 1"], "{offer}");
    }
}

#[test]
fn setup_numbers() {
    let mut gate = Gate::new(0);
    for number in 0..64 {
        let group = FREE.replace("ABCD", &format!("M{number:03}"));
        assert_eq!(say(&mut gate, &group), format!("G M{number:03} P 0 0"));
    }
    assert_eq!(say(&mut gate, &FREE.replace("ABCD", "M063")), "G M063 R 3 0");
    assert_eq!(say(&mut gate, FREE), "G ABCD R 4 0");
    for number in 1..=256 {
        assert_eq!(say(&mut gate, &format!("S {number}")), format!("S {number} P 0 0"));
    }
    assert_eq!(say(&mut gate, "S 1"), "S 1 R 3 0");
    assert_eq!(say(&mut gate, "S 257"), "S 257 R 4 0");
    for text in ["Q 1 1 0 0", "N T1 M000 1 B 1 100", "H 1 M000 T1", "R T1 M000"] {
        assert!(say(&mut gate, text).ends_with(" R 2 0"));
    }
    assert_eq!(say(&mut gate, "O"), "O - P 0 0");
    assert_eq!(say(&mut gate, "O"), "O - R 2 0");
    assert_eq!(say(&mut gate, "S 1"), "S 1 R 2 0");
    assert_eq!(say(&mut gate, FREE), "G ABCD R 2 0");
    assert_eq!(say(&mut gate, "B T1 ABCD"), "B T1 R 5 0");
    assert_eq!(say(&mut gate, "B T1 M000"), "B T1 R 7 0");
    assert_eq!(say(&mut gate, "Q 1 1 0 0"), "Q 1 K 0 0");
}

#[test]
fn order_of_checks_in_n() {
    let group = "G ABCD 0 0 0 0 0 0 10 N";
    let mut gate = after(100, &[group, "S 7", "O", "Q 1 7 0 100", "B B1 ABCD"]);
    // Each line breaks every later check as well, down to a limit of 0.
    assert_eq!(say(&mut gate, "N T1 ABCD 8 H 11 999950"), "N T1 R 8 0");
    assert_eq!(say(&mut gate, "N T2 ABCD 7 H 11 999950"), "N T2 R 10 0");
    assert_eq!(say(&mut gate, "R B2 ABCD"), "R B2 P 0 0");
    assert_eq!(say(&mut gate, "N T3 ABCD 7 E 11 999950"), "N T3 R 11 0");
    assert_eq!(say(&mut gate, "N T4 ABCD 7 B 11 999950"), "N T4 R 12 0");
    assert_eq!(say(&mut gate, "N T5 ABCD 7 B 10 999950"), "N T5 R 13 0");
    assert_eq!(say(&mut gate, "N T6 ABCD 7 B 10 999900"), "N T6 R 14 0");
    assert_eq!(say(&mut gate, "N T7 ABCD 7 B 10 100"), "N T7 R 33 0");
    assert_eq!(say(&mut gate, "N T2 ABCD 7 H 11 999950"), "N T2 R 10 0");
    assert_eq!(say(&mut gate, "N T2 ABCD 7 S 11 999950"), "N T2 R 6 0");
}

#[test]
fn order_of_checks_in_m_and_c() {
    let group = "G ABCD 1000000000 1000000000 1000000 1000000 1000000000 1000000000 10 Y";
    let mut gate =
        after(100, &[group, FREE_TWO, "S 7", "O", "N T1 ABCD 7 B 10 10000", "F 1 ABCD T1 5 100"]);
    assert_eq!(say(&mut gate, "N T2 ABCD 7 B 11 10000"), "N T2 R 12 0");
    assert_eq!(say(&mut gate, "M M1 ABCD T2 11 1"), "M M1 R 9 0");
    assert_eq!(say(&mut gate, "M M2 WXYZ T1 11 1"), "M M2 R 9 0");
    assert_eq!(say(&mut gate, "M M3 ABCD M3 11 1"), "M M3 R 9 0");
    assert_eq!(say(&mut gate, "C C1 ABCD T1"), "C C1 P 0 1");
    assert_eq!(say(&mut gate, "C C2 ABCD T1"), "C C2 R 17 0");
    assert_eq!(say(&mut gate, "B B1 ABCD"), "B B1 P 0 0");
    assert_eq!(say(&mut gate, "M M4 ABCD T1 11 1"), "M M4 R 17 0");
    assert_eq!(say(&mut gate, "H 2 ABCD T1"), "H 2 K 0 0");
    assert_eq!(say(&mut gate, "C C1 ABCD T1"), "C C1 P 0 0");
    assert_eq!(say(&mut gate, "M M4 ABCD T1 11 1"), "M M4 R 17 0");
    assert_eq!(say(&mut gate, "M M5 ABCD T1 11 1"), "M M5 R 10 0");
    assert_eq!(say(&mut gate, "R B2 ABCD"), "R B2 P 0 0");
    assert_eq!(say(&mut gate, "Q 3 7 0 100"), "Q 3 K 0 0");
    assert_eq!(say(&mut gate, "M M6 ABCD T1 11 1"), "M M6 R 12 0");
    assert_eq!(say(&mut gate, "M M7 ABCD T1 5 1"), "M M7 R 16 0");
    assert_eq!(say(&mut gate, "M M8 ABCD T1 6 1"), "M M8 R 13 0");
    assert_eq!(say(&mut gate, "M M9 ABCD T1 6 999900"), "M M9 R 14 0");
    assert_eq!(say(&mut gate, "Q 4 7 0 0"), "Q 4 K 0 0");
    assert_eq!(say(&mut gate, "M MA ABCD T1 7 500100"), "M MA R 33 0");
    assert_eq!(say(&mut gate, "M MB ABCD T1 7 500000"), "M MB P 0 1");
    assert_eq!(close(&gate, 0), "E ABCD 500 0 1000000 0 N");
    assert_eq!(say(&mut gate, "B B3 ABCD"), "B B3 P 0 0");
    assert_eq!(say(&mut gate, "C C3 ABCD T1"), "C C3 P 0 1");
    assert_eq!(close(&gate, 0), "E ABCD 500 0 1000000 0 Y");
}

const FREE_TWO: &str = "G WXYZ 4000000000000000000 4000000000000000000 4000000000000000000 \
                        4000000000000000000 4000000000000000000 4000000000000000000 1000000 Y";

#[test]
fn notices() {
    let mut gate = after(10, &[FREE, "S 7", "O", "N T1 ABCD 7 B 100 10000"]);
    assert_eq!(say(&mut gate, "Q 2 7 1 1"), "Q 2 R 18 0");
    assert_eq!(say(&mut gate, "Q 1 8 1 1"), "Q 1 A 8 0");
    assert_eq!(say(&mut gate, "Q 1 7 1 1"), "Q 1 S 0 0");
    assert_eq!(say(&mut gate, "F 2 NOPE T1 1 1"), "F 2 A 5 0");
    assert_eq!(say(&mut gate, "F 3 ABCD T2 1 1"), "F 3 A 9 0");
    assert_eq!(say(&mut gate, "F 4 ABCD T1 101 1"), "F 4 A 19 0");
    assert_eq!(say(&mut gate, "D 5 ABCD T1 101"), "D 5 A 19 0");
    assert_eq!(say(&mut gate, "D 6 NOPE T1 1"), "D 6 A 5 0");
    assert_eq!(say(&mut gate, "D 7 ABCD T2 1"), "D 7 A 9 0");
    assert_eq!(say(&mut gate, "H 8 NOPE T1"), "H 8 A 5 0");
    assert_eq!(say(&mut gate, "H 9 ABCD T2"), "H 9 A 9 0");
    assert_eq!(say(&mut gate, "H 10 ABCD T1"), "H 10 K 0 0");
    assert_eq!(close(&gate, 0), "E ABCD 0 0 1000000 0 N");
    assert_eq!(say(&mut gate, "F 11 ABCD T1 100 1"), "F 11 K 0 0");
    assert_eq!(say(&mut gate, "F 12 ABCD T1 1 1"), "F 12 A 9 0");
    assert_eq!(say(&mut gate, "H 13 ABCD T1"), "H 13 A 9 0");
    assert_eq!(close(&gate, 0), "E ABCD 100 0 0 0 N");
}

#[test]
fn fills_at_the_ceiling() {
    // Four fills of nearly 10^18 leave room for 4,000,000 millionths and no more.
    let mut gate = open();
    for n in 1..=4 {
        assert_eq!(
            say(&mut gate, &format!("N T{n} ABCD 7 S 1000000 100")),
            format!("N T{n} P 0 1")
        );
        let fill = format!("F {n} ABCD T{n} 1000000 999999999999");
        assert_eq!(say(&mut gate, &fill), format!("F {n} K 0 0"));
    }
    assert_eq!(close(&gate, 0), "E ABCD 0 3999999999996000000 0 0 N");
    assert_eq!(say(&mut gate, "N T5 ABCD 7 B 2 1000000"), "N T5 P 0 1");
    assert_eq!(say(&mut gate, "N T6 ABCD 7 B 1 2010000"), "N T6 R 35 0");
    assert_eq!(say(&mut gate, "F 5 ABCD T5 1 3000001"), "F 5 A 20 0");
    assert_eq!(say(&mut gate, "F 5 ABCD T5 1 3000000"), "F 5 S 0 0");
    assert_eq!(say(&mut gate, "F 6 ABCD T5 1 3000000"), "F 6 K 0 0");
    assert_eq!(close(&gate, 0), "E ABCD 3000000 3999999999996000000 1000000 0 N");
}

#[test]
fn a_fill_or_reduction_sets_the_block() {
    let group = "G ABCD 1000 4000000000000000000 1000000 1000000 1000000 1000000 10 Y";
    let mut gate = after(20, &[group, "S 7", "O", "N T1 ABCD 7 B 10 10000"]);
    assert_eq!(say(&mut gate, "F 1 ABCD T1 1 1000"), "F 1 K 0 0");
    assert_eq!(close(&gate, 0), "E ABCD 1000 0 90000 0 N");
    assert_eq!(say(&mut gate, "F 2 ABCD T1 1 1"), "F 2 K 0 0");
    assert_eq!(close(&gate, 0), "E ABCD 1001 0 80000 0 Y");
    assert_eq!(say(&mut gate, "R R1 ABCD"), "R R1 P 0 0");
    assert_eq!(say(&mut gate, "H 3 ABCD T1"), "H 3 K 0 0");
    assert_eq!(close(&gate, 0), "E ABCD 1001 0 80000 0 N");
    assert_eq!(say(&mut gate, "N T2 ABCD 7 B 1 100"), "N T2 R 31 0");
    assert_eq!(say(&mut gate, "D 4 ABCD T1 1"), "D 4 K 0 0");
    assert_eq!(close(&gate, 0), "E ABCD 1001 0 70000 0 Y");
    // A retried R lifts nothing.
    assert_eq!(say(&mut gate, "R R1 ABCD"), "R R1 P 0 0");
    assert_eq!(close(&gate, 0), "E ABCD 1001 0 70000 0 Y");
}

#[test]
fn known_identifiers_are_per_mpid_and_compared_in_every_field() {
    let mut gate = after(4, &[FREE, FREE_TWO, "S 7", "O", "N T1 ABCD 7 B 100 10000"]);
    for differs in [
        "N T1 ABCD 8 B 100 10000",
        "N T1 ABCD 7 S 100 10000",
        "N T1 ABCD 7 B 101 10000",
        "N T1 ABCD 7 B 100 10100",
        "M T1 ABCD T1 100 10000",
        "C T1 ABCD T1",
        "B T1 ABCD",
        "R T1 ABCD",
    ] {
        assert!(say(&mut gate, differs).ends_with(" R 6 0"), "{differs}");
    }
    assert_eq!(say(&mut gate, "N T1 WXYZ 7 B 100 10000"), "N T1 P 0 1");
    assert_eq!(say(&mut gate, "B T2 ABCD"), "B T2 P 0 0");
    assert_eq!(say(&mut gate, "R T2 ABCD"), "R T2 R 6 0");
    assert_eq!(say(&mut gate, "C T3 ABCD T2"), "C T3 R 9 0");
    assert_eq!((gate.places_taken(), gate.room()), (4, 4));
    assert_eq!(say(&mut gate, "C T4 ABCD T1"), "C T4 R 7 0");
    assert_eq!(say(&mut gate, "C T3 ABCD T2"), "C T3 R 9 0");
    assert_eq!(say(&mut gate, "C T3 ABCD T1"), "C T3 R 6 0");
}

#[test]
fn answers_say_what_the_line_says() {
    let mut gate = open();
    let mut out = Vec::new();
    let answer = gate.record(&common::line("N T1 ABCD 7 B 1 100"), &mut out);
    assert_eq!(answer, Answer { outcome: b'P', number: 0, sent: true });
    let answer = gate.record(b"\n", &mut out);
    assert_eq!(answer, Answer { outcome: b'R', number: 1, sent: false });
    assert_eq!(out, b"N\tT1\tP\t0\t1\n?\t-\tR\t1\t0\n");
    assert!(!gate.closing(1, &mut out) && !gate.closing(usize::MAX, &mut out));
}
