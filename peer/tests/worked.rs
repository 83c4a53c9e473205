//! The messages that were worked out by hand, as the program `messages` runs them, by the peer.

use std::fs;

use peer::message::{self, WORDS};

fn bytes(hex: &str) -> Vec<u8> {
    let digits = hex.trim_start_matches('-');
    (0..digits.len())
        .step_by(2)
        .map(|i| u8::from_str_radix(&digits[i..i + 2], 16).unwrap())
        .collect()
}

fn hex(bytes: &[u8]) -> String {
    match bytes {
        [] => "-".into(),
        bytes => bytes.iter().map(|b| format!("{b:02x}")).collect(),
    }
}

fn wrote(size: &str, house: &str, line: &str) -> String {
    let mut to = vec![0xaa; size.parse().unwrap()];
    let number = message::write(&bytes(line), &bytes(house), &mut to);
    format!("write {} {}", -number.min(0), hex(&to))
}

fn read(text: &str) -> String {
    let message = bytes(text);
    let mut words = [0; WORDS];
    let number = message::read(&message, &mut words);
    if number < 0 {
        return format!("read {}", -number);
    }
    let [from, to, mpid_from, mpid_to, symbol, side, size, price] = words;
    let part =
        |from: u64, to: u64| std::str::from_utf8(&message[from as usize..to as usize]).unwrap();
    let (id, mpid, side) = (part(from, to), part(mpid_from, mpid_to), side as u8 as char);
    let line = format!("N\t{id}\t{mpid}\t{symbol}\t{side}\t{size}\t{price}\n");
    let places = format!("{from} {to} {mpid_from} {mpid_to}");
    format!("read 0 {places} {symbol} {side} {size} {price} {}", hex(line.as_bytes()))
}

#[test]
fn worked_out_by_hand() {
    let vectors = fs::read_to_string("../crates/messages/stdin").unwrap();
    let expected = fs::read_to_string("../crates/messages/stdout").unwrap();
    assert_eq!(vectors.lines().count(), expected.lines().count());
    for (vector, expected) in vectors.lines().zip(expected.lines()) {
        let answer = match vector.split(' ').collect::<Vec<_>>()[..] {
            ["write", size, house, line] => wrote(size, house, line),
            ["read", message] => read(message),
            _ => panic!("{vector}"),
        };
        assert_eq!(answer, expected, "{vector}");
    }
}
