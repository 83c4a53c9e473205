//! "The day's lines": each line has one reading and each record one line.

mod common;

use common::{line, Random};
use peer::line::{read, write, Ident, Mpid};

fn reads(text: &str) -> bool {
    read(&line(text)).is_some()
}

const FINE: [&str; 16] = [
    "G ABCD 0 1 2 3 4 4000000000000000000 1000000 Y",
    "G 09AZ 0 0 0 0 0 0 1 N",
    "S 1",
    "S 4294967295",
    "O",
    "N T1 ABCD 1 B 1 1",
    "N !~{}abcdefghijklmnop ABCD 4294967295 E 1000000 999999999999",
    "M x ABCD y 1 1",
    "C x ABCD y",
    "B x ABCD",
    "R x ABCD",
    "Q 1 1 0 0",
    "Q 4294967295 4294967295 999999999999 999999999999",
    "F 1 ABCD x 1000000 999999999999",
    "D 1 ABCD x 1",
    "H 1 ABCD x",
];

#[test]
fn read_and_write_are_each_others_inverse() {
    for text in FINE {
        let line = line(text);
        let record = read(&line).unwrap_or_else(|| panic!("{text}"));
        let mut out = Vec::new();
        write(&record, &mut out);
        assert_eq!(out, line);
    }
}

/// One byte changed, put in or left out: what still reads is written back the same.
#[test]
fn no_line_has_a_second_form() {
    let mut random = Random::new(3);
    let bytes = b"\t\n\r 0123456789ABNSHEYGOMCRQFD|~!\x7f\x80\xff\x00";
    for _ in 0..200_000 {
        let mut line = line(random.pick(&FINE));
        let at = random.below(line.len() as u64) as usize;
        match random.below(3) {
            0 => line[at] = random.pick(bytes),
            1 => line.insert(at, random.pick(bytes)),
            _ => drop(line.remove(at)),
        }
        if let Some(record) = read(&line) {
            let mut out = Vec::new();
            write(&record, &mut out);
            assert_eq!(out, line);
        }
    }
}

#[test]
fn broken_forms() {
    for text in [
        "",
        " ",
        "X",
        "O ",
        " O",
        "o",
        "O x",
        "S",
        "S ",
        "S 0",
        "S 01",
        "S +1",
        "S -1",
        "S 1 ",
        "S  1",
        "S 4294967296",
        "S 18446744073709551617",
        "S 10000000000000000000000000000000000000001",
        "G ABCD 0 0 0 0 0 4000000000000000001 1 Y",
        "G ABCD 0 0 0 0 0 0 0 Y",
        "G ABCD 0 0 0 0 0 0 1000001 Y",
        "G ABCD 0 0 0 0 0 0 1 y",
        "G ABCD 0 0 0 0 0 00 1 Y",
        "G ABCD 0 0 0 0 0 1 Y",
        "G ABCd 0 0 0 0 0 0 1 Y",
        "G ABC 0 0 0 0 0 0 1 Y",
        "G ABCDE 0 0 0 0 0 0 1 Y",
        "N 123456789012345678901 ABCD 1 B 1 1",
        "N a|b ABCD 1 B 1 1",
        "N |b ABCD 1 B 1 1",
        "N a\x7f ABCD 1 B 1 1",
        "N é ABCD 1 B 1 1",
        "N  ABCD 1 B 1 1",
        "N x ABCD 1 X 1 1",
        "N x ABCD 1 BB 1 1",
        "N x ABCD 1 B 0 1",
        "N x ABCD 1 B 1000001 1",
        "N x ABCD 1 B 1 0",
        "N x ABCD 1 B 1 1000000000000",
        "N x ABCD 0 B 1 1",
        "M x ABCD 1 1",
        "Q 0 1 1 1",
        "Q 1 1 1 1000000000000",
        "F 1 ABCD x 1 0",
        "D 1 ABCD x 0",
        "H 0 ABCD x",
        "E ABCD",
    ] {
        assert!(!reads(text), "{text:?}");
    }
    for raw in [
        &b""[..],
        b"\n",
        b"O",
        b"O\n\n",
        b"O\r\n",
        b"\nO\n",
        b"S\t1\nS\t1\n",
        b"S\t1",
        b"O\t\n",
        b"C\tx\tABCD\ty\xff\n",
    ] {
        assert!(read(raw).is_none(), "{raw:?}");
    }
    let mut long = vec![b'1'; 400];
    long.push(b'\n');
    assert!(read(&long).is_none());
}

#[test]
fn identifiers_and_their_words() {
    for text in ["a", "12345678", "123456789", "1234567890123456", "12345678901234567890"] {
        let id = Ident::new(text.as_bytes()).unwrap();
        assert_eq!(id.bytes(), text.as_bytes());
        assert_eq!(Ident::from_words(id.words()), Some(id));
        let mut packed = [0; 24];
        packed[..text.len()].copy_from_slice(text.as_bytes());
        for (word, eight) in id.words().iter().zip(packed.chunks(8)) {
            assert_eq!(word.to_le_bytes(), eight);
        }
    }
    for text in ["", "123456789012345678901", "1234567890123456789012345", "a b", "a|"] {
        assert_eq!(Ident::new(text.as_bytes()), None);
    }
    let a = u64::from(b'a');
    for words in [[0; 3], [0, a, 0], [a, a, 0], [a, 0, a], [a | a << 16, 0, 0], [u64::MAX; 3]] {
        assert_eq!(Ident::from_words(words), None);
    }
    // Twenty bytes and one more in the last word.
    let full = Ident::new(b"12345678901234567890").unwrap().words();
    assert_eq!(Ident::from_words([full[0], full[1], full[2] | a << 32]), None);

    // Every byte, in every place of a word.
    for byte in 0..=255u8 {
        let fine = (33..=126).contains(&byte) && byte != b'|';
        for at in 0..20 {
            let mut bytes = [b'x'; 20];
            bytes[at] = byte;
            assert_eq!(Ident::new(&bytes).is_some(), fine);
        }
        let fine = byte.is_ascii_digit() || byte.is_ascii_uppercase();
        assert_eq!(Mpid::new([b'A', byte, b'A', b'0']).is_some(), fine);
    }
    let mpid = Mpid::new(*b"ABCD").unwrap();
    assert_eq!(mpid.word(), 0x4443_4241);
    assert_eq!(Mpid::from_word(mpid.word()), Some(mpid));
    assert_eq!(Mpid::from_word(mpid.word() | 1 << 32), None);
}

/// Runs of bytes at the edges of the form, against the form said byte by byte.
#[test]
fn identifiers_at_the_edges() {
    let mut random = Random::new(11);
    let edges = b"aZ09~!{}|}|\x1f\x20\x21\x7e\x7f\x80\x81\xa1\xfc\xfe\xff\x00\t\n";
    for round in 0..300_000 {
        // Mostly fine bytes, so that the long ones have a chance.
        let stock = if round % 3 == 0 { &edges[..] } else { &edges[..8] };
        let mut bytes: Vec<u8> = (0..random.below(26)).map(|_| random.pick(stock)).collect();
        if round % 3 == 1 && !bytes.is_empty() {
            let at = random.below(bytes.len() as u64) as usize;
            bytes[at] = random.pick(edges);
        }
        let fine = |&b: &u8| (33..=126).contains(&b) && b != b'|';
        let form = (1..=20).contains(&bytes.len()) && bytes.iter().all(fine);
        assert_eq!(Ident::new(&bytes).is_some(), form, "{bytes:?}");

        bytes.resize(24, 0);
        let words: Vec<u64> =
            bytes.chunks(8).map(|eight| u64::from_le_bytes(eight.try_into().unwrap())).collect();
        let length = bytes.iter().position(|&b| b == 0).unwrap_or(24);
        let packed = (1..=20).contains(&length)
            && bytes[..length].iter().all(fine)
            && bytes[length..].iter().all(|&b| b == 0);
        let id = Ident::from_words([words[0], words[1], words[2]]);
        assert_eq!(id.is_some(), packed, "{bytes:?}");
        assert!(id.is_none_or(|id| id.bytes() == &bytes[..length]));
    }
}
