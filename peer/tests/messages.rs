//! The exchange's order message: the table, every refusal, and both round trips (document 02,
//! order 2).

mod common;

use common::{line, Random};
use peer::message::{self, faults, Fault, Field, Type, BYTES, ROWS, WORDS};

const ORDER: &str = "N T1 ABCD 7 B 100 10000000";

/// A house message in which every byte after the type is told apart from its neighbours.
fn house() -> Vec<u8> {
    let mut house: Vec<u8> = (0..BYTES).map(|at| 0x80 | at as u8).collect();
    house[..2].copy_from_slice(b"N1");
    house
}

/// The message of a line, with the house message above.
fn written(text: &str) -> Vec<u8> {
    let mut to = vec![0x55; BYTES];
    assert_eq!(message::write(&line(text), &house(), &mut to), 131, "{text}");
    to
}

/// The words of a message.
fn words(message: &[u8]) -> [u64; WORDS] {
    let mut to = [!0; WORDS];
    assert_eq!(message::read(message, &mut to), 8);
    to
}

/// The line that the words of a message tell, with spaces for tabs and without the LF.
fn told(message: &[u8]) -> String {
    let [from, to, mpid_from, mpid_to, symbol, side, size, price] = words(message);
    let text = |from, to| std::str::from_utf8(&message[from as usize..to as usize]).unwrap();
    let (id, mpid) = (text(from, to), text(mpid_from, mpid_to));
    format!("N {id} {mpid} {symbol} {} {size} {price}", side as u8 as char)
}

fn refused(message: &[u8], number: i64) {
    let mut to = [0x1234; WORDS];
    assert_eq!(message::read(message, &mut to), -number);
    assert_eq!(to, [0x1234; WORDS]);
}

/// A good message with something in place of a field.
fn with(field: Field, bytes: &[u8]) -> Vec<u8> {
    let mut message = written(ORDER);
    message[field.place()].copy_from_slice(bytes);
    message
}

/// Only this is wrong with a message.
fn alone(message: &[u8], fault: Fault) {
    assert_eq!(faults(message), [fault]);
    refused(message, 42);
}

#[test]
fn the_table() {
    use Type::{Alphanumeric, BinaryU, Price6S, Price6U, String};
    let expected = [
        ("Message Type", 0, 2, Alphanumeric),
        ("Reserved", 2, 8, BinaryU),
        ("MPID", 10, 4, Alphanumeric),
        ("Client Order ID", 14, 20, String),
        ("Symbol ID", 34, 4, BinaryU),
        ("Price", 38, 8, Price6U),
        ("Size", 46, 4, BinaryU),
        ("Order Instructions", 50, 2, BinaryU),
        ("Time In Force(TIF)", 52, 1, Alphanumeric),
        ("Order Type", 53, 1, Alphanumeric),
        ("Price Sliding and Re-price Frequency", 54, 1, Alphanumeric),
        ("Self-Trade Protection", 55, 1, BinaryU),
        ("Self-Trade Protection Group", 56, 1, Alphanumeric),
        ("Routing", 57, 1, BinaryU),
        ("Trading Collar Dollar Value", 58, 8, Price6S),
        ("Capacity", 66, 1, Alphanumeric),
        ("Account", 67, 16, String),
        ("Clearing Account", 83, 4, String),
        ("MinQty", 87, 4, BinaryU),
        ("MaxFloor Qty", 91, 4, BinaryU),
        ("Display Range Qty", 95, 4, BinaryU),
        ("Peg Offset", 99, 8, Price6S),
        ("Locate Account", 107, 4, String),
        ("Purge Group", 111, 1, Alphanumeric),
        ("Reserved", 112, 19, BinaryU),
    ];
    assert_eq!(ROWS.len(), expected.len());
    for (i, (row, (name, from, length, data))) in ROWS.iter().zip(expected).enumerate() {
        assert_eq!((row.name, row.length, row.data), (name, length, data));
        assert_eq!((row.field as usize, row.field.row()), (i, *row));
        assert_eq!(row.field.place(), from..from + length);
    }
    assert_eq!(BYTES, 131);
}

/// One message, byte for byte.
#[test]
fn every_byte_of_a_message() {
    let mut expected = house();
    expected[10..14].copy_from_slice(b"ABCD");
    expected[14..34].copy_from_slice(b"T1\0\0\0\0\0\0\0\0\0\0\0\0\0\0\0\0\0\0");
    expected[34..38].copy_from_slice(&[7, 0, 0, 0]);
    expected[38..46].copy_from_slice(&[0x80, 0x96, 0x98, 0, 0, 0, 0, 0]);
    expected[46..50].copy_from_slice(&[100, 0, 0, 0]);
    // The house message has 0xB2 and 0xB3 there; a buy clears three bits.
    expected[50..52].copy_from_slice(&[0xB0, 0xB3]);
    expected[87..107].fill(0);
    expected[111] = b' ';
    assert_eq!(written(ORDER), expected);
    assert_eq!(words(&expected), [14, 16, 10, 14, 7, 66, 100, 10_000_000]);
    assert_eq!(told(&expected), ORDER);
}

#[test]
fn each_side() {
    for (side, bits) in [("B", 0b000), ("S", 0b011), ("H", 0b101), ("E", 0b111)] {
        for others in [0, 0x1234, 0x5555, 0xAAAA, 0xFFFF_u16] {
            let mut house = house();
            house[50..52].copy_from_slice(&others.to_le_bytes());
            let mut to = [0; BYTES];
            let text = ORDER.replace(" B ", &format!(" {side} "));
            assert_eq!(message::write(&line(&text), &house, &mut to), 131);
            assert_eq!(to[50..52], (others & !7 | bits).to_le_bytes());
            assert_eq!(told(&to), text);
        }
    }
    // A buy with an indicator, a sell without one.
    for bits in [0b001, 0b010, 0b100, 0b110] {
        for others in [0, 0xFFF8_u16] {
            let message = with(Field::OrderInstructions, &(others | bits).to_le_bytes());
            alone(&message, Fault::Form(Field::OrderInstructions));
        }
    }
}

#[test]
fn fields_at_their_ends() {
    for text in [
        "N T ABCD 7 B 100 10000000",
        "N 12345678901234567890 ABCD 7 B 100 10000000",
        "N !~{}abcdefghijklmno~ 0Z9A 7 B 100 10000000",
        "N T1 ABCD 1 B 1 1",
        "N T1 ABCD 4294967295 E 1000000 999999999999",
    ] {
        let message = written(text);
        assert_eq!(told(&message), text);
        assert_eq!(faults(&message), []);
    }
    assert_eq!(words(&written("N T ABCD 1 S 1 1"))[..2], [14, 15]);
    assert_eq!(words(&written("N 12345678901234567890 ABCD 1 S 1 1"))[..2], [14, 34]);
    let last = written("N T1 ABCD 4294967295 E 1000000 999999999999");
    assert_eq!(last[34..38], [0xFF; 4]);
    assert_eq!(last[38..46], [0xFF, 0x0F, 0xA5, 0xD4, 0xE8, 0, 0, 0]);
    assert_eq!(last[46..50], [0x40, 0x42, 0x0F, 0]);
}

#[test]
fn numbers_out_of_range() {
    alone(&with(Field::SymbolId, &[0; 4]), Fault::Form(Field::SymbolId));
    for size in [0, 1_000_001, 0x8000_0000, u32::MAX] {
        alone(&with(Field::Size, &size.to_le_bytes()), Fault::Form(Field::Size));
    }
    for price in [0, 1_000_000_000_000, (1 << 40) + 100, 1 << 63, u64::MAX] {
        alone(&with(Field::Price, &price.to_le_bytes()), Fault::Form(Field::Price));
    }
}

#[test]
fn fields_that_are_always_the_same() {
    for field in message::ZEROS {
        for at in 0..field.row().length {
            for byte in [1, b' ', 0x80, 0xFF] {
                let mut bytes = vec![0; field.row().length];
                bytes[at] = byte;
                alone(&with(field, &bytes), Fault::Form(field));
            }
        }
    }
    for byte in (0..=255).filter(|&byte| byte != b' ') {
        alone(&with(Field::PurgeGroup, &[byte]), Fault::Form(Field::PurgeGroup));
    }
}

#[test]
fn identifiers_and_what_comes_after_them() {
    let mut field = [0; 20];
    alone(&with(Field::ClientOrderId, &field), Fault::Form(Field::ClientOrderId));
    field[1] = b'T';
    let message = with(Field::ClientOrderId, &field);
    assert_eq!(faults(&message), [Fault::Form(Field::ClientOrderId), Fault::Padding]);
    refused(&message, 42);
    for length in 1..20 {
        for at in length + 1..20 {
            for byte in [1, b' ', b'T', 0xFF] {
                let mut field = [0; 20];
                field[..length].fill(b'T');
                field[at] = byte;
                alone(&with(Field::ClientOrderId, &field), Fault::Padding);
            }
        }
    }
    for byte in 1..=255u8 {
        let fine = (33..=126).contains(&byte) && byte != b'|';
        for at in 0..20 {
            let mut field = [b'T'; 20];
            field[at] = byte;
            let message = with(Field::ClientOrderId, &field);
            match fine {
                true => assert_eq!(words(&message)[..2], [14, 34]),
                false => alone(&message, Fault::Form(Field::ClientOrderId)),
            }
        }
    }
    for byte in 0..=255u8 {
        let message = with(Field::Mpid, &[b'A', b'0', byte, b'Z']);
        match byte.is_ascii_uppercase() || byte.is_ascii_digit() {
            true => assert_eq!(words(&message)[2..4], [10, 14]),
            false => alone(&message, Fault::Form(Field::Mpid)),
        }
    }
}

/// Every byte of a message with every value, by the places alone.
#[test]
fn every_byte_with_every_value() {
    let message = written("N T1 ABCD 7 S 100 10000000");
    for at in 0..BYTES {
        for byte in 0..=255 {
            let mut changed = message.clone();
            changed[at] = byte;
            let fine = match at {
                0 | 1 => byte == message[at],
                10..14 => byte.is_ascii_uppercase() || byte.is_ascii_digit(),
                14 => (33..=126).contains(&byte) && byte != b'|',
                // Another byte, one less or one more.
                15 | 16 => byte == 0 || (33..=126).contains(&byte) && byte != b'|',
                17..34 => byte == 0,
                34 => byte != 0,
                35..38 => true,
                // 10,000,000 with another byte here stays below 10^12.
                38..42 => true,
                42 => byte <= 0xE8,
                43..46 => byte == 0,
                46 => byte != 0,
                47 => true,
                48 => byte <= 0x0F,
                49 => byte == 0,
                50 => [0b000, 0b011, 0b101, 0b111].contains(&(byte & 7)),
                87..107 => byte == 0,
                111 => byte == b' ',
                _ => true,
            };
            let number = if at < 2 { 41 } else { 42 };
            match fine {
                true => assert_eq!(message::read(&changed, &mut [0; 8]), 8, "{at} {byte}"),
                false => refused(&changed, number),
            }
        }
    }
}

#[test]
fn lines_that_are_no_new_order() {
    let mut long = line(ORDER);
    long.splice(2..2, [b'x'; 200]);
    let mut lines: Vec<Vec<u8>> = [
        "",
        "O",
        "S 7",
        "G ABCD 0 0 0 0 0 0 1 N",
        "M T1 ABCD T2 100 10000000",
        "C T1 ABCD T2",
        "B T1 ABCD",
        "R T1 ABCD",
        "Q 1 7 0 0",
        "F 1 ABCD T1 100 10000000",
        "D 1 ABCD T1 100",
        "H 1 ABCD T1",
        "N",
        "N T1 ABCD 7 B 100",
        "N T1 ABCD 7 B 100 10000000 1",
        "N T1 ABCD 7 X 100 10000000",
        "N T1 ABCD 0 B 100 10000000",
        "N T1 ABCD 4294967296 B 100 10000000",
        "N T1 ABCD 7 B 0 10000000",
        "N T1 ABCD 7 B 1000001 10000000",
        "N T1 ABCD 7 B 100 0",
        "N T1 ABCD 7 B 100 1000000000000",
        "N T1 ABCD 7 B 0100 10000000",
        "N T1 ABCd 7 B 100 10000000",
        "N T|1 ABCD 7 B 100 10000000",
        "N 123456789012345678901 ABCD 7 B 100 10000000",
        "n T1 ABCD 7 B 100 10000000",
    ]
    .map(line)
    .to_vec();
    lines.extend([Vec::new(), long, line(ORDER)[..ORDER.len()].to_vec()]);
    lines.push([&line(ORDER)[..], b"\n"].concat());
    for line in lines {
        let mut to = [0x55; BYTES + 1];
        assert_eq!(message::write(&line, &house(), &mut to), -42, "{}", line.escape_ascii());
        assert_eq!(message::write(&line, &house()[1..], &mut to), -41);
        assert_eq!(message::write(&line, &house(), &mut to[..5]), -42);
        assert_eq!(to, [0x55; BYTES + 1]);
    }
}

#[test]
fn the_order_of_refusals() {
    let mut other = house();
    other[1] = b'2';
    let broken = line("N T1 ABCD 7 B 0 1");
    let good = line(ORDER);
    let mut to = [0x55; 130];
    for (line, house, number) in
        [(&broken, &other, 41), (&good, &other, 41), (&broken, &house(), 42), (&good, &house(), 43)]
    {
        assert_eq!(message::write(line, house, &mut to), -number);
    }
    assert_eq!(to, [0x55; 130]);

    let good = written(ORDER);
    let mut broken = good.clone();
    broken[111] = b'A';
    let mut other = broken.clone();
    other[0] = b'n';
    let mut to = [0x55; 7];
    for (message, number) in [(&other, 41), (&broken, 42), (&good, 43)] {
        assert_eq!(message::read(message, &mut to), -number);
    }
    assert_eq!(to, [0x55; 7]);
}

#[test]
fn every_length() {
    let (order, message) = (line(ORDER), written(ORDER));
    for length in 0..=200 {
        let mut house = house();
        house.resize(length, 0xC3);
        let mut read = message.clone();
        read.resize(length, 0);
        let result = message::write(&order, &house, &mut [0; BYTES]);
        assert_eq!(result, if length == 131 { 131 } else { -41 });
        let result = message::read(&read, &mut [0; WORDS]);
        assert_eq!(result, if length == 131 { 8 } else { -41 });

        let mut to = vec![0xA5; length];
        let result = message::write(&order, &self::house(), &mut to);
        if length < 131 {
            assert!(result == -43 && to.iter().all(|&b| b == 0xA5));
        } else {
            assert!(result == 131 && to[..131] == message);
            assert!(to[131..].iter().all(|&b| b == 0xA5));
        }
    }
    for count in 0..=16 {
        let mut to = vec![0xA5; count];
        let result = message::read(&message, &mut to);
        if count < 8 {
            assert!(result == -43 && to.iter().all(|&w| w == 0xA5));
        } else {
            assert!(result == 8 && to[..8] == words(&message));
            assert!(to[8..].iter().all(|&w| w == 0xA5));
        }
    }
}

/// A random N, with spaces for tabs and without the LF.
fn any_order(random: &mut Random) -> String {
    const MPID: &[u8; 36] = b"ABCDEFGHIJKLMNOPQRSTUVWXYZ0123456789";
    let byte = |random: &mut Random| match 33 + random.below(93) as u8 {
        b'|' => '~',
        byte => byte as char,
    };
    let id: String = (0..=random.below(20)).map(|_| byte(random)).collect();
    let mpid: String = (0..4).map(|_| random.pick(MPID) as char).collect();
    let side = random.pick(&["B", "S", "H", "E"]);
    let mut number = |most: u64| match random.below(8) {
        0 => 1,
        1 => most,
        _ => 1 + (random.word() >> random.below(64)) % most,
    };
    let [symbol, size, price] = [4_294_967_295, 1_000_000, 999_999_999_999].map(&mut number);
    format!("N {id} {mpid} {symbol} {side} {size} {price}")
}

fn any_house(random: &mut Random) -> Vec<u8> {
    let mut house: Vec<u8> = (0..BYTES).map(|_| random.word() as u8).collect();
    house[..2].copy_from_slice(b"N1");
    house
}

#[test]
fn written_then_read() {
    let mut random = Random::new(2);
    for _ in 0..100_000 {
        let text = any_order(&mut random);
        let mut message = [0; BYTES];
        assert_eq!(message::write(&line(&text), &any_house(&mut random), &mut message), 131);
        assert_eq!(told(&message), text);
    }
}

/// Whatever reads is written back the same, if its other fields hold the house values.
#[test]
fn read_then_written() {
    let mut random = Random::new(3);
    let (mut good, mut refused) = (0, 0);
    for _ in 0..300_000 {
        let mut message = [0; BYTES];
        let (order, house) = (line(&any_order(&mut random)), any_house(&mut random));
        assert_eq!(message::write(&order, &house, &mut message), 131);
        for _ in 0..random.below(4) {
            let at = 2 + random.below(BYTES as u64 - 2) as usize;
            message[at] = random.pick(&[0, 1, 32, 33, 65, 124, 126, 127, 128, 255]);
        }
        if message::read(&message, &mut [0; WORDS]) != 8 {
            assert!(!faults(&message).is_empty());
            refused += 1;
            continue;
        }
        assert_eq!(faults(&message), []);
        good += 1;
        // The same house values, and anything in what N carries and in what is always the same.
        let mut house = message;
        for at in (10..50).chain(87..107).chain([111]) {
            house[at] = random.word() as u8;
        }
        house[50] = message[50] & !7 | random.below(8) as u8;
        let mut again = [0; BYTES];
        assert_eq!(message::write(&line(&told(&message)), &house, &mut again), 131);
        assert_eq!(again, message);
    }
    assert!(good > 50_000 && refused > 50_000, "{good} {refused}");
}

/// Random bytes: no call fails, and nothing is written where one refuses.
#[test]
fn random_bytes() {
    let mut random = Random::new(4);
    for round in 0..200_000 {
        let length = if round % 2 == 0 { 131 } else { random.below(200) as usize };
        let mut bytes: Vec<u8> = (0..length).map(|_| random.word() as u8).collect();
        if round % 4 < 3 && length >= 2 {
            bytes[..2].copy_from_slice(b"N1");
        }
        let number = if length == 131 && bytes.starts_with(b"N1") { 42 } else { 41 };
        assert_eq!(faults(&bytes).is_empty(), number == 41);
        refused(&bytes, number);
    }
}
