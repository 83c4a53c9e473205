//! Lines that break a form, or nearly do.

use super::rng::Rng;
use super::{CEILING, MOST_NUMBER, MOST_PRICE, MOST_SIZE};

/// Numbers on both sides of the edges of every field, and some that wrap in 32 or 64 bits.
#[rustfmt::skip]
const EDGES: [&str; 30] = [
    "0", "00", "1", "01", "-1", "+1", "1000000", "1000001", "999999999999", "1000000000000",
    "4294967295", "4294967296", "4294967297", "4000000000000000000", "4000000000000000001",
    "9223372036854775807", "9223372036854775808", "18446744073709551615", "18446744073709551616",
    "18446744073709551617", "18446744073709551716", "99999999999999999999",
    "10000000000000000000000000000000", "340282366920938463463374607431768211457",
    "1.0", "1e3", "0x10", "1 ", " 1", "1,000",
];

/// Bytes that an identifier may not have, and some that it may.
const BYTES: [u8; 20] =
    [0, 1, 9, 10, 11, 12, 13, 31, 32, 33, 47, 58, 64, 91, 96, 124, 126, 127, 128, 255];

/// The number fields of a kind, from the second field on: symbols and notices (n), sizes (s),
/// prices (p), quotes (q), limits (l), no number (-).
fn number_fields(kind: Option<&u8>) -> &'static [u8] {
    match kind {
        Some(b'G') => b"-lllllls-",
        Some(b'S') => b"n",
        Some(b'N') => b"--n-sp",
        Some(b'M') => b"---sp",
        Some(b'Q') => b"nnqq",
        Some(b'F') => b"n--sp",
        Some(b'D') => b"n--s",
        Some(b'H') => b"n--",
        _ => b"",
    }
}

/// A number field of the line at the edge of its own range, or one past it.
fn own_edge(rng: &mut Rng, fields: &mut [Vec<u8>]) {
    let forms = number_fields(fields[0].first());
    // Each form about as often.
    let form = rng.pick(b"nspql");
    let numbers: Vec<usize> = (0..forms.len()).filter(|&i| forms[i] == form).collect();
    if numbers.is_empty() {
        return own_letter(rng, fields);
    }
    let i = rng.pick(&numbers);
    let (low, high) = match forms[i] {
        b'n' => (1, MOST_NUMBER),
        b's' => (1, MOST_SIZE),
        b'p' => (1, MOST_PRICE),
        b'q' => (0, MOST_PRICE),
        _ => (0, CEILING),
    };
    let edge = rng.pick(&[low, high, high + 1, high + 1, 0]);
    if let Some(field) = fields.get_mut(i + 1) {
        *field = edge.to_string().into_bytes();
    }
}

/// Another letter in a field of one letter: sides, Y and N, or small ones.
fn own_letter(rng: &mut Rng, fields: &mut [Vec<u8>]) {
    for field in fields.iter_mut().skip(1) {
        if field.len() == 1 && field[0].is_ascii_uppercase() {
            field[0] = rng.pick(b"BSHEYNbsheynCRX0");
        }
    }
}

/// A line made wrong in one way (some ways leave it right).
pub fn damage(rng: &mut Rng, line: &[u8]) -> Vec<u8> {
    let text = line.strip_suffix(b"\n").unwrap_or(line);
    let mut fields: Vec<Vec<u8>> = text.split(|&b| b == b'\t').map(<[u8]>::to_vec).collect();
    let at = rng.index(fields.len());
    let numbers: Vec<usize> =
        (1..fields.len()).filter(|&i| fields[i].iter().all(u8::is_ascii_digit)).collect();
    let number = numbers.get(rng.index(numbers.len())).copied();
    match rng.below(40) {
        // Tabs.
        0 => return remove_byte(rng, line, b'\t'),
        1 => fields.insert(at, Vec::new()),
        2 => fields.insert(0, Vec::new()),
        3 => fields.push(Vec::new()),
        4 => fields[at].clear(),
        5 => fields[at] = fields[at].iter().flat_map(|&b| [b, b'\t']).collect(),
        // Too few or too many fields, or in another order.
        6 => {
            fields.remove(at);
        }
        7 => fields.push(rng.pick(&[&b"0"[..], b"1", b"X", b"N", b"Y"]).to_vec()),
        8 => {
            let other = rng.index(fields.len());
            fields.swap(at, other);
        }
        // Numbers.
        9 | 10 => {
            if let Some(i) = number {
                fields[i].insert(0, rng.pick(b"00+- "));
            }
        }
        11..=14 => {
            if let Some(i) = number {
                fields[i] = rng.pick(&EDGES).as_bytes().to_vec();
            }
        }
        15 => {
            if let Some(i) = number {
                let digit = rng.pick(b"0123456789");
                let most = rng.index(24);
                while fields[i].len() < most {
                    fields[i].push(digit);
                }
            }
        }
        // Letters.
        16 => fields[0] = vec![rng.pick(b"GSONMCBRQFDHEgsonm?AXTUVW 0\t\x00\xC7")],
        17 => fields[0].push(rng.pick(b" 0\x00GN")),
        18 => {
            for field in &mut fields {
                field.make_ascii_lowercase();
            }
        }
        // An identifier too long by one, or as long as can be.
        19 => {
            let length = rng.between(19, 23) as usize;
            fields[at].resize(length, b'x');
        }
        // One byte of a field.
        20 | 21 => {
            let length = fields[at].len();
            if length > 0 {
                fields[at][rng.index(length)] = rng.pick(&BYTES);
            }
        }
        22 => fields[at].push(rng.pick(&BYTES)),
        // The end of the line.
        23 => {
            return [text, rng.pick(&[&b"\r\n"[..], b"\n\n", b"", b"\r", b" \n", b"\n "])].concat()
        }
        24 => {
            let cut = rng.index(line.len() + 1);
            let ending: &[u8] = if rng.chance(60) { b"\n" } else { b"" };
            return [&line[..cut], ending].concat();
        }
        // Length: around the most bytes of a line and up to 400.
        25 | 26 => return lengthen(rng, text),
        // Any byte.
        27 => {
            let mut bytes = line.to_vec();
            if !bytes.is_empty() {
                let at = rng.index(bytes.len());
                bytes[at] = rng.draw() as u8;
            }
            return bytes;
        }
        28 => {
            let mut bytes = line.to_vec();
            bytes.insert(rng.index(line.len() + 1), rng.draw() as u8);
            return bytes;
        }
        29 => return noise(rng),
        _ => own_edge(rng, &mut fields),
    }
    let mut bytes = fields.join(&b'\t');
    bytes.push(b'\n');
    bytes
}

fn remove_byte(rng: &mut Rng, line: &[u8], byte: u8) -> Vec<u8> {
    let places: Vec<usize> = (0..line.len()).filter(|&i| line[i] == byte).collect();
    let mut bytes = line.to_vec();
    if !places.is_empty() {
        bytes.remove(places[rng.index(places.len())]);
    }
    bytes
}

fn lengthen(rng: &mut Rng, text: &[u8]) -> Vec<u8> {
    let length = match rng.chance(60) {
        true => rng.between(157, 164),
        false => rng.between(20, 400),
    };
    let filler = rng.pick(b"0 x\t9\r\x00\xFF");
    let mut bytes = text.to_vec();
    let at = rng.index(bytes.len() + 1);
    while bytes.len() < length as usize {
        bytes.insert(at, filler);
    }
    bytes.push(b'\n');
    bytes
}

fn noise(rng: &mut Rng) -> Vec<u8> {
    let length = rng.pick(&[0, 1, 2, 3, 10, 40, 159, 160, 161, 162, 200]);
    let tabs = rng.chance(50);
    let mut bytes: Vec<u8> = (0..length)
        .map(|_| if tabs { rng.pick(b"\t\tNGQ01AZ\n") } else { rng.draw() as u8 })
        .collect();
    if rng.chance(80) {
        bytes.push(b'\n');
    }
    bytes
}
