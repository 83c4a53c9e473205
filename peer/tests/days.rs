//! Whole days: document 01's own and the sample days, by the gate and in lent words.

mod common;

use common::{day, day_in_words, document_01_day};
use std::fs;

fn compare(input: &[u8], expected: &[u8], name: &str) {
    let by_gate = day(input, 400);
    assert!(by_gate == expected, "{name}: by the gate\n{}", String::from_utf8_lossy(&by_gate));
    let in_words = day_in_words(input, 400);
    assert!(in_words == expected, "{name}: in words\n{}", String::from_utf8_lossy(&in_words));
}

#[test]
fn sample_days() {
    let mut seen = 0;
    for entry in fs::read_dir("../crates/days/data").unwrap() {
        let path = entry.unwrap().path();
        if path.extension().is_some_and(|e| e == "in") {
            let expected = fs::read(path.with_extension("out")).unwrap();
            compare(&fs::read(&path).unwrap(), &expected, &path.display().to_string());
            seen += 1;
        }
    }
    assert!(seen >= 12, "the days of the program `days`");
}

#[test]
fn document_01() {
    let [input, expected] = document_01_day();
    compare(&input, &expected, "document 01");
}

#[test]
fn no_input() {
    compare(b"", b"", "case 13");
}
