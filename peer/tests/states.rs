//! The memories of the program `states`, each with whether it is a state.

use peer::memory::broken_rule;
use std::fs;

/// The words of a memory.
const MOST_WORDS: usize = 4096;

/// Sets the words named, as INDEX=WORD.
fn set<'a>(mem: &mut [u64], parts: impl Iterator<Item = &'a str>) {
    for part in parts {
        let (at, word) = part.split_once('=').unwrap();
        mem[at.parse::<usize>().unwrap()] = word.parse().unwrap();
    }
}

/// A base has a fill and words; a case its answer, the words that are lent, a label, and the
/// words that differ from the base before it.
#[test]
fn memories_by_hand() {
    let text = fs::read_to_string("../crates/states/data/states.txt").unwrap();
    assert!(text.len() <= 262_144 && text.ends_with('\n'));
    let mut base = vec![0; MOST_WORDS];
    let (mut good, mut refused) = (0, 0);
    for line in text.lines().filter(|line| !line.starts_with('#')) {
        let mut parts = line.split(' ');
        let first = parts.next().unwrap();
        let number = parts.next().unwrap().parse::<u64>().unwrap();
        if first == "base" {
            base.fill(number);
            set(&mut base, parts);
            continue;
        }
        let label = parts.next().unwrap();
        let mut mem = base.clone();
        set(&mut mem, parts);
        match broken_rule(&mem[..number as usize]) {
            None => {
                assert_eq!(first, "1", "{label} breaks no rule");
                good += 1;
            }
            Some(rule) => {
                assert_eq!(first, "0", "{label} breaks a rule: {rule}");
                refused += 1;
            }
        }
    }
    let counted = format!("states: {good} good, {refused} refused, 0 differ");
    let expected = fs::read_to_string("../crates/states/stdout").unwrap();
    assert_eq!(expected.lines().next(), Some(&counted[..]));
}
