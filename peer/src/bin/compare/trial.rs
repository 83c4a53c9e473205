//! Wrong on purpose: what a harness that cannot fail would not notice.

use std::fs;
use std::path::Path;
use std::process::ExitCode;
use std::time::Duration;

use crate::count::numbers;
use crate::lapse;
use crate::messages::Call;
use crate::orders::{plain_house, plain_message};
use crate::run::{self, Case, Settings, Work};
use crate::slip;
use crate::worker::Program;
use crate::wrong::Wrong;

/// What is wrong on the peer's side.
fn peer_side() -> Vec<(Wrong, String)> {
    let numbers =
        numbers().map(|n| (Wrong::Number(n), format!("number {n} answered as {}", n + 1)));
    let letters = b"PKSRA"
        .iter()
        .map(|&o| (Wrong::Outcome(o), format!("outcome {} answered as another", char::from(o))));
    let others = [
        (Wrong::Last, "the last metric above its limit given instead of the first"),
        (Wrong::Sent, "a request to be sent answered as not to be sent"),
        (Wrong::Buffer, "a buffer of 31 bytes taken"),
        (Wrong::Word, "a traded value one too much in the words"),
        (Wrong::Closing, "a blocked group closed as not blocked"),
        (Wrong::Sums, "open values not held against the table"),
    ];
    let others = others.into_iter().map(|(wrong, what)| (wrong, what.to_string()));
    let slips = slip::all().into_iter().map(|(slip, what)| (Wrong::Message(slip), what));
    let lapses = lapse::ALL.map(|(lapse, what)| (Wrong::Block(lapse), what.to_string()));
    numbers.chain(letters).chain(others).chain(slips).chain(lapses).collect()
}

/// What is wrong on the worker's side, by its argument.
const WORKER_SIDE: [&str; 45] = [
    "a byte behind the line is read",
    "a byte before the words is read",
    "a byte behind the buffer is read",
    "a byte past the answer line is changed",
    "the line is changed",
    "a word past the last place is changed",
    "no answer to an O",
    "a short buffer is written to",
    "22 returned as 21",
    "a byte behind the line of an F is read, with two places taken",
    "a byte behind the house message is read",
    "a byte before the house message is read",
    "a byte behind the line of an order that is written is read",
    "a byte past the message is changed",
    "the line of an order that is written is changed",
    "the house message is changed",
    "a byte beside the house message is changed",
    "a buffer is written to with 41",
    "a buffer is written to with 42",
    "a buffer is written to with 43",
    "a byte behind a message is read",
    "a byte before a message is read",
    "a byte behind the words of a message is read",
    "a word past the words of a message is changed",
    "a message that is read is changed",
    "words are written to with 41",
    "words are written to with 42",
    "words are written to with 43",
    "43 returned as 42",
    "a byte behind a block is read",
    "a byte before a block is read",
    "a byte behind the buffer of a block is read",
    "a byte behind the words for what is taken is read",
    "a byte before the words for what is taken is read",
    "a byte beside the words for what is taken is changed",
    "a block is changed",
    "a byte past the answers of a block is changed",
    "the buffer of a block is written to with 21",
    "the buffer of a block is written to with 22",
    "what is taken is written to with 21",
    "what is taken is written to with 22",
    "a word is written to with a block's 21",
    "a word is written to with a block's 22",
    "a word past the last place is changed by a block",
    "record calls answer otherwise than the block",
];

/// The first of them that are about order messages, and about blocks.
const FIRST_OF_MESSAGES: u32 = 11;
const FIRST_OF_BLOCKS: u32 = 30;

/// Tries each; fails if one is not noticed. The smallest inputs are written to a file, if one
/// is given.
pub fn all(program: &Program, seed: u64, to: Option<&Path>) -> Result<ExitCode, String> {
    let peer = peer_side().into_iter().map(|(wrong, what)| (wrong, 0, format!("peer: {what}")));
    let worker = (1..).zip(WORKER_SIDE).map(|(i, what)| (Wrong::No, i, format!("worker: {what}")));
    let tries: Vec<_> = peer.chain(worker).collect();
    let (mut noticed, mut reports) = (0, String::new());
    for (wrong, argument, what) in &tries {
        let patience = Duration::from_secs(if *argument == 7 { 2 } else { 60 });
        let program = Program { wrong: *argument, patience, ..program.clone() };
        let settings = Settings { program, wrong: *wrong, seed, jobs: 1, progress: false };
        let Some((size, report)) = one(&settings) else {
            println!("{what}: NOT NOTICED");
            continue;
        };
        noticed += 1;
        println!("{what}: noticed, {size}");
        reports += &format!("==== {what}\n\n{report}\n");
    }
    println!("{noticed} of {} noticed", tries.len());
    if let Some(to) = to {
        fs::write(to, reports).map_err(|error| format!("{}: {error}", to.display()))?;
    }
    Ok(ExitCode::from(u8::from(noticed < tries.len())))
}

/// How small an input showed it, and that input.
fn one(settings: &Settings) -> Option<(String, String)> {
    let work = match (settings.wrong, settings.program.wrong) {
        (Wrong::Sums, _) => Work::plan(settings.seed, 0, 20_000),
        (Wrong::Block(_), _) | (_, FIRST_OF_BLOCKS..) => {
            Work::default().and_blocks(settings.seed, 20_000, 2_000)
        }
        (Wrong::Message(_), _) | (_, FIRST_OF_MESSAGES..) => Work::default().and_messages(20_000),
        _ => Work::plan(settings.seed, 200_000, 0),
    };
    let outcome = run::run(settings, &work).ok()?;
    let found = outcome.found?;
    let least = run::shrink(settings, &found);
    let size = match &least {
        Case::Day(day) if day.steps.len() == 1 => "a day of 1 line".to_string(),
        Case::Day(day) => format!("a day of {} lines", day.steps.len()),
        Case::Memory(batch, _) => {
            let words = batch.base.iter().filter(|word| **word != 0).count();
            format!("a memory with {words} words that are not 0")
        }
        Case::Message(batch, _) => match &batch.calls[..] {
            [Call::Write { line, house, .. }] => {
                let house = not_plain("house message", house, &plain_house());
                format!("a line of {} bytes and {house}", line.len())
            }
            [Call::Read { message, .. }] => not_plain("message", message, &plain_message()),
            calls => format!("{} calls", calls.len()),
        },
        Case::Block(batch, _) => match &batch.calls[..] {
            [call] => {
                let words = batch.base.iter().filter(|word| **word != 0).count();
                let bytes = match call.text.len() {
                    1 => "1 byte".to_string(),
                    bytes => format!("{bytes} bytes"),
                };
                format!("a block of {bytes} over a memory with {words} words that are not 0")
            }
            calls => format!("{} blocks", calls.len()),
        },
        Case::Lengths => "a call about lengths".to_string(),
    };
    Some((size, run::report(settings, &found, &least)))
}

/// How much of a message is not as in a plain one.
fn not_plain(what: &str, bytes: &[u8], plain: &[u8]) -> String {
    let of = match bytes.len() {
        length if length == plain.len() => String::new(),
        1 => " of 1 byte".to_string(),
        length => format!(" of {length} bytes"),
    };
    match bytes.iter().zip(plain).filter(|(a, b)| a != b).count() {
        0 => format!("a plain {what}{of}"),
        1 => format!("a {what}{of} with 1 byte that is not plain"),
        n => format!("a {what}{of} with {n} bytes that are not plain"),
    }
}
