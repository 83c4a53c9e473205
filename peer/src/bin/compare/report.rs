//! A difference, written so that a person can follow it.

use peer::memory;

use crate::blocks::{self, Given};
use crate::count::Counts;
use crate::day::{self, Day, Peer};
use crate::map;
use crate::memories::{changes, Batch, Judged, Tally};
use crate::messages::{self, rows, Call};
use crate::worker::{Command, Program, Worker, AT_START, LINE_READ_ONLY};
use crate::wrong::Wrong;

/// How slices lie; `read` is what is read-only in some modes.
fn lent(mode: u8, read: &str) -> String {
    let side = if mode & AT_START == 0 { "end before" } else { "begin behind" };
    let mut text = format!("The lent slices {side} a page that cannot be touched");
    if mode & LINE_READ_ONLY != 0 {
        text += &format!(", {read} is read-only");
    }
    text + ".\n"
}

fn sides(library: &Result<String, String>, peer: &str) -> String {
    match library {
        Ok(text) if text == peer => format!("      both: {peer}\n"),
        Ok(text) | Err(text) => format!("   library: {text}\n      peer: {peer}   <-- differs\n"),
    }
}

/// A day, line by line with what each side answered.
pub fn day(day: &Day, first: &str, program: &Program, wrong: Wrong) -> String {
    let (lines, words, room) = (day.steps.len(), day.words, memory::room(day.words));
    let mut text = format!("A day on which the two sides differ. First seen as\n{first}\n\n");
    text += &format!("{lines} lines, {words} words (room for {room} places), ");
    text += &format!("all {} before the fresh state. {}\n", day.fill, lent(day.mode, "the line"));
    let Ok(mut worker) = Worker::start(program) else {
        return text;
    };
    let mut peer = Peer::new(day, wrong);
    worker.send(day::fresh(day));
    let mut alive = worker.reply().map(|_| ());
    for step in &day.steps {
        text += &format!("\"{}\"", step.line.escape_ascii());
        text +=
            &if step.size == 32 { "\n".into() } else { format!(" (buffer of {})\n", step.size) };
        let theirs = peer.step(step, &mut Counts::default()).text();
        let ours = alive.clone().and_then(|()| {
            worker.send(day::records(day.pattern, std::slice::from_ref(step)));
            worker.reply().map(|mut reply| reply.answer().text())
        });
        text += &sides(&ours, &theirs);
        alive = ours.map(|_| ());
    }
    if alive.is_ok() {
        text += &day_end(day, &peer, &mut worker).unwrap_or_else(|stopped| stopped);
    }
    text
}

/// State, words and closing lines.
fn day_end(day: &Day, peer: &Peer, worker: &mut Worker) -> Result<String, String> {
    worker.send(Command::new(b'S'));
    let result = worker.reply()?.i64();
    let mut text = format!("state\n{}", sides(&Ok(result.to_string()), "0"));
    worker.send(Command::new(b'G'));
    let ours: Vec<u64> = worker.reply()?.words().collect();
    for (i, (a, b)) in ours.iter().zip(&peer.words()).enumerate().filter(|(_, (a, b))| a != b) {
        text += &format!("word {i}, {}\n", map::name(i, ours.len()));
        text += &sides(&Ok(a.to_string()), &b.to_string());
    }
    let asked = peer.closings();
    worker.send(day::closings(day.pattern, &asked));
    let mut reply = worker.reply()?;
    for (place, size, theirs) in &asked {
        let ours = reply.answer();
        // What both refuse is left out.
        if theirs.result > 0 || ours != *theirs {
            text += &format!("closing line {place} (buffer of {size})\n");
            text += &sides(&Ok(ours.text()), &theirs.text());
        }
    }
    Ok(text)
}

/// A memory, by its words that are not 0.
fn listed(words: &[u64], mode: u8, read: &str) -> String {
    let rule = memory::broken_rule(words).unwrap_or("none");
    let mut text =
        format!("{} words (room for {} places). ", words.len(), memory::room(words.len()));
    text += &lent(mode, read);
    text += &format!("State rule that is broken, by the peer: {rule}.\n");
    text +=
        &format!("All words are 0 but {} of them:\n", words.iter().filter(|w| **w != 0).count());
    for (i, word) in words.iter().enumerate().filter(|(_, word)| **word != 0) {
        let bytes = word.to_le_bytes();
        let end = bytes.iter().rposition(|&b| b != 0).map_or(0, |i| i + 1);
        let shown = bytes[..end].escape_ascii();
        text += &format!("{i:7}  {word:20}  {:30} \"{shown}\"\n", map::name(i, words.len()));
    }
    text
}

/// A memory, and what each side made of it.
pub fn memory(batch: &Batch, program: &Program, wrong: Wrong) -> String {
    let variant = &batch.variants[0];
    let words = &batch.base;
    let mut text = "A memory of which the two sides think differently.\n\n".to_string();
    text += &listed(words, batch.mode, "the line");
    let line = variant.line.escape_ascii();
    text += &format!("\nrecord \"{line}\" (buffer of {}), then ", variant.size);
    text += &format!("closing line {} (buffer of {})\n", variant.place, variant.closing_size);
    let theirs = batch.peer(variant, wrong, &mut Tally::default());
    let ours = Worker::start(program).map_err(|error| error.to_string()).and_then(|mut worker| {
        worker.send(batch.lend());
        worker.send(batch.ask());
        worker.reply()?;
        worker.reply().map(|mut reply| Judged::read(&mut reply))
    });
    if let Err(stopped) = &ours {
        text += &format!("   library: {stopped}\n");
    }
    let count = words.len();
    let mut part = |name: &str, of: &dyn Fn(&Judged) -> String| {
        text += &match &ours {
            Ok(ours) => format!("{name}\n{}", sides(&Ok(of(ours)), &of(&theirs))),
            Err(_) => format!("{name}\n      peer: {}\n", of(&theirs)),
        };
    };
    part("state", &|j| j.state.to_string());
    part("record", &|j| j.record.text());
    part("words changed by the record", &|j| changes(&j.changed, count));
    part("closing line", &|j| j.closing.text());
    text
}

/// Calls about order messages, and what each side gave.
pub fn messages(batch: &messages::Batch, first: &str, program: &Program, wrong: Wrong) -> String {
    let mut text =
        format!("Order messages on which the two sides differ. First seen as\n{first}\n\n");
    text += &format!(
        "Buffers are filled with {:02x}. {}",
        batch.pattern,
        lent(batch.mode, "what is read")
    );
    let listed = |bytes: &[u8]| -> String {
        let rows = rows(bytes).into_iter();
        rows.map(|row| format!("            {row}\n")).collect()
    };
    let ours = Worker::start(program).map_err(|error| error.to_string()).and_then(|mut worker| {
        worker.send(batch.ask());
        worker.reply()
    });
    let mut ours = ours.map_err(|stopped| text += &format!("   library: {stopped}\n"));
    for call in &batch.calls {
        text += &match call {
            Call::Write { line, house, size } => format!(
                "\n\"{}\" written to {size} bytes, with a house message of {}:\n{}",
                line.escape_ascii(),
                house.len(),
                listed(house)
            ),
            Call::Read { message, count } => format!(
                "\nread to {count} words, a message of {} bytes:\n{}",
                message.len(),
                listed(message)
            ),
        };
        let theirs = call.peer(batch.pattern, wrong);
        text += &match &mut ours {
            Ok(reply) => {
                let ours = reply.answer();
                sides(&Ok(call.text(&ours, &theirs)), &call.text(&theirs, &ours))
            }
            Err(()) => format!("      peer: {}\n", call.text(&theirs, &theirs)),
        };
    }
    text
}

/// Blocks of lines over a memory, and what each side made of them.
pub fn blocks(batch: &blocks::Batch, first: &str, program: &Program, wrong: Wrong) -> String {
    let mut text = format!("Blocks on which the two sides differ. First seen as\n{first}\n\n");
    text += &listed(&batch.base, batch.mode, "the block");
    let ours = Worker::start(program).map_err(|error| error.to_string()).and_then(|mut worker| {
        worker.send(batch.lend());
        worker.send(batch.ask());
        worker.reply()?;
        worker.reply()
    });
    let mut ours = ours.map_err(|stopped| text += &format!("   library: {stopped}\n"));
    let mut words = batch.base.clone();
    for call in &batch.calls {
        call.begin(&batch.base, &mut words);
        let theirs = call.peer(&mut words, batch.pattern, wrong);
        let lent = call.text.escape_ascii();
        text += &format!("\n\"{lent}\" (buffer of {})\n", call.size);
        let given = ours.as_mut().ok().map(Given::read);
        for of in [
            |given: &Given, _: usize| given.answer.text(),
            |given: &Given, _: usize| given.taken(),
            |given: &Given, words: usize| format!("changed: {}", changes(&given.changed, words)),
        ] {
            let theirs = of(&theirs, words.len());
            text += &match &given {
                Some(given) => sides(&Ok(of(given, words.len())), &theirs),
                None => format!("      peer: {theirs}\n"),
            };
        }
    }
    text
}
