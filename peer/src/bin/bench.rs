//! The gate and the peer timed on the same generated days, in one run (docs/BENCHMARK.md).
//!
//! Both are called record by record in this process, and then in blocks of lines, over lines that are already in memory and with one answer buffer
//! that is not cleared between calls. They take turns, and of several turns each one's best counts. What both answer is compared once, before
//! anything is timed.

use peer::loads::{self, order, traded};
use peer::{memory, message};
use std::hint::black_box;
use std::process::{Command, Stdio};
use std::time::Instant;

#[path = "../../../include/ticketmoss.rs"]
mod ticketmoss;

const TURNS: usize = 5;
/// The lines over a full table that are timed by record calls.
const FEW: usize = 2_000;

/// Nanoseconds since then, for each of so many lines.
fn each(from: Instant, lines: usize) -> f64 {
    from.elapsed().as_nanos() as f64 / lines as f64
}

/// Nanoseconds for each line by the gate's record calls, on its own copy of a state.
fn gate_records(words: &[u64], lines: &[String]) -> f64 {
    let mut own = words.to_vec();
    let mut answer = [0; ticketmoss::ANSWER_BYTES];
    let from = Instant::now();
    for line in lines {
        black_box(ticketmoss::record(&mut own, line.as_bytes(), &mut answer).is_ok());
    }
    each(from, lines.len())
}

/// The same by the peer's.
fn peer_records(words: &[u64], lines: &[String]) -> f64 {
    let mut own = memory::load(words);
    let mut answer = Vec::with_capacity(64);
    let from = Instant::now();
    for line in lines {
        answer.clear();
        black_box(own.record(line.as_bytes(), &mut answer));
    }
    each(from, lines.len())
}

/// Nanoseconds for each line, of each of the two; the best of several turns.
fn timed(words: &[u64], lines: &[String], turns: usize) -> (f64, f64) {
    let mut best = (f64::MAX, f64::MAX);
    for _ in 0..turns {
        best.0 = best.0.min(gate_records(words, lines));
        best.1 = best.1.min(peer_records(words, lines));
    }
    best
}

/// Both on one day: the answers are the same, and so is the memory after it.
fn same(words: &[u64], lines: &[String]) {
    let (mut gate, mut words) = (memory::load(words), words.to_vec());
    let mut after = words.clone();
    let (mut answer, mut buffer) = (Vec::new(), [0; ticketmoss::ANSWER_BYTES]);
    for line in lines {
        answer.clear();
        gate.record(line.as_bytes(), &mut answer);
        let bytes =
            ticketmoss::record(&mut words, line.as_bytes(), &mut buffer).expect("a good state");
        assert_eq!(answer, &buffer[..bytes], "{line}");
    }
    memory::store(&gate, &mut after);
    assert!(after == words, "the memory after the day");
}

fn day_row(name: &str, words: &[u64], lines: &[String], turns: usize) {
    same(words, lines);
    let (ours, theirs) = timed(words, lines, turns);
    println!(
        "| {name} | {} | {:.0} | {:.0} | {:.1} |",
        lines.len(),
        1e9 / ours,
        1e9 / theirs,
        ours / theirs
    );
}

/// Lines in blocks of so many, and a buffer that is long enough for the answers to a block.
struct Blocks {
    lines: usize,
    texts: Vec<String>,
    buffer: Vec<u8>,
}

impl Blocks {
    fn new(lines: &[String], of: usize) -> Blocks {
        let texts = lines.chunks(of).map(|block| block.concat()).collect();
        let buffer = vec![0; ticketmoss::ANSWER_BYTES * of.min(lines.len())];
        Blocks { lines: lines.len(), texts, buffer }
    }

    /// Nanoseconds for each line by the gate's block calls, on its own copy of a state.
    fn gate(&mut self, words: &[u64]) -> f64 {
        let mut own = words.to_vec();
        let from = Instant::now();
        for text in &self.texts {
            black_box(ticketmoss::block(&mut own, text.as_bytes(), &mut self.buffer).is_ok());
        }
        each(from, self.lines)
    }

    /// The same by the peer's.
    fn peer(&mut self, words: &[u64]) -> f64 {
        let mut own = memory::load(words);
        let from = Instant::now();
        for text in &self.texts {
            black_box(own.block(text.as_bytes(), &mut self.buffer));
        }
        each(from, self.lines)
    }

    /// The gate's block calls, the peer's, and the peer's record calls: every line is taken, the answers are the same, and so is the memory
    /// afterwards.
    fn same(&mut self, words: &[u64]) {
        let (mut gate, mut blocks, mut words) =
            (memory::load(words), memory::load(words), words.to_vec());
        let (mut after, mut others) = (words.clone(), words.clone());
        let mut answers = Vec::new();
        for text in &self.texts {
            answers.clear();
            text.split_inclusive('\n').for_each(|line| {
                gate.record(line.as_bytes(), &mut answers);
            });
            let all = (text.lines().count(), text.len(), answers.len());
            self.buffer.fill(0);
            let ours = ticketmoss::block(&mut words, text.as_bytes(), &mut self.buffer);
            let ours = ours.expect("a good state");
            assert_eq!((ours.lines, ours.bytes, ours.written), all, "the lines taken");
            assert!(answers == self.buffer[..ours.written], "the answers to a block");
            self.buffer.fill(0);
            let theirs = blocks.block(text.as_bytes(), &mut self.buffer);
            assert_eq!((theirs.lines, theirs.bytes, theirs.written), all, "the lines taken");
            assert!(answers == self.buffer[..theirs.written], "the answers to a block");
        }
        memory::store(&gate, &mut after);
        memory::store(&blocks, &mut others);
        assert!(after == words && after == others, "the memory after the blocks");
    }
}

/// A day in blocks. The gate's record calls are timed on its first `few` lines, and blocks of up to sixteen lines on so many that there are at most
/// `calls` of them.
fn block_rows(name: &str, words: &[u64], lines: &[String], few: usize, calls: usize, turns: usize) {
    let sizes = [1, 16, 256, 4_096, 65_536, lines.len()];
    let mut blocks = sizes.map(|of| {
        let most = if of > 16 { lines.len() } else { lines.len().min(calls.saturating_mul(of)) };
        Blocks::new(&lines[..most], of)
    });
    same(words, &lines[..few]);
    blocks.iter_mut().for_each(|blocks| blocks.same(words));
    let (mut records, mut ours, mut theirs) = (f64::MAX, sizes.map(|_| f64::MAX), [f64::MAX; 2]);
    for _ in 0..turns {
        records = records.min(gate_records(words, &lines[..few]));
        for (best, blocks) in ours.iter_mut().zip(&mut blocks) {
            *best = best.min(blocks.gate(words));
        }
        theirs[0] = theirs[0].min(peer_records(words, lines));
        let [.., whole] = &mut blocks;
        theirs[1] = theirs[1].min(whole.peer(words));
    }
    // the better of the peer's two ways
    let peer = theirs[0].min(theirs[1]);
    let row = |way: &str, lines: usize, time: f64, ratio: &str| {
        println!("| {name} | {way} | {lines} | {:.0} | {ratio} |", 1e9 / time);
    };
    let ratio = |time: f64| format!("{:.1}", time / peer);
    row("gate, record calls", few, records, &ratio(records));
    for ((of, blocks), time) in sizes.iter().zip(&blocks).zip(ours) {
        let way = match *of == lines.len() {
            true => "gate, one block".to_string(),
            false => format!("gate, blocks of {of}"),
        };
        row(&way, blocks.lines, time, &ratio(time));
    }
    row("peer, record calls", lines.len(), theirs[0], "");
    row("peer, one block", lines.len(), theirs[1], "");
}

/// Nanoseconds of the state check alone.
fn checked(words: &[u64], turns: usize) -> f64 {
    let mut best = f64::MAX;
    for _ in 0..turns {
        let from = Instant::now();
        for _ in 0..16 {
            black_box(ticketmoss::state(black_box(words)).is_ok());
        }
        best = best.min(from.elapsed().as_nanos() as f64 / 16.0);
    }
    best
}

/// Where the time goes, by lines that go further and further through the gate, each less the one before.
fn stages(name: &str, places: usize, taken: u64, turns: usize) {
    let words = traded(places, taken);
    assert_eq!(ticketmoss::state(&words), Ok(()), "a generated state is a good one");
    let many = |line: String| vec![line; 64];
    let check = checked(&words, turns);
    // refused for its form at its last byte: read to its end, and answered by ten bytes
    let damaged = timed(&words, &many(order(taken - 1).replace('\n', "x\n")), turns);
    // a desk that is not listed: read, and answered by a whole line
    let unlisted = timed(&words, &many(order(taken - 1).replace("DSK", "NOT")), turns);
    // a retry of the last order: found, compared, answered
    let retried = timed(&words, &many(order(taken - 1)), turns);
    // orders that pass: searched for, judged and stored; the table grows by 64 places, and the state check with it
    let passed = timed(&words, &(taken..taken + 64).map(order).collect::<Vec<_>>(), turns);
    let grown = (checked(&traded(places, taken + 64), turns) - check) / 2.0;
    let row = |who: &str, check: f64, times: [f64; 4]| {
        let [damaged, unlisted, retried, passed] = times.map(|t| t / 1000.0);
        let check = check / 1000.0;
        println!(
            "| {name} | {who} | {check:.2} | {:.2} | {:.2} | {:.2} | {:.2} | {passed:.2} |",
            damaged - check,
            unlisted - damaged,
            retried - unlisted,
            passed - retried
        );
    };
    row("gate", check, [damaged.0, unlisted.0, retried.0, passed.0 - grown]);
    row("peer", 0.0, [damaged.1, unlisted.1, retried.1, passed.1]);
}

/// A house message: a displayed limit order of regular hours that is not routed, for account HOUSE.
fn house() -> [u8; ticketmoss::MESSAGE_BYTES] {
    use message::Field;
    let mut house = [0; ticketmoss::MESSAGE_BYTES];
    let mut put =
        |field: Field, text: &[u8]| house[field.place()][..text.len()].copy_from_slice(text);
    put(Field::MessageType, &message::TYPE);
    put(Field::Mpid, b"    ");
    put(Field::OrderInstructions, &[1 << 3]);
    put(Field::TimeInForce, b"R");
    put(Field::OrderType, b"1");
    put(Field::PriceSliding, b"N");
    put(Field::SelfTradeProtectionGroup, b" ");
    put(Field::Routing, &[2]);
    put(Field::Capacity, b"A");
    put(Field::Account, b"HOUSE");
    put(Field::PurgeGroup, b" ");
    house
}

/// The best of several turns of the gate and of the peer, nanoseconds for each of so many calls.
fn turns(count: usize, mut gate: impl FnMut(), mut peer: impl FnMut()) -> (f64, f64) {
    let each = |call: &mut dyn FnMut()| {
        let from = Instant::now();
        call();
        from.elapsed().as_nanos() as f64 / count as f64
    };
    let mut best = (f64::MAX, f64::MAX);
    for _ in 0..100 * TURNS {
        best.0 = best.0.min(each(&mut gate));
        best.1 = best.1.min(each(&mut peer));
    }
    best
}

/// Orders written as messages and read back, by both; what they give is compared first.
fn messages(count: u64) {
    let house = house();
    let lines: Vec<String> = (0..count).map(order).collect();
    let mut messages = Vec::new();
    for line in &lines {
        let (mut ours, mut theirs) = ([0; ticketmoss::MESSAGE_BYTES], [1; message::BYTES]);
        let written = ticketmoss::order_write(line.as_bytes(), &house, &mut ours);
        assert_eq!(written, Ok(theirs.len()), "{line}");
        assert_eq!(message::write(line.as_bytes(), &house, &mut theirs), theirs.len() as i64);
        assert_eq!(ours, theirs, "{line}");
        let (mut words, mut other) = ([0; ticketmoss::ORDER_WORDS], [1; message::WORDS]);
        assert_eq!(ticketmoss::order_read(&ours, &mut words), Ok(other.len()), "{line}");
        assert_eq!(message::read(&ours, &mut other), other.len() as i64);
        assert_eq!(words, other, "{line}");
        messages.push(ours);
    }
    let row = |name: &str, (ours, theirs): (f64, f64)| {
        println!("| {name} | {count} | {ours:.1} | {theirs:.1} | {:.1} |", ours / theirs);
    };
    let (mut ours, mut theirs) = ([0; ticketmoss::MESSAGE_BYTES], [0; message::BYTES]);
    let gate = || {
        for line in &lines {
            black_box(
                ticketmoss::order_write(line.as_bytes(), &house, black_box(&mut ours)).is_ok(),
            );
        }
    };
    let peer = || {
        for line in &lines {
            black_box(message::write(line.as_bytes(), &house, black_box(&mut theirs)));
        }
    };
    row("writing", turns(lines.len(), gate, peer));
    let (mut ours, mut theirs) = ([0; ticketmoss::ORDER_WORDS], [0; message::WORDS]);
    let gate = || {
        for message in &messages {
            black_box(ticketmoss::order_read(message, black_box(&mut ours)).is_ok());
        }
    };
    let peer = || {
        for message in &messages {
            black_box(message::read(message, black_box(&mut theirs)));
        }
    };
    row("reading", turns(lines.len(), gate, peer));
}

/// Seconds that a program takes for a day, and what it writes; the best of several turns.
fn program(command: &[String], day: &str, turns: usize) -> Option<(f64, Vec<u8>)> {
    let mut best = f64::MAX;
    let mut wrote = Vec::new();
    for _ in 0..turns {
        let input = std::fs::File::open(day).ok()?;
        let from = Instant::now();
        let output = Command::new(&command[0])
            .args(&command[1..])
            .stdin(input)
            .stderr(Stdio::inherit())
            .output()
            .ok()?;
        best = best.min(from.elapsed().as_secs_f64());
        if !output.status.success() {
            return None;
        }
        wrote = output.stdout;
    }
    Some((best, wrote))
}

/// The two programs on the same file. The gate's is for x86-64, and elsewhere is not run.
fn programs(name: &str, lines: &[String], folder: &str, gate: &[String], peer: &[String]) {
    let day = format!("{folder}/bench-day.in");
    if std::fs::write(&day, lines.concat()).is_err() {
        println!("| {name} | the day could not be written to {folder} | | | |");
        return;
    }
    let turns = if cfg!(target_arch = "x86_64") { 3 } else { 1 };
    match (program(gate, &day, turns), program(peer, &day, turns)) {
        (Some((ours, said)), Some((theirs, other))) => {
            assert!(said == other, "the programs' answers");
            let rate = |seconds: f64| format!("{:.0}", lines.len() as f64 / seconds);
            if cfg!(target_arch = "x86_64") {
                println!(
                    "| {name} | {} | {} | {} | {:.1} |",
                    lines.len(),
                    rate(ours),
                    rate(theirs),
                    ours / theirs
                );
            } else {
                println!(
                    "| {name} | {} | same answers; not timed | {} | |",
                    lines.len(),
                    rate(theirs)
                );
            }
        }
        _ => println!("| {name} | a program did not run | | | |"),
    }
    let _ = std::fs::remove_file(&day);
}

fn main() {
    // the folder to write a day to, the peer's program, and the gate's with what runs it
    let words: Vec<String> = std::env::args().skip(1).collect();
    let [folder, peer, gate @ ..] = &words[..] else {
        eprintln!("usage: bench FOLDER PEER GATE..  (the script peer/bench runs it)");
        std::process::exit(2);
    };
    let (small, large) = (loads::small(), loads::large());

    println!("Calls, records a second:\n");
    println!("| day | lines | gate | peer | times as long |\n|---|---|---|---|---|");
    let mut fresh = vec![0; ticketmoss::words(loads::ROOM)];
    ticketmoss::fresh(&mut fresh).expect("words enough");
    day_row("small, 400 places", &fresh, &small, 20 * TURNS);
    day_row("large, 400 places", &fresh, &large, TURNS);
    let full = traded(loads::GREATEST, loads::GREATEST as u64);
    let over = loads::over(large.len());
    day_row("full table, 65,535 places", &full, &over[..FEW], 2);

    println!("\nBlocks of lines, records a second:\n");
    println!("| day | calls | lines | records a second | times as long as the peer |");
    println!("|---|---|---|---|---|");
    block_rows("large, 400 places", &fresh, &large, large.len(), usize::MAX, 3);
    block_rows("full table, 65,535 places", &full, &over, FEW, 400, 2);

    println!("\nPrograms, records a second:\n");
    println!("| day | lines | gate | peer | times as long |\n|---|---|---|---|---|");
    let peer = [peer.clone()];
    programs("small", &small, folder, gate, &peer);
    programs("large", &large, folder, gate, &peer);

    println!("\nWhere the time of an order that passes goes, microseconds:\n");
    println!(
        "| table | who | state check | reading | writing | search | judging and storing | all |"
    );
    println!("|---|---|---|---|---|---|---|---|");
    stages("1 of 400 places taken", loads::ROOM, 1, 400);
    stages("336 of 400 places taken", loads::ROOM, 336, 400);
    let retry = |number: u64| timed(&full, &vec![order(number); 16], 60).0 / 1000.0;
    let last = retry(loads::GREATEST as u64 - 1);
    println!(
        "\nAt 65,535 places taken the state check is {:.0} of the {last:.0} microseconds of a retry of the last order, and the search {:.0}.",
        checked(&full, 60) / 1000.0,
        last - retry(0)
    );

    println!("\nOrder messages, nanoseconds a message:\n");
    println!("| call | messages | gate | peer | times as long |\n|---|---|---|---|---|");
    messages(1_000);
}
