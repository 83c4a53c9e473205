//! Two builds of the library timed against one another on the same lines, in one run (docs/BENCHMARK.md): `versus BEFORE AFTER`, two shared objects,
//! which the script peer/versus makes of two commits.
//!
//! Both are loaded into this process and called in the same way. They take turns, each beginning every other one, and of several turns each one's best counts.

use peer::loads::{self, fill, order, traded};
use peer::memory;
use std::ffi::{c_char, c_int, c_void, CString};
use std::hint::black_box;
use std::time::Instant;

#[link(name = "dl")]
extern "C" {
    fn dlopen(file: *const c_char, how: c_int) -> *mut c_void;
    fn dlsym(library: *mut c_void, name: *const c_char) -> *mut c_void;
}

/// Every name is looked up when the library is loaded, and none is seen by the other one.
const NOW: c_int = 2;

/// `ticketmoss_record` of `include/ticketmoss.h`.
type Record = unsafe extern "C" fn(*mut u64, usize, *const u8, usize, *mut u8, usize) -> i64;

#[derive(Clone, Copy)]
struct Library(Record);

impl Library {
    fn open(path: &str) -> Option<Library> {
        let path = CString::new(path).ok()?;
        // SAFETY: both names end with a zero; the symbol is a function of that type
        unsafe {
            let library = dlopen(path.as_ptr(), NOW);
            if library.is_null() {
                return None;
            }
            let record = dlsym(library, c"ticketmoss_record".as_ptr());
            (!record.is_null()).then(|| Library(std::mem::transmute::<*mut c_void, Record>(record)))
        }
    }

    fn record(self, words: &mut [u64], line: &str, to: &mut [u8; 32]) -> i64 {
        let (line, length) = (line.as_ptr(), line.len());
        // SAFETY: each slice is lent whole, and no two overlap
        unsafe { self.0(words.as_mut_ptr(), words.len(), line, length, to.as_mut_ptr(), to.len()) }
    }
}

/// Nanoseconds for each line, of each of the two on its own copy of a state.
fn timed(both: [Library; 2], words: &[u64], lines: &[String], turns: usize) -> [f64; 2] {
    let mut best = [f64::MAX; 2];
    for turn in 0..2 * turns {
        let who = (turn + turn / 2) % 2;
        let (mut own, mut answer) = (words.to_vec(), [0; 32]);
        let from = Instant::now();
        for line in lines {
            black_box(both[who].record(&mut own, line, &mut answer));
        }
        best[who] = best[who].min(from.elapsed().as_nanos() as f64 / lines.len() as f64);
    }
    best
}

/// Whether both give the same answers to a day and leave the same memory.
fn alike(both: [Library; 2], words: &[u64], lines: &[String]) -> bool {
    let mut own = [words.to_vec(), words.to_vec()];
    let mut same = true;
    for line in lines {
        let said = [0, 1].map(|who| {
            let mut answer = [0; 32];
            (both[who].record(&mut own[who], line, &mut answer), answer)
        });
        same &= said[0] == said[1];
    }
    same && own[0] == own[1]
}

fn row(name: &str, [before, after]: [f64; 2], digits: usize) {
    println!("| {name} | {before:.digits$} | {after:.digits$} | {:.3} |", after / before);
}

fn main() {
    let words: Vec<String> = std::env::args().skip(1).collect();
    let both = match &words[..] {
        [before, after] => [before, after].map(|path| {
            Library::open(path).unwrap_or_else(|| {
                eprintln!("{path} is no shared object with ticketmoss_record");
                std::process::exit(1);
            })
        }),
        _ => {
            eprintln!("usage: versus BEFORE AFTER  (the script peer/versus runs it)");
            std::process::exit(2);
        }
    };
    let fresh = vec![0; memory::words(loads::ROOM)];
    let tables = [loads::ROOM, loads::GREATEST].map(|places| traded(places, places as u64));
    let days = [
        ("small, 400 places", &fresh, loads::small(), 200),
        ("large, 400 places", &fresh, loads::large(), 5),
        ("full table, 65,535 places", &tables[1], loads::over(2_000), 3),
    ];

    println!("Nanoseconds a record:\n");
    println!("| day | before | after | after / before |\n|---|---|---|---|");
    let mut same = true;
    for (name, words, lines, turns) in &days {
        same &= alike(both, words, lines);
        row(name, timed(both, words, lines, *turns), 0);
    }

    // what naming the last order of a full table costs above naming its first: a request's identifier, and a notice's target
    println!("\nThe search, microseconds:\n");
    println!(
        "| table, and what is looked up | before | after | after / before |\n|---|---|---|---|"
    );
    for ((table, name), turns) in tables.iter().zip(["400", "65,535"]).zip([2_000, 60]) {
        let last = memory::room(table.len()) as u64 - 1;
        let retry = |number: u64| vec![order(number); 16];
        let fills = |number: u64| (1..=16).map(|n| fill(loads::NOTICES + n, number)).collect();
        let search = |near: Vec<String>, far: Vec<String>| {
            let (near, far) = (timed(both, table, &near, turns), timed(both, table, &far, turns));
            [0, 1].map(|who| (far[who] - near[who]) / 1000.0)
        };
        row(&format!("{name} places, a retry"), search(retry(0), retry(last)), 3);
        row(&format!("{name} places, a fill's target"), search(fills(0), fills(last)), 3);
    }
    println!(
        "\n{}",
        if same {
            "On the three days both gave the same answers and left the same memory."
        } else {
            "The two do not answer alike on the three days."
        }
    );
}
