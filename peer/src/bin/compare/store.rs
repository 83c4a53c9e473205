//! Drawn days as files: the lines, and the answers with the closing lines.

use std::fs;
use std::path::Path;

use peer::days::style::STYLES;
use peer::days::{lines, Plan};
use peer::gate::{Answer, Gate};

use crate::count::Counts;

/// The places of the program `gate`.
const ROOM: usize = 400;
/// Files stay below this.
const MOST_BYTES: usize = 65_536;
/// So many days are drawn for each that is written.
const DRAWN: u64 = 40;

struct Stored {
    input: Vec<u8>,
    output: Vec<u8>,
    counts: Counts,
}

/// A drawn day as the program reads it: parted at each LF, a last part without one counts.
fn draw(seed: u64, index: u64) -> Stored {
    let plan = Plan::new(seed, index).with_room(ROOM);
    let more = plan.lines + 300 * (index / 8 % 4) as usize;
    let drawn = lines(plan.with_lines(more));
    // Answers have at most 30 bytes, and 64 closing lines at most 96.
    let most = (MOST_BYTES - 64 * 96) / 30;
    let mut input = Vec::new();
    for line in drawn.iter().take(most) {
        if input.len() + line.len() >= MOST_BYTES {
            break;
        }
        input.extend_from_slice(line);
    }
    let mut gate = Gate::new(ROOM);
    let (mut output, mut counts) = (Vec::new(), Counts::default());
    for line in input.split_inclusive(|&b| b == b'\n') {
        let at = output.len();
        let answer: Answer = gate.record(line, &mut output);
        counts.add(output[at], &answer);
    }
    for place in 0..gate.groups() {
        gate.closing(place, &mut output);
    }
    Stored { input, output, counts }
}

/// Writes so many days; each is the one of some drawn that brings the most that is new.
pub fn write(directory: &Path, seed: u64, count: u64) -> Result<(), String> {
    fs::create_dir_all(directory).map_err(|error| format!("{}: {error}", directory.display()))?;
    let mut all = Counts::default();
    for n in 0..count {
        let left = |day: &Stored| {
            let mut with = all.clone();
            with.merge(&day.counts);
            with.never().len()
        };
        // One style after the other.
        let styles = STYLES.len() as u64;
        let first = n % styles + n / styles * styles * DRAWN;
        let drawn = (0..DRAWN).map(|i| draw(seed, first + i * styles));
        let fits = |day: &Stored| day.input.len().max(day.output.len()) < MOST_BYTES;
        let Some(day) = drawn.filter(fits).min_by_key(left) else {
            continue;
        };
        all.merge(&day.counts);
        let name = format!("drawn-{seed}-{:02}", n + 1);
        for (ending, bytes) in [("in", &day.input), ("out", &day.output)] {
            let path = directory.join(format!("{name}.{ending}"));
            fs::write(&path, bytes).map_err(|error| format!("{}: {error}", path.display()))?;
        }
    }
    print!("{}", all.text());
    let never = all.never();
    match never.is_empty() {
        true => println!("{count} days: every kind met every number it can"),
        false => println!("{count} days, never met: {}", never.join(", ")),
    }
    Ok(())
}
