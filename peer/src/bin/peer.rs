//! "A whole day": lines on standard input, answer lines and then the closing lines on
//! standard output, with room for 400 places.

use peer::gate::Gate;
use peer::line::MOST_LINE;
use std::io::{self, BufRead, BufReader, ErrorKind, Read, Write};
use std::process::ExitCode;

const PLACES: usize = 400;
const BUFFER: usize = 1 << 16;

/// Reads one line, at most a byte more than a line may have; the rest of a longer one is
/// passed over, so that it counts once and takes no memory. False at the end.
fn next_line(input: &mut impl BufRead, line: &mut Vec<u8>) -> io::Result<bool> {
    line.clear();
    let most = MOST_LINE as u64 + 1;
    let read = input.by_ref().take(most).read_until(b'\n', line)?;
    if read as u64 == most && !line.ends_with(b"\n") {
        input.skip_until(b'\n')?;
    }
    Ok(read > 0)
}

fn day(mut input: impl BufRead, mut output: impl Write) -> io::Result<()> {
    let mut gate = Gate::new(PLACES);
    let mut line = Vec::with_capacity(MOST_LINE + 1);
    let mut answers = Vec::with_capacity(BUFFER + MOST_LINE);
    while next_line(&mut input, &mut line)? {
        gate.record(&line, &mut answers);
        if answers.len() >= BUFFER {
            output.write_all(&answers)?;
            answers.clear();
        }
    }
    for place in 0..gate.groups() {
        gate.closing(place, &mut answers);
    }
    output.write_all(&answers)?;
    output.flush()
}

fn main() -> ExitCode {
    let input = BufReader::with_capacity(BUFFER, io::stdin().lock());
    match day(input, io::stdout().lock()) {
        Ok(()) => ExitCode::SUCCESS,
        Err(error) if error.kind() == ErrorKind::BrokenPipe => ExitCode::SUCCESS,
        Err(error) => {
            // Where even the complaint cannot be written, the exit code says it.
            let _ = writeln!(io::stderr(), "peer: {error}");
            ExitCode::FAILURE
        }
    }
}
