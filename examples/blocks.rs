//! A host in Rust that lends the lines as they come, many at once: a day's lines on standard input, answer lines and then closing lines on standard
//! output, as the program `gate` does.
//!
//!   tools/archive
//!   rustc -O --edition 2021 examples/blocks.rs -C link-arg=target/staticlib/libhost.a -o blocks && ./blocks < examples/document-01.in
use std::io::{Read, Write};

#[path = "../include/ticketmoss.rs"]
mod ticketmoss;

fn main() -> std::io::Result<()> {
    let mut words = vec![0; ticketmoss::words(400)];
    let (mut lines, mut answers) = (vec![0; 65_536], vec![0; 65_536]);
    let mut closing = [0; ticketmoss::CLOSING_BYTES];
    let mut input = std::io::stdin().lock();
    let mut output = std::io::BufWriter::new(std::io::stdout().lock());
    let mut have = 0;

    ticketmoss::fresh(&mut words).expect("1,669 words or more");
    loop {
        let more = input.read(&mut lines[have..])?;
        if more == 0 {
            break;
        }
        have += more;
        // what was not taken, for want of room for its answer or of its LF, moves to the front
        while lines[..have].contains(&b'\n') {
            let taken =
                ticketmoss::block(&mut words, &lines[..have], &mut answers).expect("a good state");
            output.write_all(&answers[..taken.written])?;
            lines.copy_within(taken.bytes..have, 0);
            have -= taken.bytes;
        }
        // a line that is longer is broken, whatever its rest holds
        have = have.min(ticketmoss::LINE_BYTES);
    }
    // the input has ended without LF: one broken line
    if have > 0 {
        let bytes =
            ticketmoss::record(&mut words, &lines[..have], &mut answers).expect("a good state");
        output.write_all(&answers[..bytes])?;
    }
    for place in 0.. {
        match ticketmoss::closing(&words, place, &mut closing) {
            Ok(bytes) => output.write_all(&closing[..bytes])?,
            Err(_) => break,
        }
    }
    output.flush()
}
