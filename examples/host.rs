//! A host in Rust: a day's lines on standard input, answer lines and then closing lines on standard output, as the program `gate` does.
//!
//!   tools/archive
//!   rustc -O --edition 2021 examples/host.rs -C link-arg=target/staticlib/libhost.a -o host && ./host < examples/document-01.in
use std::io::{BufRead, Write};

#[path = "../include/ticketmoss.rs"]
mod ticketmoss;

fn main() -> std::io::Result<()> {
    let mut words = vec![0; ticketmoss::words(400)];
    let mut answer = [0; ticketmoss::ANSWER_BYTES];
    let mut closing = [0; ticketmoss::CLOSING_BYTES];
    let mut input = std::io::stdin().lock();
    let mut output = std::io::BufWriter::new(std::io::stdout().lock());
    let mut line = Vec::new();

    ticketmoss::fresh(&mut words).expect("1,669 words or more");
    while input.read_until(b'\n', &mut line)? > 0 {
        let bytes = ticketmoss::record(&mut words, &line, &mut answer).expect("a good state");
        output.write_all(&answer[..bytes])?;
        line.clear();
    }
    for place in 0.. {
        match ticketmoss::closing(&words, place, &mut closing) {
            Ok(bytes) => output.write_all(&closing[..bytes])?,
            Err(_) => break,
        }
    }
    output.flush()
}
