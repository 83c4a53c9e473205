//! The program: splitting its input, and ending quietly.

use std::fs;
use std::io::{Read, Write};
use std::process::{Command, Stdio};
use std::thread;

fn run(input: Vec<u8>) -> Vec<u8> {
    let mut child = Command::new(env!("CARGO_BIN_EXE_peer"))
        .stdin(Stdio::piped())
        .stdout(Stdio::piped())
        .spawn()
        .unwrap();
    let mut stdin = child.stdin.take().unwrap();
    let feeding = thread::spawn(move || stdin.write_all(&input));
    let output = child.wait_with_output().unwrap();
    feeding.join().unwrap().unwrap();
    assert!(output.status.success());
    output.stdout
}

#[test]
fn sample_days() {
    for entry in fs::read_dir("../crates/days/data").unwrap() {
        let path = entry.unwrap().path();
        if path.extension().is_some_and(|e| e == "in") {
            let expected = fs::read(path.with_extension("out")).unwrap();
            assert!(run(fs::read(&path).unwrap()) == expected, "{}", path.display());
        }
    }
}

#[test]
fn where_lines_end() {
    const BROKEN: &str = "?\t-\tR\t1\t0\n";
    let says = |input: Vec<u8>, expected: &str| {
        let output = run(input);
        assert_eq!(String::from_utf8(output).unwrap(), expected);
    };
    says(b"".to_vec(), "");
    says(b"O".to_vec(), BROKEN);
    says(b"\n".to_vec(), BROKEN);
    says(b"\n\nS\t7".to_vec(), &BROKEN.repeat(3));
    says(b"S\t7\n".to_vec(), "S\t7\tP\t0\t0\n");
    says(b"S\t7\r\n".to_vec(), BROKEN);
    for length in [159, 160, 161, 162, 321, 322, 323, 65_535, 65_536, 1_000_000] {
        let mut input = vec![b'S'; length];
        says(input.clone(), BROKEN);
        input.extend(b"\nS\t7\n");
        says(input, &format!("{BROKEN}S\t7\tP\t0\t0\n"));
    }
}

#[test]
fn a_closed_pipe_is_no_failure() {
    let mut child = Command::new(env!("CARGO_BIN_EXE_peer"))
        .stdin(Stdio::piped())
        .stdout(Stdio::piped())
        .stderr(Stdio::piped())
        .spawn()
        .unwrap();
    drop(child.stdout.take());
    let mut stdin = child.stdin.take().unwrap();
    let feeding = thread::spawn(move || {
        // The program may have gone before all is written.
        let _ = stdin.write_all(&b"\n".repeat(1_000_000));
    });
    let mut complaint = String::new();
    child.stderr.take().unwrap().read_to_string(&mut complaint).unwrap();
    assert!(child.wait().unwrap().success());
    feeding.join().unwrap();
    assert_eq!(complaint, "");
}
