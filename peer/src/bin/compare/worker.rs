//! The worker process and what is said to it. `worker/worker.c` has the commands.

use std::io::{self, Read, Write};
use std::os::unix::process::ExitStatusExt;
use std::path::PathBuf;
use std::process::{Child, ChildStdin, ChildStdout, Command as Process, Stdio};
use std::sync::mpsc::{channel, Receiver, RecvTimeoutError, Sender};
use std::thread;
use std::time::Duration;

/// How slices lie and what is read-only.
pub const AT_START: u8 = 1;
pub const LINE_READ_ONLY: u8 = 2;
pub const WORDS_READ_ONLY: u8 = 4;

/// What to start.
#[derive(Clone)]
pub struct Program {
    /// A script that runs programs for x86-64, if one is needed.
    pub through: Option<PathBuf>,
    pub worker: PathBuf,
    /// How the worker is wrong on purpose; 0 for not at all.
    pub wrong: u32,
    /// How long an answer may take.
    pub patience: Duration,
}

/// A running worker. It is stopped when dropped.
pub struct Worker {
    child: Child,
    to: Sender<Vec<u8>>,
    from: Receiver<Vec<u8>>,
    patience: Duration,
}

impl Worker {
    pub fn start(program: &Program) -> io::Result<Worker> {
        let mut process = match &program.through {
            Some(script) => {
                let mut process = Process::new(script);
                process.arg("run").arg(&program.worker);
                process
            }
            None => Process::new(&program.worker),
        };
        if program.wrong > 0 {
            process.arg(program.wrong.to_string());
        }
        process.stdin(Stdio::piped()).stdout(Stdio::piped()).stderr(Stdio::null());
        let mut child = process.spawn()?;
        let (to, commands) = channel();
        let (replies, from) = channel();
        if let (Some(stdin), Some(stdout)) = (child.stdin.take(), child.stdout.take()) {
            thread::spawn(move || pass_on(stdin, &commands));
            thread::spawn(move || pass_back(stdout, &replies));
        }
        Ok(Worker { child, to, from, patience: program.patience })
    }

    /// Whether a worker can be started and answers at all.
    pub fn try_start(program: &Program) -> Result<(), String> {
        let mut worker = Worker::start(program).map_err(|error| format!("no worker: {error}"))?;
        worker.send(Command::new(b'N').u32(0));
        worker.reply().map(|_| ()).map_err(|text| format!("no worker: {text}"))
    }

    /// Sends a command; what comes of it is seen in the reply.
    pub fn send(&self, command: Command) {
        let _ = self.to.send(command.finish());
    }

    /// The reply to the next command, or what became of the worker.
    pub fn reply(&mut self) -> Result<Reply, String> {
        match self.from.recv_timeout(self.patience) {
            Ok(bytes) => Ok(Reply { bytes, at: 0 }),
            Err(RecvTimeoutError::Timeout) => {
                let seconds = self.patience.as_secs();
                Err(format!("the library's side gave no answer for {seconds} s"))
            }
            Err(RecvTimeoutError::Disconnected) => Err(match self.child.wait() {
                Ok(status) => match (status.signal(), status.code()) {
                    (Some(11), _) => {
                        "the library's side touched memory it was not lent".to_string()
                    }
                    (Some(signal), _) => {
                        format!("the library's side was stopped by signal {signal}")
                    }
                    (_, code) => format!("the library's side ended with code {code:?}"),
                },
                Err(error) => format!("the library's side ended: {error}"),
            }),
        }
    }
}

impl Drop for Worker {
    fn drop(&mut self) {
        let _ = self.child.kill();
        let _ = self.child.wait();
    }
}

fn pass_on(mut stdin: ChildStdin, commands: &Receiver<Vec<u8>>) {
    while let Ok(bytes) = commands.recv() {
        if stdin.write_all(&bytes).is_err() {
            return;
        }
    }
}

fn pass_back(mut stdout: ChildStdout, replies: &Sender<Vec<u8>>) {
    let mut length = [0; 4];
    while stdout.read_exact(&mut length).is_ok() {
        let mut bytes = vec![0; u32::from_le_bytes(length) as usize];
        if stdout.read_exact(&mut bytes).is_err() || replies.send(bytes).is_err() {
            return;
        }
    }
}

/// A command that is being written.
pub struct Command(Vec<u8>);

impl Command {
    pub fn new(letter: u8) -> Command {
        Command(vec![0, 0, 0, 0, letter])
    }

    pub fn u8(mut self, value: u8) -> Command {
        self.0.push(value);
        self
    }

    pub fn u16(self, value: usize) -> Command {
        assert!(value <= 0xFFFF);
        self.bytes(&(value as u16).to_le_bytes())
    }

    pub fn u32(self, value: usize) -> Command {
        assert!(value <= 0xFFFF_FFFF);
        self.bytes(&(value as u32).to_le_bytes())
    }

    pub fn u64(self, value: u64) -> Command {
        self.bytes(&value.to_le_bytes())
    }

    pub fn bytes(mut self, bytes: &[u8]) -> Command {
        self.0.extend_from_slice(bytes);
        self
    }

    pub fn words(mut self, words: &[u64]) -> Command {
        self.0.reserve(words.len() * 8);
        for word in words {
            self.0.extend_from_slice(&word.to_le_bytes());
        }
        self
    }

    fn finish(mut self) -> Vec<u8> {
        let length = (self.0.len() - 4) as u32;
        self.0[..4].copy_from_slice(&length.to_le_bytes());
        self.0
    }
}

/// A reply that is being read.
pub struct Reply {
    bytes: Vec<u8>,
    at: usize,
}

impl Reply {
    pub fn bytes(&mut self, count: usize) -> &[u8] {
        self.at += count;
        &self.bytes[self.at - count..self.at]
    }

    fn array<const N: usize>(&mut self) -> [u8; N] {
        let mut array = [0; N];
        array.copy_from_slice(self.bytes(N));
        array
    }

    pub fn u8(&mut self) -> u8 {
        self.array::<1>()[0]
    }

    pub fn u32(&mut self) -> u32 {
        u32::from_le_bytes(self.array())
    }

    pub fn u64(&mut self) -> u64 {
        u64::from_le_bytes(self.array())
    }

    pub fn i64(&mut self) -> i64 {
        i64::from_le_bytes(self.array())
    }

    /// The rest, as words.
    pub fn words(&self) -> impl Iterator<Item = u64> + '_ {
        self.bytes[self.at..].as_chunks().0.iter().map(|&eight| u64::from_le_bytes(eight))
    }

    /// Words that a call changed.
    pub fn changed(&mut self) -> Vec<(u32, u64)> {
        (0..self.u32()).map(|_| (self.u32(), self.u64())).collect()
    }

    /// One answer of a call with a buffer.
    pub fn answer(&mut self) -> Answered {
        let (result, flags) = (self.i64(), self.u8());
        let length = self.u32() as usize;
        let bytes = self.bytes(length).to_vec();
        Answered { result, flags, bytes }
    }
}

/// What a call with a buffer gave: its result, what it did beside that, and the buffer's
/// start up to the last byte that is part of the result or was changed.
#[derive(Clone, PartialEq, Eq)]
pub struct Answered {
    pub result: i64,
    pub flags: u8,
    pub bytes: Vec<u8>,
}

impl Answered {
    /// A line that was written, and nothing else.
    pub fn line(line: Vec<u8>) -> Answered {
        Answered { result: line.len() as i64, flags: 0, bytes: line }
    }

    /// A number returned, and nothing written.
    pub fn refused(number: i64) -> Answered {
        Answered { result: -number, flags: 0, bytes: Vec::new() }
    }

    /// A call that filled a buffer that held a pattern.
    pub fn seen(result: i64, buffer: &[u8], pattern: u8) -> Answered {
        Answered::filled(result, 1, buffer, pattern)
    }

    /// The same with words, whose every byte held the pattern.
    pub fn seen_words(result: i64, words: &[u64], pattern: u8) -> Answered {
        let bytes: Vec<u8> = words.iter().flat_map(|word| word.to_le_bytes()).collect();
        Answered::filled(result, 8, &bytes, pattern)
    }

    /// A result that counts items of so many bytes.
    fn filled(result: i64, item: usize, buffer: &[u8], pattern: u8) -> Answered {
        let changed = buffer.iter().rposition(|&b| b != pattern).map_or(0, |i| i + 1);
        let length = changed.max(usize::try_from(result).unwrap_or(0) * item);
        Answered { result, flags: 0, bytes: buffer[..length.min(buffer.len())].to_vec() }
    }

    /// For people.
    pub fn text(&self) -> String {
        let mut text = match self.result {
            1.. => format!("\"{}\"", self.bytes.escape_ascii()),
            result => format!("{result}"),
        };
        let written = usize::try_from(self.result).unwrap_or(0);
        if self.bytes.len() != written {
            let length = self.bytes.len();
            text += &format!(" (returned {}, but {length} bytes were written)", self.result);
        }
        text + &self.beside()
    }

    /// What was done beside the result, for people.
    pub fn beside(&self) -> String {
        const FLAGS: [(u8, &str); 5] = [
            (1, "the line, lines or message changed"),
            (2, "bytes beside a slice changed"),
            (4, "the words changed"),
            (8, "the house message changed"),
            (16, "record calls answer otherwise or leave other words"),
        ];
        let set = FLAGS.iter().filter(|(flag, _)| self.flags & flag != 0);
        set.map(|(_, what)| format!(" (and {what})")).collect()
    }
}
