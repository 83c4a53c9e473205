//! One day on both sides.

use peer::days::rng::Rng;
use peer::days::{lines, Plan};
use peer::gate::Gate;
use peer::memory;

use crate::count::Counts;
use crate::map;
use crate::worker::{Answered, Command, Reply, Worker, AT_START, LINE_READ_ONLY, WORDS_READ_ONLY};
use crate::wrong::Wrong;
use crate::Difference;

/// What both sides are given.
#[derive(Clone)]
pub struct Day {
    /// The words lent, and what they hold before the fresh state is made.
    pub words: usize,
    pub fill: u64,
    pub mode: u8,
    pub pattern: u8,
    /// After so many steps the state, the words and the closing lines are compared.
    pub every: usize,
    pub steps: Vec<Step>,
}

/// One call: a line and the length of the buffer.
#[derive(Clone)]
pub struct Step {
    pub line: Vec<u8>,
    pub size: usize,
}

/// The day of this index, cut to so many lines.
pub fn make(seed: u64, index: u64, most: usize) -> Day {
    let plan = Plan::new(seed, index);
    let mut rng = Rng::new(seed, 2, index);
    let words = memory::words(plan.room) + rng.index(memory::PLACE_WORDS);
    let every = if plan.room > 500 { 500 } else { rng.between(20, 150) as usize };
    let mut steps = Vec::new();
    for line in lines(plan).into_iter().take(most) {
        let size = match rng.below(40) {
            // A buffer that is too short first: 21, and nothing changes.
            0 => {
                let short = rng.pick(&[0, 1, 16, 30, 31]);
                steps.push(Step { line: line.clone(), size: short });
                32
            }
            1 => rng.between(33, 100) as usize,
            2 => 96,
            _ => 32,
        };
        steps.push(Step { line, size });
    }
    let mut mode = rng.pick(&[0, 0, AT_START]) | WORDS_READ_ONLY;
    if rng.chance(15) {
        mode |= LINE_READ_ONLY;
    }
    let any = rng.draw();
    let fill = rng.pick(&[0, u64::MAX, 1, any]);
    let pattern = rng.pick(b"\xAA\x00\xFF\n\t0\x55");
    Day { words, fill, mode, pattern, every, steps }
}

/// What the peer says to a part of the day; the library has to say the same.
enum Expected {
    Fresh,
    /// Answers to steps from this one on.
    Answers(usize, Vec<Answered>),
    State,
    Words(Vec<u64>),
    Closings(Vec<(u64, Answered)>),
}

/// The peer's side of a day.
pub struct Peer {
    gate: Gate,
    wrong: Wrong,
    words: usize,
}

impl Peer {
    pub fn new(day: &Day, wrong: Wrong) -> Peer {
        Peer { gate: Gate::new(memory::room(day.words)), wrong, words: day.words }
    }

    pub fn step(&mut self, step: &Step, counts: &mut Counts) -> Answered {
        if step.size < self.wrong.least_buffer() {
            return Answered::refused(21);
        }
        let mut line = Vec::with_capacity(32);
        let answer = self.wrong.record(&mut self.gate, self.words, &step.line, &mut line);
        counts.add(line[0], &answer);
        Answered::line(line)
    }

    pub fn words(&self) -> Vec<u64> {
        let mut words = vec![0; self.words];
        memory::store(&self.gate, &mut words);
        self.wrong.words(&mut words);
        words
    }

    /// Every closing line, and what is said to places that no group has.
    pub fn closings(&self) -> Vec<(u64, usize, Answered)> {
        let groups = self.gate.groups() as u64;
        let ask = |(place, size): (u64, usize)| (place, size, self.closing(place, size));
        let listed = (0..groups).map(|place| (place, 96 + place as usize % 5));
        let odd = [(groups, 96), (64, 96), (u64::MAX, 120), (0, 95), (groups, 95), (1 << 32, 96)];
        listed.chain(odd).map(ask).collect()
    }

    fn closing(&self, place: u64, size: usize) -> Answered {
        let mut line = Vec::with_capacity(96);
        if size < 96 {
            Answered::refused(21)
        } else if self.gate.closing(place as usize, &mut line) {
            self.wrong.closing(&mut line);
            Answered::line(line)
        } else {
            Answered::refused(5)
        }
    }
}

/// Asks for the records of these steps.
pub fn records(pattern: u8, steps: &[Step]) -> Command {
    let command = Command::new(b'R').u8(pattern).u32(steps.len());
    steps.iter().fold(command, |command, step| {
        command.u16(step.line.len()).u16(step.size).bytes(&step.line)
    })
}

/// Asks for these closing lines.
pub fn closings(pattern: u8, asked: &[(u64, usize, Answered)]) -> Command {
    let command = Command::new(b'E').u8(pattern).u32(asked.len());
    asked.iter().fold(command, |command, &(place, size, _)| command.u64(place).u16(size))
}

/// Asks for a fresh state.
pub fn fresh(day: &Day) -> Command {
    Command::new(b'Z').u8(day.mode).u32(day.words).u64(day.fill)
}

/// Runs the day on both sides.
pub fn compare(
    day: &Day,
    worker: &mut Worker,
    wrong: Wrong,
    counts: &mut Counts,
) -> Result<(), Difference> {
    let mut peer = Peer::new(day, wrong);
    let mut expected = vec![Expected::Fresh];
    worker.send(fresh(day));
    for (i, steps) in day.steps.chunks(day.every).enumerate() {
        let answers = steps.iter().map(|step| peer.step(step, counts)).collect();
        worker.send(records(day.pattern, steps));
        expected.push(Expected::Answers(i * day.every, answers));
        worker.send(Command::new(b'S'));
        expected.push(Expected::State);
        worker.send(Command::new(b'G'));
        expected.push(Expected::Words(peer.words()));
        // The closing lines at the end, and sometimes in between.
        if i % 4 == 0 || (i + 1) * day.every >= day.steps.len() {
            let asked = peer.closings();
            worker.send(closings(day.pattern, &asked));
            expected.push(Expected::Closings(asked.into_iter().map(|a| (a.0, a.2)).collect()));
        }
    }
    let mut at = 0;
    for part in &expected {
        let steps = match part {
            Expected::Answers(first, answers) => {
                at = first + answers.len();
                at
            }
            _ => at,
        };
        let stopped = |text| Difference { steps, text };
        let mut reply = worker.reply().map_err(stopped)?;
        judge(part, &mut reply, steps, day)?;
    }
    Ok(())
}

fn judge(part: &Expected, reply: &mut Reply, steps: usize, day: &Day) -> Result<(), Difference> {
    let differ = |steps: usize, text: String| Err(Difference { steps, text });
    match part {
        Expected::Fresh => match reply.i64() {
            0 => Ok(()),
            other => differ(0, format!("fresh state: {other}, not 0")),
        },
        Expected::Answers(first, answers) => {
            for (i, theirs) in answers.iter().enumerate() {
                let ours = reply.answer();
                if ours != *theirs {
                    let step = first + i;
                    let line = day.steps[step].line.escape_ascii();
                    let (a, b) = (ours.text(), theirs.text());
                    return differ(step + 1, format!("\"{line}\": library {a}, peer {b}"));
                }
            }
            Ok(())
        }
        Expected::State => match (reply.i64(), reply.u8()) {
            (0, 0) => Ok(()),
            (result, flags) => {
                differ(steps, format!("state: library {result} (flags {flags}), peer 0"))
            }
        },
        Expected::Words(theirs) => {
            if let Some((i, (a, b))) =
                reply.words().zip(theirs).enumerate().find(|(_, (a, b))| a != *b)
            {
                let name = map::name(i, theirs.len());
                return differ(steps, format!("word {i} ({name}): library {a}, peer {b}"));
            }
            Ok(())
        }
        Expected::Closings(asked) => {
            for (place, theirs) in asked {
                let ours = reply.answer();
                if ours != *theirs {
                    let (a, b) = (ours.text(), theirs.text());
                    return differ(steps, format!("closing line {place}: library {a}, peer {b}"));
                }
            }
            Ok(())
        }
    }
}
