//! All comparisons of a run, shared out to some threads with a worker each.

use std::sync::atomic::{AtomicBool, AtomicU64, AtomicUsize, Ordering::Relaxed};
use std::sync::Mutex;
use std::thread;
use std::time::{Duration, Instant};

use peer::days::Plan;
use peer::memory::MOST_PLACES;

use crate::blocks::{self, Ends};
use crate::count::Counts;
use crate::day::{self, Day};
use crate::lengths;
use crate::memories::{self, Batch, Tally};
use crate::messages::{self, Answers};
use crate::orders;
use crate::report;
use crate::shrink::Shrinker;
use crate::states::{self, Kind, LENGTHS, VARIANTS};
use crate::texts;
use crate::worker::{Program, Worker};
use crate::wrong::Wrong;
use crate::Difference;

pub struct Settings {
    pub program: Program,
    pub wrong: Wrong,
    pub seed: u64,
    pub jobs: usize,
    /// Tell how far it has come.
    pub progress: bool,
}

/// One comparison. Each is drawn from the seed and its index alone.
#[derive(Clone, Copy)]
enum Task {
    Sizes,
    Fresh,
    Lengths(usize),
    Day { index: u64, most: usize },
    Memories { index: u64, kind: Kind, variants: usize },
    Sweep(usize),
    Messages { index: u64, calls: usize },
    BlockSweep(usize),
    BlockDay { index: u64, most: usize },
    BlockMemories { index: u64, kind: Kind, variants: usize },
}

/// All comparisons of a run.
#[derive(Default)]
pub struct Work {
    tasks: Vec<Task>,
    pub days: usize,
    records: u64,
    memories: u64,
    messages: u64,
    /// Lines of days in blocks.
    lines: u64,
}

impl Work {
    /// So many records in days, and so many memories.
    pub fn plan(seed: u64, records: usize, memories: usize) -> Work {
        let mut tasks = vec![Task::Sizes, Task::Fresh];
        tasks.extend((0..lengths::PARTS).map(Task::Lengths));
        let memory = |(index, kind, variants)| Task::Memories { index, kind, variants };
        tasks.extend(of_memories(memories).map(memory));
        let first = tasks.len();
        tasks.extend(of_days(seed, records).map(|(index, most)| Task::Day { index, most }));
        let days = tasks.len() - first;
        let (records, memories) = (records as u64, memories as u64);
        Work { tasks, days, records, memories, ..Work::default() }
    }

    /// The same, and order messages: every length and every byte, and so many that are drawn.
    pub fn and_messages(mut self, messages: usize) -> Work {
        self.tasks.extend((0..orders::PARTS).map(Task::Sweep));
        for (index, first) in (0..messages).step_by(orders::CALLS).enumerate() {
            let calls = orders::CALLS.min(messages - first);
            self.tasks.push(Task::Messages { index: index as u64, calls });
        }
        self.messages += messages as u64;
        self
    }

    /// The same, and blocks: every buffer and every cut, days with so many lines, and so many
    /// memories.
    pub fn and_blocks(mut self, seed: u64, lines: usize, memories: usize) -> Work {
        self.tasks.extend((0..texts::PARTS).map(Task::BlockSweep));
        let memory = |(index, kind, variants)| Task::BlockMemories { index, kind, variants };
        self.tasks.extend(of_memories(memories).map(memory));
        let day = |(index, most)| Task::BlockDay { index, most };
        self.tasks.extend(of_days(seed, lines).map(day));
        self.lines += lines as u64;
        self
    }
}

/// The days that have so many lines: their indices, and how many lines of each.
fn of_days(seed: u64, mut lines: usize) -> impl Iterator<Item = (u64, usize)> {
    (0..).map_while(move |index| {
        let most = Plan::new(seed, index).lines.min(lines);
        lines -= most;
        (most > 0).then_some((index, most))
    })
}

/// So many memories: indices, kinds and variants.
fn of_memories(memories: usize) -> impl Iterator<Item = (u64, Kind, usize)> {
    let mut kinds = Vec::new();
    if memories >= 20_000 {
        kinds.extend([(Kind::Places(MOST_PLACES), 6), (Kind::Places(20_000), 6)]);
        // All lengths, with three kinds of contents.
        for content in 0..3 {
            for first in (0..LENGTHS).step_by(VARIANTS) {
                kinds.push((Kind::Lengths { content, first }, VARIANTS.min(LENGTHS - first)));
            }
        }
    }
    let mut left = memories;
    (0..).map_while(move |index: usize| {
        let (kind, variants) = match kinds.get(index) {
            Some(&kind) => kind,
            None if index % 16 == 7 => (Kind::Random, VARIANTS),
            None if index % 16 == 11 => {
                let first = index * 211 % LENGTHS;
                (Kind::Lengths { content: index / 16 % 3, first }, VARIANTS)
            }
            None => (Kind::Day, VARIANTS),
        };
        let variants = variants.min(left);
        left -= variants;
        (variants > 0).then_some((index as u64, kind, variants))
    })
}

/// What failed.
pub enum Case {
    Day(Day),
    Memory(Batch, Option<usize>),
    Message(messages::Batch, Option<usize>),
    Block(blocks::Batch, Option<usize>),
    /// A call about lengths; there is nothing to make smaller.
    Lengths,
}

pub struct Found {
    task: usize,
    pub case: Case,
    pub difference: Difference,
}

/// What was met.
#[derive(Default)]
pub struct Met {
    pub counts: Counts,
    pub tally: Tally,
    pub answers: Answers,
    pub ends: Ends,
}

/// What came of a run.
pub struct Outcome {
    pub met: Met,
    pub found: Option<Found>,
}

#[derive(Default)]
struct Shared {
    next: AtomicUsize,
    stop: AtomicBool,
    done: AtomicBool,
    records: AtomicU64,
    memories: AtomicU64,
    messages: AtomicU64,
    lines: AtomicU64,
    found: Mutex<Vec<Found>>,
}

/// Runs until all is compared or something differs.
pub fn run(settings: &Settings, work: &Work) -> Result<Outcome, String> {
    Worker::try_start(&settings.program)?;
    let shared = Shared::default();
    let mut outcome = Outcome { met: Met::default(), found: None };
    thread::scope(|scope| {
        let threads: Vec<_> = (0..settings.jobs.max(1))
            .map(|_| scope.spawn(|| serve(settings, work, &shared)))
            .collect();
        if settings.progress {
            scope.spawn(|| tell(work, &shared));
        }
        let mut failed = None;
        for thread in threads {
            match thread.join() {
                Ok(Ok(met)) => {
                    outcome.met.counts.merge(&met.counts);
                    outcome.met.tally.merge(&met.tally);
                    outcome.met.answers.merge(&met.answers);
                    outcome.met.ends.merge(&met.ends);
                }
                Ok(Err(text)) => failed = Some(text),
                Err(_) => failed = Some("a thread of the harness failed".to_string()),
            }
        }
        shared.done.store(true, Relaxed);
        failed.map_or(Ok(()), Err)
    })?;
    let found = shared.found.into_inner().map_err(|error| error.to_string())?;
    outcome.found = found.into_iter().min_by_key(|found| found.task);
    Ok(outcome)
}

fn tell(work: &Work, shared: &Shared) {
    let begun = Instant::now();
    let mut told = Instant::now();
    while !shared.done.load(Relaxed) {
        thread::sleep(Duration::from_millis(100));
        if told.elapsed() >= Duration::from_secs(5) {
            told = Instant::now();
            let done = [&shared.records, &shared.memories, &shared.messages, &shared.lines];
            let [records, memories, messages, lines] = done.map(|n| n.load(Relaxed));
            let seconds = begun.elapsed().as_secs();
            eprintln!(
                "{records} of {} records, {memories} of {} memories, {messages} of {} messages, \
                 {lines} of {} lines in blocks, {seconds} s",
                work.records, work.memories, work.messages, work.lines
            );
        }
    }
}

/// One thread: takes the next comparison until there is none.
fn serve(settings: &Settings, work: &Work, shared: &Shared) -> Result<Met, String> {
    let start = || Worker::start(&settings.program).map_err(|error| format!("worker: {error}"));
    let mut worker = start()?;
    let mut met = Met::default();
    while !shared.stop.load(Relaxed) {
        let at = shared.next.fetch_add(1, Relaxed);
        let Some(task) = work.tasks.get(at) else {
            break;
        };
        let result = compare(*task, settings, &mut worker, &mut met);
        match *task {
            Task::Day { most, .. } => shared.records.fetch_add(most as u64, Relaxed),
            Task::Memories { variants, .. } => shared.memories.fetch_add(variants as u64, Relaxed),
            Task::Messages { calls, .. } => shared.messages.fetch_add(calls as u64, Relaxed),
            Task::BlockDay { most, .. } => shared.lines.fetch_add(most as u64, Relaxed),
            _ => 0,
        };
        if let Err((case, difference)) = result {
            shared.stop.store(true, Relaxed);
            if let Ok(mut found) = shared.found.lock() {
                found.push(Found { task: at, case, difference });
            }
        }
    }
    Ok(met)
}

fn compare(
    task: Task,
    settings: &Settings,
    worker: &mut Worker,
    met: &mut Met,
) -> Result<(), (Case, Difference)> {
    let (seed, wrong) = (settings.seed, settings.wrong);
    let lengths = |result: Result<(), Difference>| result.map_err(|d| (Case::Lengths, d));
    match task {
        Task::Sizes => lengths(lengths::sizes(worker)),
        Task::Fresh => lengths(lengths::fresh(worker)),
        Task::Day { index, most } => {
            let day = day::make(seed, index, most);
            day::compare(&day, worker, wrong, &mut met.counts).map_err(|d| (Case::Day(day), d))
        }
        Task::Lengths(part) => {
            let batch = lengths::make(part);
            memories::compare(&batch, worker, wrong, &mut Tally::default())
                .map_err(|(which, d)| (Case::Memory(batch, which), d))
        }
        Task::Memories { index, kind, variants } => {
            let batch = states::make(seed, index, kind, variants);
            memories::compare(&batch, worker, wrong, &mut met.tally)
                .map_err(|(which, d)| (Case::Memory(batch, which), d))
        }
        Task::Sweep(part) => {
            let batch = orders::sweep(part);
            messages::compare(&batch, worker, wrong, &mut met.answers)
                .map_err(|(which, d)| (Case::Message(batch, which), d))
        }
        Task::Messages { index, calls } => {
            let batch = orders::make(seed, index, calls);
            messages::compare(&batch, worker, wrong, &mut met.answers)
                .map_err(|(which, d)| (Case::Message(batch, which), d))
        }
        Task::BlockSweep(part) => block(texts::sweep(part), wrong, worker, met),
        Task::BlockDay { index, most } => block(texts::day(seed, index, most), wrong, worker, met),
        Task::BlockMemories { index, kind, variants } => {
            block(texts::memories(seed, index, kind, variants), wrong, worker, met)
        }
    }
}

fn block(
    batch: blocks::Batch,
    wrong: Wrong,
    worker: &mut Worker,
    met: &mut Met,
) -> Result<(), (Case, Difference)> {
    blocks::compare(&batch, worker, wrong, &mut met.ends)
        .map_err(|(which, d)| (Case::Block(batch, which), d))
}

/// The smallest input that fails, as far as one is found.
pub fn shrink(settings: &Settings, found: &Found) -> Case {
    let shrinker = Shrinker { program: &settings.program, wrong: settings.wrong };
    match &found.case {
        Case::Day(day) => Case::Day(shrinker.day(day, &found.difference)),
        Case::Memory(batch, which) => match shrinker.memory(batch, *which) {
            Some(batch) => Case::Memory(batch, Some(0)),
            None => Case::Memory(batch.clone(), *which),
        },
        Case::Message(batch, which) => Case::Message(shrinker.messages(batch, *which), None),
        Case::Block(batch, which) => Case::Block(shrinker.blocks(batch, *which), None),
        Case::Lengths => Case::Lengths,
    }
}

/// What is written down of a difference.
pub fn report(settings: &Settings, found: &Found, least: &Case) -> String {
    let first = &found.difference.text;
    match least {
        Case::Day(day) => report::day(day, first, &settings.program, settings.wrong),
        Case::Memory(batch, Some(0)) if batch.variants.len() == 1 => {
            report::memory(batch, &settings.program, settings.wrong)
        }
        Case::Memory(batch, which) => {
            let (count, which) =
                (batch.variants.len(), which.map_or("?".into(), |i| i.to_string()));
            format!(
                "Only in a row of {count} memories (seed {}), at {which}: {first}\n",
                settings.seed
            )
        }
        Case::Message(batch, _) => {
            report::messages(batch, first, &settings.program, settings.wrong)
        }
        Case::Block(batch, _) => report::blocks(batch, first, &settings.program, settings.wrong),
        Case::Lengths => format!("{first}\n"),
    }
}
