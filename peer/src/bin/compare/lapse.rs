//! Ways in which the peer's side of blocks can be made wrong on purpose.

use peer::line::{self, MOST_LINE};
use peer::memory::{self, LEAST_WORDS};

/// What is wrong.
#[derive(Clone, Copy, PartialEq, Eq, Debug)]
pub enum Lapse {
    // ---- which lines are taken ----
    /// A line is taken with 31 bytes left.
    Least,
    /// A line is not taken with 32 bytes left, unless it is the first.
    Most,
    /// One line too many is taken.
    More,
    /// One line too few is taken.
    Fewer,
    /// The first line alone is taken.
    First,
    /// A last part without LF is taken.
    NoEnd,
    /// Nothing is taken from a line on that breaks a form.
    Broken,
    /// The rest of a line over 160 bytes is taken for a line of its own.
    Parted,

    // ---- refusals ----
    /// 22 is never tested.
    NoState,
    /// 21 and 22 are not tested where no line ends.
    NoLine,
    /// 21 is tested after 22.
    StateFirst,
    /// What was taken is told with a refusal.
    Told,

    // ---- what is told, answered and left ----
    /// Too many lines are told by one.
    Lines,
    /// Too few bytes are told by one.
    Bytes,
    /// The lines that end are told instead of those that were taken.
    Lent,
    /// A line over 160 bytes counts twice.
    Twice,
    /// What the last line changed is lost.
    Lost,
    /// What all but the last line changed is lost.
    LastAlone,
    /// The last two answers stand in each other's place.
    Swapped,
    /// A byte of the last answer is altered.
    Altered,
    /// A byte past the answers is touched.
    Past,
}

/// Every way, for people.
pub const ALL: [(Lapse, &str); 21] = [
    (Lapse::Least, "a line taken with 31 bytes left"),
    (Lapse::Most, "a line not taken with 32 bytes left"),
    (Lapse::More, "one line too many taken"),
    (Lapse::Fewer, "one line too few taken"),
    (Lapse::First, "the first line alone taken"),
    (Lapse::NoEnd, "a last part without LF taken"),
    (Lapse::Broken, "nothing taken from a broken line on"),
    (Lapse::Parted, "the rest of a line over 160 bytes taken for a line of its own"),
    (Lapse::NoState, "22 never tested for a block"),
    (Lapse::NoLine, "21 and 22 not tested for a block in which no line ends"),
    (Lapse::StateFirst, "21 tested after 22 for a block"),
    (Lapse::Told, "lines told as taken where a block is refused"),
    (Lapse::Lines, "one line too many told as taken"),
    (Lapse::Bytes, "one byte too few told as taken"),
    (Lapse::Lent, "all lines that end told as taken"),
    (Lapse::Twice, "a line over 160 bytes counted twice"),
    (Lapse::Lost, "what the last line of a block changed lost"),
    (Lapse::LastAlone, "what all but the last line of a block changed lost"),
    (Lapse::Swapped, "the answers of two lines of a block swapped"),
    (Lapse::Altered, "a byte of a block's last answer altered"),
    (Lapse::Past, "a byte past the answers of a block touched"),
];

/// The lines that end in a text.
fn ended(text: &[u8]) -> impl Iterator<Item = &[u8]> {
    text.split_inclusive(|&b| b == b'\n').filter(|line| line.ends_with(b"\n"))
}

/// Where the last of some lines begins.
fn last(lines: &[u8]) -> usize {
    lines.len() - ended(lines).last().map_or(0, <[u8]>::len)
}

fn is_long(line: &[u8]) -> bool {
    line.len() > MOST_LINE + 1
}

impl Lapse {
    /// Judges a block, wrongly.
    pub fn block(self, mem: &mut [u64], text: &[u8], to: &mut [u8], taken: &mut [u64; 2]) -> i64 {
        let before = mem.to_vec();
        let given = self.given(text);
        let size = to.len();
        let result = match self {
            // By a buffer that is longer or shorter by one.
            Lapse::Least if size >= 32 => {
                let mut longer = [&*to, &[0]].concat();
                let result = memory::block(mem, &given, &mut longer, taken);
                to.copy_from_slice(&longer[..size]);
                result
            }
            Lapse::Most if size > 32 => memory::block(mem, &given, &mut to[..size - 1], taken),
            _ => memory::block(mem, &given, to, taken),
        };
        let Ok(written) = usize::try_from(result) else {
            return self.refuse(result, mem, text, to, taken);
        };
        let (lines, rest) = given.split_at(taken[1] as usize);
        match (self, ended(rest).next()) {
            (Lapse::More, Some(line)) => {
                let mut answer = [0; 32];
                let length = memory::record(mem, line, &mut answer) as usize;
                let length = length.min(size - written);
                to[written..written + length].copy_from_slice(&answer[..length]);
                *taken = [taken[0] + 1, taken[1] + line.len() as u64];
                return (written + length) as i64;
            }
            (Lapse::Lost | Lapse::LastAlone, _) => {
                let (first, last) = lines.split_at(last(lines));
                let kept = if self == Lapse::Lost { first } else { last };
                mem.copy_from_slice(&before);
                memory::block(mem, kept, &mut vec![0; size], &mut [0; 2]);
            }
            _ => self.tell(text, lines, to, written, taken),
        }
        result
    }

    /// Alters what is answered, and what is told of the lines that were taken.
    fn tell(self, text: &[u8], lines: &[u8], to: &mut [u8], written: usize, taken: &mut [u64; 2]) {
        let answers = &mut to[..written];
        match self {
            Lapse::NoEnd => taken[1] = taken[1].min(text.len() as u64),
            Lapse::Lines if taken[0] > 0 => taken[0] += 1,
            Lapse::Bytes if taken[1] > 0 => taken[1] -= 1,
            Lapse::Lent => {
                *taken = [ended(text).count() as u64, ended(text).flatten().count() as u64];
            }
            Lapse::Twice => taken[0] += ended(lines).filter(|line| is_long(line)).count() as u64,
            Lapse::Swapped if taken[0] > 1 => {
                let second = last(answers);
                let first = last(&answers[..second]);
                answers[first..].rotate_left(second - first);
            }
            Lapse::Altered if taken[0] > 0 => answers[last(answers)] ^= 1,
            Lapse::Past if written < to.len() => to[written] ^= 1,
            _ => {}
        }
    }

    /// What comes of a block that is refused.
    fn refuse(
        self,
        result: i64,
        mem: &[u64],
        text: &[u8],
        to: &mut [u8],
        taken: &mut [u64; 2],
    ) -> i64 {
        match self {
            Lapse::NoState if result == -22 => {
                let mut fresh = vec![0; mem.len().max(LEAST_WORDS)];
                memory::block(&mut fresh, text, to, taken)
            }
            Lapse::NoLine if ended(text).next().is_none() => {
                *taken = [0, 0];
                0
            }
            Lapse::StateFirst if !memory::state_ok(mem) => -22,
            Lapse::Told => {
                *taken = [0, 0];
                result
            }
            _ => result,
        }
    }

    /// What is judged instead of a text.
    fn given(self, text: &[u8]) -> Vec<u8> {
        let end: usize = ended(text).map(<[u8]>::len).sum();
        match self {
            Lapse::Fewer => text[..last(&text[..end])].to_vec(),
            Lapse::First => ended(text).next().unwrap_or_default().to_vec(),
            Lapse::NoEnd if end < text.len() => [text, b"\n"].concat(),
            Lapse::Broken => {
                let good = ended(text).take_while(|line| line::read(line).is_some());
                good.flatten().copied().collect()
            }
            Lapse::Parted => {
                let mut parted = text.to_vec();
                let mut from = 0;
                for line in ended(text) {
                    if is_long(line) {
                        parted[from + MOST_LINE] = b'\n';
                    }
                    from += line.len();
                }
                parted
            }
            _ => text.to_vec(),
        }
    }
}
