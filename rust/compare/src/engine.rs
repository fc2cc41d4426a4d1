//! What is common to all comparisons: inputs in parallel, counting, and the smallest input that differs.

use std::fmt::{self, Debug};
use std::sync::Mutex;
use std::sync::atomic::{AtomicU64, Ordering};
use std::thread;

/// A call that both sides have.
pub trait Subject: Sync {
    /// What it is given.
    type Input: Clone + Debug + Send;

    /// How many cases an input is.
    fn cases(&self, _: &Self::Input) -> u64 {
        1
    }

    /// The library's answer, all of it, as words.
    fn ours(&self, input: &Self::Input, words: &mut Vec<u64>);

    /// The reference's answer in the same form.
    fn theirs(&self, input: &Self::Input, words: &mut Vec<u64>);

    /// Inputs that are smaller, the smallest first; none of an input that is smallest.
    fn smaller(&self, input: &Self::Input) -> Vec<Self::Input>;

    /// What has to be among the inputs, by name: 64 names at most.
    fn wanted(&self) -> &'static [&'static str] {
        &[]
    }

    /// Which of the names an input has: bit k for the name k.
    fn has(&self, _: &Self::Input) -> u64 {
        0
    }
}

/// Facts as bits, the first lowest, for [`Subject::has`].
pub fn bits<const N: usize>(facts: [bool; N]) -> u64 {
    (0..).zip(facts).map(|(bit, fact)| u64::from(fact) << bit).sum()
}

/// Inputs by number, so that each can be made by itself.
pub struct Inputs<'a, I> {
    pub count: u64,
    pub at: Box<dyn Fn(u64) -> I + Sync + 'a>,
}

impl<'a, I> Inputs<'a, I> {
    pub fn new(count: u64, at: impl Fn(u64) -> I + Sync + 'a) -> Inputs<'a, I> {
        Inputs { count, at: Box::new(at) }
    }
}

/// What a comparison without difference was: its cases, and how many inputs had each name that was wanted.
#[derive(Debug, Default, PartialEq, Eq)]
pub struct Compared {
    pub cases: u64,
    pub drawn: Vec<(&'static str, u64)>,
}

impl Compared {
    /// The names that no input had.
    pub fn missing(&self) -> Vec<&'static str> {
        self.drawn.iter().filter(|(_, count)| *count == 0).map(|(name, _)| *name).collect()
    }
}

/// A fault that the self-test puts in, to see it caught: one bit of one word of one side's answers. `word` picks the word
/// of each answer.
#[derive(Debug, Clone, Copy)]
pub enum Fault {
    Ours { word: usize },
    Theirs { word: usize },
}

/// Where the two differ, at the smallest input that was found.
#[derive(Debug)]
pub struct Difference {
    pub input: String,
    pub ours: Vec<u64>,
    pub theirs: Vec<u64>,
}

impl fmt::Display for Difference {
    fn fmt(&self, f: &mut fmt::Formatter<'_>) -> fmt::Result {
        let first = self.ours.iter().zip(&self.theirs).position(|(x, y)| x != y);
        let at = first.unwrap_or(self.ours.len().min(self.theirs.len()));
        let shown = |words: &[u64]| words.get(at).map_or("nothing".to_string(), |word| format!("{word:#x}"));
        writeln!(f, "they differ; the smallest input found is {}", self.input)?;
        write!(f, "word {at}: ours {}, the reference's {}", shown(&self.ours), shown(&self.theirs))
    }
}

/// Answers of one input, in buffers that are used again.
#[derive(Default)]
struct Answers {
    ours: Vec<u64>,
    theirs: Vec<u64>,
}

impl Answers {
    fn differ<S: Subject>(&mut self, subject: &S, input: &S::Input, fault: Option<Fault>) -> bool {
        self.ours.clear();
        self.theirs.clear();
        subject.ours(input, &mut self.ours);
        subject.theirs(input, &mut self.theirs);
        let (side, word) = match fault {
            None => return self.ours != self.theirs,
            Some(Fault::Ours { word }) => (&mut self.ours, word),
            Some(Fault::Theirs { word }) => (&mut self.theirs, word),
        };
        let at = word % side.len();
        side[at] ^= 1;
        self.ours != self.theirs
    }
}

/// How many inputs a thread takes at once.
const BATCH: u64 = 16;

/// Compares all inputs: what was compared, or the difference at the smallest input found.
pub fn compare<S: Subject>(
    subject: &S,
    inputs: &Inputs<S::Input>,
    fault: Option<Fault>,
) -> Result<Compared, Difference> {
    let next = AtomicU64::new(0);
    let cases = AtomicU64::new(0);
    let drawn: Vec<AtomicU64> = subject.wanted().iter().map(|_| AtomicU64::new(0)).collect();
    // The number of the first input that differs, so far.
    let first = AtomicU64::new(u64::MAX);
    let found: Mutex<Option<(u64, S::Input)>> = Mutex::new(None);
    let work = || {
        let mut answers = Answers::default();
        loop {
            let from = next.fetch_add(BATCH, Ordering::Relaxed);
            for number in from..inputs.count.min(from + BATCH) {
                if number > first.load(Ordering::Relaxed) {
                    return;
                }
                let input = (inputs.at)(number);
                cases.fetch_add(subject.cases(&input), Ordering::Relaxed);
                let has = subject.has(&input);
                for (_, count) in drawn.iter().enumerate().filter(|(bit, _)| has >> bit & 1 == 1) {
                    count.fetch_add(1, Ordering::Relaxed);
                }
                if answers.differ(subject, &input, fault) {
                    first.fetch_min(number, Ordering::Relaxed);
                    let mut found = found.lock().expect("no thread panicked");
                    if found.as_ref().is_none_or(|(other, _)| number < *other) {
                        *found = Some((number, input));
                    }
                    return;
                }
            }
            if from + BATCH >= inputs.count {
                return;
            }
        }
    };
    thread::scope(|scope| {
        for _ in 0..thread::available_parallelism().map_or(1, usize::from) {
            scope.spawn(work);
        }
    });
    match found.into_inner().expect("no thread panicked") {
        None => {
            let counts = drawn.into_iter().map(AtomicU64::into_inner);
            Ok(Compared { cases: cases.into_inner(), drawn: subject.wanted().iter().copied().zip(counts).collect() })
        }
        Some((_, input)) => Err(smallest(subject, input, fault)),
    }
}

/// The difference at an input from which no smaller one differs.
fn smallest<S: Subject>(subject: &S, mut input: S::Input, fault: Option<Fault>) -> Difference {
    let mut answers = Answers::default();
    while let Some(smaller) = subject.smaller(&input).into_iter().find(|other| answers.differ(subject, other, fault)) {
        input = smaller;
    }
    answers.differ(subject, &input, fault);
    Difference { input: format!("{input:?}"), ours: answers.ours, theirs: answers.theirs }
}
