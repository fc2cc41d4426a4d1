//! Which calls are compared, on which inputs, and how many.

use crate::engine::{Compared, Difference, Fault, Inputs, Subject, compare};
use crate::random::Random;
use crate::subjects::legends::samples::Drawn;
use crate::subjects::legends::{Kinds, builders, paintings, ranges, values};
use crate::subjects::stored;
use crate::subjects::{cards, hex, keys, lookups, palettes, patterns, ramps};
use std::time::{Duration, Instant};

/// How much is run.
#[derive(Debug, Clone, Copy)]
pub struct Plan {
    pub seed: u64,
    /// Random inputs of each call that has them; one in 50 as many where an input is a list of colours.
    pub random: u64,
    /// One in this many f32 patterns.
    pub patterns: u32,
    /// One in this many of the lists that have every pair of channel values.
    pub pairs: u64,
    /// Random legends in each comparison that has them.
    pub legends: u64,
}

impl Plan {
    /// What the gate runs: seconds.
    pub fn gate(seed: u64) -> Plan {
        Plan { seed, random: 200_000, patterns: 257, pairs: 509, legends: 20_000 }
    }

    /// Everything: all f32, all pairs of channel values, and as many random inputs as asked.
    pub fn full(seed: u64, random: u64) -> Plan {
        Plan { seed, random, patterns: 1, pairs: 1, legends: random / 20 }
    }

    /// Legends above all: `cases` at least over all comparisons that have legends, and of the rest what the gate runs.
    pub fn cases(seed: u64, cases: u64) -> Plan {
        Plan { legends: cases.div_ceil(CASES_OF_ONE), ..Plan::gate(seed) }
    }

    /// Next to nothing, for the self-test.
    pub fn least(seed: u64) -> Plan {
        Plan { seed, random: 100, patterns: 1 << 20, pairs: 1 << 18, legends: 50 }
    }
}

/// Cases that one random legend in each comparison comes to, at least: 3 times 8 samples, 3 times 2 rasters, and those
/// builders that nothing added refuses.
const CASES_OF_ONE: u64 = 33;

type Go = dyn Fn(&Plan, Option<Fault>) -> Result<Compared, Difference>;

/// One comparison: a call over its inputs.
pub struct Run {
    pub name: &'static str,
    go: Box<Go>,
}

/// What a comparison without difference was.
pub struct Report {
    pub name: &'static str,
    pub compared: Compared,
    pub time: Duration,
}

impl Run {
    fn new<S: Subject>(
        name: &'static str,
        subject: impl Fn() -> S + 'static,
        inputs: impl Fn(&Plan) -> Inputs<'static, S::Input> + 'static,
    ) -> Run {
        Run { name, go: Box::new(move |plan, fault| compare(&subject(), &inputs(plan), fault)) }
    }

    /// Runs it over inputs of its own: its seed is made of the plan's and its name.
    pub fn go(&self, plan: &Plan, fault: Option<Fault>) -> Result<Report, Difference> {
        let began = Instant::now();
        let compared = (self.go)(&Plan { seed: self.seed(plan.seed), ..*plan }, fault)?;
        Ok(Report { name: self.name, compared, time: began.elapsed() })
    }

    /// The seed of this comparison's inputs in a run with a seed.
    pub fn seed(&self, seed: u64) -> u64 {
        self.name.bytes().fold(seed, |seed, byte| Random::new(seed, byte.into()).word())
    }
}

/// Every comparison that can be run: those with the reference where its text is here, and those with the rules.
pub fn runs() -> Vec<Run> {
    let mut all = if oracle::PRESENT { oracle_runs() } else { vec![] };
    all.extend(rule_runs());
    all
}

/// The comparisons with the reference.
pub fn oracle_runs() -> Vec<Run> {
    let mut all = leaf_runs();
    all.extend(legend_runs());
    all
}

/// The comparisons with the rules, where the reference cannot hold the record.
pub fn rule_runs() -> Vec<Run> {
    vec![
        ruled::<f32>("any record, against the rules, f32"),
        ruled::<u8>("any record, against the rules, u8"),
        ruled::<i16>("any record, against the rules, i16"),
        Run::new(
            "any record, total range and colour list, against the rules",
            || stored::Wholes,
            |plan| stored::random_records(plan.seed, plan.legends),
        ),
        Run::new(
            "cards, written of any record",
            || cards::Writer,
            |plan| cards::random_writings(plan.seed, plan.legends),
        ),
        Run::new("cards, read of any bytes", || cards::Reader, |plan| cards::random_readings(plan.seed, plan.legends)),
    ]
}

fn ruled<T: stored::Raw>(name: &'static str) -> Run {
    Run::new(name, stored::Uses::<T>::default, |plan| stored::random(plan.seed, plan.legends))
}

/// The comparisons of builders and of a legend's uses.
fn legend_runs() -> Vec<Run> {
    let builder = |name, kinds| {
        Run::new(name, || builders::Builders, move |plan| builders::random(kinds, plan.seed, plan.legends))
    };
    let ranged = |name, kinds| {
        Run::new(name, || ranges::Ranges, move |plan| builders::random(kinds, plan.seed, plan.legends / 4))
    };
    vec![
        builder("builder, linear, of lists and ramps", Kinds::Linear),
        builder("builder, equal bands, of lists and ramps", Kinds::EqualBands),
        builder("builder, manual ranges, of lists and ramps", Kinds::ManualRanges),
        builder("builder, bands as given", Kinds::BandsAsGiven),
        builder("builder, categories by values, of lists and ramps", Kinds::Values),
        builder("builder, categories by range, of lists and ramps", Kinds::KeyRange),
        ranged("total range and colour list, of built legends", Kinds::All),
        ranged("total range and colour list, of records without a builder", Kinds::Stored),
        valued::<f32>("colour of a sample, f32"),
        valued::<u8>("colour of a sample, u8"),
        valued::<i16>("colour of a sample, i16"),
        painted::<f32>("painting, plain and 4, 8, 16 lanes, f32"),
        painted::<u8>("painting, plain and 4, 8, 16 lanes, u8"),
        painted::<i16>("painting, plain and 4, 8, 16 lanes, i16"),
    ]
}

fn valued<T: Drawn>(name: &'static str) -> Run {
    Run::new(name, values::Values::<T>::default, |plan| values::random(plan.seed, plan.legends))
}

fn painted<T: Drawn>(name: &'static str) -> Run {
    Run::new(name, paintings::Paintings::<T>::default, |plan| paintings::random(plan.seed, 2 * plan.legends))
}

fn leaf_runs() -> Vec<Run> {
    vec![
        Run::new("hex, every ASCII pair at each place", || hex::Hex, |_| hex::all_pairs()),
        Run::new("hex, random texts of 0 to 12 bytes", || hex::Hex, |plan| hex::random(plan.seed, plan.random)),
        Run::new("palettes", || palettes::Palettes, |_| palettes::all()),
        Run::new("ramps of palettes", || palettes::PaletteRamps, |_| palettes::all()),
        Run::new("ramps of random lists", || ramps::ListRamps, |plan| ramps::random(plan.seed, plan.random / 50)),
        Run::new("ramps of every pair of channel values", || ramps::ListRamps, |plan| ramps::every_pair(plan.pairs)),
        Run::new("look-up, plain, near the edges", lookups::Plain::default, |_| lookups::edges()),
        Run::new("look-up, plain, f32 patterns", lookups::Plain::default, |plan| patterns::every(plan.patterns)),
        Run::new("look-up, 4, 8, 16 lanes, near the edges", lookups::Lanes::default, |_| lookups::edges()),
        Run::new("look-up, 4, 8, 16 lanes, f32 patterns", lookups::Lanes::default, |plan| {
            patterns::every(plan.patterns)
        }),
        Run::new("keys, near the edges", || keys::Keys, |_| keys::edges()),
        Run::new("keys, f32 patterns", || keys::Keys, |plan| patterns::every(plan.patterns)),
    ]
}

/// Runs the comparisons of a list whose names have `only` in them and prints a line for each; whether there was no
/// difference and nothing was missing among the inputs, and how many cases there were.
pub fn run_all(runs: Vec<Run>, plan: &Plan, only: &str) -> (bool, u64) {
    println!("seed {}", plan.seed);
    let (mut same, mut total) = (true, 0);
    for run in runs.into_iter().filter(|run| run.name.contains(only)) {
        match run.go(plan, None) {
            Ok(Report { name, compared, time }) => {
                total += compared.cases;
                println!("{:>14} cases, no difference, {:>7.1} s: {name}", compared.cases, time.as_secs_f64());
                for (what, count) in &compared.drawn {
                    println!("{count:>14} inputs have {what}");
                }
                for what in compared.missing() {
                    same = false;
                    println!("NOT DRAWN: {name}: {what}");
                }
            }
            Err(difference) => {
                same = false;
                println!("DIFFERENCE: {}: {difference}", run.name);
            }
        }
    }
    println!("{total:>14} cases in all");
    (same, total)
}
