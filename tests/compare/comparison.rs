//! What the comparisons share: their arguments, the cases that must be reached, and the report; differences shortened, and faults seeded.

use super::sequences::Sequence;
use crate::inputs::random::Random;
use crate::other::faults::{self, Fault};
use std::collections::BTreeMap;
use std::fmt::Debug;
use std::marker::PhantomData;

/// What can be compared.
pub trait Subject: Sized {
    /// Its name in the report, and what is counted.
    const NAME: &'static str;
    const COUNTED: &'static str = "calls";

    /// How many are compared at random where no COUNT is asked for, and at most.
    const COUNT: u64 = 1_000_000;
    const MOST: u64 = u64::MAX;

    /// What a run of at least COUNT must reach.
    const REQUIRED: fn() -> Cases;

    /// The faults that are tried. Of what a failing sequence consists, how many its shortest may have, and whether the sequences are longer at first.
    const FAULTS: &'static [&'static [Fault]];
    const ITEMS: &'static str = "calls";
    const LONGEST: usize;
    const SHORTENED: bool = true;

    /// Some random calls, and what is tried after them.
    fn random(comparison: &mut Comparison<Self>) -> Compared;

    fn sweeps(_: &mut Comparison<Self>) -> Compared {
        Ok(())
    }
}

/// What the program is asked for: [faults] [SEED [COUNT]].
pub struct Asked {
    faults: bool,
    seed: u64,
    count: Option<u64>,
}

impl Asked {
    pub fn read(words: impl Iterator<Item = String>) -> Asked {
        let mut words = words.peekable();
        let faults = words.next_if(|word| word == "faults").is_some();
        let mut number = || words.next().map(|word| word.parse().expect("SEED and COUNT are numbers"));
        Asked { faults, seed: number().unwrap_or(1), count: number() }
    }

    /// Compares, or seeds the faults. Gives whether all is well.
    pub fn compare<S: Subject>(&self) -> bool {
        let count = self.count.unwrap_or(S::COUNT);
        if self.faults {
            find_faults::<S>(self.seed, count.min(S::MOST))
        } else {
            covered::<S>(self.seed, count.min(S::MOST), count >= S::COUNT)
        }
    }
}

/// Cases that must be reached: whose, which kind, and its values.
pub type Cases = Vec<(&'static str, &'static str, Vec<i64>)>;

/// Where two results disagree.
pub struct Difference {
    /// Seed, call, input and both results.
    pub text: String,
    /// How many items the failing sequence has, how many the shortest that was found, and whether that one fails again.
    pub whole: usize,
    pub shortest: usize,
    pub again: bool,
}

pub type Compared<T = ()> = Result<T, Difference>;

/// A comparison under way.
pub struct Comparison<S> {
    pub seed: u64,
    pub random: Random,
    /// Calls compared so far.
    pub calls: u64,
    pub sequence: Sequence,
    /// Whether a fault is seeded into the other implementation.
    pub seeded: bool,
    /// How often each required case was reached.
    seen: BTreeMap<(&'static str, &'static str, i64), u64>,
    subject: PhantomData<S>,
}

impl<S: Subject> Comparison<S> {
    fn new(seed: u64, cases: &Cases, seeded: bool) -> Self {
        let seen = cases.iter().flat_map(|&(whose, what, ref values)| values.iter().map(move |&value| ((whose, what, value), 0))).collect();
        Comparison { seed, random: Random(seed), calls: 0, sequence: Sequence::default(), seeded, seen, subject: PhantomData }
    }

    /// So many calls at random, and the sweeps.
    fn run(&mut self, count: u64) -> Compared {
        while self.calls < count {
            S::random(self)?;
        }
        S::sweeps(self)
    }

    /// Counts a case, if it is a required one.
    pub fn saw(&mut self, whose: &'static str, what: &'static str, value: impl Into<i64>) {
        if let Some(count) = self.seen.get_mut(&(whose, what, value.into())) {
            *count += 1;
        }
    }

    /// Counts a case that must be one of the required ones.
    pub fn listed(&mut self, whose: &'static str, what: &'static str, value: impl Into<i64>) -> Compared {
        let value = value.into();
        match self.seen.get_mut(&(whose, what, value)) {
            Some(count) => *count += 1,
            None => return Err(self.differs(format!("{whose}, {what} {value} is not one of the papers'"))),
        }
        Ok(())
    }

    /// A difference of this call alone.
    pub fn differs(&self, text: String) -> Difference {
        Difference { text: format!("seed {} call {}: {text}", self.seed, self.calls), whole: 1, shortest: 1, again: true }
    }

    /// Counts a call and holds its two results to each other.
    pub fn same<T: PartialEq + Debug>(&mut self, call: &str, input: impl FnOnce() -> String, ours: T, other: T) -> Compared<T> {
        self.calls += 1;
        if ours == other {
            return Ok(ours);
        }
        Err(self.differs(format!("\n  {call}({})\n  ours  {ours:?}\n  other {other:?}", input())))
    }

    /// Prints how often each required case was reached, and counts those that were not.
    fn report(&self, cases: &Cases) -> usize {
        let mut never = 0;
        for (whose, what, values) in cases {
            let counts: Vec<(i64, u64)> = values.iter().map(|&value| (value, self.seen[&(*whose, *what, value)])).collect();
            if let (true, Some((first, _)), Some((last, _))) = (counts.len() > 20, counts.first(), counts.last()) {
                let least = counts.iter().map(|(_, count)| count).min().unwrap_or(&0);
                println!("{whose}, {what} {first} to {last}: {} cases, each at least {least} times", counts.len());
            } else {
                println!("{whose}, {what}: {}", counts.iter().map(|(value, count)| format!("{value} ×{count}")).collect::<Vec<_>>().join(", "));
            }
            for (value, _) in counts.iter().filter(|(_, count)| *count == 0) {
                println!("NEVER REACHED: {whose}, {what} {value}");
                never += 1;
            }
        }
        never
    }
}

/// Compares, and prints what was covered or the first difference. A case never reached fails where the run is a whole one.
fn covered<S: Subject>(seed: u64, count: u64, whole: bool) -> bool {
    let cases = S::REQUIRED();
    let mut comparison = Comparison::<S>::new(seed, &cases, false);
    if let Err(difference) = comparison.run(count) {
        println!("DIFFERENCE {}", difference.text);
        return false;
    }
    let never = comparison.report(&cases);
    let Comparison { calls, seen, .. } = comparison;
    let (counted, name, required) = (S::COUNTED, S::NAME, if whole { "required " } else { "" });
    println!("compared {calls} {counted} of {name} (seed {seed}): no difference, {never} of {} {required}cases never reached", seen.len());
    never == 0 || !whole
}

/// Every fault in turn: each must make a difference, whose failing sequence becomes short and still fails.
fn find_faults<S: Subject>(seed: u64, count: u64) -> bool {
    let (faults, cases) = (S::FAULTS.concat(), S::REQUIRED());
    let (longest, items, name) = (S::LONGEST, S::ITEMS, S::NAME);
    let mut missed = 0;
    // how long the failing sequences were before
    let mut before = 0;
    for &fault in &faults {
        let what = fault.what();
        let mut comparison = Comparison::<S>::new(seed, &cases, true);
        faults::seed(Some(fault));
        let result = comparison.run(count);
        faults::seed(None);
        let Err(Difference { text, whole, shortest, again }) = result else {
            println!("NOT FOUND: {what}");
            missed += 1;
            continue;
        };
        before = before.max(whole);
        let short = shortest <= longest && again;
        missed += usize::from(!short);
        println!("{}, {whole} {items} shortened to {shortest}: {what}\n{text}", if short { "found" } else { "NOT SHORTENED" });
    }
    let shortened = if S::SHORTENED { format!("; up to {before} {items} shortened to at most {longest}") } else { String::new() };
    println!("{} seeded faults of {name}: {missed} not found{shortened}", faults.len());
    // what is short from the start shows nothing of the shortening
    missed == 0 && (!S::SHORTENED || before > longest)
}
