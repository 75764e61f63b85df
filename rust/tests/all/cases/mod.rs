//! Runs many cases, tells which codes they met, and shrinks the first that shows a difference.
//!
//! `QIRFADHUN_SEED` sets the seed of the random tests, `QIRFADHUN_PERCENT` how many of their usual cases they run, and
//! `QIRFADHUN_CASES` how many each of them runs. Each case has a seed of its own, one more than the case before it; a failure names
//! it, and `QIRFADHUN_CASES=1` with that seed runs it alone.

use crate::plans::Random;
use std::collections::BTreeMap;
use std::fmt::Debug;
use std::time::{Duration, Instant};

const SEED: u64 = 1;
const SHRINKING: Duration = Duration::from_secs(20);

/// A code, and with it the place for 37, where that is a code too.
pub type Code = (u64, Option<u64>);

/// Something handed over to both sides.
pub trait Case: Clone + Debug {
    /// The code that both sides answer, or in words where they differ.
    fn compare(&self) -> Result<Code, String>;

    /// Cases like it with less in them, the much smaller ones first.
    fn smaller(&self) -> Box<dyn Iterator<Item = Self> + '_>;
}

/// All memory that is lent to a call, each slice guarded.
pub trait Memory: Clone {
    /// In words, where this first differs from what is due.
    fn same_as(&self, due: &Self) -> Result<(), String>;
}

/// In words, that two which are to be the same differ in this.
pub fn same<T: PartialEq + Debug>(what: &str, one: &T, other: &T) -> Result<(), String> {
    if one == other {
        return Ok(());
    }
    Err(format!("{what} are {one:?} of the one, and {other:?} of the other"))
}

/// What the reference answers, or in words where one of those under test first differs from it in its answer or in what it leaves.
pub fn compare_all<M: Memory, A: PartialEq + Debug>(
    before: &M,
    by_reference: fn(&mut M) -> A,
    under_test: &[fn(&mut M) -> A],
) -> Result<A, String> {
    let mut due = before.clone();
    let answer_due = by_reference(&mut due);
    for answered in under_test {
        let mut left = before.clone();
        let answer = answered(&mut left);
        if answer != answer_due {
            return Err(format!("the library answers {answer:?}, the documents ask for {answer_due:?}"));
        }
        left.same_as(&due)?;
    }
    Ok(answer_due)
}

/// Compares cases that `make` builds, `default` of them unless the environment says otherwise.
pub fn random_cases<C: Case>(name: &str, default: u64, make: impl Fn(&mut Random) -> C) {
    let seed = from_environment("QIRFADHUN_SEED").unwrap_or(SEED);
    let percent = from_environment("QIRFADHUN_PERCENT").unwrap_or(100);
    let count = from_environment("QIRFADHUN_CASES").unwrap_or((default * percent).div_ceil(100));
    println!("{name}: QIRFADHUN_SEED={seed} QIRFADHUN_CASES={count}");
    let seeds = (0..count).map(|case| seed.wrapping_add(case));
    run(name, seeds.map(|seed| (make(&mut Random::new(seed)), format!(", QIRFADHUN_SEED={seed} QIRFADHUN_CASES=1"))));
}

/// Compares the cases of a list.
pub fn all_cases<C: Case>(name: &str, cases: impl IntoIterator<Item = C>) {
    run(name, cases.into_iter().map(|case| (case, String::new())));
}

fn run<C: Case>(name: &str, cases: impl Iterator<Item = (C, String)>) {
    let mut codes = BTreeMap::new();
    for (case, again) in cases {
        match case.compare() {
            Ok(code) => *codes.entry(code).or_insert(0) += 1,
            Err(difference) => {
                let smallest = shrink(case);
                panic!(
                    "{name}{again}\nfirst found: {difference}\nsmallest found: {}\n{smallest:?}",
                    smallest.compare().unwrap_err()
                );
            }
        }
    }
    let count: u64 = codes.values().sum();
    let by_code: Vec<String> = codes.iter().map(|(code, count)| format!("{} {count}", in_words(code))).collect();
    println!("{name}: {count} cases agree; by code: {}", by_code.join(", "));
}

fn in_words(code: &Code) -> String {
    match code {
        (code, Some(place)) => format!("{code} at {place}:"),
        (code, None) => format!("{code}:"),
    }
}

/// The smallest case found, from this one down, that still shows a difference.
pub fn shrink<C: Case>(mut case: C) -> C {
    let start = Instant::now();
    loop {
        let mut in_time = case.smaller().take_while(|_| start.elapsed() < SHRINKING);
        let Some(smaller) = in_time.find(|smaller| smaller.compare().is_err()) else { break };
        drop(in_time);
        case = smaller;
    }
    case
}

fn from_environment(name: &str) -> Option<u64> {
    let value = std::env::var(name).ok()?;
    Some(value.parse().unwrap_or_else(|_| panic!("{name} is not a number: {value}")))
}
