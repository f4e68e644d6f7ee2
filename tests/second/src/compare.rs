//! The comparison of two sides on the edges, and then on invented cases for a bounded time.

use std::time::{Duration, Instant};

use crate::case::{Case, Entry};
use crate::edges;
use crate::invent::any;
use crate::random::Random;
use crate::shrink::shrink;
use crate::side::{run, Side};

const BATCH: usize = 64; // cases of an entry before the next entry and a look at the clock

/// The calls compared for each entry, and the case where the sides differ, made small, if there is one.
pub struct Compared {
    pub calls: Vec<(Entry, u64)>,
    pub difference: Option<Case>,
}

/// Whether two sides answer a case differently.
pub fn differ(case: &Case, one: &impl Side, other: &impl Side) -> bool {
    run(case, one) != run(case, other)
}

/// The smallest case found where two sides still differ.
fn least(case: &Case, one: &impl Side, other: &impl Side) -> Case {
    shrink(case, |case| differ(case, one, other))
}

/// Compares two sides at every edge, and then until the time is over or they differ.
pub fn compare(entries: &[Entry], seed: u64, time: Duration, one: &impl Side, other: &impl Side) -> Compared {
    let begun = Instant::now();
    let mut calls: Vec<(Entry, u64)> = entries.iter().map(|&entry| (entry, 0)).collect();
    let mut randoms: Vec<Random> = entries.iter().map(|&entry| Random::new(seed ^ (entry as u64) << 56)).collect();
    for (entry, count) in &mut calls {
        for case in edges::cases(*entry) {
            *count += case.calls();
            if differ(&case, one, other) {
                return Compared { difference: Some(least(&case, one, other)), calls };
            }
        }
    }
    while begun.elapsed() < time && !entries.is_empty() {
        for ((entry, count), random) in calls.iter_mut().zip(&mut randoms) {
            for _ in 0..BATCH {
                let most = random.pick(&[3, 8, 48, 48]);
                let case = any(*entry, random, most);
                *count += case.calls();
                if differ(&case, one, other) {
                    return Compared { difference: Some(least(&case, one, other)), calls };
                }
            }
        }
    }
    Compared { calls, difference: None }
}
