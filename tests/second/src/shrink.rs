//! A case made smaller as long as something about it stays.

use std::ops::Range;

use crate::blocks::FILL;
use crate::case::{Case, Entry};
use crate::collector::{COLLECTOR, HEAD, PLACE};

/// The smallest case found that still `stays`: shorter lists, then zeros for octets, then smaller numbers.
pub fn shrink(case: &Case, stays: impl Fn(&Case) -> bool) -> Case {
    let mut least = case.clone();
    let mut tries = 100_000;
    loop {
        let next = smaller(&least).find(|case| tried(&mut tries) && stays(case));
        match next {
            Some(next) => least = next,
            None => return least,
        }
    }
}

fn tried(tries: &mut usize) -> bool {
    let left = *tries > 0;
    *tries = tries.saturating_sub(1);
    left
}

/// The cases one step smaller, the larger steps first.
fn smaller(case: &Case) -> impl Iterator<Item = Case> + '_ {
    without_call(case)
        .chain(without_slot(case))
        .chain(without_page(case))
        .chain((0..case.lists.len()).flat_map(|list| shorter(case, list)))
        .chain(fewer_words(case))
        .chain((0..case.lists.len()).flat_map(|list| zeroed(case, list)))
        .chain(zeroed_words(case))
        .chain((0..case.numbers.len()).flat_map(|number| less(case, number)))
}

/// A sequence of calls without one of them.
fn without_call(case: &Case) -> impl Iterator<Item = Case> + '_ {
    let each = case.entry.per_call().unwrap_or(0);
    let calls = case.numbers.len().checked_div(each).unwrap_or(0);
    (0..calls).map(move |call| {
        let mut case = case.clone();
        case.lists.remove(2 + call);
        case.numbers.drain(each * call..each * (call + 1));
        case
    })
}

/// A collector with the place of one of its pages as at start.
fn without_page(case: &Case) -> impl Iterator<Item = Case> + '_ {
    let is_collector = case.entry == Entry::Collect && case.lists[0].len() >= COLLECTOR;
    let places = (HEAD..if is_collector { COLLECTOR } else { HEAD }).step_by(PLACE);
    places.filter(|&at| case.lists[0][at] != 0).map(|at| {
        let mut case = case.clone();
        case.lists[0][at] = 0;
        case.lists[0][at + 1..at + PLACE].fill(FILL);
        case
    })
}

/// A case without one of the slots of a plan file, or without the last slot of its message and of its plan.
fn without_slot(case: &Case) -> impl Iterator<Item = Case> + '_ {
    let plans = (0..case.lists.len()).filter(|&list| is_plan(&case.lists[list]));
    let alone = plans.flat_map(move |list| {
        (0..case.lists[list][5] as usize).map(move |slot| {
            let mut case = case.clone();
            drop_slot(&mut case.lists[list], slot);
            case
        })
    });
    alone.chain(without_last_slot(case))
}

fn is_plan(list: &[u8]) -> bool {
    list.len() > 6 && list.starts_with(b"CBP") && list.len() == 6 + 6 * list[5] as usize
}

fn drop_slot(file: &mut Vec<u8>, slot: usize) {
    file[5] -= 1;
    file.drain(6 + 6 * slot..12 + 6 * slot);
}

/// A case with the End of its schedule message one less, and a checker's with the plan's count one less too.
fn without_last_slot(case: &Case) -> Option<Case> {
    let message = match case.entry {
        Entry::CheckSchedule | Entry::CheckSlots => 2,
        Entry::ReadSchedule | Entry::Description | Entry::Decide | Entry::Enter | Entry::Slots => 0,
        _ => return None,
    };
    let end = case.lists[message].get(1)? & 0x3F;
    if case.lists[message].len() != 88 || !(2..=48).contains(&end) {
        return None;
    }
    let mut case = case.clone();
    let last = end as usize - 1;
    if matches!(case.entry, Entry::CheckSchedule | Entry::CheckSlots) {
        if !is_plan(&case.lists[0]) || case.lists[0][5] != end {
            return None;
        }
        drop_slot(&mut case.lists[0], last);
    }
    case.lists[message][1] -= 1;
    case.lists[message][2 + last / 8] &= !(0x80 >> (last % 8));
    Some(case)
}

/// A list cut by much, by six octets (an entry of a plan) or by one.
fn shorter(case: &Case, list: usize) -> impl Iterator<Item = Case> + '_ {
    let length = case.lists[list].len();
    let lengths = [0, length / 2, length.saturating_sub(6), length.saturating_sub(1)];
    lengths.into_iter().filter(move |&to| to < length).map(move |to| {
        let mut case = case.clone();
        case.lists[list].truncate(to);
        case
    })
}

fn fewer_words(case: &Case) -> impl Iterator<Item = Case> + '_ {
    let length = case.words.len();
    let halves = [0, length / 2].into_iter().filter(move |&to| to < length).map(move |to| {
        let mut case = case.clone();
        case.words.truncate(to);
        case
    });
    halves.chain((0..length).map(|at| {
        let mut case = case.clone();
        case.words.remove(at);
        case
    }))
}

/// Zeros for half of a list, for eight octets, or for one; 1 or 40, which mean something in a schedule, for another.
fn zeroed(case: &Case, list: usize) -> impl Iterator<Item = Case> + '_ {
    let length = case.lists[list].len();
    let runs = [(length.div_ceil(2).max(1), 0), (8, 0), (1, 0), (1, 1), (1, 0x40)];
    let ranges = runs
        .into_iter()
        .flat_map(move |(run, to)| (0..length).step_by(run).map(move |at| (at..(at + run).min(length), to)));
    let plainer =
        move |range: Range<usize>, to: u8| case.lists[list][range].iter().any(|&octet| rank(octet) > rank(to));
    ranges.filter(move |(range, to)| plainer(range.clone(), *to)).map(move |(range, to)| {
        let mut case = case.clone();
        case.lists[list][range].fill(to);
        case
    })
}

/// How plain an octet is: 0, then 1, then 40, then the others.
fn rank(octet: u8) -> u8 {
    match octet {
        0 => 0,
        1 => 1,
        0x40 => 2,
        _ => 3,
    }
}

fn zeroed_words(case: &Case) -> impl Iterator<Item = Case> + '_ {
    (0..case.words.len()).filter(|&at| case.words[at] != 0).map(|at| {
        let mut case = case.clone();
        case.words[at] = 0;
        case
    })
}

/// A number made 0, half as large, without one of its bits, or one less, which is last since it can go on for long.
fn less(case: &Case, number: usize) -> impl Iterator<Item = Case> + '_ {
    let now = case.numbers[number];
    let fewer_bits = (0..64).rev().map(move |bit| now & !(1 << bit));
    let smaller = [0, now / 2].into_iter().chain(fewer_bits).chain([now.saturating_sub(1)]);
    smaller.filter(move |&to| to < now).map(move |to| {
        let mut case = case.clone();
        case.numbers[number] = to;
        case
    })
}
