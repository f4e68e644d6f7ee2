//! The checker of a schedule message beside the plans: as a whole, and slot by slot with the rule that fails.

use crate::plan::{Entry, Page, Plan};
use crate::refusal::Refusal;
use crate::schedule::{read_schedule, Description, Schedule, Told, SLOTS};

/// What the checker finds in a message that it doesn't refuse. // 01 Numbers given, 0 and 40
#[derive(Clone, Copy, Debug, PartialEq, Eq)]
pub enum Finding {
    True,
    Untrue(usize),
}

/// Checks a message; refuses by the current plan, the previous plan, 35, the reader's, a plan's with the entry that it
/// names. // 01 Order, 02 No. 1
pub fn check_schedule(
    current: Result<Plan, Refusal>,
    previous: Result<Plan, Refusal>,
    message: &[u8],
    received: usize,
) -> Result<Finding, Refusal> {
    let (current, previous, schedule) = read_all(current, previous, message, received)?;
    Ok(find(&current, &previous, &schedule))
}

/// The plans and the message, all of them read. // 01 Order
fn read_all(
    current: Result<Plan, Refusal>,
    previous: Result<Plan, Refusal>,
    message: &[u8],
    received: usize,
) -> Result<(Plan, Plan, Schedule), Refusal> {
    let (current, previous) = (current?, previous?);
    if current.count() == 0 {
        return Err(Refusal::NoSlots);
    }
    Ok((current, previous, read_schedule(message, received)?))
}

/// What is found in a message that reads well. // 01 The plan
fn find(current: &Plan, previous: &Plan, schedule: &Schedule) -> Finding {
    if schedule.end != current.count() {
        return Finding::Untrue(0);
    }
    let untrue = schedule.told.iter().filter(|&&told| !is_true(current, previous, told));
    match untrue.map(|told| told.slot).min() {
        Some(slot) => Finding::Untrue(slot),
        None => Finding::True,
    }
}

/// The rules at one slot. // 01 The plan
pub fn is_true(current: &Plan, previous: &Plan, told: Told) -> bool {
    match current.entries[told.slot - 1] {
        Entry::Optional => told.description == Description::Optional && !told.new,
        Entry::Advised => told.description == Description::Advised && told.new,
        Entry::Page(page) => page_allowed(current, page, told) && page_new(previous, page, told),
    }
}

/// What a slot with a page may be told as. // 01 The plan
fn page_allowed(current: &Plan, page: Page, told: Told) -> bool {
    let lowest = current.lowest(page);
    let is_lowest = lowest == Some(told.slot);
    match told.description {
        Description::First(low) => is_lowest && low == page.identifier & 0x7FFF,
        Description::Repeat(named) => !is_lowest && lowest == Some(named as usize),
        Description::Optional => !is_lowest,
        Description::Advised => true,
    }
}

/// The new bit of a slot with a page. // 01 The plan
fn page_new(previous: &Plan, page: Page, told: Told) -> bool {
    match told.description {
        Description::Advised => told.new,
        Description::Optional => !told.new,
        Description::First(_) | Description::Repeat(_) => told.new != previous.has(page),
    }
}

/// Checks a message as `check_schedule` does, and writes for each slot 0 where it is told truly or else the first rule that
/// fails, then 0 up to 48; refuses by 15 first of all. With a refusal, and where End differs, nothing is written. Number
/// and verdicts come from two readings of the rules, which tests hold together. // 01 The plan, Order
pub fn check_slots(
    current: Result<Plan, Refusal>,
    previous: Result<Plan, Refusal>,
    message: &[u8],
    received: usize,
    verdicts: &mut [u8],
) -> Result<Finding, Refusal> {
    if verdicts.len() != SLOTS {
        return Err(Refusal::OutputLength);
    }
    let (current, previous, schedule) = read_all(current, previous, message, received)?;
    let finding = find(&current, &previous, &schedule);
    if finding != Finding::Untrue(0) {
        for (at, verdict) in verdicts.iter_mut().enumerate() {
            let failing = schedule.at(at + 1).and_then(|told| first_failing(&current, &previous, told));
            *verdict = failing.map_or(0, |rule| rule as u8);
        }
    }
    Ok(finding)
}

/// The rules of truth at a slot, numbered by their place in document 01's list. // 01 The plan
#[derive(Clone, Copy, Debug, PartialEq, Eq)]
pub enum Rule {
    Lowest = 1,
    Later = 2,
    Optional = 3,
    Advised = 4,
    New = 5,
}

/// All rules in document 01's order.
pub const RULES: [Rule; 5] = [Rule::Lowest, Rule::Later, Rule::Optional, Rule::Advised, Rule::New];

/// The first rule that fails at a slot, if one does.
pub fn first_failing(current: &Plan, previous: &Plan, told: Told) -> Option<Rule> {
    RULES.into_iter().find(|&rule| !holds(rule, current, previous, told))
}

/// Whether a rule holds at a slot. One that speaks of other slots than this one does. // 01 The plan
pub fn holds(rule: Rule, current: &Plan, previous: &Plan, told: Told) -> bool {
    let planned = current.entries[told.slot - 1];
    match (rule, planned) {
        (Rule::Lowest, Entry::Page(page)) => is_later(current, told.slot, page) || lowest_rule(page, told),
        (Rule::Later, Entry::Page(page)) => !is_later(current, told.slot, page) || later_rule(current, page, told),
        (Rule::Optional, Entry::Optional) => told.description == Description::Optional,
        (Rule::Advised, Entry::Advised) => told.description == Description::Advised,
        (Rule::New, _) => new_rule(planned, previous, told),
        _ => true,
    }
}

/// The slots that have a page.
fn slots_with(plan: &Plan, page: Page) -> impl Iterator<Item = usize> + '_ {
    let has_it = move |entry: &Entry| entry.page().is_some_and(|there| there.is_same(page));
    (1..).zip(&plan.entries).filter(move |(_, entry)| has_it(entry)).map(|(slot, _)| slot)
}

/// Whether a slot with a page is a later one: a slot below it has the page too.
fn is_later(plan: &Plan, slot: usize, page: Page) -> bool {
    slots_with(plan, page).any(|below| below < slot)
}

/// "a first transmission with its low 15 bits, or advised"
fn lowest_rule(page: Page, told: Told) -> bool {
    match told.description {
        Description::First(bits) => bits == page.identifier % (1 << 15),
        Description::Advised => true,
        Description::Repeat(_) | Description::Optional => false,
    }
}

/// "a repeat naming that lowest slot, or advised, optional or reserved"; what is reserved is read as optional.
fn later_rule(plan: &Plan, page: Page, told: Told) -> bool {
    match told.description {
        Description::Repeat(named) => slots_with(plan, page).min() == Some(named as usize),
        Description::Advised | Description::Optional => true,
        Description::First(_) => false,
    }
}

/// "1 for advised, 0 for optional and reserved, and for first and repeat 1 exactly if the previous plan lacks the page".
/// Where no page is planned, the last part asks for nothing: a rule before it has failed there.
fn new_rule(planned: Entry, previous: &Plan, told: Told) -> bool {
    match (told.description, planned) {
        (Description::Advised, _) => told.new,
        (Description::Optional, _) => !told.new,
        (_, Entry::Page(page)) => told.new == slots_with(previous, page).next().is_none(),
        (_, Entry::Optional | Entry::Advised) => true,
    }
}
