//! The decision of a board for a slot, read it or skip it, and the set of slots that it holds.

use crate::refusal::Refusal;
use crate::schedule::{Description, Schedule, SLOTS};

pub const WANTED: usize = 64; // 01 Numbers given, 42

/// Decides, true for read; refuses by 41, 42 in this order. No schedule, or a refused one, is `None`. // 01 The plan
pub fn decide(schedule: Option<Schedule>, slot: usize, wanted: &[u16], held: u64) -> Result<bool, Refusal> {
    if slot < 1 || slot > SLOTS {
        return Err(Refusal::SlotOutside);
    }
    if wanted.len() > WANTED {
        return Err(Refusal::WantedTooMany);
    }
    let Some(schedule) = schedule else {
        return Ok(true);
    };
    let Some(told) = schedule.at(slot) else {
        return Ok(true);
    };
    Ok(match told.description {
        Description::Advised => true,
        Description::Optional => false,
        Description::First(low) => matches(wanted, low),
        Description::Repeat(first) => repeat_read(&schedule, first as usize, wanted, held),
    })
}

/// An identifier that agrees in 15 bits is wanted. // 01 Easy to get wrong
fn matches(wanted: &[u16], low: u16) -> bool {
    wanted.iter().any(|&identifier| identifier & 0x7FFF == low)
}

/// A repeat is read where its first matches and its first's slot isn't held. // 01 The plan
fn repeat_read(schedule: &Schedule, first: usize, wanted: &[u16], held: u64) -> bool {
    let is_held = held >> (first - 1) & 1 == 1;
    match schedule.at(first).map(|told| told.description) {
        Some(Description::First(low)) => matches(wanted, low) && !is_held,
        _ => false,
    }
}

/// The held set with the page got in a slot entered: under its first's slot where the schedule tells a repeat, under
/// the slot itself otherwise. A slot that isn't 1 to 48 enters nothing. No schedule, or a refused one, is `None`.
/// // 01 The plan
pub fn enter(schedule: Option<&Schedule>, slot: usize, held: u64) -> u64 {
    if slot < 1 || slot > SLOTS {
        return held;
    }
    let told = schedule.and_then(|schedule| schedule.at(slot));
    let under = match told.map(|told| told.description) {
        Some(Description::Repeat(first)) => first as usize,
        _ => slot,
    };
    held | 1 << (under - 1)
}
