//! The reader of schedule messages, of their descriptions one by one, and of all of their slots at once.

use crate::blocks::{is_received, MESSAGE};
use crate::refusal::Refusal;

pub const SLOTS: usize = 48; // 000 3.5.1
pub const DESCRIPTIONS: usize = 8; // 01 Schedule message: octets 1 to 8 come before them

/// What a message says of a slot; reserved ones are read as optional. // 000 3.5.5
#[derive(Clone, Copy, Debug, PartialEq, Eq)]
pub enum Description {
    First(u16),
    Repeat(u8),
    Optional,
    Advised,
}

impl Description {
    /// The octets that it takes. // 01 Schedule message
    pub fn width(self) -> usize {
        match self {
            Description::First(_) => 2,
            _ => 1,
        }
    }

    /// One number for each: bit 16 set and 15 bits, the repeated slot, 40 or 41. // 01 Schedule message
    pub fn code(self) -> u16 {
        match self {
            Description::First(low) => 0x8000 | low,
            Description::Repeat(slot) => slot as u16,
            Description::Optional => 0x40,
            Description::Advised => 0x41,
        }
    }
}

/// A slot with its new bit and its description.
#[derive(Clone, Copy, Debug, PartialEq, Eq)]
pub struct Told {
    pub slot: usize,
    pub new: bool,
    pub description: Description,
}

/// A schedule message as read: `told` is in the message's order.
#[derive(Clone, Debug, PartialEq, Eq)]
pub struct Schedule {
    pub begin: usize,
    pub end: usize,
    pub told: Vec<Told>,
}

impl Schedule {
    /// What is told of a slot 1 to End.
    pub fn at(&self, slot: usize) -> Option<Told> {
        self.told.iter().copied().find(|told| told.slot == slot)
    }
}

/// Reads a message; refuses by 16, 18, 20, 21, 22, 23, 24 in this order. // 01 Order
pub fn read_schedule(message: &[u8], received: usize) -> Result<Schedule, Refusal> {
    if message.len() != MESSAGE {
        return Err(Refusal::MessageLength);
    }
    if !is_received(received) {
        return Err(Refusal::Received);
    }
    let (begin, end) = header(message)?;
    if (end + 1..=SLOTS).any(|slot| new_bit(message, slot)) {
        return Err(Refusal::NewBitPastEnd);
    }
    let told = descriptions(message, received, end)?;
    let schedule = Schedule { begin, end, told };
    if schedule.told.iter().any(|&told| false_repeat(&schedule, told)) {
        return Err(Refusal::FalseRepeat);
    }
    Ok(schedule)
}

/// Begin and End; refuses by 20, 21. // 000 3.5.1
fn header(message: &[u8]) -> Result<(usize, usize), Refusal> {
    if message[0] >> 6 != 0 {
        return Err(Refusal::ScheduleType);
    }
    let begin = (message[0] & 0x3F) as usize;
    let end = (message[1] & 0x3F) as usize;
    if 1 <= begin && begin <= end && end <= SLOTS {
        Ok((begin, end))
    } else {
        Err(Refusal::BeginEnd)
    }
}

/// The new bit of a slot: slot 1 in bit 8 of octet 3. // 000 3.5.2
fn new_bit(message: &[u8], slot: usize) -> bool {
    message[2 + (slot - 1) / 8] >> (7 - (slot - 1) % 8) & 1 == 1
}

/// The slots 1 to End in the message's order: the new ones, then the others. // 01 Schedule message
fn order(message: &[u8], end: usize) -> impl Iterator<Item = (usize, bool)> + '_ {
    let group = move |new: bool| {
        let slots = (1..=end).filter(move |&slot| new_bit(message, slot) == new);
        slots.map(move |slot| (slot, new))
    };
    group(true).chain(group(false))
}

/// The descriptions of slots 1 to End, or 23. // 01 Schedule message
fn descriptions(message: &[u8], received: usize, end: usize) -> Result<Vec<Told>, Refusal> {
    let mut told = Vec::with_capacity(end);
    let mut at = DESCRIPTIONS;
    for (slot, new) in order(message, end) {
        let description = description(&message[at..received]).ok_or(Refusal::DescriptionPassesReceived)?;
        at += description.width();
        told.push(Told { slot, new, description });
    }
    Ok(told)
}

/// The description at the head of these octets, if it is all there. // 000 3.5.5
fn description(octets: &[u8]) -> Option<Description> {
    let head = *octets.first()?;
    match head {
        0x80.. => {
            let low = *octets.get(1)?;
            Some(Description::First((head as u16 & 0x7F) << 8 | low as u16))
        }
        0x00..=0x3F => Some(Description::Repeat(head)),
        0x41 => Some(Description::Advised),
        _ => Some(Description::Optional),
    }
}

/// A repeat whose number is 0, not below its own slot, or names no first transmission. // 01 Numbers given, 24
fn false_repeat(schedule: &Schedule, told: Told) -> bool {
    let Description::Repeat(number) = told.description else {
        return false;
    };
    let named = number as usize;
    if named == 0 || named >= told.slot {
        return true;
    }
    let named = schedule.at(named).map(|told| told.description);
    !matches!(named, Some(Description::First(_)))
}

/// What the reader of descriptions gives at a place: the refusal, a slot, or no more. // 01 Schedule message
pub fn description_at(message: &[u8], received: usize, place: usize) -> Result<Option<Told>, Refusal> {
    let schedule = read_schedule(message, received)?;
    Ok(schedule.told.get(place).copied())
}

/// Writes a number for each of the 48 slots, the code and 2^16 where it is new, 0 past End, and gives Begin and End;
/// refuses by 15, then as the reader. // 01 Schedule message, Order
pub fn write_slots(message: &[u8], received: usize, slots: &mut [u32]) -> Result<(usize, usize), Refusal> {
    if slots.len() != SLOTS {
        return Err(Refusal::OutputLength);
    }
    let schedule = read_schedule(message, received)?;
    for (at, slot) in slots.iter_mut().enumerate() {
        *slot = schedule.at(at + 1).map_or(0, slot_number);
    }
    Ok((schedule.begin, schedule.end))
}

/// What is told of a slot as one number.
fn slot_number(told: Told) -> u32 {
    let new = if told.new { 1 << 16 } else { 0 };
    new + told.description.code() as u32
}
