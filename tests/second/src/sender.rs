//! The writer of schedule messages.

use crate::blocks::{FILL, MESSAGE};
use crate::plan::{Entry, Plan};
use crate::refusal::Refusal;
use crate::schedule::{Description, Told, DESCRIPTIONS};

/// Writes the message of a plan and gives its used octets; refuses by 15, the current plan's, the previous
/// plan's, 35, 21, 34 in this order, a plan's with the entry that it names. // 01 Order, 02 No. 1
pub fn write_schedule(
    current: Result<Plan, Refusal>,
    previous: Result<Plan, Refusal>,
    begin: usize,
    out: &mut [u8],
) -> Result<usize, Refusal> {
    if out.len() != MESSAGE {
        return Err(Refusal::OutputLength);
    }
    let (current, previous) = (current?, previous?);
    let count = current.count();
    if count == 0 {
        return Err(Refusal::NoSlots);
    }
    if begin < 1 || begin > count {
        return Err(Refusal::BeginEnd);
    }
    let told = planned(&current, &previous);
    let message = lay(begin, &told).ok_or(Refusal::DescriptionsTooLong)?;
    out.copy_from_slice(&message);
    Ok(DESCRIPTIONS + told.iter().map(|told| told.description.width()).sum::<usize>())
}

/// What the writer tells of each slot, in slot order. // 01 The plan
fn planned(current: &Plan, previous: &Plan) -> Vec<Told> {
    let tell = |(at, &entry): (usize, &Entry)| {
        let slot = at + 1;
        let (new, description) = match entry {
            Entry::Optional => (false, Description::Optional),
            Entry::Advised => (true, Description::Advised),
            Entry::Page(page) => {
                let lowest = current.lowest(page).unwrap_or(slot);
                let description = if lowest == slot {
                    Description::First(page.identifier & 0x7FFF)
                } else {
                    Description::Repeat(lowest as u8)
                };
                (!previous.has(page), description)
            }
        };
        Told { slot, new, description }
    };
    current.entries.iter().enumerate().map(tell).collect()
}

/// A message that tells slots 1 to End, if it fits: new ones first, the others, then 2B. // 01 Schedule message
pub fn lay(begin: usize, told: &[Told]) -> Option<[u8; MESSAGE]> {
    let mut message = vec![begin as u8, told.len() as u8, 0, 0, 0, 0, 0, 0];
    for told in told.iter().filter(|told| told.new) {
        message[2 + (told.slot - 1) / 8] |= 0x80 >> ((told.slot - 1) % 8);
    }
    for new in [true, false] {
        for told in told.iter().filter(|told| told.new == new) {
            message.extend(description_octets(told.description));
        }
    }
    if message.len() > MESSAGE {
        return None;
    }
    message.resize(MESSAGE, FILL);
    message.try_into().ok()
}

/// The octets of a description. // 000 3.5.5
fn description_octets(description: Description) -> Vec<u8> {
    match description {
        Description::First(low) => (0x8000 | low).to_be_bytes().to_vec(),
        Description::Repeat(slot) => vec![slot],
        Description::Optional => vec![0x40],
        Description::Advised => vec![0x41],
    }
}
