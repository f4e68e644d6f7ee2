//! The intake of blocks, one at a time, on a lent state of 90 octets.

use crate::blocks::{BLOCK, CONTENT, FILL, MESSAGE};
use crate::refusal::Refusal;

pub const STATE: usize = 90; // 01 Intake: kind, blocks taken, 88 octets

const NONE: u8 = 0;
const PAGE: u8 = 1;
const SCHEDULE: u8 = 2;

/// What a piece comes to, where it isn't refused. // 01 Intake
#[derive(Clone, Copy, Debug, PartialEq, Eq)]
pub enum Answer {
    Taken,
    Page(usize),
    Schedule(usize),
}

/// The start call: refuses only a state not 90 octets, by 8. // 01 Intake
pub fn start(state: &mut [u8]) -> Result<(), Refusal> {
    if state.len() != STATE {
        return Err(Refusal::State);
    }
    state.fill(FILL);
    state[0] = NONE;
    state[1] = 0;
    Ok(())
}

/// Takes in one piece; the order of refusals is 15, 8, 2, 3, then by code. // 01 Intake, Order
pub fn intake(state: &mut [u8], piece: &[u8], output: &mut [u8]) -> Result<Answer, Refusal> {
    if output.len() != MESSAGE {
        return Err(Refusal::OutputLength);
    }
    if state.len() != STATE {
        return Err(Refusal::State);
    }
    let answer = take(state, piece);
    if let Ok(Answer::Page(_) | Answer::Schedule(_)) = answer {
        output.copy_from_slice(&state[2..]);
    }
    if answer != Ok(Answer::Taken) {
        start(state)?;
    }
    answer
}

/// The piece placed in a state of 90 octets, or its refusal. // 01 Intake
fn take(state: &mut [u8], piece: &[u8]) -> Result<Answer, Refusal> {
    if !proper(state) {
        return Err(Refusal::State);
    }
    if piece.len() != BLOCK {
        return Err(Refusal::PieceLength);
    }
    if (piece[0] >> 5) & 0b11 != 0b01 {
        return Err(Refusal::Discriminator);
    }
    place(state, piece)?;
    let received = CONTENT * state[1] as usize;
    let last = piece[0] & 0b1_0000 != 0;
    Ok(match state[0] {
        _ if !last && state[1] < 4 => Answer::Taken,
        SCHEDULE => Answer::Schedule(received),
        _ => Answer::Page(received),
    })
}

/// Puts the block where its code says, and counts it. // 01 Intake
fn place(state: &mut [u8], piece: &[u8]) -> Result<(), Refusal> {
    match piece[0] & 0b1111 {
        code @ (0 | 8) => {
            start(state)?;
            state[0] = if code == 0 { PAGE } else { SCHEDULE };
        }
        code @ 1..=3 => {
            if state[0] == NONE || state[1] != code {
                return Err(Refusal::NotNext);
            }
        }
        15 => return Err(Refusal::NullCode),
        _ => return Err(Refusal::ReservedCode),
    }
    let at = 2 + CONTENT * state[1] as usize;
    state[at..at + CONTENT].copy_from_slice(&piece[1..]);
    state[1] += 1;
    Ok(())
}

/// Kind 0 with 0 blocks, or 1 or 2 with 1 to 3, and 2B in what is unfilled. // 01 Intake
fn proper(state: &[u8]) -> bool {
    let fits = match state[0] {
        NONE => state[1] == 0,
        PAGE | SCHEDULE => (1..=3).contains(&state[1]),
        _ => false,
    };
    fits && state[2 + CONTENT * state[1] as usize..].iter().all(|&octet| octet == FILL)
}
