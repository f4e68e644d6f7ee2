//! A message of 88 octets written as four blocks of 23.

use crate::refusal::Refusal;

pub const MESSAGE: usize = 88; // 000 3.1
pub const BLOCK: usize = 23; // 000 3.1
pub const CONTENT: usize = 22; // 000 3.1
pub const FILL: u8 = 0x2B; // 000 3.4, 3.5

/// What a message is. // 01 Blocks
#[derive(Clone, Copy, Debug, PartialEq, Eq)]
pub enum Kind {
    Page,
    Schedule,
}

/// Octets received come in whole blocks: 22, 44, 66 or 88. // 01 Numbers given, 18
pub fn is_received(received: usize) -> bool {
    matches!(received, 22 | 44 | 66 | 88)
}

/// Writes the four blocks; refuses by 15, 16, 17 in this order. // 01 Blocks, Order
pub fn write_blocks(message: &[u8], kind: Kind, used: usize, out: &mut [u8]) -> Result<(), Refusal> {
    if out.len() != 4 * BLOCK {
        return Err(Refusal::OutputLength);
    }
    if message.len() != MESSAGE {
        return Err(Refusal::MessageLength);
    }
    if used == 0 || used > MESSAGE {
        return Err(Refusal::Used);
    }
    let last = used.div_ceil(CONTENT); // 01 Blocks: used / 22, rounded up
    for (i, block) in out.chunks_exact_mut(BLOCK).enumerate() {
        block[0] = block_type(kind, i, i + 1 >= last);
        block[1..].copy_from_slice(&message[CONTENT * i..CONTENT * (i + 1)]);
    }
    Ok(())
}

/// The type octet of the block at `index` 0 to 3: spare 0, discriminator 01, mark, code. // 01 Blocks
fn block_type(kind: Kind, index: usize, last: bool) -> u8 {
    let code = match (kind, index) {
        (Kind::Schedule, 0) => 8,
        _ => index as u8,
    };
    0b010_0000 | if last { 0b1_0000 } else { 0 } | code
}
