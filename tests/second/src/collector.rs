//! The collecting of the pages of one message, on a lent collector of 1,340 octets.

use crate::blocks::{is_received, FILL, MESSAGE};
use crate::plan::Page;
use crate::refusal::Refusal;
use crate::text::read_header;

pub const MOST_PAGES: usize = 15; // 02 No. 3
pub const HEAD: usize = 5; // total, serial number, identifier
pub const PLACE: usize = 1 + MESSAGE; // of a page: octets received, the page
pub const COLLECTOR: usize = HEAD + MOST_PAGES * PLACE; // 1,340 octets, of what is handed out too

/// What a page comes to, where it isn't refused. // 02 No. 3
#[derive(Clone, Copy, Debug, PartialEq, Eq)]
pub enum Collected {
    Kept,
    HandedOut(usize), // so many pages
}

/// Where the place of page 1 to 15 begins.
pub fn place_of(number: usize) -> usize {
    HEAD + PLACE * (number - 1)
}

/// The start call: refuses only a collector not 1,340 octets, by 8. // 02 No. 3
pub fn start_collector(collector: &mut [u8]) -> Result<(), Refusal> {
    if collector.len() != COLLECTOR {
        return Err(Refusal::State);
    }
    collector[..HEAD].fill(0);
    clear_after(collector, 0);
    Ok(())
}

/// Makes the pages after so many as at start.
fn clear_after(collector: &mut [u8], pages: usize) {
    for place in collector[HEAD + PLACE * pages..].chunks_exact_mut(PLACE) {
        place[0] = 0;
        place[1..].fill(FILL);
    }
}

/// Takes a page with the octets received of it; the order of refusals is 8, 15, 16, 18, 50. // 02 No. 3
pub fn collect(collector: &mut [u8], page: &[u8], received: usize, output: &mut [u8]) -> Result<Collected, Refusal> {
    if collector.len() != COLLECTOR {
        return Err(Refusal::State);
    }
    if !is_proper(collector) {
        start_collector(collector)?;
        return Err(Refusal::State);
    }
    if output.len() != COLLECTOR {
        return Err(Refusal::OutputLength);
    }
    let (head, number) = told(page, received)?;
    if collector[..HEAD] != head {
        start_collector(collector)?;
        collector[..HEAD].copy_from_slice(&head);
    }
    keep(collector, number, page, received);
    let total = head[0] as usize;
    if held(collector).take(total).any(|received| received == 0) {
        return Ok(Collected::Kept);
    }
    output.copy_from_slice(collector);
    clear_after(output, total);
    start_collector(collector)?;
    Ok(Collected::HandedOut(total))
}

/// What tells a page's message, as a collector has it, and the page's number; refuses by 16, 18, 50. // 02 No. 3
fn told(page: &[u8], received: usize) -> Result<([u8; HEAD], usize), Refusal> {
    let header = read_header(page)?;
    if !is_received(received) {
        return Err(Refusal::Received);
    }
    let page = Page { serial: header.serial, identifier: header.identifier, parameter: header.parameter };
    let place = page.place(); // 02 No. 2
    if place.page > place.total {
        return Err(Refusal::PageOverTotal);
    }
    let ([s1, s2], [i1, i2]) = (page.serial.to_be_bytes(), page.identifier.to_be_bytes());
    Ok(([place.total, s1, s2, i1, i2], place.page as usize))
}

/// Keeps a page in its place; where one is held already, the earlier copy stays. // 02 No. 3
fn keep(collector: &mut [u8], number: usize, page: &[u8], received: usize) {
    let place = &mut collector[place_of(number)..place_of(number) + PLACE];
    if place[0] == 0 {
        place[0] = received as u8;
        place[1..].copy_from_slice(page);
    }
}

/// The octets received of pages 1 to 15, 0 where a page isn't held.
fn held(collector: &[u8]) -> impl Iterator<Item = u8> + '_ {
    collector[HEAD..].chunks_exact(PLACE).map(|place| place[0])
}

/// Empty, or some, not all, pages of a total from 1 to 15, each with 22, 44, 66 or 88 octets. // 02 No. 3
pub fn is_proper(collector: &[u8]) -> bool {
    let is_held = |received: &u8| *received != 0;
    let pages = held(collector).filter(is_held).count();
    match collector[0] as usize {
        0 => pages == 0,
        total @ 1..=MOST_PAGES => {
            let none_past = held(collector).skip(total).filter(is_held).count() == 0;
            let blocks = held(collector).filter(is_held).all(|received| is_received(received as usize));
            pages > 0 && pages < total && none_past && blocks
        }
        _ => false,
    }
}
