//! The edges of document 02's No. 6: texts as long as what can be received and shorter, texts that end in spaces or are
//! nothing else, spaces beside CR and 1B, spaces that aren't received, and such pages refused, where the lent text stays.

use crate::case::{Case, Entry};
use crate::extension::{letters, read, RECEIVED};
use crate::text::{ESCAPE, SEPTETS};

const CR: u8 = 0x0D;
const SPACE: u8 = 0x20;
const BAY: &[u8] = b"BAY"; // its septets are its ASCII

// What is wrong where a case has a fault, in the order of refusals. // 01 Order
const PLACES: [u64; 4] = [92, 94, 1, 186];
const OCTETS: [usize; 4] = [87, 89, 22, 176];
const NOT_RECEIVED: [u64; 4] = [23, 21, 0, 89];
const SCHEMES: [u8; 4] = [0x10, 0xFF, 0x1F, 0x80];

/// The edge cases of an entry. // 02 No. 6
pub fn cases(entry: Entry) -> Vec<Case> {
    match entry {
        Entry::ReadText => [readings(), refused()].concat(),
        _ => vec![],
    }
}

/// Texts of no character, of one, of as many as were received and of one less; what isn't received is letters.
fn lengths(whole: usize) -> Vec<Vec<u8>> {
    [0, 1, whole - 1, whole].map(|length| letters(length, &vec![CR; whole - length])).to_vec()
}

/// Texts that end in one space, before CRs and as the last septet received, and in many.
fn ending_in_spaces(whole: usize) -> Vec<Vec<u8>> {
    let many = [BAY, &vec![SPACE; whole - BAY.len()]].concat();
    vec![[BAY, &[SPACE]].concat(), letters(whole - 1, &[SPACE]), many]
}

/// One space and many before CRs, a page of nothing but spaces, and CRs before spaces.
fn only_spaces(whole: usize) -> Vec<Vec<u8>> {
    let after_crs = [vec![CR; 2], vec![SPACE; whole - 2]].concat();
    vec![vec![SPACE], vec![SPACE; whole / 2], vec![SPACE; SEPTETS], after_crs]
}

/// A space that takes two septets, before CRs and as the last received; and 1B as the last among spaces. // 02 No. 5
fn escaped(whole: usize) -> Vec<Vec<u8>> {
    let last = [vec![SPACE; whole - 1], vec![ESCAPE], vec![SPACE; SEPTETS - whole]].concat();
    vec![[BAY, &[ESCAPE, ESCAPE]].concat(), letters(whole - 2, &[ESCAPE, SPACE]), last]
}

/// A short text, then CRs, and spaces only in what isn't received; none where all is.
fn spaces_not_received(whole: usize) -> Option<Vec<u8>> {
    let page = [BAY, &vec![CR; whole - BAY.len()], &vec![SPACE; SEPTETS - whole]].concat();
    (whole < SEPTETS).then_some(page)
}

/// What the reader takes.
fn readings() -> Vec<Case> {
    let mut cases = Vec::new();
    for (received, whole) in RECEIVED {
        let mut pages = [lengths(whole), ending_in_spaces(whole), only_spaces(whole), escaped(whole)].concat();
        pages.extend(spaces_not_received(whole));
        cases.extend(pages.iter().map(|septets| read(septets, received)));
    }
    cases
}

/// A text that is empty, ends in spaces, is full or is nothing but spaces, by its number, with these of the four faults.
fn faulty(faults: usize, at: usize) -> Case {
    let texts = [vec![], [BAY, &[SPACE; 8]].concat(), letters(0, &[]), vec![SPACE; SEPTETS]];
    let mut case = read(&texts[at % 4], RECEIVED[at % 4].0);
    let has = |fault: usize| faults >> fault & 1 == 1;
    if has(3) {
        case.lists[0][4] = SCHEMES[at % 4];
    }
    if has(2) {
        case.numbers[0] = NOT_RECEIVED[at % 4];
    }
    if has(1) {
        case.lists[0].resize(OCTETS[at % 4], SPACE);
    }
    if has(0) {
        case.numbers[1] = PLACES[at % 4];
    }
    case
}

/// Each fault with each text, and every set of several faults. // 01 Order
fn refused() -> Vec<Case> {
    let alone = (0..4).flat_map(|fault| (0..4).map(move |at| faulty(1 << fault, at)));
    let several = (0..1 << 4).filter(|faults: &usize| faults.count_ones() > 1).map(|faults| faulty(faults, faults));
    alone.chain(several).collect()
}
