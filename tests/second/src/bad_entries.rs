//! The edges of document 02's No. 1: plan files with bad entries, alone and beside all else that is refused.

use crate::blocks::MESSAGE;
use crate::case::{Case, Entry};
use crate::edges::pages_in;
use crate::plan::read_plan;
use crate::schedule::SLOTS;
use crate::sender::write_schedule;

type Octets = [u8; 6]; // of an entry

const PAGE: Octets = [2, 0x00, 0x10, 0x80, 0x01, 0x11];
const KIND: Octets = [3, 0, 0, 0, 0, 0]; // 02 No. 1: 36
const STRAY: Octets = [0, 0, 0, 0, 0, 1]; // 02 No. 1: 37
const BOTH: [Octets; 2] = [KIND, STRAY];
const PAIRS: [[Octets; 2]; 4] = [[KIND, KIND], [KIND, STRAY], [STRAY, KIND], [STRAY, STRAY]];

/// A plan file with pages, free slots and advised ones in turn.
fn good(slots: usize) -> Vec<u8> {
    let turn = [PAGE, [0; 6], [1, 0, 0, 0, 0, 0]];
    let entries = (0..slots).flat_map(|at| turn[at % 3]);
    b"CBP\x00\x01".iter().copied().chain([slots as u8]).chain(entries).collect()
}

/// A plan file with other octets for some of its entries, by their numbers from 1.
fn with(mut file: Vec<u8>, entries: &[(usize, Octets)]) -> Vec<u8> {
    for (number, octets) in entries {
        file[6 * number..6 * number + 6].copy_from_slice(octets);
    }
    file
}

/// A file with another octet at a place.
fn other_at(file: &[u8], at: usize, octet: u8) -> Vec<u8> {
    let mut file = file.to_vec();
    file[at] = octet;
    file
}

/// A page's octets under another kind.
fn paged(kind: u8) -> Octets {
    let mut octets = PAGE;
    octets[0] = kind;
    octets
}

/// A kind with one octet at a place among its five.
fn strayed(kind: u8, place: usize, octet: u8) -> Octets {
    let mut octets = [kind, 0, 0, 0, 0, 0];
    octets[place] = octet;
    octets
}

/// These kinds over 2, with a page's octets and without; and kinds 0 and 1 with a page's octets, and with each of these
/// octets in each place.
fn bad(kinds: &[u8], octets: &[u8]) -> Vec<Octets> {
    let mut bad: Vec<Octets> = kinds.iter().flat_map(|&kind| [[kind, 0, 0, 0, 0, 0], paged(kind)]).collect();
    for kind in [0, 1] {
        bad.push(paged(kind));
        bad.extend((1..6).flat_map(|place| octets.iter().map(move |&octet| strayed(kind, place, octet))));
    }
    bad
}

/// Bad entries of many values alone, each kind of them in entries 1, 24 and 48, one in each of 48 entries, two of them,
/// all of them, and those behind something that is refused first. // 02 No. 1
pub fn plans() -> Vec<Case> {
    let many = bad(&[3, 4, 5, 8, 16, 32, 64, 127, 128, 129, 130, 254, 255], &[0x01, 0x02, 0x80, 0xFF]);
    let mut files: Vec<Vec<u8>> = many.iter().map(|&octets| with(good(1), &[(1, octets)])).collect();
    for number in [1, 24, SLOTS] {
        files.extend(bad(&[3, 255], &[0x10]).iter().map(|&octets| with(good(SLOTS), &[(number, octets)])));
    }
    files.extend((1..=SLOTS).map(|number| with(good(SLOTS), &[(number, BOTH[number % 2])])));
    for (low, high) in [(1, 2), (1, SLOTS), (23, 24), (SLOTS - 1, SLOTS)] {
        files.extend(PAIRS.map(|[lower, higher]| with(good(SLOTS), &[(low, lower), (high, higher)])));
    }
    for turn in [0, 1] {
        let all: Vec<(usize, Octets)> = (1..=SLOTS).map(|number| (number, BOTH[(number + turn) % 2])).collect();
        files.push(with(good(SLOTS), &all));
    }
    files.extend(refused_first());
    files.iter().map(|file| Case::new(Entry::ReadPlan, &[], &[file], &[])).collect()
}

/// Three bad entries.
fn three() -> Vec<u8> {
    with(good(3), &[(1, KIND), (2, STRAY), (3, KIND)])
}

/// Files with bad entries that are refused for their mark, version, count or length. // 01 Order
fn refused_first() -> Vec<Vec<u8>> {
    let three = three();
    let mut files: Vec<Vec<u8>> = (0..5).map(|at| other_at(&three, at, three[at] ^ 1)).collect();
    files.extend([0, 1, 2, 4, 48, 49, 255].map(|count| other_at(&three, 5, count)));
    for length in [0, 5, 6, 7, 12, 18, 23, 25, 29, 30, 36] {
        let mut file = three.clone();
        file.resize(length, 3);
        files.push(file);
    }
    for number in [1, SLOTS, SLOTS + 1] {
        files.extend(BOTH.map(|octets| with(good(SLOTS + 1), &[(number, octets)])));
    }
    files
}

/// A file as the current plan and as the previous one, beside a good one.
fn either(file: &[u8]) -> [[Vec<u8>; 2]; 2] {
    [[file.to_vec(), good(3)], [good(3), file.to_vec()]]
}

/// A current and a previous plan, one of them bad or both, also behind and beside something else. // 02 No. 1
fn bad_plans() -> Vec<[Vec<u8>; 2]> {
    let mut plans = Vec::new();
    for (number, slots) in [(1, 3), (2, 3), (3, 3), (24, 24), (SLOTS, SLOTS)] {
        plans.extend(BOTH.iter().flat_map(|&octets| either(&with(good(slots), &[(number, octets)]))));
    }
    for [one, other] in PAIRS {
        plans.extend(either(&with(good(3), &[(2, one), (3, other)])));
        plans.push([with(good(3), &[(3, one)]), with(good(3), &[(1, other)])]);
    }
    plans.extend(BOTH.map(|octets| [good(0), with(good(3), &[(2, octets)])]));
    let three = three();
    for refused in [three[..5].to_vec(), other_at(&three, 2, 0), other_at(&three, 4, 2), other_at(&three, 5, 2)] {
        plans.extend(either(&refused));
        plans.push([refused.clone(), with(good(3), &[(1, STRAY)])]);
        plans.push([with(good(3), &[(2, KIND)]), refused]);
    }
    plans
}

fn writing([current, previous]: &[Vec<u8>; 2], begin: u64, length: usize) -> Case {
    Case::new(Entry::WriteSchedule, &[begin, length as u64], &[current, previous], &[])
}

/// Bad plans for the writer, also behind an output of another length, and before Begin and the room. // 01 Order
pub fn written() -> Vec<Case> {
    let mut cases: Vec<Case> = bad_plans().iter().map(|plans| writing(plans, 1, MESSAGE)).collect();
    for plans in either(&with(good(3), &[(2, KIND), (3, STRAY)])) {
        cases.extend([0, 1, 87, 89, 176, 256 + MESSAGE].map(|length| writing(&plans, 1, length)));
        cases.extend([0, 4, 49, 256 + 1, u64::MAX].map(|begin| writing(&plans, begin, MESSAGE)));
    }
    let long = pages_in(SLOTS, SLOTS).file();
    for octets in BOTH {
        cases.push(writing(&[with(long.clone(), &[(SLOTS, octets)]), good(0)], 1, MESSAGE));
        cases.push(writing(&[long.clone(), with(good(3), &[(3, octets)])], 1, MESSAGE));
    }
    cases
}

fn checking([current, previous]: &[Vec<u8>; 2], message: &[u8], received: u64) -> Case {
    Case::new(Entry::CheckSchedule, &[received], &[current, previous, message], &[])
}

/// What is true of a good plan of as many slots as a file counts, or of about as many.
fn told(file: &[u8]) -> [u8; MESSAGE] {
    let slots = file.get(5).map_or(3, |&count| count.clamp(1, SLOTS as u8)) as usize;
    let mut message = [0; MESSAGE];
    write_schedule(read_plan(&good(slots)), read_plan(&good(3)), 1, &mut message).expect("a good plan is written");
    message
}

/// Bad plans for the checker beside what would be true of good ones, and before all that a message is refused by and
/// what it tells untruly. // 01 Order
pub fn checked() -> Vec<Case> {
    let mut cases: Vec<Case> = bad_plans().iter().map(|plans| checking(plans, &told(&plans[0]), 88)).collect();
    let message = told(&good(3));
    for plans in either(&with(good(3), &[(2, STRAY), (3, KIND)])) {
        cases.push(checking(&plans, &message[1..], 88));
        cases.push(checking(&plans, &message, 23));
        cases.push(checking(&plans, &other_at(&message, 0, 0x41), 88));
        cases.push(checking(&plans, &other_at(&message, 2, 0xFF), 88));
        cases.push(checking(&plans, &told(&good(2)), 88));
    }
    cases
}
