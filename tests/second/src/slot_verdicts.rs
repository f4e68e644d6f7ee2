//! The edges of the verdicts on slots: each rule of truth where it just holds and where it just fails, in the first slot,
//! in a middle one and in the last, alone and beside others; and all that is refused.

use crate::blocks::{CONTENT, FILL, MESSAGE};
use crate::case::{Case, Entry};
use crate::edges::near_pages;
use crate::plan::{self, Page, Plan};
use crate::schedule::{DESCRIPTIONS, SLOTS};

/// What is planned for a slot, its new bit, and what it is told as: a first transmission's two octets, or the one octet.
type Slot = (plan::Entry, bool, u16);

const A: Page = Page { serial: 0x0010, identifier: 0x8001, parameter: 0x11 };
const B: Page = Page { serial: 0x0011, identifier: 0x0002, parameter: 0x11 };
const C: Page = Page { serial: 0x0010, identifier: 0x8003, parameter: 0x11 };
const FIRST: u16 = 0x8000; // and the low 15 bits
const OPTIONAL: u16 = 0x40;
const ADVISED: u16 = 0x41;
const RESERVED: u16 = 0x42; // to 7F
const FREE: Slot = (plan::Entry::Optional, false, OPTIONAL); // as told truly
const WATCHED: Slot = (plan::Entry::Advised, true, ADVISED); // as told truly
const OTHER_LENGTHS: [u64; 3] = [0, SLOTS as u64 - 1, SLOTS as u64 + 1];

/// A page in the lowest slot that has it, told truly beside a previous plan of these pages.
fn first(page: Page, previous: &[Page]) -> Slot {
    let new = !previous.iter().any(|there| there.is_same(page));
    (plan::Entry::Page(page), new, FIRST | page.identifier)
}

/// A page of its own for each number.
fn own(number: usize) -> Page {
    Page { serial: 0x0100 + number as u16, ..C }
}

fn page(page: Page) -> plan::Entry {
    plan::Entry::Page(page)
}

/// The octets of a description.
fn octets(code: u16) -> Vec<u8> {
    match code {
        FIRST.. => code.to_be_bytes().to_vec(),
        _ => vec![code as u8],
    }
}

/// A message that tells these slots, and its used octets. // 01 Schedule message
fn message(slots: &[Slot]) -> (Vec<u8>, usize) {
    let mut message = vec![1, slots.len() as u8, 0, 0, 0, 0, 0, 0];
    for at in (0..slots.len()).filter(|&at| slots[at].1) {
        message[2 + at / 8] |= 0x80 >> (at % 8);
    }
    for group in [true, false] {
        message.extend(slots.iter().filter(|slot| slot.1 == group).flat_map(|slot| octets(slot.2)));
    }
    let used = message.len();
    assert!(used <= MESSAGE, "the descriptions fit");
    message.resize(MESSAGE, FILL);
    (message, used)
}

fn plan(slots: &[Slot]) -> Plan {
    Plan { entries: slots.iter().map(|slot| slot.0).collect() }
}

fn pages(pages: &[Page]) -> Plan {
    Plan { entries: pages.iter().map(|&page| plan::Entry::Page(page)).collect() }
}

/// Slots as planned and as told, with the octets received up to the last used.
fn case(slots: &[Slot], previous: &[Page]) -> Case {
    let (message, used) = message(slots);
    let numbers = [(CONTENT * used.div_ceil(CONTENT)) as u64, SLOTS as u64];
    Case::new(Entry::CheckSlots, &numbers, &[&plan(slots).file(), &pages(previous).file(), &message], &[])
}

/// The same call with memory for verdicts of another length.
fn lent(case: &Case, length: u64) -> Case {
    Case { numbers: vec![case.numbers[0], length], ..case.clone() }
}

/// What a slot can be planned as: the lowest slot with its page, a later one, free, advised; and what each is told as. A
/// repeat can't be told of the first slot.
fn tellings(place: usize) -> Vec<(plan::Entry, Vec<u16>)> {
    let others = [FIRST | 0x01, 0x01, OPTIONAL, RESERVED, ADVISED];
    let mut all = vec![
        (page(C), vec![FIRST | 0x03, FIRST | 0x02, 0x01, OPTIONAL, RESERVED, ADVISED]),
        (page(A), vec![0x01, 0x02, FIRST | 0x01, FIRST | 0x02, OPTIONAL, RESERVED, ADVISED]),
        (plan::Entry::Optional, others.to_vec()),
        (plan::Entry::Advised, others.to_vec()),
    ];
    if place == 0 {
        all.remove(1);
        all.iter_mut().for_each(|(_, codes)| codes.retain(|&code| code >= OPTIONAL));
    }
    all
}

/// A slot in the first place, in a middle one or in the last, beside slots that are told truly.
fn around(place: usize, tested: Slot, previous: &[Page]) -> Case {
    let (a, b) = (first(A, previous), first(B, previous));
    match place {
        0 => case(&[tested, b], previous),
        1 => case(&[a, b, tested, FREE], previous),
        _ => case(&[a, b, tested], previous),
    }
}

/// The new bit that goes with a description of a page that is new, or of none.
fn goes_with(code: u16) -> bool {
    code != OPTIONAL && !(RESERVED..FIRST).contains(&code)
}

/// Each planned thing beside each thing told in each of three places; in the first and the middle one with the new bit
/// either way, in the last with the one that goes with it, or with the other. // 01 The plan
fn alone(last: fn(u16) -> bool) -> Vec<Case> {
    let mut cases = Vec::new();
    for place in 0..3 {
        for (planned, codes) in tellings(place) {
            for code in codes {
                let new = if place == 2 { vec![last(code)] } else { vec![false, true] };
                cases.extend(new.iter().map(|&new| around(place, (planned, new, code), &[])));
            }
        }
    }
    cases
}

/// The same of pages that the previous plan has, told as first transmissions and as repeats. // 01 The plan
fn alone_before(codes: &[u16]) -> Vec<Case> {
    let mut cases = Vec::new();
    for place in 0..3 {
        for (planned, told) in tellings(place) {
            let Some(page) = planned.page() else { continue };
            for &code in told.iter().filter(|code| codes.contains(code)) {
                cases.extend([false, true].map(|new| around(place, (planned, new, code), &[page])));
            }
        }
    }
    cases
}

/// Slots that hang on each other: a later slot is judged by the lowest slot with its page, whatever that one is told as.
fn chains() -> Vec<Case> {
    let (a, free) = (page(A), plan::Entry::Optional);
    let [one, two] = [FIRST | 0x01, FIRST | 0x02];
    let told: [&[Slot]; 8] = [
        &[(a, true, two), (a, true, 0x01)],
        &[(a, true, two), (a, true, one)],
        &[(a, true, ADVISED), (a, true, one)],
        &[(a, true, ADVISED), (a, false, OPTIONAL)],
        &[(a, false, OPTIONAL), (a, true, one)],
        &[(a, true, one), (a, true, one), (a, true, 0x02)],
        &[(a, true, one), (a, true, one), (a, true, 0x01)],
        &[(free, true, one), (a, true, 0x01), (a, true, 0x01)],
    ];
    told.map(|slots| case(slots, &[])).to_vec()
}

/// A slot that fails by a rule where A is in some slot below and B in slot 2, both new.
fn failing(rule: usize, number: usize) -> Slot {
    match rule {
        1 => (page(own(number)), false, OPTIONAL),
        2 => (page(A), true, 0x02),
        3 => (plan::Entry::Optional, true, ADVISED),
        4 => (plan::Entry::Advised, false, RESERVED),
        _ => (plan::Entry::Optional, true, OPTIONAL),
    }
}

/// Two slots that fail, by each rule beside each: the lower slot often fails by the later rule.
fn two_failing() -> Vec<Case> {
    let (a, b) = (first(A, &[]), first(B, &[]));
    let rules = (1..=5).flat_map(|low| (1..=5).map(move |high| [low, high]));
    rules.map(|[low, high]| case(&[a, b, failing(low, 3), FREE, failing(high, 5)], &[])).collect()
}

/// Slots at which one of the rules 1 to 4 and the new bit fail: all of them in one message, and each alone and then again,
/// where a page's second slot is a later one.
fn failing_twice() -> Vec<Case> {
    let previous = [A, B];
    let (a, b) = (first(A, &previous), first(B, &previous));
    let both = [
        (page(C), false, FIRST | 0x02),
        (page(C), false, 0x01),
        (page(C), true, RESERVED),
        (page(A), true, 0x02),
        (page(A), true, FIRST | 0x01),
        (plan::Entry::Optional, false, ADVISED),
        (plan::Entry::Advised, true, OPTIONAL),
        (plan::Entry::Advised, true, 0x7F),
    ];
    let all: Vec<Slot> = [a, b].into_iter().chain(both).collect();
    let mut cases = vec![case(&all, &previous)];
    cases.extend(both.map(|slot| case(&[a, b, slot, slot], &previous)));
    cases
}

/// This many slots told truly, of which the page A is in the first, B in the second, and those after them have pages of
/// their own, repeats of A, nothing and what is advised in turn; `before` slots stand before them.
fn many(slots: usize, before: usize) -> Vec<Slot> {
    let mut many = vec![first(A, &[]), first(B, &[])];
    let repeat = (page(A), true, before as u16 + 1);
    many.extend((2..slots).map(|at| [first(own(at), &[]), repeat, FREE, WATCHED][at % 4]));
    many
}

/// 48 slots: all true, one that fails by each rule in slot 1 (3 for a later slot), 24 or 48, and all that can fail.
fn all_slots() -> Vec<Case> {
    let mut cases = vec![case(&many(SLOTS, 0), &[])];
    for rule in 1..=5 {
        for at in [24, SLOTS] {
            let mut slots = many(SLOTS, 0);
            slots[at - 1] = failing(rule, at);
            cases.push(case(&slots, &[]));
        }
        let mut slots = many(SLOTS - 1, if rule == 2 { 0 } else { 1 });
        slots.insert(if rule == 2 { 2 } else { 0 }, failing(rule, 1));
        cases.push(case(&slots, &[]));
    }
    cases.extend([[1, 2, 3, 4, 5], [5, 4, 3, 2, 1], [2, 5, 1, 4, 3]].map(all_failing));
    cases
}

/// 48 slots that fail, A and B among them by their bits and by their new bit, and the others by these rules in turn.
fn all_failing(rules: [usize; 5]) -> Case {
    let mut slots = vec![(page(A), true, FIRST | 0x02), (page(B), false, FIRST | 0x02)];
    slots.extend((2..SLOTS).map(|at| failing(rules[at % 5], at)));
    case(&slots, &[])
}

/// Every reserved octet in 48 slots, told of a free slot, of an advised one, of the lowest slot with a page and of a later
/// one in turn, with the new bit either way.
fn reserved() -> Vec<Case> {
    let mut cases = Vec::new();
    for lowest in [RESERVED, 0x80 - SLOTS as u16] {
        for new in [false, true] {
            let planned =
                |at: usize| [plan::Entry::Optional, plan::Entry::Advised, page(own(at / 4)), page(own(at / 4))][at % 4];
            let slots: Vec<Slot> = (0..SLOTS).map(|at| (planned(at), new, lowest + at as u16)).collect();
            cases.push(case(&slots, &[]));
        }
    }
    cases
}

/// Identifiers told with each of their low 15 bits wrong, and told rightly with bit 16 either way. // 01 The plan
fn bits() -> Vec<Case> {
    let identifiers = [0x0001, 0x8001, 0x0000, 0x8000, 0x7FFF, 0xFFFF];
    let right = |at: usize| first(Page { identifier: identifiers[at % 6], ..own(at) }, &[]);
    let wrong = |bit: usize| {
        let (entry, new, code) = right(bit);
        (entry, new, code ^ 1 << bit)
    };
    let other = Page { identifier: 0x0001, ..A };
    let mut cases = vec![case(&[0, 1, 2, 3, 4, 5].map(right), &[])];
    cases.push(case(&(0..15).map(wrong).collect::<Vec<Slot>>(), &[]));
    cases.extend([false, true].map(|new| case(&[(page(A), new, FIRST | 0x01)], &[other])));
    cases
}

/// Pages that differ from A in one thing are in the lowest slot that has them, also where their low 15 bits are A's.
fn near() -> Vec<Case> {
    let a = first(A, &[]);
    let told = |other: Page| [(page(other), true, 0x01), first(other, &[])];
    near_pages(A).into_iter().flat_map(told).map(|other| case(&[a, other], &[])).collect()
}

/// Pages that are the same though their parameters differ, and pages that aren't, in two slots and in the previous plan.
/// // 02 No. 2
fn forms() -> Vec<Case> {
    let form = |parameter: u8| Page { parameter, ..A };
    let beside = [(0x00, 0x11), (0x11, 0x00), (0x0F, 0x50), (0x00, 0x21), (0x11, 0x12), (0xF1, 0x10)];
    let mut cases = Vec::new();
    for (one, other) in beside {
        for code in [0x01, FIRST | 0x01, OPTIONAL] {
            cases.push(case(&[first(form(one), &[]), (page(form(other)), code != OPTIONAL, code)], &[]));
        }
        cases.extend([false, true].map(|new| case(&[(page(form(one)), new, FIRST | 0x01)], &[form(other)])));
    }
    cases
}

/// A plan of one slot, told with the new bit that goes with each description.
fn only() -> Vec<Case> {
    let planned = [page(A), plan::Entry::Optional, plan::Entry::Advised];
    let codes = [FIRST | 0x01, FIRST | 0x41, OPTIONAL, RESERVED, 0x7F, ADVISED];
    let all = planned.into_iter().flat_map(|entry| codes.map(|code| (entry, code)));
    all.map(|(entry, code)| case(&[(entry, goes_with(code), code)], &[])).collect()
}

/// What the refusals are tried on: slot 2 is told untruly by its rule and slot 4 in its new bit.
fn untrue() -> Case {
    let previous = [B];
    case(&[first(A, &previous), (page(A), false, FIRST | 0x01), first(B, &previous), failing(5, 4)], &previous)
}

/// Changes a case so that it is refused.
type Spoil = fn(&mut Case);

/// All that is refused, in order; those of a plan file also in the previous plan. // 01 Order, 02 No. 1
const REFUSED: [Spoil; 23] = [
    |case| case.lists[0].truncate(5),
    |case| case.lists[0][2] = b'Q',
    |case| case.lists[0][4] = 2,
    |case| case.lists[0].push(0),
    |case| case.lists[0][18] = 3,
    |case| case.lists[0][18] = 1,
    |case| case.lists[1].truncate(5),
    |case| case.lists[1][0] = b'c',
    |case| case.lists[1][3] = 1,
    |case| case.lists[1][5] = 49,
    |case| case.lists[1][6] = 255,
    |case| case.lists[1][6] = 0,
    |case| case.lists[0] = Plan::default().file(),
    |case| case.lists[2].truncate(87),
    |case| case.lists[2].push(FILL),
    |case| case.numbers[0] = 23,
    |case| case.lists[2][0] = 0x41,
    |case| case.lists[2][0] = 0x05,
    |case| case.lists[2][1] = 49,
    |case| case.lists[2][2] |= 0x08,
    |case| {
        case.lists[2][1] = 8;
        case.lists[2][DESCRIPTIONS + 3..].fill(0x80);
    },
    |case| case.lists[2][DESCRIPTIONS] = 0x02,
    |case| case.lists[2][DESCRIPTIONS + 2] = 0x04,
];

/// Each refusal with memory of the right length. // 01 Order
fn refused() -> Vec<Case> {
    let spoilt = |spoil: &Spoil| {
        let mut case = untrue();
        spoil(&mut case);
        case
    };
    REFUSED.iter().map(spoilt).collect()
}

/// A bad entry in a middle slot and in slot 48, of the current plan and of the previous one. // 02 No. 1
fn bad_entries() -> Vec<Case> {
    let bad = [(0, 24, 3), (1, 24, 1), (1, SLOTS, 3), (0, SLOTS, 1)]; // list, entry, kind
    let spoilt = |(list, entry, kind): (usize, usize, u8)| {
        let mut case = untrue();
        case.lists[list] = plan(&many(entry, 0)).file();
        case.lists[list][6 * entry] = kind;
        case.lists[list][6 * entry + 5] = 0x11;
        case
    };
    bad.map(spoilt).to_vec()
}

/// Each refusal behind 15. // 01 Order
fn behind_length() -> Vec<Case> {
    refused().iter().flat_map(|case| OTHER_LENGTHS.map(|length| lent(case, length))).collect()
}

/// Memory of many lengths beside a message that is untrue, that is true, and whose End differs.
fn lengths() -> Vec<Case> {
    let lengths = [0, 1, 4, 46, 47, 48, 49, 50, 88, 96, 256 + 48];
    let mut cases: Vec<Case> = lengths.map(|length| lent(&untrue(), length)).to_vec();
    let (truth, mut longer) = (case(&[first(A, &[])], &[]), untrue());
    longer.lists[2][1] = 3;
    longer.lists[2][2] &= !0x10;
    for case in [truth, longer] {
        cases.extend(OTHER_LENGTHS.iter().chain(&[SLOTS as u64]).map(|&length| lent(&case, length)));
    }
    cases
}

/// End beside other counts of the plan, where all slots that both have are true and where none is.
fn other_ends() -> Vec<Case> {
    let with = |slot: Slot, count: usize, end: usize| {
        let mut case = case(&vec![slot; end], &[]);
        case.lists[0] = plan(&vec![slot; count]).file();
        case
    };
    let truly = [(1, 2), (2, 1), (47, 48), (48, 47)].map(|(count, end)| with(FREE, count, end));
    let untruly = [(3, 8), (8, 3), (1, 48), (48, 1)].map(|(count, end)| with(failing(3, 0), count, end));
    [truly, untruly].concat()
}

/// Octets received of every kind, beside descriptions that end in the first block and that just pass it.
fn received() -> Vec<Case> {
    let mut slots: Vec<Slot> = (0..7).map(|at| first(own(at), &[])).collect();
    slots[3].2 ^= 0x01;
    let within = case(&slots, &[]);
    slots.push((page(own(6)), true, 0x07));
    let past = case(&slots, &[]);
    let all = [0, 21, 22, 23, 44, 45, 66, 67, 87, 88, 89, 110, 256 + 22, (1 << 32) + 88];
    let with = |case: &Case, received: u64| Case { numbers: vec![received, SLOTS as u64], ..case.clone() };
    let mut cases = all.map(|received| with(&within, received)).to_vec();
    cases.extend([22, 44, 66, 88].map(|received| with(&past, received)));
    cases
}

/// Begin anywhere and spare bits beside End change nothing. // 01 Schedule message
fn other_headers() -> Vec<Case> {
    [[2, 0x04], [4, 0x44], [1, 0xC4]]
        .map(|header| {
            let mut case = untrue();
            case.lists[2][..2].copy_from_slice(&header);
            case
        })
        .to_vec()
}

/// What the checker of slots is given.
pub fn judged() -> Vec<Case> {
    [
        alone(goes_with),
        alone_before(&[FIRST | 0x03, 0x01]),
        chains(),
        two_failing(),
        failing_twice(),
        all_slots(),
        reserved(),
        bits(),
        near(),
        forms(),
        only(),
        refused(),
        bad_entries(),
        lengths(),
        other_ends(),
        received(),
        other_headers(),
    ]
    .concat()
}

/// What it is given beside these where results aren't stored.
pub fn judged_besides() -> Vec<Case> {
    [alone(|code| !goes_with(code)), alone_before(&[FIRST | 0x01, FIRST | 0x02, 0x02]), behind_length()].concat()
}
