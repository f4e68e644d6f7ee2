//! The cases at the edges of each entry, chosen one by one.

use crate::bad_entries;
use crate::blank_cells;
use crate::blocks::{BLOCK, FILL, MESSAGE};
use crate::case::{Case, Entry};
use crate::extension;
use crate::intake::STATE;
use crate::invent::{with_verdicts, CARRIED};
use crate::late_faults;
use crate::plan::{self, Page, Plan};
use crate::schedule::{Description, Told, SLOTS};
use crate::sender::lay;
use crate::several_pages;
use crate::side::LENT;
use crate::slot_verdicts;
use crate::text::{pack, CHARACTERS, HEADER};
use crate::zero_parameter;

/// The edge cases of an entry.
pub fn cases(entry: Entry) -> Vec<Case> {
    [stored_first(entry), extension::cases(entry), blank_cells::cases(entry), not_stored(entry)].concat()
}

/// The edge cases of an entry but for those of document 02's Nos. 5 and 6, which are stored in other files and last.
pub fn stored_first(entry: Entry) -> Vec<Case> {
    match entry {
        Entry::Start => vec![Case::new(entry, &[], &[&[0; STATE]], &[]), Case::new(entry, &[], &[&[]], &[])],
        Entry::Intake => [intake(), improper_states()].concat(),
        Entry::WriteBlocks => blocks(),
        Entry::WriteText => [writing(), zero_parameter::texts(), late_faults::texts()].concat(),
        Entry::ReadText => [reading(), zero_parameter::readings()].concat(),
        Entry::Content => contents(),
        Entry::ReadSchedule => schedules(),
        Entry::Description => places(),
        Entry::ReadPlan => [plans(), bad_entries::plans(), zero_parameter::plans()].concat(),
        Entry::WriteSchedule => [schedules_written(), bad_entries::written(), zero_parameter::written()].concat(),
        Entry::CheckSchedule => [checks(), bad_entries::checked(), zero_parameter::checked()].concat(),
        Entry::Decide => decisions(),
        Entry::Enter => enterings(),
        Entry::Slots => slots(),
        Entry::ReadHeader => [headers(), zero_parameter::headers()].concat(),
        Entry::StartCollector => several_pages::starts(),
        Entry::Collect => several_pages::collected(),
        Entry::CheckSlots => slot_verdicts::judged(),
    }
}

/// Edge cases that aren't stored, to keep the files small: all of the checker's are edges slot by slot too.
fn not_stored(entry: Entry) -> Vec<Case> {
    if entry != Entry::CheckSlots {
        return vec![];
    }
    let checked = stored_first(Entry::CheckSchedule).into_iter().map(with_verdicts);
    checked.chain(slot_verdicts::judged_besides()).collect()
}

/// Octets that are all different from their neighbours.
fn counted(length: usize) -> Vec<u8> {
    (0..length).map(|at| at as u8 ^ 0x5A).collect()
}

/// Each kind of code, with the mark and without, in each proper state. // 01 Intake
fn intake() -> Vec<Case> {
    let states = [(0, 0), (1, 1), (1, 2), (1, 3), (2, 1), (2, 2), (2, 3)];
    let mut cases = Vec::new();
    for (kind, taken) in states {
        let state = seeming(kind, taken);
        for code in [0, 1, 2, 3, 4, 7, 8, 9, 14, 15] {
            for mark in [0x20, 0x30] {
                let piece = [vec![mark | code], counted(22)].concat();
                cases.push(Case::new(Entry::Intake, &[1, 90, 88], &[&state, &[LENT; CARRIED], &piece], &[]));
            }
        }
    }
    cases
}

/// States that no call leaves, each with a piece that would complete the message that it seems to hold: another octet than 2B
/// behind the blocks, a kind that is none, a kind without blocks, blocks without a kind, and a fourth block. // 01 Intake
fn improper_states() -> Vec<Case> {
    let mut states = Vec::new();
    for (kind, taken) in [(1, 1), (1, 2), (1, 3), (2, 1), (2, 2), (2, 3)] {
        let behind = 2 + 22 * taken;
        for place in [behind, behind + (STATE - behind) / 2, STATE - 1] {
            let mut state = seeming(kind, taken);
            state[place] = FILL ^ 1;
            states.push((state, taken));
        }
    }
    for (kind, taken) in [(3, 1), (3, 2), (255, 3), (0, 1), (0, 3), (1, 0), (2, 0), (3, 0), (1, 4), (2, 4)] {
        states.push((seeming(kind, taken), taken));
    }
    let last = |taken: usize| [vec![0x30 | taken as u8 & 3], counted(22)].concat();
    let case = |(state, taken): &(Vec<u8>, usize)| {
        Case::new(Entry::Intake, &[1, 90, 88], &[state, &[LENT; CARRIED], &last(*taken)], &[])
    };
    states.iter().map(case).collect()
}

/// A state of a kind with so many blocks taken, and 2B behind them.
fn seeming(kind: u8, taken: usize) -> Vec<u8> {
    let mut state = vec![FILL; STATE];
    state[2..2 + 22 * taken].copy_from_slice(&counted(22 * taken));
    state[..2].copy_from_slice(&[kind, taken as u8]);
    state.resize(CARRIED, LENT);
    state
}

/// Used octets about each block. // 01 Blocks
fn blocks() -> Vec<Case> {
    let used = [0, 1, 21, 22, 23, 43, 44, 45, 65, 66, 67, 87, 88, 89, 256 + 22];
    let both = used.into_iter().flat_map(|used| [0, 1].map(|schedule| (schedule, used)));
    both.map(|(schedule, used)| {
        Case::new(Entry::WriteBlocks, &[schedule, used, 4 * BLOCK as u64], &[&counted(MESSAGE)], &[])
    })
    .collect()
}

fn text_case(text: &[u16], parameter: u64) -> Case {
    Case::new(Entry::WriteText, &[0x1234, 0x8001, 0x0F, parameter, MESSAGE as u64], &[], text)
}

/// Texts of lengths about the edges, every code point up to U+03AA alone, and every parameter. // 01 Page and text
fn writing() -> Vec<Case> {
    let lengths = [0, 1, 7, 8, 9, 17, 18, 19, 42, 43, 44, 67, 68, 69, 92, 93, 94];
    let mut cases: Vec<Case> = lengths.into_iter().map(|length| text_case(&vec![0x41; length], 0x11)).collect();
    cases.extend((0..=0x3AA).map(|point| text_case(&[point], 0x11)));
    cases.extend((0..=0xFF).filter(|parameter| parameter % 5 < 2).map(|parameter| text_case(&[0x42], parameter)));
    cases.push(text_case(&[0x41, 0x0D, 0x0D, 0x42], 0x11));
    cases.push(text_case(&[0x41, 0x0D], 0x11));
    cases
}

/// Every septet, and CRs up to and about the ends of what can be received. // 01 Page and text
fn reading() -> Vec<Case> {
    let mut pages = vec![packed(&|at| at as u8), packed(&|at| at as u8 + 35)];
    for characters in [0, 1, 17, 18, 19, 42, 43, 44, 67, 68, 69, 92, 93] {
        pages.push(packed(&|at| if at < characters { 0x41 } else { 0x0D }));
    }
    pages.push([vec![0; 6], vec![0xFF; 82]].concat());
    let all = pages.iter().flat_map(|page| [22, 44, 66, 88].map(|received| (page, received)));
    all.map(|(page, received)| Case::new(Entry::ReadText, &[received, CHARACTERS as u64], &[page], &[])).collect()
}

fn packed(septet: &dyn Fn(usize) -> u8) -> Vec<u8> {
    let septets: Vec<u8> = (0..CHARACTERS).map(septet).collect();
    let mut page = vec![0; MESSAGE];
    pack(&septets, &mut page[6..]);
    page
}

fn contents() -> Vec<Case> {
    let received = [0, 1, 6, 21, 22, 23, 44, 66, 87, 88, 89, 278, (1 << 32) + 22];
    received.into_iter().map(|received| Case::new(Entry::Content, &[received], &[&counted(MESSAGE)], &[])).collect()
}

fn read_case(message: &[u8], received: u64) -> Case {
    Case::new(Entry::ReadSchedule, &[received], &[message], &[])
}

/// Begin and End of every value, every octet as a description, and descriptions that end about the received. // 000 3.5
fn schedules() -> Vec<Case> {
    let mut cases = Vec::new();
    for value in (0..=8).chain([47, 48, 49, 63, 64, 65, 127, 128, 129, 192, 193, 255]) {
        cases.push(read_case(&message(&[value, 5], &[0x40; 48]), 22));
    }
    for value in (0..=0xFF).filter(|value| value % 64 < 16 || value % 64 > 44) {
        cases.push(read_case(&message(&[1, value], &[0x40; 48]), 66));
    }
    for octet in 0..=0xFF {
        cases.push(read_case(&message(&[1, 3], &[0x80, 0x05, octet, 0x40, 0x40]), 22));
    }
    for received in [22, 44, 66, 88] {
        cases.extend(about(received));
    }
    cases
}

/// Descriptions that end one octet before the received, at them and past them.
fn about(received: usize) -> Vec<Case> {
    let room = received - 8;
    let ends = |firsts: usize, others: usize| {
        let octets = [[0x80, 0x01].repeat(firsts), vec![0x40; others]].concat();
        read_case(&message(&[1, (firsts + others) as u8], &octets), received as u64)
    };
    let firsts = room.saturating_sub(SLOTS).max(room / 4);
    [room - 1, room, room + 1, room + 2].into_iter().map(|sum| ends(firsts, sum - 2 * firsts)).collect()
}

/// A message of a header, no new bits, and descriptions, filled up with 2B.
fn message(header: &[u8; 2], descriptions: &[u8]) -> Vec<u8> {
    let mut message = [header, &[0; 6][..], descriptions].concat();
    message.resize(MESSAGE, FILL);
    message
}

/// Places about End. // 01 Schedule message
fn places() -> Vec<Case> {
    let sound = message(&[1, 3], &[0x80, 0x05, 0x01, 0x7F]);
    let refused = message(&[1, 3], &[0x80, 0x05, 0x02, 0x7F]);
    let places = [0, 1, 2, 3, 4, 47, 48, 49, 256, 1 << 32, u64::MAX];
    let both = places.into_iter().flat_map(|place| [&sound, &refused].map(|message| (place, message)));
    both.map(|(place, message)| Case::new(Entry::Description, &[22, place, 1], &[message], &[])).collect()
}

/// Counts about the ends, each with lengths about the right one. // 01 The plan
fn plans() -> Vec<Case> {
    let mut cases = Vec::new();
    for count in [0usize, 1, 2, 47, 48, 49, 255] {
        let right = 6 + 6 * count.min(49);
        for length in [right.saturating_sub(6), right - 1, right, right + 1, right + 6] {
            let mut file = b"CBP\x00\x01".to_vec();
            file.push(count as u8);
            file.resize(length, 0);
            cases.push(Case::new(Entry::ReadPlan, &[], &[&file], &[]));
        }
    }
    for kind in 0..=4 {
        for at in 0..=5 {
            let mut file = b"CBP\x00\x01\x01".to_vec();
            file.extend([kind, 0, 0, 0, 0, 0]);
            if at > 0 {
                file[6 + at] = 0x10;
            }
            cases.push(Case::new(Entry::ReadPlan, &[], &[&file], &[]));
        }
    }
    cases
}

/// A plan with this many different pages, and repeats of the last in the other slots.
pub fn pages_in(pages: usize, slots: usize) -> Plan {
    let page = |at: usize| Page { serial: at as u16, identifier: 0x8001, parameter: 0x11 };
    Plan { entries: (0..slots).map(|at| plan::Entry::Page(page(at.min(pages - 1)))).collect() }
}

/// Plans that just fit and just don't, and the example of two slots. // 01 Where the edges are
fn schedules_written() -> Vec<Case> {
    let example = Page { serial: 0x0010, identifier: 0x8001, parameter: 0x11 };
    let two = Plan { entries: vec![plan::Entry::Page(example); 2] };
    let none = Plan::default();
    let case = |current: &Plan, previous: &Plan, begin: u64| {
        Case::new(Entry::WriteSchedule, &[begin, MESSAGE as u64], &[&current.file(), &previous.file()], &[])
    };
    let mut cases = vec![case(&two, &none, 1), case(&two, &two, 1), case(&two, &none, 2), case(&two, &none, 3)];
    for (pages, slots) in [(32, 48), (33, 48), (40, 40), (41, 41)] {
        cases.push(case(&pages_in(pages, slots), &none, slots as u64));
    }
    cases.extend(near_pages(example).into_iter().map(|other| {
        let plan = Plan { entries: vec![plan::Entry::Page(example), plan::Entry::Page(other)] };
        case(&plan, &two, 1)
    }));
    cases
}

/// Pages that differ from a page in one thing, and one that has its numbers in each other's place.
pub fn near_pages(page: Page) -> Vec<Page> {
    vec![
        Page { serial: 0x0110, ..page },
        Page { identifier: 0x0001, ..page },
        Page { parameter: 0x12, ..page },
        Page { serial: page.identifier, identifier: page.serial, ..page },
    ]
}

/// Each planned thing beside each thing told, with the new bit either way, in slot 1 and in slot 2. // 01 The plan
fn checks() -> Vec<Case> {
    let page = Page { serial: 0x0010, identifier: 0x8001, parameter: 0x11 };
    let other = Page { parameter: 0x12, ..page };
    let planned = [plan::Entry::Page(page), plan::Entry::Page(other), plan::Entry::Optional, plan::Entry::Advised];
    let descriptions = [
        Description::First(0x0001),
        Description::First(0x0002),
        Description::Repeat(1),
        Description::Optional,
        Description::Advised,
    ];
    let mut cases = Vec::new();
    for entry in planned {
        for description in descriptions {
            for new in [false, true] {
                for known in [false, true] {
                    let previous = Plan { entries: if known { vec![plan::Entry::Page(page); 1] } else { vec![] } };
                    cases.push(check_second(page, entry, &previous, new, description));
                    cases.push(check_only(entry, &previous, new, description));
                }
            }
        }
    }
    cases
}

/// Slot 1 told truthfully as a page's first, and slot 2 as given.
fn check_second(page: Page, entry: plan::Entry, previous: &Plan, new: bool, description: Description) -> Case {
    let first = Told { slot: 1, new: !previous.has(page), description: Description::First(page.identifier & 0x7FFF) };
    let current = Plan { entries: vec![plan::Entry::Page(page), entry] };
    check_case(&current, previous, &[first, Told { slot: 2, new, description }])
}

/// A plan of one slot.
fn check_only(entry: plan::Entry, previous: &Plan, new: bool, description: Description) -> Case {
    check_case(&Plan { entries: vec![entry] }, previous, &[Told { slot: 1, new, description }])
}

fn check_case(current: &Plan, previous: &Plan, told: &[Told]) -> Case {
    let message = lay(1, told).expect("two slots fit");
    Case::new(Entry::CheckSchedule, &[22], &[&current.file(), &previous.file(), &message], &[])
}

/// Every kind of description and slots past End beside several wanted lists and held sets. // 01 The plan
fn decisions() -> Vec<Case> {
    let descriptions = [0x80, 0x01, 0xBF, 0xFF, 0x01, 0x02, 0x40, 0x41, 0x42, 0x7F];
    let message = message(&[1, 8], &descriptions);
    let wanted: [&[u16]; 6] = [&[], &[0x0001], &[0x8001], &[0x4001, 0x3FFF], &[0x0002, 0xBFFF], &[0; 64]];
    let held = [0, 0x01, 0x02, 0xFFFF_0000_0000_0000, u64::MAX];
    let mut cases = Vec::new();
    for slot in 0..=10 {
        for wanted in wanted {
            for held in held {
                if wanted.len() < 64 || held == 0 {
                    cases.push(Case::new(Entry::Decide, &[1, 22, slot, held], &[&message], wanted));
                }
            }
        }
        cases.push(Case::new(Entry::Decide, &[0, 22, slot, 0], &[&message], &[]));
        cases.push(Case::new(Entry::Decide, &[1, 23, slot, 0], &[&message], &[]));
    }
    cases
}

const ALL_HELD: u64 = u64::MAX >> 16; // slots 1 to 48
const PAST_HELD: u64 = !ALL_HELD; // the bits that mean nothing

fn enter_case(known: u64, message: &[u8], received: u64, slot: u64, held: u64) -> Case {
    Case::new(Entry::Enter, &[known, received, slot, held], &[message], &[])
}

/// Every kind of description, slots past End and outside 1 to 48, held sets of all bits and of none, schedules that
/// aren't known or are refused though they would tell a repeat, and repeats at the far ends. // 01 The plan
fn enterings() -> Vec<Case> {
    let eight = message(&[1, 8], &[0x80, 0x01, 0xBF, 0xFF, 0x01, 0x02, 0x40, 0x41, 0x42, 0x7F]);
    let inside = 1..=10;
    let outside = [0, 49, 50, 64, 65, 67, 256 + 3, (1 << 16) + 3, 1 << 32, (1 << 32) + 3, 1 << 63, u64::MAX];
    let mut cases = Vec::new();
    for slot in inside.chain([47, 48]).chain(outside) {
        cases.extend([0, u64::MAX, PAST_HELD].map(|held| enter_case(1, &eight, 22, slot, held)));
    }
    for slot in [0, 1, 3, 4, 9, 48, 49, (1 << 32) + 3, u64::MAX] {
        cases.push(enter_case(0, &eight, 22, slot, 0));
    }
    for held in [0x01, 0x02, 0x04, 0x08, ALL_HELD, ALL_HELD - 0x01, ALL_HELD - 0x04, PAST_HELD | 0x04] {
        cases.push(enter_case(1, &eight, 22, 3, held));
        cases.push(enter_case(0, &eight, 22, 3, held));
    }
    for (length, received) in [(0, 22), (21, 22), (87, 22), (89, 22), (88, 0), (88, 21), (88, 23), (88, 256 + 22)] {
        let mut message = eight.clone();
        message.resize(length, FILL);
        cases.push(enter_case(1, &message, received, 3, 0));
        cases.push(enter_case(0, &message, received, 3, 0));
    }
    for message in [no_first(), passing(), far_repeats(), new_repeats()] {
        for slot in [1, 2, 3, 47, 48] {
            cases.push(enter_case(1, &message, 88, slot, 0));
        }
    }
    cases.extend((1..=9).map(|slot| enter_case(1, &passing(), 22, slot, 0)));
    cases
}

/// Slot 2 repeats slot 1, and slot 3 repeats slot 2, which is no first transmission.
fn no_first() -> Vec<u8> {
    message(&[1, 3], &[0x80, 0x05, 0x01, 0x02])
}

/// Eight descriptions that take 15 octets, so that the last passes the first block.
fn passing() -> Vec<u8> {
    message(&[1, 8], &[[0x80, 0x05].repeat(7), vec![0x01]].concat())
}

/// Slot 48 repeats slot 47, and the slots in between repeat slot 1.
fn far_repeats() -> Vec<u8> {
    message(&[48, 48], &[vec![0x80, 0x05], vec![0x01; 45], vec![0x80, 0x06, 47]].concat())
}

/// The repeats in slots 2 and 3 are new and their first isn't, so that they stand before it.
fn new_repeats() -> Vec<u8> {
    let mut message = message(&[1, 3], &[0x01, 0x01, 0x80, 0x05]);
    message[2] = 0b0110_0000;
    message
}

fn slots_case(message: &[u8], received: u64, length: usize) -> Case {
    Case::new(Entry::Slots, &[received, length as u64], &[message], &[])
}

/// Lengths about 48 numbers and about their octets, Begin and End with each kind of new bits, octets at the edges of
/// each kind of description, repeats at the far ends, and descriptions that end about the received. // 01 Schedule message
fn slots() -> Vec<Case> {
    let mut cases = Vec::new();
    for length in [0, 1, 6, 12, 24].into_iter().chain(44..=52).chain([88, 96, 192, 256 + SLOTS]) {
        cases.push(slots_case(&far_repeats(), 88, length));
        cases.push(slots_case(&no_first(), 22, length));
    }
    for (spare, new) in [(0x00, 0x00), (0x40, 0xAA), (0xC0, 0xFF)] {
        for end in [1, 2, 8, 9, 16, 17, 40, 47, 48, 49] {
            cases.push(slots_case(&advised(spare, end, new), 88, SLOTS));
        }
    }
    for octet in [0x00, 0x01, 0x02, 0x03, 0x2F, 0x30, 0x3F, 0x40, 0x41, 0x42, 0x5F, 0x60, 0x7F, 0x80, 0xBF, 0xFF] {
        cases.push(slots_case(&message(&[2, 3], &[0x80, 0x05, octet, 0x01, 0x40]), 22, SLOTS));
    }
    for message in [new_repeats(), passing(), firsts(32, 16), firsts(40, 0)] {
        cases.extend([22, 66, 88].map(|received| slots_case(&message, received, SLOTS)));
    }
    for received in [22, 44, 66, 88] {
        cases.extend(about(received).iter().map(|case| slots_case(&case.lists[0], case.numbers[0], SLOTS)));
    }
    cases
}

/// A message with End octet `spare` and `end`, Begin at End, and new bits of this pattern up to End.
fn advised(spare: u8, end: u8, new: u8) -> Vec<u8> {
    let mut message = message(&[end, spare | end], &[0x41; SLOTS + 1]);
    for at in (0..end.min(SLOTS as u8) as usize).filter(|at| new << (at % 8) & 0x80 != 0) {
        message[2 + at / 8] |= 0x80 >> (at % 8);
    }
    message
}

/// This many first transmissions, with all of the 15 bits in turn, and then repeats of the first of them.
fn firsts(firsts: usize, repeats: usize) -> Vec<u8> {
    let identifiers = (0..firsts).flat_map(|at| (0x8000 | 1u16 << (at % 15)).to_be_bytes());
    message(&[1, (firsts + repeats) as u8], &identifiers.chain(vec![0x01; repeats]).collect::<Vec<u8>>())
}

/// Each bit of the header alone, octets that are all different, and lengths about the right one. // 002 9.3.2
fn headers() -> Vec<Case> {
    let case = |page: &[u8]| Case::new(Entry::ReadHeader, &[], &[page], &[]);
    let mut cases = vec![case(&[0; MESSAGE]), case(&[0xFF; MESSAGE])];
    for bit in 0..8 * HEADER {
        let mut page = [0; MESSAGE];
        page[bit / 8] = 0x80 >> (bit % 8);
        cases.push(case(&page));
    }
    let mut content = [0xFF; MESSAGE];
    content[..HEADER].fill(0);
    cases.push(case(&content));
    let lengths = (0..=12).chain([21, 22, 23, 44, 66]).chain(80..=96).chain([110, 2 * MESSAGE, 256 + MESSAGE]);
    cases.extend(lengths.map(|length| case(&counted(length))));
    cases
}
