//! Cases invented from random numbers: sound ones, ones with chosen faults, damaged ones and wild ones.

use crate::blocks::{BLOCK, CONTENT, FILL, MESSAGE};
use crate::case::{Case, Entry};
use crate::collector::{place_of, COLLECTOR, HEAD, MOST_PAGES, PLACE};
use crate::intake::STATE;
use crate::plan::{self, Page, Plan};
use crate::random::Random;
use crate::schedule::{read_schedule, Description, Told, DESCRIPTIONS, SLOTS};
use crate::sender::lay;
use crate::several_pages::{self, collecting, from_start, holding, littered, parameter, started, Message, Sent};
use crate::side::LENT;
use crate::text::{pack, septet_after_escape, ALPHABET, CHARACTERS, ESCAPE, EXTENSION, HEADER, SEPTETS};
use crate::zero_parameter::{by_octets, Plans};

/// Octets of the state and of the output that an intake case carries: more than are lent to a sound call.
pub const CARRIED: usize = 100;

/// A fault that can be put into a case; `usize` says in which list or number.
#[derive(Clone, Copy, Debug, PartialEq, Eq)]
pub enum Fault {
    Length(usize, usize), // a length given as a number, and what it must not be
    StateLength,
    StateImproper,
    PieceLength,
    Discriminator,
    ReservedCode,
    NullCode,
    NotNext,
    MessageLength(usize),
    Used,
    Received(usize),
    Scheme,
    PageScheme,
    Parameter,
    TextLength,
    NotInAlphabet,
    EndsInCr,
    ScheduleType(usize),
    BeginEnd(usize),
    NewBitPastEnd(usize),
    Passes(usize, usize),
    FalseRepeat(usize),
    RepeatOfNoFirst(usize),
    PlanShort(usize),
    PlanMark(usize),
    PlanVersion(usize),
    PlanLength(usize),
    PlanKind(usize),
    PlanStray(usize),
    NoSlots,
    Begin,
    TooLong,
    EndDiffers,
    SlotUntrue,
    Slot,
    WantedTooMany,
    PageOverTotal,
}

/// The reader's faults, of the message in a list and received in a number. // 01 Order
fn reader_faults(list: usize, number: usize) -> Vec<(u8, Fault)> {
    vec![
        (16, Fault::MessageLength(list)),
        (18, Fault::Received(number)),
        (20, Fault::ScheduleType(list)),
        (21, Fault::BeginEnd(list)),
        (22, Fault::NewBitPastEnd(list)),
        (23, Fault::Passes(list, number)),
        (24, Fault::FalseRepeat(list)),
    ]
}

/// The faults of a plan file; of an entry's two, the one put last stands lowest. // 01 Order, 02 No. 1
fn plan_faults(list: usize) -> Vec<(u8, Fault)> {
    vec![
        (32, Fault::PlanShort(list)),
        (30, Fault::PlanMark(list)),
        (31, Fault::PlanVersion(list)),
        (32, Fault::PlanLength(list)),
        (36, Fault::PlanKind(list)),
        (37, Fault::PlanStray(list)),
    ]
}

/// The checker's faults, of the plans in the first two lists and the message in the third. // 01 Order
fn checker_faults() -> Vec<(u8, Fault)> {
    [
        plan_faults(0),
        plan_faults(1),
        vec![(35, Fault::NoSlots)],
        reader_faults(2, 0),
        vec![(40, Fault::EndDiffers), (40, Fault::SlotUntrue)],
    ]
    .concat()
}

/// The faults of an entry, each with its number, in the order in which they are refused. Entering refuses nothing:
/// its numbers are those by which the schedule is refused, and 0 is a slot under which nothing is entered. // 01 Order
pub fn faults(entry: Entry) -> Vec<(u8, Fault)> {
    match entry {
        Entry::Start => vec![(8, Fault::StateLength)],
        Entry::Intake => vec![
            (15, Fault::Length(2, MESSAGE)),
            (8, Fault::StateLength),
            (8, Fault::StateImproper),
            (2, Fault::PieceLength),
            (3, Fault::Discriminator),
            (4, Fault::ReservedCode),
            (5, Fault::NullCode),
            (6, Fault::NotNext),
        ],
        Entry::WriteBlocks => {
            vec![(15, Fault::Length(2, 4 * BLOCK)), (16, Fault::MessageLength(0)), (17, Fault::Used)]
        }
        Entry::WriteText => vec![
            (15, Fault::Length(4, MESSAGE)),
            (13, Fault::Scheme),
            (14, Fault::Parameter),
            (11, Fault::NotInAlphabet),
            (10, Fault::TextLength),
            (12, Fault::EndsInCr),
        ],
        Entry::ReadText => vec![
            (15, Fault::Length(1, CHARACTERS)),
            (16, Fault::MessageLength(0)),
            (18, Fault::Received(0)),
            (13, Fault::PageScheme),
        ],
        Entry::Content => vec![(16, Fault::MessageLength(0)), (18, Fault::Received(0))],
        Entry::ReadSchedule | Entry::Description => reader_faults(0, 0),
        Entry::ReadPlan => plan_faults(0),
        Entry::WriteSchedule => [
            vec![(15, Fault::Length(1, MESSAGE))],
            plan_faults(0),
            plan_faults(1),
            vec![(35, Fault::NoSlots), (21, Fault::Begin), (34, Fault::TooLong)],
        ]
        .concat(),
        Entry::CheckSchedule => checker_faults(),
        Entry::Decide => vec![(41, Fault::Slot), (42, Fault::WantedTooMany)],
        Entry::Enter => [vec![(0, Fault::Slot)], reader_faults(0, 1), vec![(24, Fault::RepeatOfNoFirst(0))]].concat(),
        Entry::Slots => {
            [vec![(15, Fault::Length(1, SLOTS))], reader_faults(0, 0), vec![(24, Fault::RepeatOfNoFirst(0))]].concat()
        }
        Entry::ReadHeader => vec![(16, Fault::MessageLength(0))],
        Entry::StartCollector => vec![(8, Fault::StateLength)],
        Entry::Collect => vec![
            (8, Fault::StateLength),
            (8, Fault::StateImproper),
            (15, Fault::Length(2, COLLECTOR)),
            (16, Fault::MessageLength(2)),
            (18, Fault::Received(3)),
            (50, Fault::PageOverTotal),
        ],
        Entry::CheckSlots => [vec![(15, Fault::Length(1, SLOTS))], checker_faults()].concat(),
    }
}

/// The faults of an entry in the order in which random numbers choose among them: that of refusals, but for 10, which stays
/// before 11 as in document 01, so that cases stored before document 02's No. 5 stay what they were. // 01 Order
pub fn choices(entry: Entry) -> Vec<Fault> {
    let mut choices: Vec<Fault> = faults(entry).into_iter().map(|(_, fault)| fault).collect();
    if let Some(at) = choices.iter().position(|&fault| fault == Fault::TextLength) {
        choices.swap(at - 1, at);
    }
    choices
}

/// Puts faults into a case, the last refused first, so that the one refused first stands; 10 and 11 stand in either order.
pub fn put(case: &mut Case, faults: &[Fault], random: &mut Random) {
    for &fault in faults.iter().rev() {
        put_one(case, fault, random);
    }
}

fn put_one(case: &mut Case, fault: Fault, random: &mut Random) {
    match fault {
        Fault::Length(number, not) => put_output_length(case, number, other_length(random, not)),
        Fault::StateLength => put_state_length(case, random),
        Fault::StateImproper if case.entry == Entry::Collect => put_improper_collector(&mut case.lists[0], random),
        Fault::StateImproper => put_improper(&mut case.lists[0], random),
        Fault::PieceLength => case.lists[2].resize(random.pick(&[0, 1, 22, 24, 46, 256 + 23]), 0x20),
        Fault::Discriminator => put_type(case, 0x60, random.pick(&[0x00, 0x40, 0x60])),
        Fault::ReservedCode => put_type(case, 0x0F, random.pick(&[4, 5, 6, 7, 9, 10, 11, 12, 13, 14])),
        Fault::NullCode => put_type(case, 0x0F, 15),
        Fault::NotNext => put_not_next(case, random),
        Fault::MessageLength(list) => case.lists[list].resize(other_length(random, MESSAGE), FILL),
        Fault::Used => case.numbers[1] = random.pick(&[0, 89, 90, 110, 256 + 22, 1 << 32, u64::MAX]),
        Fault::Received(number) => case.numbers[number] = random.pick(&NOT_RECEIVED),
        Fault::Scheme => case.numbers[2] = random.pick(&OTHER_SCHEMES) as u64,
        Fault::PageScheme => set(&mut case.lists[0], 4, random.pick(&OTHER_SCHEMES)),
        Fault::Parameter => case.numbers[3] = random.pick(&[0x00, 0x01, 0x0F, 0x10, 0xF0, 0x21, 0x32, 0xFE]),
        Fault::TextLength => put_long_text(&mut case.words, random),
        Fault::NotInAlphabet => put_foreign(&mut case.words, random),
        Fault::EndsInCr => put_cr(&mut case.words),
        Fault::ScheduleType(list) => case.lists[list][0] |= random.pick(&[0x40, 0x80, 0xC0]),
        Fault::BeginEnd(list) => put_begin_end(&mut case.lists[list], random),
        Fault::NewBitPastEnd(list) => put_new_bit(&mut case.lists[list], random),
        Fault::Passes(list, number) => put_passing(case, list, number),
        Fault::FalseRepeat(list) => put_false_repeat(&mut case.lists[list], random.pick(&[0x00, 0x30, 0x3F])),
        Fault::RepeatOfNoFirst(list) => put_repeat_of_no_first(case, list, random),
        Fault::PlanShort(list) => case.lists[list].truncate(random.below(6)),
        Fault::PlanMark(list) => alter(&mut case.lists[list], random.below(3), random),
        Fault::PlanVersion(list) => alter(&mut case.lists[list], random.within(3, 4), random),
        Fault::PlanLength(list) => put_plan_length(&mut case.lists[list], random),
        Fault::PlanKind(list) => put_bad_entry(&mut case.lists[list], put_kind, random),
        Fault::PlanStray(list) => put_bad_entry(&mut case.lists[list], put_stray, random),
        Fault::NoSlots => case.lists[0] = Plan::default().file(),
        Fault::Begin => put_begin(case, random),
        Fault::TooLong => case.lists[0] = many_pages(random).file(),
        Fault::EndDiffers => put_other_count(&mut case.lists[0]),
        Fault::SlotUntrue => put_untrue(&mut case.lists[0]),
        Fault::Slot => case.numbers[2] = random.pick(&[0, 49, 50, 64, 256 + 1, (1 << 32) + 1, u64::MAX]),
        Fault::WantedTooMany => case.words.resize(random.pick(&[65, 66, 128]), 1),
        Fault::PageOverTotal => set(&mut case.lists[2], 5, random.pick(&[0x21, 0x32, 0x43, 0xF1, 0xF3, 0xFE])),
    }
}

const NOT_RECEIVED: [u64; 13] = [0, 1, 21, 23, 43, 45, 65, 67, 87, 89, 110, 256 + 22, (1 << 32) + 88];
const OTHER_SCHEMES: [u8; 6] = [0x10, 0x11, 0x40, 0x80, 0xF0, 0xFF];
const FOREIGN: [u16; 11] = [0, 0x1B, 0x09, 0x60, 0x7F, 0xA0, 0xE7, 0x3AA, 0x391, 0x20AD, 0xFFFF];

/// A length other than the right one, mostly near it, or like it in its low octet.
fn other_length(random: &mut Random, not: usize) -> usize {
    random.pick(&[0, 1, not - 1, not - 1, not + 1, not + 1, 2 * not, not - 4, not + 256])
}

fn set(list: &mut [u8], at: usize, octet: u8) {
    if let Some(place) = list.get_mut(at) {
        *place = octet;
    }
}

/// Another octet at a place.
fn alter(list: &mut [u8], at: usize, random: &mut Random) {
    if let Some(place) = list.get_mut(at) {
        *place ^= random.within(1, 255) as u8;
    }
}

/// Lends a state or a collector of another length.
fn put_state_length(case: &mut Case, random: &mut Random) {
    let length = match case.entry {
        Entry::StartCollector | Entry::Collect => other_length(random, COLLECTOR),
        _ => random.pick(&[0, 1, 2, 22, 88, 89, 91, 92, 100, 256 + STATE]),
    };
    match case.entry {
        Entry::Start | Entry::StartCollector => case.lists[0].resize(length, LENT),
        _ => {
            case.numbers[1] = length as u64;
            at_least(&mut case.lists[0], length);
        }
    }
}

/// Lends an output of a length; a case that is a sequence carries its output as a list.
fn put_output_length(case: &mut Case, number: usize, length: usize) {
    case.numbers[number] = length as u64;
    if case.entry.per_call().is_some() {
        at_least(&mut case.lists[1], length);
    }
}

fn at_least(list: &mut Vec<u8>, length: usize) {
    if list.len() < length {
        list.resize(length, LENT);
    }
}

/// Makes a state of 90 octets improper. // 01 Intake
fn put_improper(state: &mut [u8], random: &mut Random) {
    match random.below(4) {
        0 => state[0] = random.within(3, 255) as u8,
        1 => state[1] = random.within(4, 255) as u8,
        2 => state[1] = if state[0] == 0 { random.within(1, 3) as u8 } else { 0 },
        _ => {
            let filled = 2 + CONTENT * (state[1] as usize).min(3);
            let at = random.within(filled, STATE - 1);
            alter(state, at, random);
        }
    }
}

/// Makes a collector of 1,340 octets improper. // 02 No. 3
fn put_improper_collector(collector: &mut [u8], random: &mut Random) {
    let (total, kind) = (random.within(1, MOST_PAGES - 1), random.below(6));
    match kind {
        0 => collector[0] = random.within(MOST_PAGES + 1, 255) as u8,
        1 => collector[0] = 0,
        5 => {}
        _ => collector[0] = total as u8,
    }
    match kind {
        0 => {}
        1 => put_received(collector, random.within(1, MOST_PAGES), random),
        2 => (1..=MOST_PAGES).for_each(|number| collector[place_of(number)] = 0),
        3 => (1..=total).for_each(|number| put_received(collector, number, random)),
        4 => put_received(collector, random.within(total + 1, MOST_PAGES), random),
        _ => collector[place_of(random.within(1, MOST_PAGES))] = random.pick(&several_pages::BAD_RECEIVED),
    }
}

/// Makes a page of a collector one that is held.
fn put_received(collector: &mut [u8], number: usize, random: &mut Random) {
    collector[place_of(number)] = random.pick(&several_pages::RECEIVED);
}

/// Changes one octet of a collector of 1,340 octets, mostly one that is looked at, to a number that means something or
/// to any other.
fn damage_collector(collector: &mut [u8], random: &mut Random) {
    let (place, anywhere) = (place_of(random.within(1, MOST_PAGES)), random.below(COLLECTOR));
    let at = random.pick(&[0, 0, place, place, place, anywhere % HEAD, anywhere]);
    let any = random.octet();
    let received = random.pick(&several_pages::RECEIVED);
    let bad = random.pick(&several_pages::BAD_RECEIVED);
    collector[at] = random.pick(&[0, 1, 2, 3, 14, 15, 16, received, received, bad, any]);
}

/// Changes some bits of the piece's type octet.
fn put_type(case: &mut Case, mask: u8, bits: u8) {
    if let Some(octet) = case.lists[2].first_mut() {
        *octet = *octet & !mask | bits;
    }
}

/// A second to fourth block that isn't next in the state of the case.
fn put_not_next(case: &mut Case, random: &mut Random) {
    let next = case.lists[0].get(1).copied().unwrap_or(0);
    put_type(case, 0x0F, if next == 2 { random.pick(&[1, 3]) } else { 2 });
}

/// Over 93 septets, with the same at the end as before: more characters or, where some take two septets, more of such in
/// front, mostly only as many as it takes. // 02 No. 5
fn put_long_text(text: &mut Vec<u16>, random: &mut Random) {
    let pairs = text.iter().filter(|&&point| septet_after_escape(point).is_some()).count();
    if pairs == 0 {
        let last = text.last().copied().unwrap_or(0x41);
        text.resize(random.pick(&[94, 95, 96, 186]), last);
        return;
    }
    let enough = (SEPTETS + 2).saturating_sub(text.len() + pairs) / 2;
    let more = random.pick(&[enough, enough, enough, enough + 1, 94, 300]);
    let front: Vec<u16> = (0..more).map(|_| random.pick(&EXTENSION).1).collect();
    text.splice(0..0, front);
}

/// A character that isn't in the alphabet, elsewhere than at the end.
fn put_foreign(text: &mut Vec<u16>, random: &mut Random) {
    let point = random.pick(&FOREIGN);
    match text.len() {
        0 => text.push(point),
        1 => text.insert(0, point),
        length => text[random.below(length - 1)] = point,
    }
}

fn put_cr(text: &mut Vec<u16>) {
    text.pop();
    text.push(0x0D);
}

fn put_begin_end(message: &mut [u8], random: &mut Random) {
    let end = message.get(1).copied().unwrap_or(1) & 0x3F;
    match random.below(4) {
        0 => message[0] &= 0xC0,
        1 => set(message, 1, random.pick(&[0, 0xC0])),
        2 => set(message, 1, random.pick(&[49, 50, 63])),
        _ => message[0] = message[0] & 0xC0 | (end + 1).min(63),
    }
}

/// Sets a new bit past End, which is made less than 48 if need be.
fn put_new_bit(message: &mut [u8], random: &mut Random) {
    message[1] = message[1].min(SLOTS as u8 - 1);
    let slot = random.within((message[1] as usize & 0x3F).min(47) + 1, SLOTS);
    message[2 + (slot - 1) / 8] |= 0x80 >> ((slot - 1) % 8);
}

/// Fourteen octets received for eight descriptions of which seven take two.
fn put_passing(case: &mut Case, list: usize, number: usize) {
    let message = &mut case.lists[list];
    message[1] = (message[1] & 0x3F).max(8);
    for octet in &mut message[DESCRIPTIONS + 1..] {
        *octet = 0x80;
    }
    case.numbers[number] = CONTENT as u64;
}

/// A repeat in place of the first description; one that took two octets leaves a 40 behind.
fn put_false_repeat(message: &mut [u8], octet: u8) {
    if message[DESCRIPTIONS] >= 0x80 {
        message[DESCRIPTIONS + 1] = 0x40;
    }
    message[DESCRIPTIONS] = octet;
}

/// Slot 3 as a repeat of slot 2, which is told as a repeat itself, or as optional, or as advised; where a slot is
/// given, it is one of these.
fn put_repeat_of_no_first(case: &mut Case, list: usize, random: &mut Random) {
    let named =
        random.pick(&[Description::Repeat(1), Description::Repeat(1), Description::Optional, Description::Advised]);
    let descriptions = [Description::First(random.word() & 0x7FFF), named, Description::Repeat(2)];
    let tell = |(at, &description): (usize, &Description)| Told { slot: at + 1, new: random.once_in(2), description };
    let told: Vec<Told> = descriptions.iter().enumerate().map(tell).collect();
    let begin = random.within(1, told.len());
    case.lists[list] = lay(begin, &told).expect("three slots fit").to_vec();
    if case.entry == Entry::Enter {
        case.numbers[2] = random.pick(&[2, 3, 3]);
    }
}

fn put_plan_length(file: &mut Vec<u8>, random: &mut Random) {
    let count = file.get(5).copied().unwrap_or(0);
    match random.below(4) {
        0 => set(file, 5, random.within(49, 255) as u8),
        1 => set(file, 5, (count + 1) % 49),
        2 => file.push(0),
        _ => {
            file.resize(6 + 6 * 49, 0);
            set(file, 5, 49);
        }
    }
}

/// Makes the six octets of an entry bad in some way.
type Spoil = fn(&mut [u8], &mut Random);

/// A bad entry below all that are bad, or in the place of the first; now and then in a plan of 48 slots, and with
/// another bad one above it. // 02 No. 1
fn put_bad_entry(file: &mut Vec<u8>, spoil: Spoil, random: &mut Random) {
    let slots = if random.once_in(16) { SLOTS } else { file[5].max(1) as usize };
    file[5] = slots as u8;
    file.resize(6 + 6 * slots, 0);
    let good = file[6..].chunks_exact(6).take_while(|entry| !is_bad(entry)).count().max(1);
    let any = random.within(1, good);
    let number = random.pick(&[1, good, good, any]);
    spoil(&mut file[6 * number..6 * number + 6], random);
    if number < slots && random.once_in(4) {
        let (above, other) = (random.within(number + 1, slots), random.pick::<Spoil>(&[put_kind, put_stray]));
        other(&mut file[6 * above..6 * above + 6], random);
    }
}

/// Whether an entry's octets are bad in either way. // 02 No. 1
fn is_bad(entry: &[u8]) -> bool {
    entry[0] > 2 || entry[0] < 2 && entry[1..].iter().any(|&octet| octet != 0)
}

/// A kind over 2, with the octets that there were or with none.
fn put_kind(entry: &mut [u8], random: &mut Random) {
    if random.once_in(2) {
        entry.fill(0);
    }
    entry[0] = random.pick(&[3, 3, 4, 128, 130, 255]);
}

/// An octet that isn't 0 in a free slot, alone or beside those that there were.
fn put_stray(entry: &mut [u8], random: &mut Random) {
    if random.once_in(2) {
        entry.fill(0);
    }
    entry[0] = random.pick(&[0, 1]);
    entry[random.within(1, 5)] = random.pick(&[1, 128, 255]);
}

/// A Begin that isn't 1 to the count of the current plan.
fn put_begin(case: &mut Case, random: &mut Random) {
    let count = case.lists[0].get(5).copied().unwrap_or(0) as u64;
    case.numbers[0] = random.pick(&[0, count + 1, 49, 256 + 1, u64::MAX]);
}

/// One slot more in a plan file, or one less.
fn put_other_count(file: &mut Vec<u8>) {
    if file[5] < SLOTS as u8 {
        file[5] += 1;
        file.extend([0; 6]);
    } else {
        file[5] -= 1;
        file.truncate(file.len() - 6);
    }
}

/// Another kind for slot 1 of a plan file: a message that was true of it no longer is.
fn put_untrue(file: &mut [u8]) {
    let kind = if file[6] == 0 { 1 } else { 0 };
    file[6..12].copy_from_slice(&[kind, 0, 0, 0, 0, 0]);
}

/// A plan whose descriptions need over 80 octets.
fn many_pages(random: &mut Random) -> Plan {
    let pages = random.within(41, 48);
    let start = random.word();
    let page =
        |i: usize| plan::Entry::Page(Page { serial: start.wrapping_add(i as u16), identifier: 1, parameter: 0x11 });
    Plan { entries: (0..pages).map(page).collect() }
}

/// A page out of few, so that pages meet again and near-equal ones stand beside each other.
fn some_page(random: &mut Random) -> Page {
    let other = random.word();
    Page {
        serial: random.pick(&[0x0010, 0x0010, 0x0011, other]),
        identifier: random.pick(&[0x0001, 0x8001, 0x0002, 0x7FFF, 0xFFFF, other]),
        parameter: random.pick(&[0x11, 0x11, 0x12, 0x00]),
    }
}

fn some_entry(random: &mut Random, pages: &[Page]) -> plan::Entry {
    match random.below(8) {
        0 => plan::Entry::Optional,
        1 => plan::Entry::Advised,
        _ => plan::Entry::Page(random.pick(pages)),
    }
}

fn some_plan(random: &mut Random, least: usize, most: usize) -> Plan {
    if most == SLOTS && random.once_in(6) {
        return full_plan(random);
    }
    let count = random.within(least, most);
    let pool = random.within(1, most);
    let pages: Vec<Page> = (0..pool).map(|_| some_page(random)).collect();
    Plan { entries: (0..count).map(|_| some_entry(random, &pages)).collect() }
}

/// A plan whose descriptions need about 80 octets: different pages, with repeats of them put in between.
fn full_plan(random: &mut Random) -> Plan {
    let need = random.within(77, 83);
    let count = random.within(need.div_ceil(2), SLOTS);
    let pages: Vec<Page> = (0..need - count).map(|at| Page { serial: at as u16, ..some_page(random) }).collect();
    let mut entries: Vec<plan::Entry> = pages.iter().map(|&page| plan::Entry::Page(page)).collect();
    while entries.len() < count {
        let entry = some_entry(random, &pages);
        entries.insert(random.below(entries.len() + 1), entry);
    }
    Plan { entries }
}

/// A plan that shares pages with another.
fn some_previous(random: &mut Random, current: &Plan, most: usize) -> Plan {
    let mut previous = some_plan(random, 0, most.min(8));
    for &entry in &current.entries {
        if previous.count() < most && random.once_in(3) {
            previous.entries.push(entry);
        }
    }
    previous
}

/// A parameter: 11 or what is treated as it, what is near it and stays, or any. // 002 9.3.2 (iv)
fn some_form(random: &mut Random) -> u8 {
    let any = random.octet();
    random.pick(&[0x11, 0x11, 0x11, 0x00, 0x00, any & 0x0F, any & 0xF0, 0x12, 0x21, 0x22, 0x1F, 0xF1, any])
}

/// A parameter that makes the same page of another's numbers.
fn same_form(random: &mut Random, page: Page) -> u8 {
    let any = random.octet();
    let form = random.pick(&[0x11, 0x11, 0x00, any & 0x0F, any & 0xF0]);
    if (Page { parameter: form, ..page }).is_same(page) {
        form
    } else {
        page.parameter
    }
}

/// Other parameters for about half of a plan's pages, so that pages meet that differ in nothing else; or only such as
/// leave them the same pages. // 02 No. 2
fn put_forms(random: &mut Random, plan: &mut Plan) {
    let same = random.once_in(2);
    for entry in &mut plan.entries {
        let plan::Entry::Page(page) = entry else { continue };
        if random.once_in(2) {
            page.parameter = if same { same_form(random, *page) } else { some_form(random) };
        }
    }
}

/// Plans whose pages have several parameters beside the same numbers, often such as fit or don't by them. // 02 No. 2
fn formed_plans(random: &mut Random, most: usize) -> Plans {
    let full = most == SLOTS && random.once_in(3);
    let mut current = if full { full_plan(random) } else { some_plan(random, 1, most) };
    put_forms(random, &mut current);
    let mut previous = some_previous(random, &current, most);
    put_forms(random, &mut previous);
    [current, previous]
}

/// What a truthful sender may tell of each slot of a plan. // 01 The plan
fn some_truth(random: &mut Random, [current, previous]: &Plans) -> Vec<Told> {
    let mut told: Vec<Told> = Vec::new();
    for (at, &entry) in current.entries.iter().enumerate() {
        let slot = at + 1;
        let (new, description) = match entry {
            plan::Entry::Optional => (false, Description::Optional),
            plan::Entry::Advised => (true, Description::Advised),
            plan::Entry::Page(page) => page_truth(random, current, previous, page, slot, &told),
        };
        told.push(Told { slot, new, description });
    }
    told
}

fn page_truth(
    random: &mut Random,
    current: &Plan,
    previous: &Plan,
    page: Page,
    slot: usize,
    told: &[Told],
) -> (bool, Description) {
    let new = !previous.has(page);
    let lowest = current.lowest(page).unwrap_or(slot);
    if random.once_in(8) {
        (true, Description::Advised)
    } else if lowest == slot {
        (new, Description::First(page.identifier & 0x7FFF))
    } else if random.once_in(8) || told[lowest - 1].description == Description::Advised {
        (false, Description::Optional)
    } else {
        (new, Description::Repeat(lowest as u8))
    }
}

/// Untruth at a slot or two.
fn lie(random: &mut Random, told: &mut [Told]) {
    for _ in 0..random.within(1, 2) {
        let at = random.below(told.len());
        match random.below(4) {
            0 | 1 => told[at].new = !told[at].new,
            _ => told[at].description = some_description(random, &told[..at]),
        }
    }
}

/// Untruth at a slot, often: another new bit, another description or both. A first transmission is often another only in
/// one of its bits.
fn lie_at(random: &mut Random, told: &mut [Told], at: usize) {
    let kind = random.below(6);
    if kind < 3 {
        told[at].new = !told[at].new;
    }
    if kind > 1 {
        told[at].description = match told[at].description {
            Description::First(low) if random.once_in(2) => Description::First(low ^ 1 << random.below(15)),
            _ => some_description(random, &told[..at]),
        };
    }
}

/// Another description for each repeat that no longer names a first transmission, so that a reader takes all of them.
fn mend(random: &mut Random, told: &mut [Told]) {
    for at in 0..told.len() {
        let Description::Repeat(named) = told[at].description else { continue };
        if told[named as usize - 1].description.width() == 1 {
            told[at].description = some_description(random, &told[..at]);
        }
    }
}

/// Any description that a reader takes after these slots.
fn some_description(random: &mut Random, before: &[Told]) -> Description {
    let firsts: Vec<usize> = before.iter().filter(|told| told.description.width() == 2).map(|told| told.slot).collect();
    let other = random.word() & 0x7FFF;
    match random.below(6) {
        0 => Description::Optional,
        1 => Description::Advised,
        2 | 3 if !firsts.is_empty() => Description::Repeat(random.pick(&firsts) as u8),
        _ => Description::First(random.pick(&[0x0001, 0x0002, 0x7FFF, other])),
    }
}

/// Any slots that a reader takes.
fn some_telling(random: &mut Random, most: usize) -> Vec<Told> {
    let end = random.within(1, most);
    let often_new = random.within(1, 4);
    let mut told: Vec<Told> = Vec::new();
    for slot in 1..=end {
        let description = some_description(random, &told);
        told.push(Told { slot, new: random.once_in(often_new), description });
    }
    told
}

/// The message of a telling: reserved octets for some 40s, now and then spare bits and other octets after the
/// descriptions; and octets received that hold it.
fn sent(random: &mut Random, begin: usize, told: &[Told]) -> Option<(Vec<u8>, u64)> {
    let mut message = lay(begin, told)?.to_vec();
    let mut at = DESCRIPTIONS;
    for _ in told {
        if message[at] == 0x40 && random.once_in(3) {
            message[at] = random.within(0x42, 0x7F) as u8;
        }
        at += if message[at] >= 0x80 { 2 } else { 1 };
    }
    if random.once_in(4) {
        let rest = random.octets(MESSAGE - at);
        message[at..].copy_from_slice(&rest);
    }
    if random.once_in(4) {
        message[1] |= random.pick(&[0x40, 0x80, 0xC0]);
    }
    let blocks = random.within(at.div_ceil(CONTENT), 4);
    Some((message, (CONTENT * blocks) as u64))
}

/// A message that a reader takes, and octets received.
fn some_message(random: &mut Random, most: usize) -> (Vec<u8>, u64) {
    loop {
        let told = some_telling(random, most);
        let begin = random.within(1, told.len());
        if let Some(sent) = sent(random, begin, &told) {
            return sent;
        }
    }
}

/// A page as the text writer writes it, or with any content.
fn some_written_page(random: &mut Random) -> Vec<u8> {
    let mut page = random.octets(MESSAGE);
    page[4] &= 0x0F;
    match random.below(3) {
        0 => {
            let text = some_septets(random);
            pack(&text, &mut page[HEADER..]);
        }
        1 => page[82..].fill(0x1A),
        _ => {}
    }
    page
}

/// Septets with CRs at the end, and now and then inside.
fn some_septets(random: &mut Random) -> Vec<u8> {
    let crs = random.below(CHARACTERS + 1);
    let one = |at: usize, random: &mut Random| {
        if at + crs >= CHARACTERS || random.once_in(8) {
            0x0D
        } else {
            random.octet() & 0x7F
        }
    };
    (0..CHARACTERS).map(|at| one(at, random)).collect()
}

/// A text that the writer takes.
fn some_text(random: &mut Random) -> Vec<u16> {
    let length = random.below(CHARACTERS + 1);
    let mut text: Vec<u16> = (0..length).map(|_| ALPHABET[random.below(128)]).collect();
    while text.last() == Some(&0x0D) {
        text.pop();
    }
    text
}

/// A text that the writer takes, with characters of the extension table: few of them, many or no others; often as many
/// septets as there is room for. // 02 No. 5
fn some_paired_text(random: &mut Random) -> Vec<u16> {
    let any = random.below(SEPTETS + 1);
    let mut room = random.pick(&[SEPTETS, SEPTETS, SEPTETS - 1, any, any, any]);
    let seldom = random.pick(&[1, 1, 2, 2, 4, 16, 64]);
    let mut text = Vec::new();
    while room > 0 {
        let pair = room > 1 && random.once_in(seldom);
        text.push(some_character(random, pair));
        room -= if pair { 2 } else { 1 };
    }
    while text.last() == Some(&0x0D) {
        text.pop();
    }
    text
}

/// A character of the alphabet, or of the extension table.
fn some_character(random: &mut Random, pair: bool) -> u16 {
    if pair {
        random.pick(&EXTENSION).1
    } else {
        ALPHABET[random.below(128)]
    }
}

/// A text of more septets than there is room for, or almost; some end in CR, and some have a foreign character, often as
/// the last. // 02 No. 5
fn some_long_text(random: &mut Random) -> Vec<u16> {
    let seldom = random.pick(&[1, 2, 8, 64]);
    let length = random.pick(&[45, 60, 92, 128, 256, 300]) + random.below(32);
    let mut text: Vec<u16> = Vec::new();
    while text.len() < length {
        let pair = random.once_in(seldom);
        text.push(some_character(random, pair));
    }
    if random.once_in(3) {
        text[length - 1] = 0x0D;
    }
    if random.once_in(3) {
        let any = random.below(length);
        text[random.pick(&[any, length - 1])] = random.pick(&FOREIGN);
    }
    text
}

/// Now and then a long text in place of a text, or in it a character that differs from a listed one in one bit.
fn spoil_text(text: &mut Vec<u16>, random: &mut Random) {
    match random.below(16) {
        0 | 1 => *text = some_long_text(random),
        2 if !text.is_empty() => {
            let at = random.below(text.len());
            text[at] = random.pick(&EXTENSION).1 ^ 1 << random.below(16);
        }
        _ => {}
    }
}

/// Septets with many 1B among them: before listed septets, before CR, before each other and before any. // 02 No. 5
fn some_escapes(random: &mut Random) -> Vec<u8> {
    let seldom = random.pick(&[1, 2, 2, 4, 16]);
    let mut septets = Vec::new();
    while septets.len() < SEPTETS {
        if random.once_in(seldom) {
            septets.push(ESCAPE);
        }
        let (listed, any) = (random.pick(&EXTENSION).0, random.octet() & 0x7F);
        septets.push(random.pick(&[listed, listed, listed, ESCAPE, 0x0D, any, any, any]));
    }
    septets.truncate(SEPTETS);
    septets
}

/// A reading of such septets: often what is received ends in 1B, and often in CRs with 1B before some of them. // 02 No. 5
fn paired_reading(random: &mut Random) -> Case {
    let received = random.pick(&[22, 44, 66, 88]);
    let whole = 8 * (received - HEADER) / 7;
    let mut septets = some_escapes(random);
    if random.once_in(2) {
        let crs = random.below(whole);
        septets[crs..whole].fill(0x0D);
        for _ in 0..random.below(4) {
            septets[random.within(crs, whole - 1)] = ESCAPE;
        }
    }
    if random.once_in(4) {
        septets[whole - 1] = ESCAPE;
    }
    let mut page = random.octets(MESSAGE);
    page[4] &= 0x0F;
    let spare = random.pick(&[0x00, 0x00, 0xF8]); // the bits past the last septet
    pack(&septets, &mut page[HEADER..]);
    page[MESSAGE - 1] |= spare;
    Case::new(Entry::ReadText, &[received as u64, CHARACTERS as u64], &[&page], &[])
}

fn some_parameter(random: &mut Random) -> u64 {
    let total = random.within(1, 15);
    let page = random.within(1, total);
    (page << 4 | total) as u64
}

/// A state that is proper, with more octets behind its 90. // 01 Intake
pub fn some_state(random: &mut Random) -> Vec<u8> {
    let mut state = vec![FILL; STATE];
    let kind = random.below(3) as u8;
    let taken = if kind == 0 { 0 } else { random.within(1, 3) };
    let content = random.octets(CONTENT * taken);
    state[0] = kind;
    state[1] = taken as u8;
    state[2..2 + content.len()].copy_from_slice(&content);
    state.resize(CARRIED, LENT);
    state
}

/// A block with this code.
pub fn some_block(random: &mut Random, code: u8, last: bool) -> Vec<u8> {
    let spare = if random.once_in(4) { 0x80 } else { 0 };
    let mut block = vec![spare | 0x20 | if last { 0x10 } else { 0 } | code];
    block.extend(random.octets(CONTENT));
    block
}

/// A block that a state takes, by the blocks taken so far.
fn some_next(random: &mut Random, taken: u8) -> Vec<u8> {
    let first = random.pick(&[0, 8]);
    let code = if taken == 0 || random.once_in(8) { first } else { taken };
    let last = random.once_in(5);
    some_block(random, code, last)
}

/// One intake call that isn't refused.
fn single_intake(random: &mut Random) -> Case {
    let state = some_state(random);
    let piece = some_next(random, state[1]);
    let numbers = [1, STATE as u64, MESSAGE as u64];
    Case::new(Entry::Intake, &numbers, &[&state, &[LENT; CARRIED], &piece], &[])
}

/// A sequence of calls: from a start, from a proper state or from anything, with faults in some pieces.
pub fn sequence(random: &mut Random) -> Case {
    let mut state = random.octets(CARRIED);
    let mut case = Case::new(Entry::Intake, &[], &[&[], &[LENT; CARRIED]], &[]);
    match random.below(8) {
        0 => {}
        1 => state = some_state(random),
        2 => {
            state = some_state(random);
            put_improper(&mut state, random);
        }
        _ => push_call(&mut case, &[0, STATE as u64, MESSAGE as u64], vec![]),
    }
    let mut taken = if state[1] < 4 { state[1] } else { 0 };
    case.lists[0] = state;
    let (calls, calm) = (random.within(1, 12), random.within(2, 12));
    for _ in 0..calls {
        let (numbers, piece) = one_call(random, taken, calm);
        taken = match piece.first() {
            Some(octet) if octet & 0x10 != 0 => 0,
            Some(octet) if octet & 0x07 < 3 => (octet & 0x07) + 1,
            _ => 0,
        };
        push_call(&mut case, &numbers, piece);
    }
    case
}

fn push_call(case: &mut Case, numbers: &[u64; 3], piece: Vec<u8>) {
    case.numbers.extend(numbers);
    case.lists.push(piece);
}

/// The call that carries the sequence on, or once in `calm` another.
fn one_call(random: &mut Random, taken: u8, calm: usize) -> ([u64; 3], Vec<u8>) {
    let numbers = [1, STATE as u64, MESSAGE as u64];
    if !random.once_in(calm) {
        return (numbers, some_next(random, taken));
    }
    let state = [vec![1, taken], vec![FILL; CARRIED]].concat();
    let piece = some_next(random, taken);
    let mut call = Case::new(Entry::Intake, &numbers, &[&state, &[], &piece], &[]);
    if random.once_in(8) {
        call.numbers[0] = 0;
    }
    let all = faults(Entry::Intake);
    put_one(&mut call, random.pick(&all).1, random);
    ([call.numbers[0], call.numbers[1], call.numbers[2]], call.lists.remove(2))
}

/// What tells a message: numbers out of few, so that messages meet that differ in one thing, and mostly a low total.
fn some_numbers(random: &mut Random) -> Message {
    let other = random.word();
    let (any, few) = (random.within(1, MOST_PAGES), random.within(2, 4));
    Message {
        serial: random.pick(&[0x0010, 0x0010, 0x0011, 0x8001, other]),
        identifier: random.pick(&[0x8001, 0x8001, 0x0001, 0x0010, other]),
        total: random.pick(&[2, few, few, any, any, MOST_PAGES]),
    }
}

/// A message that differs from another in one thing, or any.
fn other_numbers(random: &mut Random, message: Message) -> Message {
    let Message { serial, identifier, .. } = message;
    let (bit, total) = (1 << random.below(16), random.within(1, MOST_PAGES));
    match random.below(5) {
        0 => Message { serial: serial ^ bit, ..message },
        1 => Message { identifier: identifier ^ bit, ..message },
        2 => Message { total, ..message },
        3 => Message { serial: identifier, identifier: serial, ..message },
        _ => some_numbers(random),
    }
}

/// A page of a message, mostly with one octet all over its content; one that is single has a zero half now and then.
fn some_sent(random: &mut Random, message: Message, number: usize) -> Sent {
    let any = random.octet();
    let parameter = match parameter(message, number) {
        0x11 => random.pick(&[0x11, 0x11, 0x00, any & 0x0F, any & 0xF0]),
        parameter => parameter,
    };
    let mut page = several_pages::page_with(message, parameter, random.octet());
    page[4] = random.pick(&[0x01, 0x01, 0x00, 0x0F, any]);
    if random.once_in(10) {
        let content = random.octets(MESSAGE - 6);
        page[6..].copy_from_slice(&content);
    }
    (page, random.pick(&several_pages::RECEIVED) as u64)
}

/// Any page that a collector takes.
fn any_sent(random: &mut Random, message: Message) -> Sent {
    let number = random.within(1, message.total);
    some_sent(random, message, number)
}

/// A collector that is proper, and the message whose pages it holds; often as calls leave it, and often with other
/// octets where they aren't looked at. // 02 No. 3
fn some_collector(random: &mut Random) -> (Vec<u8>, Message) {
    let mut message = some_numbers(random);
    message.total = message.total.max(2);
    let (least, most) = (1, message.total - 1);
    let any = random.within(least, most);
    let held = random.pick(&[least, any, most, most]);
    let numbers = some_order(random, message.total);
    let pages: Vec<(usize, Sent)> =
        numbers[..held].iter().map(|&number| (number, some_sent(random, message, number))).collect();
    let mut collector = if random.once_in(6) { started() } else { holding(message, &pages) };
    match random.below(6) {
        0 => collector = littered(collector),
        1 => put_page(&mut collector, random),
        _ => {}
    }
    (collector, message)
}

/// The numbers of all pages up to a total, in any order.
fn some_order(random: &mut Random, total: usize) -> Vec<usize> {
    let mut numbers: Vec<usize> = (1..=total).collect();
    for at in (1..total).rev() {
        numbers.swap(at, random.below(at + 1));
    }
    numbers
}

/// Any octets for the page in some place, held or not.
fn put_page(collector: &mut [u8], random: &mut Random) {
    let at = place_of(random.within(1, MOST_PAGES));
    let octets = random.octets(MESSAGE);
    collector[at + 1..at + PLACE].copy_from_slice(&octets);
}

/// A collector of octets without sense, but for the octets that are looked at, which mostly have some.
fn wild_collector(random: &mut Random) -> Vec<u8> {
    let mut collector = random.octets(COLLECTOR);
    let total = random.pick(&[0, 2, 3, 14, 15, 16]);
    collector[0] = total as u8;
    for number in 1..=MOST_PAGES {
        let past = number > total;
        let received = random.pick(&several_pages::RECEIVED);
        collector[place_of(number)] = if past || random.once_in(2) { 0 } else { received };
    }
    if random.once_in(4) {
        damage_collector(&mut collector, random);
    }
    collector
}

/// One call of the collector that isn't refused: mostly a page of the message that it holds.
fn single_collecting(random: &mut Random) -> Case {
    let (collector, message) = some_collector(random);
    let of = if random.once_in(4) { other_numbers(random, message) } else { message };
    let missing: Vec<usize> = (1..=of.total).filter(|&number| collector[place_of(number)] == 0).collect();
    let sent = if missing.is_empty() || random.once_in(3) {
        any_sent(random, of)
    } else {
        let number = random.pick(&missing);
        some_sent(random, of, number)
    };
    collecting(&collector, &sent, COLLECTOR)
}

/// The same with a collector that is damaged in one place, or wild.
fn near_collecting(random: &mut Random) -> Case {
    let mut case = single_collecting(random);
    match random.below(6) {
        0 => damage_collector(&mut case.lists[0], random),
        1 => case.lists[0][..COLLECTOR].copy_from_slice(&wild_collector(random)),
        _ => {}
    }
    case
}

/// Pages in a row: messages in any order of their pages, each with copies of pages that came and pages of others in
/// between, the more the less calm it is; some messages again right after.
fn some_row(random: &mut Random, first: Message) -> Vec<Sent> {
    let mut message = first;
    let calm = random.pick(&[2, 4, 8, 64]);
    let mut row: Vec<Sent> = Vec::new();
    for _ in 0..random.within(1, 3) {
        for number in some_order(random, message.total) {
            row.push(some_sent(random, message, number));
            if random.once_in(calm) {
                let came = random.pick(&[number, number, 1]);
                row.push(some_sent(random, message, came));
            }
            if random.once_in(4 * calm) {
                let other = other_numbers(random, message);
                row.push(any_sent(random, other));
            }
        }
        if !random.once_in(3) {
            message = other_numbers(random, message);
        }
    }
    row
}

/// A sequence of calls of the collector: from a start, from a proper collector, from one that is damaged in one place or
/// from anything, with faults in some calls.
pub fn collecting_sequence(random: &mut Random) -> Case {
    let (mut collector, message) = some_collector(random);
    let first = if random.once_in(3) { some_numbers(random) } else { message };
    let mut case = from_start(&some_row(random, first));
    match random.below(8) {
        0 => collector = wild_collector(random),
        1 => damage_collector(&mut collector, random),
        _ => {}
    }
    case.lists[0][..COLLECTOR].copy_from_slice(&collector);
    if random.once_in(3) {
        case.numbers.drain(..4);
        case.lists.remove(2);
    }
    let (calls, calm) = (case.lists.len() - 2, random.pick(&[8, 32, 1024]));
    for call in 0..calls {
        if random.once_in(calm) {
            put_into_call(&mut case, call, random);
        }
    }
    case
}

/// A fault in one call of a sequence of the collector, or a start in its place.
fn put_into_call(case: &mut Case, call: usize, random: &mut Random) {
    let at = 4 * call;
    if random.once_in(8) {
        case.numbers[at] = 0;
        return;
    }
    let numbers = &case.numbers[at..at + 4];
    let lists = [&case.lists[0], &case.lists[1], &case.lists[2 + call]].map(Vec::as_slice);
    let mut one = Case::new(Entry::Collect, numbers, &lists, &[]);
    let all = faults(Entry::Collect);
    let fault = random.pick(&all).1;
    if fault != Fault::StateImproper {
        put_one(&mut one, fault, random);
    }
    case.numbers[at..at + 4].copy_from_slice(&one.numbers);
    let [page, output, collector] = [2, 1, 0].map(|list| one.lists.remove(list));
    (case.lists[0], case.lists[1], case.lists[2 + call]) = (collector, output, page);
}

/// Plans as a sender reads them: of these its message is true.
type Reading = fn(&Plans) -> Plans;

/// A case that its entry doesn't refuse; its plans and schedules have `most` slots at most.
pub fn sound(entry: Entry, random: &mut Random, most: usize) -> Case {
    sound_by(entry, random, most, Plans::clone)
}

/// The same, but for a checker's message, which is true as its sender reads the plans.
pub fn sound_by(entry: Entry, random: &mut Random, most: usize, reading: Reading) -> Case {
    let received = random.pick(&[22, 44, 66, 88]);
    match entry {
        Entry::Start => Case::new(entry, &[], &[&random.octets(STATE)], &[]),
        Entry::Intake => single_intake(random),
        Entry::WriteBlocks => {
            let numbers = [random.below(2) as u64, random.within(1, MESSAGE) as u64, 4 * BLOCK as u64];
            Case::new(entry, &numbers, &[&random.octets(MESSAGE)], &[])
        }
        Entry::WriteText => {
            let (serial, identifier, scheme) = (random.word() as u64, random.word() as u64, random.below(16) as u64);
            let numbers = [serial, identifier, scheme, some_parameter(random), MESSAGE as u64];
            Case::new(entry, &numbers, &[], &some_text(random))
        }
        Entry::ReadText => Case::new(entry, &[received, CHARACTERS as u64], &[&some_written_page(random)], &[]),
        Entry::Content => Case::new(entry, &[received], &[&random.octets(MESSAGE)], &[]),
        Entry::ReadSchedule => {
            let (message, received) = some_message(random, most);
            Case::new(entry, &[received], &[&message], &[])
        }
        Entry::Description => sound_description(random, most),
        Entry::ReadPlan => Case::new(entry, &[], &[&some_plan(random, 0, most).file()], &[]),
        Entry::WriteSchedule => sound_writing(random, most),
        Entry::CheckSchedule => checked(random, most, false, reading),
        Entry::Decide => sound_decision(random, most),
        Entry::Enter => sound_entering(random, most),
        Entry::Slots => {
            let (message, received) = some_message(random, most);
            Case::new(entry, &[received, SLOTS as u64], &[&message], &[])
        }
        Entry::ReadHeader => Case::new(entry, &[], &[&random.octets(MESSAGE)], &[]),
        Entry::StartCollector => {
            let (collector, octet) = (some_collector(random).0, random.octet());
            let any = if random.once_in(8) { random.octets(COLLECTOR) } else { vec![octet; COLLECTOR] };
            Case::new(entry, &[], &[if random.once_in(2) { &collector } else { &any }], &[])
        }
        Entry::Collect => single_collecting(random),
        Entry::CheckSlots => with_verdicts(checked(random, most, false, reading)),
    }
}

fn sound_description(random: &mut Random, most: usize) -> Case {
    let (message, received) = some_message(random, most);
    let far = random.next();
    let place = random.pick(&[0, 0, 1, 7, 40, 47, 48, 256, 1 << 32, far]);
    let places = random.within(1, most + 2) as u64;
    Case::new(Entry::Description, &[received, place, places], &[&message], &[])
}

fn sound_writing(random: &mut Random, most: usize) -> Case {
    let plans = some_plans(random, most);
    writing(random, &plans)
}

/// A plan of a slot at least, and one before it that shares pages with it.
fn some_plans(random: &mut Random, most: usize) -> Plans {
    let current = some_plan(random, 1, most);
    let previous = some_previous(random, &current, most);
    [current, previous]
}

fn writing(random: &mut Random, [current, previous]: &Plans) -> Case {
    let begin = random.within(1, current.count()) as u64;
    Case::new(Entry::WriteSchedule, &[begin, MESSAGE as u64], &[&current.file(), &previous.file()], &[])
}

/// A message that is true of the plans as they are read, or one that lies at a slot or two.
fn checked(random: &mut Random, most: usize, lies: bool, reading: Reading) -> Case {
    loop {
        let plans = some_plans(random, most);
        let mut told = some_truth(random, &reading(&plans));
        if lies {
            lie(random, &mut told);
        }
        if let Some(case) = checking(random, &plans, &told) {
            return case;
        }
    }
}

/// A message that tells this, beside plans, if it fits.
fn checking(random: &mut Random, [current, previous]: &Plans, told: &[Told]) -> Option<Case> {
    let begin = random.within(1, told.len());
    let (message, received) = sent(random, begin, told)?;
    Some(Case::new(Entry::CheckSchedule, &[received], &[&current.file(), &previous.file(), &message], &[]))
}

/// Plans with pages in several forms, beside a message that is true of them, or that would be by the octet as sent; now
/// and then with a lie.
fn checked_forms(random: &mut Random, most: usize) -> Case {
    loop {
        let plans = formed_plans(random, most);
        let reading: Reading = random.pick(&[Plans::clone, by_octets]);
        let mut told = some_truth(random, &reading(&plans));
        if random.once_in(8) {
            lie(random, &mut told);
        }
        if let Some(case) = checking(random, &plans, &told) {
            return case;
        }
    }
}

/// A checker's case as one of the call that tells each slot. // 01 The plan
pub fn with_verdicts(case: Case) -> Case {
    Case { entry: Entry::CheckSlots, numbers: vec![case.numbers[0], SLOTS as u64], ..case }
}

/// Plans beside a message that is true of them, or that would be by the octet as sent, with untruth at any number of its
/// slots, so that several rules fail at once.
fn judged(random: &mut Random, plans: fn(&mut Random, usize) -> Plans, most: usize) -> Case {
    loop {
        let plans = plans(random, most);
        let reading: Reading = random.pick(&[Plans::clone, Plans::clone, by_octets]);
        let mut told = some_truth(random, &reading(&plans));
        let (slots, any) = (told.len(), random.within(1, told.len()));
        for _ in 0..random.pick(&[0, 1, 2, any, any, slots]) {
            let at = random.below(slots);
            lie_at(random, &mut told, at);
        }
        mend(random, &mut told);
        if let Some(case) = checking(random, &plans, &told) {
            return with_verdicts(case);
        }
    }
}

fn sound_decision(random: &mut Random, most: usize) -> Case {
    let (message, received) = some_message(random, most);
    let known = !random.once_in(8) as u64;
    let slot = random.within(1, (most + 1).min(SLOTS)) as u64;
    let held = some_held(random);
    let wanted: Vec<u16> = (0..random.pick(&[0, 1, 2, 3, 63, 64])).map(|_| some_wanted(random, &message)).collect();
    let wanted = if most < SLOTS { wanted[..wanted.len().min(3)].to_vec() } else { wanted };
    let mut case = Case::new(Entry::Decide, &[known, received, slot, held], &[&message], &wanted);
    if random.once_in(8) {
        let refused = random.pick(&reader_faults(0, 1)).1;
        put_one(&mut case, refused, random);
    }
    case
}

/// A held set, with all of the bits that mean nothing, or with none of them.
fn some_held(random: &mut Random) -> u64 {
    random.pick(&[0, u64::MAX, 0xFFFF_0000_0000_0000]) ^ random.pick(&[0, 1, 2, 3]) ^ random.next() >> 16
}

/// A page got in a slot, mostly one that the schedule tells as a repeat; now and then the schedule isn't known, though
/// its message would tell one.
fn sound_entering(random: &mut Random, most: usize) -> Case {
    let (message, received) = some_repeating(random, most);
    let known = !random.once_in(8) as u64;
    let slot = some_slot(random, &message, received);
    let (many, few) = (some_held(random), random.next() & random.next());
    let held = random.pick(&[0, 0, 0xFFFF_0000_0000_0000, u64::MAX, many, few, few, few]);
    Case::new(Entry::Enter, &[known, received, slot, held], &[&message], &[])
}

/// A message that a reader takes, and that tells a repeat if such a one is found soon; and octets received.
fn some_repeating(random: &mut Random, most: usize) -> (Vec<u8>, u64) {
    let (mut message, mut received) = some_message(random, most);
    for _ in 0..4 {
        if repeats(&told_in(&message, received)).is_empty() {
            (message, received) = some_message(random, most);
        }
    }
    (message, received)
}

fn told_in(message: &[u8], received: u64) -> Vec<Told> {
    read_schedule(message, received as usize).map_or(vec![], |schedule| schedule.told)
}

/// The slots that are told as repeats.
fn repeats(told: &[Told]) -> Vec<usize> {
    let repeats = told.iter().filter(|told| matches!(told.description, Description::Repeat(_)));
    repeats.map(|told| told.slot).collect()
}

/// A slot told as a repeat, or any slot told, past End, or at an end of the numbers.
fn some_slot(random: &mut Random, message: &[u8], received: u64) -> u64 {
    let told = told_in(message, received);
    let repeats = repeats(&told);
    if !repeats.is_empty() && !random.once_in(4) {
        return random.pick(&repeats) as u64;
    }
    let (within, past) = (random.within(1, told.len().max(1)), SLOTS.min(told.len() + 1));
    let any = random.within(1, SLOTS);
    random.pick(&[1, SLOTS - 1, SLOTS, within, within, within, past, any]) as u64
}

/// An identifier that stands somewhere in a message, with bit 16 either way, or a frequent one, or any.
fn some_wanted(random: &mut Random, message: &[u8]) -> u16 {
    let at = DESCRIPTIONS + random.below(12);
    let there = u16::from_be_bytes([message[at], message[at + 1]]);
    let any = random.word();
    random.pick(&[there, there & 0x7FFF, 0x0001, 0x8001, 0x0002, any])
}

/// A case that isn't refused but is close to an edge, where the entry has such. A checker's message is told by the
/// octet as sent, so that what it is given doesn't hang on which pages are the same.
fn near(entry: Entry, random: &mut Random, most: usize) -> Case {
    match entry {
        Entry::CheckSchedule => checked(random, most, true, by_octets),
        Entry::Collect => near_collecting(random),
        Entry::CheckSlots => judged(random, some_plans, most),
        _ => sound(entry, random, most),
    }
}

/// A case of an entry that takes plans, with pages in several forms; one of another entry is as others. // 02 No. 2
pub fn formed(entry: Entry, random: &mut Random, most: usize) -> Case {
    match entry {
        Entry::ReadPlan => Case::new(entry, &[], &[&formed_plans(random, most)[0].file()], &[]),
        Entry::WriteSchedule => {
            let plans = formed_plans(random, most);
            writing(random, &plans)
        }
        Entry::CheckSchedule => checked_forms(random, most),
        Entry::CheckSlots => judged(random, formed_plans, most),
        _ => near(entry, random, most),
    }
}

/// A case that isn't refused with characters of the extension table, of an entry that writes or reads text; one of another
/// entry is as others. // 02 No. 5
pub fn paired(entry: Entry, random: &mut Random, most: usize) -> Case {
    match entry {
        Entry::WriteText => Case { words: some_paired_text(random), ..sound(entry, random, most) },
        Entry::ReadText => paired_reading(random),
        _ => near(entry, random, most),
    }
}

/// Any case: of an entry that takes plans, every other one has pages in several forms, and of one that writes or reads
/// text, characters of the extension table.
pub fn any(entry: Entry, random: &mut Random, most: usize) -> Case {
    match entry {
        Entry::ReadPlan | Entry::WriteSchedule | Entry::CheckSchedule | Entry::CheckSlots if random.once_in(2) => {
            any_formed(entry, random, most)
        }
        Entry::WriteText | Entry::ReadText if random.once_in(2) => any_paired(entry, random, most),
        _ => any_plain(entry, random, most),
    }
}

/// Any case: sound, near an edge, with one fault or several, damaged, or wild.
pub fn any_plain(entry: Entry, random: &mut Random, most: usize) -> Case {
    if entry == Entry::Intake && !random.once_in(4) {
        return sequence(random);
    }
    if entry == Entry::Collect && random.once_in(2) {
        return collecting_sequence(random);
    }
    let case = near(entry, random, most);
    spoilt(case, random)
}

/// Any case with pages in several forms: as it is made, with one fault or several, damaged, or wild.
fn any_formed(entry: Entry, random: &mut Random, most: usize) -> Case {
    let case = formed(entry, random, most);
    spoilt(case, random)
}

/// Any case with characters of the extension table: as it is made, with one fault or several, damaged, or wild.
pub fn any_paired(entry: Entry, random: &mut Random, most: usize) -> Case {
    let mut case = paired(entry, random, most);
    if entry == Entry::WriteText {
        spoil_text(&mut case.words, random);
    }
    spoilt(case, random)
}

/// A case as it is, or with faults, damaged or wild.
fn spoilt(mut case: Case, random: &mut Random) -> Case {
    let entry = case.entry;
    match random.below(16) {
        0..=7 => {}
        8..=10 => put(&mut case, &some_faults(entry, random, 1), random),
        11 | 12 => put(&mut case, &some_faults(entry, random, 3), random),
        13 | 14 => damage(&mut case, random),
        _ => wild(&mut case, random),
    }
    clip(&mut case);
    case
}

/// A few of an entry's faults, in the order of `choices`.
fn some_faults(entry: Entry, random: &mut Random, most: usize) -> Vec<Fault> {
    let all = choices(entry);
    let count = random.within(1, most);
    let mut at: Vec<usize> = (0..count).map(|_| random.below(all.len())).collect();
    at.sort_unstable();
    at.dedup();
    at.into_iter().map(|at| all[at]).collect()
}

/// Changes a few octets, lengths, 16-bit numbers and numbers.
fn damage(case: &mut Case, random: &mut Random) {
    for _ in 0..random.within(1, 4) {
        let lists = case.lists.len();
        match random.below(8) {
            0 if !case.numbers.is_empty() => {
                let at = random.below(case.numbers.len());
                case.numbers[at] = edge(random, case.numbers[at]);
            }
            1 if !case.words.is_empty() => {
                let at = random.below(case.words.len());
                let any = random.word();
                case.words[at] = random.pick(&[any, case.words[at] ^ 0x8000, 0x0D, 0x1B]);
            }
            _ if lists > 0 => damage_list(&mut case.lists[random.below(lists)], random),
            _ => {}
        }
    }
}

fn damage_list(list: &mut Vec<u8>, random: &mut Random) {
    if list.is_empty() {
        list.push(random.octet());
        return;
    }
    let at = if random.once_in(2) { random.below(list.len().min(12)) } else { random.below(list.len()) };
    match random.below(8) {
        0 => list.truncate(at),
        1 => list.insert(at, random.octet()),
        2 => {
            list.remove(at);
        }
        3 | 4 => list[at] ^= 1 << random.below(8),
        5 => list[at] = random.pick(&[0x00, 0x01, 0x2B, 0x3F, 0x40, 0x41, 0x42, 0x7F, 0x80, 0xFF]),
        _ => list[at] = random.octet(),
    }
}

/// A number at some edge, or beside the one there was.
fn edge(random: &mut Random, number: u64) -> u64 {
    let any = random.next();
    let near = number.wrapping_add(random.pick(&[1, u64::MAX, 22, 256, 1 << 32]));
    random.pick(&[0, 1, 22, 44, 48, 66, 88, 92, 93, near, near, near, near, any])
}

const LONG: usize = 65536 + 88; // as long as a message in its two low octets

/// Octets and numbers without sense.
fn wild(case: &mut Case, random: &mut Random) {
    for list in &mut case.lists {
        let length = random.pick(&[0, 1, 6, 12, 23, 88, 88, 88, 90, 100, 256 + 88, LONG]);
        *list = random.octets(length);
    }
    for number in &mut case.numbers {
        *number = edge(random, *number);
    }
    let few = random.below(100);
    let words = random.pick(&[few, few, few, 256 + 64, 65536 + 64]);
    if !case.words.is_empty() {
        case.words = (0..words).map(|_| random.word() & 0x3FF).collect();
    }
    if case.entry == Entry::Collect && random.once_in(2) {
        case.lists[0] = wild_collector(random);
        case.numbers[1] = COLLECTOR as u64;
    }
}

/// Keeps numbers within the widths that C gives them, and lengths within reason.
pub fn clip(case: &mut Case) {
    let widths: &[u64] = match case.entry {
        Entry::Intake => &[1, 511, 511],
        Entry::WriteBlocks => &[1, u64::MAX, 511],
        Entry::WriteText => &[0xFFFF, 0xFFFF, 0xFF, 0xFF, 511],
        Entry::ReadText => &[u64::MAX, 511],
        Entry::Description => &[u64::MAX, u64::MAX, 63],
        Entry::WriteSchedule => &[u64::MAX, 511],
        Entry::Decide | Entry::Enter => &[1, u64::MAX, u64::MAX, u64::MAX],
        Entry::Slots | Entry::CheckSlots => &[u64::MAX, 511],
        Entry::Collect => &[1, 4095, 4095, u64::MAX],
        _ => &[],
    };
    for (number, &most) in case.numbers.iter_mut().zip(widths.iter().cycle()) {
        if *number > most {
            *number %= most.wrapping_add(1).max(1);
        }
    }
}
