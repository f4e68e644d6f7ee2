//! The edges of document 02's No. 3: pages of messages, collectors that hold them, and collectors that aren't proper.

use crate::blocks::MESSAGE;
use crate::case::{Case, Entry};
use crate::collector::{place_of, start_collector, COLLECTOR, HEAD, MOST_PAGES, PLACE};
use crate::random::Random;
use crate::side::LENT;
use crate::text::HEADER;

/// What tells a message.
#[derive(Clone, Copy, Debug, PartialEq, Eq)]
pub struct Message {
    pub serial: u16,
    pub identifier: u16,
    pub total: usize,
}

/// A page and the octets received of it.
pub type Sent = (Vec<u8>, u64);

pub const RECEIVED: [u8; 4] = [22, 44, 66, 88]; // 01 Numbers given, 18
pub const BAD_RECEIVED: [u8; 12] = [1, 21, 23, 43, 45, 65, 67, 87, 89, 110, 242, 255];
const BEHIND: usize = 10; // octets that a case carries behind the collector and the output

const CLOSURE: Message = Message { serial: 0x0010, identifier: 0x8001, total: 3 };
const LONGEST: Message = Message { total: MOST_PAGES, ..CLOSURE };

/// A page with this parameter and one octet all over its content, but for the first and the last.
pub fn page_with(message: Message, parameter: u8, content: u8) -> Vec<u8> {
    let mut page = vec![content; MESSAGE];
    page[0..2].copy_from_slice(&message.serial.to_be_bytes());
    page[2..4].copy_from_slice(&message.identifier.to_be_bytes());
    page[4..HEADER].copy_from_slice(&[0x01, parameter]);
    page[HEADER] = parameter ^ 0x5A;
    page[MESSAGE - 1] = 0;
    page
}

/// The parameter of a page of a message.
pub fn parameter(message: Message, number: usize) -> u8 {
    (number << 4 | message.total) as u8
}

/// A page of a message, with octets received that go by its number.
fn sent(message: Message, number: usize) -> Sent {
    let page = page_with(message, parameter(message, number), 0x40 + number as u8);
    (page, RECEIVED[number % 4] as u64)
}

/// A collector as at start.
pub fn started() -> Vec<u8> {
    let mut collector = vec![0; COLLECTOR];
    start_collector(&mut collector).expect("it is 1,340 octets long");
    collector
}

/// A collector that holds these pages of a message, by their numbers.
pub fn holding(message: Message, pages: &[(usize, Sent)]) -> Vec<u8> {
    let ([s1, s2], [i1, i2]) = (message.serial.to_be_bytes(), message.identifier.to_be_bytes());
    let mut collector = started();
    collector[..HEAD].copy_from_slice(&[message.total as u8, s1, s2, i1, i2]);
    for (number, (page, received)) in pages {
        let at = place_of(*number);
        collector[at] = *received as u8;
        collector[at + 1..at + PLACE].copy_from_slice(page);
    }
    collector
}

/// The same with pages as they are sent here.
fn held(message: Message, numbers: &[usize]) -> Vec<u8> {
    holding(message, &numbers.iter().map(|&number| (number, sent(message, number))).collect::<Vec<(usize, Sent)>>())
}

/// A list with octets behind it that aren't lent.
fn carried(list: &[u8]) -> Vec<u8> {
    [list, &[LENT; BEHIND]].concat()
}

/// One call.
pub fn collecting(collector: &[u8], (page, received): &Sent, output: usize) -> Case {
    let numbers = [1, collector.len() as u64, output as u64, *received];
    Case::new(Entry::Collect, &numbers, &[&carried(collector), &carried(&vec![LENT; output]), page], &[])
}

/// A start, and a call for each page.
pub fn from_start(pages: &[Sent]) -> Case {
    let lent = [LENT; COLLECTOR + BEHIND];
    let lengths = [COLLECTOR as u64, COLLECTOR as u64];
    let mut case = Case::new(Entry::Collect, &[0, lengths[0], lengths[1], 0], &[&lent, &lent, &[]], &[]);
    for (page, received) in pages {
        case.numbers.extend([1, lengths[0], lengths[1], *received]);
        case.lists.push(page.clone());
    }
    case
}

/// Collectors before a start: of lengths about the right one, with pages held, and with octets of all kinds.
pub fn starts() -> Vec<Case> {
    let lengths = [0, 1, HEAD, 90, COLLECTOR - 1, COLLECTOR, COLLECTOR + 1, 2 * COLLECTOR, 256 + COLLECTOR];
    let mut collectors: Vec<Vec<u8>> = lengths.iter().map(|&length| vec![0; length]).collect();
    let mut cut = held(CLOSURE, &[1, 3]);
    cut.truncate(COLLECTOR - 1);
    collectors.extend([started(), held(CLOSURE, &[1, 3]), held(LONGEST, &[2, 15]), cut]);
    collectors.extend([vec![0xFF; COLLECTOR], vec![0x2B; COLLECTOR], Random::new(3).octets(COLLECTOR)]);
    collectors.iter().map(|collector| Case::new(Entry::StartCollector, &[], &[collector], &[])).collect()
}

/// Calls of the collector: one by one, and several in a row.
pub fn collected() -> Vec<Case> {
    let alone =
        [lengths(), over_total(), single_pages(), copies(), drops(), kept(), completed(), unlooked(), improper()];
    let rows = sequences().into_iter().map(|pages| from_start(&pages)).collect();
    [alone.concat(), rows].concat()
}

/// Lengths about the right ones, and octets received about 22, 44, 66 and 88; the page would begin, be kept or complete.
fn lengths() -> Vec<Case> {
    let collectors = [started(), held(CLOSURE, &[1]), held(CLOSURE, &[1, 3])];
    let good = sent(CLOSURE, 2);
    let mut cases = Vec::new();
    for (at, length) in [0, 1, HEAD, COLLECTOR - 1, COLLECTOR + 1, 2 * COLLECTOR].into_iter().enumerate() {
        let mut collector = collectors[at % 3].clone();
        collector.resize(length, 0x2B);
        cases.push(collecting(&collector, &good, COLLECTOR));
    }
    for (at, length) in [0, 1, HEAD, MESSAGE, COLLECTOR - 1, COLLECTOR + 1, 2 * COLLECTOR].into_iter().enumerate() {
        cases.push(collecting(&collectors[at % 3], &good, length));
    }
    for (at, length) in [0, 1, HEADER, 87, 89, 90, 256 + MESSAGE].into_iter().enumerate() {
        let mut page = good.0.clone();
        page.resize(length, 0x2B);
        cases.push(collecting(&collectors[at % 3], &(page, good.1), COLLECTOR));
    }
    let received = [0, 1, 21, 23, 43, 45, 65, 67, 87, 89, 110, 278, 256 + 88, (1 << 32) + 22, u64::MAX];
    for (at, received) in received.into_iter().enumerate() {
        cases.push(collecting(&collectors[at % 3], &(good.0.clone(), received), COLLECTOR));
    }
    cases
}

/// A collector whose total is 0 though a page is held.
fn odd() -> Vec<u8> {
    let mut collector = held(CLOSURE, &[1]);
    collector[0] = 0;
    collector
}

/// A page over its total: alone, while others are held, and beside each other fault.
fn over_total() -> Vec<Case> {
    let over = |parameter: u8| (page_with(CLOSURE, parameter, 0x41), 22);
    let other = (page_with(Message { serial: 0x0011, ..CLOSURE }, 0x43, 0x41), 22);
    let parameters = [0x21, 0x31, 0xF1, 0x32, 0xF2, 0x43, 0xF3, 0x87, 0xED, 0xFE];
    let mut cases: Vec<Case> = parameters.map(|parameter| collecting(&started(), &over(parameter), COLLECTOR)).to_vec();
    let two = held(CLOSURE, &[1, 3]);
    let mut sent = vec![over(0x43), over(0x53), over(0xF3), over(0x21), over(0xFE), other];
    cases.extend(sent.iter().map(|sent| collecting(&two, sent, COLLECTOR)));
    let (short, few) = ((over(0x43).0[..MESSAGE - 1].to_vec(), 22), (over(0x43).0, 21));
    sent = vec![over(0x43), short, few];
    for sent in &sent {
        cases.push(collecting(&two, sent, COLLECTOR - 1));
        cases.push(collecting(&odd(), sent, COLLECTOR));
        cases.push(collecting(&two[..COLLECTOR - 1], sent, COLLECTOR));
    }
    cases.extend(sent[1..].iter().map(|sent| collecting(&two, sent, COLLECTOR)));
    cases.push(collecting(&odd(), &sent[1], COLLECTOR + 1));
    cases
}

/// Page 1 of 1 and the parameters that are treated as it: alone, and while pages of its own numbers or of others are
/// held. // 02 No. 2
fn single_pages() -> Vec<Case> {
    let same = held(CLOSURE, &[1, 3]);
    let others = held(Message { identifier: 0x8002, total: 2, ..CLOSURE }, &[2]);
    let alike = held(Message { total: 5, ..CLOSURE }, &[1, 2, 3, 4]); // 05 and 50 would complete it by one half
    let mut cases = Vec::new();
    for (at, parameter) in [0x11, 0x00, 0x01, 0x10, 0x0F, 0xF0, 0x05, 0x50].into_iter().enumerate() {
        let sent = (page_with(CLOSURE, parameter, 0x61), RECEIVED[at % 4] as u64);
        cases.push(collecting(&started(), &sent, COLLECTOR));
        let all = [0x11, 0x00, 0x05, 0x50].contains(&parameter);
        let while_held = [&same, &others, &alike].into_iter().enumerate().filter(|(turn, _)| all || at % 3 == *turn);
        cases.extend(while_held.map(|(_, collector)| collecting(collector, &sent, COLLECTOR)));
    }
    cases
}

/// A page that is held comes again with fewer octets received, with more, with others, and with another scheme.
fn again(message: Message, number: usize) -> Vec<Sent> {
    let (page, received) = sent(message, number);
    let other = page_with(message, parameter(message, number), 0x7F);
    let mut scheme = page.clone();
    scheme[4] = 0xF1;
    let mut last = page.clone();
    last[MESSAGE - 1] = 0xFF;
    let (fewer, more) = (received.max(44) - 22, received.min(66) + 22);
    vec![
        (page.clone(), received),
        (page.clone(), fewer),
        (page, more),
        (other, received),
        (scheme, received),
        (last, 22),
    ]
}

fn copies() -> Vec<Case> {
    let (three, one) = (held(CLOSURE, &[1, 3]), held(LONGEST, &[15]));
    let mut cases: Vec<Case> =
        again(CLOSURE, 3).iter().chain(&again(CLOSURE, 1)).map(|sent| collecting(&three, sent, COLLECTOR)).collect();
    cases.extend(again(LONGEST, 15).iter().map(|sent| collecting(&one, sent, COLLECTOR)));
    cases
}

/// Messages that differ from one in one thing, and one that has its numbers in each other's place.
pub fn near_messages(message: Message) -> Vec<Message> {
    let Message { serial, identifier, total } = message;
    let mut near = vec![Message { serial: identifier, identifier: serial, total }];
    for bit in [0x8000, 0x0100, 0x0080, 0x0001] {
        near.push(Message { serial: serial ^ bit, ..message });
        near.push(Message { identifier: identifier ^ bit, ..message });
    }
    near.extend([total - 1, total + 1, 14].map(|total| Message { total, ..message }));
    near
}

/// Pages of other messages and totals, which begin anew: one that isn't held and one that is, by its number alone; and
/// where all others of the message are held, so that it would be complete.
fn drops() -> Vec<Case> {
    let two = held(CLOSURE, &[1, 3]);
    let mut cases = Vec::new();
    for (at, near) in near_messages(CLOSURE).into_iter().enumerate() {
        cases.push(collecting(&two, &sent(near, 2), COLLECTOR));
        if at % 3 == 0 {
            cases.push(collecting(&two, &sent(near, 1), COLLECTOR));
        }
    }
    cases.push(collecting(&held(LONGEST, &[1, 2, 15]), &sent(Message { total: 14, ..LONGEST }, 3), COLLECTOR));
    cases.push(collecting(&held(Message { total: 14, ..LONGEST }, &[1, 14]), &sent(LONGEST, 15), COLLECTOR));
    cases
}

/// Pages that begin, and pages that are added between, before and after others; in each coding scheme and with each
/// number of octets received.
fn kept() -> Vec<Case> {
    let mut cases: Vec<Case> =
        [1, 2, 7, 14, 15].map(|number| collecting(&started(), &sent(LONGEST, number), COLLECTOR)).to_vec();
    cases.push(collecting(&started(), &sent(Message { total: 2, ..CLOSURE }, 2), COLLECTOR));
    cases.push(collecting(&started(), &sent(Message { serial: 0, identifier: 0, total: 2 }, 1), COLLECTOR));
    for (numbers, number) in [([2, 14], 1), ([1, 15], 2), ([1, 15], 14), ([1, 14], 15), ([8, 9], 7), ([8, 10], 9)] {
        cases.push(collecting(&held(LONGEST, &numbers), &sent(LONGEST, number), COLLECTOR));
    }
    for (received, scheme) in RECEIVED.into_iter().zip([0x00, 0x0F, 0x11, 0xFF]) {
        let mut page = sent(LONGEST, 4).0;
        page[4] = scheme;
        cases.push(collecting(&held(LONGEST, &[3, 5]), &(page, received as u64), COLLECTOR));
    }
    cases
}

/// The page that completes a message: each total, with the first page missing, the last, or one in between.
fn completed() -> Vec<Case> {
    let complete = |total: usize, missing: usize| {
        let message = Message { total, ..CLOSURE };
        let others: Vec<usize> = (1..=total).filter(|&number| number != missing).collect();
        collecting(&held(message, &others), &sent(message, missing), COLLECTOR)
    };
    let mut cases: Vec<Case> = (2..=MOST_PAGES).map(|total| complete(total, [total, 1][total % 2])).collect();
    cases.extend([(2, 1), (3, 2), (15, 8), (15, 15)].map(|(total, missing)| complete(total, missing)));
    cases
}

/// A collector with other octets wherever they aren't looked at: a page's place has one octet all over.
pub fn littered(mut collector: Vec<u8>) -> Vec<u8> {
    if collector[0] == 0 {
        collector[1..HEAD].fill(0xEE);
    }
    for number in 1..=MOST_PAGES {
        let at = place_of(number);
        if collector[at] == 0 {
            collector[at + 1..at + PLACE].fill(0x60 + number as u8);
        }
    }
    collector
}

/// Proper collectors with octets that no call leaves: in pages that aren't held, past the total, in the numbers of an
/// empty one, and in the headers of pages that are held. A page begins, is added, is passed over, drops and completes.
fn unlooked() -> Vec<Case> {
    let mut foreign = held(CLOSURE, &[1, 3]);
    foreign[place_of(1) + 1..place_of(1) + 7].fill(0xDD);
    foreign[place_of(3) + 6] = 0x11;
    let mut wild = held(CLOSURE, &[1, 3]);
    wild[place_of(4) + 1..place_of(5)].copy_from_slice(&Random::new(4).octets(MESSAGE));
    let mut same_numbers = started();
    same_numbers[1..HEAD].copy_from_slice(&held(CLOSURE, &[])[1..HEAD]);
    let other = Message { serial: 0x0011, ..CLOSURE };
    let (single, over) = (Message { total: 1, ..CLOSURE }, (page_with(CLOSURE, 0x43, 0x41), 22));
    let short = (vec![0; MESSAGE - 1], 22);
    let (two, empty, begun) = (littered(held(CLOSURE, &[1, 3])), littered(started()), littered(held(CLOSURE, &[2])));
    let many = littered(held(LONGEST, &[1, 2, 3, 5, 6, 7, 8, 9, 10, 11, 12, 13, 14, 15]));
    vec![
        collecting(&empty, &sent(CLOSURE, 2), COLLECTOR),
        collecting(&empty, &sent(single, 1), COLLECTOR),
        collecting(&empty, &over, COLLECTOR),
        collecting(&empty, &short, COLLECTOR),
        collecting(&same_numbers, &sent(CLOSURE, 1), COLLECTOR),
        collecting(&begun, &sent(CLOSURE, 3), COLLECTOR),
        collecting(&begun, &sent(CLOSURE, 2), COLLECTOR),
        collecting(&begun, &sent(other, 3), COLLECTOR),
        collecting(&begun, &sent(single, 1), COLLECTOR),
        collecting(&two, &sent(CLOSURE, 2), COLLECTOR),
        collecting(&two, &sent(CLOSURE, 1), COLLECTOR),
        collecting(&two, &sent(other, 2), COLLECTOR),
        collecting(&two, &over, COLLECTOR),
        collecting(&two, &sent(CLOSURE, 2), COLLECTOR - 1),
        collecting(&foreign, &sent(CLOSURE, 1), COLLECTOR),
        collecting(&foreign, &sent(CLOSURE, 2), COLLECTOR),
        collecting(&wild, &sent(CLOSURE, 2), COLLECTOR),
        collecting(&littered(held(LONGEST, &[1, 15])), &sent(LONGEST, 8), COLLECTOR),
        collecting(&many, &sent(LONGEST, 4), COLLECTOR),
    ]
}

/// Puts octets received into the place of a page.
fn received_at(mut collector: Vec<u8>, number: usize, received: u8) -> Vec<u8> {
    collector[place_of(number)] = received;
    collector
}

/// The same with another total.
fn with_total(mut collector: Vec<u8>, total: usize) -> Vec<u8> {
    collector[0] = total as u8;
    collector
}

/// Collectors that aren't proper, by what document 02 says of one that is.
pub fn not_proper() -> Vec<Vec<u8>> {
    let of = |total: usize| Message { total, ..CLOSURE };
    let mut all: Vec<Vec<u8>> = [16, 17, 18, 31, 32, 47, 48, 127, 128, 129, 143, 240, 254, 255]
        .map(|total| with_total(held(LONGEST, &[1, 15]), total))
        .to_vec();
    all.extend([16, 255].map(|total| with_total(started(), total)));
    all.extend((1..=MOST_PAGES).map(|number| with_total(held(CLOSURE, &[number]), 0)));
    all.extend((1..=MOST_PAGES).map(|total| with_total(started(), total)));
    all.extend((1..=MOST_PAGES).map(|total| held(of(total), &(1..=total).collect::<Vec<usize>>())));
    all.extend((3..=MOST_PAGES).map(|past| held(of(2), &[1 + past % 2, past])));
    all.extend((1..MOST_PAGES).map(|total| held(of(total), &[total, total + 1])));
    all.extend((3..MOST_PAGES - 1).map(|total| held(of(total), &[1, MOST_PAGES])));
    all.extend([1, 2, 7, 14].map(|total| held(of(total), &[total + 1])));
    for (at, received) in BAD_RECEIVED.into_iter().enumerate() {
        let (low, past) = (1 + at % 3, 4 + at);
        all.push(received_at(held(LONGEST, &[1 + at]), 15 - at, received));
        all.push(match at % 3 {
            0 => received_at(held(CLOSURE, &[low]), low, received),
            1 => received_at(held(CLOSURE, &[1 + low % 3]), low, received),
            _ => received_at(started(), low, received),
        });
        if at % 3 == 0 {
            all.push(received_at(held(CLOSURE, &[low]), past, received));
        }
    }
    all
}

/// These beside a good page for every sixth, and elsewhere beside none, which would be refused by 16: that tells a
/// collector that is taken for proper as well, and is short.
fn improper() -> Vec<Case> {
    let none = (vec![], 22);
    let beside = |at: usize| if at % 6 == 0 { sent(CLOSURE, 2) } else { none.clone() };
    not_proper().iter().enumerate().map(|(at, collector)| collecting(collector, &beside(at), COLLECTOR)).collect()
}

/// All pages of a message, in their order.
fn all_of(message: Message) -> Vec<Sent> {
    (1..=message.total).map(|number| sent(message, number)).collect()
}

/// The same in another order.
fn shuffled(message: Message, seed: u64) -> Vec<Sent> {
    let mut pages = all_of(message);
    let mut random = Random::new(seed);
    for at in (1..pages.len()).rev() {
        pages.swap(at, random.below(at + 1));
    }
    pages
}

/// Some pages of a message.
fn some_of(message: Message, numbers: &[usize]) -> Vec<Sent> {
    numbers.iter().map(|&number| sent(message, number)).collect()
}

/// Pages in a row, from a start. // 02 No. 3
fn sequences() -> Vec<Vec<Sent>> {
    let all = all_of(LONGEST);
    let reverse: Vec<Sent> = all.iter().rev().cloned().collect();
    let (two, any) = (Message { total: 2, ..CLOSURE }, shuffled(LONGEST, 5));
    let mut rows = vec![
        [all, reverse].concat(),
        [any.clone(), any].concat(),
        [all_of(two), all_of(two), shuffled(CLOSURE, 8), some_of(two, &[2, 1])].concat(),
        [some_of(CLOSURE, &[2]), again(CLOSURE, 2), some_of(CLOSURE, &[1, 2, 3, 3])].concat(),
        [some_of(two, &[2]), again(two, 2), some_of(two, &[1])].concat(),
    ];
    let near = near_messages(CLOSURE).into_iter().enumerate().filter(|(at, _)| !(3..7).contains(at));
    rows.extend(near.map(|(_, near)| changing(CLOSURE, near)));
    rows.extend([single_row(), refused_row()]);
    rows
}

/// A message but for page 2, page 2 of another, which drops it, the page that was missing, which drops the other, and
/// then all that is missing again.
fn changing(one: Message, other: Message) -> Vec<Sent> {
    let numbers: Vec<usize> = (1..=one.total).filter(|&number| number != 2).take(3).collect();
    [some_of(one, &numbers), some_of(other, &[2]), some_of(one, &[2]), some_of(one, &numbers)].concat()
}

/// Single pages in each form among each other and among pages of messages, each time dropping what is held.
fn single_row() -> Vec<Sent> {
    let single = |parameter: u8| (page_with(CLOSURE, parameter, 0x61), 44);
    let mut row = vec![single(0x00), single(0x11), single(0x05), single(0x50), single(0x00)];
    row.extend(some_of(CLOSURE, &[1, 3]));
    row.extend([single(0x00), sent(CLOSURE, 2), single(0x50), sent(CLOSURE, 1), single(0x05)]);
    row.extend(some_of(CLOSURE, &[3, 2]));
    row.push(single(0x11));
    row.extend(some_of(CLOSURE, &[2, 3, 1]));
    row
}

/// Refusals that leave the collector as it is, between the pages of a message.
fn refused_row() -> Vec<Sent> {
    let (page, other) = (sent(CLOSURE, 2).0, Message { serial: 0x0011, ..CLOSURE });
    let over = |message: Message| (page_with(message, 0x43, 0x41), 22);
    vec![
        over(CLOSURE),
        (vec![], 22),
        sent(CLOSURE, 3),
        over(CLOSURE),
        (page[..87].to_vec(), 44),
        (page.clone(), 0),
        over(other),
        sent(CLOSURE, 1),
        (sent(other, 2).0, 23),
        ([page, vec![0]].concat(), 44),
        over(other),
        sent(CLOSURE, 2),
        over(CLOSURE),
    ]
}
