//! Document 02's No. 3: the pages of a message are collected in whatever order they come, and handed out together.

use second::case::Entry;
use second::invent::{any, collecting_sequence};
use second::random::Random;
use second::side::{run, Ours, Side};
use second::stored::{from_runs, runs};

const LENT: u8 = 0xA5;
const COLLECTOR: usize = 1340;
const KEPT: u64 = 1;
const IMPROPER: u64 = 8;

/// Where the octets received of a page stand; the page is behind them.
fn at(number: usize) -> usize {
    5 + 89 * (number - 1)
}

/// Total, serial number and identifier 0, and each page 0 received and 88 octets of 2B.
fn empty() -> Vec<u8> {
    [vec![0; 5], [vec![0], vec![0x2B; 88]].concat().repeat(15)].concat()
}

/// A page of these numbers, with one octet as its content.
fn page(serial: u16, identifier: u16, parameter: u8, content: u8) -> Vec<u8> {
    let ([s1, s2], [i1, i2]) = (serial.to_be_bytes(), identifier.to_be_bytes());
    [vec![s1, s2, i1, i2, 0x01, parameter], vec![content; 82]].concat()
}

/// A page of the message 0010 8001, by its number and total.
fn of(number: usize, total: usize) -> Vec<u8> {
    page(0x0010, 0x8001, (number << 4 | total) as u8, number as u8)
}

/// What tells the message of a page, and its number: page 1 of 1 where either half is 0. // 02 No. 2
fn told(page: &[u8]) -> ((u8, Vec<u8>), usize) {
    let halves = [page[5] >> 4, page[5] & 0x0F];
    let [number, total] = if halves.contains(&0) { [1, 1] } else { halves };
    ((total, page[..4].to_vec()), number as usize)
}

/// A collector or a message that has these pages.
fn laid(pages: &[(&[u8], u64)]) -> Vec<u8> {
    let mut laid = empty();
    for (page, received) in pages {
        let ((total, numbers), number) = told(page);
        laid[0] = total;
        laid[1..5].copy_from_slice(&numbers);
        laid[at(number)] = *received as u8;
        laid[at(number) + 1..at(number) + 89].copy_from_slice(page);
    }
    laid
}

/// The same with pages of the message 0010 8001, all received.
fn held(numbers: &[usize], total: usize) -> Vec<u8> {
    let pages: Vec<Vec<u8>> = numbers.iter().map(|&number| of(number, total)).collect();
    laid(&pages.iter().map(|page| (page.as_slice(), 88)).collect::<Vec<(&[u8], u64)>>())
}

/// What a call returns, and the output; what it does to a page that it is lent isn't looked at here.
fn collect(collector: &mut [u8], page: &[u8], received: u64) -> (u64, Vec<u8>) {
    let mut output = vec![LENT; COLLECTOR];
    let returned = Ours.collect(collector, &mut page.to_vec(), received as usize, &mut output);
    (returned, output)
}

fn untouched() -> Vec<u8> {
    vec![LENT; COLLECTOR]
}

/// A call that keeps a page or passes it over.
fn kept(collector: &mut [u8], page: &[u8], received: u64) {
    assert_eq!(collect(collector, page, received), (KEPT, untouched()));
}

#[test]
fn a_start_leaves_nothing_held() {
    for octet in [0x00, 0x2B, 0xFF] {
        let mut collector = vec![octet; COLLECTOR];
        assert_eq!(Ours.start_collector(&mut collector), 0);
        assert_eq!(collector, empty());
    }
    for length in [0, 1, 5, 90, COLLECTOR - 1, COLLECTOR + 1] {
        let mut collector = vec![0x11; length];
        assert_eq!((Ours.start_collector(&mut collector), collector), (IMPROPER, vec![0x11; length]));
    }
    assert_eq!(runs(&empty()), format!("(6)00(58)2b{}", "00(58)2b".repeat(14)));
}

/// The numbers of all pages, in an order.
fn order(total: usize, random: &mut Random) -> Vec<usize> {
    let mut numbers: Vec<usize> = (1..=total).collect();
    for at in (1..total).rev() {
        numbers.swap(at, random.below(at + 1));
    }
    numbers
}

#[test]
fn pages_come_in_whatever_order() {
    let mut random = Random::new(20);
    for total in 1..=15 {
        let ascending: Vec<usize> = (1..=total).collect();
        let descending: Vec<usize> = (1..=total).rev().collect();
        for numbers in [ascending, descending, order(total, &mut random), order(total, &mut random)] {
            let received: Vec<u64> = (1..=total).map(|_| random.pick(&[22, 44, 66, 88])).collect();
            let pages: Vec<Vec<u8>> = (1..=total).map(|number| of(number, total)).collect();
            let sent: Vec<(&[u8], u64)> =
                numbers.iter().map(|&number| (pages[number - 1].as_slice(), received[number - 1])).collect();
            let mut collector = empty();
            for again in 0..3 {
                for came in 1..total {
                    kept(&mut collector, sent[came - 1].0, sent[came - 1].1);
                    assert_eq!(collector, laid(&sent[..came]), "time {again}");
                }
                let last = sent[total - 1];
                assert_eq!(collect(&mut collector, last.0, last.1), (256 * total as u64, laid(&sent)));
                assert_eq!(collector, empty(), "so that a rebroadcast is collected afresh");
            }
        }
    }
}

#[test]
fn the_earlier_copy_stays() {
    let mut other = page(0x0010, 0x8001, 0x23, 0x77);
    other[4] = 0xF1;
    for received in [22, 44, 66, 88] {
        for later in [22, 44, 66, 88] {
            for copy in [of(2, 3), other.clone()] {
                let (one, two, three) = (of(1, 3), of(2, 3), of(3, 3));
                let mut collector = empty();
                kept(&mut collector, &two, received);
                kept(&mut collector, &copy, later);
                assert_eq!(collector, laid(&[(&two, received)]));
                kept(&mut collector, &three, 66);
                kept(&mut collector, &copy, later);
                kept(&mut collector, &three, later);
                let message = laid(&[(&one, 44), (&two, received), (&three, 66)]);
                assert_eq!(collect(&mut collector, &one, 44), (3 * 256, message));
            }
        }
    }
}

#[test]
fn another_message_or_total_begins_anew() {
    let mut others = vec![page(0x8001, 0x0010, 0x23, 9), page(0x0010, 0x8001, 0x22, 9), page(0x0010, 0x8001, 0x24, 9)];
    others.extend((0..16).map(|bit| page(0x0010 ^ 1 << bit, 0x8001, 0x23, 9)));
    others.extend((0..16).map(|bit| page(0x0010, 0x8001 ^ 1 << bit, 0x23, 9)));
    for other in &others {
        let mut collector = held(&[1, 3], 3);
        kept(&mut collector, other, 22);
        assert_eq!(collector, laid(&[(other, 22)]));
        kept(&mut collector, &of(2, 3), 88);
        assert_eq!(collector, held(&[2], 3), "and back again");
        kept(&mut collector, &of(1, 3), 88);
        assert_eq!(collect(&mut collector, &of(3, 3), 88), (3 * 256, held(&[1, 2, 3], 3)));
    }
}

#[test]
fn the_coding_scheme_tells_no_message() {
    let mut collector = empty();
    let pages: Vec<Vec<u8>> = (1..=3)
        .map(|number| {
            let mut page = of(number, 3);
            page[4] = [0x00, 0x0F, 0xFF][number - 1];
            page
        })
        .collect();
    kept(&mut collector, &pages[0], 88);
    kept(&mut collector, &pages[1], 88);
    let message = laid(&[(&pages[0], 88), (&pages[1], 88), (&pages[2], 88)]);
    assert_eq!(collect(&mut collector, &pages[2], 88), (3 * 256, message));
}

#[test]
fn a_single_page_is_handed_out_at_once() {
    for parameter in (0..=0xFF).filter(|parameter| parameter >> 4 == 0 || parameter & 0x0F == 0).chain([0x11]) {
        let single = page(0x0010, 0x8001, parameter, 0x41);
        for mut collector in [empty(), held(&[1], 2), held(&[2, 3], 3), held(&[15], 15), held(&[1, 2, 3, 4], 5)] {
            assert_eq!(collect(&mut collector, &single, 44), (256, laid(&[(&single, 44)])), "{parameter:02x}");
            assert_eq!(collector, empty(), "what was held is dropped");
        }
    }
}

#[test]
fn a_page_over_its_total_changes_nothing() {
    for parameter in 0..=0xFF_u8 {
        let (number, total) = (parameter >> 4, parameter & 0x0F);
        let over = number > 0 && total > 0 && number > total;
        let sent = page(0x0010, 0x8001, parameter, 0x41);
        for before in [empty(), held(&[1, 3], 3), held(&[2], 15)] {
            let mut collector = before.clone();
            let (returned, output) = collect(&mut collector, &sent, 22);
            assert_eq!(returned == 50, over, "{parameter:02x}");
            if over {
                assert_eq!((collector, output), (before, untouched()));
            }
        }
    }
}

/// Faults by their numbers, in the order of refusals; the first is a collector of another length, and the second one
/// that isn't proper.
const ORDER: [u64; 6] = [8, 8, 15, 16, 18, 50];

#[test]
fn the_first_refusal_of_several() {
    for faults in 1..64_u32 {
        let has = |fault: u32| faults >> fault & 1 == 1;
        let mut collector = held(&[1, 3], 3);
        if has(1) {
            collector[at(7)] = 22;
        }
        if has(0) {
            collector.push(0);
        }
        let mut page = page(0x0010, 0x8001, if has(5) { 0x43 } else { 0x23 }, 0x41);
        page.truncate(if has(3) { 87 } else { 88 });
        let (received, length) = (if has(4) { 21 } else { 22 }, if has(2) { COLLECTOR - 1 } else { COLLECTOR });
        let (before, mut output) = (collector.clone(), vec![LENT; length]);
        let returned = Ours.collect(&mut collector, &mut page, received, &mut output);
        let first = faults.trailing_zeros();
        assert_eq!(returned, ORDER[first as usize], "{faults:b}");
        assert_eq!(collector, if first == 1 { empty() } else { before }, "{faults:b}");
        assert_eq!(output, vec![LENT; length]);
    }
}

#[test]
fn other_lengths_change_nothing() {
    let before = held(&[1, 3], 3);
    for length in [0, 1, 5, 1339, 1341] {
        let mut collector = before.clone();
        collector.resize(length, 0);
        let given = collector.clone();
        assert_eq!(collect(&mut collector, &of(2, 3), 88), (IMPROPER, untouched()));
        assert_eq!(collector, given);
        let (mut collector, mut output) = (before.clone(), vec![LENT; length]);
        assert_eq!(Ours.collect(&mut collector, &mut of(2, 3), 88, &mut output), 15);
        assert_eq!((collector, output), (before.clone(), vec![LENT; length]));
    }
    for length in [0, 87, 89, 90] {
        let (mut collector, mut page) = (before.clone(), of(2, 3));
        page.resize(length, 0);
        assert_eq!((collect(&mut collector, &page, 88), &collector), ((16, untouched()), &before));
    }
    for received in [0, 1, 21, 23, 43, 45, 65, 67, 87, 89, 256 + 22, (1 << 32) + 22, u64::MAX] {
        let mut collector = before.clone();
        assert_eq!((collect(&mut collector, &of(2, 3), received), &collector), ((18, untouched()), &before));
    }
}

/// Whether a collector is taken for proper: one that isn't is as at start afterwards, and a page of no octets is refused
/// by 16 beside one that is.
fn proper(collector: &[u8]) -> bool {
    let mut after = collector.to_vec();
    let (returned, _) = collect(&mut after, &[], 88);
    match returned {
        IMPROPER => assert!(after == empty()),
        _ => assert!(returned == 16 && after == collector),
    }
    returned != IMPROPER
}

#[test]
fn some_not_all_pages_of_a_total_are_proper() {
    let mut count = 0;
    for total in 0..=17_usize {
        for pages in 0..1_usize << 15 {
            let mut collector = empty();
            collector[0] = total as u8;
            for number in (1..=15).filter(|number| pages >> (number - 1) & 1 == 1) {
                collector[at(number)] = 22 * (1 + number as u8 % 4);
            }
            let all = (1 << total.min(15)) - 1;
            let some_not_all = pages != 0 && pages < all;
            let expected = if total == 0 { pages == 0 } else { total <= 15 && some_not_all };
            assert_eq!(proper(&collector), expected, "{total} {pages:b}");
            count += expected as usize;
        }
    }
    assert_eq!(count, 1 + (1..=15).map(|total| (1 << total) - 2).sum::<usize>());
}

#[test]
fn other_totals_and_octets_received_are_improper() {
    for total in 0..=0xFF {
        let mut collector = held(&[1, 2], 15);
        collector[0] = total;
        assert_eq!(proper(&collector), (3..=15).contains(&total), "{total}");
    }
    for number in 1..=15 {
        for received in 0..=0xFF {
            let mut collector = held(&[1 + number % 15], 15);
            collector[at(number)] = received;
            assert_eq!(proper(&collector), [0, 22, 44, 66, 88].contains(&received), "{number} {received}");
            let mut alone = empty();
            alone[at(number)] = received;
            assert_eq!(proper(&alone), received == 0);
        }
    }
}

#[test]
fn nothing_else_in_a_collector_is_looked_at() {
    for before in [empty(), held(&[1, 3], 3), held(&[4], 15)] {
        let looked: Vec<usize> = (1..=15).map(at).chain([0]).collect();
        for place in (0..COLLECTOR).filter(|place| !looked.contains(place)) {
            let mut collector = before.clone();
            collector[place] ^= 0xFF;
            assert!(proper(&collector), "{place}");
        }
    }
}

/// A collector with other octets where none is held.
fn littered(mut collector: Vec<u8>) -> Vec<u8> {
    for number in 1..=15 {
        if collector[at(number)] == 0 {
            collector[at(number) + 1..at(number) + 89].fill(0x99);
        }
    }
    if collector[0] == 0 {
        collector[1..5].fill(0x99);
    }
    collector
}

#[test]
fn a_page_that_begins_leaves_all_else_as_at_start() {
    for mut collector in [littered(empty()), littered(held(&[1], 3)), held(&[1, 2, 4, 5], 5)] {
        let begins = page(0x0010, 0x8001, 0x24, 9);
        kept(&mut collector, &begins, 66);
        assert_eq!(collector, laid(&[(&begins, 66)]));
    }
}

#[test]
fn a_page_added_changes_only_its_own_octets() {
    for number in [2, 3, 14, 15] {
        let before = littered(held(&[1, 4], 15));
        let mut collector = before.clone();
        kept(&mut collector, &of(number, 15), 22);
        assert_eq!((collector[at(number)], &collector[at(number) + 1..at(number) + 89]), (22, &of(number, 15)[..]));
        collector[at(number)..at(number) + 89].copy_from_slice(&before[at(number)..at(number) + 89]);
        assert_eq!(collector, before);
    }
}

#[test]
fn pages_past_the_total_are_handed_out_as_at_start() {
    let mut collector = littered(held(&[1, 3], 3));
    assert_eq!(collect(&mut collector, &of(2, 3), 88), (3 * 256, held(&[1, 2, 3], 3)));
    assert_eq!(collector, empty());
    let mut collector = littered(held(&[1, 3], 3));
    let single = of(1, 1);
    assert_eq!(collect(&mut collector, &single, 88), (256, laid(&[(&single, 88)])));
}

#[test]
fn what_is_held_is_handed_out_as_it_stands() {
    let mut collector = held(&[1, 3], 3);
    collector[at(1) + 1..at(1) + 89].fill(0x99);
    let mut message = held(&[1, 2, 3], 3);
    message[at(1) + 1..at(1) + 89].fill(0x99);
    assert_eq!(collect(&mut collector, &of(2, 3), 88), (3 * 256, message));
}

/// The pages that came since the last start, hand-out or drop, by their places in a log; and the first copy of each.
#[derive(Default)]
struct Since(Vec<usize>);

impl Since {
    /// Enters a page that isn't refused; gives the pages of its message in page order, where each has come.
    fn enter(&mut self, log: &[(Vec<u8>, u64)], new: usize) -> Option<Vec<usize>> {
        let (message, _) = told(&log[new].0);
        if self.0.first().is_some_and(|&first| told(&log[first].0).0 != message) {
            self.0.clear();
        }
        self.0.push(new);
        let first = |number: usize| self.0.iter().copied().find(|&place| told(&log[place].0).1 == number);
        let whole: Vec<usize> = (1..=message.0 as usize).map(first).collect::<Option<Vec<usize>>>()?;
        self.0.clear();
        Some(whole)
    }

    /// The collector that holds these.
    fn collector(&self, log: &[(Vec<u8>, u64)]) -> Vec<u8> {
        laid_from(log, self.0.iter().rev())
    }
}

/// What the pages at these places of a log lay out; the last of several copies stays.
fn laid_from<'a>(log: &[(Vec<u8>, u64)], places: impl Iterator<Item = &'a usize>) -> Vec<u8> {
    laid(&places.map(|&place| (log[place].0.as_slice(), log[place].1)).collect::<Vec<(&[u8], u64)>>())
}

/// The refusal of a page beside a good collector and output.
fn refusal(page: &[u8], received: u64) -> Option<u64> {
    if page.len() != 88 {
        return Some(16);
    }
    if ![22, 44, 66, 88].contains(&received) {
        return Some(18);
    }
    let ((total, _), number) = told(page);
    (number > total as usize).then_some(50)
}

#[test]
fn a_message_is_handed_out_exactly_when_each_of_its_pages_has_come() {
    let mut random = Random::new(21);
    let (mut handed_out, mut refused) = ([0; 16], 0);
    for _ in 0..4_000 {
        let case = collecting_sequence(&mut random);
        let calls = case.numbers.chunks_exact(4).zip(&case.lists[2..]).filter(|(numbers, _)| numbers[0] == 1);
        let log: Vec<(Vec<u8>, u64)> = calls.map(|(numbers, page)| (page.clone(), numbers[3])).collect();
        let (mut collector, mut since) = (empty(), Since::default());
        for (place, (page, received)) in log.iter().enumerate() {
            let given = collect(&mut collector, page, *received);
            if let Some(number) = refusal(page, *received) {
                assert_eq!(given, (number, untouched()));
                refused += 1;
            } else if let Some(whole) = since.enter(&log, place) {
                assert_eq!(given, (256 * whole.len() as u64, laid_from(&log, whole.iter())));
                handed_out[whole.len()] += 1;
            } else {
                assert_eq!(given, (KEPT, untouched()));
            }
            assert!(collector == since.collector(&log), "{place}");
        }
    }
    assert!(handed_out[1..].iter().all(|&count| count > 50) && refused > 500, "{handed_out:?} {refused}");
}

#[test]
fn what_calls_leave_is_proper() {
    let mut random = Random::new(22);
    let mut seen = [0; 16];
    for _ in 0..20_000 {
        let case = any(Entry::Collect, &mut random, 48);
        let (mut collector, mut output) = (case.lists[0].clone(), vec![LENT; COLLECTOR]);
        collector.resize(COLLECTOR, 0);
        for (numbers, page) in case.numbers.chunks_exact(4).zip(&case.lists[2..]) {
            let returned = Ours.collect(&mut collector, &mut page.clone(), numbers[3] as usize, &mut output);
            assert!(proper(&collector), "{returned}: {}", case.text());
            seen[collector[0] as usize] += 1;
        }
    }
    assert!(seen.iter().enumerate().all(|(total, &count)| (total == 1) == (count == 0)), "{seen:?}");
}

#[test]
fn no_page_is_changed() {
    let mut random = Random::new(23);
    for _ in 0..5_000 {
        let case = collecting_sequence(&mut random);
        let octets = run(&case, &Ours).octets;
        let mut rest = octets.as_slice();
        for page in &case.lists[2..] {
            rest = &rest[case.lists[0].len() + case.lists[1].len()..];
            assert_eq!(rest[..page.len()], **page);
            rest = &rest[page.len() + 8..];
        }
        assert!(rest.is_empty());
    }
}

#[test]
fn runs_are_written_in_one_way() {
    let written = [
        (vec![], "-"),
        (vec![0; 3], "000000"),
        (vec![0; 4], "(4)00"),
        (vec![0xAB; 17], "(11)ab"),
        ([vec![1; 2], vec![2; 5], vec![3; 3], vec![4; 4]].concat(), "0101(5)02030303(4)04"),
    ];
    for (octets, field) in written {
        assert_eq!(runs(&octets), field);
        assert_eq!(from_runs(field), Some(octets));
    }
    for field in
        ["", "0", "(4)0", "(3)00", "00000000", "(4)00(4)00", "(4)0000", "(04)00", "()00", "4)00", "(4)AB", "x0"]
    {
        assert_eq!(from_runs(field), None, "{field}");
    }
}
