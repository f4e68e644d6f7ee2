//! The checker slot by slot: which of document 01's rules of truth fails first at each slot, from its words and over many
//! invented cases, and what else the call must leave as it is.

use std::collections::BTreeSet;

use second::case::{Case, Entry};
use second::checker::{first_failing, holds, is_true, Rule};
use second::invent::{any, formed, sound, with_verdicts};
use second::plan::{read_plan, Plan};
use second::random::Random;
use second::schedule::{read_schedule, Schedule, Told};
use second::sender::lay;
use second::side::{run, Ours, Side};
use second::stored::{case_of, files};
use second::zero_parameter::files_by_octets;

type Planned = [u8; 6]; // an entry of a plan file

const A: Planned = [2, 0x00, 0x10, 0x80, 0x01, 0x11];
const B: Planned = [2, 0x00, 0x11, 0x00, 0x02, 0x11];
const FREE: Planned = [0; 6];
const WATCHED: Planned = [1, 0, 0, 0, 0, 0]; // reading advised
const UNTRUE: u64 = 40;

const OPTIONAL: &[u8] = &[0x40];
const ADVISED: &[u8] = &[0x41];
const FIRST_A: &[u8] = &[0x80, 0x01];
const FIRST_B: &[u8] = &[0x80, 0x02];

/// What is told of a slot: its new bit, and its description's octets.
type Telling<'a> = (u8, &'a [u8]);

const FREE_TOLD: Telling = (0, OPTIONAL);
const WATCHED_TOLD: Telling = (1, ADVISED);

/// A plan file.
fn file(entries: &[Planned]) -> Vec<u8> {
    [b"CBP\x00\x01", &[entries.len() as u8][..], entries.as_flattened()].concat()
}

/// The message that tells this of slots 1 and on. // 01 Schedule message
fn message(told: &[Telling]) -> Vec<u8> {
    let mut message = vec![1, told.len() as u8, 0, 0, 0, 0, 0, 0];
    for at in 0..told.len() {
        message[2 + at / 8] |= told[at].0 << (7 - at % 8);
    }
    for new in [1, 0] {
        message.extend(told.iter().filter(|told| told.0 == new).flat_map(|told| told.1));
    }
    message.resize(88, 0x2B);
    message
}

/// What a call gives: number and slot as returned, and the verdicts after it, lent as A5.
fn called(current: &[u8], previous: &[u8], message: &[u8], received: usize, length: usize) -> (u64, Vec<u8>) {
    let mut verdicts = vec![0xA5; length];
    let (mut current, mut previous, mut message) = (current.to_vec(), previous.to_vec(), message.to_vec());
    let returned = Ours.check_slots(&mut current, &mut previous, &mut message, received, &mut verdicts);
    (returned, verdicts)
}

/// The verdicts on the slots that are planned. Those past them are 0, and what is returned follows from them.
fn verdicts(current: &[Planned], previous: &[Planned], told: &[Telling]) -> Vec<u8> {
    let (returned, verdicts) = called(&file(current), &file(previous), &message(told), 88, 48);
    let lowest = verdicts.iter().position(|&verdict| verdict != 0);
    assert_eq!(returned, lowest.map_or(0, |at| UNTRUE + 256 * (at as u64 + 1)));
    assert_eq!((verdicts.len(), verdicts[current.len()..].iter().max().unwrap_or(&0)), (48, &0));
    verdicts[..current.len()].to_vec()
}

/// The verdict on slot 3 after the pages A and B, which are new and told truly.
fn third(planned: Planned, told: Telling) -> u8 {
    match verdicts(&[A, B, planned], &[], &[(1, FIRST_A), (1, FIRST_B), told])[..] {
        [0, 0, verdict] => verdict,
        ref all => panic!("{all:?}"),
    }
}

/// Descriptions of one octet that are optional or reserved. // 01 Schedule message
fn optional_or_reserved() -> impl Iterator<Item = u8> {
    (0x40..=0x7F).filter(|&octet| octet != 0x41)
}

#[test]
fn the_papers_example() {
    let two = file(&[A, A]);
    let [new, old] = [0xC0, 0x00].map(|bits| {
        let mut message = vec![0x01, 0x02, bits, 0, 0, 0, 0, 0, 0x80, 0x01, 0x01];
        message.resize(88, 0x2B);
        message
    });
    let wrong = [vec![5, 5], vec![0; 46]].concat();
    assert_eq!(called(&two, &file(&[]), &new, 22, 48), (0, vec![0; 48]));
    assert_eq!(called(&two, &file(&[]), &old, 22, 48), (UNTRUE + 256, wrong.clone()));
    assert_eq!(called(&two, &two, &old, 22, 48), (0, vec![0; 48]));
    assert_eq!(called(&two, &two, &new, 22, 48), (UNTRUE + 256, wrong));
}

#[test]
fn the_lowest_slot_is_a_first_transmission_with_its_low_15_bits_or_advised() {
    let page = |identifier: u16| [2, 0x00, 0x20, (identifier >> 8) as u8, identifier as u8, 0x11];
    for identifier in [0x0000u16, 0x0001, 0x1234, 0x7FFF, 0x8000, 0x8001, 0x9234, 0xFFFF] {
        let right = (0x8000 | identifier).to_be_bytes();
        assert_eq!(third(page(identifier), (1, &right)), 0);
        for bit in 0..15 {
            let wrong = (0x8000 | identifier ^ 1 << bit).to_be_bytes();
            assert_eq!(third(page(identifier), (1, &wrong)), 1);
        }
    }
    assert_eq!(third(page(0x0003), (1, ADVISED)), 0);
    for repeat in [0x01, 0x02] {
        assert_eq!(third(page(0x0003), (1, &[repeat])), 1, "no slot below has it");
        assert_eq!(third(page(0x0001), (1, &[repeat])), 1, "nor where the low 15 bits are another page's");
    }
    for octet in optional_or_reserved() {
        assert_eq!(third(page(0x0003), (0, &[octet])), 1);
    }
}

#[test]
fn a_later_slot_is_a_repeat_of_the_lowest_or_advised_optional_or_reserved() {
    assert_eq!(third(A, (1, &[0x01])), 0);
    assert_eq!(third(B, (1, &[0x02])), 0);
    assert_eq!((third(A, (1, &[0x02])), third(B, (1, &[0x01]))), (2, 2));
    assert_eq!(third(A, (1, ADVISED)), 0);
    for octet in optional_or_reserved() {
        assert_eq!(third(A, (0, &[octet])), 0);
    }
    assert_eq!((third(A, (1, FIRST_A)), third(A, (1, FIRST_B))), (2, 2), "it isn't the lowest any more");
    let again = verdicts(&[A, A, A], &[], &[(1, FIRST_A), (1, FIRST_A), (1, &[0x02])]);
    assert_eq!(again, [0, 2, 2], "a repeat names the lowest slot, and not another with the page");
}

#[test]
fn a_later_slot_is_judged_by_the_plan() {
    assert_eq!(verdicts(&[A, A], &[], &[(1, FIRST_B), (1, &[0x01])]), [1, 0], "the lowest is told untruly");
    assert_eq!(verdicts(&[A, A], &[], &[(1, ADVISED), (1, FIRST_A)]), [0, 2], "the lowest is told as advised");
    assert_eq!(verdicts(&[A, A], &[], &[(0, OPTIONAL), (0, OPTIONAL)]), [1, 0], "the lowest is told as optional");
    assert_eq!(verdicts(&[FREE, A, A], &[], &[(1, FIRST_A), (1, &[0x01]), (1, &[0x01])]), [3, 1, 2]);
}

#[test]
fn planned_optional_is_optional_or_reserved() {
    for octet in optional_or_reserved() {
        assert_eq!(third(FREE, (0, &[octet])), 0);
    }
    for told in [ADVISED, FIRST_A, &[0xFF, 0xFF], &[0x01], &[0x02]] {
        assert_eq!((third(FREE, (0, told)), third(FREE, (1, told))), (3, 3));
    }
}

#[test]
fn planned_advised_is_advised() {
    assert_eq!(third(WATCHED, (1, ADVISED)), 0);
    for octet in optional_or_reserved() {
        assert_eq!((third(WATCHED, (0, &[octet])), third(WATCHED, (1, &[octet]))), (4, 4));
    }
    for told in [FIRST_A, &[0xFF, 0xFF], &[0x01], &[0x02]] {
        assert_eq!((third(WATCHED, (0, told)), third(WATCHED, (1, told))), (4, 4));
    }
}

#[test]
fn the_new_bit_of_each_description() {
    let page = [2, 0x00, 0x20, 0x00, 0x03, 0x11];
    assert_eq!([page, A, WATCHED].map(|planned| third(planned, (0, ADVISED))), [5, 5, 5], "1 for advised");
    for octet in optional_or_reserved() {
        assert_eq!([A, FREE].map(|planned| third(planned, (1, &[octet]))), [5, 5], "0 for optional and reserved");
    }
    assert_eq!(third(page, (0, &[0x80, 0x03])), 5, "the previous plan lacks the page of a first transmission");
    assert_eq!(third(A, (0, &[0x01])), 5, "and that of a repeat");
    for (new, told) in [(0, vec![0, 0]), (1, vec![5, 5])] {
        assert_eq!(verdicts(&[A, A], &[A], &[(new, FIRST_A), (new, &[0x01])]), told, "the previous plan has it");
        assert_eq!(verdicts(&[A, A], &[FREE, B, A], &[(new, FIRST_A), (new, &[0x01])]), told, "in any slot");
    }
    assert_eq!(verdicts(&[A, A], &[A], &[(1, ADVISED), (0, OPTIONAL)]), [0, 0], "where the page isn't looked at");
    assert_eq!(verdicts(&[A, A], &[A], &[(0, ADVISED), (1, OPTIONAL)]), [5, 5]);
    assert_eq!(verdicts(&[A, A], &[A], &[(0, FIRST_A), (1, &[0x01])]), [0, 5], "each slot has its own");
}

#[test]
fn pages_near_one_in_the_previous_plan_are_lacking() {
    for (at, octet) in [(1, 0x01), (2, 0x11), (3, 0x00), (4, 0x02), (5, 0x12)] {
        let mut near = A;
        near[at] = octet;
        assert_eq!(verdicts(&[A], &[near], &[(1, FIRST_A)]), [0]);
        assert_eq!(verdicts(&[A], &[near], &[(0, FIRST_A)]), [5]);
        let bits = [0x80 | near[3], near[4]];
        assert_eq!(verdicts(&[A, near], &[], &[(1, FIRST_A), (1, &bits)]), [0, 0]);
        assert_eq!(verdicts(&[A, near], &[], &[(1, FIRST_A), (1, &[0x01])]), [0, 1]);
    }
}

#[test]
fn the_first_rule_is_told_where_the_new_bit_fails_too() {
    let page = [2, 0x00, 0x20, 0x00, 0x03, 0x11];
    let both: [(Planned, Telling, u8); 9] = [
        (page, (0, FIRST_A), 1),
        (page, (0, &[0x01]), 1),
        (page, (1, OPTIONAL), 1),
        (page, (1, &[0x7F]), 1),
        (A, (0, FIRST_A), 2),
        (A, (0, &[0x02]), 2),
        (FREE, (0, ADVISED), 3),
        (WATCHED, (1, OPTIONAL), 4),
        (WATCHED, (1, &[0x42]), 4),
    ];
    for (planned, told, rule) in both {
        assert_eq!(third(planned, told), rule);
        let other = (1 - told.0, told.1);
        assert_eq!(third(planned, other), rule, "the new bit has no say");
    }
}

#[test]
fn every_slot_has_its_own_verdict() {
    let planned = [FREE, A, A, WATCHED, B, FREE, B, A];
    let told: [Telling; 8] = [
        (1, OPTIONAL), // 5
        (1, FIRST_B),  // 1: the bits of another page
        (0, &[0x02]),  // 5: A is new
        (0, &[0x50]),  // 4
        (1, FIRST_B),  // true
        (1, ADVISED),  // 3
        (1, &[0x02]),  // 2: B is in slot 5
        (0, &[0x44]),  // true
    ];
    assert_eq!(verdicts(&planned, &[], &told), [5, 1, 5, 4, 0, 3, 2, 0]);
    let first = called(&file(&planned), &file(&[]), &message(&told), 22, 48).0;
    assert_eq!(first, UNTRUE + 256, "the lowest slot is named, and not the lowest rule");
}

#[test]
fn verdicts_stand_in_slot_order_and_not_in_the_messages() {
    let octets = [1, 4, 0b0101_0000, 0, 0, 0, 0, 0, 0x41, 0x41, 0x40, 0x80, 0x02]; // slots 2, 4, 1, 3
    let mut message = octets.to_vec();
    message.resize(88, 0x2B);
    let expected = [vec![0, 0, 5, 3], vec![0; 44]].concat();
    assert_eq!(called(&file(&[FREE, A, B, FREE]), &file(&[]), &message, 22, 48), (UNTRUE + 3 * 256, expected));
}

#[test]
fn begin_and_spare_bits_have_no_say() {
    let mut message = message(&[(1, FIRST_A), (0, &[0x01]), FREE_TOLD]);
    let expected = called(&file(&[A, A, FREE]), &file(&[]), &message, 22, 48);
    for begin in 1..=3 {
        for spare in [0x00, 0x40, 0x80, 0xC0] {
            (message[0], message[1]) = (begin, spare | 3);
            assert_eq!(called(&file(&[A, A, FREE]), &file(&[]), &message, 22, 48), expected);
        }
    }
}

/// What fails by each rule where A is in slot 1 and B in slot 2.
fn failing(rule: u8) -> (Planned, Telling<'static>) {
    match rule {
        1 => ([2, 0x00, 0x20, 0x00, 0x03, 0x11], FREE_TOLD),
        2 => (A, (1, &[0x02])),
        3 => (FREE, WATCHED_TOLD),
        4 => (WATCHED, FREE_TOLD),
        _ => (FREE, (1, OPTIONAL)),
    }
}

#[test]
fn each_rule_at_each_slot() {
    for count in [3, 24, 48] {
        for slot in 3..=count {
            for rule in 1..=5 {
                let mut planned = vec![FREE; count];
                let mut told = vec![FREE_TOLD; count];
                (planned[0], planned[1], told[0], told[1]) = (A, B, (1, FIRST_A), (1, FIRST_B));
                (planned[slot - 1], told[slot - 1]) = failing(rule);
                let mut expected = vec![0; count];
                expected[slot - 1] = rule;
                assert_eq!(verdicts(&planned, &[], &told), expected);
            }
        }
    }
}

#[test]
fn each_rule_at_the_first_slot() {
    for (planned, told, verdict) in [
        (A, (1, FIRST_A), 0),
        (A, (1, FIRST_B), 1),
        (A, (0, OPTIONAL), 1),
        (FREE, FREE_TOLD, 0),
        (FREE, WATCHED_TOLD, 3),
        (WATCHED, WATCHED_TOLD, 0),
        (WATCHED, FREE_TOLD, 4),
        (A, (0, FIRST_A), 5),
        (FREE, (1, OPTIONAL), 5),
        (WATCHED, (0, ADVISED), 5),
    ] {
        for count in [1, 2, 48] {
            let (mut all, mut tellings) = (vec![FREE; count], vec![FREE_TOLD; count]);
            (all[0], tellings[0]) = (planned, told);
            let expected = [vec![verdict], vec![0; count - 1]].concat();
            assert_eq!(verdicts(&all, &[], &tellings), expected);
        }
    }
}

#[test]
fn two_slots_fail_by_any_two_rules() {
    for low in 1..=5 {
        for high in 1..=5 {
            let ((one, one_told), (other, other_told)) = (failing(low), failing(high));
            let other = if (low, high) == (1, 1) { [2, 0, 0x21, 0, 3, 0x11] } else { other };
            let told = [(1, FIRST_A), (1, FIRST_B), one_told, other_told];
            assert_eq!(verdicts(&[A, B, one, other], &[], &told), [0, 0, low, high]);
        }
    }
}

#[test]
fn all_of_48_slots_fail() {
    let rules: Vec<u8> = (2..48).map(|at| 1 + (at * 3 % 5) as u8).collect();
    let mut planned = vec![A, B];
    let mut told: Vec<Telling> = vec![(1, FIRST_B), (0, FIRST_B)];
    for (at, &rule) in rules.iter().enumerate() {
        let (mut entry, telling) = failing(rule);
        if rule == 1 {
            entry[1] = at as u8; // a page of its own
        }
        planned.push(entry);
        told.push(telling);
    }
    assert_eq!(verdicts(&planned, &[], &told), [vec![1, 5], rules].concat());
}

#[test]
fn a_zero_half_is_page_1_of_1() {
    let form = |parameter: u8| [2, 0x00, 0x10, 0x80, 0x01, parameter];
    let treated = |parameter: u8| if parameter >> 4 == 0 || parameter & 0x0F == 0 { 0x11 } else { parameter };
    for (one, other) in (0..=0xFF).flat_map(|one| (0..=0xFF).map(move |other| (one, other))) {
        let same = treated(one) == treated(other);
        let repeat = verdicts(&[form(one), form(other)], &[], &[(1, FIRST_A), (1, &[0x01])]);
        let firsts = verdicts(&[form(one), form(other)], &[], &[(1, FIRST_A), (1, FIRST_A)]);
        let optional = verdicts(&[form(one), form(other)], &[], &[(1, FIRST_A), (0, OPTIONAL)]);
        let old = verdicts(&[form(one)], &[form(other)], &[(0, FIRST_A)]);
        let new = verdicts(&[form(one)], &[form(other)], &[(1, FIRST_A)]);
        let all = [repeat[1], firsts[1], optional[1], old[0], new[0]];
        assert_eq!(all, if same { [0, 2, 0, 0, 5] } else { [1, 0, 1, 5, 0] }, "{one:02x} {other:02x}");
    }
}

/// What a case gives: what is returned, and the verdicts after it, lent as A5.
fn given(case: &Case) -> (u64, Vec<u8>) {
    called(&case.lists[0], &case.lists[1], &case.lists[2], case.number(0), case.number(1))
}

/// A case that is untrue in slots 2 and 3; its descriptions are 80 01 40 80 01.
fn untrue() -> Case {
    let told = message(&[(0, FIRST_A), (1, FIRST_A), (1, OPTIONAL)]);
    Case::new(Entry::CheckSlots, &[22, 48], &[&file(&[A, A, FREE]), &file(&[A]), &told], &[])
}

/// Spoils a case, which is then refused or untrue by what is returned.
type Fault = (u64, fn(&mut Case));

/// The refusals in their order, and 40 in both of its forms. // 01 Order, 02 No. 1
const FAULTS: [Fault; 21] = [
    (15, |case| case.numbers[1] = 47),
    (32, |case| case.lists[0].truncate(5)),
    (30, |case| case.lists[0][0] = 0),
    (31, |case| case.lists[0][3] = 1),
    (32, |case| case.lists[0][5] = 4),
    (36 + 256, |case| case.lists[0] = file(&[[3, 0, 0, 0, 0, 0], A, FREE])),
    (32, |case| case.lists[1].truncate(5)),
    (30, |case| case.lists[1][0] = 0),
    (31, |case| case.lists[1][3] = 1),
    (32, |case| case.lists[1].push(0)),
    (37 + 256, |case| case.lists[1][6] = 1),
    (35, |case| case.lists[0] = b"CBP\x00\x01\x00".to_vec()),
    (16, |case| case.lists[2].truncate(87)),
    (18, |case| case.numbers[0] = 21),
    (20, |case| case.lists[2][0] |= 0x40),
    (21, |case| case.lists[2][0] &= 0xC0),
    (22, |case| case.lists[2][7] |= 0x01),
    (23, |case| {
        case.lists[2][1] = 15;
        case.lists[2][9..].fill(0x80);
    }),
    (24, |case| case.lists[2][8] = 0x00),
    (UNTRUE, |case| case.lists[0] = file(&[A, A])),
    (UNTRUE + 2 * 256, |_| {}),
];

#[test]
fn refusals_in_order_leave_the_memory() {
    for (at, (expected, first)) in FAULTS.iter().enumerate() {
        for (_, later) in &FAULTS[at..] {
            let mut case = untrue();
            later(&mut case);
            first(&mut case);
            let (returned, after) = given(&case);
            assert_eq!(returned, *expected, "{}", case.text());
            if *expected == UNTRUE + 2 * 256 {
                assert_eq!(after, [vec![0, 2, 5], vec![0; 45]].concat());
            } else {
                assert_eq!(after, vec![0xA5; case.number(1)], "{}", case.text());
            }
        }
    }
}

#[test]
fn other_lengths_of_the_memory_are_refused_first() {
    for length in (0..=100).chain([256, 256 + 48, 65536 + 48]).filter(|&length| length != 48) {
        for (_, later) in &FAULTS {
            let mut case = untrue();
            later(&mut case);
            case.numbers[1] = length;
            assert_eq!(given(&case), (15, vec![0xA5; length as usize]));
        }
    }
}

#[test]
fn an_end_that_differs_leaves_the_memory() {
    for count in 1..=48 {
        for end in (1..=48).filter(|&end| end != count) {
            for (entry, telling) in [(FREE, FREE_TOLD), failing(3)] {
                let (plan, told) = (file(&vec![entry; count]), message(&vec![telling; end]));
                assert_eq!(called(&plan, &file(&[]), &told, 88, 48), (UNTRUE, vec![0xA5; 48]));
            }
        }
    }
}

#[test]
fn octets_received() {
    let told = message(&[&[(1, FIRST_A); 6][..], &[(0, FIRST_B)]].concat());
    let expected = [vec![0, 2, 2, 2, 2, 2, 2], vec![0; 41]].concat();
    for received in (0..=200).chain([256 + 22, (1 << 32) + 88, usize::MAX]) {
        let all = called(&file(&[A; 7]), &file(&[]), &told, received, 48);
        if [22, 44, 66, 88].contains(&received) {
            assert_eq!(all, (UNTRUE + 2 * 256, expected.clone()));
        } else {
            assert_eq!(all, (18, vec![0xA5; 48]));
        }
    }
    let past = message(&[(1, FIRST_A); 8]);
    assert_eq!(called(&file(&[A; 8]), &file(&[]), &past, 22, 48), (23, vec![0xA5; 48]));
    assert_eq!(called(&file(&[A; 8]), &file(&[]), &past, 44, 48).0, UNTRUE + 2 * 256);
}

/// The plans and the schedule of a case that isn't refused.
fn read(case: &Case) -> (Plan, Plan, Schedule) {
    let schedule = read_schedule(&case.lists[2], case.number(0)).unwrap();
    (read_plan(&case.lists[0]).unwrap(), read_plan(&case.lists[1]).unwrap(), schedule)
}

/// What must hold of every call beside the checker's. Gives the verdicts where there are such.
fn hold(case: &Case) -> Option<Vec<u8>> {
    let (returned, verdicts) = given(case);
    let mut lists = case.lists.clone();
    let [current, previous, message] = &mut lists[..] else { panic!("three lists") };
    let checked = Ours.check_schedule(current, previous, message, case.number(0));
    let lent = case.number(1) == 48;
    assert_eq!(returned, if lent { checked } else { 15 }, "{}", case.text());
    if returned != 0 && (returned & 0xFF != UNTRUE || returned == UNTRUE) {
        assert_eq!(verdicts, vec![0xA5; case.number(1)], "{}", case.text());
        return None;
    }
    let lowest = verdicts.iter().position(|&verdict| verdict != 0).map_or(0, |at| at as u64 + 1);
    assert_eq!((lowest, lowest != 0), (returned >> 8, returned != 0), "{}", case.text());
    for (slot, &verdict) in (1..).zip(&verdicts) {
        let kind = case.lists[0].get(6 * slot).copied();
        let fits = match verdict {
            1 | 2 => kind == Some(2),
            3 => kind == Some(0),
            4 => kind == Some(1),
            5 => kind.is_some(),
            _ => verdict == 0,
        };
        assert!(fits, "slot {slot}: {}", case.text());
    }
    Some(verdicts)
}

/// Both readings of the rules agree at every slot of a case that has verdicts.
fn agree(case: &Case) {
    let (current, previous, schedule) = read(case);
    for &told in &schedule.told {
        let failing = first_failing(&current, &previous, told);
        assert_eq!(failing.is_none(), is_true(&current, &previous, told), "slot {}: {}", told.slot, case.text());
    }
}

#[test]
fn verdicts_are_those_of_the_checker() {
    let mut random = Random::new(19);
    let (mut judged, mut counts, mut numbers) = (0, [0; 6], BTreeSet::new());
    for most in [3, 8, 48, 48].into_iter().cycle().take(60_000) {
        let case = any(Entry::CheckSlots, &mut random, most);
        numbers.insert(given(&case).0 & 0xFF);
        let Some(verdicts) = hold(&case) else { continue };
        agree(&case);
        judged += 1;
        let told = &verdicts[..case.lists[0][5] as usize];
        told.iter().for_each(|&verdict| counts[verdict as usize] += 1);
    }
    assert!(judged > 30_000, "{judged}");
    assert!(counts.iter().all(|&count| count > 5_000), "{counts:?}");
    let all = [0, 15, 16, 18, 20, 21, 22, 23, 24, 30, 31, 32, 35, 36, 37, 40];
    assert_eq!(numbers, BTreeSet::from(all));
}

/// All lists of so many of these.
fn all_of<T: Copy>(choices: &[T], count: usize) -> Vec<Vec<T>> {
    (0..count).fold(vec![vec![]], |lists, _| {
        lists.iter().flat_map(|list| choices.iter().map(|&one| [&list[..], &[one]].concat())).collect()
    })
}

#[test]
fn all_short_messages_beside_all_short_plans() {
    let (zero, low) = ([2, 0x00, 0x10, 0x80, 0x01, 0x00], [2, 0x00, 0x10, 0x00, 0x01, 0x11]); // A, and another page
    let octets: [&[u8]; 7] = [FIRST_A, FIRST_B, OPTIONAL, ADVISED, &[0x7F], &[0x01], &[0x02]];
    let tellings: Vec<Telling> = octets.iter().flat_map(|&octets| [(0, octets), (1, octets)]).collect();
    let messages: Vec<Vec<u8>> = all_of(&tellings, 3).iter().map(|told| message(told)).collect();
    let readable: Vec<&Vec<u8>> = messages.iter().filter(|message| read_schedule(message, 22).is_ok()).collect();
    for planned in all_of(&[A, zero, low, FREE, WATCHED], 3) {
        for previous in [file(&[]), file(&[zero])] {
            for &message in &readable {
                let case = Case::new(Entry::CheckSlots, &[22, 48], &[&file(&planned), &previous, message], &[]);
                assert!(hold(&case).is_some());
                agree(&case);
            }
        }
    }
    assert_eq!((messages.len(), readable.len()), (2744, 1256));
}

#[test]
fn verdicts_are_those_of_the_checkers_own_cases() {
    let mut random = Random::new(20);
    for _ in 0..20_000 {
        let case = with_verdicts(any(Entry::CheckSchedule, &mut random, 48));
        if hold(&case).is_some() {
            agree(&case);
        }
    }
}

#[test]
fn what_is_true_has_no_verdict() {
    let mut random = Random::new(21);
    for _ in 0..5_000 {
        let case = sound(Entry::CheckSlots, &mut random, 48);
        assert_eq!(given(&case), (0, vec![0; 48]), "{}", case.text());
        let written = sound(Entry::WriteSchedule, &mut random, 48);
        let (mut current, mut previous, mut out) = (written.lists[0].clone(), written.lists[1].clone(), [0; 88]);
        if Ours.write_schedule(&mut current, &mut previous, 1, &mut out) & 0xFF == 0 {
            assert_eq!(called(&current, &previous, &out, 88, 48), (0, vec![0; 48]));
        }
    }
}

/// A case with the new bit of one slot turned, if it still fits.
fn turned(case: &Case, schedule: &Schedule, slot: usize) -> Option<Case> {
    let mut told: Vec<Told> = (1..=schedule.end).filter_map(|slot| schedule.at(slot)).collect();
    told[slot - 1].new ^= true;
    let message = lay(schedule.begin, &told)?;
    Some(Case::new(Entry::CheckSlots, &[88, 48], &[&case.lists[0], &case.lists[1], &message], &[]))
}

/// The new bit alone decides between 0 and 5, and it has no say where another rule fails.
#[test]
fn a_new_bit_turned() {
    let mut random = Random::new(22);
    let mut counts = [0; 6];
    for _ in 0..6_000 {
        let case = formed(Entry::CheckSlots, &mut random, 12);
        let Some(before) = hold(&case) else { continue };
        let (_, _, schedule) = read(&case);
        for slot in 1..=schedule.end {
            let Some(turned) = turned(&case, &schedule, slot) else { continue };
            let mut expected = before.clone();
            expected[slot - 1] = match before[slot - 1] {
                0 => 5,
                5 => 0,
                rule => rule,
            };
            assert_eq!(hold(&turned), Some(expected), "slot {slot}: {}", case.text());
            counts[before[slot - 1] as usize] += 1;
        }
    }
    assert!(counts.iter().all(|&count| count > 500), "{counts:?}");
}

#[test]
fn rules_before_the_new_bit_do_not_look_at_the_previous_plan() {
    let mut random = Random::new(23);
    for _ in 0..10_000 {
        let case = formed(Entry::CheckSlots, &mut random, 48);
        let Some(verdicts) = hold(&case) else { continue };
        let alone = Case { lists: vec![case.lists[0].clone(), file(&[]), case.lists[2].clone()], ..case.clone() };
        let without = hold(&alone).expect("no plan before is refused");
        let rules = |verdicts: &[u8]| -> Vec<u8> { verdicts.iter().map(|verdict| verdict % 5).collect() };
        assert_eq!(rules(&verdicts), rules(&without), "{}", case.text());
    }
}

#[test]
fn many_invented_verdicts_turn_on_a_zero_half() {
    let mut random = Random::new(24);
    let mut apart = [0; 6];
    for most in [3, 8, 48, 48].into_iter().cycle().take(8_000) {
        let case = any(Entry::CheckSlots, &mut random, most);
        let Some(verdicts) = hold(&case) else { continue };
        let [current, previous] = files_by_octets(&case.lists[0], &case.lists[1]);
        let by_octets = Case { lists: vec![current, previous, case.lists[2].clone()], ..case.clone() };
        let other = hold(&by_octets).expect("it isn't refused either");
        let differing = verdicts.iter().zip(&other).filter(|(one, other)| one != other);
        differing.for_each(|(&one, _)| apart[one as usize] += 1);
    }
    assert!([0, 2, 5].iter().all(|&verdict| apart[verdict] > 500), "{apart:?}");
    assert_eq!([apart[1], apart[3], apart[4]], [0; 3], "the lowest slot with a page is so by its octets too");
}

#[test]
fn stored_results_have_every_verdict_in_every_place() {
    let files = files();
    let (_, lines) = files.iter().find(|(name, _)| *name == "slot_verdicts.txt").expect("it is written");
    let cases: Vec<Case> = lines.iter().map(|line| case_of(line).expect("a line tells its call")).collect();
    let (mut places, mut twice) = (BTreeSet::new(), [0; 6]);
    for case in &cases {
        let Some(verdicts) = hold(case) else { continue };
        let (current, previous, schedule) = read(case);
        for (slot, &verdict) in (1..=schedule.end).zip(&verdicts) {
            let place = [slot == 1, slot == schedule.end, slot == 48];
            places.insert((verdict, place));
            let told = schedule.at(slot).expect("it is told");
            twice[verdict as usize] += !holds(Rule::New, &current, &previous, told) as usize;
        }
    }
    for verdict in 0..=5 {
        for place in [[true, false, false], [false, false, false], [false, true, false], [false, true, true]] {
            assert!(places.contains(&(verdict, place)) || verdict == 2 && place[0], "{verdict}: {place:?}");
        }
        assert!(places.contains(&(verdict, [true, true, false])) || verdict == 2, "{verdict} in a plan of one slot");
    }
    assert!(twice[1..].iter().all(|&count| count > 4) && twice[0] == 0, "{twice:?}");
    let lent: BTreeSet<u64> = cases.iter().map(|case| case.numbers[1]).collect();
    assert!([0, 47, 48, 49].iter().all(|length| lent.contains(length)), "{lent:?}");
}

#[test]
fn nothing_given_is_changed() {
    let mut random = Random::new(25);
    for _ in 0..5_000 {
        let case = any(Entry::CheckSlots, &mut random, 8);
        let octets = run(&case, &Ours).octets;
        let mut at = 0;
        for list in &case.lists {
            assert_eq!((&octets[at..at + list.len()], &octets[at + list.len()..][..8]), (&list[..], &[0xA5; 8][..]));
            at += list.len() + 8;
        }
        assert_eq!((octets.len() - at, &octets[octets.len() - 8..]), (case.number(1) + 8, &[0xA5; 8][..]));
    }
}
