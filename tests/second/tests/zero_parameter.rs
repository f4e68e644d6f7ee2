//! Document 02's No. 2: a page parameter with 0 in either half is treated as 11, wherever pages are compared, and a
//! plan keeps the octet as sent.

use second::case::Entry;
use second::edges::pages_in;
use second::invent::formed;
use second::plan::{self, read_plan, Page, Plan};
use second::random::Random;
use second::schedule::{read_schedule, Told};
use second::side::{Ours, Side};
use second::text::{Header, CHARACTERS};
use second::zero_parameter::files_by_octets;

const NONE: &[u8] = b"CBP\x00\x01\x00"; // the plan of no slots
const UNTRUE: u64 = 40;

/// What a receiver treats a parameter as. // 002 9.3.2 (iv)
fn treated(parameter: u8) -> u8 {
    let (first_field, second_field) = (parameter & 0b0000_1111, parameter & 0b1111_0000);
    if first_field == 0b0000 || second_field == 0b0000 {
        0b0001_0001
    } else {
        parameter
    }
}

/// A plan file with a slot for each of these parameters, of serial number 0010 and identifier 8001.
fn file(parameters: &[u8]) -> Vec<u8> {
    let slots = parameters.iter().flat_map(|&parameter| [2, 0x00, 0x10, 0x80, 0x01, parameter]);
    b"CBP\x00\x01".iter().copied().chain([parameters.len() as u8]).chain(slots).collect()
}

/// A message of these octets and 2B.
fn filled(octets: &[u8]) -> Vec<u8> {
    let mut message = octets.to_vec();
    message.resize(88, 0x2B);
    message
}

/// What the writer gives: its number, its used octets and the message.
fn written(current: &[u8], previous: &[u8]) -> (u64, u64, Vec<u8>) {
    let mut out = vec![0xA5; 88];
    let returned = Ours.write_schedule(&mut current.to_vec(), &mut previous.to_vec(), 1, &mut out);
    (returned & 0xFF, returned >> 8, out)
}

/// What the checker gives: its number and its slot.
fn checked(current: &[u8], previous: &[u8], message: &[u8]) -> (u64, u64) {
    let returned = Ours.check_schedule(&mut current.to_vec(), &mut previous.to_vec(), &mut message.to_vec(), 88);
    (returned & 0xFF, returned >> 8)
}

/// All parameters beside all.
fn all_pairs() -> impl Iterator<Item = (u8, u8)> {
    (0..=0xFF).flat_map(|one| (0..=0xFF).map(move |other| (one, other)))
}

#[test]
fn the_papers_example() {
    let (two, reverse) = (file(&[0x00, 0x11]), file(&[0x11, 0x00]));
    let message = filled(&[0x01, 0x02, 0xC0, 0, 0, 0, 0, 0, 0x80, 0x01, 0x01]);
    let before = filled(&[0x01, 0x02, 0x00, 0, 0, 0, 0, 0, 0x80, 0x01, 0x01]);
    assert_eq!(two, b"CBP\x00\x01\x02\x02\x00\x10\x80\x01\x00\x02\x00\x10\x80\x01\x11");
    for current in [&two, &reverse] {
        assert_eq!(written(current, NONE), (0, 11, message.clone()));
        assert_eq!((checked(current, NONE, &message), checked(current, NONE, &before)), ((0, 0), (UNTRUE, 1)));
        for previous in [file(&[0x00]), file(&[0x11]), two.clone(), reverse.clone()] {
            assert_eq!(written(current, &previous), (0, 11, before.clone()));
            assert_eq!(checked(current, &previous, &before), (0, 0));
            assert_eq!(checked(current, &previous, &message), (UNTRUE, 1));
        }
    }
}

#[test]
fn all_parameters_beside_all() {
    let repeat = filled(&[0x01, 0x02, 0xC0, 0, 0, 0, 0, 0, 0x80, 0x01, 0x01]);
    let firsts = filled(&[0x01, 0x02, 0xC0, 0, 0, 0, 0, 0, 0x80, 0x01, 0x80, 0x01]);
    let mut one_page = 0;
    for (one, other) in all_pairs() {
        let current = file(&[one, other]);
        let same = treated(one) == treated(other);
        let (used, right, wrong) = if same { (11, &repeat, &firsts) } else { (12, &firsts, &repeat) };
        assert_eq!(written(&current, NONE), (0, used, right.clone()), "{one:02x} {other:02x}");
        assert_eq!(checked(&current, NONE, right), (0, 0));
        assert_eq!(checked(&current, NONE, wrong), (UNTRUE, 2));
        one_page += same as u32;
    }
    assert_eq!(one_page, 32 * 32 + (256 - 32), "32 parameters are 11, and the others themselves");
}

#[test]
fn all_parameters_beside_all_before() {
    let new = filled(&[0x01, 0x01, 0x80, 0, 0, 0, 0, 0, 0x80, 0x01]);
    let old = filled(&[0x01, 0x01, 0x00, 0, 0, 0, 0, 0, 0x80, 0x01]);
    for (one, other) in all_pairs() {
        let (current, previous) = (file(&[one]), file(&[other]));
        let (right, wrong) = if treated(one) == treated(other) { (&old, &new) } else { (&new, &old) };
        assert_eq!(written(&current, &previous), (0, 10, right.clone()), "{one:02x} {other:02x}");
        assert_eq!(checked(&current, &previous, right), (0, 0));
        assert_eq!(checked(&current, &previous, wrong), (UNTRUE, 1));
    }
}

#[test]
fn serial_number_and_identifier_still_count() {
    let firsts = |low: u8| filled(&[0x01, 0x02, 0xC0, 0, 0, 0, 0, 0, 0x80, 0x01, 0x80, low]);
    for (one, other) in all_pairs().step_by(17) {
        for (at, octet) in [(13, 0x01), (14, 0x11), (15, 0x00), (16, 0x02)] {
            let mut current = file(&[one, other]);
            current[at] = octet;
            let low = if at == 16 { 0x02 } else { 0x01 };
            assert_eq!(written(&current, NONE), (0, 12, firsts(low)));
        }
    }
}

#[test]
fn sameness_is_an_equality() {
    let page = |parameter: u8| Page { serial: 0x0010, identifier: 0x8001, parameter };
    let same: Vec<Vec<bool>> =
        (0..=0xFF).map(|one| (0..=0xFF).map(|other| page(one).is_same(page(other))).collect()).collect();
    for one in 0..256 {
        assert!(same[one][one]);
        for other in 0..256 {
            assert_eq!(same[one][other], same[other][one]);
            assert!(!same[one][other] || same[one] == same[other], "what is the same as one is the same as the other");
        }
    }
}

#[test]
fn a_plan_keeps_the_octets_as_sent() {
    let all: Vec<u8> = (0..=0xFF).collect();
    for parameters in all.chunks(48) {
        let plan = read_plan(&file(parameters)).unwrap();
        assert_eq!(plan.file(), file(parameters));
        let kept: Vec<u8> = plan.entries.iter().map(|entry| entry.page().unwrap().parameter).collect();
        assert_eq!(kept, parameters);
    }
    let mut random = Random::new(15);
    for _ in 0..5_000 {
        let case = formed(Entry::ReadPlan, &mut random, 48);
        assert_eq!(read_plan(&case.lists[0]).unwrap().file(), case.lists[0]);
    }
}

/// Writes "A" with a parameter: the number and the page.
fn text_written(parameter: u8) -> (u64, Vec<u8>) {
    let header = Header { serial: 0x0010, identifier: 0x8001, scheme: 0, parameter };
    let mut page = vec![0xA5; 88];
    let returned = Ours.write_text(header, &mut [0x41], &mut page);
    (returned & 0xFF, page)
}

#[test]
fn the_text_writer_refuses_a_zero_half() {
    for parameter in 0..=0xFF {
        let (number, page) = text_written(parameter);
        if treated(parameter) != parameter {
            assert_eq!((number, page), (14, vec![0xA5; 88]), "{parameter:02x}");
        } else {
            assert_eq!(number, if parameter >> 4 > parameter & 0x0F { 14 } else { 0 }, "{parameter:02x}");
        }
    }
    assert_eq!((0..=0xFF).filter(|&parameter| treated(parameter) != parameter).count(), 31);
}

#[test]
fn the_text_reader_and_the_header_take_any_parameter() {
    let (_, mut page) = text_written(0x11);
    let mut expected = [0x20; CHARACTERS]; // 02 No. 6
    expected[0] = 0x41;
    for parameter in 0..=0xFF {
        page[5] = parameter;
        for received in [22, 44, 66, 88] {
            let mut text = [0xA5A5; CHARACTERS];
            assert_eq!(Ours.read_text(&mut page.clone(), received, &mut text), 256);
            assert_eq!(text, expected);
        }
        assert_eq!(Ours.read_header(&mut page.clone()), (parameter as u64) << 48 | 0x8001_0010_0000);
    }
}

/// This many different pages with parameter 11, and the last of them with another in the slots that are left.
fn filling(pages: usize, slots: usize, parameter: u8) -> Vec<u8> {
    let mut plan: Plan = pages_in(pages, slots);
    for entry in &mut plan.entries[pages..] {
        let plan::Entry::Page(page) = entry else { continue };
        page.parameter = parameter;
    }
    plan.file()
}

#[test]
fn one_page_the_less_can_fit() {
    for parameter in 0..=0xFF {
        let same = treated(parameter) == 0x11;
        for (pages, slots) in [(32, 48), (39, 41), (38, 42)] {
            let (number, used, message) = written(&filling(pages, slots, parameter), NONE);
            assert_eq!((number, used), if same { (0, 88) } else { (34, 0) }, "{parameter:02x}");
            assert!(same || message == [0xA5; 88]);
        }
        for (pages, slots) in [(33, 48), (40, 41)] {
            assert_eq!(written(&filling(pages, slots, parameter), NONE).0, 34);
        }
    }
}

#[test]
fn the_lowest_slot_has_any_of_the_forms() {
    let halves: Vec<u8> = (0..=0xFF).filter(|&parameter| treated(parameter) == 0x11).collect();
    for turn in 0..halves.len() {
        let mut parameters = halves.clone();
        parameters.rotate_left(turn);
        parameters.insert(0, 0x21);
        parameters.insert(7, 0x12);
        let head = [0x01, 34, 0xFF, 0xFF, 0xFF, 0xFF, 0xC0, 0x00];
        let mut message = [&head[..], &[0x80, 0x01, 0x80, 0x01], &[0x02; 32]].concat();
        message.splice(8 + 2 + 2 + 5..8 + 2 + 2 + 6, [0x80, 0x01]);
        assert_eq!(written(&file(&parameters), NONE), (0, message.len() as u64, filled(&message)));
    }
}

/// What a message tells, in slot order.
fn told(message: &[u8]) -> Vec<Told> {
    let mut told = read_schedule(message, 88).unwrap().told;
    told.sort_by_key(|told| told.slot);
    told
}

#[test]
fn what_is_written_is_accepted_and_what_the_octets_tell_is_not() {
    let mut random = Random::new(16);
    let (mut accepted, mut refused) = (0, 0);
    for _ in 0..10_000 {
        let case = formed(Entry::WriteSchedule, &mut random, 48);
        let (current, previous) = (&case.lists[0], &case.lists[1]);
        let (number, _, message) = written(current, previous);
        if number != 0 {
            continue;
        }
        assert_eq!(checked(current, previous, &message), (0, 0));
        accepted += 1;
        let [by_octets, by_octets_before] = files_by_octets(current, previous);
        let (number, _, other) = written(&by_octets, &by_octets_before);
        if number == 0 && other != message {
            let mut both = told(&message).into_iter().zip(told(&other));
            let lowest = both.find(|(one, other)| one != other).unwrap().0.slot;
            assert_eq!(checked(current, previous, &other), (UNTRUE, lowest as u64));
            assert_eq!(checked(&by_octets, &by_octets_before, &other), (0, 0));
            refused += 1;
        }
    }
    assert!(accepted > 4_000 && refused > 2_000, "{accepted} {refused}");
}
