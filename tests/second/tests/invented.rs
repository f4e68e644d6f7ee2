//! The invented cases: faults are refused in their order, stored results cover every number, and the comparison
//! finds a wrong side and makes its case small.

use std::collections::BTreeSet;
use std::time::Duration;

use second::case::{octets, Case, Entry, ENTRIES};
use second::checker::{holds, RULES};
use second::collector::{is_proper, place_of, COLLECTOR};
use second::compare::{compare, differ};
use second::invent::{any, faults, paired, put, sound};
use second::plan::read_plan;
use second::random::Random;
use second::refusal::number_of;
use second::schedule::{read_schedule, SLOTS};
use second::shrink::shrink;
use second::side::{run, Ours, Side, GUARD, LENT_SLOT};
use second::stored::{case_of, files, row};
use second::text::Header;
use second::zero_parameter::files_by_octets;

fn number(case: &Case) -> u8 {
    run(case, &Ours).returned[0] as u8
}

/// Invents a case that isn't refused, with so many slots at most.
type Invent = fn(Entry, &mut Random, usize) -> Case;

/// Each entry with what invents its cases; those of text twice, the second time with the extension table.
fn inventing() -> Vec<(Entry, Invent)> {
    let all = ENTRIES.into_iter().map(|entry| (entry, sound as Invent));
    all.chain([Entry::WriteText, Entry::ReadText].map(|entry| (entry, paired as Invent))).collect()
}

#[test]
fn sound_cases_are_not_refused() {
    let mut random = Random::new(1);
    for (entry, invent) in inventing() {
        for _ in 0..500 {
            let case = invent(entry, &mut random, 48);
            let given = number(&case);
            let fine = match entry {
                Entry::Enter => read_schedule(&case.lists[0], case.number(1)).is_ok(),
                Entry::Intake => [0, 1, 7].contains(&given),
                Entry::Collect => [0, 1].contains(&given),
                Entry::WriteSchedule => [0, 34].contains(&given),
                _ => given == 0,
            };
            assert!(fine, "{given}: {}", case.text());
        }
    }
}

#[test]
fn the_first_fault_refuses() {
    let mut random = Random::new(2);
    for (entry, invent) in inventing() {
        let all = faults(entry);
        for (at, &(expected, first)) in all.iter().enumerate() {
            let pairs = all[at + 1..].iter().map(|&(_, later)| vec![first, later]);
            for set in pairs.chain([vec![first]]) {
                for _ in 0..20 {
                    let mut case = invent(entry, &mut random, 6);
                    put(&mut case, &set, &mut random);
                    let given = if entry == Entry::Enter { entering(&case) } else { number(&case) };
                    assert_eq!(given, expected, "{set:?}: {}", case.text());
                }
            }
        }
    }
}

/// The number for which nothing is entered under a first's slot: the schedule's refusal, or 0 for a slot outside.
fn entering(case: &Case) -> u8 {
    let (slot, held, after) = (case.number(2), case.numbers[3], run(case, &Ours).returned[0]);
    if !(1..=SLOTS).contains(&slot) {
        assert_eq!(after, held);
        return 0;
    }
    assert_eq!(after, held | 1 << (slot - 1));
    number_of(&read_schedule(&case.lists[0], case.number(1)))
}

#[test]
fn stored_results_cover_every_number() {
    let files = files();
    let numbers = |letter: &str, at: usize| -> BTreeSet<u8> {
        let lines = files.iter().flat_map(|(_, lines)| lines).filter(|line| line.starts_with(letter));
        lines.map(|line| u8::from_str_radix(line.split(' ').nth(at).unwrap(), 16).unwrap()).collect()
    };
    let plan = [0, 30, 31, 32, 36, 37];
    let reader = [0, 16, 18, 20, 21, 22, 23, 24];
    assert_eq!(numbers("B ", 5), BTreeSet::from([0, 15, 16, 17]));
    assert_eq!(numbers("N ", 2), BTreeSet::from([0, 8]));
    assert_eq!(numbers("I ", 4), BTreeSet::from([0, 1, 2, 3, 4, 5, 6, 7, 8, 15]));
    assert_eq!(numbers("T ", 7), BTreeSet::from([0, 10, 11, 12, 13, 14, 15]));
    assert_eq!(numbers("R ", 4), BTreeSet::from([0, 13, 15, 16, 18]));
    assert_eq!(numbers("C ", 3), BTreeSet::from([0, 16, 18]));
    assert_eq!(numbers("S ", 3), BTreeSet::from(reader));
    assert_eq!(numbers("G ", 4), BTreeSet::from(reader));
    assert_eq!(numbers("P ", 2), BTreeSet::from(plan));
    assert_eq!(numbers("W ", 5), plan.into_iter().chain([15, 21, 34, 35]).collect());
    assert_eq!(numbers("K ", 5), plan.into_iter().chain(reader).chain([35, 40]).collect());
    assert_eq!(numbers("D ", 7), BTreeSet::from([0, 41, 42]));
    assert_eq!(numbers("L ", 4), reader.into_iter().chain([15]).collect());
    assert_eq!(numbers("H ", 2), BTreeSet::from([0, 16]));
    assert_eq!(numbers("J ", 2), BTreeSet::from([0, 8]));
    assert_eq!(numbers("M ", 5), BTreeSet::from([0, 1, 8, 15, 16, 18, 50]));
    assert_eq!(numbers("U ", 6), plan.into_iter().chain(reader).chain([15, 35, 40]).collect());
}

/// The pages that stored lines of a letter hand out; `first` is the field of the first number, and each call of a line
/// has `each` fields.
fn handed_out(files: &[(&str, Vec<String>)], letter: &str, first: usize, each: usize) -> BTreeSet<String> {
    let lines = files.iter().flat_map(|(_, lines)| lines).filter(|line| line.starts_with(letter));
    let fields: Vec<Vec<&str>> = lines.map(|line| line.split(' ').skip(first).collect()).collect();
    let calls = fields.iter().flat_map(|fields| fields.chunks(each)).filter(|call| call.len() > 1 && call[0] == "0");
    calls.map(|call| call[1].to_string()).collect()
}

#[test]
fn stored_results_hand_out_messages_of_every_total() {
    let files = files();
    let all: BTreeSet<String> = (1..=15).map(|total| format!("{total:x}")).collect();
    assert_eq!(handed_out(&files, "M ", 5, 4), all);
    assert!(["1", "2", "3", "f"].iter().all(|&total| handed_out(&files, "O ", 3, 5).contains(total)));
    let (_, lines) = files.iter().find(|(name, _)| *name == "collector.txt").expect("it is written");
    assert!(lines.iter().map(|line| line.len() + 1).sum::<usize>() <= 240_000);
    assert!(lines.iter().filter_map(|line| row(line)).any(|pages| pages.len() > 30));
}

/// The entries that stored lines of a letter name with 36 and with 37; `at` is the field of the number, the next is the
/// entry's.
fn named(files: &[(&str, Vec<String>)], letter: &str, at: usize) -> [BTreeSet<u64>; 2] {
    let lines = files.iter().flat_map(|(_, lines)| lines).filter(|line| line.starts_with(letter));
    let fields: Vec<Vec<&str>> = lines.map(|line| line.split(' ').collect()).collect();
    let value = |field: &str| u64::from_str_radix(field, 16).unwrap();
    [36, 37].map(|number| {
        let with_number = fields.iter().filter(|fields| value(fields[at]) == number);
        with_number.map(|fields| value(fields[at + 1])).collect()
    })
}

#[test]
fn stored_results_name_entries_from_the_first_to_the_last() {
    let files = files();
    let [kinds, strays] = named(&files, "P ", 2);
    assert!((1..=48).all(|entry| kinds.contains(&entry) || strays.contains(&entry)));
    for (letter, at) in [("P ", 2), ("W ", 5), ("K ", 5), ("U ", 6)] {
        for entries in named(&files, letter, at) {
            assert!([1, 2, 3, 24, 48].iter().all(|entry| entries.contains(entry)), "{letter}: {entries:?}");
            assert!(entries.iter().all(|entry| (1..=48).contains(entry)), "{letter}: {entries:?}");
        }
    }
}

/// A stored line of entering: whether the schedule is known, its number, the slot, and the slot that is entered.
fn entered(line: &str) -> (bool, u8, u64, Option<u64>) {
    let fields: Vec<&str> = line.split(' ').collect();
    let number = |at: usize| u64::from_str_radix(fields[at], 16).unwrap();
    let message = octets(fields[2].trim_matches('-')).unwrap();
    let refusal = number_of(&read_schedule(&message, number(3) as usize));
    let (held, after) = (number(5), number(6));
    let under = (after != held).then(|| u64::from((after ^ held).trailing_zeros()) + 1);
    (number(1) == 1, refusal, number(4), under)
}

#[test]
fn stored_results_enter_in_every_way() {
    let files = files();
    let lines = files.iter().flat_map(|(_, lines)| lines).filter(|line| line.starts_with("E "));
    let all: Vec<_> = lines.map(|line| entered(line)).collect();
    for refusal in [0, 16, 18, 20, 21, 22, 23, 24] {
        let itself =
            all.iter().filter(|&&(known, number, slot, under)| known && number == refusal && under == Some(slot));
        assert!(itself.count() > 1, "{refusal}");
    }
    assert!(
        all.iter().filter(|&&(known, _, slot, under)| known && under.is_some_and(|under| under < slot)).count() > 20
    );
    assert!(all.iter().filter(|&&(known, _, slot, under)| !known && under == Some(slot)).count() > 10);
    assert!(all
        .iter()
        .all(|&(known, number, slot, under)| known && number == 0 || under.is_none_or(|under| under == slot)));
    assert!(all.iter().filter(|&&(_, _, slot, _)| !(1..=48).contains(&slot)).count() > 20);
}

#[test]
fn stored_results_are_the_same_each_time_and_small() {
    let (one, other) = (files(), files());
    assert_eq!(one, other);
    for (name, lines) in one {
        let octets: usize = lines.iter().map(|line| line.len() + 1).sum();
        assert!(octets <= 262_144, "{name}: {octets}"); // what trial reads of a file
    }
}

#[test]
fn a_case_is_read_back_from_its_text() {
    let mut random = Random::new(3);
    for entry in ENTRIES {
        let case = sound(entry, &mut random, 48);
        assert_eq!(Case::parse(&case.text()), Some(case));
    }
    assert_eq!(Case::parse("cb_content n:16 w:"), None);
}

/// This implementation, but for a decision that compares 16 bits, a reader of text and one of slots that touch memory
/// with a refusal, a repeat entered under its own slot, a serial number taken for an identifier, entries of a plan
/// counted from 0, pages compared by the octet as sent, a collector in which the later copy of a page stays, and verdicts
/// that tell the last rule that fails.
struct Wrong;

impl Side for Wrong {
    fn start(&self, state: &mut [u8]) -> u64 {
        Ours.start(state)
    }
    fn intake(&self, state: &mut [u8], piece: &mut [u8], output: &mut [u8]) -> u64 {
        Ours.intake(state, piece, output)
    }
    fn write_blocks(&self, message: &mut [u8], schedule: bool, used: usize, out: &mut [u8]) -> u64 {
        Ours.write_blocks(message, schedule, used, out)
    }
    fn write_text(&self, header: Header, text: &mut [u16], page: &mut [u8]) -> u64 {
        Ours.write_text(header, text, page)
    }
    fn read_text(&self, page: &mut [u8], received: usize, text: &mut [u16]) -> u64 {
        let returned = Ours.read_text(page, received, text);
        if returned == 13 {
            text[92] = 0;
        }
        returned
    }
    fn content(&self, page: &mut [u8], received: usize) -> u64 {
        Ours.content(page, received)
    }
    fn read_schedule(&self, message: &mut [u8], received: usize) -> u64 {
        Ours.read_schedule(message, received)
    }
    fn description(&self, message: &mut [u8], received: usize, place: usize) -> u64 {
        Ours.description(message, received, place)
    }
    fn read_plan(&self, file: &mut [u8]) -> u64 {
        let returned = Ours.read_plan(file);
        if [36, 37].contains(&(returned & 0xFF)) {
            returned - 256
        } else {
            returned
        }
    }
    fn write_schedule(&self, current: &mut [u8], previous: &mut [u8], begin: usize, out: &mut [u8]) -> u64 {
        let [mut current, mut previous] = files_by_octets(current, previous);
        Ours.write_schedule(&mut current, &mut previous, begin, out)
    }
    fn check_schedule(&self, current: &mut [u8], previous: &mut [u8], message: &mut [u8], received: usize) -> u64 {
        let [mut current, mut previous] = files_by_octets(current, previous);
        Ours.check_schedule(&mut current, &mut previous, message, received)
    }
    fn decide(
        &self,
        known: bool,
        message: &mut [u8],
        received: usize,
        slot: usize,
        wanted: &mut [u16],
        held: u64,
    ) -> u64 {
        let mut high: Vec<u16> = wanted.iter().copied().filter(|identifier| identifier >> 15 == 0).collect();
        Ours.decide(known, message, received, slot, if wanted.len() > 64 { wanted } else { &mut high }, held)
    }
    fn enter(&self, _: bool, message: &mut [u8], received: usize, slot: usize, held: u64) -> u64 {
        Ours.enter(false, message, received, slot, held)
    }
    fn slots(&self, message: &mut [u8], received: usize, slots: &mut [u32]) -> u64 {
        let returned = Ours.slots(message, received, slots);
        if returned == 24 {
            slots[47] = 0;
        }
        returned
    }
    fn read_header(&self, page: &mut [u8]) -> u64 {
        let returned = Ours.read_header(page);
        let (serial, identifier) = (returned >> 16 & 0xFFFF, returned >> 32 & 0xFFFF);
        returned & !0xFFFF_FFFF_0000 | serial << 32 | identifier << 16
    }
    fn start_collector(&self, collector: &mut [u8]) -> u64 {
        Ours.start_collector(collector)
    }
    fn collect(&self, collector: &mut [u8], page: &mut [u8], received: usize, output: &mut [u8]) -> u64 {
        let before = collector.to_vec();
        let returned = Ours.collect(collector, page, received, output);
        if returned == 1 && before == collector {
            let at = place_of((page[5] >> 4) as usize);
            collector[at] = received as u8;
            collector[at + 1..at + 89].copy_from_slice(page);
        }
        returned
    }
    fn check_slots(
        &self,
        current: &mut [u8],
        previous: &mut [u8],
        message: &mut [u8],
        received: usize,
        verdicts: &mut [u8],
    ) -> u64 {
        let returned = Ours.check_slots(current, previous, message, received, verdicts);
        if returned & 0xFF == 40 && returned > 256 {
            let (current, previous) = (read_plan(current).unwrap(), read_plan(previous).unwrap());
            for told in read_schedule(message, received).unwrap().told {
                let last = RULES.into_iter().rev().find(|&rule| !holds(rule, &current, &previous, told));
                verdicts[told.slot - 1] = last.map_or(0, |rule| rule as u8);
            }
        }
        returned
    }
}

#[test]
fn a_wrong_decision_is_found_and_made_small() {
    let compared = compare(&[Entry::Decide], 4, Duration::from_secs(20), &Ours, &Wrong);
    let case = compared.difference.expect("a difference");
    assert!(differ(&case, &Ours, &Wrong));
    assert_eq!(case.words.len(), 1);
    assert_eq!(case.numbers[2], 1);
}

#[test]
fn memory_touched_on_a_refusal_is_found() {
    let compared = compare(&[Entry::ReadText], 5, Duration::from_secs(20), &Ours, &Wrong);
    let case = compared.difference.expect("a difference");
    assert_eq!(number(&case), 13);
    let compared = compare(&[Entry::Slots], 5, Duration::from_secs(20), &Ours, &Wrong);
    let case = compared.difference.expect("a difference");
    assert_eq!((number(&case), case.numbers[1], case.lists[0][1]), (24, 48, 1));
}

#[test]
fn a_page_entered_under_its_repeat_is_found() {
    let compared = compare(&[Entry::Enter], 6, Duration::from_secs(20), &Ours, &Wrong);
    let case = compared.difference.expect("a difference");
    assert_eq!((case.numbers[0], case.numbers[3]), (1, 0));
    assert_eq!(case.numbers[2], case.lists[0][1] as u64, "no slot is told past the one got");
}

#[test]
fn numbers_in_each_others_place_are_found() {
    let compared = compare(&[Entry::ReadHeader], 7, Duration::from_secs(20), &Ours, &Wrong);
    let case = compared.difference.expect("a difference");
    assert_eq!(case.lists[0].iter().filter(|&&octet| octet != 0).count(), 1);
}

#[test]
fn an_entry_counted_from_0_is_found() {
    let compared = compare(&[Entry::ReadPlan], 9, Duration::from_secs(20), &Ours, &Wrong);
    let case = compared.difference.expect("a difference");
    assert_eq!((run(&case, &Ours).returned[0] >> 8, case.lists[0].len()), (1, 12), "nothing but the bad entry is left");
}

#[test]
fn a_later_copy_that_stays_is_found() {
    let compared = compare(&[Entry::Collect], 17, Duration::from_secs(20), &Ours, &Wrong);
    let case = compared.difference.expect("a difference");
    assert_eq!(case.calls(), 1, "{}", case.text());
    assert!((1..=15).filter(|&number| case.lists[0][place_of(number)] != 0).count() == 1, "{}", case.text());
}

#[test]
fn a_later_rule_told_is_found() {
    let compared = compare(&[Entry::CheckSlots], 26, Duration::from_secs(20), &Ours, &Wrong);
    let case = compared.difference.expect("a difference");
    let (current, message) = (&case.lists[0], &case.lists[2]);
    assert_eq!((current.len(), message[1], run(&case, &Ours).returned[0]), (12, 1, 40 + 256), "{}", case.text());
}

#[test]
fn invented_collectors_are_proper_and_improper() {
    let mut random = Random::new(18);
    let (mut all, mut first, mut calls) = (0, [0; 51], 0);
    for _ in 0..20_000 {
        let case = any(Entry::Collect, &mut random, 48);
        let lent = case.numbers[1] == COLLECTOR as u64 && case.lists[0].len() >= COLLECTOR;
        let improper = lent && case.numbers[0] == 1 && !is_proper(&case.lists[0][..COLLECTOR]);
        all += improper as usize;
        let outcome = run(&case, &Ours);
        assert!(!improper || outcome.returned[0] == 8);
        outcome.returned.iter().for_each(|returned| first[(returned & 0xFF) as usize] += 1);
        calls += outcome.returned.len();
    }
    assert!(all > 1_000, "{all} improper");
    for number in [0, 1, 8, 15, 16, 18, 50] {
        assert!(first[number] > 500, "{number}: {} of {calls}", first[number]);
    }
}

#[test]
fn pages_compared_by_the_octet_as_sent_are_found() {
    for entry in [Entry::WriteSchedule, Entry::CheckSchedule] {
        let compared = compare(&[entry], 10, Duration::from_secs(20), &Ours, &Wrong);
        let case = compared.difference.expect("a difference");
        assert_eq!(case.lists[0].len() + case.lists[1].len(), 24, "nothing but two slots is left: {}", case.text());
    }
}

/// The numbers that this implementation and the wrong one give, where they answer differently.
fn apart(case: &Case) -> Option<[u8; 2]> {
    let numbers = [run(case, &Ours), run(case, &Wrong)].map(|outcome| outcome.returned[0] as u8);
    differ(case, &Ours, &Wrong).then_some(numbers)
}

#[test]
fn many_invented_cases_turn_on_a_zero_half() {
    let mut random = Random::new(14);
    let mut apart_of = |entry: Entry| -> Vec<[u8; 2]> {
        let most = [3, 8, 48, 48].into_iter().cycle();
        most.take(8_000).filter_map(|most| apart(&any(entry, &mut random, most))).collect()
    };
    let count = |all: &[[u8; 2]], numbers: [u8; 2]| all.iter().filter(|&&apart| apart == numbers).count();
    let written = apart_of(Entry::WriteSchedule);
    assert!(count(&written, [0, 0]) > 1_000, "other messages: {}", count(&written, [0, 0]));
    assert!(count(&written, [0, 34]) > 40, "fits: {}", count(&written, [0, 34]));
    let checked = apart_of(Entry::CheckSchedule);
    for (numbers, least) in [([0, 40], 400), ([40, 0], 400), ([40, 40], 100)] {
        assert!(count(&checked, numbers) > least, "{numbers:?}: {}", count(&checked, numbers));
    }
}

#[test]
fn many_stored_results_turn_on_a_zero_half() {
    let files = files();
    for (letter, least) in [("W ", 150), ("K ", 80)] {
        let lines = files.iter().flat_map(|(_, lines)| lines).filter(|line| line.starts_with(letter));
        let count = lines.filter_map(|line| apart(&case_of(line)?)).count();
        assert!(count > least, "{letter}: {count}");
    }
}

#[test]
fn the_memory_behind_is_watched() {
    let mut random = Random::new(8);
    for length in [0, 47, 48, 49] {
        let mut case = sound(Entry::Slots, &mut random, 48);
        case.numbers[1] = length;
        let slots = run(&case, &Ours).slots;
        assert_eq!(slots.len(), length as usize + GUARD);
        assert_eq!(slots[length as usize..], [LENT_SLOT; GUARD]);
    }
}

#[test]
fn shrinking_ends_where_nothing_smaller_stays() {
    let case = Case::new(Entry::ReadPlan, &[], &[&[7; 100]], &[]);
    let least = shrink(&case, |case| case.lists[0].len() > 40);
    assert_eq!(least.lists[0], vec![0; 41]);
}
