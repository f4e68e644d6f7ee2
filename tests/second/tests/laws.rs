//! What must hold across subjects, tried on many random cases.

use second::blocks::{write_blocks, Kind};
use second::case::Entry;
use second::checker::{check_schedule, Finding};
use second::decision::{decide, enter};
use second::intake::{intake, start, Answer, STATE};
use second::invent::sound;
use second::plan::{self, read_plan, Page, Plan};
use second::random::Random;
use second::schedule::{description_at, read_schedule, write_slots, Description, SLOTS};
use second::sender::write_schedule;
use second::side::header;
use second::text::{read_header, write_text};

const TIMES: usize = 2000;

/// The last answer to the blocks of a message up to the last used one, and what it hands out.
fn over_the_air(message: &[u8], kind: Kind, used: usize) -> (Answer, [u8; 88]) {
    let (mut blocks, mut state, mut output) = ([0; 92], [0; STATE], [0; 88]);
    write_blocks(message, kind, used, &mut blocks).unwrap();
    start(&mut state).unwrap();
    let last = used.div_ceil(22);
    for block in blocks.chunks(23).take(last - 1) {
        assert_eq!(intake(&mut state, block, &mut output), Ok(Answer::Taken));
    }
    let answer = intake(&mut state, &blocks[23 * (last - 1)..23 * last], &mut output);
    (answer.unwrap(), output)
}

#[test]
fn the_used_blocks_are_handed_out() {
    let mut random = Random::new(6);
    for _ in 0..TIMES {
        let (message, used) = (random.octets(88), random.within(1, 88));
        let received = 22 * used.div_ceil(22);
        let (answer, output) = over_the_air(&message, Kind::Page, used);
        assert_eq!(answer, Answer::Page(received));
        assert_eq!(output[..received], message[..received]);
        assert!(output[received..].iter().all(|&octet| octet == 0x2B));
    }
}

/// The two plans of a writer's case.
fn plans(random: &mut Random) -> (Plan, Plan) {
    let case = sound(Entry::WriteSchedule, random, 48);
    (read_plan(&case.lists[0]).unwrap(), read_plan(&case.lists[1]).unwrap())
}

#[test]
fn what_is_written_is_accepted() {
    let mut random = Random::new(7);
    for _ in 0..TIMES {
        let (current, previous) = plans(&mut random);
        let mut message = [0; 88];
        let Ok(used) = write_schedule(Ok(current.clone()), Ok(previous.clone()), 1, &mut message) else {
            continue;
        };
        let (answer, taken) = over_the_air(&message, Kind::Schedule, used);
        let Answer::Schedule(received) = answer else { panic!("a schedule is complete as one") };
        for (message, received) in [(message, 88), (message, received), (taken, received)] {
            let found = check_schedule(Ok(current.clone()), Ok(previous.clone()), &message, received);
            assert_eq!(found, Ok(Finding::True));
        }
    }
}

/// Identifiers of which some are planned.
fn some_wanted(random: &mut Random, current: &Plan) -> Vec<u16> {
    let planned = current.entries.iter().filter_map(|entry| Some(entry.page()?.identifier));
    planned.filter(|_| random.once_in(6)).collect()
}

#[test]
fn the_board_wakes_for_what_is_wanted() {
    let mut random = Random::new(8);
    for _ in 0..TIMES {
        let case = sound(Entry::CheckSchedule, &mut random, 48);
        let current = read_plan(&case.lists[0]).unwrap();
        let schedule = read_schedule(&case.lists[2], case.number(0)).unwrap();
        let wanted = some_wanted(&mut random, &current);
        let any = random.next();
        let (mut held, mut got) = (0, Vec::new());
        for (at, &entry) in current.entries.iter().enumerate() {
            let slot = at + 1;
            let plan::Entry::Page(page) = entry else { continue };
            let is_wanted = wanted.contains(&page.identifier);
            if is_wanted && current.lowest(page) == Some(slot) {
                assert_eq!(decide(Some(schedule.clone()), slot, &wanted, any), Ok(true));
            }
            if decide(Some(schedule.clone()), slot, &wanted, held) == Ok(true) {
                held = enter(Some(&schedule), slot, held);
                got.push(page);
            }
        }
        for &entry in &current.entries {
            let plan::Entry::Page(page) = entry else { continue };
            assert!(got.iter().any(|got: &Page| got.is_same(page)) || !wanted.contains(&page.identifier));
        }
    }
}

#[test]
fn slots_are_the_descriptions() {
    let mut random = Random::new(9);
    for _ in 0..TIMES {
        let case = sound(Entry::Slots, &mut random, 48);
        let (message, received) = (&case.lists[0], case.number(0));
        let mut slots = [0xA5A5_A5A5; SLOTS];
        let (_, end) = write_slots(message, received, &mut slots).unwrap();
        for place in 0..end {
            let told = description_at(message, received, place).unwrap().unwrap();
            let slot = slots[told.slot - 1];
            assert_eq!((slot as u16, slot >> 16), (told.description.code(), told.new as u32));
        }
        assert!(slots[..end].iter().all(|&slot| slot & 0xFFFF != 0));
        assert!(slots[end..].iter().all(|&slot| slot == 0));
    }
}

/// Whatever was got and entered is held: neither its repeats nor the slot that it came in, if that is one, are read.
#[test]
fn what_is_entered_is_not_read_again() {
    let mut random = Random::new(10);
    for _ in 0..TIMES {
        let case = sound(Entry::Enter, &mut random, 48);
        let schedule = read_schedule(&case.lists[0], case.number(1)).unwrap();
        let (slot, held) = (case.number(2), case.numbers[3]);
        let after = enter(Some(&schedule), slot, held);
        assert_eq!((after & held, (after ^ held).count_ones() < 2), (held, true));
        let first = match schedule.at(slot).map(|told| told.description) {
            Some(Description::Repeat(first)) => first as usize,
            _ => slot,
        };
        let repeats = schedule.told.iter().filter(|told| told.description == Description::Repeat(first as u8));
        for repeat in repeats {
            let all: Vec<u16> = schedule.told.iter().map(|told| told.description.code()).take(64).collect();
            assert_eq!(decide(Some(schedule.clone()), repeat.slot, &all, after), Ok(false));
        }
    }
}

#[test]
fn a_header_written_is_read() {
    let mut random = Random::new(11);
    for _ in 0..TIMES {
        let case = sound(Entry::WriteText, &mut random, 48);
        let mut page = [0; 88];
        write_text(header(&case), &case.words, &mut page).unwrap();
        assert_eq!(read_header(&page), Ok(header(&case)));
    }
}
