//! Document 02's No. 1: a refused plan names its lowest bad entry, and whether the kind is unknown or a free slot carries
//! a page's octets.

use second::case::{Case, Entry};
use second::invent::any;
use second::plan::read_plan;
use second::random::Random;
use second::side::{run, Ours, Side};

const PAGE: [u8; 6] = [2, 0x00, 0x10, 0x80, 0x01, 0x11];
const KIND: [u8; 6] = [3, 0, 0, 0, 0, 0];
const STRAY: [u8; 6] = [1, 0, 0, 0, 1, 0];

/// A plan file of these entries.
fn file(entries: &[[u8; 6]]) -> Vec<u8> {
    let head = [b'C', b'B', b'P', 0, 1, entries.len() as u8];
    [&head[..], entries.as_flattened()].concat()
}

/// Good entries: pages, free slots and advised ones in turn.
fn good(slots: usize) -> Vec<[u8; 6]> {
    let turn = [PAGE, [0; 6], [1, 0, 0, 0, 0, 0]];
    (0..slots).map(|at| turn[at % 3]).collect()
}

/// A file of so many slots with some entries changed, by their numbers from 1.
fn changed(slots: usize, changes: &[(usize, [u8; 6])]) -> Vec<u8> {
    let mut entries = good(slots);
    for &(number, octets) in changes {
        entries[number - 1] = octets;
    }
    file(&entries)
}

/// What the reader of plan files returns: number + 256 × count or entry.
fn read(file: &[u8]) -> u64 {
    Ours.read_plan(&mut file.to_vec())
}

/// What the writer returns, and its output.
fn written(current: &[u8], previous: &[u8], begin: usize, length: usize) -> (u64, Vec<u8>) {
    let mut out = vec![0xA5; length];
    let returned = Ours.write_schedule(&mut current.to_vec(), &mut previous.to_vec(), begin, &mut out);
    (returned, out)
}

fn checked(current: &[u8], previous: &[u8], message: &[u8], received: usize) -> u64 {
    Ours.check_schedule(&mut current.to_vec(), &mut previous.to_vec(), &mut message.to_vec(), received)
}

fn packed(number: u64, value: usize) -> u64 {
    number + 256 * value as u64
}

#[test]
fn a_kind_over_2_is_36_whatever_its_octets() {
    for number in 1..=48 {
        for kind in 3..=255 {
            assert_eq!(read(&changed(48, &[(number, [kind, 0, 0, 0, 0, 0])])), packed(36, number));
            assert_eq!(read(&changed(48, &[(number, [kind, 0, 0x10, 0x80, 0x01, 0x11])])), packed(36, number));
            assert_eq!(read(&changed(number, &[(number, [kind, 0, 0, 0, 0, 1])])), packed(36, number));
        }
    }
}

#[test]
fn an_octet_in_a_free_slot_is_37() {
    for number in 1..=48 {
        for kind in [0, 1] {
            assert_eq!(read(&changed(48, &[(number, [kind, 0, 0x10, 0x80, 0x01, 0x11])])), packed(37, number));
            for place in 1..6 {
                for octet in 1..=255 {
                    let mut octets = [kind, 0, 0, 0, 0, 0];
                    octets[place] = octet;
                    assert_eq!(read(&changed(number, &[(number, octets)])), packed(37, number));
                }
            }
        }
    }
}

#[test]
fn the_lowest_bad_entry_is_named() {
    for low in 1..48 {
        for high in low + 1..=48 {
            for higher in [KIND, STRAY] {
                assert_eq!(read(&changed(48, &[(low, KIND), (high, higher)])), packed(36, low));
                assert_eq!(read(&changed(48, &[(low, STRAY), (high, higher)])), packed(37, low));
            }
        }
    }
    assert_eq!(read(&file(&[KIND; 48])), packed(36, 1));
    assert_eq!(read(&file(&[STRAY; 48])), packed(37, 1));
}

/// An entry, mostly good.
fn some_entry(random: &mut Random) -> [u8; 6] {
    let mut octets = [0; 6];
    octets.copy_from_slice(&random.octets(6));
    match random.below(16) {
        0 => {}
        1 => octets = [octets[0] % 4, 0, 0, 0, 0, octets[5] % 2],
        2..=6 => octets = [octets[0] % 2, 0, 0, 0, 0, 0],
        _ => octets[0] = 2,
    }
    octets
}

/// Whether a plan file of these entries was good by document 01. // 01 Numbers given, 33
fn was_good(entries: &[[u8; 6]]) -> bool {
    entries.iter().all(|octets| octets[0] == 2 || octets[0] < 2 && octets[1..] == [0; 5])
}

#[test]
fn nothing_that_was_accepted_changes() {
    let mut random = Random::new(12);
    let mut accepted = 0;
    for _ in 0..20_000 {
        let entries: Vec<[u8; 6]> = (0..random.below(6)).map(|_| some_entry(&mut random)).collect();
        let file = file(&entries);
        let returned = read(&file);
        if was_good(&entries) {
            assert_eq!(returned, packed(0, entries.len()));
            assert_eq!(read_plan(&file).unwrap().file(), file);
            accepted += 1;
        } else {
            assert!([36, 37].contains(&(returned & 0xFF)));
        }
    }
    assert!((1_000..19_000).contains(&accepted), "{accepted}");
}

#[test]
fn count_and_length_come_before_the_entries() {
    let bad = changed(3, &[(1, KIND), (2, STRAY), (3, KIND)]);
    for count in (0..=255).filter(|&count| count != 3) {
        let mut other = bad.clone();
        other[5] = count;
        assert_eq!(read(&other), 32);
    }
    for length in (0..=60).filter(|&length| length != bad.len()) {
        let mut other = bad.clone();
        other.resize(length, 3);
        assert_eq!(read(&other), 32);
    }
    for number in 1..=49 {
        assert_eq!(read(&changed(49, &[(number, KIND)])), 32);
        assert_eq!(read(&changed(49, &[(number, STRAY)])), 32);
    }
}

#[test]
fn entries_past_the_count_do_not_exist() {
    let mut two = changed(3, &[(3, KIND)]);
    two[5] = 2;
    assert_eq!(read(&two), 32);
    two.truncate(18);
    assert_eq!(read(&two), packed(0, 2));
}

#[test]
fn mark_and_version_come_before_the_entries() {
    let bad = changed(2, &[(1, STRAY), (2, KIND)]);
    for (at, number) in [30, 30, 30, 31, 31].into_iter().enumerate() {
        let mut other = bad.clone();
        other[at] ^= 0x20;
        assert_eq!(read(&other), number);
    }
    assert_eq!(read(&bad), packed(37, 1));
}

/// Files of 48 slots with one bad entry, each with what names it.
fn bad_files() -> Vec<(Vec<u8>, u64)> {
    let both = (1..=48).flat_map(|number| [(number, KIND, 36), (number, STRAY, 37)]);
    both.map(|(number, octets, refusal)| (changed(48, &[(number, octets)]), packed(refusal, number))).collect()
}

#[test]
fn the_writer_passes_the_place_on() {
    let (fine, none) = (file(&good(3)), file(&[]));
    for (bad, named) in bad_files() {
        for (current, previous) in [(&bad, &none), (&bad, &fine), (&fine, &bad), (&none, &bad)] {
            for begin in [0, 1, 49] {
                assert_eq!(written(current, previous, begin, 88), (named, vec![0xA5; 88]));
            }
            for length in [0, 87, 89, 176] {
                assert_eq!(written(current, previous, 1, length), (15, vec![0xA5; length]));
            }
        }
    }
    assert_eq!(written(&none, &fine, 1, 88).0, 35);
}

#[test]
fn the_checker_passes_the_place_on() {
    let (fine, none) = (file(&good(3)), file(&[]));
    let (_, message) = written(&fine, &fine, 1, 88);
    assert_eq!(checked(&fine, &fine, &message, 88), 0);
    for (bad, named) in bad_files() {
        for (current, previous) in [(&bad, &none), (&bad, &fine), (&fine, &bad), (&none, &bad)] {
            for (message, received) in
                [(&message[..], 88), (&message[..], 23), (&[0xFF; 88][..], 88), (&message[1..], 22)]
            {
                assert_eq!(checked(current, previous, message, received), named);
            }
        }
    }
    assert_eq!(checked(&none, &fine, &message, 88), 35);
}

#[test]
fn the_current_plan_is_told_first() {
    let (_, message) = written(&file(&good(3)), &file(&[]), 1, 88);
    for (current, named) in [(changed(3, &[(3, KIND)]), packed(36, 3)), (changed(3, &[(3, STRAY)]), packed(37, 3))] {
        for previous in [changed(2, &[(1, KIND)]), changed(2, &[(1, STRAY)]), vec![], b"CBQ\x00\x02\x00".to_vec()] {
            assert_eq!(written(&current, &previous, 1, 88).0, named);
            assert_eq!(checked(&current, &previous, &message, 88), named);
            assert_eq!(written(&previous, &current, 1, 88).0, read(&previous));
            assert_eq!(checked(&previous, &current, &message, 88), read(&previous));
        }
    }
}

/// What names the lowest bad entry of a plan file, if it has one.
fn lowest_bad(file: &[u8]) -> Option<u64> {
    let mut entries = file.get(6..)?.chunks_exact(6).zip(1..);
    entries.find_map(|(octets, number)| match octets[0] {
        3.. => Some(packed(36, number)),
        0 | 1 if octets[1..] != [0; 5] => Some(packed(37, number)),
        _ => None,
    })
}

/// What the plans of a case are refused by, if they are.
fn of_plans(case: &Case) -> Option<u64> {
    let plans = if case.entry == Entry::ReadPlan { &case.lists[..1] } else { &case.lists[..2] };
    plans.iter().map(|file| read(file)).find(|returned| returned & 0xFF != 0)
}

#[test]
fn no_refusal_but_36_and_37_names_an_entry_and_none_is_33() {
    let mut random = Random::new(13);
    for entry in [Entry::ReadPlan, Entry::WriteSchedule, Entry::CheckSchedule, Entry::CheckSlots] {
        for _ in 0..20_000 {
            let case = any(entry, &mut random, 48);
            let returned = run(&case, &Ours).returned[0];
            match returned & 0xFF {
                0 | 40 => assert_eq!(of_plans(&case), None),
                33 => panic!("33: {}", case.text()),
                36 | 37 => assert_eq!(of_plans(&case), Some(returned)),
                number => assert_eq!(returned, number, "{}", case.text()),
            }
            if entry == Entry::ReadPlan && [36, 37].contains(&(returned & 0xFF)) {
                assert_eq!(Some(returned), lowest_bad(&case.lists[0]));
            }
        }
    }
}
