//! Document 01's edges: every case marked P, the listing example, and its words on slots, the held set and the header;
//! and the results in `crates/trial/data/paper.txt`.

use second::blocks::{write_blocks, Kind, FILL};
use second::case::{hex, octets};
use second::checker::{check_schedule, Finding};
use second::decision::{decide, enter};
use second::edges::pages_in;
use second::intake::STATE;
use second::plan::{read_plan, Entry, Page, Plan};
use second::refusal::Refusal;
use second::schedule::{read_schedule, write_slots, SLOTS};
use second::sender::write_schedule;
use second::side::{Ours, Side};
use second::stored::{case_of, line};
use second::text::{read_header, read_text, septet, write_text, Header, ALPHABET, CHARACTERS};

const HEADER: Header = Header { serial: 0x0010, identifier: 0x8001, scheme: 0, parameter: 0x11 };

fn types(kind: Kind, used: usize) -> Vec<u8> {
    let mut out = [0; 92];
    write_blocks(&[0; 88], kind, used, &mut out).unwrap();
    out.chunks(23).map(|block| block[0]).collect()
}

fn page(text: &[u16]) -> (usize, [u8; 88]) {
    let mut page = [0; 88];
    let used = write_text(HEADER, text, &mut page).unwrap();
    (used, page)
}

fn two_slots() -> Plan {
    Plan { entries: vec![Entry::Page(Page { serial: 0x0010, identifier: 0x8001, parameter: 0x11 }); 2] }
}

fn message_of(current: &Plan, previous: &Plan, begin: usize) -> Result<(usize, [u8; 88]), Refusal> {
    let mut out = [0; 88];
    let used = write_schedule(Ok(current.clone()), Ok(previous.clone()), begin, &mut out)?;
    Ok((used, out))
}

fn filled(digits: &str) -> Vec<u8> {
    let mut message = octets(digits).unwrap();
    message.resize(88, FILL);
    message
}

#[test]
fn types_of_blocks() {
    assert_eq!(types(Kind::Page, 22), [0x30, 0x31, 0x32, 0x33]);
    assert_eq!(types(Kind::Page, 23), [0x20, 0x31, 0x32, 0x33]);
    assert_eq!(types(Kind::Page, 88), [0x20, 0x21, 0x22, 0x33]);
    assert_eq!(types(Kind::Schedule, 44), [0x28, 0x31, 0x32, 0x33]);
}

#[test]
fn used_octets_of_text() {
    for (characters, content) in [(18, 16), (19, 17), (93, 82)] {
        assert_eq!(page(&vec![0x41; characters]).0, 6 + content);
    }
}

#[test]
fn padding_of_text() {
    let (used, empty) = page(&[]);
    assert_eq!((used, hex(&empty[6..9]), empty[87]), (6, "8d46a3".into(), 0));
    let (_, a) = page(&[0x41]);
    assert_eq!((hex(&a[6..8]), a[87]), ("c146".into(), 0));
}

#[test]
fn two_slots_written() {
    let (used, message) = message_of(&two_slots(), &Plan::default(), 1).unwrap();
    assert_eq!((used, message.to_vec()), (11, filled("0102c00000000000800101")));
    let (_, again) = message_of(&two_slots(), &two_slots(), 1).unwrap();
    assert_eq!(again.to_vec(), filled("0102000000000000800101"));
}

#[test]
fn plans_that_fit() {
    let none = Plan::default();
    assert_eq!(message_of(&pages_in(32, 48), &none, 1).unwrap().0, 88);
    assert_eq!(message_of(&pages_in(33, 48), &none, 1), Err(Refusal::DescriptionsTooLong));
    assert_eq!(message_of(&pages_in(40, 40), &none, 1).unwrap().0, 88);
    assert_eq!(message_of(&pages_in(41, 41), &none, 1), Err(Refusal::DescriptionsTooLong));
}

#[test]
fn header_of_a_schedule() {
    let read = |digits: &str| read_schedule(&filled(digits), 88);
    assert_eq!(read("01c20000000000004040").unwrap().end, 2);
    assert_eq!(read("013100000000000040").map(|_| ()), Err(Refusal::BeginEnd));
    assert_eq!(read("410100000000000040").map(|_| ()), Err(Refusal::ScheduleType));
    assert_eq!(read("010100000000000001").map(|_| ()), Err(Refusal::FalseRepeat));
}

#[test]
fn fifteen_bits_are_wanted() {
    let (_, message) = message_of(&two_slots(), &Plan::default(), 1).unwrap();
    let schedule = read_schedule(&message, 22).ok();
    assert_eq!(decide(schedule.clone(), 1, &[0x0001], 0), Ok(true));
    assert_eq!(decide(schedule.clone(), 2, &[0x0001], 0), Ok(true));
    assert_eq!(decide(schedule.clone(), 2, &[0x0001], 1), Ok(false));
    assert_eq!(decide(schedule, 1, &[0x0002], 0), Ok(false));
}

/// What is listed of a log: block number, answer, octets received.
fn listed(log: &[u8]) -> String {
    let mut state = [0; STATE];
    Ours.start(&mut state);
    let mut lines = "block answer octets\n".to_string();
    for (at, piece) in log.chunks(23).enumerate() {
        let returned = Ours.intake(&mut state, &mut piece.to_vec(), &mut [0; 88]);
        lines += &format!("{} {} {}\n", at + 1, returned & 0xFF, returned >> 8);
    }
    lines
}

#[test]
fn listing_example() {
    let block = |kind: u8| [vec![kind], vec![0; 22]].concat();
    let log = [0x21, 0x20, 0x31, 0x2F, 0x24, 0x68].map(block).concat();
    assert_eq!(listed(&log), "block answer octets\n1 6 0\n2 1 0\n3 0 44\n4 5 0\n5 4 0\n6 3 0\n");
    assert_eq!(listed(&[]), "block answer octets\n");
    assert_eq!(listed(&[0x20; 24]), "block answer octets\n1 1 0\n2 2 0\n");
}

#[test]
fn the_alphabet_is_undone() {
    for at in (0..128).filter(|&at| at != 0x1B) {
        assert_eq!(septet(ALPHABET[at]), Some(at as u8));
    }
    assert_eq!((ALPHABET[0x09], ALPHABET[0x1B]), (0x00C7, 0x0020));
    assert_eq!((0..=0xFFFF).filter(|&point| septet(point).is_some()).count(), 127);
}

#[test]
fn text_comes_back() {
    for length in 0..=CHARACTERS {
        let points: Vec<u16> = (0..length).map(|at| ALPHABET[(at * 7 + length) % 128]).collect();
        let Ok(used) = write_text(HEADER, &points, &mut [0; 88]) else {
            continue;
        };
        let (_, page) = page(&points);
        for received in [22 * used.div_ceil(22), 88] {
            let mut text = [0xFFFF; CHARACTERS];
            assert_eq!(read_text(&page, received, &mut text), Ok(length));
            let blank = text[length..].iter().all(|&point| point == 0x20); // 02 No. 6
            assert_eq!((&text[..length], blank), (&points[..], true));
        }
    }
}

#[test]
fn our_message_is_accepted() {
    for (pages, slots) in [(1, 1), (1, 48), (32, 48), (40, 40), (7, 13)] {
        let current = pages_in(pages, slots);
        for previous in [Plan::default(), pages_in(5, 5)] {
            let (used, message) = message_of(&current, &previous, slots).unwrap();
            for received in [88, 22 * used.div_ceil(22)] {
                let finding = check_schedule(read_plan(&current.file()), Ok(previous.clone()), &message, received);
                assert_eq!(finding, Ok(Finding::True));
            }
        }
    }
}

/// All slots of a message, and Begin and End.
fn slots_of(digits: &str, received: usize) -> Result<((usize, usize), Vec<u32>), Refusal> {
    let mut slots = [0xA5A5_A5A5; SLOTS];
    let begin_end = write_slots(&filled(digits), received, &mut slots)?;
    Ok((begin_end, slots.to_vec()))
}

/// These numbers for the first slots, and 0 past End.
fn and_zeros(numbers: &[u32]) -> Vec<u32> {
    let mut slots = numbers.to_vec();
    slots.resize(SLOTS, 0);
    slots
}

#[test]
fn slots_of_the_example() {
    let expected = and_zeros(&[0x1_8001, 0x1_0001]);
    assert_eq!(slots_of("0102c00000000000800101", 22), Ok(((1, 2), expected)));
    let expected = and_zeros(&[0x0_8001, 0x0_0001]);
    assert_eq!(slots_of("0102000000000000800101", 88), Ok(((1, 2), expected)));
}

#[test]
fn slots_stand_in_slot_order() {
    let told = "02c76a00000000000141" /* new: 2, 3 */.to_string() + "018005" /* new: 5, 7 */ + "8006407f" /* 1, 4, 6 */;
    let expected = and_zeros(&[0x8006, 0x1_0001, 0x1_0041, 0x40, 0x1_0001, 0x40, 0x1_8005]);
    assert_eq!(slots_of(&told, 22), Ok(((2, 7), expected)));
}

#[test]
fn slots_up_to_the_last() {
    let all = "0130".to_string() + &"00".repeat(6) + "8001" + &"41".repeat(45) + "ffff" + "2f";
    let mut expected = vec![0x41; SLOTS];
    (expected[0], expected[46], expected[47]) = (0x8001, 0xFFFF, 0x2F);
    assert_eq!(slots_of(&all, 66), Ok(((1, 48), expected)));
    assert_eq!(slots_of(&all, 44), Err(Refusal::DescriptionPassesReceived));
}

#[test]
fn slots_refused_leave_memory() {
    for length in (0..=2 * SLOTS).filter(|&length| length != SLOTS) {
        let mut slots = vec![0xA5A5_A5A5; length];
        assert_eq!(write_slots(&[], 0, &mut slots), Err(Refusal::OutputLength));
        assert!(slots.iter().all(|&slot| slot == 0xA5A5_A5A5));
    }
    let repeat_of_repeat = filled("010300000000000080050102");
    let mut slots = [0xA5A5_A5A5; SLOTS];
    assert_eq!(write_slots(&repeat_of_repeat, 22, &mut slots), Err(Refusal::FalseRepeat));
    assert_eq!(write_slots(&repeat_of_repeat, 23, &mut slots), Err(Refusal::Received));
    assert_eq!(write_slots(&repeat_of_repeat[1..], 23, &mut slots), Err(Refusal::MessageLength));
    assert_eq!(slots, [0xA5A5_A5A5; SLOTS]);
}

#[test]
fn a_page_is_entered_under_its_first() {
    let schedule = read_schedule(&filled("01070000000000008001ffff0201404142"), 22).unwrap();
    let entered = |slot: usize| enter(Some(&schedule), slot, 0);
    let firsts = [1, 2].map(|slot| 1 << (slot - 1));
    assert_eq!([1, 2].map(entered), firsts);
    assert_eq!([4, 3].map(entered), firsts);
    for slot in 5..=SLOTS {
        assert_eq!(entered(slot), 1 << (slot - 1), "optional, advised, reserved and past End");
    }
    for slot in [0, 49, 64, 65, 1 << 32, (1 << 32) + 3, usize::MAX] {
        assert_eq!((entered(slot), enter(None, slot, 5)), (0, 5));
    }
}

#[test]
fn a_page_is_entered_under_its_slot_without_a_schedule() {
    for slot in 1..=SLOTS {
        assert_eq!(enter(None, slot, 0), 1 << (slot - 1));
    }
    let mut repeat = filled("0102c00000000000800101");
    assert_eq!(Ours.enter(true, &mut repeat, 22, 2, 0), 0b01);
    assert_eq!(Ours.enter(false, &mut repeat, 22, 2, 0), 0b10);
    assert_eq!(Ours.enter(true, &mut repeat, 23, 2, 0), 0b10);
    assert_eq!(Ours.enter(true, &mut repeat[1..], 22, 2, 0), 0b10);
    let mut repeat_of_repeat = filled("010300000000000080050102");
    assert_eq!(Ours.enter(true, &mut repeat_of_repeat, 22, 2, 0), 0b010);
    assert_eq!(Ours.enter(true, &mut repeat_of_repeat, 22, 3, 0), 0b100);
}

#[test]
fn what_is_entered_stays() {
    let schedule = read_schedule(&filled("0102c00000000000800101"), 22).unwrap();
    for held in [u64::MAX, 0xFFFF_0000_0000_0001, 1] {
        assert_eq!(enter(Some(&schedule), 1, held), held);
        assert_eq!(enter(Some(&schedule), 2, held), held);
    }
    assert_eq!(enter(Some(&schedule), 48, 1 << 48), 0b11 << 47);
}

#[test]
fn header_read() {
    let (_, written) = page(&[0x41]);
    assert_eq!(read_header(&written), Ok(HEADER));
    assert_eq!(Ours.read_header(&mut written.to_vec()), 0x11_8001_0010_0000);
    let mut any = filled("123456789abc");
    assert_eq!(Ours.read_header(&mut any), 0xBC_5678_1234_9A00);
    for length in (0..=200).filter(|&length| length != 88) {
        assert_eq!(Ours.read_header(&mut vec![0xFF; length]), 16);
    }
}

const PAPER: &str = include_str!("../../../crates/trial/data/paper.txt");

#[test]
fn the_papers_results() {
    let mut count = 0;
    for paper in PAPER.lines() {
        let Some(case) = case_of(paper) else { continue };
        assert_eq!(line(&case), paper);
        count += 1;
    }
    assert_eq!(count, 392);
}
