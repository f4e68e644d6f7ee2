//! The entries for C as one side answers them, and a case run on a side with all of the lent memory watched.

use crate::blocks::{write_blocks, Kind};
use crate::case::{Case, Entry};
use crate::checker::{check_schedule, check_slots, Finding};
use crate::collector::{collect, start_collector, Collected};
use crate::decision::{decide, enter};
use crate::intake::{intake, start, Answer};
use crate::plan::read_plan;
use crate::refusal::{number_of, Refusal};
use crate::schedule::{description_at, read_schedule, write_slots};
use crate::sender::write_schedule;
use crate::text::{content, read_header, read_text, write_text, Header};

pub const LENT: u8 = 0xA5; // what lent memory holds before a call
pub const LENT_WORD: u16 = 0xA5A5;
pub const LENT_SLOT: u32 = 0xA5A5_A5A5;
pub const GUARD: usize = 8; // octets or numbers after each lent piece of memory, which no call may touch

/// The entries, with a slice for each pointer and length. Each gives what the entry for C returns.
pub trait Side {
    fn start(&self, state: &mut [u8]) -> u64;
    fn intake(&self, state: &mut [u8], piece: &mut [u8], output: &mut [u8]) -> u64;
    fn write_blocks(&self, message: &mut [u8], schedule: bool, used: usize, out: &mut [u8]) -> u64;
    fn write_text(&self, header: Header, text: &mut [u16], page: &mut [u8]) -> u64;
    fn read_text(&self, page: &mut [u8], received: usize, text: &mut [u16]) -> u64;
    fn content(&self, page: &mut [u8], received: usize) -> u64;
    fn read_schedule(&self, message: &mut [u8], received: usize) -> u64;
    fn description(&self, message: &mut [u8], received: usize, place: usize) -> u64;
    fn read_plan(&self, file: &mut [u8]) -> u64;
    fn write_schedule(&self, current: &mut [u8], previous: &mut [u8], begin: usize, out: &mut [u8]) -> u64;
    fn check_schedule(&self, current: &mut [u8], previous: &mut [u8], message: &mut [u8], received: usize) -> u64;
    fn decide(
        &self,
        known: bool,
        message: &mut [u8],
        received: usize,
        slot: usize,
        wanted: &mut [u16],
        held: u64,
    ) -> u64;
    fn enter(&self, known: bool, message: &mut [u8], received: usize, slot: usize, held: u64) -> u64;
    fn slots(&self, message: &mut [u8], received: usize, slots: &mut [u32]) -> u64;
    fn read_header(&self, page: &mut [u8]) -> u64;
    fn start_collector(&self, collector: &mut [u8]) -> u64;
    fn collect(&self, collector: &mut [u8], page: &mut [u8], received: usize, output: &mut [u8]) -> u64;
    fn check_slots(
        &self,
        current: &mut [u8],
        previous: &mut [u8],
        message: &mut [u8],
        received: usize,
        verdicts: &mut [u8],
    ) -> u64;
}

/// This implementation.
pub struct Ours;

/// number + 256 × value; with a refusal the value is the entry that it names, or 0. // 01 Order, 02 No. 1
fn packed(result: Result<usize, Refusal>) -> u64 {
    match result {
        Ok(value) => 256 * value as u64,
        Err(refusal) => refused(refusal),
    }
}

/// number + 256 × the entry that it names. // 02 No. 1
fn refused(refusal: Refusal) -> u64 {
    refusal.number() as u64 + 256 * refusal.entry() as u64
}

/// number + 256 × the slot that 40 names, or the entry. // 01 Numbers given, 02 No. 1
fn found(result: Result<Finding, Refusal>) -> u64 {
    match result {
        Ok(Finding::True) => 0,
        Ok(Finding::Untrue(slot)) => 40 + 256 * slot as u64,
        Err(refusal) => refused(refusal),
    }
}

/// number + 2^8 × Begin + 2^16 × End, both 0 with a refusal. // 01 Order
fn begin_end(result: Result<(usize, usize), Refusal>) -> u64 {
    let number = number_of(&result) as u64;
    let (begin, end) = result.unwrap_or((0, 0));
    number + ((begin as u64) << 8) + ((end as u64) << 16)
}

impl Side for Ours {
    fn start(&self, state: &mut [u8]) -> u64 {
        number_of(&start(state)) as u64
    }

    fn intake(&self, state: &mut [u8], piece: &mut [u8], output: &mut [u8]) -> u64 {
        match intake(state, piece, output) {
            Ok(Answer::Taken) => 1,
            Ok(Answer::Page(received)) => 256 * received as u64,
            Ok(Answer::Schedule(received)) => 7 + 256 * received as u64,
            Err(refusal) => refusal.number() as u64,
        }
    }

    fn write_blocks(&self, message: &mut [u8], schedule: bool, used: usize, out: &mut [u8]) -> u64 {
        let kind = if schedule { Kind::Schedule } else { Kind::Page };
        number_of(&write_blocks(message, kind, used, out)) as u64
    }

    fn write_text(&self, header: Header, text: &mut [u16], page: &mut [u8]) -> u64 {
        packed(write_text(header, text, page))
    }

    fn read_text(&self, page: &mut [u8], received: usize, text: &mut [u16]) -> u64 {
        packed(read_text(page, received, text))
    }

    fn content(&self, page: &mut [u8], received: usize) -> u64 {
        number_of(&content(page, received)) as u64
    }

    fn read_schedule(&self, message: &mut [u8], received: usize) -> u64 {
        begin_end(read_schedule(message, received).map(|schedule| (schedule.begin, schedule.end)))
    }

    fn description(&self, message: &mut [u8], received: usize, place: usize) -> u64 {
        match description_at(message, received, place) {
            Ok(None) => 0,
            Ok(Some(told)) => {
                let code = told.description.code() as u64;
                ((told.slot as u64) << 8) + ((told.new as u64) << 16) + (code << 32)
            }
            Err(refusal) => refusal.number() as u64,
        }
    }

    fn read_plan(&self, file: &mut [u8]) -> u64 {
        packed(read_plan(file).map(|plan| plan.count()))
    }

    fn write_schedule(&self, current: &mut [u8], previous: &mut [u8], begin: usize, out: &mut [u8]) -> u64 {
        packed(write_schedule(read_plan(current), read_plan(previous), begin, out))
    }

    fn check_schedule(&self, current: &mut [u8], previous: &mut [u8], message: &mut [u8], received: usize) -> u64 {
        found(check_schedule(read_plan(current), read_plan(previous), message, received))
    }

    fn decide(
        &self,
        known: bool,
        message: &mut [u8],
        received: usize,
        slot: usize,
        wanted: &mut [u16],
        held: u64,
    ) -> u64 {
        let schedule = if known { read_schedule(message, received).ok() } else { None };
        packed(decide(schedule, slot, wanted, held).map(usize::from))
    }

    fn enter(&self, known: bool, message: &mut [u8], received: usize, slot: usize, held: u64) -> u64 {
        let schedule = if known { read_schedule(message, received).ok() } else { None };
        enter(schedule.as_ref(), slot, held)
    }

    fn slots(&self, message: &mut [u8], received: usize, slots: &mut [u32]) -> u64 {
        begin_end(write_slots(message, received, slots))
    }

    fn read_header(&self, page: &mut [u8]) -> u64 {
        match read_header(page) {
            Ok(Header { serial, identifier, scheme, parameter }) => {
                let numbers = ((serial as u64) << 16) + ((identifier as u64) << 32);
                numbers + ((scheme as u64) << 8) + ((parameter as u64) << 48)
            }
            Err(refusal) => refusal.number() as u64,
        }
    }

    fn start_collector(&self, collector: &mut [u8]) -> u64 {
        number_of(&start_collector(collector)) as u64
    }

    fn collect(&self, collector: &mut [u8], page: &mut [u8], received: usize, output: &mut [u8]) -> u64 {
        match collect(collector, page, received, output) {
            Ok(Collected::Kept) => 1,
            Ok(Collected::HandedOut(pages)) => 256 * pages as u64,
            Err(refusal) => refusal.number() as u64,
        }
    }

    fn check_slots(
        &self,
        current: &mut [u8],
        previous: &mut [u8],
        message: &mut [u8],
        received: usize,
        verdicts: &mut [u8],
    ) -> u64 {
        found(check_slots(read_plan(current), read_plan(previous), message, received, verdicts))
    }
}

/// What the calls of a case return, and all of the lent memory after them, guards included.
#[derive(Clone, Debug, Default, PartialEq, Eq)]
pub struct Outcome {
    pub returned: Vec<u64>,
    pub octets: Vec<u8>,
    pub words: Vec<u16>,
    pub slots: Vec<u32>,
}

/// A list with a guard after it.
fn guarded<T: Copy>(list: &[T], guard: T) -> Vec<T> {
    let mut lent = Vec::with_capacity(list.len() + GUARD);
    lent.extend_from_slice(list);
    lent.resize(list.len() + GUARD, guard);
    lent
}

/// What is lent of a list with a guard after it.
fn unguarded<T>(list: &mut [T]) -> &mut [T] {
    let length = list.len() - GUARD;
    &mut list[..length]
}

/// The memory that a case of one entry's calls lends, each piece with a guard after it.
struct Lent {
    lists: Vec<Vec<u8>>,
    words: Vec<u16>,
    out: Vec<u8>,
    text: Vec<u16>,
    slots: Vec<u32>,
}

/// Runs a case on a side.
pub fn run(case: &Case, side: &impl Side) -> Outcome {
    if let Some(numbers) = case.entry.per_call() {
        return run_sequence(case, side, numbers);
    }
    let mut lent = Lent {
        lists: case.lists.iter().map(|list| guarded(list, LENT)).collect(),
        words: guarded(&case.words, LENT_WORD),
        out: vec![LENT; output_length(case) + GUARD],
        text: vec![LENT_WORD; text_length(case) + GUARD],
        slots: vec![LENT_SLOT; slots_length(case) + GUARD],
    };
    let returned = call(case, side, &mut lent);
    let Lent { mut lists, mut words, out, text, slots } = lent;
    lists.push(out);
    words.extend(text);
    Outcome { returned, octets: lists.concat(), words, slots }
}

/// The octets of output, or for verdicts, that a case lends.
pub fn output_length(case: &Case) -> usize {
    match case.entry {
        Entry::WriteBlocks => case.number(2),
        Entry::WriteText => case.number(4),
        Entry::WriteSchedule | Entry::CheckSlots => case.number(1),
        _ => 0,
    }
}

/// The code points that a case lends for text.
pub fn text_length(case: &Case) -> usize {
    match case.entry {
        Entry::ReadText => case.number(1),
        _ => 0,
    }
}

/// The 32-bit numbers that a case lends for slots.
pub fn slots_length(case: &Case) -> usize {
    match case.entry {
        Entry::Slots => case.number(1),
        _ => 0,
    }
}

/// The calls of a case that isn't a sequence.
fn call(case: &Case, side: &impl Side, lent: &mut Lent) -> Vec<u64> {
    let mut lists = lent.lists.iter_mut().map(|list| unguarded(list));
    let mut list = || lists.next().expect("a case has all of its lists");
    let (words, out) = (unguarded(&mut lent.words), unguarded(&mut lent.out));
    let (text, slots) = (unguarded(&mut lent.text), unguarded(&mut lent.slots));
    let n = |at: usize| case.number(at);
    vec![match case.entry {
        Entry::Start => side.start(list()),
        Entry::Intake | Entry::Collect => unreachable!("these cases are sequences"),
        Entry::WriteBlocks => side.write_blocks(list(), n(0) != 0, n(1), out),
        Entry::WriteText => side.write_text(header(case), words, out),
        Entry::ReadText => side.read_text(list(), n(0), text),
        Entry::Content => side.content(list(), n(0)),
        Entry::ReadSchedule => side.read_schedule(list(), n(0)),
        Entry::Description => {
            let message = list();
            let places = (0..n(2)).map(|i| n(1).wrapping_add(i));
            return places.map(|place| side.description(message, n(0), place)).collect();
        }
        Entry::ReadPlan => side.read_plan(list()),
        Entry::WriteSchedule => side.write_schedule(list(), list(), n(0), out),
        Entry::CheckSchedule => side.check_schedule(list(), list(), list(), n(0)),
        Entry::Decide => side.decide(n(0) != 0, list(), n(1), n(2), words, case.numbers[3]),
        Entry::Enter => side.enter(n(0) != 0, list(), n(1), n(2), case.numbers[3]),
        Entry::Slots => side.slots(list(), n(0), slots),
        Entry::ReadHeader => side.read_header(list()),
        Entry::StartCollector => side.start_collector(list()),
        Entry::CheckSlots => side.check_slots(list(), list(), list(), n(0), out),
    }]
}

/// The header of a text case.
pub fn header(case: &Case) -> Header {
    Header {
        serial: case.numbers[0] as u16,
        identifier: case.numbers[1] as u16,
        scheme: case.numbers[2] as u8,
        parameter: case.numbers[3] as u8,
    }
}

/// A sequence of calls on one state or collector and one output; the memory is noted after every call.
fn run_sequence(case: &Case, side: &impl Side, per_call: usize) -> Outcome {
    let mut outcome = Outcome::default();
    let mut state = case.lists[0].clone();
    let mut output = case.lists[1].clone();
    for (piece, numbers) in case.lists[2..].iter().zip(case.numbers.chunks_exact(per_call)) {
        let mut piece = guarded(piece, LENT);
        let lent_state = numbers[1].min(state.len() as u64) as usize;
        let lent_output = numbers[2].min(output.len() as u64) as usize;
        let (state_lent, output_lent) = (&mut state[..lent_state], &mut output[..lent_output]);
        outcome.returned.push(match (case.entry, numbers[0]) {
            (Entry::Collect, 0) => side.start_collector(state_lent),
            (Entry::Collect, _) => side.collect(state_lent, unguarded(&mut piece), numbers[3] as usize, output_lent),
            (_, 0) => side.start(state_lent),
            _ => side.intake(state_lent, unguarded(&mut piece), output_lent),
        });
        outcome.octets.extend(&state);
        outcome.octets.extend(&output);
        outcome.octets.extend(&piece);
    }
    outcome
}
