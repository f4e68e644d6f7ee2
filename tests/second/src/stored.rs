//! The stored results: cases with all that they give, as lines of text, the same on every run.

use std::path::Path;
use std::time::{Duration, Instant};
use std::{fs, io};

use crate::blank_cells;
use crate::blocks::MESSAGE;
use crate::case::{self, hex, hex_slots, hex_words, Case, Entry, ENTRIES};
use crate::collector::COLLECTOR;
use crate::edges;
use crate::extension;
use crate::invent::{
    any, any_paired, any_plain, choices, collecting_sequence, formed, paired, put, sequence, sound_by, Fault,
};
use crate::random::Random;
use crate::schedule::{read_schedule, SLOTS};
use crate::several_pages::{collecting, Sent};
use crate::side::{header, output_length, slots_length, text_length, Ours, Side, LENT, LENT_SLOT, LENT_WORD};
use crate::text::content;
use crate::zero_parameter::by_octets;

const SEED: u64 = 0x0C50_B7A4_1700_0001;
const SLOTS_MOST: usize = 6; // slots of most plans and schedules, to keep the files small
const LONG: usize = 400; // longer lists are left to the comparison
const LONG_COLLECTOR: usize = 1700; // the same of the collector's
const RUN: usize = 4; // so many equal octets of a collector or a message are written as a run

/// Writes one file per subject and says how many cases and octets each has.
pub fn write(folder: &Path) -> io::Result<String> {
    fs::create_dir_all(folder)?;
    let mut report = String::new();
    for (name, lines) in files() {
        let text: String = lines.iter().map(|line| format!("{line}\n")).collect();
        report += &format!("{name} {} cases {} octets\n", lines.len(), text.len());
        fs::write(folder.join(name), text)?;
    }
    Ok(report.trim_end().to_string())
}

/// The files and their lines.
pub fn files() -> Vec<(&'static str, Vec<String>)> {
    let lines = lines_of;
    vec![
        ("blocks.txt", lines(Entry::WriteBlocks, 40)),
        ("intake.txt", [lines(Entry::Start, 6), lines(Entry::Intake, 60), sequences(80)].concat()),
        ("text.txt", lines(Entry::WriteText, 100)),
        ("text_read.txt", [lines(Entry::ReadText, 100), blank_lines(Entry::ReadText)].concat()),
        ("text_pairs.txt", paired_lines(Entry::WriteText, 150)),
        ("text_pairs_read.txt", paired_lines(Entry::ReadText, 80)),
        ("content.txt", lines(Entry::Content, 30)),
        ("schedule.txt", [lines(Entry::ReadSchedule, 200), lines(Entry::Description, 60)].concat()),
        ("plan.txt", lines(Entry::ReadPlan, 120)),
        ("writer.txt", [lines(Entry::WriteSchedule, 120), formed_lines(Entry::WriteSchedule, 40)].concat()),
        ("checker.txt", [lines(Entry::CheckSchedule, 120), formed_lines(Entry::CheckSchedule, 40)].concat()),
        ("decision.txt", lines(Entry::Decide, 120)),
        ("enter.txt", lines(Entry::Enter, 80)),
        ("slots.txt", lines(Entry::Slots, 80)),
        ("header.txt", lines(Entry::ReadHeader, 80)),
        ("collector.txt", [lines(Entry::StartCollector, 4), lines(Entry::Collect, 16), rows(10)].concat()),
        ("slot_verdicts.txt", [lines(Entry::CheckSlots, 70), formed_lines(Entry::CheckSlots, 40)].concat()),
    ]
}

/// The edges of an entry, each of its faults, each pair of them, and as many random cases. What the faulty ones are
/// given doesn't hang on which pages are the same.
fn lines_of(entry: Entry, random_cases: usize) -> Vec<String> {
    let mut random = Random::new(SEED ^ entry as u64);
    let mut cases = edges::stored_first(entry);
    for faults in fault_sets(entry) {
        let mut case = sound_by(entry, &mut random, SLOTS_MOST, by_octets);
        put(&mut case, &faults, &mut random);
        cases.push(case);
    }
    cases.extend((0..random_cases).map(|round| any_call(any_plain, entry, &mut random, most_slots(round))));
    cases.iter().map(line).collect()
}

/// Random cases with pages in several forms. // 02 No. 2
fn formed_lines(entry: Entry, count: usize) -> Vec<String> {
    let mut random = Random::new(!SEED ^ entry as u64);
    (0..count).map(|round| line(&any_call(formed, entry, &mut random, most_slots(round)))).collect()
}

/// The edges of characters of the extension table, and cases with such: each fault, each pair of faults, and as many random
/// ones. // 02 No. 5
fn paired_lines(entry: Entry, random_cases: usize) -> Vec<String> {
    let mut random = Random::new(!SEED ^ entry as u64);
    let mut cases = extension::cases(entry);
    for faults in fault_sets(entry) {
        let mut case = paired(entry, &mut random, SLOTS_MOST);
        put(&mut case, &faults, &mut random);
        cases.push(case);
    }
    cases.extend((0..random_cases).map(|_| any_call(any_paired, entry, &mut random, SLOTS_MOST)));
    cases.iter().map(line).collect()
}

/// The edges of the places after a text. // 02 No. 6
fn blank_lines(entry: Entry) -> Vec<String> {
    blank_cells::cases(entry).iter().map(line).collect()
}

/// Every tenth random case has up to 48 slots.
fn most_slots(round: usize) -> usize {
    if round % 10 == 0 {
        SLOTS
    } else {
        SLOTS_MOST
    }
}

/// Writes the edges of every entry, and then invented cases of each in turn until the time is over.
pub fn lines(to: &mut impl io::Write, seed: u64, time: Duration) -> io::Result<()> {
    let begun = Instant::now();
    for case in ENTRIES.into_iter().flat_map(edges::cases) {
        writeln!(to, "{}", line(&case))?;
    }
    let mut randoms = ENTRIES.map(|entry| (entry, Random::new(seed ^ (entry as u64) << 56)));
    while begun.elapsed() < time {
        for (entry, random) in &mut randoms {
            let most = random.pick(&[3, 8, 48, 48]);
            writeln!(to, "{}", line(&any_call(any, *entry, random, most)))?;
            if *entry == Entry::Intake {
                writeln!(to, "{}", sequence_line(&sequence(random)))?;
            }
            if *entry == Entry::Collect {
                writeln!(to, "{}", row_line(&row_of(&collecting_sequence(random))))?;
            }
        }
    }
    to.flush()
}

/// Each fault three times, but once where the checker's file has it already, and each pair of faults once.
pub fn fault_sets(entry: Entry) -> Vec<Vec<Fault>> {
    let all = choices(entry);
    let times = if entry == Entry::CheckSlots { 1 } else { 3 };
    let mut sets = Vec::new();
    for (at, &fault) in all.iter().enumerate() {
        sets.extend(vec![vec![fault]; times]);
        sets.extend(all[at + 1..].iter().map(|&later| vec![fault, later]));
    }
    sets
}

/// Invents a case of an entry, with so many slots at most.
type Invent = fn(Entry, &mut Random, usize) -> Case;

/// An invented case that is one call and no longer than a line should be; sequences have lines of their own.
fn any_call(invent: Invent, entry: Entry, random: &mut Random, most: usize) -> Case {
    loop {
        let mut case = invent(entry, random, most);
        if entry == Entry::Description {
            case.numbers[2] = 1;
        }
        let single = entry.per_call().is_none_or(|numbers| case.numbers.len() == numbers && case.numbers[0] == 1);
        let long = match entry {
            Entry::StartCollector | Entry::Collect => LONG_COLLECTOR,
            _ => LONG,
        };
        if single && case.words.len() < long && case.lists.iter().all(|list| list.len() < long) {
            return case;
        }
    }
}

/// Sequences of intake calls, each from a start.
fn sequences(count: usize) -> Vec<String> {
    let mut random = Random::new(SEED);
    (0..count).map(|_| sequence_line(&sequence(&mut random))).collect()
}

/// The pieces of a sequence as taken from a start: for each, the number, the octets received and the output, and
/// at the end the state.
fn sequence_line(case: &Case) -> String {
    let mut state = [0; 90];
    Ours.start(&mut state);
    let mut fields = vec!["Q".to_string()];
    for piece in &case.lists[2..] {
        let mut output = [LENT; MESSAGE];
        let returned = Ours.intake(&mut state, &mut piece.clone(), &mut output);
        fields.extend([octets(piece), low(returned), high(returned), left(&output)]);
    }
    fields.push(octets(&state));
    fields.join(" ")
}

/// Pages in a row, each from a start.
fn rows(count: usize) -> Vec<String> {
    let mut random = Random::new(SEED);
    (0..count).map(|_| row_line(&row_of(&collecting_sequence(&mut random)))).collect()
}

/// The pages of a sequence of the collector.
fn row_of(case: &Case) -> Vec<Sent> {
    let calls = case.numbers.chunks_exact(4).zip(&case.lists[2..]);
    calls.filter(|(numbers, _)| numbers[0] == 1).map(|(numbers, page)| (page.clone(), numbers[3])).collect()
}

/// Pages as a started collector takes them: for each, the number, the pages handed out and the output, and at the end
/// the collector.
pub fn row_line(pages: &[Sent]) -> String {
    let mut collector = vec![0; COLLECTOR];
    Ours.start_collector(&mut collector);
    let mut fields = vec!["O".to_string()];
    for (page, received) in pages {
        let mut output = vec![LENT; COLLECTOR];
        let returned = Ours.collect(&mut collector, &mut page.clone(), *received as usize, &mut output);
        fields.extend([octets(page), format!("{received:x}"), low(returned), high(returned), left_runs(&output)]);
    }
    fields.push(runs(&collector));
    fields.join(" ")
}

/// The pages of such a line.
pub fn row(line: &str) -> Option<Vec<Sent>> {
    let fields: Vec<&str> = line.strip_prefix("O ")?.split(' ').collect();
    let sent = |group: &[&str]| Some((plain(group[0])?, u64::from_str_radix(group[1], 16).ok()?));
    fields.chunks_exact(5).map(sent).collect()
}

/// A case and what it gives as a line; one of the collector that starts it is told as pages in a row.
pub fn line(case: &Case) -> String {
    let (letter, fields) = match case.entry {
        Entry::Start => ("N", start_fields(case)),
        Entry::Intake => ("I", intake_fields(case)),
        Entry::WriteBlocks => ("B", blocks_fields(case)),
        Entry::WriteText => ("T", writing_fields(case)),
        Entry::ReadText => ("R", reading_fields(case)),
        Entry::Content => ("C", content_fields(case)),
        Entry::ReadSchedule => ("S", schedule_fields(case)),
        Entry::Description => ("G", description_fields(case)),
        Entry::ReadPlan => ("P", plan_fields(case)),
        Entry::WriteSchedule => ("W", writer_fields(case)),
        Entry::CheckSchedule => ("K", checker_fields(case)),
        Entry::Decide => ("D", decide_fields(case)),
        Entry::Enter => ("E", enter_fields(case)),
        Entry::Slots => ("L", slots_fields(case)),
        Entry::ReadHeader => ("H", header_fields(case)),
        Entry::StartCollector => ("J", start_collector_fields(case)),
        Entry::Collect if case.numbers[0] == 0 => return row_line(&row_of(case)),
        Entry::Collect => ("M", collect_fields(case)),
        Entry::CheckSlots => ("U", verdict_fields(case)),
    };
    format!("{letter} {}", fields.join(" "))
}

/// The call of a line, where its fields are all that the call is given; none for N, I, Q, G, O and other files' letters.
pub fn case_of(line: &str) -> Option<Case> {
    let fields: Vec<&str> = line.split(' ').collect();
    let (entry, numbers, lists, words): (Entry, &[usize], &[usize], &[usize]) = match fields[0] {
        "B" => (Entry::WriteBlocks, &[1, 2, 4], &[3], &[]),
        "T" => (Entry::WriteText, &[1, 2, 3, 4, 6], &[], &[5]),
        "R" => (Entry::ReadText, &[2, 3], &[1], &[]),
        "C" => (Entry::Content, &[2], &[1], &[]),
        "S" => (Entry::ReadSchedule, &[2], &[1], &[]),
        "P" => (Entry::ReadPlan, &[], &[1], &[]),
        "W" => (Entry::WriteSchedule, &[3, 4], &[1, 2], &[]),
        "K" => (Entry::CheckSchedule, &[4], &[1, 2, 3], &[]),
        "D" => (Entry::Decide, &[1, 3, 4, 6], &[2], &[5]),
        "E" => (Entry::Enter, &[1, 3, 4, 5], &[2], &[]),
        "L" => (Entry::Slots, &[2, 3], &[1], &[]),
        "H" => (Entry::ReadHeader, &[], &[1], &[]),
        "U" => (Entry::CheckSlots, &[4, 5], &[1, 2, 3], &[]),
        "J" => return Some(Case::new(Entry::StartCollector, &[], &[&from_runs(fields[1])?], &[])),
        "M" => {
            let number = |at: usize| u64::from_str_radix(fields[at], 16).ok();
            let sent = (plain(fields[2])?, number(3)?);
            return Some(collecting(&from_runs(fields[1])?, &sent, number(4)? as usize));
        }
        _ => return None,
    };
    let field = |&at: &usize| fields[at].trim_matches('-');
    Some(Case {
        entry,
        numbers: numbers.iter().map(|at| u64::from_str_radix(field(at), 16).ok()).collect::<Option<Vec<u64>>>()?,
        lists: lists.iter().map(|at| case::octets(field(at))).collect::<Option<Vec<Vec<u8>>>>()?,
        words: words.iter().map(|at| case::words(field(at))).collect::<Option<Vec<Vec<u16>>>>()?.concat(),
    })
}

fn start_fields(case: &Case) -> Vec<String> {
    let mut state = given(case, 0);
    let returned = Ours.start(&mut state);
    vec![list(case, 0), low(returned), after(&case.lists[0], &state, octets)]
}

/// One intake call: its state is as long as what is lent of it.
fn intake_fields(case: &Case) -> Vec<String> {
    let before = &case.lists[0][..case.number(1).min(case.lists[0].len())];
    let mut state = before.to_vec();
    let mut output = vec![LENT; case.number(2)];
    let returned = Ours.intake(&mut state, &mut given(case, 2), &mut output);
    let taken = vec![octets(before), list(case, 2), number(case, 2)];
    [taken, vec![low(returned), high(returned), after(before, &state, octets), left(&output)]].concat()
}

fn blocks_fields(case: &Case) -> Vec<String> {
    let mut out = lent(case);
    let returned = Ours.write_blocks(&mut given(case, 0), case.numbers[0] != 0, case.number(1), &mut out);
    vec![number(case, 0), number(case, 1), list(case, 0), number(case, 2), low(returned), left(&out)]
}

fn writing_fields(case: &Case) -> Vec<String> {
    let mut out = lent(case);
    let returned = Ours.write_text(header(case), &mut case.words.clone(), &mut out);
    let mut fields: Vec<String> = (0..4).map(|at| number(case, at)).collect();
    fields.extend([words(&case.words), number(case, 4), low(returned), high(returned), left(&out)]);
    fields
}

fn reading_fields(case: &Case) -> Vec<String> {
    let mut text = vec![LENT_WORD; text_length(case)];
    let returned = Ours.read_text(&mut given(case, 0), case.number(0), &mut text);
    vec![list(case, 0), number(case, 0), number(case, 1), low(returned), high(returned), left_words(&text)]
}

fn content_fields(case: &Case) -> Vec<String> {
    let returned = Ours.content(&mut given(case, 0), case.number(0));
    let part = content(&case.lists[0], case.number(0)).unwrap_or(&[]);
    vec![list(case, 0), number(case, 0), low(returned), octets(part)]
}

/// Begin, End and each description in the message's order.
fn schedule_fields(case: &Case) -> Vec<String> {
    let mut values: Vec<u64> = Vec::new();
    match read_schedule(&case.lists[0], case.number(0)) {
        Err(refusal) => values.extend([refusal.number() as u64, 0, 0]),
        Ok(schedule) => {
            values.extend([0, schedule.begin as u64, schedule.end as u64]);
            for told in schedule.told {
                values.extend([told.slot as u64, told.new as u64, told.description.code() as u64]);
            }
        }
    }
    let values = values.iter().map(|value| format!("{value:x}")).collect();
    [vec![list(case, 0), number(case, 0)], values].concat()
}

fn description_fields(case: &Case) -> Vec<String> {
    let returned = Ours.description(&mut given(case, 0), case.number(0), case.number(1));
    let (slot, new, code) = (returned >> 8 & 0xFF, returned >> 16 & 1, returned >> 32);
    let told = [slot, new, code].map(|value| format!("{value:x}"));
    [vec![list(case, 0), number(case, 0), number(case, 1), low(returned)], told.to_vec()].concat()
}

fn plan_fields(case: &Case) -> Vec<String> {
    let returned = Ours.read_plan(&mut given(case, 0));
    vec![list(case, 0), low(returned), high(returned)]
}

fn writer_fields(case: &Case) -> Vec<String> {
    let mut out = lent(case);
    let returned = Ours.write_schedule(&mut given(case, 0), &mut given(case, 1), case.number(0), &mut out);
    let plans = vec![list(case, 0), list(case, 1)];
    [plans, vec![number(case, 0), number(case, 1), low(returned), high(returned), left(&out)]].concat()
}

fn checker_fields(case: &Case) -> Vec<String> {
    let (mut current, mut previous, mut message) = (given(case, 0), given(case, 1), given(case, 2));
    let returned = Ours.check_schedule(&mut current, &mut previous, &mut message, case.number(0));
    let lists = vec![list(case, 0), list(case, 1), list(case, 2)];
    [lists, vec![number(case, 0), low(returned), high(returned)]].concat()
}

fn decide_fields(case: &Case) -> Vec<String> {
    let (known, received, slot, held) = (case.numbers[0] != 0, case.number(1), case.number(2), case.numbers[3]);
    let returned = Ours.decide(known, &mut given(case, 0), received, slot, &mut case.words.clone(), held);
    let schedule = vec![number(case, 0), list(case, 0), number(case, 1)];
    let rest = vec![number(case, 2), words(&case.words), number(case, 3), low(returned), high(returned)];
    [schedule, rest].concat()
}

fn enter_fields(case: &Case) -> Vec<String> {
    let (known, received, slot, held) = (case.numbers[0] != 0, case.number(1), case.number(2), case.numbers[3]);
    let after = Ours.enter(known, &mut given(case, 0), received, slot, held);
    let schedule = vec![number(case, 0), list(case, 0), number(case, 1)];
    [schedule, vec![number(case, 2), number(case, 3), format!("{after:x}")]].concat()
}

fn slots_fields(case: &Case) -> Vec<String> {
    let mut slots = vec![LENT_SLOT; slots_length(case)];
    let returned = Ours.slots(&mut given(case, 0), case.number(0), &mut slots);
    let taken = vec![list(case, 0), number(case, 0), number(case, 1)];
    let begin_end = [returned >> 8 & 0xFF, returned >> 16].map(|value| format!("{value:x}"));
    [taken, vec![low(returned)], begin_end.to_vec(), vec![left_slots(&slots)]].concat()
}

fn header_fields(case: &Case) -> Vec<String> {
    let returned = Ours.read_header(&mut given(case, 0));
    let (scheme, serial) = (returned >> 8 & 0xFF, returned >> 16 & 0xFFFF);
    let (identifier, parameter) = (returned >> 32 & 0xFFFF, returned >> 48);
    let values = [scheme, serial, identifier, parameter].map(|value| format!("{value:x}"));
    [vec![list(case, 0), low(returned)], values.to_vec()].concat()
}

fn start_collector_fields(case: &Case) -> Vec<String> {
    let mut collector = given(case, 0);
    let returned = Ours.start_collector(&mut collector);
    vec![runs(&case.lists[0]), low(returned), after(&case.lists[0], &collector, runs)]
}

/// One call of the collector, which is as long as what is lent of it.
fn collect_fields(case: &Case) -> Vec<String> {
    let before = &case.lists[0][..case.number(1).min(case.lists[0].len())];
    let mut collector = before.to_vec();
    let mut output = vec![LENT; case.number(2)];
    let returned = Ours.collect(&mut collector, &mut given(case, 2), case.number(3), &mut output);
    let taken = vec![runs(before), list(case, 2), number(case, 3), number(case, 2)];
    [taken, vec![low(returned), high(returned), after(before, &collector, runs), left_runs(&output)]].concat()
}

fn verdict_fields(case: &Case) -> Vec<String> {
    let (mut current, mut previous, mut message) = (given(case, 0), given(case, 1), given(case, 2));
    let mut verdicts = lent(case);
    let returned = Ours.check_slots(&mut current, &mut previous, &mut message, case.number(0), &mut verdicts);
    let lists = vec![list(case, 0), list(case, 1), list(case, 2)];
    [lists, vec![number(case, 0), number(case, 1), low(returned), high(returned), left(&verdicts)]].concat()
}

/// A number of a case as a field.
fn number(case: &Case, at: usize) -> String {
    format!("{:x}", case.numbers[at])
}

/// A list of a case as a field.
fn list(case: &Case, at: usize) -> String {
    octets(&case.lists[at])
}

/// The number of what an entry returned.
fn low(returned: u64) -> String {
    format!("{:x}", returned & 0xFF)
}

/// The value beside the number.
fn high(returned: u64) -> String {
    format!("{:x}", returned >> 8)
}

fn given(case: &Case, list: usize) -> Vec<u8> {
    case.lists[list].clone()
}

fn lent(case: &Case) -> Vec<u8> {
    vec![LENT; output_length(case)]
}

/// A list of octets as a field; an empty one is a hyphen.
fn octets(list: &[u8]) -> String {
    if list.is_empty() {
        "-".into()
    } else {
        hex(list)
    }
}

fn words(list: &[u16]) -> String {
    if list.is_empty() {
        "-".into()
    } else {
        hex_words(list)
    }
}

/// Memory after a call, as `told` writes it; `=` where it is as it was.
fn after(before: &[u8], after: &[u8], told: fn(&[u8]) -> String) -> String {
    if before == after {
        "=".into()
    } else {
        told(after)
    }
}

/// Output after a call; `=` where it is as it was lent.
fn left(out: &[u8]) -> String {
    after(&vec![LENT; out.len()], out, octets)
}

/// The octets of a field.
fn plain(field: &str) -> Option<Vec<u8>> {
    case::octets(field.trim_matches('-'))
}

/// The octets of a collector or a message as a field: four or more equal ones in a row are their count in parentheses and
/// the octet.
pub fn runs(list: &[u8]) -> String {
    if list.is_empty() {
        return "-".into();
    }
    let one = |run: &[u8]| match run.len() {
        RUN.. => format!("({:x}){:02x}", run.len(), run[0]),
        _ => hex(run),
    };
    list.chunk_by(|one, next| one == next).map(one).collect()
}

/// Reads what `runs` writes; none where the octets aren't written as it does.
pub fn from_runs(field: &str) -> Option<Vec<u8>> {
    let mut list = Vec::new();
    let mut rest = field.trim_matches('-');
    while !rest.is_empty() {
        let (count, digits) = match rest.strip_prefix('(') {
            Some(run) => run.split_once(')')?,
            None => ("1", rest),
        };
        let (octet, after) = digits.split_at_checked(2)?;
        list.resize(list.len() + usize::from_str_radix(count, 16).ok()?, u8::from_str_radix(octet, 16).ok()?);
        rest = after;
    }
    (runs(&list) == field).then_some(list)
}

/// A message after a call; `=` where it is as it was lent.
fn left_runs(out: &[u8]) -> String {
    after(&vec![LENT; out.len()], out, runs)
}

fn left_words(text: &[u16]) -> String {
    if text.iter().all(|&point| point == LENT_WORD) {
        "=".into()
    } else {
        words(text)
    }
}

fn left_slots(slots: &[u32]) -> String {
    if slots.iter().all(|&slot| slot == LENT_SLOT) {
        "=".into()
    } else {
        hex_slots(slots)
    }
}
