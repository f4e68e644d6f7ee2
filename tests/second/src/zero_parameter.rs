//! The edges of document 02's No. 2: pages whose parameter has a zero half, beside page 1 of 1, beside each other and
//! beside pages that stay others; and plans as they are read by the octet as sent.

use crate::blocks::{CONTENT, MESSAGE};
use crate::case::{Case, Entry};
use crate::edges::near_pages;
use crate::plan::{self, read_plan, Page, Plan};
use crate::schedule::{read_schedule, Description, Told, DESCRIPTIONS, SLOTS};
use crate::sender::{lay, write_schedule};
use crate::text::{pack, CHARACTERS, HEADER};

/// A current and a previous plan.
pub type Plans = [Plan; 2];

const PAGE: Page = Page { serial: 0x0010, identifier: 0x8001, parameter: 0x11 };
const ONE: [u8; 8] = [0x11, 0x00, 0x01, 0x10, 0x0F, 0xF0, 0x05, 0x50]; // all treated as 11 // 002 9.3.2 (iv)
const OTHERS: [u8; 5] = [0x21, 0x12, 0x22, 0x1F, 0xF1]; // stay what they are

/// Plans of which the same is true as of the given ones where pages are compared by the octet as sent, as document 01
/// alone has it: the place of a page's octets among all is its serial number, and its parameter 11. Identifiers, which
/// a message tells, stay.
pub fn by_octets([current, previous]: &Plans) -> Plans {
    let octets = |page: Page| (page.serial, page.identifier, page.parameter);
    let entries = current.entries.iter().chain(&previous.entries);
    let all: Vec<(u16, u16, u8)> = entries.filter_map(|entry| entry.page()).map(octets).collect();
    let place = |page: Page| all.iter().position(|&there| there == octets(page)).expect("it is among all") as u16;
    let read = |page: Page| Page { serial: place(page), parameter: 0x11, ..page };
    [each_page(current, read), each_page(previous, read)]
}

/// Two plan files read by the octet as sent; if either is refused, as they are.
pub fn files_by_octets(current: &[u8], previous: &[u8]) -> [Vec<u8>; 2] {
    match (read_plan(current), read_plan(previous)) {
        (Ok(current), Ok(previous)) => by_octets(&[current, previous]).map(|plan| plan.file()),
        _ => [current.to_vec(), previous.to_vec()],
    }
}

/// Plans of which the same is true as of the given ones where the parameter means nothing.
fn by_numbers(plans: &Plans) -> Plans {
    plans.each_ref().map(|plan| each_page(plan, |page| Page { parameter: 0x11, ..page }))
}

/// A plan with another page for each of its pages.
fn each_page(plan: &Plan, other: impl Fn(Page) -> Page) -> Plan {
    let entries = plan.entries.iter().map(|&entry| entry.page().map_or(entry, |page| plan::Entry::Page(other(page))));
    Plan { entries: entries.collect() }
}

/// The page of document 02's example with another parameter.
fn form(parameter: u8) -> Page {
    Page { parameter, ..PAGE }
}

fn pages(pages: &[Page]) -> Plan {
    Plan { entries: pages.iter().map(|&page| plan::Entry::Page(page)).collect() }
}

/// A slot for each of these parameters.
fn forms(parameters: &[u8]) -> Plan {
    pages(&parameters.iter().map(|&parameter| form(parameter)).collect::<Vec<Page>>())
}

/// Every parameter with a zero half. // 002 9.3.2 (iv)
fn zero_halves() -> impl Iterator<Item = u8> {
    (0..=0xFF).filter(|parameter| parameter >> 4 == 0 || parameter & 0x0F == 0)
}

/// The writer of text refuses every zero half. // 01 Numbers given, 14, 02 No. 2
pub fn texts() -> Vec<Case> {
    let numbers = |parameter: u8| [0x0010, 0x8001, 0, parameter as u64, MESSAGE as u64];
    zero_halves().map(|parameter| Case::new(Entry::WriteText, &numbers(parameter), &[], &[0x41])).collect()
}

/// A page with the text "A".
fn page_of(parameter: u8) -> [u8; MESSAGE] {
    let mut septets = [0x0D; CHARACTERS];
    septets[0] = 0x41;
    let mut page = [0; MESSAGE];
    page[..HEADER].copy_from_slice(&[0x00, 0x10, 0x80, 0x01, 0x00, parameter]);
    pack(&septets, &mut page[HEADER..]);
    page
}

/// The reader of text doesn't look at the parameter. // 01 Order
pub fn readings() -> Vec<Case> {
    let numbers = [MESSAGE as u64, CHARACTERS as u64];
    let zeros = ONE[1..].iter();
    zeros.map(|&parameter| Case::new(Entry::ReadText, &numbers, &[&page_of(parameter)], &[])).collect()
}

/// The header is given as sent. // 01 Page and text
pub fn headers() -> Vec<Case> {
    let parameters = zero_halves().chain([0x11]).chain(OTHERS);
    parameters.map(|parameter| Case::new(Entry::ReadHeader, &[], &[&page_of(parameter)], &[])).collect()
}

/// A plan takes every zero half. // 01 The plan
pub fn plans() -> Vec<Case> {
    let all: Vec<u8> = zero_halves().collect();
    let mut plans: Vec<Plan> = all.iter().map(|&parameter| forms(&[parameter])).collect();
    plans.push(forms(&all));
    plans.iter().map(|plan| Case::new(Entry::ReadPlan, &[], &[&plan.file()], &[])).collect()
}

/// Two that are treated as 11, in both orders.
fn one_page() -> Vec<[u8; 2]> {
    let all = ONE.into_iter().flat_map(|one| ONE.map(|other| [one, other]));
    all.filter(|[one, other]| one != other).collect()
}

/// Others beside 11 and beside 00, in both orders.
fn two_pages() -> Vec<[u8; 2]> {
    OTHERS.into_iter().flat_map(|other| [[0x11, other], [other, 0x11], [0x00, other], [other, 0x00]]).collect()
}

/// Two parameters in two slots.
fn beside([one, other]: [u8; 2]) -> Plans {
    [forms(&[one, other]), Plan::default()]
}

/// Two parameters, the second in the previous plan.
fn before([one, other]: [u8; 2]) -> Plans {
    [forms(&[one]), forms(&[other])]
}

/// Document 02's two slots in both orders, beside previous plans with one form, with another page and with both.
fn example_before() -> Vec<Plans> {
    let previous: [&[u8]; 7] = [&[0x00], &[0x11], &[0x50], &[0x21], &[0x00, 0x11], &[0x21, 0x00], &[0x12, 0x22]];
    let both = [[0x00, 0x11], [0x11, 0x00]];
    both.iter().flat_map(|two| previous.map(|previous| [forms(two), forms(previous)])).collect()
}

/// A form, and in the previous plan pages in another form that differ in serial number or identifier too.
fn near_before() -> Vec<Plans> {
    let mut plans = Vec::new();
    for [one, other] in [[0x00, 0x11], [0x11, 0x00], [0x0F, 0x50]] {
        let near = near_pages(form(other)).into_iter().filter(|near| near.parameter == other);
        plans.extend(near.map(|near| [forms(&[one]), pages(&[near])]));
    }
    plans
}

/// The same beside each other.
fn near_beside() -> Vec<Plans> {
    let joined = |[current, previous]: Plans| [current.entries, previous.entries].concat();
    near_before().into_iter().map(|plans| [Plan { entries: joined(plans) }, Plan::default()]).collect()
}

/// A page in four forms, with free slots, another page of its message, and pages of other messages in between; one of
/// these has the same low 15 bits.
fn in_between(forms: [u8; 4]) -> Plan {
    let serial = |parameter: u8| Page { serial: 0x0011, ..form(parameter) };
    let low = Page { identifier: 0x0001, ..form(forms[0]) };
    let [one, two, three, four] = forms.map(form);
    let mut plan = pages(&[one, serial(0x11), form(0x21), two, serial(0x00), three, low, form(0x21), four]);
    plan.entries.insert(2, plan::Entry::Optional);
    plan.entries.insert(5, plan::Entry::Advised);
    plan
}

/// Page 1 of 1 first as 00 and later as 11, the other way round, and in other forms, beside several previous plans.
fn all_in_between() -> Vec<Plans> {
    let forms =
        [[0x00, 0x11, 0x11, 0x11], [0x11, 0x00, 0x00, 0x00], [0x05, 0x50, 0x11, 0x00], [0xF0, 0x0F, 0x01, 0x10]];
    let serial = Page { serial: 0x0011, ..form(0x05) };
    let previous: [&[Page]; 5] = [&[], &[form(0x11)], &[form(0x00)], &[serial, form(0x12)], &[form(0x21), form(0x50)]];
    forms.into_iter().flat_map(|forms| previous.map(|previous| [in_between(forms), pages(previous)])).collect()
}

/// The page of each slot, by its place from 0.
fn planned(slots: usize, page: impl Fn(usize) -> Page) -> Plan {
    pages(&(0..slots).map(page).collect::<Vec<Page>>())
}

/// A message of its own for each number, in a form.
fn numbered(number: usize, parameter: u8) -> Page {
    Page { serial: number as u16, ..form(parameter) }
}

/// 48 slots: one page in all forms, and with another page before it; two forms in the last slots; 16 pages in three
/// forms each, and 24 in two.
fn all_slots() -> Vec<Plan> {
    let halves: Vec<u8> = zero_halves().chain([0x11]).collect();
    let mut last = Plan { entries: vec![plan::Entry::Optional; SLOTS - 2] };
    last.entries.extend(forms(&[0x00, 0x11]).entries);
    vec![
        planned(SLOTS, |at| form(halves[at % halves.len()])),
        planned(SLOTS, |at| form(if at == 0 { 0x21 } else { ONE[at % ONE.len()] })),
        last,
        planned(SLOTS, |at| numbered(at % 16, [0x00, 0x11, 0xF0][at / 16])),
        planned(SLOTS, |at| numbered(at % 24, [0x11, 0x00][at / 24])),
    ]
}

/// This many different pages, and the last of them in another form in the slots that are left.
fn filling(count: usize, slots: usize, [one, other]: [u8; 2]) -> Plan {
    planned(slots, |at| if at < count { numbered(at, one) } else { numbered(count - 1, other) })
}

/// Plans that fit because two forms are one page, and plans that don't fit all the same. // 01 Where the edges are
fn fillings() -> Vec<Plan> {
    let both = [[0x11, 0x00], [0x00, 0x11]];
    let sizes = [(32, SLOTS), (33, SLOTS), (39, 41), (40, 41), (38, 42), (40, 40)];
    sizes.iter().flat_map(|&(count, slots)| both.map(|forms| filling(count, slots, forms))).collect()
}

fn writing([current, previous]: &Plans) -> Case {
    Case::new(Entry::WriteSchedule, &[1, MESSAGE as u64], &[&current.file(), &previous.file()], &[])
}

/// What the writer is given. // 02 No. 2
pub fn written() -> Vec<Case> {
    let two = [one_page(), two_pages()].concat();
    let mut plans: Vec<Plans> = two.iter().flat_map(|&two| [beside(two), before(two)]).collect();
    plans.extend([example_before(), near_before(), near_beside(), all_in_between()].concat());
    let long = [all_slots(), fillings()].concat();
    plans.extend(long.iter().map(|plan| [plan.clone(), Plan::default()]));
    plans.push([filling(32, SLOTS, [0x11, 0x00]), filling(32, 32, [0x05, 0x05])]);
    plans.iter().map(writing).collect()
}

/// The message of plans and its octets received, up to the block of the last used one; none where it doesn't fit.
fn told([current, previous]: &Plans) -> Option<([u8; MESSAGE], usize)> {
    let mut message = [0; MESSAGE];
    let used = write_schedule(Ok(current.clone()), Ok(previous.clone()), 1, &mut message).ok()?;
    Some((message, CONTENT * used.div_ceil(CONTENT)))
}

fn checking([current, previous]: &Plans, message: &[u8], received: usize) -> Case {
    Case::new(Entry::CheckSchedule, &[received as u64], &[&current.file(), &previous.file(), message], &[])
}

/// Plans beside what is true of them, and beside what would be by the octet as sent and if the parameter meant nothing,
/// where that differs and fits.
fn told_thrice(plans: &Plans) -> Vec<Case> {
    let mut tellings: Vec<([u8; MESSAGE], usize)> = Vec::new();
    for telling in [told(plans), told(&by_octets(plans)), told(&by_numbers(plans))].into_iter().flatten() {
        if !tellings.contains(&telling) {
            tellings.push(telling);
        }
    }
    tellings.iter().map(|(message, received)| checking(plans, message, *received)).collect()
}

/// Each form first with all others after it: what is true, and one of the others as a first transmission.
fn turned() -> Vec<Case> {
    let mut cases = Vec::new();
    for turn in 0..ONE.len() {
        let mut parameters = ONE;
        parameters.rotate_left(turn);
        let plans = [forms(&parameters), Plan::default()];
        let (message, received) = told(&plans).expect("eight slots fit");
        let mut slots = read_schedule(&message, received).expect("it is read").told;
        slots[1 + turn % 7].description = Description::First(0x0001);
        cases.push(checking(&plans, &message, received));
        cases.push(checking(&plans, &lay(1, &slots).expect("eight slots fit"), received));
    }
    cases
}

/// A new bit of 0 where only near pages stand in the previous plan.
fn false_old() -> Vec<Case> {
    let tell = |plans: &Plans| told(&[plans[0].clone(), plans[0].clone()]).expect("one slot fits");
    let all = near_before().into_iter().step_by(4).map(|plans| (tell(&plans), plans));
    all.map(|((message, received), plans)| checking(&plans, &message, received)).collect()
}

/// What may be told of two slots of one page besides a first transmission and its repeat, and what may not.
fn told_otherwise() -> Vec<Case> {
    let (first, repeat) = (Description::First(0x0001), Description::Repeat(1));
    let (optional, advised) = (Description::Optional, Description::Advised);
    let tellings = [
        [(true, first), (true, advised)],
        [(true, first), (false, advised)],
        [(true, first), (false, optional)],
        [(true, first), (true, optional)],
        [(true, first), (false, repeat)],
        [(true, advised), (false, optional)],
        [(true, advised), (true, first)],
        [(false, optional), (true, first)],
    ];
    let mut cases = Vec::new();
    for two in [[0x00, 0x11], [0x11, 0x00]] {
        for telling in tellings {
            let slots = [1, 2].map(|slot| Told { slot, new: telling[slot - 1].0, description: telling[slot - 1].1 });
            let mut message = lay(1, &slots).expect("two slots fit");
            cases.push(checking(&beside(two), &message, CONTENT));
            if telling[0].1 == first && telling[1].1 == optional {
                message[DESCRIPTIONS + 2] = if two[0] == 0 { 0x42 } else { 0x7F };
                cases.push(checking(&beside(two), &message, CONTENT));
            }
        }
    }
    cases
}

/// What the checker is given. // 02 No. 2
pub fn checked() -> Vec<Case> {
    let with_11 = one_page().into_iter().filter(|two| two.contains(&0x11));
    let mut plans: Vec<Plans> = with_11.map(beside).collect();
    plans.extend([[0x00, 0x11], [0x11, 0x00], [0x0F, 0x11], [0x11, 0xF0], [0x50, 0x00], [0x00, 0x05]].map(before));
    plans.extend(two_pages().into_iter().skip(1).step_by(2).map(beside));
    plans.extend([[0x00, 0x21], [0x11, 0x21], [0x21, 0x00], [0x22, 0x11], [0x00, 0xF1]].map(before));
    plans.extend(example_before().into_iter().step_by(3));
    plans.extend(all_in_between().into_iter().step_by(6));
    plans.extend(all_slots().into_iter().skip(1).step_by(2).map(|plan| [plan, Plan::default()]));
    plans.extend([[0x11, 0x00], [0x00, 0x11]].map(|forms| [filling(32, SLOTS, forms), Plan::default()]));
    let mut cases: Vec<Case> = plans.iter().flat_map(told_thrice).collect();
    cases.extend([turned(), false_old(), told_otherwise()].concat());
    cases
}
