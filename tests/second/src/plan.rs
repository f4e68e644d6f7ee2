//! Plans, and the reader of plan files.

use crate::refusal::Refusal;
use crate::schedule::SLOTS;

const MARK: &[u8] = b"CBP"; // 01 The plan
const VERSION: [u8; 2] = [0, 1]; // 01 The plan
const HEAD: usize = 6; // 01 The plan: mark, version, count
const ENTRY: usize = 6; // 01 The plan: per slot

/// A page as a plan has it, with its parameter as sent. Whether two are the same page, `is_same` alone tells: octets
/// that differ can be the same page, so pages, entries and plans have no `==`. // 01 The plan, 02 No. 2
#[derive(Clone, Copy, Debug)]
pub struct Page {
    pub serial: u16,
    pub identifier: u16,
    pub parameter: u8,
}

/// Which page of how many.
#[derive(Clone, Copy, Debug, PartialEq, Eq)]
pub struct Place {
    pub page: u8,
    pub total: u8,
}

impl Page {
    /// What its parameter is treated as: page 1 of 1 where either half is 0. // 002 9.3.2 (iv), 02 No. 2
    pub fn place(self) -> Place {
        let (page, total) = (self.parameter >> 4, self.parameter & 0x0F);
        if page == 0 || total == 0 {
            Place { page: 1, total: 1 }
        } else {
            Place { page, total }
        }
    }

    /// Whether two pages are the same page. // 01 Page and text, 02 No. 2
    pub fn is_same(self, other: Page) -> bool {
        self.serial == other.serial && self.identifier == other.identifier && self.place() == other.place()
    }
}

/// What is planned for a slot. // 01 The plan
#[derive(Clone, Copy, Debug)]
pub enum Entry {
    Optional,
    Advised,
    Page(Page),
}

impl Entry {
    /// The page of a slot that has one.
    pub fn page(self) -> Option<Page> {
        match self {
            Entry::Page(page) => Some(page),
            _ => None,
        }
    }
}

/// A plan: what is planned for slot 1 and on, 48 at most. // 01 The plan
#[derive(Clone, Debug, Default)]
pub struct Plan {
    pub entries: Vec<Entry>,
}

impl Plan {
    pub fn count(&self) -> usize {
        self.entries.len()
    }

    /// The lowest slot with a page. // 01 The plan
    pub fn lowest(&self, page: Page) -> Option<usize> {
        let has_it = |entry: &Entry| entry.page().is_some_and(|there| there.is_same(page));
        let at = self.entries.iter().position(has_it)?;
        Some(at + 1)
    }

    pub fn has(&self, page: Page) -> bool {
        self.lowest(page).is_some()
    }

    /// The plan as a file, with each parameter as sent. // 01 The plan
    pub fn file(&self) -> Vec<u8> {
        let mut file = [MARK, &VERSION, &[self.count() as u8]].concat();
        for &entry in &self.entries {
            file.extend(entry_octets(entry));
        }
        file
    }
}

/// The six octets of an entry. // 01 The plan
fn entry_octets(entry: Entry) -> [u8; ENTRY] {
    match entry {
        Entry::Optional => [0; ENTRY],
        Entry::Advised => [1, 0, 0, 0, 0, 0],
        Entry::Page(page) => {
            let [s1, s2] = page.serial.to_be_bytes();
            let [i1, i2] = page.identifier.to_be_bytes();
            [2, s1, s2, i1, i2, page.parameter]
        }
    }
}

/// Reads a plan file; refuses by 32 if short, then by 30, 31, 32, and at its lowest bad entry by 36 or 37, with that
/// entry's number. // 01 Order, 02 No. 1
pub fn read_plan(file: &[u8]) -> Result<Plan, Refusal> {
    if file.len() < HEAD {
        return Err(Refusal::PlanLength);
    }
    if &file[0..3] != MARK {
        return Err(Refusal::PlanMark);
    }
    if file[3..5] != VERSION {
        return Err(Refusal::PlanVersion);
    }
    let count = file[5] as usize;
    if count > SLOTS || file.len() != HEAD + ENTRY * count {
        return Err(Refusal::PlanLength);
    }
    let entries = (1..).zip(file[HEAD..].chunks_exact(ENTRY)).map(|(number, octets)| entry(number, octets));
    Ok(Plan { entries: entries.collect::<Result<Vec<Entry>, Refusal>>()? })
}

/// An entry of a plan file, by its number from 1; refuses by 36 or 37. // 01 The plan, 02 No. 1
fn entry(number: usize, octets: &[u8]) -> Result<Entry, Refusal> {
    let blank = octets[1..].iter().all(|&octet| octet == 0);
    match octets[0] {
        0 | 1 if !blank => Err(Refusal::PlanStray(number)),
        0 => Ok(Entry::Optional),
        1 => Ok(Entry::Advised),
        2 => Ok(Entry::Page(Page {
            serial: u16::from_be_bytes([octets[1], octets[2]]),
            identifier: u16::from_be_bytes([octets[3], octets[4]]),
            parameter: octets[5],
        })),
        _ => Err(Refusal::PlanKind(number)),
    }
}
