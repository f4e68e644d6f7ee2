//! A case: an entry for C and all that a call of it is given, with its form as text.

/// The entries of `include/csobvarit.h`.
#[derive(Clone, Copy, Debug, PartialEq, Eq)]
pub enum Entry {
    Start,
    Intake,
    WriteBlocks,
    WriteText,
    ReadText,
    Content,
    ReadSchedule,
    Description,
    ReadPlan,
    WriteSchedule,
    CheckSchedule,
    Decide,
    Enter,
    Slots,
    ReadHeader,
    StartCollector,
    Collect,
    CheckSlots,
}

pub const ENTRIES: [Entry; 18] = [
    Entry::Start,
    Entry::Intake,
    Entry::WriteBlocks,
    Entry::WriteText,
    Entry::ReadText,
    Entry::Content,
    Entry::ReadSchedule,
    Entry::Description,
    Entry::ReadPlan,
    Entry::WriteSchedule,
    Entry::CheckSchedule,
    Entry::Decide,
    Entry::Enter,
    Entry::Slots,
    Entry::ReadHeader,
    Entry::StartCollector,
    Entry::Collect,
    Entry::CheckSlots,
];

impl Entry {
    pub fn name(self) -> &'static str {
        match self {
            Entry::Start => "cb_start",
            Entry::Intake => "cb_intake",
            Entry::WriteBlocks => "cb_write_blocks",
            Entry::WriteText => "cb_write_text",
            Entry::ReadText => "cb_read_text",
            Entry::Content => "cb_content",
            Entry::ReadSchedule => "cb_read_schedule",
            Entry::Description => "cb_description",
            Entry::ReadPlan => "cb_read_plan",
            Entry::WriteSchedule => "cb_write_schedule",
            Entry::CheckSchedule => "cb_check_schedule",
            Entry::Decide => "cb_decide",
            Entry::Enter => "cb_enter",
            Entry::Slots => "cb_slots",
            Entry::ReadHeader => "cb_read_header",
            Entry::StartCollector => "cb_start_collector",
            Entry::Collect => "cb_collect",
            Entry::CheckSlots => "cb_check_slots",
        }
    }

    /// What the numbers, the lists of octets and the list of 16-bit numbers of a case are.
    pub fn fields(self) -> (&'static [&'static str], &'static [&'static str], &'static str) {
        match self {
            Entry::Start => (&[], &["state"], ""),
            Entry::Intake => (&["call", "state length", "output length"], &["state", "output", "piece"], ""),
            Entry::WriteBlocks => (&["schedule", "used", "output length"], &["message"], ""),
            Entry::WriteText => (&["serial", "identifier", "scheme", "parameter", "output length"], &[], "text"),
            Entry::ReadText => (&["received", "text length"], &["page"], ""),
            Entry::Content => (&["received"], &["page"], ""),
            Entry::ReadSchedule => (&["received"], &["message"], ""),
            Entry::Description => (&["received", "place", "places"], &["message"], ""),
            Entry::ReadPlan => (&[], &["file"], ""),
            Entry::WriteSchedule => (&["begin", "output length"], &["current", "previous"], ""),
            Entry::CheckSchedule => (&["received"], &["current", "previous", "message"], ""),
            Entry::Decide => (&["known", "received", "slot", "held"], &["message"], "wanted"),
            Entry::Enter => (&["known", "received", "slot", "held"], &["message"], ""),
            Entry::Slots => (&["received", "slots length"], &["message"], ""),
            Entry::ReadHeader => (&[], &["page"], ""),
            Entry::StartCollector => (&[], &["collector"], ""),
            Entry::Collect => {
                let numbers = &["call", "collector length", "output length", "received"];
                (numbers, &["collector", "output", "page"], "")
            }
            Entry::CheckSlots => (&["received", "verdicts length"], &["current", "previous", "message"], ""),
        }
    }

    /// The numbers of each call, where a case is a sequence of calls on memory that lasts; otherwise none.
    pub fn per_call(self) -> Option<usize> {
        match self {
            Entry::Intake => Some(3),
            Entry::Collect => Some(4),
            _ => None,
        }
    }
}

/// All that a call is given. An intake case is a sequence of calls on one state and one output: three numbers
/// for each call (0 start or 1 intake, then the lengths of state and output lent) and a piece for each call. A case of
/// the collector is one too, with the collector as the state, pages as the pieces, and the octets received as a fourth
/// number.
#[derive(Clone, Debug, PartialEq, Eq)]
pub struct Case {
    pub entry: Entry,
    pub numbers: Vec<u64>,
    pub lists: Vec<Vec<u8>>,
    pub words: Vec<u16>,
}

impl Case {
    pub fn new(entry: Entry, numbers: &[u64], lists: &[&[u8]], words: &[u16]) -> Case {
        Case {
            entry,
            numbers: numbers.to_vec(),
            lists: lists.iter().map(|list| list.to_vec()).collect(),
            words: words.to_vec(),
        }
    }

    pub fn number(&self, at: usize) -> usize {
        self.numbers[at] as usize
    }

    /// The calls that a case makes.
    pub fn calls(&self) -> u64 {
        match self.entry.per_call() {
            Some(numbers) => (self.numbers.len() / numbers) as u64,
            None if self.entry == Entry::Description => self.numbers[2],
            None => 1,
        }
    }

    /// The case as text: the entry, then n: numbers, o: octets, w: 16-bit numbers, all hexadecimal.
    pub fn text(&self) -> String {
        let mut fields = vec![self.entry.name().to_string()];
        fields.extend(self.numbers.iter().map(|number| format!("n:{number:x}")));
        fields.extend(self.lists.iter().map(|list| format!("o:{}", hex(list))));
        fields.push(format!("w:{}", hex_words(&self.words)));
        fields.join(" ")
    }

    /// Reads what `text` writes.
    pub fn parse(text: &str) -> Option<Case> {
        let mut fields = text.split_whitespace();
        let name = fields.next()?;
        let entry = ENTRIES.into_iter().find(|entry| entry.name() == name)?;
        let mut case = Case::new(entry, &[], &[], &[]);
        for field in fields {
            match field.split_at_checked(2)? {
                ("n:", digits) => case.numbers.push(u64::from_str_radix(digits, 16).ok()?),
                ("o:", digits) => case.lists.push(octets(digits)?),
                ("w:", digits) => case.words = words(digits)?,
                _ => return None,
            }
        }
        case.is_whole().then_some(case)
    }

    /// Whether the case has as many numbers and lists as its entry takes.
    fn is_whole(&self) -> bool {
        let (numbers, lists, _) = self.entry.fields();
        match self.entry.per_call() {
            Some(each) => self.numbers.len() % each == 0 && self.lists.len() == 2 + self.numbers.len() / each,
            None => self.numbers.len() == numbers.len() && self.lists.len() == lists.len(),
        }
    }
}

pub fn hex(octets: &[u8]) -> String {
    octets.iter().map(|octet| format!("{octet:02x}")).collect()
}

pub fn hex_words(words: &[u16]) -> String {
    words.iter().map(|word| format!("{word:04x}")).collect()
}

pub fn hex_slots(slots: &[u32]) -> String {
    slots.iter().map(|slot| format!("{slot:08x}")).collect()
}

pub fn octets(digits: &str) -> Option<Vec<u8>> {
    let pairs = digits.as_bytes().chunks(2);
    pairs.map(|pair| u8::from_str_radix(std::str::from_utf8(pair).ok()?, 16).ok()).collect()
}

pub fn words(digits: &str) -> Option<Vec<u16>> {
    let fours = digits.as_bytes().chunks(4);
    fours.map(|four| u16::from_str_radix(std::str::from_utf8(four).ok()?, 16).ok()).collect()
}
