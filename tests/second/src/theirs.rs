//! The entries of the archives, as many as there are.

use second::case::Entry;
use second::side::Side;
use second::text::Header;

/// Each entry of the archives as a function, or none where the archives lack it.
macro_rules! entries {
    ($($name:ident($($given:ty),*) -> $returned:ty;)*) => {
        mod linked {
            $(
                #[cfg($name)]
                pub mod $name {
                    extern "C" {
                        fn $name($(_: $given),*) -> $returned;
                    }
                    pub const CALL: Option<unsafe extern "C" fn($($given),*) -> $returned> = Some($name);
                }
                #[cfg(not($name))]
                pub mod $name {
                    pub const CALL: Option<unsafe extern "C" fn($($given),*) -> $returned> = None;
                }
            )*
        }
    };
}

entries! {
    cb_start(*mut u8, usize) -> u32;
    cb_intake(*mut u8, usize, *const u8, usize, *mut u8, usize) -> u32;
    cb_write_blocks(*const u8, usize, bool, usize, *mut u8, usize) -> u32;
    cb_write_text(u16, u16, u8, u8, *const u16, usize, *mut u8, usize) -> u32;
    cb_read_text(*const u8, usize, usize, *mut u16, usize) -> u32;
    cb_content(*const u8, usize, usize) -> u32;
    cb_read_schedule(*const u8, usize, usize) -> u32;
    cb_description(*const u8, usize, usize, usize) -> u64;
    cb_read_plan(*const u8, usize) -> u32;
    cb_write_schedule(*const u8, usize, *const u8, usize, usize, *mut u8, usize) -> u32;
    cb_check_schedule(*const u8, usize, *const u8, usize, *const u8, usize, usize) -> u32;
    cb_decide(bool, *const u8, usize, usize, usize, *const u16, usize, u64) -> u32;
    cb_enter(bool, *const u8, usize, usize, usize, u64) -> u64;
    cb_slots(*const u8, usize, usize, *mut u32, usize) -> u32;
    cb_read_header(*const u8, usize) -> u64;
    cb_start_collector(*mut u8, usize) -> u32;
    cb_collect(*mut u8, usize, *const u8, usize, usize, *mut u8, usize) -> u32;
    cb_check_slots(*const u8, usize, *const u8, usize, *const u8, usize, usize, *mut u8, usize) -> u32;
}

/// The archives.
pub struct Theirs;

/// Whether the archives have an entry; an intake case starts its state too, and a collecting one its collector.
pub fn has(entry: Entry) -> bool {
    match entry {
        Entry::Start => linked::cb_start::CALL.is_some(),
        Entry::Intake => linked::cb_intake::CALL.is_some() && linked::cb_start::CALL.is_some(),
        Entry::WriteBlocks => linked::cb_write_blocks::CALL.is_some(),
        Entry::WriteText => linked::cb_write_text::CALL.is_some(),
        Entry::ReadText => linked::cb_read_text::CALL.is_some(),
        Entry::Content => linked::cb_content::CALL.is_some(),
        Entry::ReadSchedule => linked::cb_read_schedule::CALL.is_some(),
        Entry::Description => linked::cb_description::CALL.is_some(),
        Entry::ReadPlan => linked::cb_read_plan::CALL.is_some(),
        Entry::WriteSchedule => linked::cb_write_schedule::CALL.is_some(),
        Entry::CheckSchedule => linked::cb_check_schedule::CALL.is_some(),
        Entry::Decide => linked::cb_decide::CALL.is_some(),
        Entry::Enter => linked::cb_enter::CALL.is_some(),
        Entry::Slots => linked::cb_slots::CALL.is_some(),
        Entry::ReadHeader => linked::cb_read_header::CALL.is_some(),
        Entry::StartCollector => linked::cb_start_collector::CALL.is_some(),
        Entry::Collect => linked::cb_collect::CALL.is_some() && linked::cb_start_collector::CALL.is_some(),
        Entry::CheckSlots => linked::cb_check_slots::CALL.is_some(),
    }
}

/// Calls an entry of the archives. Every pointer is to memory of the length given with it, and none overlap.
macro_rules! call {
    ($name:ident($($given:expr),*)) => {
        unsafe { linked::$name::CALL.expect("the archives have this entry")($($given),*) as u64 }
    };
}

impl Side for Theirs {
    fn start(&self, state: &mut [u8]) -> u64 {
        call!(cb_start(state.as_mut_ptr(), state.len()))
    }

    fn intake(&self, state: &mut [u8], piece: &mut [u8], output: &mut [u8]) -> u64 {
        let (s, o) = (state.len(), output.len());
        call!(cb_intake(state.as_mut_ptr(), s, piece.as_ptr(), piece.len(), output.as_mut_ptr(), o))
    }

    fn write_blocks(&self, message: &mut [u8], schedule: bool, used: usize, out: &mut [u8]) -> u64 {
        call!(cb_write_blocks(message.as_ptr(), message.len(), schedule, used, out.as_mut_ptr(), out.len()))
    }

    fn write_text(&self, header: Header, text: &mut [u16], page: &mut [u8]) -> u64 {
        let Header { serial, identifier, scheme, parameter } = header;
        let (t, p) = (text.len(), page.len());
        call!(cb_write_text(serial, identifier, scheme, parameter, text.as_ptr(), t, page.as_mut_ptr(), p))
    }

    fn read_text(&self, page: &mut [u8], received: usize, text: &mut [u16]) -> u64 {
        call!(cb_read_text(page.as_ptr(), page.len(), received, text.as_mut_ptr(), text.len()))
    }

    fn content(&self, page: &mut [u8], received: usize) -> u64 {
        call!(cb_content(page.as_ptr(), page.len(), received))
    }

    fn read_schedule(&self, message: &mut [u8], received: usize) -> u64 {
        call!(cb_read_schedule(message.as_ptr(), message.len(), received))
    }

    fn description(&self, message: &mut [u8], received: usize, place: usize) -> u64 {
        call!(cb_description(message.as_ptr(), message.len(), received, place))
    }

    fn read_plan(&self, file: &mut [u8]) -> u64 {
        call!(cb_read_plan(file.as_ptr(), file.len()))
    }

    fn write_schedule(&self, current: &mut [u8], previous: &mut [u8], begin: usize, out: &mut [u8]) -> u64 {
        let (c, p, o) = (current.len(), previous.len(), out.len());
        call!(cb_write_schedule(current.as_ptr(), c, previous.as_ptr(), p, begin, out.as_mut_ptr(), o))
    }

    fn check_schedule(&self, current: &mut [u8], previous: &mut [u8], message: &mut [u8], received: usize) -> u64 {
        let (c, p, m) = (current.len(), previous.len(), message.len());
        call!(cb_check_schedule(current.as_ptr(), c, previous.as_ptr(), p, message.as_ptr(), m, received))
    }

    fn decide(
        &self,
        known: bool,
        message: &mut [u8],
        received: usize,
        slot: usize,
        wanted: &mut [u16],
        held: u64,
    ) -> u64 {
        let (m, w) = (message.len(), wanted.len());
        call!(cb_decide(known, message.as_ptr(), m, received, slot, wanted.as_ptr(), w, held))
    }

    fn enter(&self, known: bool, message: &mut [u8], received: usize, slot: usize, held: u64) -> u64 {
        call!(cb_enter(known, message.as_ptr(), message.len(), received, slot, held))
    }

    fn slots(&self, message: &mut [u8], received: usize, slots: &mut [u32]) -> u64 {
        call!(cb_slots(message.as_ptr(), message.len(), received, slots.as_mut_ptr(), slots.len()))
    }

    fn read_header(&self, page: &mut [u8]) -> u64 {
        call!(cb_read_header(page.as_ptr(), page.len()))
    }

    fn start_collector(&self, collector: &mut [u8]) -> u64 {
        call!(cb_start_collector(collector.as_mut_ptr(), collector.len()))
    }

    fn collect(&self, collector: &mut [u8], page: &mut [u8], received: usize, output: &mut [u8]) -> u64 {
        let (c, p, o) = (collector.len(), page.len(), output.len());
        call!(cb_collect(collector.as_mut_ptr(), c, page.as_ptr(), p, received, output.as_mut_ptr(), o))
    }

    fn check_slots(
        &self,
        current: &mut [u8],
        previous: &mut [u8],
        message: &mut [u8],
        received: usize,
        verdicts: &mut [u8],
    ) -> u64 {
        let (c, p, m, v) = (current.len(), previous.len(), message.len(), verdicts.len());
        let (current, previous, message) = (current.as_ptr(), previous.as_ptr(), message.as_ptr());
        call!(cb_check_slots(current, c, previous, p, message, m, received, verdicts.as_mut_ptr(), v))
    }
}
