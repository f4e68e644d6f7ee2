//! The refusals of document 01's table of numbers, with those of document 02's No. 1 in the place of its 33, and of No. 3.

/// A refusal; one of an entry in a plan has that entry's number, from 1. // 01 Numbers given, 02 No. 1
#[derive(Clone, Copy, Debug, PartialEq, Eq)]
pub enum Refusal {
    PieceLength,
    Discriminator,
    ReservedCode,
    NullCode,
    NotNext,
    State,
    TextLength,
    NotInAlphabet,
    EndsInCr,
    Scheme,
    Parameter,
    OutputLength,
    MessageLength,
    Used,
    Received,
    ScheduleType,
    BeginEnd,
    NewBitPastEnd,
    DescriptionPassesReceived,
    FalseRepeat,
    PlanMark,
    PlanVersion,
    PlanLength,
    DescriptionsTooLong,
    NoSlots,
    PlanKind(usize),
    PlanStray(usize),
    SlotOutside,
    WantedTooMany,
    PageOverTotal,
}

impl Refusal {
    /// The number of a refusal. // 01 Numbers given, 02 Nos. 1 and 3
    pub fn number(self) -> u8 {
        match self {
            Refusal::PieceLength => 2,
            Refusal::Discriminator => 3,
            Refusal::ReservedCode => 4,
            Refusal::NullCode => 5,
            Refusal::NotNext => 6,
            Refusal::State => 8,
            Refusal::TextLength => 10,
            Refusal::NotInAlphabet => 11,
            Refusal::EndsInCr => 12,
            Refusal::Scheme => 13,
            Refusal::Parameter => 14,
            Refusal::OutputLength => 15,
            Refusal::MessageLength => 16,
            Refusal::Used => 17,
            Refusal::Received => 18,
            Refusal::ScheduleType => 20,
            Refusal::BeginEnd => 21,
            Refusal::NewBitPastEnd => 22,
            Refusal::DescriptionPassesReceived => 23,
            Refusal::FalseRepeat => 24,
            Refusal::PlanMark => 30,
            Refusal::PlanVersion => 31,
            Refusal::PlanLength => 32,
            Refusal::DescriptionsTooLong => 34,
            Refusal::NoSlots => 35,
            Refusal::PlanKind(_) => 36,
            Refusal::PlanStray(_) => 37,
            Refusal::SlotOutside => 41,
            Refusal::WantedTooMany => 42,
            Refusal::PageOverTotal => 50,
        }
    }

    /// The entry that a refusal names, from 1; 0 where it names none. // 02 No. 1
    pub fn entry(self) -> usize {
        match self {
            Refusal::PlanKind(entry) | Refusal::PlanStray(entry) => entry,
            _ => 0,
        }
    }
}

/// The number of a result: 0 where it is done. // 01 Numbers given
pub fn number_of<T>(result: &Result<T, Refusal>) -> u8 {
    match result {
        Ok(_) => 0,
        Err(refusal) => refusal.number(),
    }
}
