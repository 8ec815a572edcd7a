//! The refusals and their numbers.

#[derive(Clone, Copy, Debug, PartialEq, Eq)]
pub enum Refusal {
    // set-up
    ProcessorCount = 1,
    TooManySteps = 2,
    TooManyRefinements = 3,
    ListedOrder = 4,
    // request
    KeyOutOfRange = 10,
    NoBudget = 11,
    BudgetAboveDeadline = 12,
    DeadlineAbovePeriod = 13,
    PeriodTooLong = 14,
    KeyStands = 15,
    BoardHolds64 = 16,
    NoPlace = 17,
    // naming
    KeyDoesNotStand = 20,
    NoSuchRow = 21,
    // image
    BufferTooShort = 30,
    ImageTooShort = 31,
    Form = 32,
    OtherProcessorCount = 33,
    ImageLength = 34,
    Chains = 35,
    BadRecord = 36,
    BadReservation = 37,
    TooManyKeys = 38,
    JudgedNo = 39,
    // line
    UnknownWord = 50,
    FieldCount = 51,
    NotANumber = 52,
    LineTooLong = 54,
}

impl Refusal {
    pub fn number(self) -> u32 {
        self as u32
    }
}
