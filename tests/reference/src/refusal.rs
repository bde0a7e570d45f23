/// Why a line of a sheet, a list of calls, one of its calls or a saved session is refused; the number is the answer's status. 5 and 7 speak
/// of lent memory and of saved sessions, 15 of these alone; none of the three can come from a sheet.
#[derive(Clone, Copy, Debug, PartialEq, Eq)]
#[repr(u8)]
pub enum Refusal {
    SheetTooLong = 1,
    BufferTooShort = 2,
    Form = 3,
    TooManyVariables = 4,
    Length = 5,
    ClauseList = 6,
    State = 7,
    Variable = 8,
    Polarity = 9,
    Reason = 10,
    Assigned = 11,
    Decay = 12,
    Step = 13,
    Stuck = 14,
    Saved = 15,
}
