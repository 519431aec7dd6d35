//! The numbers given: 0 for taken, 1 to 15 for the refusals.

/// The number of an event, run, drawing or comparison that was taken.
pub const TAKEN: u8 = 0;

/// Why something was refused.
#[derive(Clone, Copy, PartialEq, Eq, Debug)]
pub enum Refusal {
    /// 1: a lent state, memory or frame is too short.
    LentTooShort,
    /// 2: the state image is out of its ranges.
    ImageOutOfRange,
    /// 3: a command byte outside the table, B9-BF and F0-FF apart.
    OutsideTheTable,
    /// 4: B9-BF name no page, and no page above 8 can be asked for.
    NoSuchPage,
    /// 5: n of D3 or D4 not allowed.
    NNotAllowed,
    /// 6: a data write or read while a code is awaited.
    CodeAwaited,
    /// 7: a data write or read with column above 131.
    ColumnAbove131,
    /// 8: a header cut short, or payload past the end.
    TraceCut,
    /// 9: kind not 1 to 4, or kind 4 with a payload.
    WrongKind,
    /// 10: a compared read differs.
    ReadDiffers,
    /// 11: the list buffer is too small for all entries.
    ListTooSmall,
    /// 12: a frame byte is above 1.
    FrameByteAbove1,
    /// 13: a selection is not one byte of 1 to 3.
    WrongSelection,
    /// 14: a read with both chips selected.
    ReadOfBoth,
    /// 15: a command byte that would put a real chip in test mode.
    TestMode,
}

/// The highest of the numbers.
pub const LAST_NUMBER: u8 = Refusal::TestMode.number();

impl Refusal {
    /// The number documents 01 and 02 give this refusal.
    #[must_use]
    pub const fn number(self) -> u8 {
        match self {
            Refusal::LentTooShort => 1,
            Refusal::ImageOutOfRange => 2,
            Refusal::OutsideTheTable => 3,
            Refusal::NoSuchPage => 4,
            Refusal::NNotAllowed => 5,
            Refusal::CodeAwaited => 6,
            Refusal::ColumnAbove131 => 7,
            Refusal::TraceCut => 8,
            Refusal::WrongKind => 9,
            Refusal::ReadDiffers => 10,
            Refusal::ListTooSmall => 11,
            Refusal::FrameByteAbove1 => 12,
            Refusal::WrongSelection => 13,
            Refusal::ReadOfBoth => 14,
            Refusal::TestMode => 15,
        }
    }
}
