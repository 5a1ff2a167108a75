//! The numbers with which a call, a line or a text is sent back.

/// Why a call, a line or a text was sent back; as a number, the one that is printed.
#[derive(Clone, Copy, Debug, PartialEq, Eq, PartialOrd, Ord)]
pub enum Refusal {
    /// A register above 15 or an access type above 4.
    Unknown = 1,
    /// The register holds no object, or one of a kind that the call does not take.
    NoObject = 2,
    /// An index, a count or a value to put is out of its range.
    OutOfRange = 3,
    /// The cell that is read was never set.
    Unset = 4,
    /// The cell or entry cannot take the value.
    Unfit = 5,
    /// The object is frozen.
    Frozen = 6,
    /// A read-only object would hold a dynamic one.
    HoldsDynamic = 7,
    /// The kind's window has no room for the object.
    NoRoom = 8,
    /// The line has none of the eight forms.
    NoForm = 16,
    /// The text is longer than a text may be.
    TooLong = 18,
}

impl Refusal {
    /// The refusals that a text can meet where there is only dynamic space: nothing is then read-only or frozen.
    pub const IN_DYNAMIC_SPACE: [Refusal; 8] = [
        Refusal::Unknown,
        Refusal::NoObject,
        Refusal::OutOfRange,
        Refusal::Unset,
        Refusal::Unfit,
        Refusal::NoRoom,
        Refusal::NoForm,
        Refusal::TooLong,
    ];

    /// The number that is printed.
    pub fn number(self) -> u32 {
        self as u32
    }
}
