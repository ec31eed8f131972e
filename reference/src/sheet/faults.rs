//! The first fault of a sheet that is not read, with its line, and the refusals of all services by the documents'
//! numbers.

/// Why a sheet, a passage or a query is refused, by the documents' numbers.
#[derive(Clone, Copy, Debug, PartialEq, Eq)]
pub enum Refusal {
    TooLong = 1,
    Misspelt = 2,
    OutOfRange = 3,
    NoReading = 4,
    BufferTooShort = 5,
    ValueTooLarge = 6,
    StepTooLong = 7,
    RadiusTooLarge = 8,
    QueryOutOfRange = 9,
    RowOutOfRange = 10,
}

/// The first fault of a sheet that is not read.
#[derive(Clone, Copy, Debug, PartialEq, Eq)]
pub enum Fault<'a> {
    /// The sheet has more bytes than a sheet may have; its lines are not looked at.
    TooLong,
    /// A line is not what must stand in its place.
    InLine(LineFault<'a>),
}

/// A line that is not what must stand in its place.
#[derive(Clone, Copy, Debug, PartialEq, Eq)]
pub struct LineFault<'a> {
    /// The line's number, from 1.
    pub line: usize,
    /// The key that the line must have, or `END_KEY`.
    pub key: &'static str,
    pub group: Group,
    /// What stands there, without its line feed; nothing where the sheet has ended.
    pub found: &'a [u8],
    pub why: Why,
}

/// What stands for a key where no line may follow.
pub const END_KEY: &str = "end";

/// Which of the sheet's repeated lines a line belongs to.
#[derive(Clone, Copy, Debug, PartialEq, Eq)]
pub enum Group {
    /// The line stands once in a sheet.
    Once,
    /// A start and its radius, by the quantity's number, from 1.
    Quantity(i64),
    /// The four lines of a term, by its number, from 1.
    Term(i64),
}

/// What is wrong with a line: what is asked of it first decides.
#[derive(Clone, Copy, Debug, PartialEq, Eq)]
pub enum Why {
    /// The sheet has ended above the line.
    Missing,
    /// The line does not begin with its key and an equals sign.
    Key,
    /// The line has no line feed.
    Unended,
    /// A number, but for a minus that this line may not have.
    Sign,
    /// No number in the sheet's spelling.
    Number,
    /// A number, but not from `least` to `most`, or 0 where that lies between them and `not_zero` is set.
    Range {
        least: i64,
        most: i64,
        not_zero: bool,
    },
    /// `none` in the place of a reading.
    Reading,
    /// Bytes follow the last line.
    After,
}

impl From<Why> for Refusal {
    fn from(why: Why) -> Refusal {
        match why {
            Why::Range { .. } => Refusal::OutOfRange,
            Why::Reading => Refusal::NoReading,
            Why::Missing | Why::Key | Why::Unended | Why::Sign | Why::Number | Why::After => {
                Refusal::Misspelt
            }
        }
    }
}

impl From<Fault<'_>> for Refusal {
    fn from(fault: Fault<'_>) -> Refusal {
        match fault {
            Fault::TooLong => Refusal::TooLong,
            Fault::InLine(fault) => fault.why.into(),
        }
    }
}
