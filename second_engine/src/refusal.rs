//! Why a slip is refused, with the number and place that a line shows.

/// A ground of refusal.
#[derive(Debug, Clone, Copy, PartialEq, Eq)]
pub enum Refusal {
    /// There are no bytes.
    Empty,
    /// No kind of slip has this letter.
    Letter,
    /// The bytes end inside the slip, after this many.
    Short(usize),
    /// The map of prices, at this byte, has a bit without meaning.
    Map(usize),
    /// The figure that starts at this byte is zero though its bit stands.
    Zero(usize),
    /// The rest byte, at this byte, is not 0 or 1.
    Rest(usize),
    /// The number of months, at this byte, is not 1 to 12.
    MonthsByte(usize),
    /// The tariff's number is not 1 to 3.
    Tariff,
    /// The capacity is not 1 to 49.
    Capacity,
    /// The percent is not 1 to 100.
    Percent,
    /// No box has this letter.
    UnknownBox,
    /// The calendar has no months, or more than 12.
    Months,
    /// A month's length is not 1 to 35.
    Length,
    /// The last day lies behind the end of the calendar.
    LastDay,
    /// No account is open, and the slip is not an opening.
    NotOpen,
    /// An account is open, and the slip is an opening.
    AlreadyOpen,
    /// This account day lies beyond the calendar.
    Beyond(u16),
    /// A figure for this account day is above 2,500.
    Figure(u16),
    /// This account day is posted already.
    Posted(u16),
    /// This account day is not posted.
    NotPosted(u16),
    /// The month of this account day is closed.
    Closed(u16),
    /// Every month is closed.
    AllClosed,
    /// A price lies outside its limit.
    Price,
    /// This account day, the first such one of the open month, is missing.
    Missing(u16),
}

impl Refusal {
    /// The number of the refusal.
    pub fn number(self) -> u64 {
        match self {
            Self::Empty => 1,
            Self::Letter => 2,
            Self::Short(_) => 3,
            Self::Map(_) => 4,
            Self::Zero(_) => 5,
            Self::Rest(_) => 6,
            Self::MonthsByte(_) => 7,
            Self::Tariff => 10,
            Self::Capacity => 11,
            Self::Percent => 12,
            Self::UnknownBox => 13,
            Self::Months => 14,
            Self::Length => 15,
            Self::LastDay => 16,
            Self::NotOpen => 17,
            Self::AlreadyOpen => 18,
            Self::Beyond(_) => 20,
            Self::Figure(_) => 22,
            Self::Posted(_) => 23,
            Self::NotPosted(_) => 24,
            Self::Closed(_) => 25,
            Self::AllClosed => 26,
            Self::Price => 27,
            Self::Missing(_) => 28,
        }
    }

    /// The byte of the slip or the account day that is at fault, or 0.
    pub fn place(self) -> u64 {
        match self {
            Self::Short(byte)
            | Self::Map(byte)
            | Self::Zero(byte)
            | Self::Rest(byte)
            | Self::MonthsByte(byte) => byte as u64,
            Self::Beyond(day)
            | Self::Figure(day)
            | Self::Posted(day)
            | Self::NotPosted(day)
            | Self::Closed(day)
            | Self::Missing(day) => u64::from(day),
            _ => 0,
        }
    }
}
