//! Day numbers and the civil calendar of 2000 to 2099.

/// The last day of the calendar, 31 December 2099. Day 0 is 1 January 2000.
pub const LAST_DAY: u32 = 36_524;

const FOUR_YEARS: u32 = 1_461;
const LEAP_YEAR: u32 = 366;
const COMMON_YEAR: u32 = 365;

/// A civil date.
#[derive(Debug, Clone, Copy, PartialEq, Eq, PartialOrd, Ord)]
pub struct Date {
    pub year: u32,
    pub month: u32,
    pub day: u32,
}

impl Date {
    /// The date of a day number. From 2000 to 2099 every fourth year is a
    /// leap year, beginning with the first.
    pub fn from_day_number(number: u32) -> Self {
        let within_four = number % FOUR_YEARS;
        let (year_of_four, mut rest) = match within_four.checked_sub(LEAP_YEAR) {
            None => (0, within_four),
            Some(later) => (1 + later / COMMON_YEAR, later % COMMON_YEAR),
        };
        let year = 2_000 + 4 * (number / FOUR_YEARS) + year_of_four;
        let mut month = 1;
        while rest >= days_in_month(year, month) {
            rest -= days_in_month(year, month);
            month += 1;
        }
        Self {
            year,
            month,
            day: rest + 1,
        }
    }

    /// Whether the date lies between 1 July and 30 September.
    pub fn is_summer(self) -> bool {
        (7..=9).contains(&self.month)
    }
}

/// Whether a day number is a Saturday or a Sunday. Day 0 is a Saturday.
pub fn is_weekend(number: u32) -> bool {
    number % 7 < 2
}

fn is_leap(year: u32) -> bool {
    year.is_multiple_of(4) && (!year.is_multiple_of(100) || year.is_multiple_of(400))
}

fn days_in_month(year: u32, month: u32) -> u32 {
    match month {
        4 | 6 | 9 | 11 => 30,
        2 if is_leap(year) => 29,
        2 => 28,
        _ => 31,
    }
}

#[cfg(test)]
mod tests {
    use super::*;

    fn date(year: u32, month: u32, day: u32) -> Date {
        Date { year, month, day }
    }

    #[test]
    fn ends_of_the_calendar() {
        assert_eq!(Date::from_day_number(0), date(2000, 1, 1));
        assert_eq!(Date::from_day_number(59), date(2000, 2, 29));
        assert_eq!(Date::from_day_number(60), date(2000, 3, 1));
        assert_eq!(Date::from_day_number(366), date(2001, 1, 1));
        assert_eq!(Date::from_day_number(LAST_DAY), date(2099, 12, 31));
    }

    #[test]
    fn arithmetic_agrees_with_walking() {
        let mut walked = date(2000, 1, 1);
        for number in 0..=LAST_DAY {
            assert_eq!(Date::from_day_number(number), walked, "day {number}");
            walked.day += 1;
            if walked.day > days_in_month(walked.year, walked.month) {
                walked.day = 1;
                walked.month += 1;
            }
            if walked.month > 12 {
                walked.month = 1;
                walked.year += 1;
            }
        }
        assert_eq!(walked, date(2100, 1, 1));
    }

    #[test]
    fn summer_has_its_edges() {
        assert!(!date(2024, 6, 30).is_summer());
        assert!(date(2024, 7, 1).is_summer());
        assert!(date(2024, 9, 30).is_summer());
        assert!(!date(2024, 10, 1).is_summer());
    }

    #[test]
    fn weekends_follow_saturday_1_january_2000() {
        let week: Vec<bool> = (0..8).map(is_weekend).collect();
        assert_eq!(week, [true, true, false, false, false, false, false, true]);
    }
}
