//! An account: its calendar, its days and its months.

use crate::calendar::{Date, LAST_DAY, is_weekend};
use crate::month::{Prices, Settlement, Totals};
use crate::refusal::Refusal;
use crate::slip::{Opening, Quote, Reading};
use crate::storage::DepositBox;
use crate::tariff::{Stretch, Supply};

const MAX_MONTHS: usize = 12;
const MAX_LENGTH: u8 = 35;
const MAX_FIGURE: u16 = 2_500;

/// An open account.
#[derive(Debug)]
pub struct Account {
    supply: Supply,
    storage: DepositBox,
    days: Vec<Day>,
    months: Vec<Month>,
    /// The place of the first month that is not closed.
    open: usize,
}

/// A day of the calendar, with the totals of its reading if it is posted.
#[derive(Debug)]
struct Day {
    month: usize,
    /// The day's bit in its month's `posted`.
    bit: u64,
    /// The classes of the day without and with the rest mark.
    stretches: [&'static [Stretch]; 2],
    totals: Totals,
}

/// A month with the sums of its posted days.
#[derive(Debug)]
struct Month {
    first_day: u16,
    length: u8,
    /// A bit for each posted day, from the lowest on.
    posted: u64,
    totals: Totals,
    closed: Option<Closed>,
}

/// The prices of a closed month and its net as it now stands.
#[derive(Debug)]
struct Closed {
    prices: Prices,
    net: i64,
}

impl Month {
    /// The first account day without a reading.
    fn first_missing(&self) -> Option<u16> {
        let before = self.posted.trailing_ones() as u16;
        (before < u16::from(self.length)).then_some(self.first_day + before)
    }
}

impl Account {
    /// Opens an account: first its plan is judged, then its box and calendar.
    pub fn open(opening: &Opening) -> Result<Self, Refusal> {
        let supply = Supply::from_plan(opening.tariff, opening.capacity, opening.percent)?;
        let storage = DepositBox::from_letter(opening.box_letter)?;
        if !(1..=MAX_MONTHS).contains(&opening.lengths.len()) {
            return Err(Refusal::Months);
        }
        if !opening
            .lengths
            .iter()
            .all(|length| (1..=MAX_LENGTH).contains(length))
        {
            return Err(Refusal::Length);
        }
        let count: u32 = opening
            .lengths
            .iter()
            .map(|&length| u32::from(length))
            .sum();
        if u32::from(opening.first_day) + count - 1 > LAST_DAY {
            return Err(Refusal::LastDay);
        }

        let mut days = Vec::with_capacity(count as usize);
        let mut months = Vec::with_capacity(opening.lengths.len());
        for (month, &length) in opening.lengths.iter().enumerate() {
            let first_day = days.len() as u16;
            for place in 0..length {
                let number = u32::from(opening.first_day) + days.len() as u32;
                let summer = Date::from_day_number(number).is_summer();
                let stretches = [false, true].map(|rest_mark| {
                    supply
                        .kind()
                        .stretches(summer, rest_mark || is_weekend(number))
                });
                days.push(Day {
                    month,
                    bit: 1 << place,
                    stretches,
                    totals: Totals::default(),
                });
            }
            months.push(Month {
                first_day,
                length,
                posted: 0,
                totals: Totals::default(),
                closed: None,
            });
        }
        Ok(Self {
            supply,
            storage,
            days,
            months,
            open: 0,
        })
    }

    /// Enters a day's reading.
    pub fn post(&mut self, number: u16, reading: &Reading) -> Result<(), Refusal> {
        let (day, month) = self.find(number)?;
        judge_figures(number, reading)?;
        if month.posted & day.bit != 0 {
            return Err(Refusal::Posted(number));
        }
        day.totals = day.add_up(reading);
        month.posted |= day.bit;
        month.totals += day.totals;
        Ok(())
    }

    /// Replaces a day's reading, and answers by how much that changes the net
    /// of a closed month.
    pub fn correct(&mut self, number: u16, reading: &Reading) -> Result<i64, Refusal> {
        let (day, month) = self.find(number)?;
        judge_figures(number, reading)?;
        if month.posted & day.bit == 0 {
            return Err(Refusal::NotPosted(number));
        }
        month.totals -= day.totals;
        day.totals = day.add_up(reading);
        month.totals += day.totals;

        let place = day.month;
        let month = &mut self.months[place];
        let Some(closed) = &mut month.closed else {
            return Ok(0);
        };
        let before = closed.net;
        closed.net =
            Settlement::of(&self.supply, self.storage, &month.totals, &closed.prices).net();
        Ok(closed.net - before)
    }

    /// Empties a day of a month that is not closed.
    pub fn strike(&mut self, number: u16) -> Result<(), Refusal> {
        let (day, month) = self.find(number)?;
        if month.posted & day.bit == 0 {
            return Err(Refusal::NotPosted(number));
        }
        if month.closed.is_some() {
            return Err(Refusal::Closed(number));
        }
        month.posted &= !day.bit;
        month.totals -= day.totals;
        Ok(())
    }

    /// Closes the open month at these prices and answers its settlement.
    pub fn close(&mut self, quote: Quote) -> Result<Settlement, Refusal> {
        let month = self.months.get_mut(self.open).ok_or(Refusal::AllClosed)?;
        let prices = Prices::try_from(quote)?;
        if let Some(day) = month.first_missing() {
            return Err(Refusal::Missing(day));
        }
        let settlement = Settlement::of(&self.supply, self.storage, &month.totals, &prices);
        month.closed = Some(Closed {
            prices,
            net: settlement.net(),
        });
        self.open += 1;
        Ok(settlement)
    }

    fn find(&mut self, number: u16) -> Result<(&mut Day, &mut Month), Refusal> {
        let day = self
            .days
            .get_mut(usize::from(number))
            .ok_or(Refusal::Beyond(number))?;
        let month = &mut self.months[day.month];
        Ok((day, month))
    }
}

impl Day {
    /// The totals of a reading of this day.
    fn add_up(&self, reading: &Reading) -> Totals {
        let mut totals = Totals {
            surplus: reading.surplus.total(),
            ..Totals::default()
        };
        let mut used = reading.used;
        for stretch in self.stretches[usize::from(reading.rest_mark)] {
            totals.used[stretch.class] += used.take_front(stretch.length);
        }
        totals
    }
}

fn judge_figures(number: u16, reading: &Reading) -> Result<(), Refusal> {
    if reading.used.within(MAX_FIGURE) && reading.surplus.within(MAX_FIGURE) {
        Ok(())
    } else {
        Err(Refusal::Figure(number))
    }
}

#[cfg(test)]
mod tests {
    use super::*;
    use crate::generate::write;
    use crate::slip::{Slip, read};

    fn opening(first_day: u16, lengths: &[u8]) -> Opening<'_> {
        Opening {
            tariff: 1,
            capacity: 10,
            percent: 100,
            box_letter: b'S',
            first_day,
            lengths,
        }
    }

    /// The bytes of a posting with one used and one surplus figure.
    fn bytes(rest_mark: bool, half_hour: usize, used: u16, surplus: u16) -> Vec<u8> {
        let mut reading = write::Reading {
            rest_mark,
            ..write::Reading::default()
        };
        reading.used[half_hour] = used;
        reading.surplus[half_hour] = surplus;
        let mut bytes = Vec::new();
        write::post(&mut bytes, 0, &reading);
        bytes
    }

    fn reading(bytes: &[u8]) -> Reading<'_> {
        match read(bytes).unwrap() {
            (Slip::Post(_, reading), _) => reading,
            other => panic!("{other:?}"),
        }
    }

    const FREE: Quote = Quote {
        fuel: 0,
        levy: 0,
        buy: 0,
    };

    #[test]
    fn openings_are_refused_in_order() {
        let refusal = |opening: Opening| Account::open(&opening).err();
        let good = opening(0, &[35]);
        assert_eq!(refusal(good), None);
        assert_eq!(
            refusal(Opening {
                tariff: 0,
                capacity: 0,
                ..good
            }),
            Some(Refusal::Tariff)
        );
        assert_eq!(
            refusal(Opening {
                percent: 0,
                box_letter: 0,
                ..good
            }),
            Some(Refusal::Percent)
        );
        assert_eq!(
            refusal(Opening {
                box_letter: b'X',
                lengths: &[36],
                ..good
            }),
            Some(Refusal::UnknownBox)
        );
        assert_eq!(refusal(opening(65_535, &[])), Some(Refusal::Months));
        assert_eq!(refusal(opening(65_535, &[1; 13])), Some(Refusal::Months));
        for lengths in [&[36][..], &[0], &[35, 0], &[1, 36], &[255]] {
            assert_eq!(refusal(opening(65_535, lengths)), Some(Refusal::Length));
        }
    }

    #[test]
    fn the_last_day_of_the_calendar() {
        let refusal = |first, lengths| Account::open(&opening(first, lengths)).err();
        assert_eq!(refusal(36_524, &[1]), None);
        assert_eq!(refusal(36_525, &[1]), Some(Refusal::LastDay));
        assert_eq!(refusal(36_524, &[2]), Some(Refusal::LastDay));
        assert_eq!(refusal(36_105, &[35; 12]), None);
        assert_eq!(refusal(36_106, &[35; 12]), Some(Refusal::LastDay));
        assert_eq!(refusal(65_535, &[1]), Some(Refusal::LastDay));
    }

    #[test]
    fn figures_up_to_2500() {
        let mut account = Account::open(&opening(0, &[2])).unwrap();
        for (used, surplus) in [(2_501, 0), (0, 2_501), (65_535, 65_535)] {
            let over = bytes(false, 47, used, surplus);
            assert_eq!(account.post(1, &reading(&over)), Err(Refusal::Figure(1)));
            assert_eq!(account.correct(1, &reading(&over)), Err(Refusal::Figure(1)));
            assert_eq!(account.post(2, &reading(&over)), Err(Refusal::Beyond(2)));
            assert_eq!(account.correct(2, &reading(&over)), Err(Refusal::Beyond(2)));
        }
        let edge = bytes(false, 47, 2_500, 2_500);
        assert_eq!(
            account.correct(1, &reading(&edge)),
            Err(Refusal::NotPosted(1))
        );
        assert_eq!(account.post(1, &reading(&edge)), Ok(()));
        assert_eq!(account.post(1, &reading(&edge)), Err(Refusal::Posted(1)));
        assert_eq!(account.correct(1, &reading(&edge)), Ok(0));
    }

    #[test]
    fn days_and_months_in_order() {
        let mut account = Account::open(&opening(0, &[2, 1])).unwrap();
        let kwh = bytes(false, 0, 100, 0);
        let kwh = reading(&kwh);
        let costly = Quote {
            levy: 10_001,
            ..FREE
        };

        assert_eq!(account.close(costly).err(), Some(Refusal::Price));
        assert_eq!(account.close(FREE).err(), Some(Refusal::Missing(0)));
        account.post(2, &kwh).unwrap();
        account.post(0, &kwh).unwrap();
        assert_eq!(account.close(FREE).err(), Some(Refusal::Missing(1)));
        account.post(1, &kwh).unwrap();
        account.strike(0).unwrap();
        assert_eq!(account.strike(0), Err(Refusal::NotPosted(0)));
        assert_eq!(account.strike(3), Err(Refusal::Beyond(3)));
        assert_eq!(account.close(FREE).err(), Some(Refusal::Missing(0)));
        account.post(0, &kwh).unwrap();
        assert_eq!(account.close(FREE).map(|month| month.usage), Ok(2));

        assert_eq!(account.strike(1), Err(Refusal::Closed(1)));
        assert_eq!(account.post(1, &kwh), Err(Refusal::Posted(1)));
        account.strike(2).unwrap();
        assert_eq!(account.close(FREE).err(), Some(Refusal::Missing(2)));
        account.post(2, &kwh).unwrap();
        assert!(account.close(FREE).is_ok());
        assert_eq!(account.close(costly).err(), Some(Refusal::AllClosed));
    }

    #[test]
    fn corrections_answer_the_difference_at_the_months_own_prices() {
        let mut account = Account::open(&opening(0, &[1, 1])).unwrap();
        let (one, two) = (bytes(false, 0, 100, 0), bytes(false, 0, 200, 0));
        let (one, two) = (reading(&one), reading(&two));
        account.post(0, &one).unwrap();
        account.post(1, &one).unwrap();
        account.close(Quote { levy: 300, ..FREE }).unwrap();
        assert_eq!(account.correct(1, &two), Ok(0));
        let before = (286_000 + 1_988) / 100;
        let after = (286_000 + 2 * 1_988) / 100;
        assert_eq!(account.correct(0, &two), Ok(after - before + 3));
        assert_eq!(account.correct(0, &two), Ok(0));
        assert_eq!(account.correct(0, &one), Ok(before - after - 3));
    }

    #[test]
    fn the_rest_mark_moves_the_afternoon() {
        // Day 184 is Monday 3 July 2000.
        let opening = Opening {
            tariff: 3,
            ..opening(184, &[1])
        };
        let (workday, rest_day) = (bytes(false, 26, 1_000, 0), bytes(true, 26, 1_000, 0));
        let mut account = Account::open(&opening).unwrap();
        account.post(0, &reading(&workday)).unwrap();
        assert_eq!(account.close(FREE).map(|month| month.energy), Ok(38_530));
        let difference = (130_240 + 30_110) / 100 - (130_240 + 38_530) / 100;
        assert_eq!(account.correct(0, &reading(&rest_day)), Ok(difference));
        // Saturday 1 July 2000 is a rest day without the mark, too.
        let opening = Opening {
            first_day: 182,
            ..opening
        };
        let mut account = Account::open(&opening).unwrap();
        account.post(0, &reading(&workday)).unwrap();
        assert_eq!(account.close(FREE).map(|month| month.energy), Ok(30_110));
    }
}
