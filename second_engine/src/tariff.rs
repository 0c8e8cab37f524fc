//! Tariffs, their time classes and prices, and discounts over them.

use crate::refusal::Refusal;

/// The half-hours of a day.
pub const HALF_HOURS: usize = 48;

/// No tariff has more time classes.
pub const MAX_CLASSES: usize = 4;

/// The kinds of tariff.
#[derive(Debug, Clone, Copy, PartialEq, Eq)]
pub enum Kind {
    Standard,
    Night,
    Seasonal,
}

/// A stretch of half-hours of one class.
#[derive(Debug, Clone, Copy, PartialEq, Eq)]
pub struct Stretch {
    /// How many half-hours it has.
    pub length: usize,
    pub class: usize,
}

const fn stretch(length: usize, class: usize) -> Stretch {
    Stretch { length, class }
}

const STANDARD_DAY: &[Stretch] = &[stretch(48, 0)];
const NIGHT_DAY: &[Stretch] = &[stretch(14, 1), stretch(32, 0), stretch(2, 1)];
const SUMMER_WORKDAY: &[Stretch] = &[
    stretch(16, 3),
    stretch(10, 1),
    stretch(6, 0),
    stretch(12, 1),
    stretch(4, 3),
];
const SUMMER_REST_DAY: &[Stretch] = &[stretch(16, 3), stretch(28, 1), stretch(4, 3)];
const OTHER_DAY: &[Stretch] = &[stretch(16, 3), stretch(28, 2), stretch(4, 3)];

impl Kind {
    fn from_number(number: u8) -> Result<Self, Refusal> {
        match number {
            1 => Ok(Self::Standard),
            2 => Ok(Self::Night),
            3 => Ok(Self::Seasonal),
            _ => Err(Refusal::Tariff),
        }
    }

    /// The stretches of a day, which make up its 48 half-hours.
    pub fn stretches(self, summer: bool, rest_day: bool) -> &'static [Stretch] {
        match (self, summer, rest_day) {
            (Self::Standard, _, _) => STANDARD_DAY,
            (Self::Night, _, _) => NIGHT_DAY,
            (Self::Seasonal, true, false) => SUMMER_WORKDAY,
            (Self::Seasonal, true, true) => SUMMER_REST_DAY,
            (Self::Seasonal, false, _) => OTHER_DAY,
        }
    }

    /// The number of time classes.
    pub fn classes(self) -> usize {
        match self {
            Self::Standard => 1,
            Self::Night => 2,
            Self::Seasonal => 4,
        }
    }

    /// For each class the steps: the end in kWh, where there is one, and the price.
    fn steps(self) -> &'static [&'static [(Option<i64>, i64)]] {
        match self {
            Self::Standard => &[&[(Some(120), 1_988), (Some(300), 2_646), (None, 3_057)]],
            Self::Night => &[
                &[(Some(90), 2_434), (Some(230), 3_243), (None, 3_745)],
                &[(None, 1_248)],
            ],
            Self::Seasonal => &[
                &[(None, 3_853)],
                &[(None, 3_011)],
                &[(None, 2_736)],
                &[(None, 1_553)],
            ],
        }
    }

    /// The basic charge in sen of a month in which energy was used.
    fn basic(self, capacity: i64) -> i64 {
        match self {
            Self::Standard => 28_600 * capacity,
            Self::Night if capacity <= 6 => 132_000,
            Self::Night => 220_000 + 28_600 * (capacity - 10).max(0),
            Self::Seasonal => 130_240 + 41_694 * (capacity - 10).max(0),
        }
    }

    fn minimum(self) -> i64 {
        match self {
            Self::Night => 33_044,
            Self::Standard | Self::Seasonal => 0,
        }
    }
}

/// The kWh of a class from `start` to before `end`, at one price in sen.
#[derive(Debug, Clone, Copy, PartialEq, Eq)]
pub struct Row {
    pub class: usize,
    pub start: i64,
    pub end: i64,
    pub price: i64,
}

/// A tariff with its charges.
#[derive(Debug, Clone, PartialEq, Eq)]
pub struct Supply {
    kind: Kind,
    basic: i64,
    minimum: i64,
    rows: Vec<Row>,
}

impl Supply {
    /// The supply of a plan's three bytes.
    pub fn from_plan(tariff: u8, capacity: u8, percent: u8) -> Result<Self, Refusal> {
        Self::new(Kind::from_number(tariff)?, capacity)?.discounted(percent)
    }

    /// The supply of a tariff at its full prices.
    pub fn new(kind: Kind, capacity: u8) -> Result<Self, Refusal> {
        if !(1..=49).contains(&capacity) {
            return Err(Refusal::Capacity);
        }
        let mut rows = Vec::new();
        for (class, steps) in kind.steps().iter().enumerate() {
            let mut start = 0;
            for &(end, price) in *steps {
                let end = end.unwrap_or(i64::MAX);
                rows.push(Row {
                    class,
                    start,
                    end,
                    price,
                });
                start = end;
            }
        }
        sort_dearest_first(&mut rows);
        Ok(Self {
            kind,
            basic: kind.basic(capacity.into()),
            minimum: kind.minimum(),
            rows,
        })
    }

    /// The same supply with prices of so many percent, half-up to a sen.
    pub fn discounted(mut self, percent: u8) -> Result<Self, Refusal> {
        if !(1..=100).contains(&percent) {
            return Err(Refusal::Percent);
        }
        for row in &mut self.rows {
            row.price = half_up_hundredths(row.price * i64::from(percent));
        }
        sort_dearest_first(&mut self.rows);
        Ok(self)
    }

    pub fn kind(&self) -> Kind {
        self.kind
    }

    /// The steps of all classes, the dearest first.
    pub fn rows(&self) -> &[Row] {
        &self.rows
    }

    /// The basic charge in sen.
    pub fn basic(&self, any_used: bool) -> i64 {
        if any_used { self.basic } else { self.basic / 2 }
    }

    /// The minimum in sen.
    pub fn minimum(&self) -> i64 {
        self.minimum
    }
}

/// Among equal prices the lower class comes first, then the lower step.
fn sort_dearest_first(rows: &mut [Row]) {
    rows.sort_by_key(|row| (-row.price, row.class, row.start));
}

/// A number of hundredths, not negative, half-up to a whole one.
pub fn half_up_hundredths(hundredths: i64) -> i64 {
    (hundredths + 50) / 100
}

#[cfg(test)]
mod tests {
    use super::*;

    fn classes(kind: Kind, summer: bool, rest_day: bool) -> Vec<usize> {
        let stretches = kind.stretches(summer, rest_day);
        stretches
            .iter()
            .flat_map(|s| std::iter::repeat_n(s.class, s.length))
            .collect()
    }

    #[test]
    fn every_day_has_48_half_hours() {
        for kind in [Kind::Standard, Kind::Night, Kind::Seasonal] {
            for (summer, rest) in [(false, false), (false, true), (true, false), (true, true)] {
                let classes = classes(kind, summer, rest);
                assert_eq!(classes.len(), HALF_HOURS);
                assert!(classes.iter().all(|&class| class < kind.classes()));
            }
        }
    }

    #[test]
    fn night_runs_from_23_to_7() {
        let day = classes(Kind::Night, false, false);
        for (half_hour, &class) in day.iter().enumerate() {
            assert_eq!(class, if (14..46).contains(&half_hour) { 0 } else { 1 });
        }
    }

    #[test]
    fn seasonal_classes() {
        for (summer, rest) in [(false, false), (false, true), (true, false), (true, true)] {
            for (half_hour, &class) in classes(Kind::Seasonal, summer, rest).iter().enumerate() {
                let daytime = (16..44).contains(&half_hour);
                let afternoon = (26..32).contains(&half_hour);
                let expected = match (daytime, summer) {
                    (false, _) => 3,
                    (true, false) => 2,
                    (true, true) if afternoon && !rest => 0,
                    (true, true) => 1,
                };
                assert_eq!(class, expected, "half-hour {half_hour}");
            }
        }
    }

    #[test]
    fn basic_charges_at_their_edges() {
        let basic = |kind, capacity| {
            let supply = Supply::new(kind, capacity).unwrap();
            (supply.basic(true), supply.basic(false))
        };
        assert_eq!(basic(Kind::Standard, 1), (28_600, 14_300));
        assert_eq!(basic(Kind::Standard, 49), (1_401_400, 700_700));
        assert_eq!(basic(Kind::Night, 1), (132_000, 66_000));
        assert_eq!(basic(Kind::Night, 6), (132_000, 66_000));
        assert_eq!(basic(Kind::Night, 7), (220_000, 110_000));
        assert_eq!(basic(Kind::Night, 10), (220_000, 110_000));
        assert_eq!(basic(Kind::Night, 11), (248_600, 124_300));
        assert_eq!(basic(Kind::Seasonal, 10), (130_240, 65_120));
        assert_eq!(basic(Kind::Seasonal, 11), (171_934, 85_967));
        assert_eq!(basic(Kind::Seasonal, 49), (1_756_306, 878_153));
    }

    #[test]
    fn plans_are_refused_in_order() {
        assert_eq!(Supply::from_plan(0, 0, 0), Err(Refusal::Tariff));
        assert_eq!(Supply::from_plan(4, 1, 1), Err(Refusal::Tariff));
        assert_eq!(Supply::from_plan(1, 0, 0), Err(Refusal::Capacity));
        assert_eq!(Supply::from_plan(1, 50, 101), Err(Refusal::Capacity));
        assert_eq!(Supply::from_plan(1, 49, 0), Err(Refusal::Percent));
        assert_eq!(Supply::from_plan(1, 49, 101), Err(Refusal::Percent));
        assert!(Supply::from_plan(3, 49, 100).is_ok());
        assert!(Supply::from_plan(1, 1, 1).is_ok());
    }

    #[test]
    fn discounts_pile() {
        let dearest = |supply: &Supply| supply.rows()[0].price;
        let full = Supply::new(Kind::Night, 1).unwrap();
        let once = full.clone().discounted(90).unwrap();
        let twice = once.clone().discounted(90).unwrap();
        assert_eq!(
            [dearest(&full), dearest(&once), dearest(&twice)],
            [3_745, 3_371, 3_034]
        );
        assert_eq!(once.basic(true), full.basic(true));
        assert_eq!(once.minimum(), 33_044);
    }

    #[test]
    fn half_up_edges() {
        let kwh = [0, 49, 50, 99, 100, 149, 150].map(half_up_hundredths);
        assert_eq!(kwh, [0, 0, 1, 1, 1, 1, 2]);
    }

    #[test]
    fn rows_are_sorted_by_price() {
        let order = |supply: Supply| -> Vec<(usize, i64)> {
            supply
                .rows()
                .iter()
                .map(|row| (row.class, row.start))
                .collect()
        };
        let night = Supply::from_plan(2, 1, 100).unwrap();
        assert_eq!(order(night), [(0, 230), (0, 90), (0, 0), (1, 0)]);
        // At one percent 3,853, 3,011, 2,736 and 1,553 become 39, 30, 27 and 16.
        let prices: Vec<i64> = Supply::from_plan(3, 1, 1)
            .unwrap()
            .rows()
            .iter()
            .map(|row| row.price)
            .collect();
        assert_eq!(prices, [39, 30, 27, 16]);
    }
}
