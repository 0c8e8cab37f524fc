//! Bounded streams that visit as many cases as possible.

use super::random::Random;
use super::write::{self, Opening, Reading};
use crate::calendar::LAST_DAY;
use crate::tariff::HALF_HOURS;
use std::ops::Range;

/// No stream has many more slips than this.
const MAX_SLIPS: usize = 880;

/// Half-hours that make up a class of some tariff, and all of them.
const WINDOWS: [Range<usize>; 6] = [0..48, 14..46, 26..32, 16..44, 0..14, 44..48];

/// The stream of a seed.
pub fn stream(seed: u64) -> Vec<u8> {
    let mut random = Random::new(seed);
    let opening = good_opening(&mut random);
    let mut stream = Stream::new(random, opening);
    stream.before_opening();
    stream.open();
    stream.months();
    stream.after_months();
    stream.ending();
    stream.out
}

/// Where figures come from.
#[derive(Debug, Clone, Copy)]
enum Shape {
    /// None above 0.
    Empty,
    /// Nearly every half-hour, up to this.
    Dense(u16),
    /// Few half-hours, up to this.
    Sparse(u16),
    /// Some half-hours at the ends of the range.
    Edges,
    /// All half-hours at 2,500.
    Full,
    /// Less than a kWh in one half-hour.
    Tiny,
}

/// Whether a sum stays as it is or goes to a chosen amount.
#[derive(Debug, Clone, Copy)]
enum Aim {
    /// These last two digits.
    Digits(u32),
    /// This very sum.
    Exactly(u32),
}

struct Stream {
    random: Random,
    out: Vec<u8>,
    /// Where each slip starts.
    starts: Vec<usize>,
    opening: Opening,
    months: Vec<Range<usize>>,
    standing: Vec<Option<Reading>>,
    /// The first month that is not closed.
    open: usize,
    used: Shape,
    surplus: Shape,
    /// How many of a hundred slips are followed by something unusual.
    noise: usize,
}

fn good_opening(random: &mut Random) -> Opening {
    let tariff = random.within(1..=3) as u8;
    let capacity = match random.below(3) {
        0 => random.within(1..=49) as u8,
        _ => random.pick(&[1, 6, 7, 10, 11, 49]),
    };
    let percent = match random.below(3) {
        0 => random.within(1..=100) as u8,
        _ => random.pick(&[1, 50, 90, 100]),
    };
    let months = match random.below(4) {
        0 => random.pick(&[1, 2, 12]),
        _ => random.within(2..=12),
    };
    let style = random.below(6);
    let lengths: Vec<u8> = (0..months)
        .map(|_| match style {
            0 => 1,
            1 => random.within(1..=6),
            2 => random.within(28..=31),
            3 => random.within(28..=35),
            4 => random.pick(&[1, 2, 3, 28, 31, 35]),
            _ => random.within(1..=35),
        } as u8)
        .collect();
    let days: u32 = lengths.iter().map(|&length| u32::from(length)).sum();
    let latest = (LAST_DAY + 1 - days) as usize;
    let first_day = match random.below(7) {
        0 => random.pick(&[0, 1, 58, 59, 60, 365, 366]),
        1 => latest,
        2 => latest - random.below(400),
        // A year's days before the start or the end of a summer, or inside it.
        3 | 4 => {
            let year_start = random.below(98) * 1_461 / 4;
            year_start + random.pick(&[150, 175, 181, 182, 200, 230, 260, 270, 273, 274])
        }
        _ => random.below(latest + 1),
    };
    Opening {
        tariff,
        capacity,
        percent,
        box_letter: random.pick(b"SMLTR"),
        first_day: first_day.min(latest) as u16,
        lengths,
    }
}

impl Stream {
    fn new(mut random: Random, opening: Opening) -> Self {
        let mut months = Vec::new();
        let mut days = 0;
        for &length in &opening.lengths {
            months.push(days..days + usize::from(length));
            days += usize::from(length);
        }
        let noise = random.pick(&[0, 5, 15, 30, 60]);
        Self {
            random,
            out: Vec::new(),
            starts: Vec::new(),
            opening,
            months,
            standing: vec![None; days],
            open: 0,
            used: Shape::Dense(60),
            surplus: Shape::Empty,
            noise,
        }
    }

    fn days(&self) -> usize {
        self.standing.len()
    }

    fn full(&self) -> bool {
        self.starts.len() >= MAX_SLIPS
    }

    fn month_of(&self, day: usize) -> usize {
        self.months
            .iter()
            .position(|month| month.contains(&day))
            .expect("the day has a month")
    }

    fn closed_days(&self) -> usize {
        self.open
            .checked_sub(1)
            .map_or(0, |last| self.months[last].end)
    }

    // Slips that keep the book.

    fn start(&mut self) -> &mut Vec<u8> {
        self.starts.push(self.out.len());
        &mut self.out
    }

    /// Posts a day, which is accepted where the day is empty.
    fn post(&mut self, day: usize, reading: Reading) {
        write::post(self.start(), day as u16, &reading);
        if let Some(place @ None) = self.standing.get_mut(day)
            && acceptable(&reading)
        {
            *place = Some(reading);
        }
    }

    /// Corrects a day, which is accepted where the day is not empty.
    fn correct(&mut self, day: usize, reading: Reading) {
        write::correct(self.start(), day as u16, &reading);
        if let Some(place @ Some(_)) = self.standing.get_mut(day)
            && acceptable(&reading)
        {
            *place = Some(reading);
        }
    }

    fn strike(&mut self, day: usize) {
        write::strike(self.start(), day as u16);
        if (self.closed_days()..self.days()).contains(&day) {
            self.standing[day] = None;
        }
    }

    /// Closes at prices within their limits.
    fn close(&mut self) {
        let fuel = match self.random.below(4) {
            0 => self
                .random
                .pick(&[-10_000, 10_000, 0, 1, -1, -9_999, 9_999]),
            1 => self.random.within(0..=20_000) as i16 - 10_000,
            2 => self.random.within(0..=6_000) as i16 - 4_500,
            _ => self.random.within(0..=1_200) as i16 - 600,
        };
        let levy = self.small_price();
        let buy = self.small_price();
        write::close(self.start(), fuel, levy, buy);
        if let Some(month) = self.months.get(self.open)
            && self.standing[month.clone()].iter().all(Option::is_some)
        {
            self.open += 1;
        }
    }

    fn small_price(&mut self) -> u16 {
        match self.random.below(3) {
            0 => self.random.pick(&[0, 1, 99, 100, 10_000]),
            1 => self.random.within(0..=10_000) as u16,
            _ => self.random.within(200..=900) as u16,
        }
    }

    /// Closes at prices of which at least one is beyond its limit.
    fn close_beyond_limits(&mut self) {
        let mut fuel = self.random.within(0..=1_200) as i16 - 600;
        let mut levy = self.small_price();
        let mut buy = self.small_price();
        let which = self.random.within(1..=7);
        if which & 1 != 0 {
            fuel = self.random.pick(&[-10_001, 10_001, -32_768, 32_767]);
        }
        if which & 2 != 0 {
            levy = self.random.pick(&[10_001, 65_535]);
        }
        if which & 4 != 0 {
            buy = self.random.pick(&[10_001, 65_535]);
        }
        write::close(self.start(), fuel, levy, buy);
    }

    // Readings.

    fn shape(&mut self) -> Shape {
        match self.random.below(12) {
            0 => Shape::Empty,
            1 | 2 => Shape::Sparse(99),
            3 => Shape::Sparse(600),
            4 => Shape::Sparse(2_500),
            5 => Shape::Dense(3),
            6 | 7 => Shape::Dense(40),
            8 => Shape::Dense(150),
            9 => Shape::Edges,
            10 => Shape::Tiny,
            _ => self.random.pick(&[Shape::Dense(2_500), Shape::Full]),
        }
    }

    fn choose_shapes(&mut self) {
        self.used = self.shape();
        self.surplus = self.shape();
    }

    fn figures(&mut self, shape: Shape) -> [u16; HALF_HOURS] {
        let random = &mut self.random;
        let mut figures = [0; HALF_HOURS];
        match shape {
            Shape::Empty => {}
            Shape::Dense(most) => {
                figures = figures.map(|_| random.within(0..=most.into()) as u16);
            }
            Shape::Sparse(most) => {
                for _ in 0..random.within(1..=6) {
                    figures[random.below(HALF_HOURS)] = random.within(1..=most.into()) as u16;
                }
            }
            Shape::Edges => {
                let choices = [0, 0, 0, 1, 2_499, 2_500];
                figures = figures.map(|_| random.pick(&choices));
            }
            Shape::Full => figures = [2_500; HALF_HOURS],
            Shape::Tiny => {
                figures[random.below(HALF_HOURS)] = random.pick(&[1, 1, 2, 49, 50, 51, 99]);
            }
        }
        if random.percent(10) {
            let window = WINDOWS[random.below(WINDOWS.len())].clone();
            for (half_hour, figure) in figures.iter_mut().enumerate() {
                if !window.contains(&half_hour) {
                    *figure = 0;
                }
            }
        }
        figures
    }

    fn reading(&mut self) -> Reading {
        let (used, surplus) = (self.used, self.surplus);
        Reading {
            rest_mark: self.random.percent(20),
            used: self.figures(used),
            surplus: self.figures(surplus),
        }
    }

    /// A reading of shapes that the month need not have.
    fn other_reading(&mut self) -> Reading {
        let (used, surplus) = (self.shape(), self.shape());
        Reading {
            rest_mark: self.random.percent(30),
            used: self.figures(used),
            surplus: self.figures(surplus),
        }
    }

    /// A reading that brings the month's sums to a chosen amount, with this
    /// day's reading replaced by it.
    fn aimed_reading(&mut self, day: usize) -> Reading {
        let mut reading = match self.random.below(2) {
            0 => self.reading(),
            _ => self.other_reading(),
        };
        let month = self.months[self.month_of(day)].clone();
        let others: Vec<Reading> = month
            .filter(|&other| other != day)
            .filter_map(|other| self.standing[other].clone())
            .collect();

        // A class first, then the whole day by a half-hour outside the class.
        let window = WINDOWS[self.random.below(WINDOWS.len())].clone();
        if self.random.percent(60) {
            let aim = self.aim(&[0, 1, 90, 120, 230, 300]);
            let sum = sum_of(others.iter().map(|other| &other.used), &window);
            self.bring(&mut reading.used, window.clone(), sum, aim);
        }
        if self.random.percent(60) {
            let digits = self.random.pick(&[0, 1, 48, 49, 50, 51, 99]);
            let all = sum_of(others.iter().map(|other| &other.used), &(0..HALF_HOURS));
            let outside = if window.start > 0 {
                0..window.start
            } else {
                window.end..HALF_HOURS
            };
            let outside = if outside.is_empty() {
                0..HALF_HOURS
            } else {
                outside
            };
            let fixed =
                sum_of([&reading.used], &(0..HALF_HOURS)) - sum_of([&reading.used], &outside);
            self.bring(&mut reading.used, outside, all + fixed, Aim::Digits(digits));
        }
        if self.random.percent(70) {
            let used = sum_of(others.iter().map(|other| &other.used), &(0..HALF_HOURS))
                + sum_of([&reading.used], &(0..HALF_HOURS));
            let usage = used / 100;
            let aim = self.aim(&[0, 0, 1, 50, 100, 150, 300, usage, usage + 1]);
            let sum = sum_of(others.iter().map(|other| &other.surplus), &(0..HALF_HOURS));
            self.bring(&mut reading.surplus, 0..HALF_HOURS, sum, aim);
        }
        reading
    }

    fn aim(&mut self, kwh: &[u32]) -> Aim {
        match self.random.below(2) {
            0 => Aim::Digits(self.random.pick(&[0, 1, 48, 49, 50, 51, 99])),
            _ => {
                let hundredths = 100 * self.random.pick(kwh) + 100;
                let offset = self.random.pick(&[0, 49, 50, 51, 99, 100, 101, 149, 150]);
                Aim::Exactly((hundredths + offset).saturating_sub(200))
            }
        }
    }

    /// Changes figures of the window so that they and the sum of the others
    /// meet the aim, where that is possible.
    fn bring(
        &mut self,
        figures: &mut [u16; HALF_HOURS],
        window: Range<usize>,
        others: u32,
        aim: Aim,
    ) {
        match aim {
            Aim::Digits(digits) => {
                let half_hour = self.random.within(window.start..=window.end - 1);
                figures[half_hour] = 0;
                let sum = others + sum_of([&*figures], &window);
                let missing = (digits + 100 - sum % 100) % 100;
                let hundreds = 100 * self.random.pick(&[0, 0, 1, 24]);
                figures[half_hour] = (missing + hundreds) as u16;
            }
            Aim::Exactly(amount) => {
                let most = 2_500 * window.len() as u32;
                let Some(missing) = amount
                    .checked_sub(others)
                    .filter(|&missing| missing <= most)
                else {
                    return;
                };
                let count = window.len() as u32;
                let (each, more) = (missing / count, missing % count);
                for (place, figure) in figures[window].iter_mut().enumerate() {
                    *figure = (each + u32::from((place as u32) < more)) as u16;
                }
            }
        }
    }

    /// A reading with a figure above 2,500.
    fn over_reading(&mut self) -> Reading {
        let mut reading = self.other_reading();
        let half_hour = self.random.below(HALF_HOURS);
        let over = self.random.pick(&[2_501, 2_501, 65_535, 32_768]);
        if self.random.percent(50) {
            reading.used[half_hour] = over;
        } else {
            reading.surplus[half_hour] = over;
        }
        reading
    }

    // Before the opening.

    fn before_opening(&mut self) {
        if self.random.percent(50) {
            for _ in 0..self.random.within(1..=4) {
                self.call_without_account();
            }
        }
        if self.random.percent(70) {
            for _ in 0..self.random.within(1..=5) {
                let opening = self.bad_opening();
                write::open(self.start(), &opening);
                if self.random.percent(15) {
                    self.call_without_account();
                }
            }
        }
    }

    fn call_without_account(&mut self) {
        let day = self.random.pick(&[0, 1, 35, 419, 420, 65_535]);
        match self.random.below(5) {
            0 => {
                let reading = self.other_reading();
                write::post(self.start(), day, &reading);
            }
            1 => {
                let reading = self.over_reading();
                write::correct(self.start(), day, &reading);
            }
            2 => write::strike(self.start(), day),
            3 => write::close(self.start(), 0, 0, 0),
            _ => self.close_beyond_limits(),
        }
    }

    /// An opening that is refused, on one ground or on several.
    fn bad_opening(&mut self) -> Opening {
        let mut opening = self.opening.clone();
        let grounds = if self.random.percent(25) { 3 } else { 1 };
        for _ in 0..grounds {
            let random = &mut self.random;
            let month = random.below(opening.lengths.len());
            match random.below(7) {
                0 => opening.tariff = random.pick(&[0, 4, 5, 49, 255]),
                1 => opening.capacity = random.pick(&[0, 50, 51, 255]),
                2 => opening.percent = random.pick(&[0, 101, 200, 255]),
                3 => opening.box_letter = random.pick(&[0, b's', b'X', b'A', b' ', 255]),
                4 | 5 => opening.lengths[month] = random.pick(&[0, 0, 36, 36, 37, 128, 255]),
                _ => {
                    let days: usize = opening.lengths.iter().map(|&length| length as usize).sum();
                    let over = LAST_DAY as usize + 2 - days.max(1);
                    opening.first_day = random.pick(&[over, over + 1, 36_525, 65_535]) as u16;
                }
            }
        }
        opening
    }

    fn open(&mut self) {
        let opening = self.opening.clone();
        write::open(self.start(), &opening);
    }

    // Months.

    fn months(&mut self) {
        let unclosed = if self.random.percent(30) {
            self.random.below(3)
        } else {
            0
        };
        let last = self.months.len().saturating_sub(unclosed);
        // Enough slips stay for corrections behind the months.
        while self.open < last && self.starts.len() < MAX_SLIPS - 150 {
            self.month();
        }
    }

    fn month(&mut self) {
        if self.random.percent(80) {
            self.choose_shapes();
        }
        let closing = self.open;
        let month = self.months[closing].clone();
        let mut order: Vec<usize> = month.clone().collect();
        if self.random.percent(30) {
            self.random.shuffle(&mut order);
        }
        while let Some(&day) = order.iter().find(|&&day| self.standing[day].is_none()) {
            let last = order
                .iter()
                .filter(|&&day| self.standing[day].is_none())
                .count()
                == 1;
            let aimed = last && self.random.percent(70) || self.random.percent(3);
            let reading = match self.random.below(40) {
                _ if aimed => self.aimed_reading(day),
                0 => self.other_reading(),
                1 => self.over_reading(),
                _ => self.reading(),
            };
            self.post(day, reading);
            if self.full() {
                return;
            }
            if self.random.percent(self.noise) {
                self.unusual();
            }
        }
        if self.random.percent(25) {
            self.close_beyond_limits();
        }
        self.close();
        if self.open > closing && self.random.percent(60) {
            for _ in 0..self.random.within(1..=12) {
                self.correct_closed();
            }
        }
    }

    /// A correction in a closed month.
    fn correct_closed(&mut self) {
        let closed = self.closed_days();
        if closed == 0 {
            return;
        }
        let day = self.random.below(closed);
        let reading = match self.random.below(8) {
            0..=3 => self.aimed_reading(day),
            4 => self.reading(),
            5 => self.other_reading(),
            // The standing one with another mark, or a little changed.
            6 => {
                let mut reading = self.standing[day].clone().unwrap_or_default();
                reading.rest_mark = !reading.rest_mark;
                reading
            }
            _ => {
                let mut reading = self.standing[day].clone().unwrap_or_default();
                let half_hour = self.random.below(HALF_HOURS);
                let figure = self.random.pick(&[0, 1, 50, 100, 2_499, 2_500]);
                if self.random.percent(50) {
                    reading.used[half_hour] = figure;
                } else {
                    reading.surplus[half_hour] = figure;
                }
                reading
            }
        };
        self.correct(day, reading);
    }

    /// A day of the calendar of which it is asked that it stands or not.
    fn find(&mut self, days: Range<usize>, stands: bool) -> Option<usize> {
        let days: Vec<usize> = days
            .filter(|&day| self.standing[day].is_some() == stands)
            .collect();
        if days.is_empty() {
            None
        } else {
            Some(self.random.pick(&days))
        }
    }

    /// Something other than posting the next day.
    fn unusual(&mut self) {
        let open_days = self
            .months
            .get(self.open)
            .cloned()
            .unwrap_or(self.days()..self.days());
        let closed = self.closed_days();
        let later = open_days.end..self.days();
        match self.random.below(20) {
            0 => {
                if let Some(day) = self.find(open_days, true) {
                    let reading = self.other_reading();
                    self.correct(day, reading);
                }
            }
            1 => {
                if let Some(day) = self.find(later, true) {
                    let reading = self.other_reading();
                    self.correct(day, reading);
                }
            }
            2..=4 => self.correct_closed(),
            5 => {
                if let Some(day) = self.find(closed..self.days(), false) {
                    let reading = self.other_reading();
                    self.correct(day, reading);
                }
            }
            6 | 7 => {
                if let Some(day) = self.find(later, false) {
                    let reading = self.other_reading();
                    self.post(day, reading);
                }
            }
            8 => {
                if let Some(day) = self.find(0..self.days(), true) {
                    let reading = self.other_reading();
                    self.post(day, reading);
                }
            }
            9 => {
                let day = self.random.below(self.days() + 2);
                let reading = self.over_reading();
                if self.random.percent(50) {
                    self.post(day, reading);
                } else {
                    self.correct(day, reading);
                }
            }
            10 => self.beyond(),
            11 | 12 => {
                if let Some(day) = self.find(closed..self.days(), true) {
                    self.strike(day);
                }
            }
            13 => {
                if let Some(day) = self.find(closed..self.days(), false) {
                    self.strike(day);
                }
            }
            14 => {
                if closed > 0 {
                    let day = self.random.below(closed);
                    self.strike(day);
                }
            }
            15 | 16 => {
                if self.find(open_days, false).is_some() {
                    self.close();
                }
            }
            17 => self.close_beyond_limits(),
            18 => {
                let opening = self.opening.clone();
                write::open(self.start(), &opening);
            }
            _ => {
                let opening = self.bad_opening();
                write::open(self.start(), &opening);
            }
        }
    }

    fn beyond(&mut self) {
        let days = self.days();
        let day = self
            .random
            .pick(&[days, days, days + 1, 420.max(days), 65_535]);
        match self.random.below(3) {
            0 => self.strike(day),
            1 => {
                let reading = self.other_reading();
                self.post(day, reading);
            }
            _ => {
                let reading = self.other_reading();
                self.correct(day, reading);
            }
        }
    }

    fn after_months(&mut self) {
        let corrections = self.random.pick(&[10, 30, 60, 150]);
        for _ in 0..corrections {
            if self.full() {
                return;
            }
            if self.random.percent(10) {
                self.choose_shapes();
            }
            if self.random.percent(8) {
                self.unusual();
            } else {
                self.correct_closed();
            }
        }
        if self.open == self.months.len() && self.random.percent(70) {
            for _ in 0..self.random.within(1..=3) {
                if self.random.percent(25) {
                    self.close_beyond_limits();
                } else {
                    self.close();
                }
            }
        }
    }

    // Bytes at fault.

    fn ending(&mut self) {
        if self.random.percent(60) {
            let slip = self.damaged();
            self.out.extend(slip);
        }
        // In the middle, too; what follows is then often read out of step.
        if self.random.percent(6) {
            let place = self.random.pick(&self.starts);
            let slip = self.damaged();
            self.out.splice(place..place, slip);
        }
        if self.random.percent(4) {
            let place = self.random.below(self.out.len());
            self.out[place] = self.random.byte();
        }
    }

    /// A slip with a faulty byte.
    fn damaged(&mut self) -> Vec<u8> {
        let mut slip = Vec::new();
        match self.random.below(8) {
            0 => {
                let letter = loop {
                    let letter = match self.random.below(2) {
                        0 => self.random.byte(),
                        _ => self.random.pick(b"opcsmDAN?\0\n Q"),
                    };
                    if !b"OPCSM".contains(&letter) {
                        break letter;
                    }
                };
                slip.push(letter);
                for _ in 0..self.random.below(6) {
                    slip.push(self.random.byte());
                }
            }
            1 | 2 => {
                slip = self.any_slip();
                slip.truncate(self.random.within(1..=slip.len() - 1));
            }
            3 => {
                write::close(&mut slip, self.random.number() as i16, 1, 2);
                slip[1] |= self.random.within(1..=31) as u8;
                slip.truncate(self.random.within(2..=slip.len()));
            }
            4 => {
                // A price of zero, and perhaps the bytes end inside it.
                slip.extend([
                    b'M',
                    self.random.pick(&[0x80, 0x40, 0x20, 0xE0, 0xC0, 0x60]),
                ]);
                let prices = slip[1].count_ones() as usize;
                slip.extend([0, 1].repeat(prices));
                let place = 2 + 2 * self.random.below(prices);
                slip[place + 1] = 0;
                slip.truncate(self.random.within(place + 1..=slip.len()));
            }
            5 => {
                // A figure of zero in the used or the surplus list.
                let mut reading = self.other_reading();
                reading.used[self.random.below(HALF_HOURS)] = 7;
                reading.surplus[self.random.below(HALF_HOURS)] = 7;
                let day = self.random.below(self.days()) as u16;
                write::post(&mut slip, day, &reading);
                slip[0] = self.random.pick(b"PC");
                let used = reading.used.iter().filter(|&&figure| figure != 0).count();
                let surplus = reading
                    .surplus
                    .iter()
                    .filter(|&&figure| figure != 0)
                    .count();
                let place = match self.random.below(2) {
                    0 => 10 + 2 * self.random.below(used),
                    _ => 16 + 2 * used + 2 * self.random.below(surplus),
                };
                slip[place..place + 2].fill(0);
                slip.truncate(self.random.within(place + 1..=slip.len()));
            }
            6 => {
                let reading = self.other_reading();
                let day = self.random.number();
                write::correct(&mut slip, day, &reading);
                slip[0] = self.random.pick(b"PC");
                slip[3] = self.random.within(2..=255) as u8;
                slip.truncate(self.random.within(4..=slip.len()));
            }
            _ => {
                write::open(&mut slip, &self.opening);
                slip[7] = self.random.pick(&[0, 13, 14, 128, 255]);
                slip.truncate(self.random.within(8..=slip.len()));
            }
        }
        slip
    }

    fn any_slip(&mut self) -> Vec<u8> {
        let mut slip = Vec::new();
        let day = self.random.below(self.days()) as u16;
        match self.random.below(5) {
            0 => write::open(&mut slip, &self.opening),
            1 => {
                let reading = self.other_reading();
                write::post(&mut slip, day, &reading);
            }
            2 => {
                let reading = self.other_reading();
                write::correct(&mut slip, day, &reading);
            }
            3 => write::strike(&mut slip, day),
            _ => write::close(&mut slip, -300, 349, 800),
        }
        slip
    }
}

fn acceptable(reading: &Reading) -> bool {
    reading
        .used
        .iter()
        .chain(&reading.surplus)
        .all(|&figure| figure <= 2_500)
}

fn sum_of<'a>(
    lists: impl IntoIterator<Item = &'a [u16; HALF_HOURS]>,
    window: &Range<usize>,
) -> u32 {
    lists
        .into_iter()
        .flat_map(|list| &list[window.clone()])
        .map(|&figure| u32::from(figure))
        .sum()
}
