//! Large streams for measuring speed.

use super::random::Random;
use super::write::{self, Opening, Reading};
use std::ops::Range;

/// What a large stream mostly consists of.
#[derive(Debug, Clone, Copy, PartialEq, Eq)]
pub enum Load {
    /// Postings: all days once, then again and again a day struck, posted and
    /// posted once more, which is refused.
    Posts,
    /// Corrections in twelve closed months.
    Corrections,
    /// Closings, most of them refused because a day of the month is missing.
    /// An account has twelve months, so twelve of them succeed.
    Closings,
}

const MONTHS: usize = 12;
const LENGTH: usize = 35;
const DAYS: usize = MONTHS * LENGTH;

/// A stream of so many slips.
pub fn load(kind: Load, count: usize, seed: u64) -> Vec<u8> {
    let mut load = Stream {
        random: Random::new(seed),
        out: Vec::new(),
        left: count,
    };
    load.open();
    match kind {
        Load::Posts => load.posts(),
        Load::Corrections => load.corrections(),
        Load::Closings => load.closings(),
    }
    load.out
}

struct Stream {
    random: Random,
    out: Vec<u8>,
    left: usize,
}

impl Stream {
    /// Whether one more slip may be written; counts it.
    fn next(&mut self) -> bool {
        let more = self.left > 0;
        self.left = self.left.saturating_sub(1);
        more
    }

    fn open(&mut self) {
        let opening = Opening {
            tariff: self.random.within(1..=3) as u8,
            capacity: self.random.within(1..=49) as u8,
            percent: self.random.within(80..=100) as u8,
            box_letter: self.random.pick(b"SMLTR"),
            first_day: self.random.within(0..=36_000) as u16,
            lengths: vec![LENGTH as u8; MONTHS],
        };
        if self.next() {
            write::open(&mut self.out, &opening);
        }
    }

    /// A household's day: use all day long, surplus while the sun shines.
    fn reading(&mut self) -> Reading {
        let mut reading = Reading {
            rest_mark: self.random.percent(5),
            ..Reading::default()
        };
        for figure in &mut reading.used {
            *figure = self.random.within(5..=80) as u16;
        }
        for figure in &mut reading.surplus[13..36] {
            *figure = self.random.within(0..=90) as u16;
        }
        reading
    }

    fn post(&mut self, day: usize) {
        if self.next() {
            let reading = self.reading();
            write::post(&mut self.out, day as u16, &reading);
        }
    }

    fn post_all(&mut self, days: Range<usize>) {
        for day in days {
            self.post(day);
        }
    }

    fn strike(&mut self, day: usize) {
        if self.next() {
            write::strike(&mut self.out, day as u16);
        }
    }

    fn close(&mut self) {
        if self.next() {
            let fuel = self.random.within(0..=1_200) as i16 - 600;
            let levy = self.random.within(100..=400) as u16;
            let buy = self.random.within(500..=900) as u16;
            write::close(&mut self.out, fuel, levy, buy);
        }
    }

    fn posts(&mut self) {
        self.post_all(0..DAYS);
        while self.left > 0 {
            let day = self.random.below(DAYS);
            self.strike(day);
            self.post(day);
            self.post(day);
        }
    }

    fn corrections(&mut self) {
        self.post_all(0..DAYS);
        for _ in 0..MONTHS {
            self.close();
        }
        while self.next() {
            let day = self.random.below(DAYS);
            let reading = self.reading();
            write::correct(&mut self.out, day as u16, &reading);
        }
    }

    fn closings(&mut self) {
        let slips = self.left;
        for month in 0..MONTHS {
            let end = slips - slips * (month + 1) / MONTHS;
            let days = month * LENGTH..(month + 1) * LENGTH;
            let last = days.end - 1;
            self.post_all(days.start..last);
            while self.left > end + 2 {
                if self.random.percent(5) {
                    let day = self.random.within(days.start..=last - 1);
                    self.strike(day);
                    self.close();
                    self.post(day);
                }
                self.close();
            }
            self.post(last);
            self.close();
        }
        while self.left > 0 {
            self.close();
        }
    }
}
