//! Slips as bytes.

use crate::tariff::HALF_HOURS;

/// A day's reading with all its figures.
#[derive(Debug, Clone)]
pub struct Reading {
    pub rest_mark: bool,
    pub used: [u16; HALF_HOURS],
    pub surplus: [u16; HALF_HOURS],
}

impl Default for Reading {
    fn default() -> Self {
        Self {
            rest_mark: false,
            used: [0; HALF_HOURS],
            surplus: [0; HALF_HOURS],
        }
    }
}

/// What an opening asks for.
#[derive(Debug, Clone)]
pub struct Opening {
    pub tariff: u8,
    pub capacity: u8,
    pub percent: u8,
    pub box_letter: u8,
    pub first_day: u16,
    pub lengths: Vec<u8>,
}

pub fn open(out: &mut Vec<u8>, opening: &Opening) {
    out.extend([
        b'O',
        opening.tariff,
        opening.capacity,
        opening.percent,
        opening.box_letter,
    ]);
    out.extend(opening.first_day.to_be_bytes());
    out.push(opening.lengths.len() as u8);
    out.extend(&opening.lengths);
}

pub fn post(out: &mut Vec<u8>, day: u16, reading: &Reading) {
    out.push(b'P');
    day_and_reading(out, day, reading);
}

pub fn correct(out: &mut Vec<u8>, day: u16, reading: &Reading) {
    out.push(b'C');
    day_and_reading(out, day, reading);
}

pub fn strike(out: &mut Vec<u8>, day: u16) {
    out.push(b'S');
    out.extend(day.to_be_bytes());
}

pub fn close(out: &mut Vec<u8>, fuel: i16, levy: u16, buy: u16) {
    out.push(b'M');
    figures(out, &[fuel as u16, levy, buy]);
}

fn day_and_reading(out: &mut Vec<u8>, day: u16, reading: &Reading) {
    out.extend(day.to_be_bytes());
    out.push(reading.rest_mark.into());
    figures(out, &reading.used);
    figures(out, &reading.surplus);
}

/// Figures behind their map.
fn figures(out: &mut Vec<u8>, figures: &[u16]) {
    for eight in figures.chunks(8) {
        let bits = eight.iter().enumerate().filter(|&(_, &figure)| figure != 0);
        out.push(bits.fold(0, |map, (place, _)| map | 0x80 >> place));
    }
    out.extend(
        figures
            .iter()
            .filter(|&&figure| figure != 0)
            .flat_map(|figure| figure.to_be_bytes()),
    );
}
