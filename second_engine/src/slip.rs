//! Slips and how their bytes are read.

use crate::refusal::Refusal;
use crate::tariff::HALF_HOURS;

/// A slip. What is long stays in the bytes that were read.
#[derive(Debug, Clone, Copy, PartialEq, Eq)]
pub enum Slip<'a> {
    Open(Opening<'a>),
    Post(u16, Reading<'a>),
    Correct(u16, Reading<'a>),
    Strike(u16),
    Close(Quote),
}

/// What an opening asks for.
#[derive(Debug, Clone, Copy, PartialEq, Eq)]
pub struct Opening<'a> {
    pub tariff: u8,
    pub capacity: u8,
    pub percent: u8,
    pub box_letter: u8,
    pub first_day: u16,
    /// The length of each month.
    pub lengths: &'a [u8],
}

/// A day's reading.
#[derive(Debug, Clone, Copy, PartialEq, Eq)]
pub struct Reading<'a> {
    pub rest_mark: bool,
    pub used: Figures<'a>,
    pub surplus: Figures<'a>,
}

/// Prices in sen per kWh, not yet judged.
#[derive(Debug, Clone, Copy, PartialEq, Eq)]
pub struct Quote {
    pub fuel: i16,
    pub levy: u16,
    pub buy: u16,
}

/// The figures of a day's half-hours. Those that are not zero are kept, in
/// their order, and the map has a bit for each, from the top on.
#[derive(Debug, Clone, Copy, PartialEq, Eq)]
pub struct Figures<'a> {
    map: u64,
    standing: &'a [[u8; 2]],
}

impl<'a> Figures<'a> {
    /// Whether no figure is above the limit.
    pub fn within(&self, limit: u16) -> bool {
        let largest = self
            .standing
            .iter()
            .map(|&pair| u16::from_be_bytes(pair))
            .fold(0, u16::max);
        largest <= limit
    }

    /// The sum of all figures.
    pub fn total(&self) -> i64 {
        sum(self.standing)
    }

    /// Takes the next half-hours off the front and answers their sum.
    pub fn take_front(&mut self, half_hours: usize) -> i64 {
        let count = (self.map & !(u64::MAX >> half_hours)).count_ones();
        let (front, rest) = self.standing.split_at(count as usize);
        self.map <<= half_hours;
        self.standing = rest;
        sum(front)
    }
}

fn sum(pairs: &[[u8; 2]]) -> i64 {
    let sum: u32 = pairs
        .iter()
        .map(|&pair| u32::from(u16::from_be_bytes(pair)))
        .sum();
    i64::from(sum)
}

/// Reads the slip that the bytes begin with, and answers it and the rest.
pub fn read(bytes: &[u8]) -> Result<(Slip<'_>, &[u8]), Refusal> {
    let mut reader = Reader { bytes, at: 1 };
    let slip = match bytes.first().ok_or(Refusal::Empty)? {
        b'O' => Slip::Open(reader.opening()?),
        b'P' => Slip::Post(reader.number()?, reader.reading()?),
        b'C' => Slip::Correct(reader.number()?, reader.reading()?),
        b'S' => Slip::Strike(reader.number()?),
        b'M' => Slip::Close(reader.quote()?),
        _ => return Err(Refusal::Letter),
    };
    Ok((slip, &bytes[reader.at..]))
}

/// Goes through the bytes; `at` is the place of the next one.
struct Reader<'a> {
    bytes: &'a [u8],
    at: usize,
}

impl<'a> Reader<'a> {
    fn short(&self) -> Refusal {
        Refusal::Short(self.bytes.len())
    }

    fn take(&mut self, count: usize) -> Result<&'a [u8], Refusal> {
        let end = self.at + count;
        let taken = self.bytes.get(self.at..end).ok_or(self.short())?;
        self.at = end;
        Ok(taken)
    }

    fn array<const N: usize>(&mut self) -> Result<[u8; N], Refusal> {
        let array = *self.bytes[self.at..].first_chunk().ok_or(self.short())?;
        self.at += N;
        Ok(array)
    }

    fn byte(&mut self) -> Result<u8, Refusal> {
        self.array().map(|[byte]| byte)
    }

    fn number(&mut self) -> Result<u16, Refusal> {
        self.array().map(u16::from_be_bytes)
    }

    fn opening(&mut self) -> Result<Opening<'a>, Refusal> {
        let [tariff, capacity, percent, box_letter] = self.array()?;
        let first_day = self.number()?;
        let place = self.at;
        let months = self.byte()?;
        if !(1..=12).contains(&months) {
            return Err(Refusal::MonthsByte(place));
        }
        let lengths = self.take(months.into())?;
        Ok(Opening {
            tariff,
            capacity,
            percent,
            box_letter,
            first_day,
            lengths,
        })
    }

    fn reading(&mut self) -> Result<Reading<'a>, Refusal> {
        let place = self.at;
        let rest_mark = match self.byte()? {
            0 => false,
            1 => true,
            _ => return Err(Refusal::Rest(place)),
        };
        Ok(Reading {
            rest_mark,
            used: self.figures()?,
            surplus: self.figures()?,
        })
    }

    fn figures(&mut self) -> Result<Figures<'a>, Refusal> {
        const MAP: usize = HALF_HOURS / 8;
        let mut word = [0; 8];
        word[..MAP].copy_from_slice(&self.array::<MAP>()?);
        let map = u64::from_be_bytes(word);
        let standing = self.standing(map.count_ones() as usize)?;
        Ok(Figures { map, standing })
    }

    fn quote(&mut self) -> Result<Quote, Refusal> {
        let place = self.at;
        let map = self.byte()?;
        if map & 0b0001_1111 != 0 {
            return Err(Refusal::Map(place));
        }
        let standing = self.standing(map.count_ones() as usize)?;
        let mut standing = standing.iter().copied();
        let mut price = |bit| {
            if map & bit != 0 {
                standing.next()
            } else {
                None
            }
            .unwrap_or([0, 0])
        };
        Ok(Quote {
            fuel: i16::from_be_bytes(price(0b1000_0000)),
            levy: u16::from_be_bytes(price(0b0100_0000)),
            buy: u16::from_be_bytes(price(0b0010_0000)),
        })
    }

    /// Reads the figures whose bits stand. One that is zero is refused before
    /// the bytes are found to end behind it.
    fn standing(&mut self, count: usize) -> Result<&'a [[u8; 2]], Refusal> {
        let (pairs, _) = self.bytes[self.at..].as_chunks();
        let standing = &pairs[..count.min(pairs.len())];
        if standing
            .iter()
            .fold(false, |any, &pair| any | (pair == [0, 0]))
        {
            let before = standing.iter().take_while(|&&pair| pair != [0, 0]).count();
            return Err(Refusal::Zero(self.at + 2 * before));
        }
        if standing.len() < count {
            return Err(self.short());
        }
        self.at += 2 * count;
        Ok(standing)
    }
}

#[cfg(test)]
mod tests {
    use super::*;

    fn fault(bytes: &[u8]) -> (u64, u64) {
        let refusal = read(bytes).expect_err("the bytes are faulty");
        (refusal.number(), refusal.place())
    }

    const POST: [u8; 18] = [
        0x50, 1, 2, 1, 0x40, 0, 0, 0, 0, 0, 0, 0x5A, 0, 0, 0, 0, 0, 0,
    ];

    #[test]
    fn the_example_of_a_posting() {
        let bytes = [&POST[..], &[0x53]].concat();
        let (slip, rest) = read(&bytes).unwrap();
        let Slip::Post(258, reading) = slip else {
            panic!("{slip:?}")
        };
        assert!(reading.rest_mark);
        assert_eq!(reading.used.total(), 90);
        let mut used = reading.used;
        assert_eq!([1, 1, 46].map(|count| used.take_front(count)), [0, 90, 0]);
        assert_eq!(reading.surplus.total(), 0);
        assert_eq!(rest, [0x53]);
    }

    #[test]
    fn no_bytes_and_no_letter() {
        assert_eq!(fault(b""), (1, 0));
        for letter in [0, b'?', b'D', b'o', 255] {
            assert_eq!(fault(&[letter]), (2, 0));
        }
    }

    #[test]
    fn every_cut_is_short_at_its_length() {
        let open = [b'O', 9, 99, 255, 0, 255, 255, 3, 0, 36, 255];
        let dense = [&b"C\0\0\0"[..], &[255; 6 + 96], &[255; 6 + 96]].concat();
        let close = [b'M', 0xE0, 1, 2, 3, 4, 5, 6];
        for whole in [&open[..], &POST, &dense, b"S\0\0", &close] {
            assert_eq!(read(whole).unwrap().1, b"");
            for length in 1..whole.len() {
                assert_eq!(fault(&whole[..length]), (3, length as u64));
            }
        }
    }

    #[test]
    fn bits_without_meaning() {
        for bit in 0..5 {
            assert_eq!(fault(&[b'M', 1 << bit]), (4, 1));
            assert_eq!(fault(&[b'M', 0xE0 | 1 << bit, 0, 0]), (4, 1));
        }
    }

    #[test]
    fn zeros_that_stand() {
        assert_eq!(fault(&[b'M', 0x80, 0, 0]), (5, 2));
        assert_eq!(fault(&[b'M', 0x60, 0, 1, 0, 0]), (5, 4));
        assert_eq!(fault(&[b'M', 0x60, 0, 0]), (5, 2));
        assert_eq!(fault(&[b'M', 0x60, 0]), (3, 3));
        assert_eq!(fault(b"P\0\0\0\xC0\0\0\0\0\0\0\x01\0\0"), (5, 12));
        assert_eq!(fault(b"P\0\0\0\xC0\0\0\0\0\0\0\0"), (5, 10));
        assert_eq!(fault(b"P\0\0\0\xC0\0\0\0\0\0\0"), (3, 11));
        assert_eq!(
            fault(b"C\0\0\x01\0\0\0\0\0\x01\x01\0\0\0\0\0\0\x01\0\0"),
            (5, 18)
        );
    }

    #[test]
    fn rest_byte_and_months() {
        for rest in [2, 3, 255] {
            assert_eq!(fault(&[b'P', 0, 0, rest]), (6, 3));
            assert_eq!(fault(&[b'C', 0, 0, rest]), (6, 3));
        }
        for months in [0, 13, 255] {
            assert_eq!(fault(&[b'O', 1, 1, 1, b'S', 0, 0, months]), (7, 7));
        }
    }

    #[test]
    fn prices_by_their_bits() {
        let quote = |bytes: &[u8]| match read(bytes).unwrap().0 {
            Slip::Close(Quote { fuel, levy, buy }) => (fuel, levy, buy),
            other => panic!("{other:?}"),
        };
        assert_eq!(quote(&[b'M', 0]), (0, 0, 0));
        assert_eq!(quote(&[b'M', 0x80, 0xFF, 0xFF]), (-1, 0, 0));
        assert_eq!(quote(&[b'M', 0x40, 0xFF, 0xFF]), (0, 65_535, 0));
        assert_eq!(quote(&[b'M', 0x20, 3, 0x20]), (0, 0, 800));
        assert_eq!(quote(&[b'M', 0xA0, 0x80, 0, 0, 7]), (-32_768, 0, 7));
    }
}
