//! A run: slips in, lines out.

use crate::account::Account;
use crate::refusal::Refusal;
use crate::slip::{Slip, read};

/// A run ends behind the line of this number.
const LAST_LINE: u64 = 999_999;

/// Takes slips from the bytes, one after another, and answers a line for each.
pub fn settle(input: &[u8]) -> Vec<u8> {
    // The shortest slips take two bytes, most of them many more.
    let mut lines = Vec::with_capacity(64 + input.len() / 4);
    let mut counter = Counter::default();
    let mut rest = input;
    for number in 1..=LAST_LINE {
        let Some(&letter) = rest.first() else { break };
        match read(rest) {
            Ok((slip, behind)) => {
                rest = behind;
                push_line(&mut lines, number, letter, counter.take(&slip));
            }
            Err(refusal) => {
                let letter = if refusal == Refusal::Letter {
                    b'?'
                } else {
                    letter
                };
                push_line(&mut lines, number, letter, Err(refusal));
                break;
            }
        }
    }
    lines
}

/// Takes slips to the account, if one is open.
#[derive(Debug, Default)]
pub struct Counter {
    account: Option<Account>,
}

impl Counter {
    /// Takes one slip and answers its amount in yen.
    pub fn take(&mut self, slip: &Slip) -> Result<i64, Refusal> {
        match (slip, &mut self.account) {
            (Slip::Open(_), Some(_)) => Err(Refusal::AlreadyOpen),
            (Slip::Open(opening), None) => {
                self.account = Some(Account::open(opening)?);
                Ok(0)
            }
            (_, None) => Err(Refusal::NotOpen),
            (Slip::Post(day, reading), Some(account)) => account.post(*day, reading).map(|()| 0),
            (Slip::Correct(day, reading), Some(account)) => account.correct(*day, reading),
            (Slip::Strike(day), Some(account)) => account.strike(*day).map(|()| 0),
            (Slip::Close(quote), Some(account)) => account.close(*quote).map(|month| month.net()),
        }
    }
}

fn push_line(lines: &mut Vec<u8>, number: u64, letter: u8, outcome: Result<i64, Refusal>) {
    let mut line = Backwards::default();
    line.push(b'\n');
    match outcome {
        Ok(yen) => {
            line.push_number(yen.unsigned_abs());
            if yen < 0 {
                line.push(b'-');
            }
            line.push_bytes(*b" ok ");
        }
        Err(refusal) => {
            line.push_number(refusal.place());
            line.push(b' ');
            line.push_number(refusal.number());
            line.push_bytes(*b" no ");
        }
    }
    line.push_bytes([b' ', letter]);
    line.push_number(number);
    lines.extend_from_slice(line.as_bytes());
}

/// A line that is put together from its end, so that the digits of a number
/// come in their order.
struct Backwards {
    bytes: [u8; Self::CAPACITY],
    start: usize,
}

impl Default for Backwards {
    fn default() -> Self {
        Self {
            bytes: [0; Self::CAPACITY],
            start: Self::CAPACITY,
        }
    }
}

impl Backwards {
    /// Enough for two numbers of 20 digits and what stands between them.
    const CAPACITY: usize = 64;

    fn push(&mut self, byte: u8) {
        self.push_bytes([byte]);
    }

    fn push_bytes<const N: usize>(&mut self, bytes: [u8; N]) {
        self.start -= N;
        self.bytes[self.start..self.start + N].copy_from_slice(&bytes);
    }

    fn push_number(&mut self, mut number: u64) {
        loop {
            self.push(b'0' + (number % 10) as u8);
            number /= 10;
            if number == 0 {
                break;
            }
        }
    }

    fn as_bytes(&self) -> &[u8] {
        &self.bytes[self.start..]
    }
}

#[cfg(test)]
mod tests {
    use super::*;

    fn lines(input: &[u8]) -> String {
        String::from_utf8(settle(input)).unwrap()
    }

    fn hex(text: &str) -> Vec<u8> {
        text.split_whitespace()
            .map(|byte| u8::from_str_radix(byte, 16).unwrap())
            .collect()
    }

    const SAMPLE: &str = "
        4F 01 0A 64 53 00 00 01 01
        50 00 00 00 80 00 00 00 00 00 00 64 00 00 00 00 00 00
        4D 20 03 20
        43 00 00 00 80 00 00 00 00 00 00 C8 00 00 00 00 00 00
        53 00 00";

    #[test]
    fn the_sample() {
        let expected = "1 O ok 0\n2 P ok 0\n3 M ok 3679\n4 C ok 20\n5 S no 25 0\n";
        assert_eq!(lines(&hex(SAMPLE)), expected);
    }

    #[test]
    fn no_input_has_no_lines() {
        assert_eq!(lines(b""), "");
    }

    #[test]
    fn faulty_bytes_end_the_run() {
        assert_eq!(lines(b"S\0\0?S\0\0"), "1 S no 17 0\n2 ? no 2 0\n");
        assert_eq!(lines(b"M\0M\x01M\0"), "1 M no 17 0\n2 M no 4 1\n");
        assert_eq!(lines(b"S\0"), "1 S no 3 2\n");
        assert_eq!(lines(b"O\x01\x01\x64S\0\0\x0D"), "1 O no 7 7\n");
    }

    #[test]
    fn a_refused_opening_may_be_followed_by_another() {
        let input = hex("4D 00
             4F 04 32 65 58 FF FF 01 24
             4F 01 32 65 58 FF FF 01 24
             4F 01 31 65 58 FF FF 01 24
             4F 01 31 64 58 FF FF 01 24
             4F 01 31 64 53 FF FF 01 24
             4F 01 31 64 53 FF FF 01 23
             4F 01 31 64 53 8E AC 01 01
             4F 04 32 65 58 FF FF 01 24
             53 00 01
             53 00 00");
        let expected = "1 M no 17 0\n2 O no 10 0\n3 O no 11 0\n4 O no 12 0\n5 O no 13 0\n\
                        6 O no 15 0\n7 O no 16 0\n8 O ok 0\n9 O no 18 0\n10 S no 20 1\n\
                        11 S no 24 0\n";
        assert_eq!(lines(&input), expected);
    }

    #[test]
    fn an_opening_with_a_faulty_byte_is_not_judged_as_an_opening() {
        let input = [hex(SAMPLE), hex("4F 01 31 64 53 FF FF 00 53 00 00")].concat();
        assert!(lines(&input).ends_with("\n6 O no 7 7\n"));
    }

    #[test]
    fn amounts_below_zero_have_a_sign() {
        let input = [
            hex(SAMPLE),
            hex("43 00 00 00 00 00 00 00 00 00 80 00 00 00 00 00 07 D0"),
        ]
        .concat();
        // No energy used, 20 kWh bought at 800 sen: 1,430 + 800 - 160 after 3,699.
        assert!(lines(&input).ends_with("\n6 C ok -1629\n"));
    }

    #[test]
    fn the_run_ends_behind_line_999999() {
        let input = b"M\0".repeat(1_000_001);
        let output = lines(&input);
        assert!(output.ends_with("\n999998 M no 17 0\n999999 M no 17 0\n"));
        assert_eq!(output.lines().count(), 999_999);
        let input = [b"M\0".repeat(999_998), b"X".to_vec(), b"X".to_vec()].concat();
        assert!(lines(&input).ends_with("\n999999 ? no 2 0\n"));
    }
}
