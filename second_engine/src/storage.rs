//! Deposit boxes for surplus energy.

use crate::refusal::Refusal;

/// A box that the customer rents.
#[derive(Debug, Clone, Copy, PartialEq, Eq)]
pub enum DepositBox {
    S,
    M,
    L,
    T,
    R,
}

impl DepositBox {
    /// The box of a letter.
    pub fn from_letter(letter: u8) -> Result<Self, Refusal> {
        match letter {
            b'S' => Ok(Self::S),
            b'M' => Ok(Self::M),
            b'L' => Ok(Self::L),
            b'T' => Ok(Self::T),
            b'R' => Ok(Self::R),
            _ => Err(Refusal::UnknownBox),
        }
    }

    /// How many kWh it holds in a month, where that is limited.
    pub fn limit(self) -> Option<i64> {
        match self {
            Self::S => Some(50),
            Self::M => Some(150),
            Self::L => None,
            Self::T => Some(300),
            Self::R => Some(100),
        }
    }

    /// The fee in yen of a month with this surplus in kWh.
    pub fn fee(self, surplus: i64) -> i64 {
        match self {
            Self::S => 800,
            Self::M => 2_350,
            Self::L => 5_000,
            Self::T if surplus == 0 => 4_980 / 2,
            Self::T => 4_980,
            Self::R if surplus == 0 => 2_500 / 2,
            Self::R => 2_500,
        }
    }
}

#[cfg(test)]
mod tests {
    use super::*;

    #[test]
    fn fees_of_t_and_r_are_halved_without_surplus() {
        let fees = |surplus| {
            [
                DepositBox::S,
                DepositBox::M,
                DepositBox::L,
                DepositBox::T,
                DepositBox::R,
            ]
            .map(|storage| storage.fee(surplus))
        };
        assert_eq!(fees(0), [800, 2_350, 5_000, 2_490, 1_250]);
        assert_eq!(fees(1), [800, 2_350, 5_000, 4_980, 2_500]);
    }

    #[test]
    fn letters() {
        assert_eq!(DepositBox::from_letter(b'T'), Ok(DepositBox::T));
        assert_eq!(DepositBox::from_letter(b's'), Err(Refusal::UnknownBox));
        assert_eq!(DepositBox::from_letter(0), Err(Refusal::UnknownBox));
    }
}
