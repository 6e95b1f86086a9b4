//! The four modes, and what each brings with it.

use crate::line::{KEY_GAP, KEY_LENGTH};
use crate::normal::Alphabet;
use std::ops::Range;

#[derive(Clone, Copy, Debug, PartialEq, Eq)]
pub enum Mode {
    /// Baudot at 45.45 bit/s.
    Baudot45 = 1,
    /// Baudot at 50 bit/s.
    Baudot50 = 2,
    Dtmf = 3,
    Edt = 4,
}

impl Mode {
    pub const ALL: [Mode; 4] = [Mode::Baudot45, Mode::Baudot50, Mode::Dtmf, Mode::Edt];

    pub fn from_number(number: u8) -> Option<Mode> {
        Mode::ALL.into_iter().find(|mode| mode.number() == number)
    }

    pub const fn number(self) -> u8 {
        self as u8
    }

    pub const fn alphabet(self) -> Alphabet {
        match self {
            Mode::Baudot45 | Mode::Baudot50 => Alphabet::Baudot,
            Mode::Dtmf => Alphabet::Dtmf,
            Mode::Edt => Alphabet::Edt,
        }
    }

    /// The ms of mark that open a burst (document 01: the lead).
    pub const fn preamble(self) -> u16 {
        match self {
            Mode::Baudot45 | Mode::Baudot50 => 150,
            Mode::Dtmf => 0,
            Mode::Edt => 300,
        }
    }

    /// The highest level of a ms.
    pub const fn highest_level(self) -> u8 {
        match self {
            Mode::Dtmf => 16,
            _ => 2,
        }
    }

    /// The ms of an element of Baudot.
    pub const fn element(self) -> usize {
        match self {
            Mode::Baudot45 => 22,
            _ => 20,
        }
    }

    /// The ms of a code; in DTMF of a key with the quiet after it. In Baudot a start and five digits
    /// of one element each, and a stop of one and a half.
    pub const fn code_length(self) -> usize {
        match self {
            Mode::Baudot45 | Mode::Baudot50 => 6 * self.element() + 3 * self.element() / 2,
            Mode::Dtmf => KEY_LENGTH + KEY_GAP,
            Mode::Edt => 100,
        }
    }

    /// The elements of a code, the start included. Keys have none.
    pub const fn elements(self) -> usize {
        match self {
            Mode::Baudot45 | Mode::Baudot50 => 7,
            Mode::Dtmf => 0,
            Mode::Edt => 11,
        }
    }

    /// The elements that are stops: in Baudot one and a half as one.
    pub const fn stops(self) -> Range<usize> {
        match self {
            Mode::Baudot45 | Mode::Baudot50 => 6..7,
            Mode::Dtmf => 0..0,
            Mode::Edt => 9..11,
        }
    }

    /// The element of EDT's parity.
    pub const PARITY: usize = 8;

    /// The element that a ms of a code belongs to. The last one of Baudot is half as long again.
    pub const fn element_at(self, ms: usize) -> usize {
        let element = match self {
            Mode::Baudot45 | Mode::Baudot50 => ms / self.element(),
            Mode::Dtmf => 0,
            Mode::Edt => 11 * ms / 100,
        };
        if element < self.elements() {
            element
        } else {
            self.elements() - 1
        }
    }

    /// The ms of a frame at which an element is sampled (document 01: its look).
    pub const fn sample_at(self, element: usize) -> usize {
        match self {
            Mode::Baudot45 | Mode::Baudot50 => self.element() * element + self.element() / 2,
            Mode::Dtmf => 0,
            Mode::Edt => (100 * element + 50) / 11,
        }
    }

    /// The ms of a frame's last sample; in Baudot that of its stop. Keys have none.
    pub const fn last_sample(self) -> usize {
        match self {
            Mode::Dtmf => 0,
            _ => self.sample_at(self.elements() - 1),
        }
    }
}

#[cfg(test)]
mod tests {
    use super::*;

    #[test]
    fn numbers() {
        for (mode, number) in Mode::ALL.into_iter().zip(1..) {
            assert_eq!(Mode::from_number(number), Some(mode));
            assert_eq!(mode.number(), number);
        }
        assert_eq!(Mode::from_number(0), None);
        assert_eq!(Mode::from_number(5), None);
    }

    #[test]
    fn every_sample_falls_into_its_element() {
        for mode in [Mode::Baudot45, Mode::Baudot50, Mode::Edt] {
            for element in 0..mode.elements() {
                assert_eq!(mode.element_at(mode.sample_at(element)), element);
            }
        }
        let samples: Vec<_> = (0..11).map(|element| Mode::Edt.sample_at(element)).collect();
        assert_eq!(samples, [4, 13, 22, 31, 40, 50, 59, 68, 77, 86, 95]);
    }
}
