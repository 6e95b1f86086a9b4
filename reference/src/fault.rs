//! Faults: why a code could not be read, where in its frame, and the word that says so (document 01:
//! house words; document 02, request 103).

use crate::mode::Mode;

/// Why; the numbers are those of the word.
#[derive(Clone, Copy, Debug, PartialEq, Eq)]
pub enum Cause {
    /// Quiet at a sample behind the start's, also at that of the parity or of a stop.
    Quiet = 1,
    StopNotMark = 2,
    OddParity = 3,
    /// A DTMF code without a row.
    NoRow = 4,
    /// A DTMF key from A to D.
    LetterKey = 5,
}

/// A cause, and the ms of the frame at which it was found; 0 in DTMF, which has no frames.
#[derive(Clone, Copy, Debug, PartialEq, Eq)]
pub struct Fault {
    pub cause: Cause,
    pub ms: usize,
}

/// The faults of DTMF.
pub const NO_ROW: Fault = Fault { cause: Cause::NoRow, ms: 0 };
pub const LETTER_KEY: Fault = Fault { cause: Cause::LetterKey, ms: 0 };

impl Fault {
    /// Its word: kind 1 in bits 31 to 28, the ms in bits 27 to 8, the cause in bits 3 to 0.
    pub const fn word(self) -> u32 {
        1 << 28 | (self.ms as u32) << 8 | self.cause as u32
    }

    /// Every fault that a reader of the mode can give.
    pub fn of_mode(mode: Mode) -> Vec<Fault> {
        if mode == Mode::Dtmf {
            return vec![NO_ROW, LETTER_KEY];
        }
        let at = |cause, element| Fault { cause, ms: mode.sample_at(element) };
        let mut faults: Vec<_> =
            (1..mode.elements()).map(|element| at(Cause::Quiet, element)).collect();
        if mode == Mode::Edt {
            faults.push(at(Cause::OddParity, Mode::PARITY));
        }
        faults.extend(mode.stops().map(|stop| at(Cause::StopNotMark, stop)));
        faults
    }

    /// The fault of which a reader of the mode gives this word, if there is one.
    pub fn of_word(mode: Mode, word: u32) -> Option<Fault> {
        Fault::of_mode(mode).into_iter().find(|fault| fault.word() == word)
    }
}

/// Can a reader of the mode give this word? That of a character is its seven bits.
pub fn is_word(mode: Mode, word: u32) -> bool {
    word < 0x80 || Fault::of_word(mode, word).is_some()
}

#[cfg(test)]
mod tests {
    use super::*;

    #[test]
    fn the_words_of_all_faults() {
        let quiet_at = |all: &[u32]| all.iter().map(|ms| 0x1000_0001 | ms << 8).collect::<Vec<_>>();
        let baudot45 = [quiet_at(&[33, 55, 77, 99, 121, 143]), vec![0x1000_8F02]].concat();
        let baudot50 = [quiet_at(&[30, 50, 70, 90, 110, 130]), vec![0x1000_8202]].concat();
        let edt = [
            quiet_at(&[13, 22, 31, 40, 50, 59, 68, 77, 86, 95]),
            vec![0x1000_4D03, 0x1000_5602, 0x1000_5F02],
        ];
        let all = [baudot45, baudot50, vec![0x1000_0004, 0x1000_0005], edt.concat()];
        for (mode, wanted) in Mode::ALL.into_iter().zip(all) {
            let faults = Fault::of_mode(mode);
            assert_eq!(faults.iter().map(|fault| fault.word()).collect::<Vec<_>>(), wanted);
            for fault in faults {
                assert_eq!(Fault::of_word(mode, fault.word()), Some(fault));
            }
        }
    }

    #[test]
    fn words_of_a_mode() {
        for mode in Mode::ALL {
            let words = (0..1 << 20).chain((0..1 << 20).map(|low| 1 << 28 | low));
            let words: Vec<u32> = words.filter(|&word| is_word(mode, word)).collect();
            assert_eq!(words[..128], (0..128).collect::<Vec<_>>());
            assert_eq!(words.len(), 128 + Fault::of_mode(mode).len());
        }
    }
}
