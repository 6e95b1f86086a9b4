//! Normal form: what the reader of an alphabet gives for the code of a character.

use crate::annex::{dtmf_reads, dtmf_sends, BAUDOT_READS, BAUDOT_SENDS, FIGURES};

#[derive(Clone, Copy, Debug, PartialEq, Eq)]
pub enum Alphabet {
    Baudot,
    Dtmf,
    Edt,
}

impl Alphabet {
    /// The normal form of a character from 00 to 7F; None if nothing is sent for it.
    pub fn normal(self, character: u8) -> Option<u8> {
        match self {
            Alphabet::Baudot => {
                let sending = BAUDOT_SENDS[character as usize]?;
                // A code of either shift reads the same in both.
                let shift = usize::from(sending.shifts == FIGURES);
                BAUDOT_READS[shift][sending.code as usize]
            }
            Alphabet::Dtmf => dtmf_reads(dtmf_sends(character)?),
            Alphabet::Edt => Some(character),
        }
    }

    /// The normal form of a list, character by character.
    pub fn normal_list(self, text: &[u8]) -> Vec<u8> {
        text.iter().filter_map(|&c| self.normal(c)).collect()
    }
}

#[cfg(test)]
mod tests {
    use super::Alphabet::{Baudot, Dtmf, Edt};

    #[test]
    fn lists() {
        assert_eq!(Baudot.normal_list(b"a\x00\t@*`[~"), b"A X.'( ");
        assert_eq!(Dtmf.normal_list(b"aA\r>&\x7F"), b"a{)+\x08");
        assert_eq!(Edt.normal_list(b"\x00a\x7F"), b"\x00a\x7F");
    }

    #[test]
    fn normal_form_is_its_own() {
        for alphabet in [Baudot, Dtmf, Edt] {
            for form in (0..128).filter_map(|c| alphabet.normal(c)) {
                assert_eq!(alphabet.normal(form), Some(form));
            }
        }
    }
}
