//! Codes and their line signal: the level of each ms. Levels are 0 quiet, 1 mark, 2 space; in
//! DTMF 0 quiet or the number of a key.

use crate::annex::{dtmf_sends, FIGURES_CODE, LETTERS, LETTERS_CODE};
use crate::answer::SUCCESS;
use crate::baudot::{send, FRESH};
use crate::mode::Mode;
use std::fmt::{self, Display, Formatter};

pub const QUIET: u8 = 0;
pub const MARK: u8 = 1;
pub const SPACE: u8 = 2;

/// The keys by their numbers from 1 on.
pub const KEYS: &str = "1234567890*#ABCD";

/// The ms of a key, and of the quiet after it.
pub const KEY_LENGTH: usize = 70;
pub const KEY_GAP: usize = 50;

/// What prefixes there are, in the order of the listings (document 01: marks).
pub const PREFIXES: [&str; 15] =
    ["", "*", "#", "**", "*#", "#*", "##", "***", "**#", "*#*", "*##", "#**", "#*#", "##*", "###"];

/// Every list of up to so many * and #, in the order of `PREFIXES`.
pub fn sign_lists(most: usize) -> Vec<String> {
    let mut lists = vec![String::new()];
    let mut longest = 0..1;
    for _ in 0..most {
        for place in longest.clone() {
            lists.extend(["*", "#"].map(|sign| format!("{}{sign}", lists[place])));
        }
        longest = longest.end..lists.len();
    }
    lists
}

/// A line code: of Baudot, of DTMF (a prefix and a digit) or of EDT.
#[derive(Clone, Debug, PartialEq, Eq)]
pub enum Code {
    FiveBits(u8),
    Keys(String),
    SevenBits(u8),
}

impl Display for Code {
    fn fmt(&self, f: &mut Formatter) -> fmt::Result {
        match self {
            Code::FiveBits(code) => write!(f, "{code:05b}"),
            Code::Keys(keys) => write!(f, "{keys}"),
            Code::SevenBits(character) => write!(f, "{character:02x}"),
        }
    }
}

/// Every code of a mode, in the order of the listings.
pub fn codes(mode: Mode) -> Vec<Code> {
    match mode {
        Mode::Baudot45 | Mode::Baudot50 => (0..32).map(Code::FiveBits).collect(),
        Mode::Dtmf => PREFIXES
            .iter()
            .flat_map(|prefix| "1234567890".chars().map(move |digit| format!("{prefix}{digit}")))
            .map(Code::Keys)
            .collect(),
        Mode::Edt => (0..128).map(Code::SevenBits).collect(),
    }
}

/// The codes that a fresh sender sends for a text, shift codes among them.
pub fn text_codes(mode: Mode, text: &[u8]) -> Vec<Code> {
    match mode {
        Mode::Baudot45 | Mode::Baudot50 => {
            let mut codes = vec![0; 2 * text.len() + 1];
            let sent = send(text, FRESH, 0, &mut codes);
            assert_eq!(sent.answer, SUCCESS);
            codes[..sent.length].iter().map(|&code| Code::FiveBits(code)).collect()
        }
        Mode::Dtmf => text
            .iter()
            .filter_map(|&character| dtmf_sends(character))
            .map(|keys| Code::Keys(keys.to_string()))
            .collect(),
        Mode::Edt => text.iter().map(|&character| Code::SevenBits(character)).collect(),
    }
}

/// The codes of a burst for a text that sends something, by a sender of this shift (0 fresh), and
/// the shift reached. In Baudot the code of the shift in force opens it, or 11111, and the bare
/// conversion goes on behind that code: document 02, request 101.
pub fn burst_codes(mode: Mode, shift: u8, text: &[u8]) -> (Vec<Code>, u8) {
    if !matches!(mode, Mode::Baudot45 | Mode::Baudot50) {
        return (text_codes(mode, text), shift);
    }
    let shift = if shift == FRESH { LETTERS } else { shift };
    let mut codes = vec![0; 2 * text.len()];
    let sent = send(text, shift, 0, &mut codes);
    assert_eq!(sent.answer, SUCCESS);
    let opening = if shift == LETTERS { LETTERS_CODE } else { FIGURES_CODE };
    let codes = [opening].into_iter().chain(codes[..sent.length].iter().copied());
    (codes.map(Code::FiveBits).collect(), sent.shift)
}

/// The number of a key, from 1 to 16.
pub fn key_number(key: char) -> u8 {
    1 + KEYS.find(key).expect("a key") as u8
}

/// The elements of a frame as bits, the start lowest; 1 is mark.
pub const fn elements(mode: Mode, code: u8) -> u16 {
    match mode {
        Mode::Baudot45 | Mode::Baudot50 => (code as u16) << 1 | 1 << 6,
        Mode::Dtmf => 0,
        Mode::Edt => {
            let parity = (code.count_ones() % 2) as u16;
            (code as u16) << 1 | parity << 8 | 0b11 << 9
        }
    }
}

/// The level of an element.
pub const fn element_level(elements: u16, element: usize) -> u8 {
    if elements >> element & 1 == 1 {
        MARK
    } else {
        SPACE
    }
}

/// The line signal of a code of the mode.
pub fn signal(mode: Mode, code: &Code) -> Vec<u8> {
    match (mode, code) {
        (Mode::Baudot45 | Mode::Baudot50, &Code::FiveBits(bits))
        | (Mode::Edt, &Code::SevenBits(bits)) => {
            let elements = elements(mode, bits);
            (0..mode.code_length()).map(|ms| element_level(elements, mode.element_at(ms))).collect()
        }
        (Mode::Dtmf, Code::Keys(keys)) => keys.chars().flat_map(key_signal).collect(),
        _ => panic!("{mode:?} has no code {code}"),
    }
}

fn key_signal(key: char) -> impl Iterator<Item = u8> {
    let held = std::iter::repeat_n(key_number(key), KEY_LENGTH);
    held.chain(std::iter::repeat_n(QUIET, KEY_GAP))
}

/// What opens a burst of the mode.
pub fn preamble(mode: Mode) -> Vec<u8> {
    vec![MARK; usize::from(mode.preamble())]
}

/// A signal as runs of equal ms: the level and the length of each.
pub fn runs(signal: &[u8]) -> Vec<(u8, usize)> {
    signal.chunk_by(|a, b| a == b).map(|run| (run[0], run.len())).collect()
}

#[cfg(test)]
mod tests {
    use super::*;

    fn keys(keys: &str) -> Code {
        Code::Keys(keys.to_string())
    }

    #[test]
    fn the_code_e() {
        let e = signal(Mode::Baudot45, &Code::FiveBits(0b00001));
        assert_eq!(runs(&e), [(SPACE, 22), (MARK, 22), (SPACE, 88), (MARK, 33)]);
        let e = signal(Mode::Baudot50, &Code::FiveBits(0b00001));
        assert_eq!(runs(&e), [(SPACE, 20), (MARK, 20), (SPACE, 80), (MARK, 30)]);
        // The rightmost digit goes first.
        let t = signal(Mode::Baudot50, &Code::FiveBits(0b10000));
        assert_eq!(runs(&t), [(SPACE, 100), (MARK, 50)]);
    }

    #[test]
    fn edt_a() {
        let a = signal(Mode::Edt, &Code::SevenBits(b'A'));
        let elements: String =
            (0..11).map(|j| if a[Mode::Edt.sample_at(j)] == MARK { '1' } else { '0' }).collect();
        assert_eq!(elements, "01000001011");
        let wanted = [(SPACE, 10), (MARK, 9), (SPACE, 45), (MARK, 9), (SPACE, 9), (MARK, 18)];
        assert_eq!(runs(&a), wanted);
        // One bit set: the parity element is mark.
        let control = signal(Mode::Edt, &Code::SevenBits(1));
        assert_eq!(control[77], MARK);
    }

    #[test]
    fn lengths() {
        for (mode, length) in Mode::ALL.into_iter().zip([165, 150, 120, 100]) {
            for code in codes(mode) {
                let keys = if mode == Mode::Dtmf { code.to_string().len() } else { 1 };
                assert_eq!(signal(mode, &code).len(), keys * length);
            }
        }
        assert_eq!(Mode::ALL.map(|mode| codes(mode).len()), [32, 32, 150, 128]);
    }

    #[test]
    fn lists_of_signs() {
        assert_eq!(sign_lists(3), PREFIXES);
        assert_eq!(sign_lists(6).len(), 127);
    }

    #[test]
    fn the_codes_of_bursts() {
        let written = |shift, text: &[u8]| {
            let (codes, reached) = burst_codes(Mode::Baudot45, shift, text);
            (codes.iter().map(Code::to_string).collect::<Vec<_>>().join(" "), reached)
        };
        for (shift, text, codes, reached) in [
            (0, &b"A"[..], "11111 00011", 1),
            (0, b"1", "11111 11011 10111", 2),
            (1, b"A", "11111 00011", 1),
            (1, b"1", "11111 11011 10111", 2),
            (2, b"A", "11011 11111 00011", 1),
            (2, b"1", "11011 10111", 2),
            (2, b"\x00 A", "11011 00100 11111 00011", 1),
        ] {
            assert_eq!(written(shift, text), (codes.to_string(), reached));
        }
        let text: Vec<u8> = (0..128).collect();
        for mode in Mode::ALL {
            // In the first burst it is the bare conversion.
            assert_eq!(burst_codes(mode, FRESH, &text).0, text_codes(mode, &text));
        }
    }

    #[test]
    fn dtmf_keys() {
        assert_eq!(text_codes(Mode::Dtmf, b"b:"), [keys("1"), keys("**4")]);
        assert_eq!(runs(&signal(Mode::Dtmf, &keys("1"))), [(1, 70), (0, 50)]);
        let colon = [(11, 70), (0, 50), (11, 70), (0, 50), (4, 70), (0, 50)];
        assert_eq!(runs(&signal(Mode::Dtmf, &keys("**4"))), colon);
        assert_eq!(
            "190*#AD".chars().map(key_number).collect::<Vec<_>>(),
            [1, 9, 10, 11, 12, 13, 16]
        );
    }

    #[test]
    fn preambles() {
        let found = Mode::ALL.map(|mode| runs(&preamble(mode)));
        assert_eq!(found, [vec![(MARK, 150)], vec![(MARK, 150)], vec![], vec![(MARK, 300)]]);
    }
}
