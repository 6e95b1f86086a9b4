//! The bare Baudot conversions over slices. One byte holds one five-bit code.

use crate::annex::{
    Sending, BAUDOT_READS, BAUDOT_SENDS, EITHER, FIGURES, FIGURES_CODE, LETTERS, LETTERS_CODE,
};
use crate::answer::{CHARACTER, CODE, RESULT_SLICE, STATE, SUCCESS};

/// The shift of a sender that has sent nothing yet.
pub const FRESH: u8 = 0;

/// After this many characters the shift code is sent again.
pub const REPEAT: u8 = 72;

/// What sending gives back: the shift and count reached, and how many codes were written.
#[repr(C)]
#[derive(Clone, Copy, Debug, PartialEq, Eq)]
pub struct Sent {
    pub answer: u8,
    pub shift: u8,
    pub count: u8,
    pub length: usize,
}

/// What reading gives back: the shift reached and how many characters were written.
#[repr(C)]
#[derive(Clone, Copy, Debug, PartialEq, Eq)]
pub struct Text {
    pub answer: u8,
    pub shift: u8,
    pub length: usize,
}

/// What each character sends; no shifts if it sends nothing.
static SENDS: [Sending; 128] = {
    let mut sends = [Sending { shifts: 0, code: 0 }; 128];
    let mut i = 0;
    while i < 128 {
        if let Some(sending) = BAUDOT_SENDS[i] {
            sends[i] = sending;
        }
        i += 1;
    }
    sends
};

/// What each code reads as in letters and in figures; shift codes are never looked up.
static READS: [[u8; 32]; 2] = {
    let mut reads = [[0; 32]; 2];
    let mut i = 0;
    while i < 64 {
        if let Some(character) = BAUDOT_READS[i / 32][i % 32] {
            reads[i / 32][i % 32] = character;
        }
        i += 1;
    }
    reads
};

fn sending(character: u8) -> Sending {
    SENDS[usize::from(character & 0x7F)]
}

fn shift_code(shift: u8) -> u8 {
    if shift == LETTERS {
        LETTERS_CODE
    } else {
        FIGURES_CODE
    }
}

/// Gives the codes of a text to `put` in order, and gives back the shift and count reached.
#[inline(always)]
fn convert(mut text: &[u8], mut shift: u8, mut count: u8, mut put: impl FnMut(u8)) -> (u8, u8) {
    if shift == FRESH {
        let Some(first) = text.iter().position(|&c| sending(c).shifts != 0) else {
            return (shift, count);
        };
        text = &text[first..];
        (shift, count) = (LETTERS, 0);
        put(LETTERS_CODE);
    }
    for &character in text {
        let Sending { shifts, code } = sending(character);
        if shifts == 0 {
            continue;
        }
        if shifts & shift == 0 || count == REPEAT {
            if shifts != EITHER {
                shift = shifts;
            }
            put(shift_code(shift));
            count = 0;
        }
        put(code);
        count += 1;
    }
    (shift, count)
}

/// Sends `text` from a shift (0 fresh) and a count of characters since the last shift code.
pub fn send(text: &[u8], shift: u8, count: u8, codes: &mut [u8]) -> Sent {
    let refusal = |answer| Sent { answer, shift, count, length: 0 };
    if shift > FIGURES || count > REPEAT {
        return refusal(STATE);
    }
    if !text.is_ascii() {
        return refusal(CHARACTER);
    }
    // At worst every character brings a shift code, and the first one two.
    if codes.len() < 2 * text.len() + 1 {
        let mut needed = 0;
        convert(text, shift, count, |_| needed += 1);
        if codes.len() < needed {
            return refusal(RESULT_SLICE);
        }
    }
    let mut length = 0;
    let (shift, count) = convert(text, shift, count, |code| {
        codes[length] = code;
        length += 1;
    });
    Sent { answer: SUCCESS, shift, count, length }
}

/// Reads `codes` from a shift.
pub fn read(codes: &[u8], mut shift: u8, text: &mut [u8]) -> Text {
    let refusal = |answer| Text { answer, shift, length: 0 };
    if shift != LETTERS && shift != FIGURES {
        return refusal(STATE);
    }
    if codes.iter().fold(0, |bits, code| bits | code) > 0b11111 {
        return refusal(CODE);
    }
    if text.len() < codes.len() && text.len() < codes.len() - shift_codes(codes) {
        return refusal(RESULT_SLICE);
    }
    let mut reads = &READS[usize::from(shift - 1)];
    let mut length = 0;
    for &code in codes {
        match code {
            LETTERS_CODE => (shift, reads) = (LETTERS, &READS[0]),
            FIGURES_CODE => (shift, reads) = (FIGURES, &READS[1]),
            _ => {
                text[length] = reads[usize::from(code & 0x1F)];
                length += 1;
            }
        }
    }
    Text { answer: SUCCESS, shift, length }
}

/// How many of the codes select a shift. The sums of bytes are for the vector unit.
fn shift_codes(codes: &[u8]) -> usize {
    let selects = |&code: &u8| u8::from(matches!(code, LETTERS_CODE | FIGURES_CODE));
    codes.chunks(255).map(|some| usize::from(some.iter().map(selects).sum::<u8>())).sum()
}

#[cfg(test)]
mod tests {
    use super::*;

    /// Sends from fresh; the codes as binary digits, and what is read from them.
    fn fresh(text: &[u8]) -> (String, Vec<u8>) {
        let mut codes = vec![0; 2 * text.len() + 1];
        let sent = send(text, FRESH, 0, &mut codes);
        assert_eq!(sent.answer, SUCCESS);
        codes.truncate(sent.length);
        let mut back = vec![0; sent.length];
        let read = read(&codes, LETTERS, &mut back);
        assert_eq!(read.answer, SUCCESS);
        back.truncate(read.length);
        let digits: Vec<_> = codes.iter().map(|code| format!("{code:05b}")).collect();
        (digits.join(" "), back)
    }

    fn example(text: &[u8], codes: &str, back: &[u8]) {
        assert_eq!(fresh(text), (codes.to_string(), back.to_vec()));
    }

    #[test]
    fn desk_examples() {
        example(b"a", "11111 00011", b"A");
        example(b"A1", "11111 00011 11011 10111", b"A1");
        example(b"1", "11111 11011 10111", b"1");
        example(b"1 A", "11111 11011 10111 00100 11111 00011", b"1 A");
        example(b"*", "11111 11011 11100", b".");
        example(b"@", "11111 11101", b"X");
        example(b"\x60", "11111 11011 01011", b"'");
        example(b"\x00", "", b"");
        example(b"\t", "11111 00100", b" ");
        let codes = format!("11111{} 11111 00001", " 00001".repeat(72));
        example(&[b'E'; 73], &codes, &[b'E'; 73]);
    }

    #[test]
    fn one_shift_code_where_the_shift_changes_after_72() {
        let mut codes = [0; 3];
        let sent = send(b"1", LETTERS, 72, &mut codes);
        assert_eq!(sent, Sent { answer: SUCCESS, shift: FIGURES, count: 1, length: 2 });
        assert_eq!(codes, [FIGURES_CODE, 0b10111, 0]);
        let sent = send(b" ", FIGURES, 72, &mut codes);
        assert_eq!(sent, Sent { answer: SUCCESS, shift: FIGURES, count: 1, length: 2 });
        assert_eq!(codes, [FIGURES_CODE, 0b00100, 0]);
    }

    #[test]
    fn nothing_sent_keeps_shift_and_count() {
        for (shift, count) in [(FRESH, 72), (FRESH, 5), (LETTERS, 72), (FIGURES, 0)] {
            let sent = send(b"\x00\x7F", shift, count, &mut []);
            assert_eq!(sent, Sent { answer: SUCCESS, shift, count, length: 0 });
        }
        // Fresh, whatever the count.
        let sent = send(b"E", FRESH, 72, &mut [0; 2]);
        assert_eq!(sent, Sent { answer: SUCCESS, shift: LETTERS, count: 1, length: 2 });
    }

    #[test]
    fn the_first_no_decides_and_a_refusal_writes_nothing() {
        for (text, shift, count, space, answer) in [
            (b"E\x80", 3, 0, 0, STATE),
            (b"E\x80", 0, 73, 0, STATE),
            (b"E\x80", 0, 0, 0, CHARACTER),
            (b"E1", 0, 0, 3, RESULT_SLICE),
            (b"EE", 1, 72, 2, RESULT_SLICE),
        ] {
            let mut codes = vec![0xAA; space];
            let sent = send(text, shift, count, &mut codes);
            assert_eq!(sent, Sent { answer, shift, count, length: 0 });
            assert!(codes.iter().all(|&code| code == 0xAA));
        }
        for (codes, shift, space, answer) in [
            ([1, 32], 0, 0, STATE),
            ([1, 32], 3, 0, STATE),
            ([1, 32], 1, 0, CODE),
            ([1, 1], 2, 1, RESULT_SLICE),
            ([27, 1], 1, 0, RESULT_SLICE),
        ] {
            let mut text = vec![0xAA; space];
            let read = read(&codes, shift, &mut text);
            assert_eq!(read, Text { answer, shift, length: 0 });
            assert!(text.iter().all(|&character| character == 0xAA));
        }
    }

    #[test]
    fn success_fits_exactly_and_leaves_the_rest() {
        let mut codes = [0xAA; 4];
        assert_eq!(send(b"A1", FRESH, 0, &mut codes).length, 4);
        let mut text = [0xAA; 2];
        assert_eq!(read(&codes, FIGURES, &mut text), Text { answer: SUCCESS, shift: 2, length: 2 });
        assert_eq!(&text, b"A1");
        let mut codes = [0xAA; 9];
        assert_eq!(send(b"A1", FRESH, 0, &mut codes).length, 4);
        assert_eq!(codes[4..], [0xAA; 5]);
    }
}
