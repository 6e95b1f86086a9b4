//! A station's send model (document 01: its book): what waits, bursts and codes, kept from the
//! station's calls alone, that is from their arguments and whether each succeeded. It never looks
//! at the station. Its Baudot bursts open with a shift code: document 02, request 101.

use crate::annex::{
    dtmf_sends, Sending, BAUDOT_SENDS, EITHER, FIGURES_CODE, LETTERS, LETTERS_CODE,
};
use crate::line::{preamble, signal, Code, QUIET};
use crate::mode::Mode;
use crate::normal::Alphabet;
use std::collections::VecDeque;

/// What is on the line in a burst.
#[derive(Clone, Copy, Debug, PartialEq, Eq)]
pub enum Part {
    Preamble,
    ShiftCode,
    OwnCode,
}

/// What the model says of a ms.
#[derive(Clone, Copy, Debug, PartialEq, Eq)]
pub struct ModelMs {
    /// The level that must be sent.
    pub sent: u8,
    pub in_burst: bool,
    /// The character taken in this ms.
    pub taken: Option<u8>,
    /// What has its last ms here.
    pub ended: Option<Part>,
}

#[derive(Clone, Debug)]
pub struct SendModel {
    mode: Mode,
    waiting: VecDeque<u8>,
    /// In a burst, what is on the line.
    burst: Option<Part>,
    /// The ms of it that are left.
    left: VecDeque<u8>,
    /// The sender's shift, none while it is fresh, and its characters since the last shift code.
    shift: Option<u8>,
    count: usize,
    silence: usize,
    /// The ms since the last burst, if there was one.
    since_burst: Option<usize>,
}

impl SendModel {
    pub fn fresh(mode: Mode) -> SendModel {
        SendModel {
            mode,
            waiting: VecDeque::new(),
            burst: None,
            left: VecDeque::new(),
            shift: None,
            count: 0,
            silence: 300,
            since_burst: None,
        }
    }

    /// The same with a sender of this shift, none if it is fresh, and this count.
    pub fn with_sender(mode: Mode, shift: Option<u8>, count: usize) -> SendModel {
        SendModel { shift, count, ..SendModel::fresh(mode) }
    }

    pub fn waiting(&self) -> usize {
        self.waiting.len()
    }

    /// The sender's shift, none while it is fresh.
    pub fn shift(&self) -> Option<u8> {
        self.shift
    }

    pub fn in_burst(&self) -> bool {
        self.burst.is_some()
    }

    /// An offer that succeeded. One that was refused changes nothing.
    pub fn offered(&mut self, text: &[u8]) {
        let alphabet = self.mode.alphabet();
        let some = text.iter().copied().filter(|&character| alphabet.normal(character).is_some());
        self.waiting.extend(some);
    }

    /// The ms of a run that succeeded. One that was refused takes none.
    pub fn ran(&mut self, heard: &[u8]) -> Vec<ModelMs> {
        heard.iter().map(|&level| self.ms(level)).collect()
    }

    pub fn ms(&mut self, heard: u8) -> ModelMs {
        if self.burst.is_none() && !self.waiting.is_empty() && self.silence >= 300 {
            self.burst = Some(Part::Preamble);
            self.left = preamble(self.mode).into();
        }
        let mut taken = None;
        if self.burst.is_some() && self.left.is_empty() {
            taken = self.begin_code();
        }
        let Some(part) = self.burst else {
            self.outside_burst(heard);
            return ModelMs { sent: QUIET, in_burst: false, taken: None, ended: None };
        };
        let sent = self.left.pop_front().expect("a ms of the burst");
        let ended = self.left.is_empty().then_some(part);
        if ended.is_some_and(|part| part != Part::Preamble) && self.waiting.is_empty() {
            self.burst = None;
            self.since_burst = Some(0);
        }
        // In a burst the ms is inhibited.
        self.silence += 1;
        ModelMs { sent, in_burst: true, taken, ended }
    }

    fn outside_burst(&mut self, heard: u8) {
        let inhibited = self.since_burst.is_some_and(|ms| ms < 300);
        self.since_burst = self.since_burst.map(|ms| ms + 1);
        self.silence = if heard == QUIET || inhibited { self.silence + 1 } else { 0 };
    }

    /// Begins the code that is due next, ahead of the front character or as its own; gives back the
    /// character if it is its own.
    fn begin_code(&mut self) -> Option<u8> {
        let front = *self.waiting.front().expect("a character");
        let code = match self.mode.alphabet() {
            Alphabet::Baudot => {
                let Sending { shifts, code } =
                    BAUDOT_SENDS[usize::from(front)].expect("a character that sends something");
                let due = match self.burst {
                    Some(Part::Preamble) => Some(self.shift.unwrap_or(LETTERS)),
                    _ => self.wanted_shift(shifts),
                };
                if let Some(shift) = due {
                    let code = if shift == LETTERS { LETTERS_CODE } else { FIGURES_CODE };
                    (self.shift, self.count) = (Some(shift), 0);
                    self.burst = Some(Part::ShiftCode);
                    self.left = signal(self.mode, &Code::FiveBits(code)).into();
                    return None;
                }
                Code::FiveBits(code)
            }
            Alphabet::Dtmf => {
                Code::Keys(dtmf_sends(front).expect("a character that sends something").to_string())
            }
            Alphabet::Edt => Code::SevenBits(front),
        };
        self.count += 1;
        self.burst = Some(Part::OwnCode);
        self.left = signal(self.mode, &code).into();
        self.waiting.pop_front()
    }

    /// The shift whose code must go ahead of a character that is sent in these shifts, behind the
    /// first code of the burst.
    fn wanted_shift(&self, shifts: u8) -> Option<u8> {
        let shift = self.shift.expect("the first code of a burst is a shift code");
        if shifts != EITHER && shifts != shift {
            return Some(shifts);
        }
        (self.count >= 72).then_some(shift)
    }
}

#[cfg(test)]
mod tests {
    use super::*;
    use crate::annex::FIGURES;
    use crate::line::{burst_codes, runs, MARK};

    /// The ms of a burst that begins now.
    fn burst(model: &mut SendModel) -> Vec<ModelMs> {
        let mut burst = vec![model.ms(QUIET)];
        while model.in_burst() {
            burst.push(model.ms(QUIET));
        }
        burst
    }

    /// The ms at which characters are taken.
    fn taken(burst: &[ModelMs]) -> Vec<(usize, u8)> {
        let taken = burst.iter().enumerate();
        taken.filter_map(|(ms, said)| said.taken.map(|character| (ms, character))).collect()
    }

    /// The ms at which parts end.
    fn ended(burst: &[ModelMs]) -> Vec<(usize, Part)> {
        let ended = burst.iter().enumerate();
        ended.filter_map(|(ms, said)| said.ended.map(|part| (ms, part))).collect()
    }

    #[test]
    fn the_burst_of_a1() {
        let mut model = SendModel::fresh(Mode::Baudot45);
        model.offered(b"A\x001");
        assert_eq!(model.waiting(), 2);
        let burst = burst(&mut model);
        assert_eq!(burst.len(), 150 + 4 * 165);
        assert_eq!(taken(&burst), [(150 + 165, b'A'), (150 + 3 * 165, b'1')]);
        let wanted = [
            (149, Part::Preamble),
            (149 + 165, Part::ShiftCode),
            (149 + 2 * 165, Part::OwnCode),
            (149 + 3 * 165, Part::ShiftCode),
            (149 + 4 * 165, Part::OwnCode),
        ];
        assert_eq!(ended(&burst), wanted);
    }

    #[test]
    fn a_burst_needs_300_ms_of_silence() {
        let mut model = SendModel::fresh(Mode::Edt);
        model.ms(MARK);
        model.offered(b"E");
        let before: Vec<u8> = model.ran(&[QUIET; 300]).iter().map(|ms| ms.sent).collect();
        assert_eq!(runs(&before), [(QUIET, 300)]);
        assert!(model.ms(QUIET).in_burst);
        // In the burst and after it what is heard does not count.
        model.ran(&[MARK; 399 + 300]);
        assert!(!model.in_burst());
        model.offered(b"E");
        assert!(model.ms(QUIET).in_burst);
        // From the 301st ms after it on it does.
        model.ran(&[QUIET; 399 + 300]);
        model.ms(MARK);
        model.offered(b"E");
        assert!(!model.ms(QUIET).in_burst);
    }

    #[test]
    fn each_burst_opens_with_a_shift_code() {
        for (shift, count, text, parts) in [
            (None, 0, &b"E"[..], 1),
            (None, 72, b"3", 2),
            (Some(LETTERS), 5, b"E", 1),
            (Some(LETTERS), 72, b"E", 1),
            (Some(LETTERS), 72, b"3", 2),
            (Some(FIGURES), 0, b" ", 1),
            (Some(FIGURES), 1, b"E", 2),
        ] {
            let mut model = SendModel::with_sender(Mode::Baudot45, shift, count);
            model.offered(text);
            let burst = burst(&mut model);
            let ended: Vec<Part> = ended(&burst).iter().map(|&(_, part)| part).collect();
            let wanted =
                [&[Part::Preamble][..], &vec![Part::ShiftCode; parts], &[Part::OwnCode]].concat();
            assert_eq!(ended, wanted);
            let (codes, reached) = burst_codes(Mode::Baudot45, shift.unwrap_or(0), text);
            let signals = codes.iter().flat_map(|code| signal(Mode::Baudot45, code));
            assert!(burst[150..].iter().map(|ms| ms.sent).eq(signals));
            assert_eq!((model.shift(), model.count), (Some(reached), 1));
        }
    }

    #[test]
    fn the_shift_is_sent_again_after_72() {
        let mut model = SendModel::fresh(Mode::Baudot50);
        model.offered(&[b'E'; 73]);
        let burst = burst(&mut model);
        assert_eq!(taken(&burst)[71..], [(150 + 150 * 72, b'E'), (150 + 150 * 74, b'E')]);
        assert_eq!(burst.iter().filter(|ms| ms.ended == Some(Part::ShiftCode)).count(), 2);
    }
}
