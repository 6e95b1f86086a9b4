//! The calling set of V.18, clause 5.1, as document 01 fixes it, ms by ms.

use crate::answer::{CALLING_STATE, DURATION, SENT_SLICE, SUCCESS, TONE};

/// The most ms of a run.
pub const MOST: usize = 4096;

/// What is heard: 0 for none, then the tones up to EDT.
pub const NONE: u8 = 0;
pub const LAST_TONE: u8 = 11;

/// What is sent: 0 nothing, 1 CI, 2 XCI.
const TIMETABLE: [(u8, usize); 8] =
    [(0, 1000), (1, 400), (0, 2000), (1, 400), (0, 2000), (1, 400), (0, 2000), (2, 3000)];

pub const PERIOD: usize = 11_200;

/// The timetable ms by ms.
static SENT: [u8; PERIOD] = {
    let mut sent = [0; PERIOD];
    let (mut part, mut end, mut ms) = (0, TIMETABLE[0].1, 0);
    while ms < PERIOD {
        if ms == end {
            part += 1;
            end += TIMETABLE[part].1;
        }
        sent[ms] = TIMETABLE[part].0;
        ms += 1;
    }
    assert!(end == PERIOD);
    sent
};

/// The ms of none in a row that end the silence after a tone.
pub const SILENCE: u64 = 400;

/// How long a tone must last in a row to be the choice.
pub fn length(tone: u8) -> u64 {
    match tone {
        3 | 4 => 500,
        5 => 1700,
        6 => 700,
        7 => 1500,
        _ => 1,
    }
}

pub struct Set {
    /// The ms of the timetable that comes next; none while a tone keeps the set silent.
    next: Option<usize>,
    heard: u8,
    in_a_row: u64,
    choice: Option<u8>,
}

impl Default for Set {
    fn default() -> Set {
        Set { next: Some(0), heard: NONE, in_a_row: 0, choice: None }
    }
}

impl Set {
    /// The tone that was chosen, 0 until one is.
    pub fn choice(&self) -> u8 {
        self.choice.unwrap_or(0)
    }

    /// One heard ms; gives back what is sent in it.
    fn hear(&mut self, heard: u8) -> u8 {
        if heard != self.heard {
            self.heard = heard;
            self.in_a_row = 0;
        }
        self.in_a_row += 1;
        if heard != NONE {
            self.next = None;
            if self.choice.is_none() && self.in_a_row >= length(heard) {
                self.choice = Some(heard);
            }
            return 0;
        }
        match self.next {
            Some(ms) => {
                self.next = Some((ms + 1) % PERIOD);
                SENT[ms]
            }
            None => {
                if self.choice.is_none() && self.in_a_row == SILENCE {
                    self.next = Some(0);
                }
                0
            }
        }
    }

    /// The ms of a call. A refusal changes nothing.
    pub fn run(&mut self, tones: &[u8], sent: &mut [u8]) -> u8 {
        if tones.len() > MOST {
            return DURATION;
        }
        if tones.iter().any(|&tone| tone > LAST_TONE) {
            return TONE;
        }
        if sent.len() < tones.len() {
            return SENT_SLICE;
        }
        for (sent, &tone) in sent.iter_mut().zip(tones) {
            *sent = self.hear(tone);
        }
        SUCCESS
    }
}

/// The engine's state as its header publishes it: for how many ms in a row what was heard last,
/// the place in the timetable, what was heard last, and the choice.
#[repr(C)]
#[derive(Clone, Copy, Debug, PartialEq, Eq)]
pub struct State {
    pub ms: u16,
    pub place: u16,
    pub tone: u8,
    pub choice: u8,
}

/// The most ms in a row that a rule of document 01 asks for: of a tone, or of none.
pub fn most_in_a_row() -> u64 {
    (1..=LAST_TONE).map(length).fold(SILENCE, u64::max)
}

/// What asking for the choice gives.
#[repr(C)]
#[derive(Clone, Copy, Debug, PartialEq, Eq)]
pub struct Chosen {
    pub answer: u8,
    pub choice: u8,
}

impl State {
    /// The choice of a state in range; any other is refused, with choice 0.
    pub fn chosen(self) -> Chosen {
        if self.in_range() {
            Chosen { answer: SUCCESS, choice: self.choice }
        } else {
            Chosen { answer: CALLING_STATE, choice: 0 }
        }
    }

    /// Question 12. What each number stands for is the header's; how far it goes follows from document
    /// 01, "The calling set (5.1)": what is heard, and the choice among it, is 0 to 11; the place is
    /// one of the period's ms; ms in a row are at least the one heard last, and are counted no further
    /// than a rule asks for.
    pub fn in_range(self) -> bool {
        self.tone <= LAST_TONE
            && (1..=most_in_a_row()).contains(&u64::from(self.ms))
            && usize::from(self.place) < PERIOD
            && self.choice <= LAST_TONE
    }
}

#[cfg(test)]
mod tests {
    use super::*;

    /// The ms of a list of tones, each for a number of ms.
    fn hears(set: &mut Set, parts: &[(u8, usize)]) -> Vec<u8> {
        let mut sent = Vec::new();
        for &(tone, ms) in parts {
            sent.extend((0..ms).map(|_| set.hear(tone)));
        }
        sent
    }

    #[test]
    fn the_timetable_over_and_over() {
        let sent = hears(&mut Set::default(), &[(NONE, 3 * PERIOD)]);
        assert_eq!(sent[..PERIOD], SENT);
        assert_eq!(sent[PERIOD..2 * PERIOD], SENT);
        assert_eq!(sent[2 * PERIOD..], SENT);
        for (ms, value) in [(0, 0), (999, 0), (1000, 1), (1399, 1), (1400, 0), (3399, 0)] {
            assert_eq!(SENT[ms], value);
        }
        for (ms, value) in [(3400, 1), (5800, 1), (6199, 1), (8199, 0), (8200, 2), (11_199, 2)] {
            assert_eq!(SENT[ms], value);
        }
    }

    #[test]
    fn a_tone_is_the_choice_at_its_length() {
        for tone in 1..=LAST_TONE {
            let mut set = Set::default();
            hears(&mut set, &[(tone, length(tone) as usize - 1)]);
            assert_eq!(set.choice(), 0);
            hears(&mut set, &[(tone, 1)]);
            assert_eq!(set.choice(), tone);
            let sent = hears(&mut set, &[(NONE, 500), (1, 10), (NONE, 2000)]);
            assert_eq!(set.choice(), tone);
            assert!(sent.iter().all(|&value| value == 0));
        }
    }

    #[test]
    fn another_tone_or_none_ends_the_count() {
        for other in [NONE, 4, 5] {
            let mut set = Set::default();
            hears(&mut set, &[(3, 499), (other, 1), (3, 499)]);
            assert_eq!(set.choice(), 0);
            hears(&mut set, &[(3, 1)]);
            assert_eq!(set.choice(), 3);
        }
    }

    #[test]
    fn after_400_ms_of_none_the_timetable_begins_anew() {
        let mut set = Set::default();
        let sent = hears(&mut set, &[(NONE, 1200), (3, 1), (NONE, 400), (NONE, 1001)]);
        assert_eq!(sent[1199], 1);
        assert!(sent[1200..2601].iter().all(|&value| value == 0));
        assert_eq!(sent[2601], 1);
        // 399 are too few, and a tone starts the silence anew.
        let sent = hears(&mut set, &[(3, 1), (NONE, 399), (3, 1), (NONE, 1400), (NONE, 1)]);
        assert!(sent[..1801].iter().all(|&value| value == 0));
        assert_eq!(sent[1801], 1);
    }

    #[test]
    fn the_first_no_decides_and_a_refusal_writes_nothing() {
        let mut set = Set::default();
        let mut sent = [9; 2 * MOST];
        assert_eq!(set.run(&[12; MOST + 1], &mut sent[..1]), DURATION);
        assert_eq!(set.run(&[0, 12], &mut sent[..1]), TONE);
        assert_eq!(set.run(&[0, 11], &mut sent[..1]), SENT_SLICE);
        assert_eq!(sent, [9; 2 * MOST]);
        assert_eq!(set.run(&[0; MOST], &mut sent[..MOST]), SUCCESS);
        assert_eq!(sent[..MOST], SENT[..MOST]);
        assert_eq!(sent[MOST..], [9; MOST]);
    }
}
