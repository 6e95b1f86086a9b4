//! `reader_words input` writes heard ms for the readers of all modes: clean codes, and codes damaged
//! in every way that a rule speaks of. `reader_words words` reads such a text from standard input and
//! prints what the readers make of it: `mode M` for a fresh reader, and for each word its ms and
//! its value.

use reference::annex::{FIGURES_CODE, LETTERS_CODE};
use reference::line::{
    codes, key_number, preamble, signal, text_codes, Code, KEYS, KEY_GAP, KEY_LENGTH, MARK,
    PREFIXES, QUIET, SPACE,
};
use reference::mode::Mode;
use reference::random::Random;
use reference::reader::{Hear, Reader};
use reference::tape::{pairs, Pair, Tape};
use std::io::{self, Read, Write};
use std::process::exit;

fn main() -> io::Result<()> {
    let arguments: Vec<String> = std::env::args().skip(1).collect();
    let arguments: Vec<&str> = arguments.iter().map(String::as_str).collect();
    let output = match arguments[..] {
        ["input"] => input(),
        ["words"] => {
            let mut text = Vec::new();
            io::stdin().read_to_end(&mut text)?;
            words(&text).unwrap_or_else(|| stop("this is no such input"))
        }
        _ => stop("usage: reader_words input, or reader_words words"),
    };
    io::stdout().write_all(&output)
}

fn stop(message: &str) -> ! {
    eprintln!("{message}");
    exit(2)
}

/// What the readers make of a text; None if it is no such text.
fn words(text: &[u8]) -> Option<Vec<u8>> {
    let mut output = Vec::new();
    let mut reader = Reader::fresh(Mode::Baudot45);
    let mut now = 0;
    for pair in pairs(text)? {
        match pair {
            Pair::Fresh(mode) => {
                (reader, now) = (Reader::fresh(mode), 0);
                writeln!(output, "mode {}", mode.number()).unwrap();
            }
            Pair::Inhibited(ms) => {
                (0..ms).for_each(|_| reader.inhibited());
                now += ms;
            }
            Pair::Heard(level, ms) => {
                for _ in 0..ms {
                    if let Some(word) = reader.hear(level) {
                        writeln!(output, "{now} {word}").unwrap();
                    }
                    now += 1;
                }
            }
        }
    }
    Some(output)
}

/// How many pairs each mode gets. Random damage fills them up.
const SHARES: [(Mode, usize); 4] =
    [(Mode::Baudot45, 7500), (Mode::Baudot50, 6800), (Mode::Dtmf, 5700), (Mode::Edt, 8600)];

fn input() -> Vec<u8> {
    let mut cases = Cases { tape: Tape::default(), random: Random::new(1845) };
    for (mode, share) in SHARES {
        let end = cases.tape.pairs + share;
        if mode == Mode::Dtmf {
            cases.keys(end);
        } else {
            cases.frames(mode, end);
        }
    }
    cases.tape.end();
    cases.tape.text
}

struct Cases {
    tape: Tape,
    random: Random,
}

/// A dozen codes of Baudot or EDT.
fn dozen(mode: Mode) -> Vec<Code> {
    if mode == Mode::Edt {
        b"\x00\x7F\x01\x40AUS*C \r~".map(Code::SevenBits).to_vec()
    } else {
        [0b00000, 0b00001, 0b00100, 0b01010, 0b10101, 0b10000, 0b00101, 0b01110, 0b10001]
            .into_iter()
            .chain([0b11110, FIGURES_CODE, LETTERS_CODE])
            .map(Code::FiveBits)
            .collect()
    }
}

/// The ms of an element, from its first to the one after its last.
fn element(mode: Mode, element: usize) -> std::ops::Range<usize> {
    let mut ms = (0..mode.code_length()).filter(|&ms| mode.element_at(ms) == element);
    let first = ms.next().unwrap();
    first..ms.next_back().unwrap() + 1
}

/// The last sample of a frame.
fn last_sample(mode: Mode) -> usize {
    mode.sample_at(mode.elements() - 1)
}

/// Baudot and EDT.
impl Cases {
    fn frames(&mut self, mode: Mode, end: usize) {
        self.clean(mode);
        self.replaced_elements(mode);
        self.cut_frames(mode);
        self.glitches(mode);
        self.single_ms(mode);
        if mode == Mode::Edt {
            self.parity();
        }
        self.held_space(mode);
        self.inhibited_frames(mode);
        self.random_frames(mode, end);
    }

    fn code(&mut self, mode: Mode, code: &Code) {
        self.tape.signal(&signal(mode, code));
    }

    /// One of the dozen.
    fn random_code(&mut self, mode: Mode) -> Code {
        dozen(mode)[self.random.below(12)].clone()
    }

    fn clean_code(&mut self, mode: Mode) {
        let code = self.random_code(mode);
        self.code(mode, &code);
    }

    /// Every code, in Baudot in both shifts, behind the preamble.
    fn clean(&mut self, mode: Mode) {
        self.tape.fresh(mode);
        self.tape.signal(&preamble(mode));
        for code in codes(mode) {
            self.code(mode, &code);
        }
        if mode != Mode::Edt {
            for shift in [FIGURES_CODE, LETTERS_CODE] {
                for code in (0..32).filter(|code| ![FIGURES_CODE, LETTERS_CODE].contains(code)) {
                    if code % 8 == 0 {
                        self.code(mode, &Code::FiveBits(shift));
                    }
                    self.code(mode, &Code::FiveBits(code));
                }
            }
        }
    }

    /// Each element of a dozen codes replaced, the next code at once or after a little mark.
    fn replaced_elements(&mut self, mode: Mode) {
        for code in dozen(mode) {
            self.tape.fresh(mode);
            let clean = signal(mode, &code);
            for place in 0..mode.elements() {
                let range = element(mode, place);
                for level in [QUIET, MARK, SPACE] {
                    if clean[range.start] != level {
                        let mut heard = clean.clone();
                        heard[range.clone()].fill(level);
                        self.tape.signal(&heard);
                        let gap = self.random.pick(&[0, 0, 1, 5, 94]);
                        self.tape.level(MARK, gap);
                    }
                }
            }
        }
    }

    /// Frames that break off.
    fn cut_frames(&mut self, mode: Mode) {
        for code in dozen(mode).into_iter().step_by(4) {
            for level in [QUIET, MARK, SPACE] {
                self.tape.fresh(mode);
                let clean = signal(mode, &code);
                for place in 0..20 {
                    let cut = (place * clean.len() / 20 + self.random.below(5)).max(1);
                    self.tape.signal(&clean[..cut]);
                    let ms = self.random.pick(&[1, 2, 9, 12, 23, 60, 94, 188]);
                    self.tape.level(level, ms);
                    self.clean_code(mode);
                }
            }
        }
    }

    /// Space too short for a start, and just long enough for one.
    fn glitches(&mut self, mode: Mode) {
        let sample = mode.sample_at(0);
        for level in [MARK, QUIET] {
            self.tape.fresh(mode);
            for ms in 1..=element(mode, 0).len() + 3 {
                self.tape.level(SPACE, ms);
                let gap = if ms <= sample { self.random.pick(&[1, 9, 40]) } else { 188 };
                self.tape.level(level, gap);
                self.clean_code(mode);
            }
        }
    }

    /// One wrong ms at each sample, and one before and after it.
    fn single_ms(&mut self, mode: Mode) {
        for code in dozen(mode).into_iter().skip(2).step_by(5) {
            let clean = signal(mode, &code);
            self.tape.fresh(mode);
            for place in 0..mode.elements() {
                let sample = mode.sample_at(place);
                for ms in [sample - 1, sample, sample + 1] {
                    for level in (QUIET..=SPACE).filter(|&level| level != clean[ms]) {
                        let mut heard = clean.clone();
                        heard[ms] = level;
                        self.tape.signal(&heard);
                        let gap = self.random.pick(&[0, 0, 1]);
                        self.tape.level(MARK, gap);
                    }
                }
            }
        }
    }

    /// EDT frames with the wrong parity, alone and with each of the other samples quiet behind it.
    fn parity(&mut self) {
        let mode = Mode::Edt;
        self.tape.fresh(mode);
        for code in dozen(mode) {
            let mut heard = signal(mode, &code);
            let parity = element(mode, 8);
            let wrong = MARK + SPACE - heard[parity.start];
            heard[parity].fill(wrong);
            self.tape.signal(&heard);
            heard[86] = QUIET;
            heard[95] = SPACE;
            self.tape.signal(&heard);
            self.clean_code(mode);
        }
    }

    /// A fault by quiet or by a stop that is space; then space goes on for a while, and a code
    /// follows at once or a little later.
    fn held_space(&mut self, mode: Mode) {
        let last = last_sample(mode);
        for (cut, level) in [(last, SPACE), (last, QUIET), (mode.sample_at(2), QUIET)] {
            self.tape.fresh(mode);
            for held in [0, 1, 2, 3, 11, 21, 22, 23, 94, 165, 400] {
                for (end, ms) in [(MARK, 1), (QUIET, 1), (MARK, 2), (MARK, 0)] {
                    let code = self.random_code(mode);
                    self.tape.signal(&signal(mode, &code)[..cut]);
                    self.tape.level(level, 1);
                    self.tape.level(SPACE, held);
                    self.tape.level(end, ms);
                    self.clean_code(mode);
                }
            }
        }
    }

    /// Inhibited ms in a frame, at its samples, in the wait after a fault and between frames.
    fn inhibited_frames(&mut self, mode: Mode) {
        self.tape.fresh(mode);
        let mut places: Vec<_> = (0..=last_sample(mode)).step_by(17).collect();
        places.extend((0..mode.elements()).map(|place| mode.sample_at(place)));
        for cut in places {
            for ms in [1, 2, 300] {
                let clean = signal(mode, &self.random_code(mode));
                self.tape.signal(&clean[..cut]);
                self.tape.inhibited(ms);
                // The rest of the frame, as it goes on meanwhile, or a new one.
                if self.random.one_in(2) {
                    self.tape.signal(clean.get(cut + ms..).unwrap_or(&[]));
                }
                self.clean_code(mode);
            }
        }
        for held in [0, 1, 50] {
            for ms in [1, 30] {
                self.tape.level(SPACE, last_sample(mode) + 1 + held);
                self.tape.inhibited(ms);
                self.tape.level(SPACE, self.random.pick(&[0, 1, 200]));
                self.clean_code(mode);
            }
        }
    }

    /// Random runs, codes with random ms spoiled, and clean codes behind them.
    fn random_frames(&mut self, mode: Mode, end: usize) {
        let mut parts = 0;
        while self.tape.pairs < end {
            if parts % 20 == 0 {
                self.tape.fresh(mode);
            }
            parts += 1;
            match self.random.below(4) {
                0 => self.random_runs(QUIET, SPACE),
                1 => self.random_runs(MARK, SPACE),
                2 => self.spoiled_code(mode),
                _ => {
                    let ms = 1 + self.random.below(40);
                    self.tape.inhibited(ms);
                }
            }
            let text = [b"TOO 599"[self.random.below(7)], b"Ab9 (\n"[self.random.below(6)]];
            let text = &text[..1 + self.random.below(2)];
            // In Baudot now and then without the 11111 in front.
            let skip = usize::from(mode != Mode::Edt && self.random.one_in(2));
            for code in text_codes(mode, text).iter().skip(skip) {
                self.code(mode, code);
            }
        }
    }

    fn random_runs(&mut self, low: u8, high: u8) {
        for _ in 0..1 + self.random.below(8) {
            let level = low + self.random.below(usize::from(high - low) + 1) as u8;
            let most = self.random.pick(&[3, 12, 25, 94]);
            let ms = 1 + self.random.below(most);
            self.tape.level(level, ms);
        }
    }

    fn spoiled_code(&mut self, mode: Mode) {
        let code = self.random.below(codes(mode).len());
        let mut heard = signal(mode, &codes(mode)[code]);
        for _ in 0..1 + self.random.below(4) {
            let at = self.random.below(heard.len());
            let ms = 1 + self.random.below(8);
            let level = self.random.below(3) as u8;
            let end = heard.len().min(at + ms);
            heard[at..end].fill(level);
        }
        self.tape.signal(&heard);
    }
}

/// Lengths of keys and gaps around those that matter.
const KEY_TIMES: [usize; 7] = [1, 38, 39, 40, 41, 70, 94];
const GAP_TIMES: [usize; 5] = [1, 38, 39, 40, 41];

/// DTMF.
impl Cases {
    fn keys(&mut self, end: usize) {
        self.tape.fresh(Mode::Dtmf);
        for code in codes(Mode::Dtmf) {
            self.code(Mode::Dtmf, &code);
        }
        self.key_times();
        self.keys_without_gap();
        self.letter_keys();
        self.long_prefixes();
        self.inhibited_keys();
        self.random_keys(end);
    }

    fn key(&mut self, key: char, ms: usize) {
        self.tape.level(key_number(key), ms);
    }

    fn gap(&mut self, ms: usize) {
        self.tape.level(QUIET, ms);
    }

    /// Keys as a sender sends them.
    fn typed(&mut self, keys: &str) {
        for key in keys.chars() {
            self.key(key, KEY_LENGTH);
            self.gap(KEY_GAP);
        }
    }

    /// Two keys, of each length, with each gap between them; then a digit.
    fn key_times(&mut self) {
        for second in ['1', '7', '*'] {
            self.tape.fresh(Mode::Dtmf);
            for ms in KEY_TIMES {
                for gap in GAP_TIMES {
                    let length = self.random.pick(&KEY_TIMES);
                    self.key('1', ms);
                    self.gap(gap);
                    self.key(second, length);
                    self.gap(gap);
                    self.typed("5");
                }
            }
        }
    }

    /// Keys on the heels of others.
    fn keys_without_gap(&mut self) {
        self.tape.fresh(Mode::Dtmf);
        for first in [1, 39, 40, 70] {
            for second in [1, 39, 40, 80] {
                for (one, other) in [('1', '2'), ('*', '1'), ('1', '*'), ('#', 'A')] {
                    self.key(one, first);
                    self.key(other, second);
                    let (again, quiet) =
                        (self.random.pick(&[0, 0, 39, 40]), self.random.pick(&[39, 40, 60]));
                    self.key(one, again);
                    self.gap(quiet);
                }
                self.typed("3");
            }
        }
    }

    /// A to D, alone, behind a prefix and behind one that is too long, and a digit after them.
    fn letter_keys(&mut self) {
        for key in "ABCD".chars() {
            self.tape.fresh(Mode::Dtmf);
            for prefix in PREFIXES.into_iter().chain(["****", "##*#", "*#*#*"]) {
                self.typed(prefix);
                let ms = self.random.pick(&[39, 40, 70]);
                self.key(key, ms);
                self.gap(KEY_GAP);
                let digit = self.random.pick(&["1", "4", "0"]);
                self.typed(digit);
            }
        }
    }

    /// Prefixes of none to six with each digit.
    fn long_prefixes(&mut self) {
        for length in 0..=6 {
            self.tape.fresh(Mode::Dtmf);
            for digit in "1234567890".chars() {
                let prefix: String = (0..length).map(|_| self.random.pick(&['*', '#'])).collect();
                self.typed(&prefix);
                self.typed(&digit.to_string());
            }
        }
    }

    /// Inhibited ms in a key, in the gap, and between a prefix and its digit.
    fn inhibited_keys(&mut self) {
        self.tape.fresh(Mode::Dtmf);
        for before in [1, 20, 39, 40, 41] {
            for ms in [1, 38, 39, 40, 300] {
                self.typed("*");
                self.key('2', before);
                self.tape.inhibited(ms);
                let after = self.random.pick(&[1, 39, 40, 60]);
                self.key('2', after);
                self.gap(KEY_GAP);
            }
        }
        for quiet in [1, 19, 39, 40] {
            for ms in [1, 20, 21, 39, 40] {
                for after in [0, 1, 19, 20] {
                    self.key('#', 70);
                    self.gap(quiet);
                    self.tape.inhibited(ms);
                    self.gap(after);
                    self.key('3', 70);
                    self.gap(KEY_GAP);
                }
            }
        }
    }

    /// Random keys, gaps and inhibited ms, and clean codes behind them.
    fn random_keys(&mut self, end: usize) {
        let mut parts = 0;
        while self.tape.pairs < end {
            if parts % 20 == 0 {
                self.tape.fresh(Mode::Dtmf);
            }
            parts += 1;
            for _ in 0..1 + self.random.below(6) {
                let ms = match self.random.below(3) {
                    0 => self.random.pick(&KEY_TIMES),
                    1 => 1 + self.random.below(45),
                    _ => 1 + self.random.below(100),
                };
                match self.random.below(8) {
                    0..=2 => self.gap(ms),
                    3 => self.tape.inhibited(ms),
                    _ => {
                        let key = self.random.pick(KEYS.as_bytes());
                        let key = if self.random.one_in(2) { key } else { b'*' };
                        self.key(key as char, ms);
                    }
                }
            }
            let quiet = self.random.pick(&[39, 40, 50]);
            self.gap(quiet);
            let code = self.random.below(codes(Mode::Dtmf).len());
            self.typed(&codes(Mode::Dtmf)[code].to_string());
        }
    }
}

#[cfg(test)]
mod tests {
    use super::*;
    use reference::fault::Fault;
    use reference::tape::is_input;

    #[test]
    fn the_input_is_of_the_wanted_size_and_form() {
        let text = input();
        assert!(is_input(&text));
        let starts = SHARES.map(|(mode, _)| {
            let all = pairs(&text).unwrap();
            all.iter().filter(|&&pair| pair == Pair::Fresh(mode)).count()
        });
        assert!(starts.iter().all(|&starts| starts > 0));
        assert_eq!(text, input());
    }

    #[test]
    fn every_fault_of_every_mode_is_met() {
        let output = String::from_utf8(words(&input()).unwrap()).unwrap();
        for mode in Mode::ALL {
            let title = format!("mode {}", mode.number());
            let mut here = false;
            let mut met = Vec::new();
            for line in output.lines() {
                match line.split_once(' ').unwrap() {
                    ("mode", _) => here = line == title,
                    (_, word) if here => met.push(word.parse().unwrap()),
                    _ => {}
                }
            }
            for fault in Fault::of_mode(mode) {
                assert!(met.contains(&fault.word()), "{fault:?}");
            }
        }
    }

    #[test]
    fn words_are_numbered_by_their_ms() {
        // 00000 at 50 bit/s, an inhibited ms, then a frame that goes over into quiet.
        let text = b"m22~2:1>\ni!2~2>0~";
        let wanted = "mode 2\n130 8\n281 268468737\n";
        assert_eq!(String::from_utf8(words(text).unwrap()).unwrap(), wanted);
        assert_eq!(words(b"m12"), None);
    }
}
