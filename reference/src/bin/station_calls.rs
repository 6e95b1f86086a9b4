//! Lists of calls on stations for the test program `station_calls`, and what it must print. With
//! `input`, writes the lists; with `answers`, plays those of its standard input.
//!
//! Pairs of bytes, with LF between two anywhere: `m` and the sign that many behind `0` opens a
//! station of that mode; a level and a count are ms to be heard; `u` and a sign, then `l` and
//! another, are the high and the low hexadecimal digit of a character to be offered, each written
//! as the sign that many behind `0`; `n` and a count offer the last one so many times more; `o.`
//! offers; `r` and a sign runs. Levels and counts are written as in `tape`.

use reference::answer::SUCCESS;
use reference::line::{codes, key_number, preamble, runs, signal, text_codes, Code, KEYS};
use reference::line::{KEY_GAP, KEY_LENGTH, MARK, QUIET, SPACE};
use reference::mode::Mode;
use reference::random::Random;
use reference::station::{Station, MOST_MS, MOST_WAITING};
use std::fmt::Write as _;
use std::io::{Read, Write};

/// What slices hold before a call, and how long they are at most.
const PATTERN: u8 = 99;
const WORD_PATTERN: u32 = 99_999_999;
const ROOM: usize = 4100;

/// The most of a count.
const MOST_COUNT: usize = 94;

fn main() {
    let mut output = std::io::stdout().lock();
    match std::env::args().nth(1).as_deref() {
        Some("input") => output.write_all(&input()).unwrap(),
        Some("answers") => {
            let mut text = Vec::new();
            std::io::stdin().read_to_end(&mut text).unwrap();
            output.write_all(answers(&text).as_bytes()).unwrap();
        }
        _ => panic!("input or answers"),
    }
}

/// What the calls of a list give.
fn answers(text: &[u8]) -> String {
    let mut answers = String::new();
    let mut station = Station::fresh(Mode::Baudot45);
    let (mut heard, mut offered, mut high) = (Vec::new(), Vec::new(), 0);
    let mut rest = text;
    loop {
        rest = match rest {
            [b'\n', rest @ ..] => rest,
            [first, second, rest @ ..] => {
                match first {
                    b'm' => {
                        let mode = second - b'0';
                        let (answer, opened) = Station::open(mode);
                        station = opened;
                        (heard, offered, high) = (Vec::new(), Vec::new(), 0);
                        let reached = if answer == SUCCESS { mode } else { 1 };
                        writeln!(answers, "open {mode} {answer} {reached}").unwrap();
                    }
                    b'u' => high = digit(*second),
                    b'l' => offered.push(16 * high + digit(*second)),
                    b'n' => {
                        let last = *offered.last().expect("a character");
                        offered.resize(offered.len() + usize::from(second - b' '), last);
                    }
                    b'o' => {
                        let answer = station.offer(&offered);
                        let (length, waiting) = (offered.len(), station.waiting());
                        writeln!(answers, "offer {length} {answer} {waiting}").unwrap();
                        offered.clear();
                    }
                    b'r' => {
                        run(&mut station, &heard, *second, &mut answers);
                        heard.clear();
                    }
                    b'0'..=b'Z' => {
                        heard.resize(heard.len() + usize::from(second - b' '), first - b'0')
                    }
                    _ => panic!("no pair"),
                }
                rest
            }
            _ => return answers,
        }
    }
}

fn digit(sign: u8) -> u8 {
    assert!((b'0'..=b'?').contains(&sign), "a digit");
    sign - b'0'
}

/// A run with slices of the lengths that the sign says; all that slices hold is listed.
fn run(station: &mut Station, heard: &[u8], sign: u8, answers: &mut String) {
    let (exact, short) = (heard.len(), heard.len().saturating_sub(1));
    let (sent_length, words_length) = match sign {
        b's' => (short, exact),
        b'w' => (exact, short),
        b'b' => (short, short),
        b'+' => (ROOM, ROOM),
        _ => (exact, exact),
    };
    let (mut sent, mut words) = ([PATTERN; ROOM], [WORD_PATTERN; ROOM]);
    let ran = station.run(heard, &mut sent[..sent_length], &mut words[..words_length]);
    writeln!(answers, "run {exact} {} {}", ran.answer, ran.words).unwrap();
    for (level, ms) in runs(&sent) {
        writeln!(answers, "sent {level} {ms}").unwrap();
    }
    for word in words.iter().filter(|&&word| word != WORD_PATTERN) {
        writeln!(answers, "word {word}").unwrap();
    }
}

/// Writes lists.
struct Lists {
    text: Vec<u8>,
    in_line: usize,
    random: Random,
}

fn input() -> Vec<u8> {
    let mut lists = Lists { text: Vec::new(), in_line: 0, random: Random::new(1) };
    lists.worked_examples();
    for mode in Mode::ALL {
        lists.openings(mode);
        lists.refusals(mode);
        lists.full(mode);
        lists.cuts(mode);
        lists.half_duplex(mode);
        lists.back_to_back(mode);
        lists.free_line(mode);
        if mode.number() <= 2 {
            lists.del(mode);
            lists.repeated_shift(mode);
            lists.later_bursts(mode);
        }
        for _ in 0..12 {
            lists.random(mode);
        }
    }
    lists.line();
    lists.text
}

impl Lists {
    fn pair(&mut self, first: u8, second: u8) {
        if self.in_line == 49 {
            self.line();
        }
        self.text.extend([first, second]);
        self.in_line += 1;
    }

    fn line(&mut self) {
        if self.in_line > 0 {
            self.text.push(b'\n');
            self.in_line = 0;
        }
    }

    fn open(&mut self, mode: u8) {
        self.line();
        self.pair(b'm', b'0' + mode);
    }

    fn counts(&mut self, sign: u8, mut count: usize) {
        while count > 0 {
            let now = count.min(MOST_COUNT);
            self.pair(sign, b' ' + now as u8);
            count -= now;
        }
    }

    /// Offers a text.
    fn offer(&mut self, text: &[u8]) {
        for same in text.chunk_by(|a, b| a == b) {
            self.pair(b'u', b'0' + (same[0] >> 4));
            self.pair(b'l', b'0' + (same[0] & 15));
            self.counts(b'n', same.len() - 1);
        }
        self.pair(b'o', b'.');
        self.line();
    }

    /// Runs, with slices as a sign says.
    fn run_with(&mut self, heard: &[u8], sign: u8) {
        for (level, ms) in runs(heard) {
            self.counts(b'0' + level, ms);
        }
        self.pair(b'r', sign);
        self.line();
    }

    fn run(&mut self, heard: &[u8]) {
        for heard in heard.chunks(MOST_MS) {
            self.run_with(heard, b'=');
        }
    }

    fn quiet(&mut self, ms: usize) {
        self.run(&vec![QUIET; ms]);
    }

    /// Document 01, the second group.
    fn worked_examples(&mut self) {
        self.open(1);
        self.offer(&[b'E'; 257]);
        self.offer(&[b'E'; 256]);
        self.offer(b"E");
        self.open(1);
        self.offer(b"E");
        self.quiet(1000);
        for ms in [39, 40] {
            self.open(3);
            self.run(&[vec![1; ms], vec![QUIET; 60]].concat());
        }
        for character in [b"b", b":"] {
            self.open(3);
            self.offer(character);
            self.quiet(500);
        }
    }

    fn openings(&mut self, mode: Mode) {
        for number in [0, 5, 78, mode.number()] {
            self.open(number);
            self.offer(b"A");
            self.quiet(500);
        }
    }

    /// Each refusal, and that the next call goes on as if it had not been.
    fn refusals(&mut self, mode: Mode) {
        self.open(mode.number());
        self.offer(b"AB");
        let signal = burst(mode, b"E1");
        let above = mode.highest_level() + 1;
        self.run(&signal[..100]);
        self.offer(b"C\x80");
        self.offer(b"\xFF");
        self.offer(&[b'e'; 255]);
        for sign in [b's', b'w', b'b'] {
            self.run_with(&signal[100..200], sign);
        }
        self.run_with(&vec![QUIET; MOST_MS + 1], b'+');
        self.run_with(&[&signal[..100], &[above]].concat(), b'=');
        self.run_with(&[QUIET, 42], b'b');
        self.run_with(&[], b'=');
        self.offer(b"");
        self.run_with(&signal[100..], b'+');
        self.quiet(1500);
    }

    /// As many as there is space for, and one more; what sends nothing takes none.
    fn full(&mut self, mode: Mode) {
        self.open(mode.number());
        self.run(&[1]);
        self.offer(&[b'e'; MOST_WAITING - 2]);
        self.offer(b"xyz");
        self.offer(b"x\x00\x01");
        self.offer(b"\x00yz");
        self.offer(b"\x00");
        self.offer(b"");
        self.offer(b"y");
        self.quiet(301 + 700);
        self.offer(b"yz");
        self.quiet(1000);
    }

    /// The same ms in one run, in two and in many.
    fn cuts(&mut self, mode: Mode) {
        let heard = [burst(mode, b"To 5"), vec![QUIET; 320], burst(mode, b"9A")].concat();
        for cut in [MOST_MS, 1000, 333, 97] {
            self.open(mode.number());
            self.run(&[1]);
            self.offer(b"e1");
            heard.chunks(cut).for_each(|heard| self.run(heard));
            self.quiet(1000);
        }
    }

    /// The own echo, at once and late, and a code just when the inhibition ends.
    fn half_duplex(&mut self, mode: Mode) {
        let echo = burst(mode, b"1");
        let code = text_codes(mode, b"E").pop().unwrap();
        for late in [0, 150, 299] {
            self.open(mode.number());
            self.offer(b"1");
            self.run(&[vec![QUIET; late], echo.clone()].concat());
            self.quiet(300 - late);
            self.run(&signal(mode, &code));
            self.quiet(100);
        }
        for early in [0, 1, 40] {
            self.open(mode.number());
            self.offer(b"1");
            self.quiet(echo.len() + 300 - early);
            self.run(&signal(mode, &code));
            self.quiet(100);
        }
    }

    /// Offers before the last ms of a burst, right behind it and a little later.
    fn back_to_back(&mut self, mode: Mode) {
        let length = burst(mode, b"E").len();
        for ms in [length - 1, length, length + 1, length + 299, length + 300, length + 301] {
            self.open(mode.number());
            self.offer(b"E");
            self.quiet(ms);
            self.offer(b"9");
            self.run(&[MARK; 600]);
            self.quiet(300);
        }
    }

    /// 299 ms without signal are too few.
    fn free_line(&mut self, mode: Mode) {
        for ms in [299, 300, 301] {
            self.open(mode.number());
            self.run(&[SPACE]);
            self.offer(b"e");
            self.quiet(ms);
            self.run(&[MARK; 5]);
            self.quiet(800);
        }
    }

    /// DEL puts the own reader in letters, if its offer succeeds.
    fn del(&mut self, mode: Mode) {
        self.open(mode.number());
        let (figures, e) = (Code::FiveBits(0b11011), Code::FiveBits(0b00001));
        self.run(&[signal(mode, &figures), signal(mode, &e)].concat());
        self.offer(b"\x7F\x80");
        self.run(&signal(mode, &e));
        self.offer(b"\x7F");
        self.run(&signal(mode, &e));
    }

    /// The shift in force after 72 characters.
    fn repeated_shift(&mut self, mode: Mode) {
        self.open(mode.number());
        self.offer(&[b'E'; 73]);
        self.quiet(13_000);
    }

    /// The shift in force opens each burst: in letters and in figures, with a first character of
    /// either shift and of both, in one run and in several, and after 72 characters.
    fn later_bursts(&mut self, mode: Mode) {
        for cut in [2000, 500, 170] {
            self.open(mode.number());
            for text in [&b"1"[..], b"2", b" ", b"A", b"B", b"\n", b"3E"] {
                self.offer(text);
                (0..2000 / cut).for_each(|_| self.quiet(cut));
            }
        }
        // One more right behind the last ms, another in the preamble.
        self.open(mode.number());
        self.offer(b"1");
        self.quiet(150 + 3 * mode.code_length());
        self.offer(b"2");
        self.quiet(100);
        self.offer(b"E");
        self.quiet(1500);
        self.open(mode.number());
        self.offer(&[b'T'; 72]);
        self.quiet(12_500);
        self.offer(b"T3");
        self.quiet(1500);
    }

    /// Texts, signals, damaged ones and noise.
    fn random(&mut self, mode: Mode) {
        self.open(mode.number());
        for _ in 0..8 {
            if self.random.one_in(2) {
                let length = 1 + self.random.below(3);
                let text: Vec<u8> =
                    (0..length).map(|_| self.random.pick(b"TOO599 eAb1:?,(*\n\x7F\x00")).collect();
                self.offer(&text);
            }
            let mut heard = match self.random.below(4) {
                0 => vec![QUIET; self.random.below(700)],
                1 => burst(mode, self.random.pick(&[&b"Ab"[..], b"5(", b"o :"])),
                2 => {
                    let all = codes(mode);
                    signal(mode, &all[self.random.below(all.len())])
                }
                _ => self.keys_or_runs(mode),
            };
            if self.random.one_in(2) {
                let at = self.random.below(heard.len() + 1);
                let end = heard.len().min(at + self.random.below(30));
                heard[at..end].fill(self.random.pick(&[QUIET, MARK, SPACE]));
            }
            self.run(&heard);
        }
    }

    fn keys_or_runs(&mut self, mode: Mode) -> Vec<u8> {
        let mut heard = Vec::new();
        for _ in 0..4 {
            if mode == Mode::Dtmf {
                let sign = self.random.pick(KEYS.as_bytes());
                let ms = self.random.pick(&[39, 40, KEY_LENGTH]);
                heard.extend(vec![key_number(sign as char); ms]);
                heard.extend(vec![QUIET; self.random.pick(&[39, 40, KEY_GAP])]);
            } else {
                let level = self.random.pick(&[QUIET, MARK, SPACE]);
                heard.extend(vec![level; 1 + self.random.below(120)]);
            }
        }
        heard
    }
}

/// A burst of a fresh sender.
fn burst(mode: Mode, text: &[u8]) -> Vec<u8> {
    let mut burst = preamble(mode);
    text_codes(mode, text).iter().for_each(|code| burst.extend(signal(mode, code)));
    burst
}

#[cfg(test)]
mod tests {
    use super::*;
    use reference::tape::is_input;

    #[test]
    fn the_input_is_of_the_wanted_size_and_form() {
        let text = input();
        assert!(is_input(&text));
        assert_eq!(text, input());
    }

    #[test]
    fn the_answers_of_a_list() {
        // In mode 2 an E is offered and half its preamble run; then a slice is too short.
        let text = b"m2u4l5o.\n0kr=0!rsm7";
        let wanted = "open 2 0 2\noffer 1 0 1\nrun 75 0 0\nsent 1 75\nsent 99 4025\n\
                      run 1 7 0\nsent 99 4100\nopen 7 2 1\n";
        assert_eq!(answers(text), wanted);
    }

    #[test]
    fn every_answer_of_a_station_is_met_but_the_first() {
        // No list of calls leads to a station out of range.
        let answers = answers(&input());
        for answer in [0, 2, 3, 4, 5, 6, 7, 8] {
            let answered = |line: &str| {
                let mut parts = line.split(' ').skip(2);
                !line.starts_with("sent") && parts.next() == Some(&answer.to_string())
            };
            assert!(answers.lines().any(answered), "{answer}");
        }
    }
}
