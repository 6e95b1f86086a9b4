//! `vectors MODE` prints the test vectors of a mode, from 1 to 4; vectors/README.md explains the format.

use reference::annex::{FIGURES_CODE, LETTERS_CODE};
use reference::answer::SUCCESS;
use reference::baudot::FRESH;
use reference::line::{
    burst_codes, codes, key_number, preamble, runs, signal, text_codes, Code, KEY_GAP, KEY_LENGTH,
    MARK, PREFIXES, QUIET, SPACE,
};
use reference::mode::Mode;
use reference::random::Random;
use reference::station::Station;
use std::fmt::Write;
use std::ops::Range;
use std::process::exit;

/// The ms that a `send` case goes on after its last burst.
const AFTER: usize = 50;

/// The ms from one burst to the next where a case has several.
const PAUSE: usize = 100;

/// Characters whose DTMF codes have every prefix that is sent.
const EVERY_PREFIX: &[u8] = b"bac&1BAL";

/// The longest line of output.
const WIDTH: usize = 100;

fn main() {
    let arguments: Vec<String> = std::env::args().skip(1).collect();
    let mode = match &arguments[..] {
        [number] => number.parse().ok().and_then(Mode::from_number),
        _ => None,
    };
    let Some(mode) = mode else {
        eprintln!("usage: vectors MODE, with a mode from 1 to 4");
        exit(2)
    };
    print!("{}", vectors(mode));
}

fn vectors(mode: Mode) -> String {
    let mut cases = Cases { mode, random: Random::new(118), output: String::new() };
    writeln!(cases.output, "mode {}", mode.number()).unwrap();
    cases.every_character();
    cases.texts();
    cases.nothing_sent();
    cases.long_texts();
    cases.bursts();
    cases.openings();
    cases.every_code();
    if mode == Mode::Dtmf {
        cases.damaged_keys();
    } else {
        cases.damaged_frames();
    }
    cases.random_damage();
    cases.previews();
    cases.output
}

struct Cases {
    mode: Mode,
    random: Random,
    output: String,
}

/// A text and the ms that its offer comes ahead of.
type Offer = (usize, Vec<u8>);

/// What a fresh station sends while it hears quiet.
fn sent(mode: Mode, offers: &[Offer], ms: usize) -> Vec<u8> {
    let mut station = Station::fresh(mode);
    let mut line = Vec::new();
    for now in 0..ms {
        for (_, text) in offers.iter().filter(|(at, _)| *at == now) {
            assert_eq!(station.offer(text), SUCCESS);
        }
        let mut level = [QUIET];
        assert_eq!(station.run(&[QUIET], &mut level, &mut [0]).answer, SUCCESS);
        line.push(level[0]);
    }
    line
}

/// The words that a fresh station reads from a line, each with its ms.
fn words(mode: Mode, line: &[u8]) -> Vec<(usize, u32)> {
    let mut station = Station::fresh(mode);
    let mut words = Vec::new();
    for (ms, &level) in line.iter().enumerate() {
        let mut word = [0];
        let ran = station.run(&[level], &mut [0], &mut word);
        assert_eq!(ran.answer, SUCCESS);
        words.extend(word[..ran.words].iter().map(|&word| (ms, word)));
    }
    words
}

/// The line signal of codes, end to end.
fn signals(mode: Mode, codes: &[Code]) -> Vec<u8> {
    codes.iter().flat_map(|code| signal(mode, code)).collect()
}

/// A burst: its ms, the text that it sends and the codes.
struct Burst {
    ms: Range<usize>,
    text: Vec<u8>,
    codes: Vec<Code>,
    /// The sender's shift ahead of it and behind it.
    shifts: [u8; 2],
}

impl Burst {
    fn new(mode: Mode, start: usize, shift: u8, text: Vec<u8>) -> Burst {
        let (codes, reached) = burst_codes(mode, shift, &text);
        let length = usize::from(mode.preamble()) + signals(mode, &codes).len();
        Burst { ms: start..start + length, text, codes, shifts: [shift, reached] }
    }
}

/// The bursts that a fresh station makes of offers while it hears quiet.
fn bursts_of(mode: Mode, offers: &[Offer]) -> Vec<Burst> {
    let mut bursts: Vec<Burst> = Vec::new();
    for (at, text) in offers {
        let some = text.iter().copied().filter(|&c| mode.alphabet().normal(c).is_some());
        let some: Vec<u8> = some.collect();
        match bursts.last_mut() {
            _ if some.is_empty() => {}
            Some(last) if *at < last.ms.end => {
                let text = [&last.text[..], &some].concat();
                *last = Burst::new(mode, last.ms.start, last.shifts[0], text);
            }
            last => {
                let shift = last.map_or(FRESH, |last| last.shifts[1]);
                bursts.push(Burst::new(mode, *at, shift, some));
            }
        }
    }
    bursts
}

/// The station that hears a line, with offers ahead of its ms and behind its last one.
fn called(mode: Mode, offers: &[Offer], line: &[u8]) -> Station {
    let mut station = Station::fresh(mode);
    for now in 0..=line.len() {
        for (_, text) in offers.iter().filter(|(at, _)| *at == now) {
            assert_eq!(station.offer(text), SUCCESS);
        }
        if let Some(&level) = line.get(now) {
            assert_eq!(station.run(&[level], &mut [0], &mut [0]).answer, SUCCESS);
        }
    }
    station
}

/// The ms behind the last burst.
fn end_of(mode: Mode, offers: &[Offer]) -> usize {
    bursts_of(mode, offers).last().map_or(0, |last| last.ms.end)
}

/// The format.
impl Cases {
    /// Lines that begin with a name, as many as the items need.
    fn items(&mut self, name: &str, items: &[String]) {
        let mut line = name.to_string();
        for item in items {
            if line.len() + 1 + item.len() > WIDTH {
                writeln!(self.output, "{line}").unwrap();
                line = name.to_string();
            }
            write!(line, " {item}").unwrap();
        }
        if line != name {
            writeln!(self.output, "{line}").unwrap();
        }
    }

    fn codes(&mut self, codes: &[Code]) {
        let items: Vec<_> = codes.iter().map(|code| code.to_string().to_uppercase()).collect();
        self.items("codes", &items);
    }

    fn characters(&mut self, name: &str, text: &[u8]) {
        let items: Vec<_> = text.iter().map(|character| format!("{character:02X}")).collect();
        self.items(name, &items);
    }

    fn line(&mut self, line: &[u8]) {
        let runs: Vec<_> = runs(line).iter().map(|(level, ms)| format!("{level}:{ms}")).collect();
        self.items("line", &runs);
    }

    fn line_and_words(&mut self, line: &[u8]) {
        self.line(line);
        let words: Vec<_> =
            words(self.mode, line).iter().map(|(ms, word)| format!("{ms}:{word:02X}")).collect();
        self.items("words", &words);
    }

    /// A text that is offered at ms 0.
    fn send(&mut self, name: &str, text: &[u8]) {
        self.send_offers(name, &[(0, text.to_vec())]);
    }

    fn send_offers(&mut self, name: &str, offers: &[Offer]) {
        writeln!(self.output, "\nsend {name}").unwrap();
        for (ms, text) in offers {
            self.characters(&format!("text {ms}"), text);
        }
        let bursts = bursts_of(self.mode, offers);
        let codes: Vec<Code> = bursts.into_iter().flat_map(|burst| burst.codes).collect();
        self.codes(&codes);
        self.line_and_words(&sent(self.mode, offers, end_of(self.mode, offers) + AFTER));
    }

    /// Texts that are sent in bursts of their own.
    fn send_bursts(&mut self, name: &str, texts: &[&[u8]]) {
        let mut offers: Vec<Offer> = Vec::new();
        for text in texts {
            let last = offers.last().map(|offer| offer.0.max(end_of(self.mode, &offers)));
            offers.push((last.map_or(0, |ms| ms + PAUSE), text.to_vec()));
        }
        self.send_offers(name, &offers);
    }

    /// A preview of a station behind a line that it has heard.
    fn preview(&mut self, name: &str, offers: &[Offer], line: &[u8], with: &[u8]) {
        let (answer, ms) = called(self.mode, offers, line).preview(with);
        assert_eq!(answer, SUCCESS);
        writeln!(self.output, "\npreview {name}").unwrap();
        for (at, text) in offers {
            self.characters(&format!("text {at}"), text);
        }
        self.line(line);
        self.characters("with", with);
        writeln!(self.output, "ms {ms}").unwrap();
    }

    /// A line that a fresh station hears.
    fn hear(&mut self, name: &str, line: &[u8]) {
        assert!(!line.is_empty());
        writeln!(self.output, "\nhear {name}").unwrap();
        self.line_and_words(line);
    }

    /// Codes as a fresh station hears them, behind a preamble.
    fn hear_codes(&mut self, name: &str, codes: &[Code]) {
        let line = [preamble(self.mode), signals(self.mode, codes)].concat();
        writeln!(self.output, "\nhear {name}").unwrap();
        self.codes(codes);
        self.line_and_words(&line);
    }
}

/// Clean signals.
impl Cases {
    fn every_character(&mut self) {
        for first in (0..128u8).step_by(16) {
            let text: Vec<u8> = (first..first + 16).collect();
            self.send(&format!("characters {first:02X} to {:02X}", first + 15), &text);
        }
    }

    fn texts(&mut self) {
        let texts = [
            "A",
            "E",
            "1",
            "A1",
            "1A",
            "1 A",
            "A 1",
            "a",
            "@",
            "*",
            "`",
            "\t",
            "TOO 599",
            "too 599",
            "E3E3E3E3",
            "A1 B2 C3",
            "  1  A  ",
            "MADAM",
            "dial *31#",
            "b:",
            "1/2 $5 don't",
            "GA\r\n",
            "(room 12b), 6 pm; 7+8-9=?\r\n",
            "hello ga",
            "SK SK",
        ];
        for text in texts {
            let name: String = text.chars().filter(|c| !c.is_control()).collect();
            let name = if name == text {
                format!("\"{name}\"")
            } else {
                format!("\"{name}\" and controls")
            };
            self.send(&name, text.as_bytes());
        }
    }

    fn nothing_sent(&mut self) {
        let silent: Vec<u8> =
            (0..128).filter(|&c| self.mode.alphabet().normal(c).is_none()).collect();
        if silent.is_empty() {
            return;
        }
        self.send("all that send nothing", &silent);
        let mixed: Vec<u8> = silent.iter().take(5).flat_map(|&c| [c, b'E']).chain([0]).collect();
        self.send("characters that send nothing between others", &mixed);
    }

    fn long_texts(&mut self) {
        if self.mode == Mode::Dtmf {
            self.send("every prefix that is sent", EVERY_PREFIX);
            return;
        }
        for count in [72, 73] {
            self.send(&format!("{count} times E"), &vec![b'E'; count]);
        }
        if self.mode == Mode::Edt {
            return;
        }
        self.send("145 times E", &[b'E'; 145]);
        self.send("73 times 3", &[b'3'; 73]);
        self.send("73 spaces", &[b' '; 73]);
        self.send("72 times E, then 3", &[&[b'E'; 72][..], b"3"].concat());
        self.send(
            "71 times E, then 3 and 73 times E",
            &[&[b'E'; 71][..], b"3", &[b'E'; 73]].concat(),
        );
        self.send(
            "40 times E, 3, 40 times E, a space",
            &[&[b'E'; 40][..], b"3", &[b'E'; 40], b" "].concat(),
        );
    }

    /// Preambles: offers in a burst, with its last ms, after it, and much later.
    fn bursts(&mut self) {
        let first = end_of(self.mode, &[(0, b"E".to_vec())]);
        for (name, at) in [
            ("E, and E in the middle of its code", first - 30),
            ("E, and E ahead of its last ms", first - 1),
            ("E, and E behind its last ms: a new burst", first),
            ("E, and E 1 ms later than that", first + 1),
            ("E, and E 500 ms later", first + 500),
        ] {
            self.send_offers(name, &[(0, b"E".to_vec()), (at, b"E".to_vec())]);
        }
    }

    /// Baudot bursts open with the shift in force.
    fn openings(&mut self) {
        if !matches!(self.mode, Mode::Baudot45 | Mode::Baudot50) {
            return;
        }
        let many = [b'T'; 73];
        let cases: [(&str, &[&[u8]]); 9] = [
            ("letters, and letters in a second burst", &[b"AB", b"CD"]),
            ("figures, and figures in a second burst", &[b"12", b"34"]),
            ("letters, and figures in a second burst", &[b"AB", b"12"]),
            ("figures, and letters in a second burst", &[b"12", b"AB"]),
            ("figures, and a space and letters in a second burst", &[b"12", b" AB"]),
            ("six bursts", &[b"1", b"1", b"A", b"A", b"\n", b"1"]),
            ("figures, then what sends nothing, then figures", &[b"12", b"\x00\x7F", b"34"]),
            ("72 times T, and T in a second burst", &[&many[..72], b"T"]),
            ("40 times T, and 73 times T in a second burst", &[&many[..40], &many]),
        ];
        for (name, texts) in cases {
            self.send_bursts(name, texts);
        }
    }

    /// Every code, also those that no character is sent as.
    fn every_code(&mut self) {
        let shifts: &[u8] = if matches!(self.mode, Mode::Baudot45 | Mode::Baudot50) {
            &[LETTERS_CODE, FIGURES_CODE]
        } else {
            &[]
        };
        for &shift in shifts {
            let name = if shift == LETTERS_CODE { "letters" } else { "figures" };
            let others = (0..32).filter(|code| !shifts.contains(code));
            let all: Vec<Code> = [shift].into_iter().chain(others).map(Code::FiveBits).collect();
            self.hear_codes(&format!("every code in {name}"), &all);
        }
        if self.mode == Mode::Dtmf {
            for (prefix, codes) in PREFIXES.iter().zip(codes(self.mode).chunks(10)) {
                let prefix = if prefix.is_empty() {
                    "no prefix".to_string()
                } else {
                    format!("prefix {prefix}")
                };
                self.hear_codes(&format!("{prefix} and each digit"), codes);
            }
        }
    }
}

/// Previews.
impl Cases {
    fn previews(&mut self) {
        self.previews_of_texts();
        self.previews_on_a_line();
        self.previews_in_a_burst();
    }

    /// Texts on a fresh station; the longest ones, too.
    fn previews_of_texts(&mut self) {
        for text in [
            "hi",
            "A1",
            "1 A",
            "b:",
            "ga",
            "hello ga",
            "call 599 0142 ga",
            "please call back tomorrow ga",
            "pls cb tmw ga",
        ] {
            self.preview(&format!("\"{text}\""), &[], &[], text.as_bytes());
        }
        self.preview("nothing", &[], &[], b"");
        self.preview("DEL", &[], &[], &[0x7F]);
        let two: &[u8] = match self.mode {
            Mode::Baudot45 | Mode::Baudot50 => b"1A",
            _ => b"!!",
        };
        for number in [1, 10, 40, 72, 256] {
            let text: Vec<_> = two.iter().copied().cycle().take(number).collect();
            self.preview(&format!("the longest of {number}"), &[], &[], &text);
        }
        let offers = [(0, two.repeat(100))];
        self.preview("56 more, and 200 wait", &offers, &[], &two.repeat(28));
    }

    /// Behind signal of the other end.
    fn previews_on_a_line(&mut self) {
        let signal = vec![1; 20];
        self.preview("nothing on a busy line", &[], &signal, b"");
        for silence in [0, 1, 100, 299, 300, 301] {
            let line = [&signal[..], &vec![QUIET; silence]].concat();
            self.preview(&format!("\"hi\", {silence} ms behind signal"), &[], &line, b"hi");
        }
        let line = [&signal[..], &[QUIET; 50]].concat();
        self.preview("\"hi\", and 1 waits for a free line", &[(10, b"1".to_vec())], &line, b"hi");
    }

    /// In a burst, in the inhibited ms behind it and after them.
    fn previews_in_a_burst(&mut self) {
        let offers = [(0, b"A1b".to_vec())];
        let end = end_of(self.mode, &offers);
        let head = usize::from(self.mode.preamble());
        let code = head + signals(self.mode, &burst_codes(self.mode, FRESH, b"A1b").0[..1]).len();
        for (ms, name) in [
            (head, "the preamble"),
            (head + 1, "the first ms of a code"),
            (code - 1, "the last ms but one of a code"),
            (code, "the last ms of a code"),
            (end - 1, "the last ms but one of a burst"),
            (end, "the last ms of a burst"),
            (end + 100, "a burst and 100 ms of quiet"),
        ] {
            if ms > 0 {
                let line = vec![QUIET; ms];
                self.preview(&format!("nothing behind {name}"), &offers, &line, b"");
                self.preview(&format!("\"2\" behind {name}"), &offers, &line, b"2");
            }
        }
        for signal in [300, 301] {
            let line = [vec![QUIET; end], vec![1; signal]].concat();
            let name = format!("\"2\" behind a burst and {signal} ms of signal");
            self.preview(&name, &offers, &line, b"2");
        }
    }
}

/// Damaged signals.
impl Cases {
    /// The code that is damaged, and one behind it that shows what the reader does next.
    fn two_codes(&self) -> [Vec<u8>; 2] {
        let codes = match self.mode {
            Mode::Edt => [b'U', b'A'].map(Code::SevenBits),
            _ => [0b10101, 0b00011].map(Code::FiveBits),
        };
        codes.map(|code| signal(self.mode, &code))
    }

    /// Hears a damaged code, a gap of mark and a clean code.
    fn damaged(&mut self, name: &str, damaged: &[u8], gap: usize) {
        let [_, next] = self.two_codes();
        self.hear(name, &[damaged, &vec![MARK; gap], &next].concat());
    }

    fn damaged_frames(&mut self) {
        let mode = self.mode;
        let [clean, next] = self.two_codes();
        let last = mode.sample_at(mode.elements() - 1);
        for element in 0..mode.elements() {
            let at = mode.sample_at(element);
            for level in (QUIET..=SPACE).filter(|&level| level != clean[at]) {
                let mut heard = clean.clone();
                heard[at] = level;
                let name = ["quiet", "mark", "space"][usize::from(level)];
                self.damaged(
                    &format!("one ms of {name} at the sample of element {element}"),
                    &heard,
                    20,
                );
            }
            let mut heard = clean.clone();
            heard[at - 1] = MARK + SPACE - heard[at];
            heard[at + 1] = heard[at - 1];
            self.damaged(
                &format!("wrong before and after the sample of element {element}"),
                &heard,
                20,
            );
        }
        for ms in [mode.sample_at(0), mode.sample_at(0) + 1] {
            let line = [vec![SPACE; ms], vec![MARK; 5], clean.clone(), next.clone()].concat();
            self.hear(&format!("space of {ms} ms ahead of two codes"), &line);
        }
        for cut in [clean.len() / 3, clean.len() / 2, last - 1] {
            let line = [&clean[..cut], &[QUIET; 200], &next].concat();
            self.hear(&format!("a code that breaks off after {cut} ms"), &line);
        }
        for held in [last, last + 1, 400, 1000] {
            let line = [vec![SPACE; held], vec![MARK; 1], next.clone()].concat();
            self.hear(&format!("space of {held} ms, a ms of mark, a code"), &line);
        }
        self.hear("a code without preamble", &next);
        self.hear("a preamble of 10 ms", &[&[MARK; 10][..], &next].concat());
        self.hear(
            "codes with gaps of quiet",
            &[&clean[..], &[QUIET; 77], &next, &[QUIET; 3], &clean].concat(),
        );
        if mode == Mode::Edt {
            let mut odd = clean.clone();
            for (ms, level) in odd.iter_mut().enumerate() {
                if mode.element_at(ms) == Mode::PARITY {
                    *level = MARK + SPACE - *level;
                }
            }
            self.damaged("odd parity", &odd, 0);
            let mut quiet = clean.clone();
            quiet[mode.sample_at(3)] = MARK + SPACE - quiet[mode.sample_at(3)];
            quiet[mode.sample_at(Mode::PARITY)] = QUIET;
            self.damaged("one wrong digit, and quiet at the parity", &quiet, 20);
        }
    }

    fn damaged_keys(&mut self) {
        for ms in [1, 39, 40, 41, 500] {
            let line = [vec![key_number('5'); ms], vec![QUIET; 50], typed("2")].concat();
            self.hear(&format!("key 5 for {ms} ms, then key 2"), &line);
        }
        for gap in [1, 39, 40, 41] {
            let line = [vec![key_number('5'); 70], vec![QUIET; gap], typed("5")].concat();
            self.hear(&format!("key 5 twice, {gap} ms of quiet between"), &line);
            let line = [vec![key_number('*'); 70], vec![QUIET; gap], typed("4")].concat();
            self.hear(&format!("key * and key 4, {gap} ms of quiet between"), &line);
        }
        for (first, second) in [(39, 40), (40, 40), (70, 70), (20, 39)] {
            let line = [
                vec![key_number('1'); first],
                vec![key_number('2'); second],
                vec![QUIET; 50],
                typed("3"),
            ];
            self.hear(
                &format!("key 1 for {first} ms, key 2 at once for {second} ms"),
                &line.concat(),
            );
        }
        let mut broken = vec![key_number('6'); 70];
        broken[35] = QUIET;
        self.hear(
            "key 6 with a quiet ms after 35 ms",
            &[broken.clone(), vec![QUIET; 50], typed("1")].concat(),
        );
        broken[35] = key_number('6');
        broken[45] = key_number('D');
        self.hear(
            "key 6 with a ms of key D after 45 ms",
            &[broken, vec![QUIET; 50], typed("1")].concat(),
        );
        for keys in [
            "A", "B1", "*C2", "**D", "#A#1", "***B", "****C", "#####D", "****1", "####5", "###*12",
            "*#*#*#*1", "**", "*1*",
        ] {
            self.hear(&format!("keys {keys} and then 2"), &typed(&format!("{keys}2")));
        }
    }

    /// Codes with random ms spoiled, random runs, and clean codes at the end.
    fn random_damage(&mut self) {
        for number in 1..=12 {
            let mut line = Vec::new();
            for _ in 0..3 {
                line.extend(self.spoiled_code());
                line.extend(self.noise());
            }
            line.extend([QUIET; 60]);
            line.extend(signals(self.mode, &text_codes(self.mode, b"ok 12")));
            self.hear(&format!("random damage {number}, then a clean text"), &line);
        }
    }

    fn any_level(&mut self) -> u8 {
        self.random.below(usize::from(self.mode.highest_level()) + 1) as u8
    }

    fn spoiled_code(&mut self) -> Vec<u8> {
        let all = codes(self.mode);
        let mut heard = signal(self.mode, &all[self.random.below(all.len())]);
        for _ in 0..1 + self.random.below(3) {
            let (from, level) = (self.random.below(heard.len()), self.any_level());
            let to = heard.len().min(from + 1 + self.random.below(30));
            heard[from..to].fill(level);
        }
        heard
    }

    fn noise(&mut self) -> Vec<u8> {
        let mut heard = Vec::new();
        for _ in 0..self.random.below(6) {
            let (level, ms) = (self.any_level(), 1 + self.random.below(60));
            heard.extend(vec![level; ms]);
        }
        heard
    }
}

/// Keys as a sender sends them.
fn typed(keys: &str) -> Vec<u8> {
    keys.chars()
        .flat_map(|key| [vec![key_number(key); KEY_LENGTH], vec![QUIET; KEY_GAP]].concat())
        .collect()
}

#[cfg(test)]
mod tests {
    use super::*;
    use reference::annex::dtmf_sends;
    use reference::fault::Fault;

    #[test]
    fn a_burst_is_its_preamble_and_its_codes() {
        for mode in Mode::ALL {
            let text = b"Too 599 E*@\r\n";
            let offers = [(0, text.to_vec())];
            let length = end_of(mode, &offers);
            let burst = [preamble(mode), signals(mode, &text_codes(mode, text))].concat();
            assert_eq!(sent(mode, &offers, length), burst);
            assert_eq!(sent(mode, &offers, length + 500)[length..], [QUIET; 500]);
        }
    }

    #[test]
    fn a_line_is_its_bursts_and_quiet_between_them() {
        for mode in Mode::ALL {
            let first = end_of(mode, &[(3, b"A1".to_vec())]);
            let offers =
                [(3, &b"A1"[..]), (first - 1, b"2"), (first, b""), (first + 400, b"3\x00")]
                    .map(|(at, text)| (at, text.to_vec()));
            let later = end_of(mode, &offers);
            let offers = [&offers[..], &[(later, b" E".to_vec())]].concat();
            let bursts = bursts_of(mode, &offers);
            assert_eq!(bursts.len(), 3);
            let mut line = vec![QUIET; end_of(mode, &offers) + 500];
            for burst in bursts {
                let signal = [preamble(mode), signals(mode, &burst.codes)].concat();
                line[burst.ms].copy_from_slice(&signal);
            }
            assert_eq!(sent(mode, &offers, line.len()), line);
        }
    }

    #[test]
    fn the_words_of_a_text_are_its_normal_form() {
        for mode in Mode::ALL {
            let text: Vec<u8> = (0..128).collect();
            let offers = [(0, text.clone())];
            let line = sent(mode, &offers, end_of(mode, &offers));
            let read: Vec<u8> = words(mode, &line).iter().map(|&(_, word)| word as u8).collect();
            assert_eq!(read, mode.alphabet().normal_list(&text));
        }
    }

    #[test]
    fn previews_tell_the_ms_that_are_left() {
        for mode in Mode::ALL {
            let text = b"Too 599 E*@\r\n";
            let end = end_of(mode, &[(0, text.to_vec())]);
            for ms in [0, 1, end / 2, end - 1, end] {
                let station = called(mode, &[(0, text.to_vec())], &vec![QUIET; ms]);
                assert_eq!(station.preview(b""), (SUCCESS, (end - ms) as u32));
                let more = [(0, text.to_vec()), (ms, b"A".to_vec())];
                assert_eq!(station.preview(b"A"), (SUCCESS, (end_of(mode, &more) - ms) as u32));
            }
        }
    }

    #[test]
    fn size_and_form() {
        for mode in Mode::ALL {
            let output = vectors(mode);
            let cases = |name| output.lines().filter(|line| line.starts_with(name)).count();
            assert!(cases("send ") + cases("hear ") > 60);
            assert_eq!(cases("preview "), cases("ms "));
            assert!(cases("preview ") > 30);
            assert!(output.lines().all(|line| line.len() <= WIDTH && line.is_ascii()));
            assert!(output.len() < 70_000);
            for fault in Fault::of_mode(mode) {
                assert!(output.contains(&format!(":{:X}", fault.word())), "{fault:?}");
            }
            assert_eq!(output, vectors(mode));
        }
    }

    #[test]
    fn the_text_of_dtmf_prefixes_uses_every_prefix_that_is_sent() {
        let prefix = |c: u8| dtmf_sends(c).map(|keys| keys[..keys.len() - 1].to_string());
        let mut all: Vec<String> = (0..128).filter_map(prefix).collect();
        let mut here: Vec<String> = EVERY_PREFIX.iter().filter_map(|&c| prefix(c)).collect();
        for list in [&mut all, &mut here] {
            list.sort();
            list.dedup();
        }
        assert_eq!(here, all);
    }
}
