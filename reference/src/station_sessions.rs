//! Compares the engine's station with the reference's in lists of random calls, side by side, and
//! what both send with the send model. Part of `differential`.

use crate::damaged_stations::{agree, damage, in_range};
use crate::engine;
use crate::met::{must_meet, must_meet_all};
use reference::annex::FIGURES;
use reference::answer::{
    CHARACTER, DURATION, LEVEL, MODE, SENT_SLICE, SPACE, STATE, SUCCESS, WORD_SLICE,
};
use reference::demand3::Entries;
use reference::fault::{Cause, Fault};
use reference::line::{codes, key_number, preamble, signal, text_codes, QUIET};
use reference::line::{KEYS, KEY_GAP, KEY_LENGTH};
use reference::mode::Mode;
use reference::random::Random;
use reference::send_model::{Part, SendModel};
use reference::station::{Ran, Station, MOST_MS, MOST_WAITING};
use std::process::exit;

/// Elements kept around a slice, to see writes outside it; no sent ms and no word has such a value.
const MARGIN: usize = 16;

/// What the lists must meet beside the answers, in some modes or in all.
#[derive(Clone, Copy)]
enum Thing {
    Bursts,
    BackToBack,
    OffersInABurst,
    OffersInTheLastMs,
    OffersBehindABurst,
    AllSpaceTaken,
    HeardInABurst,
    HeardInhibited,
    CodesAfterInhibition,
    Characters,
    Quiet,
    StopNotMark,
    OddParity,
    NoRow,
    LetterKey,
    DelToLetters,
    ShiftRepeated,
    OpensInLetters,
    OpensInFigures,
    TwoShiftCodes,
    PrefixOverABurst,
    Keys39,
    Keys40,
    RunsOf0,
    RunsOf1,
    RunsOf20,
    RunsOfMost,
}

const ALL: &[u8] = &[1, 2, 3, 4];
const BAUDOT: &[u8] = &[1, 2];
const DTMF: &[u8] = &[3];
const EDT: &[u8] = &[4];
const FRAMES: &[u8] = &[1, 2, 4];

const THINGS: [(Thing, &str, &[u8]); 27] = [
    (Thing::Bursts, "bursts", ALL),
    (Thing::BackToBack, "bursts right behind another", ALL),
    (Thing::OffersInABurst, "offers in a burst", ALL),
    (Thing::OffersInTheLastMs, "before its last ms", ALL),
    (Thing::OffersBehindABurst, "right behind it", ALL),
    (Thing::AllSpaceTaken, "256 waiting", ALL),
    (Thing::HeardInABurst, "signal in a burst", ALL),
    (Thing::HeardInhibited, "signal after it", ALL),
    (Thing::CodesAfterInhibition, "codes as inhibition ends", ALL),
    (Thing::Characters, "characters", ALL),
    (Thing::Quiet, "faults by quiet", FRAMES),
    (Thing::StopNotMark, "by a stop", FRAMES),
    (Thing::OddParity, "by parity", EDT),
    (Thing::NoRow, "faults by no row", DTMF),
    (Thing::LetterKey, "by A to D", DTMF),
    (Thing::DelToLetters, "DEL in figures", BAUDOT),
    (Thing::ShiftRepeated, "shift codes after 72", BAUDOT),
    (Thing::OpensInLetters, "later bursts in letters", BAUDOT),
    (Thing::OpensInFigures, "in figures", BAUDOT),
    (Thing::TwoShiftCodes, "two shift codes in a row", BAUDOT),
    (Thing::PrefixOverABurst, "prefix kept over a burst", DTMF),
    (Thing::Keys39, "keys of 39 ms", DTMF),
    (Thing::Keys40, "of 40", DTMF),
    (Thing::RunsOf0, "runs of 0 ms", ALL),
    (Thing::RunsOf1, "of 1", ALL),
    (Thing::RunsOf20, "of 20", ALL),
    (Thing::RunsOfMost, "of 4096", ALL),
];

/// What the lists of a mode have met.
#[derive(Default)]
struct Met {
    lists: u64,
    ms: u64,
    offers: [u64; 9],
    runs: [u64; 9],
    things: [u64; THINGS.len()],
}

impl Met {
    fn add(&mut self, thing: Thing) {
        self.things[thing as usize] += 1;
    }
}

/// A station on both sides, and its send model.
struct Session<'a> {
    mode: Mode,
    reference: Station,
    engine: engine::Station,
    model: SendModel,
    random: &'a mut Random,
    /// What is to be heard next.
    heard: Vec<u8>,
    /// The characters taken since the last shift code, and the last part that has ended.
    since_shift: usize,
    last_ended: Option<Part>,
    met: Met,
}

/// Lists of at least so many ms in each mode; gives back a summary, a line for each mode.
pub fn compare(random: &mut Random, ms: u64) -> String {
    let mut openings = [0; 3];
    for number in 0..=255 {
        opened(number);
        openings[usize::from(Station::open(number).0)] += 1;
    }
    let met = Mode::ALL.map(|mode| {
        let mut met = Met::default();
        while met.ms < ms {
            let (reference, engine) = opened(mode.number());
            let model = SendModel::fresh(mode);
            let heard = Vec::new();
            let (since_shift, last_ended) = (0, None);
            let mut session = Session {
                mode,
                reference,
                engine,
                model,
                random,
                heard,
                since_shift,
                last_ended,
                met,
            };
            session.list();
            met = session.met;
            met.lists += 1;
        }
        (mode, met)
    });
    let lines: Vec<_> = met.iter().map(|(mode, met)| summary(*mode, met)).collect();
    format!(
        "stations: no difference; openings {SUCCESS}: {}, {MODE}: {}\n{}",
        openings[usize::from(SUCCESS)],
        openings[usize::from(MODE)],
        lines.join("\n")
    )
}

fn summary(mode: Mode, met: &Met) -> String {
    let answers = |name: &str, counts: &[u64; 9], answers: &[u8]| {
        let all = answers.iter().map(|&answer| {
            let count = counts[usize::from(answer)];
            must_meet("station", mode, &format!("{name} answer {answer}"), count);
            format!("{answer}: {count}")
        });
        all.collect::<Vec<_>>().join(", ")
    };
    format!(
        "  mode {}: lists {}, ms {}; offers {}; runs {}; {}",
        mode.number(),
        met.lists,
        met.ms,
        answers("offer", &met.offers, &[SUCCESS, STATE, CHARACTER, SPACE]),
        answers("run", &met.runs, &[SUCCESS, STATE, DURATION, LEVEL, SENT_SLICE, WORD_SLICE]),
        must_meet_all("station", mode, &THINGS, |thing| met.things[thing as usize]),
    )
}

/// Opens both. A number that is none gives a fresh station of mode 1.
fn opened(number: u8) -> (Station, engine::Station) {
    let (wanted, reference) = Station::open(number);
    let (answer, engine) = engine::Station::open(number);
    let first = engine::Station::open(1).1;
    let good = answer == wanted
        && in_range(&engine)
        && if wanted == MODE { engine == first } else { engine.core.mode == number };
    if !good {
        println!("difference: opening mode {number}, answer {answer}, {engine:?}");
        exit(1);
    }
    (reference, engine)
}

impl Session<'_> {
    fn list(&mut self) {
        let length = self.met.ms + 2000 + self.random.below(25_000) as u64;
        while self.met.ms < length {
            match self.random.below(20) {
                0..=2 => {
                    let text = self.text();
                    self.offer(&text);
                }
                3 => self.refused_offer(),
                4 => self.refused_run(),
                5..=7 => self.end_burst(),
                8..=11 => self.end_inhibition(),
                12 => self.echo(),
                13 => self.fill_up(),
                _ => {
                    let ms = self.cut();
                    self.hear(ms);
                }
            }
        }
    }

    /// Runs both for some ms of what is to be heard next.
    fn hear(&mut self, ms: usize) {
        while self.heard.len() < ms {
            let piece = self.piece();
            self.heard.extend(piece);
        }
        let rest = self.heard.split_off(ms);
        let heard = std::mem::replace(&mut self.heard, rest);
        self.run_cut(&heard);
    }

    /// Runs both, in one call or in several.
    fn run_cut(&mut self, mut heard: &[u8]) {
        loop {
            let ms = match self.random.below(3) {
                0 => self.cut(),
                _ => MOST_MS,
            };
            let (now, later) = heard.split_at(ms.min(heard.len()));
            let (sent, words) =
                (self.random.pick(&[0, 0, 1, 20]), self.random.pick(&[0, 0, 1, 20]));
            self.run(now, now.len() + sent, now.len() + words);
            heard = later;
            if heard.is_empty() {
                return;
            }
        }
    }

    fn cut(&mut self) -> usize {
        match self.random.below(24) {
            0..=1 => 0,
            2..=4 => 1,
            5..=7 => 20,
            8..=12 => self.random.below(60),
            13..=21 => self.random.below(700),
            22 => MOST_MS,
            _ => self.random.below(MOST_MS + 1),
        }
    }

    /// Up to the last ms of the burst, or one less or more, hearing anything; then an offer.
    fn end_burst(&mut self) {
        if !self.model.in_burst() {
            self.hear(1);
        }
        let left = self.burst_left();
        if left > 0 {
            let ms = (left + self.random.pick(&[0, 0, 1])) - self.random.pick(&[0, 0, 1]);
            for _ in 0..ms / MOST_MS {
                self.hear(MOST_MS);
            }
            self.hear(ms % MOST_MS);
            let text = self.short_text();
            self.offer(&text);
        }
    }

    /// Up to the end of the inhibited ms, or a few less or more; then a code.
    fn end_inhibition(&mut self) {
        if self.model.in_burst() || self.model.waiting() > 0 || self.engine.core.inhibited == 0 {
            return;
        }
        let ms = usize::from(self.engine.core.inhibited) + self.random.pick(&[0, 0, 0, 1, 2]);
        let early = self.random.pick(&[0, 0, 1, 2, 39, 40]);
        self.hear(ms.saturating_sub(early));
        let code = self.code_signal();
        self.run_cut(&code);
        self.met.add(Thing::CodesAfterInhibition);
    }

    /// The station hears what it sends itself, somewhat later.
    fn echo(&mut self) {
        let (mut sent, mut words) = ([0; MOST_MS], [0; MOST_MS]);
        let ms = self.random.below(MOST_MS);
        let mut copy = self.reference.clone();
        copy.run(&[QUIET; MOST_MS][..ms], &mut sent, &mut words);
        let late = self.random.below(300);
        let heard = [&[QUIET; 300][..late], &sent[..ms]].concat();
        self.run_cut(&heard);
    }

    /// Offers as much as there is space for, or one more, perhaps among others that send nothing.
    fn fill_up(&mut self) {
        if self.random.one_in(12) {
            let space = MOST_WAITING - self.model.waiting();
            let number = space + self.random.pick(&[0, 0, 1]);
            let from = self.random.pick(&[&b"eTO5 9\n"[..], b"eTO \n", b"59 \n"]);
            let mut text: Vec<u8> = (0..number).map(|_| self.random.pick(from)).collect();
            if self.random.one_in(3) && self.mode.number() <= 2 {
                text.extend([0; 300]);
            }
            self.offer(&text);
        }
    }

    fn burst_left(&self) -> usize {
        let mut model = self.model.clone();
        (0..).take_while(|_| model.in_burst() && model.ms(QUIET).in_burst).count()
    }

    fn offer(&mut self, text: &[u8]) {
        let before = self.engine;
        let damaged = !in_range(&before);
        let wanted = if damaged { STATE } else { self.reference.offer(text) };
        let answer = self.engine.offer(text);
        let good = wanted == answer
            && if answer == SUCCESS { self.agree() } else { self.engine == before };
        if !good {
            println!("difference: station, offer {text:02X?}");
            println!("reference: answer {wanted}, {} waiting", self.reference.waiting());
            println!("engine: answer {answer}, {before:?}, then {:?}", self.engine);
            exit(1);
        }
        self.met.offers[usize::from(answer)] += 1;
        if answer == SUCCESS {
            self.met_offer(text, &before);
            self.model.offered(text);
        }
    }

    fn met_offer(&mut self, text: &[u8], before: &engine::Station) {
        if !text.is_empty() {
            if self.model.in_burst() {
                self.met.add(Thing::OffersInABurst);
                if self.burst_left() == 1 {
                    self.met.add(Thing::OffersInTheLastMs);
                }
            } else if before.core.inhibited == 300 {
                self.met.add(Thing::OffersBehindABurst);
            }
        }
        if usize::from(self.engine.core.waiting) == MOST_WAITING {
            self.met.add(Thing::AllSpaceTaken);
        }
        if before.core.reader.shift == FIGURES && self.engine.core.reader.shift != FIGURES {
            self.met.add(Thing::DelToLetters);
        }
    }

    /// Is the engine's station in range, and are its numbers the reference's?
    fn agree(&self) -> bool {
        in_range(&self.engine) && agree(&self.engine, &self.reference)
    }

    /// The same call on both sides, with slices of these lengths.
    fn run(&mut self, heard: &[u8], sent: usize, words: usize) {
        let before = self.engine;
        let sent_area: Vec<u8> =
            (0..sent + 2 * MARGIN).map(|i| 0x80 | (i as u8).wrapping_mul(37)).collect();
        let word_area: Vec<u32> = (0..words + 2 * MARGIN).map(|i| 0xF000_0000 | i as u32).collect();
        let (mut sent_wanted, mut words_wanted) = (sent_area.clone(), word_area.clone());
        let (mut sent_found, mut words_found) = (sent_area, word_area);
        let (sent_slice, word_slice) = (MARGIN..MARGIN + sent, MARGIN..MARGIN + words);
        let wanted = if in_range(&before) {
            let words = &mut words_wanted[word_slice.clone()];
            self.reference.run(heard, &mut sent_wanted[sent_slice.clone()], words)
        } else {
            Ran { answer: STATE, words: 0 }
        };
        let found =
            self.engine.run(heard, &mut sent_found[sent_slice], &mut words_found[word_slice]);
        let good = wanted == found
            && sent_wanted == sent_found
            && words_wanted == words_found
            && if found.answer == SUCCESS { self.agree() } else { self.engine == before };
        if !good {
            println!("difference: station, run of {heard:?}");
            println!("slices of {sent} and {words}; reference {wanted:?}, engine {found:?}");
            println!("engine: {before:?}, then {:?}", self.engine);
            if let Some(i) = (0..sent_found.len()).find(|&i| sent_wanted[i] != sent_found[i]) {
                let place = i as isize - MARGIN as isize;
                println!("sent[{place}]: {} and {}", sent_wanted[i], sent_found[i]);
            }
            if let Some(i) = (0..words_found.len()).find(|&i| words_wanted[i] != words_found[i]) {
                let place = i as isize - MARGIN as isize;
                println!("words[{place}]: {:08X} and {:08X}", words_wanted[i], words_found[i]);
            }
            exit(1);
        }
        self.met.runs[usize::from(found.answer)] += 1;
        if found.answer == SUCCESS {
            self.met.ms += heard.len() as u64;
            for &word in &words_found[MARGIN..MARGIN + found.words] {
                let fault = Fault::of_word(self.mode, word);
                self.met.add(match fault.map(|fault| fault.cause) {
                    None => Thing::Characters,
                    Some(Cause::Quiet) => Thing::Quiet,
                    Some(Cause::StopNotMark) => Thing::StopNotMark,
                    Some(Cause::OddParity) => Thing::OddParity,
                    Some(Cause::NoRow) => Thing::NoRow,
                    Some(Cause::LetterKey) => Thing::LetterKey,
                });
            }
            self.met_run(&before, heard, &sent_found[MARGIN..]);
        }
    }

    /// Goes along with the model, which must say each sent ms.
    fn met_run(&mut self, before: &engine::Station, heard: &[u8], sent: &[u8]) {
        match heard.len() {
            0 => self.met.add(Thing::RunsOf0),
            1 => self.met.add(Thing::RunsOf1),
            20 => self.met.add(Thing::RunsOf20),
            MOST_MS => self.met.add(Thing::RunsOfMost),
            _ => {}
        }
        let mut inhibited = usize::from(before.core.inhibited);
        let mut signal = (false, false);
        for (ms, (&level, &sent)) in heard.iter().zip(sent).enumerate() {
            let was_in_burst = self.model.in_burst();
            let said = self.model.ms(level);
            if said.sent != sent {
                println!(
                    "difference: station of mode {}, ms {ms} of {heard:?}",
                    self.mode.number()
                );
                println!("sent {sent}, the model says {}; {before:?}", said.sent);
                exit(1);
            }
            if said.in_burst && !was_in_burst {
                self.met.add(Thing::Bursts);
                if inhibited == 300 {
                    self.met.add(Thing::BackToBack);
                }
                match self.model.shift() {
                    Some(FIGURES) => self.met.add(Thing::OpensInFigures),
                    Some(_) => self.met.add(Thing::OpensInLetters),
                    None => {}
                }
                // The reader of a DTMF station keeps its prefix until a digit comes.
                if ms == 0 && before.core.reader.prefix != 0 && self.engine.core.reader.prefix != 0
                {
                    self.met.add(Thing::PrefixOverABurst);
                }
            }
            self.since_shift += usize::from(said.taken.is_some());
            if said.ended == Some(Part::ShiftCode) {
                match self.last_ended {
                    Some(Part::ShiftCode) => self.met.add(Thing::TwoShiftCodes),
                    Some(Part::OwnCode) if self.since_shift == 72 => {
                        self.met.add(Thing::ShiftRepeated)
                    }
                    _ => {}
                }
                self.since_shift = 0;
            }
            self.last_ended = said.ended.or(self.last_ended);
            signal.0 |= said.in_burst && level != QUIET;
            signal.1 |= !said.in_burst && inhibited > 0 && level != QUIET;
            inhibited = if said.in_burst { 300 } else { inhibited.saturating_sub(1) };
        }
        if signal.0 {
            self.met.add(Thing::HeardInABurst);
        }
        if signal.1 {
            self.met.add(Thing::HeardInhibited);
        }
    }

    /// An offer that is refused, for one reason or several.
    fn refused_offer(&mut self) {
        let reasons = self.random.pick(&[1, 1, 2, 2, 4, 4, 3, 5, 6, 7]);
        let station = self.engine;
        if reasons & 1 != 0 {
            damage(self.random, &mut self.engine);
        }
        let mut text = if reasons & 4 != 0 {
            vec![b'e'; MOST_WAITING + 1 - self.model.waiting() + self.random.pick(&[0, 0, 1, 700])]
        } else {
            self.short_text()
        };
        if reasons & 2 != 0 {
            let place = self.random.below(text.len() + 1);
            text.insert(place, self.random.pick(&[0x80, 0x81, 0xC5, 0xFF]));
        }
        self.offer(&text);
        if reasons & 1 != 0 {
            self.engine = station;
        }
    }

    /// A run that is refused, for one reason or several.
    fn refused_run(&mut self) {
        let reasons = self.random.pick(&[1, 1, 2, 2, 4, 4, 8, 8, 16, 16, 3, 6, 12, 24, 28, 30, 31]);
        let station = self.engine;
        if reasons & 1 != 0 {
            damage(self.random, &mut self.engine);
        }
        let mut heard = self.piece();
        if reasons & 2 != 0 {
            let length = MOST_MS + 1 + self.random.pick(&[0, 0, 1, 5000]);
            heard.resize(length, QUIET);
        } else {
            heard.truncate(MOST_MS);
        }
        if reasons & 4 != 0 {
            let place = self.random.below(heard.len());
            let highest = self.mode.highest_level();
            heard[place] = self.random.pick(&[highest + 1, highest + 2, 127, 128, 255]);
        }
        let length = heard.len();
        let short = |random: &mut Random| random.pick(&[0, length / 2, length - 1]);
        let sent = if reasons & 8 != 0 { short(self.random) } else { length };
        let words = if reasons & 16 != 0 { short(self.random) } else { length };
        self.run(&heard, sent, words);
        if reasons & 1 != 0 {
            self.engine = station;
        }
    }

    /// A text to be offered; a long one of one shift now and then.
    fn text(&mut self) -> Vec<u8> {
        match self.random.below(48) {
            0 => {
                let from = self.random.pick(&[&b"E "[..], b"TOO", b"599 \r\n"]);
                let length = self.random.below(120);
                (0..length).map(|_| self.random.pick(from)).collect()
            }
            1..=5 => {
                let length = self.random.below(12);
                self.random.uniform(length, 128)
            }
            6..=10 => self.random.pick(&[&b""[..], b"\x00", b"\x7F", b"\x7F", b"A\x7F1"]).to_vec(),
            11 => {
                let length = self.random.below(80);
                self.random.english(length)
            }
            _ => self.short_text(),
        }
    }

    fn short_text(&mut self) -> Vec<u8> {
        let length = 1 + self.random.below(4);
        (0..length).map(|_| self.random.pick(b"TOO599 eAb1:?,(*\n")).collect()
    }

    fn level(&mut self) -> u8 {
        self.random.below(usize::from(self.mode.highest_level()) + 1) as u8
    }

    /// Some ms to be heard: quiet, runs of a level, a burst, one that breaks off, codes, damaged
    /// ones, or noise.
    fn piece(&mut self) -> Vec<u8> {
        match self.random.below(9) {
            0 => vec![QUIET; 1 + self.random.below(400)],
            1 => vec![QUIET; self.random.pick(&[39, 40, 41, 299, 300, 301])],
            2 => {
                let runs = 1 + self.random.below(8);
                (0..runs).flat_map(|_| vec![self.level(); 1 + self.random.below(120)]).collect()
            }
            3..=4 => {
                let mut burst = preamble(self.mode);
                for code in text_codes(self.mode, &self.short_text()) {
                    burst.extend(signal(self.mode, &code));
                }
                if self.random.one_in(3) {
                    burst.truncate(1 + self.random.below(burst.len()));
                }
                burst
            }
            5 if self.mode == Mode::Dtmf => self.keys(),
            5 => vec![self.level(); 1 + self.random.below(600)],
            6 => self.code_signal(),
            7 => {
                let mut code = self.code_signal();
                for _ in 0..1 + self.random.below(3) {
                    let at = self.random.below(code.len());
                    let end = code.len().min(at + 1 + self.random.below(12));
                    let level = self.level();
                    code[at..end].fill(level);
                }
                code
            }
            _ => (0..1 + self.random.below(100)).map(|_| self.level()).collect(),
        }
    }

    fn code_signal(&mut self) -> Vec<u8> {
        let all = codes(self.mode);
        signal(self.mode, &all[self.random.below(all.len())])
    }

    /// Keys of any length and gaps of any length, many of them * and #.
    fn keys(&mut self) -> Vec<u8> {
        let mut heard = Vec::new();
        for _ in 0..1 + self.random.below(6) {
            let key = match self.random.below(3) {
                0 => key_number(self.random.pick(&['*', '#'])),
                _ => 1 + self.random.below(KEYS.len()) as u8,
            };
            let ms = self.random.pick(&[1, 38, 39, 40, 41, KEY_LENGTH, KEY_LENGTH, 200]);
            match ms {
                39 => self.met.add(Thing::Keys39),
                40 => self.met.add(Thing::Keys40),
                _ => {}
            }
            heard.extend(vec![key; ms]);
            heard.extend(vec![QUIET; self.random.pick(&[0, 1, 39, 40, 41, KEY_GAP, KEY_GAP])]);
        }
        heard
    }
}
