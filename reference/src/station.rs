//! A station of document 01: characters wait to be sent, bursts go out when the line is free, and
//! what the other end sends is read. By request 101 of document 02 a Baudot burst opens with a shift
//! code. A run goes over its ms in stretches: a run of one level in a burst, the inhibited ms after
//! it, or ms to listen to. A preview (request 106) sends with a copy, ms by ms, and counts. A run may be
//! given a report, which then gains the edges of its frames (request 111).

use crate::annex::{dtmf_sends, Sending, BAUDOT_SENDS, EITHER, FIGURES, LETTERS};
use crate::annex::{FIGURES_CODE, LETTERS_CODE};
use crate::answer::{
    CHARACTER, DURATION, EDGES, LEVEL, MODE, SENT_SLICE, SPACE, STATE, SUCCESS, WORD_SLICE,
};
use crate::baudot::{FRESH, REPEAT};
use crate::drift::{Frame, Report, Waiting, MOST_EDGES};
use crate::line::{elements, key_number, Code, KEY_GAP, KEY_LENGTH, MARK, QUIET};
use crate::mode::Mode;
use crate::normal::Alphabet;
use crate::reader::{FrameReader, Hear, Place, Reader};
use std::sync::LazyLock;

/// The most characters that wait.
pub const MOST_WAITING: usize = 256;

/// The most ms of a run.
pub const MOST_MS: usize = 4096;

/// The ms without signal that make the line free.
pub const FREE: u16 = 300;

/// The ms for which the receiver stays inhibited after a burst.
pub const INHIBITED: u16 = 300;

/// What a run gives back: the answer, and how many words it wrote.
#[derive(Clone, Copy, Debug, PartialEq, Eq)]
pub struct Ran {
    pub answer: u8,
    pub words: usize,
}

/// The keys of a DTMF code, four bits for each, the first one lowest.
fn packed(keys: &str) -> u16 {
    keys.chars().rev().fold(0, |packed, key| packed << 4 | u16::from(key_number(key)))
}

/// The keys that a character sends; 0 if nothing is sent.
static KEYS_SENT: LazyLock<[u16; 128]> = LazyLock::new(|| {
    std::array::from_fn(|character| packed(dtmf_sends(character as u8).unwrap_or("")))
});

static BAUDOT_SENT: [Option<Sending>; 128] = BAUDOT_SENDS;

/// Which bytes are characters that send something.
type Sends = [bool; 256];

static SENDS: LazyLock<[Sends; 3]> = LazyLock::new(|| {
    let sends = |sends: fn(usize) -> bool| std::array::from_fn(|c| c < 128 && sends(c));
    [sends(|c| BAUDOT_SENT[c].is_some()), sends(|c| KEYS_SENT[c] != 0), sends(|_| true)]
});

fn sends(mode: Mode) -> &'static Sends {
    &SENDS[mode.alphabet() as usize]
}

/// The characters that wait, in a ring.
#[derive(Clone, Copy, Debug, PartialEq, Eq)]
struct Queue {
    ring: [u8; MOST_WAITING],
    front: u8,
    waiting: u16,
}

impl Queue {
    fn push(&mut self, character: u8) {
        let place = usize::from(self.front) + usize::from(self.waiting);
        self.ring[place % MOST_WAITING] = character;
        self.waiting += 1;
    }

    fn front(&self) -> u8 {
        self.ring[usize::from(self.front)]
    }

    fn take(&mut self) {
        self.front = self.front.wrapping_add(1);
        self.waiting -= 1;
    }

    /// Does every waiting character send something? At most 256 wait.
    fn all(&self, sends: &Sends) -> bool {
        let front = usize::from(self.front);
        let end = front + usize::from(self.waiting);
        let good = |part: &[u8]| part.iter().all(|&character| sends[usize::from(character)]);
        good(&self.ring[front..end.min(MOST_WAITING)])
            && good(&self.ring[..end.saturating_sub(MOST_WAITING)])
    }
}

/// What of a preamble or a code is still to be sent: a level for some ms, then the rest.
#[derive(Clone, Copy, Debug, PartialEq, Eq)]
struct Line {
    level: u8,
    left: u16,
    /// In frames the elements behind this one, the next lowest, below a 1; in DTMF the keys behind
    /// this one, four bits for each.
    rest: u16,
}

/// What is on the line: nothing, or a part of a burst.
pub enum Part {
    Idle,
    Preamble,
    Code(Code),
}

/// The rest of a frame, or of a preamble, behind which nothing follows.
const NO_ELEMENT: u16 = 1;

/// All elements of a frame.
fn whole_frame(mode: Mode, code: u8) -> u16 {
    elements(mode, code) | NO_ELEMENT << mode.elements()
}

impl Line {
    /// A preamble, and behind it the frame of a code if there is one.
    fn preamble(mode: Mode, code: Option<u8>) -> Line {
        let rest = code.map_or(NO_ELEMENT, |code| whole_frame(mode, code));
        Line { level: MARK, left: mode.preamble(), rest }
    }

    fn frame(mode: Mode, code: u8) -> Line {
        let mut line = Line { level: QUIET, left: 0, rest: whole_frame(mode, code) };
        line.next_element(mode);
        if mode == Mode::Edt {
            // 100 ms are not eleven times 9.
            line.left += 1;
        }
        line
    }

    fn keys(packed: u16) -> Line {
        let mut line = Line { level: QUIET, left: 0, rest: packed };
        line.next_key();
        line
    }

    /// Goes on to the next level; false if nothing follows.
    fn next(&mut self, mode: Mode) -> bool {
        if mode == Mode::Dtmf {
            self.next_key()
        } else {
            self.next_element(mode)
        }
    }

    fn next_element(&mut self, mode: Mode) -> bool {
        if self.rest <= NO_ELEMENT {
            return false;
        }
        self.level = 2 - (self.rest & 1) as u8;
        self.rest >>= 1;
        let last = self.rest == NO_ELEMENT;
        self.left = match mode {
            Mode::Baudot45 if last => 33,
            Mode::Baudot45 => 22,
            Mode::Baudot50 if last => 30,
            Mode::Baudot50 => 20,
            _ => 9,
        };
        true
    }

    fn next_key(&mut self) -> bool {
        if self.level != QUIET {
            (self.level, self.left) = (QUIET, KEY_GAP as u16);
        } else if self.rest != 0 {
            (self.level, self.left) = ((self.rest & 15) as u8, KEY_LENGTH as u16);
            self.rest >>= 4;
        } else {
            return false;
        }
        true
    }
}

/// The shift and the count of a sender. While the preamble is on the line they are already those
/// behind the shift code that follows it.
#[derive(Clone, Copy, Debug, PartialEq, Eq)]
struct Sender {
    shift: u8,
    count: u8,
}

impl Sender {
    /// What opens a burst: the preamble; in Baudot the code of the shift in force goes with it, or
    /// that of letters if the sender is fresh.
    fn opening(&mut self, mode: Mode) -> Line {
        let code = (mode.alphabet() == Alphabet::Baudot).then(|| match self.shift {
            FRESH => self.select(LETTERS),
            shift => self.select(shift),
        });
        Line::preamble(mode, code)
    }

    /// Goes over to a shift, and gives back the code for it.
    fn select(&mut self, shift: u8) -> u8 {
        *self = Sender { shift, count: 0 };
        if shift == LETTERS {
            LETTERS_CODE
        } else {
            FIGURES_CODE
        }
    }

    /// What goes out next for a character, and whether it is the character's own code.
    fn code(&mut self, mode: Mode, character: u8) -> (Line, bool) {
        let character = usize::from(character & 0x7F);
        match mode.alphabet() {
            Alphabet::Baudot => {
                let Sending { shifts, code } =
                    BAUDOT_SENT[character].unwrap_or(Sending { shifts: EITHER, code: 0 });
                match self.shift_code(shifts) {
                    Some(code) => (Line::frame(mode, code), false),
                    None => {
                        self.count += 1;
                        (Line::frame(mode, code), true)
                    }
                }
            }
            Alphabet::Dtmf => (Line::keys(KEYS_SENT[character]), true),
            Alphabet::Edt => (Line::frame(mode, character as u8), true),
        }
    }

    /// The shift code that must come first, if any. In a burst only a forged sender is fresh.
    fn shift_code(&mut self, shifts: u8) -> Option<u8> {
        match self.shift {
            FRESH => Some(self.select(LETTERS)),
            shift if shifts & shift == 0 => Some(self.select(shifts)),
            shift if self.count == REPEAT => Some(self.select(shift)),
            _ => None,
        }
    }
}

#[derive(Clone, Debug, PartialEq, Eq)]
pub struct Station {
    mode: Mode,
    in_burst: bool,
    /// The ms in a row without signal, as far as they matter.
    silence: u16,
    /// The inhibited ms still to come after a burst.
    inhibited: u16,
    sender: Sender,
    line: Line,
    reader: Reader,
    frame: Frame,
    queue: Queue,
}

/// What a run gives beside the sent ms: its words from the front, and the edges that count.
struct Given<'a> {
    words: &'a mut [u32],
    count: usize,
    edges: Report,
}

impl Given<'_> {
    /// Reads all ms.
    fn read(&mut self, reader: &mut impl Hear, heard: &[u8]) {
        for &level in heard {
            self.word(reader.hear(level));
        }
    }

    /// Reads all ms of Baudot, and keeps the frame.
    fn read_baudot(
        &mut self,
        mode: Mode,
        reader: &mut FrameReader,
        frame: &mut Frame,
        heard: &[u8],
    ) {
        for &level in heard {
            self.word(reader.hear(level));
            if let Some(edges) = frame.hear(mode, level, reader.place()) {
                self.edges = self.edges.joined(edges);
            }
        }
    }

    #[inline]
    fn word(&mut self, word: Option<u32>) {
        if let Some(word) = word {
            self.words[self.count] = word;
            self.count += 1;
        }
    }
}

impl Station {
    pub fn fresh(mode: Mode) -> Station {
        Station {
            mode,
            in_burst: false,
            silence: FREE,
            inhibited: 0,
            sender: Sender { shift: FRESH, count: 0 },
            line: Line { level: QUIET, left: 0, rest: 0 },
            reader: Reader::fresh(mode),
            frame: Frame::default(),
            queue: Queue { ring: [0; MOST_WAITING], front: 0, waiting: 0 },
        }
    }

    /// A station that no list of calls need lead to: its silence and inhibited ms, its shift and
    /// count, the part on the line with the ms of it that are sent, and those waiting. The reader
    /// is fresh.
    pub fn forged(
        mode: Mode,
        [silence, inhibited]: [u16; 2],
        [shift, count]: [u8; 2],
        part: &Part,
        ms_sent: u16,
        waiting: &[u8],
    ) -> Station {
        let mut station = Station::fresh(mode);
        let mut sender = Sender { shift, count };
        let mut line = match part {
            Part::Idle => station.line,
            Part::Preamble => sender.opening(mode),
            Part::Code(Code::Keys(keys)) => Line::keys(packed(keys)),
            Part::Code(Code::FiveBits(code) | Code::SevenBits(code)) => Line::frame(mode, *code),
        };
        for _ in 0..ms_sent {
            line.left -= 1;
            if line.left == 0 {
                line.next(mode);
            }
        }
        waiting.iter().for_each(|&character| station.queue.push(character));
        let in_burst = !matches!(part, Part::Idle);
        Station { in_burst, silence, inhibited, sender, line, ..station }
    }

    /// The same with a Baudot reader at a place, with the bits sampled so far and in a shift.
    pub fn with_reader(self, place: Place, bits: u8, shift: u8) -> Station {
        Station { reader: Reader::baudot(self.mode, place, bits, shift), ..self }
    }

    /// The same with these edges waiting.
    pub fn with_edges(self, waiting: Waiting) -> Station {
        let ms = match self.reader.baudot_parts() {
            Some((Place::Frame(ms), _, _)) => ms,
            _ => 0,
        };
        Station { frame: Frame::forged(ms, waiting), ..self }
    }

    /// A fresh station of a mode given by its number; of mode 1 if there is no such mode.
    pub fn open(mode: u8) -> (u8, Station) {
        match Mode::from_number(mode) {
            Some(mode) => (SUCCESS, Station::fresh(mode)),
            None => (MODE, Station::fresh(Mode::Baudot45)),
        }
    }

    /// How many characters wait.
    pub fn waiting(&self) -> usize {
        usize::from(self.queue.waiting)
    }

    /// Outside a burst: its silence and inhibited ms, its shift and count. None in a burst.
    pub fn between_bursts(&self) -> Option<([u16; 2], [u8; 2])> {
        let Station { silence, inhibited, sender, .. } = *self;
        (!self.in_burst).then_some(([silence, inhibited], [sender.shift, sender.count]))
    }

    /// Those waiting, the front one first.
    pub fn text(&self) -> Vec<u8> {
        let places = (0..self.waiting()).map(|place| usize::from(self.queue.front) + place);
        places.map(|place| self.queue.ring[place % MOST_WAITING]).collect()
    }

    /// Of a Baudot station its reader's place, the bits sampled so far and the shift.
    pub fn baudot_reader(&self) -> Option<(Place, u8, u8)> {
        self.reader.baudot_parts()
    }

    /// The edges that wait.
    pub fn edges(&self) -> Waiting {
        self.frame.waiting(self.mode)
    }

    /// Question 1.
    pub fn in_range(&self) -> bool {
        let Station { mode, silence, inhibited, sender, line, reader, frame, queue, .. } = self;
        usize::from(queue.waiting) <= MOST_WAITING
            && queue.all(sends(*mode))
            && *silence <= FREE
            && *inhibited <= INHIBITED
            && sender.shift <= FIGURES
            && sender.count <= REPEAT
            && line.level <= mode.highest_level()
            && line.left <= mode.preamble().max(KEY_LENGTH as u16)
            && reader.in_range()
            && frame.in_range(*mode)
    }

    /// Puts the characters of a text that send something behind those waiting.
    pub fn offer(&mut self, text: &[u8]) -> u8 {
        if !self.in_range() {
            return STATE;
        }
        if !text.is_ascii() {
            return CHARACTER;
        }
        let sends = sends(self.mode);
        let some = text.iter().copied().filter(|&character| sends[usize::from(character)]);
        if self.waiting() + some.clone().count() > MOST_WAITING {
            return SPACE;
        }
        some.for_each(|character| self.queue.push(character));
        if self.mode.alphabet() == Alphabet::Baudot && text.contains(&0x7F) {
            self.reader.to_letters();
        }
        SUCCESS
    }

    /// Hears some ms. Writes as many sent ms, and the words from the front.
    #[inline(never)] // `bench` counts its instructions by its name
    pub fn run(&mut self, heard: &[u8], sent: &mut [u8], words: &mut [u32]) -> Ran {
        match self.refuses(heard, sent.len(), words.len(), &Report::default()) {
            Some(answer) => Ran { answer, words: 0 },
            None => Ran { answer: SUCCESS, words: self.go(heard, sent, words).0 },
        }
    }

    /// A run whose edges go into a report. The last question is whether that has space for them.
    #[inline(never)] // as `run`
    pub fn run_drift(
        &mut self,
        heard: &[u8],
        sent: &mut [u8],
        words: &mut [u32],
        report: &mut Report,
    ) -> Ran {
        let refusal = |answer| Ran { answer, words: 0 };
        if let Some(answer) = self.refuses(heard, sent.len(), words.len(), report) {
            return refusal(answer);
        }
        if self.passes(heard, report) {
            return refusal(EDGES);
        }
        let (words, edges) = self.go(heard, sent, words);
        *report = report.joined(edges);
        Ran { answer: SUCCESS, words }
    }

    /// Questions 1 and 5 to 8 of a run.
    fn refuses(&self, heard: &[u8], sent: usize, words: usize, report: &Report) -> Option<u8> {
        let highest = self.mode.highest_level();
        let too_high = || heard.iter().fold(0, |most, &level| level.max(most)) > highest;
        if !self.in_range() || !report.in_range() {
            Some(STATE)
        } else if heard.len() > MOST_MS {
            Some(DURATION)
        } else if too_high() {
            Some(LEVEL)
        } else if sent < heard.len() {
            Some(SENT_SLICE)
        } else {
            (words < heard.len()).then_some(WORD_SLICE)
        }
    }

    /// Would a report pass the most edges? If it may, a copy goes over the ms first.
    fn passes(&self, heard: &[u8], report: &Report) -> bool {
        let space = (MOST_EDGES - report.edges) as usize;
        if self.frame.most_edges() + heard.len() <= space {
            return false;
        }
        let (mut sent, mut words) = (vec![QUIET; heard.len()], vec![0; heard.len()]);
        self.clone().go(heard, &mut sent, &mut words).1.edges as usize > space
    }

    /// Goes over some ms, however many; gives back how many words there are, and the edges that count.
    fn go(&mut self, heard: &[u8], sent: &mut [u8], words: &mut [u32]) -> (usize, Report) {
        let mut given = Given { words, count: 0, edges: Report::default() };
        let (mut heard, mut sent) = (heard, &mut sent[..heard.len()]);
        while !heard.is_empty() {
            if !self.in_burst && self.queue.waiting > 0 && self.silence >= FREE {
                self.in_burst = true;
                self.line = self.sender.opening(self.mode);
            }
            let ms = if self.in_burst {
                self.send(sent)
            } else if self.inhibited > 0 {
                self.stay_inhibited(sent)
            } else {
                self.listen(heard, sent, &mut given)
            };
            heard = &heard[ms..];
            sent = &mut sent[ms..];
        }
        (given.count, given.edges)
    }

    /// Does nothing wait, and is it in no burst?
    pub fn is_idle(&self) -> bool {
        self.waiting() == 0 && !self.in_burst
    }

    /// The answer of an offer of the text, and after how many ms of quiet the station would be idle
    /// behind it; 0 ms if it is refused.
    pub fn preview(&self, text: &[u8]) -> (u8, u32) {
        let mut copy = self.clone();
        let answer = copy.offer(text);
        if answer != SUCCESS {
            return (answer, 0);
        }
        let mut ms = 0;
        while !copy.is_idle() {
            copy.go(&[QUIET], &mut [QUIET], &mut [0]);
            ms += 1;
        }
        (SUCCESS, ms)
    }

    /// Sends up to the end of the slice or of the burst; gives back how many ms.
    fn send(&mut self, sent: &mut [u8]) -> usize {
        let mut done = 0;
        while done < sent.len() {
            if self.line.left == 0 && self.queue.waiting == 0 {
                // No list of calls leads here. The part is over: a quiet ms, and the burst ends.
                sent[done] = QUIET;
                done += 1;
                self.end_burst();
                break;
            }
            if self.line.left == 0 {
                self.begin_code();
            }
            let ms = usize::from(self.line.left).min(sent.len() - done);
            sent[done..done + ms].fill(self.line.level);
            self.line.left -= ms as u16;
            done += ms;
            if self.line.left == 0 && !self.line.next(self.mode) && self.queue.waiting == 0 {
                self.end_burst();
                break;
            }
        }
        self.silence = FREE.min(self.silence.saturating_add(done as u16));
        self.do_not_read(done);
        done
    }

    fn end_burst(&mut self) {
        self.in_burst = false;
        self.inhibited = INHIBITED;
    }

    /// Begins the code that the front character wants next, and takes it with its own.
    fn begin_code(&mut self) {
        let own;
        (self.line, own) = self.sender.code(self.mode, self.queue.front());
        if own {
            self.queue.take();
        }
    }

    /// Inhibited ms outside a burst; gives back how many.
    fn stay_inhibited(&mut self, sent: &mut [u8]) -> usize {
        let mut ms = usize::from(self.inhibited).min(sent.len());
        if self.queue.waiting > 0 {
            ms = ms.min(usize::from(FREE - self.silence));
        }
        sent[..ms].fill(QUIET);
        self.inhibited -= ms as u16;
        self.silence = FREE.min(self.silence + ms as u16);
        self.do_not_read(ms);
        ms
    }

    /// Some inhibited ms, at least one. They drop a frame.
    fn do_not_read(&mut self, ms: usize) {
        self.reader.inhibited_for(ms);
        self.frame.end();
    }

    /// Listens to all ms, or until a burst may begin; gives back how many.
    fn listen(&mut self, heard: &[u8], sent: &mut [u8], given: &mut Given) -> usize {
        let ms = if self.queue.waiting > 0 { free_after(self.silence, heard) } else { heard.len() };
        let heard = &heard[..ms];
        match &mut self.reader {
            Reader::Frames(reader) if self.mode.alphabet() == Alphabet::Baudot => {
                given.read_baudot(self.mode, reader, &mut self.frame, heard)
            }
            Reader::Frames(reader) => given.read(reader, heard),
            Reader::Keys(reader) => given.read(reader, heard),
        }
        sent[..ms].fill(QUIET);
        self.silence = silence_after(self.silence, heard);
        ms
    }
}

/// After how many of the ms the line is free; all of them if it does not become so.
fn free_after(mut silence: u16, heard: &[u8]) -> usize {
    for (ms, &level) in heard.iter().enumerate() {
        silence = if level == QUIET { silence + 1 } else { 0 };
        if silence >= FREE {
            return ms + 1;
        }
    }
    heard.len()
}

/// The silence after some heard ms.
fn silence_after(silence: u16, heard: &[u8]) -> u16 {
    let last = heard.len().saturating_sub(usize::from(FREE));
    match heard[last..].iter().rposition(|&level| level != QUIET) {
        Some(signal) => (heard.len() - last - signal - 1) as u16,
        None => FREE.min(silence.saturating_add((heard.len() - last) as u16)),
    }
}

#[cfg(test)]
mod tests {
    use super::*;
    use crate::line::SPACE as SPACE_LEVEL;
    use crate::line::{burst_codes, codes, preamble, runs, signal, text_codes, Code};

    /// Runs a list of heard ms in calls of at most 4,096; gives back what was sent and the words.
    fn hears(station: &mut Station, heard: &[u8]) -> (Vec<u8>, Vec<u32>) {
        let (mut all_sent, mut all_words) = (Vec::new(), Vec::new());
        for heard in heard.chunks(MOST_MS) {
            let (mut sent, mut words) = ([9; MOST_MS], [9; MOST_MS]);
            let ran = station.run(heard, &mut sent, &mut words);
            assert_eq!(ran.answer, SUCCESS);
            assert!(sent[heard.len()..].iter().all(|&level| level == 9));
            assert!(words[ran.words..].iter().all(|&word| word == 9));
            all_sent.extend(&sent[..heard.len()]);
            all_words.extend(&words[..ran.words]);
        }
        (all_sent, all_words)
    }

    fn quiet(station: &mut Station, ms: usize) -> Vec<u8> {
        hears(station, &vec![QUIET; ms]).0
    }

    /// A burst of a fresh sender.
    fn burst(mode: Mode, text: &[u8]) -> Vec<u8> {
        burst_from(mode, FRESH, text)
    }

    /// A burst of a sender of this shift.
    fn burst_from(mode: Mode, shift: u8, text: &[u8]) -> Vec<u8> {
        let mut burst = preamble(mode);
        let (codes, _) = burst_codes(mode, shift, text);
        codes.iter().for_each(|code| burst.extend(signal(mode, code)));
        burst
    }

    /// A station of the mode that has been offered a text.
    fn offered(mode: Mode, text: &[u8]) -> Station {
        let mut station = Station::fresh(mode);
        assert_eq!(station.offer(text), SUCCESS);
        station
    }

    #[test]
    fn opening() {
        for mode in Mode::ALL {
            assert_eq!(Station::open(mode.number()), (SUCCESS, Station::fresh(mode)));
            assert!(Station::fresh(mode).in_range());
        }
        for number in [0, 5, 255] {
            assert_eq!(Station::open(number), (MODE, Station::fresh(Mode::Baudot45)));
        }
    }

    #[test]
    fn up_to_256_wait() {
        for mode in Mode::ALL {
            let full = offered(mode, &[b'e'; 256]);
            assert_eq!(full.waiting(), 256);
            let mut fresh = Station::fresh(mode);
            assert_eq!(fresh.offer(&[b'e'; 257]), SPACE);
            assert_eq!(fresh, Station::fresh(mode));
            let mut station = full.clone();
            assert_eq!(station.offer(b"e"), SPACE);
            assert_eq!(station, full);
            assert_eq!(station.offer(b""), SUCCESS);
            assert_eq!(station, full);
        }
        // What sends nothing does not wait.
        let mut station = offered(Mode::Baudot45, &[0; 1000]);
        assert_eq!(station, Station::fresh(Mode::Baudot45));
        let text = [[0; 300], [b'E'; 300]].concat();
        assert_eq!(station.offer(&text[..556]), SUCCESS);
        assert_eq!(station.waiting(), 256);
        assert_eq!(station.offer(b"\x00\x7F"), SUCCESS);
    }

    #[test]
    fn the_burst_of_a_fresh_station() {
        for mode in Mode::ALL {
            let text = b"Too 599 E*@";
            let mut station = offered(mode, text);
            let wanted = burst(mode, text);
            let sent = quiet(&mut station, wanted.len() + 1000);
            assert_eq!(sent[..wanted.len()], wanted);
            assert!(sent[wanted.len()..].iter().all(|&level| level == QUIET));
            assert_eq!(station.waiting(), 0);
        }
    }

    #[test]
    fn the_codes_of_a_first_burst_are_those_of_the_bare_conversion() {
        let text: Vec<u8> = (0..250).map(|i| if i % 90 < 80 { b'E' } else { b'9' }).collect();
        let mut wanted = preamble(Mode::Baudot50);
        for code in text_codes(Mode::Baudot50, &text) {
            wanted.extend(signal(Mode::Baudot50, &code));
        }
        let sent = quiet(&mut offered(Mode::Baudot50, &text), wanted.len());
        assert_eq!(sent, wanted);
    }

    #[test]
    fn characters_keep_their_order_over_more_than_256() {
        let text: Vec<u8> = (0..700).map(|i| (i % 128) as u8).collect();
        for mode in [Mode::Dtmf, Mode::Edt] {
            let wanted = burst(mode, &text);
            let (mut station, mut sent, mut offered) = (Station::fresh(mode), Vec::new(), 0);
            while sent.len() < wanted.len() {
                while offered < 700 && station.offer(&text[offered..][..35]) == SUCCESS {
                    offered += 35;
                }
                let ms = (wanted.len() - sent.len()).min(1000);
                sent.extend(quiet(&mut station, ms));
            }
            assert_eq!(sent, wanted);
            assert_eq!(station.waiting(), 0);
        }
    }

    #[test]
    fn a_character_is_taken_at_the_first_ms_of_its_own_code() {
        // The preamble and 11111 come first; then with 1 comes 11011.
        let mut station = offered(Mode::Baudot45, b"E1");
        for (ms, waiting) in [(150 + 165, 2), (1, 1), (164 + 165, 1), (1, 0)] {
            quiet(&mut station, ms);
            assert_eq!(station.waiting(), waiting);
        }
        // In DTMF the key of the prefix belongs to the code.
        let mut station = offered(Mode::Dtmf, b":");
        quiet(&mut station, 1);
        assert_eq!(station.waiting(), 0);
        let mut station = offered(Mode::Edt, b"AA");
        for (ms, waiting) in [(300, 2), (1, 1), (99, 1), (1, 0)] {
            quiet(&mut station, ms);
            assert_eq!(station.waiting(), waiting);
        }
    }

    #[test]
    fn an_offer_before_the_last_ms_of_a_burst_goes_on_without_gap() {
        for mode in Mode::ALL {
            let (both, first) = (burst(mode, b"EE"), burst(mode, b"E"));
            let mut station = offered(mode, b"E");
            let mut sent = quiet(&mut station, first.len() - 1);
            assert_eq!(station.offer(b"E"), SUCCESS);
            sent.extend(quiet(&mut station, both.len() - sent.len()));
            assert_eq!(sent, both);
        }
    }

    #[test]
    fn an_offer_after_the_last_ms_of_a_burst_needs_a_new_one() {
        for mode in Mode::ALL {
            let first = burst(mode, b"E");
            let mut station = offered(mode, b"E");
            let mut sent = quiet(&mut station, first.len());
            assert_eq!(station.offer(b"E"), SUCCESS);
            let wanted = [&first[..], &burst_from(mode, LETTERS, b"E")].concat();
            sent.extend(quiet(&mut station, wanted.len() - sent.len()));
            assert_eq!(sent, wanted);
        }
    }

    /// The codes of the frames behind the preamble of a Baudot burst.
    fn frames(mode: Mode, burst: &[u8]) -> String {
        assert_eq!(burst[..150], preamble(mode));
        let frames = burst[150..].chunks(mode.code_length()).map(|frame| {
            let is_this = |code: &&Code| signal(mode, code) == frame;
            codes(mode).iter().find(is_this).expect("a code").to_string()
        });
        frames.collect::<Vec<_>>().join(" ")
    }

    #[test]
    fn each_burst_opens_with_the_shift_in_force() {
        for mode in [Mode::Baudot45, Mode::Baudot50] {
            let mut station = Station::fresh(mode);
            for (text, wanted) in [
                (&b"1"[..], "11111 11011 10111"),
                (b"1", "11011 10111"),
                (b" ", "11011 00100"),
                (b"A", "11011 11111 00011"),
                (b"A", "11111 00011"),
                (b"\n", "11111 00010"),
                (b"1", "11111 11011 10111"),
            ] {
                assert_eq!(station.offer(text), SUCCESS);
                let codes = wanted.split(' ').count();
                let mut sent = quiet(&mut station, 150 + codes * mode.code_length());
                assert_eq!(frames(mode, &sent), wanted);
                sent = quiet(&mut station, 300);
                assert_eq!(runs(&sent), [(QUIET, 300)]);
            }
        }
    }

    #[test]
    fn the_count_starts_again_at_the_head_of_a_burst() {
        let mode = Mode::Baudot50;
        for before in [1, 71, 72, 73, 144] {
            let mut station = offered(mode, &vec![b'E'; before]);
            quiet(&mut station, 150 + 150 * 250);
            assert_eq!(station.offer(&[b'E'; 73]), SUCCESS);
            let codes = format!("11111{} 11111 00001", " 00001".repeat(72));
            let sent = quiet(&mut station, 150 + 150 * 75);
            assert_eq!(frames(mode, &sent), codes);
            assert_eq!(station.between_bursts(), Some(([FREE, INHIBITED], [LETTERS, 1])));
        }
    }

    /// A forged station with a free line.
    fn forged(mode: Mode, sender: [u8; 2], part: &Part, ms_sent: u16, text: &[u8]) -> Station {
        Station::forged(mode, [FREE, 0], sender, part, ms_sent, text)
    }

    #[test]
    fn a_forged_preamble_with_none_waiting() {
        for mode in [Mode::Baudot45, Mode::Baudot50] {
            for (shift, opening, reached) in [
                (FRESH, "11111", LETTERS),
                (LETTERS, "11111", LETTERS),
                (FIGURES, "11011", FIGURES),
            ] {
                for at in [0, 1, 149, 150] {
                    // Its shift code, and the burst ends with it.
                    let mut station = forged(mode, [shift, 72], &Part::Preamble, at, b"");
                    let length = 150 + mode.code_length() - usize::from(at);
                    let sent =
                        [preamble(mode)[..usize::from(at)].to_vec(), quiet(&mut station, length)];
                    assert_eq!(frames(mode, &sent.concat()), opening);
                    let after = ([FREE, INHIBITED], [reached, 0]);
                    assert_eq!(station.between_bursts(), Some(after));
                }
            }
        }
        // In the other modes the burst ends with the preamble, or with a quiet ms if that is over.
        for (mode, at, wanted) in [
            (Mode::Dtmf, 0, vec![(QUIET, 1)]),
            (Mode::Edt, 0, vec![(MARK, 300)]),
            (Mode::Edt, 300, vec![(QUIET, 1)]),
        ] {
            let mut station = forged(mode, [FRESH, 0], &Part::Preamble, at, b"");
            let ms = wanted[0].1;
            assert_eq!(runs(&quiet(&mut station, ms)), wanted);
            assert_eq!(station.between_bursts(), Some(([FREE, INHIBITED], [FRESH, 0])));
        }
    }

    #[test]
    fn a_forged_fresh_sender_in_a_burst_goes_to_letters() {
        let mode = Mode::Baudot45;
        let part = Part::Code(Code::FiveBits(0b00100));
        for (text, wanted) in [(&b"1"[..], "11111 11011 10111"), (b"A", "11111 00011"), (b"", "")] {
            let mut station = forged(mode, [FRESH, 72], &part, 165, text);
            let codes = wanted.split_terminator(' ').count();
            let sent = [preamble(mode), quiet(&mut station, 165 * codes)].concat();
            assert_eq!(frames(mode, &sent), wanted);
            // With none waiting a quiet ms ends the burst.
            quiet(&mut station, usize::from(codes == 0));
            assert!(station.between_bursts().is_some());
        }
    }

    #[test]
    fn a_burst_waits_for_a_free_line() {
        for mode in Mode::ALL {
            let mut station = Station::fresh(mode);
            hears(&mut station, &[1]);
            assert_eq!(station.offer(b"E"), SUCCESS);
            assert_eq!(runs(&quiet(&mut station, 299)), [(QUIET, 299)]);
            // One ms of signal, and it starts anew.
            assert_eq!(hears(&mut station, &[2]).0, [QUIET]);
            assert_eq!(runs(&quiet(&mut station, 300)), [(QUIET, 300)]);
            assert_ne!(quiet(&mut station, 1), [QUIET]);
            // In the burst and after it signal does not count.
            let rest = vec![1; burst(mode, b"E").len() + 200];
            hears(&mut station, &rest);
            assert_eq!(station.offer(b"E"), SUCCESS);
            assert_ne!(quiet(&mut station, 1), [QUIET]);
        }
    }

    /// A code that is only just read from its first ms on, and its word.
    fn shortest(mode: Mode) -> (Vec<u8>, u32) {
        let (code, word) = match mode {
            Mode::Dtmf => return (vec![1; 40], u32::from(b'b')),
            Mode::Edt => (Code::SevenBits(0x7F), 0x7F),
            _ => (Code::FiveBits(0b01111), u32::from(b'K')),
        };
        let mut heard = signal(mode, &code);
        let start = mode.sample_at(0) + 1..mode.sample_at(1);
        heard[start].fill(MARK);
        (heard, word)
    }

    #[test]
    fn nothing_is_read_in_a_burst_and_for_300_ms_after_it() {
        for mode in Mode::ALL {
            let (code, word) = shortest(mode);
            let length = burst(mode, b"E").len();
            for (late, wanted) in [(0, vec![]), (150, vec![]), (299, vec![]), (300, vec![word])] {
                let mut heard = vec![QUIET; length + late];
                heard.extend(&code);
                assert_eq!(hears(&mut offered(mode, b"E"), &heard).1, wanted);
            }
            let echo = [code, vec![QUIET; length]].concat();
            assert_eq!(hears(&mut offered(mode, b"E"), &echo[..length]).1, []);
        }
    }

    #[test]
    fn the_own_echo_does_not_set_the_shift() {
        let mode = Mode::Baudot45;
        let echo = burst(mode, b"1");
        let mut station = offered(mode, b"1");
        let mut heard = echo.clone();
        heard.extend([QUIET; 300]);
        heard.extend(signal(mode, &Code::FiveBits(0b00001)));
        assert_eq!(hears(&mut station, &heard).1, [u32::from(b'E')]);
    }

    #[test]
    fn del_puts_the_own_reader_in_letters() {
        for mode in [Mode::Baudot45, Mode::Baudot50] {
            let mut station = Station::fresh(mode);
            hears(&mut station, &signal(mode, &Code::FiveBits(FIGURES_CODE)));
            let e = signal(mode, &Code::FiveBits(0b00001));
            assert_eq!(hears(&mut station, &e).1, [u32::from(b'3')]);
            // Not if the offer is refused.
            assert_eq!(station.offer(&[[0x7F; 257], [b'E'; 257]].concat()), SPACE);
            assert_eq!(station.offer(b"\x7F\x80"), CHARACTER);
            assert_eq!(hears(&mut station, &e).1, [u32::from(b'3')]);
            assert_eq!(station.offer(b"\x7F"), SUCCESS);
            assert_eq!(hears(&mut station, &e).1, [u32::from(b'E')]);
            assert_eq!(station.waiting(), 0);
        }
        // Elsewhere it is a character like others.
        assert_eq!(offered(Mode::Dtmf, b"\x7F").waiting(), 1);
        assert_eq!(offered(Mode::Edt, b"\x7F").waiting(), 1);
    }

    #[test]
    fn faults_are_words() {
        let mut station = Station::fresh(Mode::Edt);
        assert_eq!(hears(&mut station, &[SPACE_LEVEL; 200]).1, [0x1000_5602]);
        let mut station = Station::fresh(Mode::Dtmf);
        assert_eq!(hears(&mut station, &[16; 200]).1, [0x1000_0005]);
    }

    /// The ms of a preview that must succeed.
    fn previewed(station: &Station, text: &[u8]) -> usize {
        let (answer, ms) = station.preview(text);
        assert_eq!(answer, SUCCESS);
        ms as usize
    }

    #[test]
    fn a_preview_counts_the_ms_of_the_burst() {
        let fresh = Station::fresh;
        // The preamble, the shift code that opens the burst, and two codes.
        assert_eq!(previewed(&fresh(Mode::Baudot45), b"hi"), 150 + 165 + 2 * 165);
        assert_eq!(previewed(&fresh(Mode::Baudot50), b"hi"), 150 + 150 + 2 * 150);
        // With 1 comes 11011; behind 72 characters the shift is sent again.
        assert_eq!(previewed(&fresh(Mode::Baudot45), b"A1"), 150 + 4 * 165);
        assert_eq!(previewed(&fresh(Mode::Baudot50), &[b'E'; 73]), 150 + 75 * 150);
        // b is key 1, the colon **4.
        assert_eq!(previewed(&fresh(Mode::Dtmf), b"b:"), 120 + 3 * 120);
        assert_eq!(previewed(&fresh(Mode::Edt), b"hi"), 300 + 2 * 100);
        // The longest: a shift code ahead of each character, and codes of four keys.
        assert_eq!(previewed(&fresh(Mode::Baudot45), &b"1A".repeat(128)), 150 + 165 * 513);
        assert_eq!(previewed(&fresh(Mode::Baudot50), &b"1A".repeat(128)), 150 + 150 * 513);
        assert_eq!(previewed(&fresh(Mode::Dtmf), &[b'!'; 256]), 256 * 480);
        assert_eq!(previewed(&fresh(Mode::Edt), &[b'!'; 256]), 300 + 256 * 100);
        for mode in Mode::ALL {
            assert_eq!(previewed(&fresh(mode), b""), 0);
            let text = b"Too 599 E*@";
            assert_eq!(previewed(&fresh(mode), text), burst(mode, text).len());
        }
        // What sends nothing takes no time.
        assert_eq!(previewed(&fresh(Mode::Baudot45), b"\x00\x7F"), 0);
        assert_eq!(previewed(&fresh(Mode::Dtmf), b"\"/"), 0);
    }

    #[test]
    fn a_preview_waits_for_a_free_line() {
        for mode in Mode::ALL {
            let mut station = Station::fresh(mode);
            hears(&mut station, &[1]);
            let length = burst(mode, b"E").len();
            for silence in 0..=350 {
                // Busy or not, the line counts as quiet from now on.
                let waits = 300 - silence.min(300);
                assert_eq!(previewed(&station, b"E"), waits + length);
                assert_eq!(previewed(&station, b""), 0);
                quiet(&mut station, 1);
            }
        }
    }

    #[test]
    fn a_preview_counts_down_through_a_burst() {
        for mode in Mode::ALL {
            let text = b"A1 b";
            let mut station = offered(mode, text);
            let (all, more) = (burst(mode, text).len(), burst(mode, b"A1 bB").len());
            for ms in 0..all {
                assert_eq!(previewed(&station, b""), all - ms);
                assert_eq!(previewed(&station, b"B"), more - ms);
                quiet(&mut station, 1);
            }
            // Behind its last ms a new burst is needed, which begins at once.
            for _ in 0..400 {
                assert_eq!(previewed(&station, b""), 0);
                assert_eq!(previewed(&station, b"1"), burst_from(mode, LETTERS, b"1").len());
                quiet(&mut station, 1);
            }
        }
    }

    #[test]
    fn a_preview_of_a_forged_station() {
        for mode in [Mode::Baudot45, Mode::Baudot50] {
            let length = mode.code_length();
            for shift in [FRESH, LETTERS, FIGURES] {
                for at in [0, 1, 149, 150] {
                    let station = forged(mode, [shift, 72], &Part::Preamble, at, b"");
                    assert_eq!(previewed(&station, b""), 150 - usize::from(at) + length);
                }
            }
            // A fresh sender in a burst sends 11111; a count of 72 the shift in force.
            let part = Part::Code(Code::FiveBits(0b00100));
            for (shift, count, codes) in [(FRESH, 0, 2), (LETTERS, 72, 2), (LETTERS, 71, 1)] {
                let station = forged(mode, [shift, count], &part, length as u16 - 1, b"");
                assert_eq!(previewed(&station, b"E"), 1 + codes * length);
            }
        }
        // A part that is over with none waiting: a quiet ms ends the burst.
        for (mode, part, at) in [
            (Mode::Baudot45, Part::Code(Code::FiveBits(31)), 165),
            (Mode::Baudot50, Part::Code(Code::FiveBits(1)), 150),
            (Mode::Dtmf, Part::Code(Code::Keys("***1".to_string())), 480),
            (Mode::Dtmf, Part::Preamble, 0),
            (Mode::Edt, Part::Preamble, 300),
            (Mode::Edt, Part::Code(Code::SevenBits(0)), 100),
        ] {
            assert_eq!(previewed(&forged(mode, [LETTERS, 0], &part, at, b""), b""), 1);
        }
    }

    #[test]
    fn a_preview_is_refused_as_the_offer() {
        for mode in Mode::ALL {
            let station = offered(mode, b"E");
            let mut bad = station.clone();
            bad.silence = FREE + 1;
            let (above, many) = ([b'E', 0x80].repeat(300), [b'E'; 256]);
            for (station, text, answer) in [
                (&bad, &above[..], STATE),
                (&bad, b"", STATE),
                (&station, &above, CHARACTER),
                (&station, b"\x80", CHARACTER),
                (&station, &many, SPACE),
            ] {
                assert_eq!(station.preview(text), (answer, 0));
            }
            assert_eq!(station.preview(&many[1..]).0, SUCCESS);
        }
        let many = [[0; 300], [b'E'; 300]].concat();
        assert_eq!(Station::fresh(Mode::Baudot45).preview(&many[..557]), (SPACE, 0));
        assert_eq!(Station::fresh(Mode::Baudot45).preview(&many[..556]).0, SUCCESS);
    }

    #[test]
    fn the_first_no_decides_and_a_refusal_changes_nothing() {
        for mode in Mode::ALL {
            let above = mode.highest_level() + 1;
            let station = offered(mode, b"E");
            let mut bad = station.clone();
            bad.silence = FREE + 1;
            let (mut sent, mut words) = ([9; MOST_MS + 1], [9; MOST_MS + 1]);
            for (station, ms, level, sent_length, word_length, answer) in [
                (&bad, MOST_MS + 1, above, 0, 0, STATE),
                (&station, MOST_MS + 1, above, 0, 0, DURATION),
                (&station, MOST_MS, above, 0, 0, LEVEL),
                (&station, MOST_MS, above - 1, MOST_MS - 1, 0, SENT_SLICE),
                (&station, MOST_MS, above - 1, MOST_MS, MOST_MS - 1, WORD_SLICE),
            ] {
                let mut after = station.clone();
                let heard = vec![level; ms];
                let (sent, words) = (&mut sent[..sent_length], &mut words[..word_length]);
                assert_eq!(after.run(&heard, sent, words), Ran { answer, words: 0 });
                assert_eq!(&after, station);
            }
            assert_eq!((sent, words), ([9; MOST_MS + 1], [9; MOST_MS + 1]));
            assert_eq!(bad.offer(&[0x80; 300]), STATE);
            let mut after = station.clone();
            assert_eq!(after.offer(&[b'E', 0x80].repeat(300)), CHARACTER);
            assert_eq!(after.offer(&[b'E'; 256]), SPACE);
            assert_eq!(after.run(&[], &mut [], &mut []), Ran { answer: SUCCESS, words: 0 });
            assert_eq!(after, station);
        }
    }

    #[test]
    fn question_1() {
        let changes: [fn(&mut Station); 10] = [
            |station| station.queue.waiting = 257,
            // The ring holds 00, which sends nothing.
            |station| station.queue.waiting = 1,
            |station| {
                station.queue.ring[0] = 0x80;
                station.queue.waiting = 1;
            },
            |station| {
                station.queue.ring[255] = b'E';
                (station.queue.front, station.queue.waiting) = (255, 2);
            },
            |station| station.silence = 301,
            |station| station.inhibited = 301,
            |station| station.sender.shift = 3,
            |station| station.sender.count = 73,
            |station| station.line.level = 3,
            |station| station.line.left = 151,
        ];
        for change in changes {
            let mut station = Station::fresh(Mode::Baudot45);
            change(&mut station);
            assert!(!station.in_range());
        }
    }

    #[test]
    fn a_run_cut_in_two_gives_the_same() {
        for mode in Mode::ALL {
            let mut heard = burst(mode, b"TOO 599");
            heard.extend([QUIET; 400]);
            heard.extend(burst(mode, b"Ab1"));
            heard.extend([QUIET; 400]);
            let mut whole = Station::fresh(mode);
            hears(&mut whole, &[1]);
            whole.offer(b"E9 ");
            let before = whole.clone();
            let wanted = hears(&mut whole, &heard);
            for cut in (0..heard.len()).step_by(7) {
                let mut station = before.clone();
                let (mut sent, mut words) = hears(&mut station, &heard[..cut]);
                let (more_sent, more_words) = hears(&mut station, &heard[cut..]);
                sent.extend(more_sent);
                words.extend(more_words);
                assert_eq!((sent, words), wanted);
                assert_eq!(station, whole);
            }
        }
    }

    /// A run with a report, which must be answered so.
    fn drifts(station: &mut Station, heard: &[u8], report: &mut Report, answer: u8) {
        let (mut sent, mut words) = ([9; MOST_MS], [9; MOST_MS]);
        assert_eq!(station.run_drift(heard, &mut sent, &mut words, report).answer, answer);
        assert_eq!(answer == SUCCESS && !heard.is_empty(), sent[0] != 9);
    }

    /// The code E whose first edge is 3 ms early and whose second 5 ms late, up to the stop sample.
    fn moved_e(mode: Mode) -> Vec<u8> {
        let (e, mut heard) = (mode.element(), signal(mode, &Code::FiveBits(0b00001)));
        heard[e - 3..e].fill(MARK);
        heard[2 * e..2 * e + 5].fill(MARK);
        heard.truncate(mode.last_sample() + 1);
        heard
    }

    const MOVED: Report = Report { edges: 3, sum: 2, smallest: -3, largest: 5 };

    #[test]
    fn edges_wait_and_count_in_the_call_of_the_stop_sample() {
        for mode in [Mode::Baudot45, Mode::Baudot50] {
            let heard = moved_e(mode);
            for cut in 0..=heard.len() {
                let (mut station, mut report) = (Station::fresh(mode), Report::default());
                drifts(&mut station, &heard[..cut], &mut report, SUCCESS);
                let whole = cut == heard.len();
                assert_eq!(report, if whole { MOVED } else { Report::default() });
                let level = if whole || cut == 0 { 0 } else { heard[cut - 1] };
                assert_eq!(station.edges().level, level);
                assert!(station.edges().report.edges as usize <= cut.saturating_sub(1));
                drifts(&mut station, &heard[cut..], &mut report, SUCCESS);
                assert_eq!((station.edges(), report), (Waiting::default(), MOVED));
            }
        }
    }

    #[test]
    fn edges_of_frames_that_break_are_dropped() {
        for mode in [Mode::Baudot45, Mode::Baudot50] {
            let (first, last) = (mode.sample_at(0), mode.last_sample());
            for (at, level) in [(last, SPACE_LEVEL), (last, QUIET), (first, MARK), (first, QUIET)] {
                let mut heard = moved_e(mode);
                heard[at] = level;
                heard.truncate(at + 1);
                let (mut station, mut report) = (Station::fresh(mode), Report::default());
                drifts(&mut station, &heard, &mut report, SUCCESS);
                assert_eq!((station.edges(), report), Default::default());
            }
            // An inhibited ms drops the frame.
            let (mut station, mut report) = (Station::fresh(mode), Report::default());
            drifts(&mut station, &moved_e(mode)[..100], &mut report, SUCCESS);
            assert_ne!(station.edges(), Waiting::default());
            station.inhibited = 1;
            drifts(&mut station, &[MARK; 200], &mut report, SUCCESS);
            assert_eq!((station.edges(), report), Default::default());
        }
        // EDT and DTMF have none.
        for mode in [Mode::Dtmf, Mode::Edt] {
            let (mut station, mut report) = (Station::fresh(mode), Report::default());
            drifts(&mut station, &burst(mode, b"EE"), &mut report, SUCCESS);
            assert_eq!((station.edges(), report), Default::default());
        }
    }

    #[test]
    fn a_full_report_is_refused_and_nothing_is_written() {
        let mode = Mode::Baudot45;
        for (edges, answer) in
            [(65_533, SUCCESS), (65_534, EDGES), (65_536, EDGES), (65_537, STATE)]
        {
            let mut station = Station::fresh(mode);
            let before = Report { edges, ..Report::default() };
            let mut report = before;
            drifts(&mut station, &moved_e(mode), &mut report, answer);
            if answer == SUCCESS {
                assert_eq!(report, before.joined(MOVED));
            } else {
                assert_eq!((station, report), (Station::fresh(mode), before));
            }
        }
        let mut full = Report { edges: 65_536, ..Report::default() };
        drifts(&mut Station::fresh(mode), &moved_e(mode)[..143], &mut full, SUCCESS);
    }

    #[test]
    fn waiting_edges_out_of_range() {
        let forged = |place, edges, sum, level| {
            let report = Report { edges, sum, ..Report::default() };
            let station = Station::fresh(Mode::Baudot50).with_reader(place, 0, LETTERS);
            station.with_edges(Waiting { report, level })
        };
        for (place, edges, sum, level, good) in [
            (Place::Frame(5), 4, 44, 0, true),
            (Place::Frame(5), 5, 0, 0, false),
            (Place::Frame(5), 4, -45, 0, false),
            (Place::Frame(1), 0, 0, 2, true),
            (Place::Frame(1), 0, 0, 3, false),
            (Place::Hunting, 0, 0, 0, true),
            (Place::Hunting, 0, 0, 2, false),
            (Place::Waiting, 1, 0, 0, false),
        ] {
            let mut station = forged(place, edges, sum, level);
            let answer = if good { SUCCESS } else { STATE };
            assert_eq!(station.in_range(), good);
            assert_eq!(station.preview(b"").0, answer);
            assert_eq!(station.clone().offer(b""), answer);
            assert_eq!(station.run(&[], &mut [], &mut []).answer, answer);
        }
    }
}
