//! The readers: from the level of each heard ms to the output words (document 01: house words).

use crate::annex::{dtmf_rows, BAUDOT_READS, FIGURES, FIGURES_CODE, LETTERS, LETTERS_CODE};
use crate::fault::{Cause, Fault, LETTER_KEY, NO_ROW};
use crate::line::{key_number, KEYS, MARK, QUIET, SPACE};
use crate::mode::Mode;
use std::sync::LazyLock;

/// What a reading ms does.
pub trait Hear {
    /// A heard ms, and the word it gives.
    fn hear(&mut self, level: u8) -> Option<u32>;

    /// An inhibited ms; it gives no word.
    fn inhibited(&mut self);

    /// Some inhibited ms. As many as make a difference are gone through.
    fn inhibited_for(&mut self, ms: usize) {
        for _ in 0..ms.min(usize::from(IN_A_ROW)) {
            self.inhibited();
        }
    }
}

/// The reader of a mode.
#[derive(Clone, Copy, Debug, PartialEq, Eq)]
pub enum Reader {
    Frames(FrameReader),
    Keys(KeyReader),
}

impl Reader {
    pub fn fresh(mode: Mode) -> Reader {
        match mode {
            Mode::Baudot45 => Reader::Frames(FrameReader::fresh(&BAUDOT_45, Reads::Letters)),
            Mode::Baudot50 => Reader::Frames(FrameReader::fresh(&BAUDOT_50, Reads::Letters)),
            Mode::Dtmf => Reader::Keys(KeyReader::fresh()),
            Mode::Edt => Reader::Frames(FrameReader::fresh(&EDT, Reads::Characters)),
        }
    }

    /// A Baudot reader at a place, with the bits sampled so far and in a shift.
    pub fn baudot(mode: Mode, place: Place, bits: u8, shift: u8) -> Reader {
        let frame = if mode == Mode::Baudot45 { &BAUDOT_45 } else { &BAUDOT_50 };
        let reads = if shift == FIGURES { Reads::Figures } else { Reads::Letters };
        let next = match place {
            Place::Hunting => HUNTING,
            Place::Waiting => WAITING,
            Place::Frame(ms) => ms as u8,
        };
        Reader::Frames(FrameReader { frame, reads, next, bits })
    }

    /// Of a Baudot reader its place, the bits sampled so far and its shift; none of another reader.
    pub fn baudot_parts(&self) -> Option<(Place, u8, u8)> {
        let Reader::Frames(reader) = self else { return None };
        let shift = match reader.reads {
            Reads::Letters => LETTERS,
            Reads::Figures => FIGURES,
            Reads::Characters => return None,
        };
        Some((reader.place(), reader.sampled(), shift))
    }

    /// Puts a Baudot reader in letters.
    pub fn to_letters(&mut self) {
        if let Reader::Frames(reader @ FrameReader { reads: Reads::Figures, .. }) = self {
            reader.reads = Reads::Letters;
        }
    }

    /// Are its numbers such as reading makes them?
    pub fn in_range(&self) -> bool {
        match self {
            Reader::Frames(FrameReader { frame, next, .. }) => {
                *next <= frame.last || *next == WAITING
            }
            Reader::Keys(KeyReader { level, run, prefix, .. }) => {
                usize::from(*level) <= KEYS.len()
                    && *run <= IN_A_ROW
                    && (NO_PREFIX..=PREFIX_TOO_LONG).contains(prefix)
            }
        }
    }
}

impl Hear for Reader {
    #[inline]
    fn hear(&mut self, level: u8) -> Option<u32> {
        match self {
            Reader::Frames(reader) => reader.hear(level),
            Reader::Keys(reader) => reader.hear(level),
        }
    }

    #[inline]
    fn inhibited(&mut self) {
        match self {
            Reader::Frames(reader) => reader.inhibited(),
            Reader::Keys(reader) => reader.inhibited(),
        }
    }
}

/// What a ms of a frame is to the reader.
#[derive(Clone, Copy, Debug, PartialEq, Eq)]
enum Role {
    Between,
    Start,
    Bit(u8),
    Parity,
    Stop,
    Last,
}

/// No frame has a sample at this ms or later.
const LONGEST: usize = 144;

/// The samples of a mode at their ms, and the ms of the last one.
#[derive(Debug, PartialEq, Eq)]
struct Frame {
    roles: [Role; LONGEST],
    last: u8,
}

static BAUDOT_45: Frame = frame(Mode::Baudot45);
static BAUDOT_50: Frame = frame(Mode::Baudot50);
static EDT: Frame = frame(Mode::Edt);

const fn frame(mode: Mode) -> Frame {
    let mut roles = [Role::Between; LONGEST];
    let last = mode.elements() - 1;
    let bits = if last == 6 { 5 } else { 7 };
    let mut element = 0;
    while element <= last {
        roles[mode.sample_at(element)] = if element == 0 {
            Role::Start
        } else if element <= bits {
            Role::Bit(element as u8 - 1)
        } else if element == last {
            Role::Last
        } else if element == bits + 1 {
            Role::Parity
        } else {
            Role::Stop
        };
        element += 1;
    }
    Frame { roles, last: mode.sample_at(last) as u8 }
}

/// What the bits of a frame are read as; in Baudot this is the shift (document 01: the case).
#[derive(Clone, Copy, Debug, PartialEq, Eq)]
enum Reads {
    Letters,
    Figures,
    Characters,
}

static LETTERS_READ: [Option<u8>; 32] = BAUDOT_READS[0];
static FIGURES_READ: [Option<u8>; 32] = BAUDOT_READS[1];

/// `next` while no frame is read. A frame's ms 0 is heard by a hunting reader.
const HUNTING: u8 = 0;
/// `next` after a fault.
const WAITING: u8 = 255;

/// Where a reader of frames is: hunting, waiting after a fault, or in a frame with its ms so far.
#[derive(Clone, Copy, Debug, PartialEq, Eq)]
pub enum Place {
    Hunting,
    Waiting,
    Frame(usize),
}

/// Reads Baudot and EDT.
#[derive(Clone, Copy, Debug, PartialEq, Eq)]
pub struct FrameReader {
    frame: &'static Frame,
    reads: Reads,
    /// Which ms of the frame comes next, or `HUNTING`, or `WAITING`.
    next: u8,
    /// The bits sampled so far, the first one lowest.
    bits: u8,
}

impl FrameReader {
    fn fresh(frame: &'static Frame, reads: Reads) -> FrameReader {
        FrameReader { frame, reads, next: HUNTING, bits: 0 }
    }

    #[inline]
    pub fn place(&self) -> Place {
        match self.next {
            HUNTING => Place::Hunting,
            WAITING => Place::Waiting,
            ms => Place::Frame(usize::from(ms)),
        }
    }

    /// The bits of the samples so far; 0 outside a frame.
    fn sampled(&self) -> u8 {
        let Place::Frame(ms) = self.place() else { return 0 };
        let bits = self.frame.roles[..ms].iter().filter(|role| matches!(role, Role::Bit(_)));
        self.bits & ((1 << bits.count()) - 1)
    }

    /// A ms of a frame that is a sample.
    fn sample(&mut self, ms: u8, role: Role, level: u8) -> Option<u32> {
        let cause = match role {
            Role::Between => None,
            Role::Start => {
                self.bits = 0;
                if level != SPACE {
                    self.next = HUNTING;
                }
                None
            }
            _ if level == QUIET => Some(Cause::Quiet),
            Role::Bit(place) => {
                self.bits |= u8::from(level == MARK) << place;
                None
            }
            Role::Parity => {
                let ones = self.bits.count_ones() + u32::from(level == MARK);
                (!ones.is_multiple_of(2)).then_some(Cause::OddParity)
            }
            Role::Stop | Role::Last => (level != MARK).then_some(Cause::StopNotMark),
        };
        if let Some(cause) = cause {
            self.next = WAITING;
            return Some(Fault { cause, ms: usize::from(ms) }.word());
        }
        if role != Role::Last {
            return None;
        }
        self.next = HUNTING;
        self.give()
    }

    /// What a whole frame gives.
    fn give(&mut self) -> Option<u32> {
        let character = match (self.reads, self.bits) {
            (Reads::Characters, bits) => Some(bits),
            (_, LETTERS_CODE) => {
                self.reads = Reads::Letters;
                None
            }
            (_, FIGURES_CODE) => {
                self.reads = Reads::Figures;
                None
            }
            (Reads::Letters, code) => LETTERS_READ[usize::from(code)],
            (Reads::Figures, code) => FIGURES_READ[usize::from(code)],
        };
        character.map(u32::from)
    }
}

impl Hear for FrameReader {
    #[inline]
    fn hear(&mut self, level: u8) -> Option<u32> {
        match self.next {
            HUNTING => {
                self.next = u8::from(level == SPACE);
                None
            }
            WAITING => {
                if level != SPACE {
                    self.next = HUNTING;
                }
                None
            }
            ms => {
                self.next = ms + 1;
                match self.frame.roles[usize::from(ms) % LONGEST] {
                    Role::Between => None,
                    role => self.sample(ms, role, level),
                }
            }
        }
    }

    #[inline]
    fn inhibited(&mut self) {
        self.next = HUNTING;
    }
}

/// The ms in a row that make a key count, and the quiet ms in a row needed after it.
pub const IN_A_ROW: u8 = 40;

/// No prefix in hand. A * doubles the number, a # doubles it and adds one.
const NO_PREFIX: u8 = 1;
/// More than three of * and #, whichever.
const PREFIX_TOO_LONG: u8 = 16;

const STAR: u8 = 11;
const HASH: u8 = 12;

/// What a prefix and a digit (1 to 10) read as.
static DTMF_READS: LazyLock<[[u32; 11]; 17]> = LazyLock::new(|| {
    let mut reads = [[NO_ROW.word(); 11]; 17];
    for (code, character, struck) in dtmf_rows() {
        if !struck {
            let mut keys = code.chars().map(key_number);
            let digit = keys.next_back().unwrap();
            let prefix = keys.fold(NO_PREFIX, with_sign);
            reads[usize::from(prefix)][usize::from(digit)] = u32::from(character);
        }
    }
    reads
});

/// A prefix with one more * or #.
fn with_sign(prefix: u8, key: u8) -> u8 {
    (2 * prefix + u8::from(key == HASH)).min(PREFIX_TOO_LONG)
}

/// Reads DTMF.
#[derive(Clone, Copy, Debug, PartialEq, Eq)]
pub struct KeyReader {
    /// What is heard, a key or quiet, and for how many ms in a row, at most 40.
    level: u8,
    run: u8,
    /// Does the next key count? Not between a key and the 40 quiet ms.
    ready: bool,
    prefix: u8,
}

impl KeyReader {
    fn fresh() -> KeyReader {
        KeyReader { level: QUIET, run: 0, ready: true, prefix: NO_PREFIX }
    }

    /// The 40th ms in a row of a key or of quiet.
    fn held(&mut self, level: u8) -> Option<u32> {
        if level == QUIET {
            self.ready = true;
            None
        } else if self.ready {
            self.ready = false;
            self.press(level)
        } else {
            None
        }
    }

    /// A key that counts.
    fn press(&mut self, key: u8) -> Option<u32> {
        let prefix = self.prefix;
        self.prefix = NO_PREFIX;
        match key {
            STAR | HASH => {
                self.prefix = with_sign(prefix, key);
                None
            }
            1..STAR => Some(DTMF_READS[usize::from(prefix)][usize::from(key)]),
            _ => Some(LETTER_KEY.word()),
        }
    }
}

impl Hear for KeyReader {
    #[inline]
    fn hear(&mut self, level: u8) -> Option<u32> {
        if level != self.level {
            (self.level, self.run) = (level, 0);
        }
        if self.run == IN_A_ROW {
            return None;
        }
        self.run += 1;
        if self.run < IN_A_ROW {
            return None;
        }
        self.held(level)
    }

    #[inline]
    fn inhibited(&mut self) {
        self.hear(QUIET);
    }
}

#[cfg(test)]
mod tests {
    use super::*;
    use crate::annex::dtmf_reads;
    use crate::line::{codes, preamble, sign_lists, signal, text_codes, Code, KEY_GAP};

    const FRAME_MODES: [Mode; 3] = [Mode::Baudot45, Mode::Baudot50, Mode::Edt];

    /// The words of a heard list, each with its ms.
    fn hears(reader: &mut Reader, heard: &[u8]) -> Vec<(usize, u32)> {
        let words = heard.iter().enumerate().map(|(ms, &level)| (ms, reader.hear(level)));
        words.filter_map(|(ms, word)| word.map(|word| (ms, word))).collect()
    }

    fn words(reader: &mut Reader, heard: &[u8]) -> Vec<u32> {
        hears(reader, heard).into_iter().map(|(_, word)| word).collect()
    }

    fn fresh_words(mode: Mode, heard: &[u8]) -> Vec<(usize, u32)> {
        hears(&mut Reader::fresh(mode), heard)
    }

    fn five(code: u8) -> Code {
        Code::FiveBits(code)
    }

    /// A code whose signal gives a word in letters.
    fn some_code(mode: Mode) -> Code {
        match mode {
            Mode::Edt => Code::SevenBits(b'S'),
            _ => five(0b00101),
        }
    }

    /// Keys and quiet, each for a number of ms.
    fn keys(parts: &[(char, usize)]) -> Vec<u8> {
        let level = |key| if key == ' ' { QUIET } else { key_number(key) };
        parts.iter().flat_map(|&(key, ms)| vec![level(key); ms]).collect()
    }

    fn key_words(parts: &[(char, usize)]) -> Vec<u32> {
        words(&mut Reader::fresh(Mode::Dtmf), &keys(parts))
    }

    /// Keys of 70 ms with the quiet after each.
    fn typed(signs: &str) -> Vec<u32> {
        let parts: Vec<_> = signs.chars().flat_map(|key| [(key, 70), (' ', KEY_GAP)]).collect();
        key_words(&parts)
    }

    #[test]
    fn every_baudot_code_is_read_back_at_its_last_sample() {
        for (mode, last) in [(Mode::Baudot45, 143), (Mode::Baudot50, 130)] {
            for (shift, reads) in [LETTERS_CODE, FIGURES_CODE].into_iter().zip(BAUDOT_READS) {
                for (code, read) in (0..32).zip(reads) {
                    let mut reader = Reader::fresh(mode);
                    assert_eq!(hears(&mut reader, &signal(mode, &five(shift))), []);
                    let wanted: Vec<_> = read.map(|c| (last, u32::from(c))).into_iter().collect();
                    assert_eq!(hears(&mut reader, &signal(mode, &five(code))), wanted);
                }
            }
        }
    }

    #[test]
    fn every_edt_code_is_read_back_at_its_last_sample() {
        for character in 0..128 {
            let heard = signal(Mode::Edt, &Code::SevenBits(character));
            assert_eq!(fresh_words(Mode::Edt, &heard), [(95, u32::from(character))]);
        }
    }

    #[test]
    fn every_dtmf_code_is_read_back_at_the_40th_ms_of_its_digit() {
        for code in codes(Mode::Dtmf) {
            let keys = code.to_string();
            let word = dtmf_reads(&keys).map_or(NO_ROW.word(), u32::from);
            let ms = 120 * (keys.len() - 1) + 39;
            assert_eq!(fresh_words(Mode::Dtmf, &signal(Mode::Dtmf, &code)), [(ms, word)]);
        }
    }

    #[test]
    fn a_burst_is_read_as_the_normal_form() {
        let all: Vec<u8> = (0..128).chain(*b"TOO 599 or (9)").collect();
        for mode in Mode::ALL {
            let mut heard = preamble(mode);
            for code in text_codes(mode, &all) {
                heard.extend(signal(mode, &code));
            }
            let normal = mode.alphabet().normal_list(&all);
            let normal: Vec<u32> = normal.into_iter().map(u32::from).collect();
            assert_eq!(words(&mut Reader::fresh(mode), &heard), normal);
        }
    }

    /// The word of a fault, ahead of it its ms: it comes in the ms of its sample.
    fn fault(cause: Cause, ms: usize) -> (usize, u32) {
        (ms, Fault { cause, ms }.word())
    }

    /// The signal of a code with another level in one ms.
    fn damaged(mode: Mode, code: &Code, at: usize, level: u8) -> Vec<u8> {
        let mut heard = signal(mode, code);
        heard[at] = level;
        heard
    }

    #[test]
    fn quiet_at_a_later_sample_is_one_fault_there() {
        for mode in FRAME_MODES {
            for element in 1..mode.elements() {
                let at = mode.sample_at(element);
                let heard = &damaged(mode, &some_code(mode), at, QUIET)[..=at];
                let mut reader = Reader::fresh(mode);
                assert_eq!(hears(&mut reader, heard), [fault(Cause::Quiet, at)]);
                check_wait(mode, reader);
            }
        }
    }

    #[test]
    fn a_stop_that_is_space_is_one_fault_there() {
        for mode in FRAME_MODES {
            for at in mode.stops().map(|element| mode.sample_at(element)) {
                let heard = &damaged(mode, &some_code(mode), at, SPACE)[..=at];
                let mut reader = Reader::fresh(mode);
                assert_eq!(hears(&mut reader, heard), [fault(Cause::StopNotMark, at)]);
                check_wait(mode, reader);
            }
        }
    }

    #[test]
    fn odd_parity_is_one_fault_at_its_sample() {
        for (character, wrong) in [(b'S', MARK), (b'C', SPACE)] {
            let at = Mode::Edt.sample_at(Mode::PARITY);
            let heard = damaged(Mode::Edt, &Code::SevenBits(character), at, wrong);
            let mut reader = Reader::fresh(Mode::Edt);
            assert_eq!(hears(&mut reader, &heard[..=at]), [fault(Cause::OddParity, at)]);
            check_wait(Mode::Edt, reader);
        }
    }

    /// What a frame whose start is good gives, by the level at each sample: the ms and the word.
    fn frame_gives(mode: Mode, levels: &[u8]) -> Option<(usize, u32)> {
        for element in 1..mode.elements() {
            let marks = levels[1..=element].iter().filter(|&&level| level == MARK).count();
            let cause = match levels[element] {
                QUIET => 1,
                SPACE if mode.stops().contains(&element) => 2,
                _ if mode == Mode::Edt && element == Mode::PARITY && marks % 2 == 1 => 3,
                _ => continue,
            };
            let ms = mode.sample_at(element);
            return Some((ms, 0x1000_0000 | (ms as u32) << 8 | cause));
        }
        let bits = if mode == Mode::Edt { 7 } else { 5 };
        let code = (0..bits).map(|place| u8::from(levels[1 + place] == MARK) << place).sum();
        let read = if mode == Mode::Edt { Some(code) } else { BAUDOT_READS[0][usize::from(code)] };
        read.map(|character| (mode.sample_at(mode.elements() - 1), u32::from(character)))
    }

    /// Every level at every sample, whatever stands between the samples.
    #[test]
    fn every_frame_gives_its_character_or_its_fault() {
        for mode in FRAME_MODES {
            let samples: Vec<_> = (0..mode.elements()).map(|j| mode.sample_at(j)).collect();
            let mut met = Vec::new();
            for number in 0..3usize.pow(samples.len() as u32) {
                let level = |place: usize| (number / 3usize.pow(place as u32) % 3) as u8;
                let levels: Vec<u8> = (0..samples.len()).map(level).collect();
                // Up to the sample that decides.
                let (gives, end) = if levels[0] == SPACE {
                    let gives = frame_gives(mode, &levels);
                    (gives, gives.map_or(samples[samples.len() - 1], |(ms, _)| ms))
                } else {
                    (None, samples[0])
                };
                for between in [QUIET, MARK, SPACE] {
                    let mut heard = vec![between; end + 1];
                    heard[0] = SPACE;
                    for (&ms, &level) in samples.iter().zip(&levels).filter(|(&ms, _)| ms <= end) {
                        heard[ms] = level;
                    }
                    assert_eq!(fresh_words(mode, &heard), Vec::from_iter(gives), "{levels:?}");
                }
                met.extend(gives.map(|(_, word)| word));
            }
            met.sort();
            met.dedup();
            met.retain(|&word| word >= 0x80);
            let mut wanted: Vec<u32> =
                Fault::of_mode(mode).iter().map(|fault| fault.word()).collect();
            wanted.sort();
            assert_eq!(met, wanted);
        }
    }

    /// A reader that has just given a fault waits while it hears space; a ms that is not space
    /// ends the wait, and the ms after that one may be the first of a frame.
    fn check_wait(mode: Mode, faulty: Reader) {
        let code = signal(mode, &some_code(mode));
        let end = mode.sample_at(mode.elements() - 1);
        for held in [0, 1, 2, 200, 1000] {
            for level in [QUIET, MARK] {
                let mut reader = faulty;
                assert_eq!(hears(&mut reader, &vec![SPACE; held]), []);
                assert_eq!(reader.hear(level), None);
                assert_eq!(hears(&mut reader, &code), [(end, u32::from(b'S'))]);
            }
        }
        // An inhibited ms ends the wait as well.
        let mut reader = faulty;
        reader.inhibited();
        assert_eq!(hears(&mut reader, &code), [(end, u32::from(b'S'))]);
    }

    #[test]
    fn a_start_sample_that_is_not_space_gives_no_word() {
        for mode in FRAME_MODES {
            let at = mode.sample_at(0);
            for level in [QUIET, MARK] {
                let mut heard = vec![SPACE; at];
                heard.push(level);
                heard.extend(signal(mode, &some_code(mode)));
                let end = at + 1 + mode.sample_at(mode.elements() - 1);
                assert_eq!(fresh_words(mode, &heard), [(end, u32::from(b'S'))]);
            }
        }
    }

    #[test]
    fn between_the_samples_nothing_matters() {
        for mode in FRAME_MODES {
            let samples: Vec<_> = (0..mode.elements()).map(|j| mode.sample_at(j)).collect();
            let clean = signal(mode, &some_code(mode));
            let end = mode.sample_at(mode.elements() - 1);
            for level in [QUIET, MARK, SPACE] {
                let mut heard = clean.clone();
                for (ms, heard) in heard.iter_mut().enumerate().take(end).skip(1) {
                    if !samples.contains(&ms) {
                        *heard = level;
                    }
                }
                assert_eq!(fresh_words(mode, &heard), [(end, u32::from(b'S'))]);
            }
        }
    }

    #[test]
    fn after_the_last_sample_the_reader_hunts() {
        for mode in FRAME_MODES {
            let end = mode.sample_at(mode.elements() - 1);
            let code = signal(mode, &some_code(mode));
            let heard = [&code[..=end], &code].concat();
            let s = u32::from(b'S');
            assert_eq!(fresh_words(mode, &heard), [(end, s), (2 * end + 1, s)]);
        }
    }

    #[test]
    fn an_inhibited_ms_drops_a_frame_and_keeps_the_shift() {
        for mode in FRAME_MODES {
            let code = signal(mode, &some_code(mode));
            for at in 1..=mode.sample_at(mode.elements() - 1) {
                let mut reader = Reader::fresh(mode);
                assert_eq!(hears(&mut reader, &code[..at]), []);
                reader.inhibited();
                assert_eq!(words(&mut reader, &code), [u32::from(b'S')]);
            }
        }
        let mode = Mode::Baudot50;
        let mut reader = Reader::fresh(mode);
        hears(&mut reader, &signal(mode, &five(FIGURES_CODE)));
        reader.inhibited();
        assert_eq!(words(&mut reader, &signal(mode, &five(0b10000))), [u32::from(b'5')]);
    }

    #[test]
    fn a_key_counts_once_at_its_40th_ms() {
        assert_eq!(key_words(&[('1', 39), (' ', 100)]), []);
        let b = u32::from(b'b');
        assert_eq!(key_words(&[('1', 40), (' ', 100)]), [b]);
        assert_eq!(key_words(&[('1', 4000), (' ', 100)]), [b]);
        assert_eq!(fresh_words(Mode::Dtmf, &[1; 100]), [(39, b)]);
        // The 40 ms are in a row.
        assert_eq!(key_words(&[('1', 39), (' ', 1), ('1', 39)]), []);
        assert_eq!(key_words(&[('1', 39), ('2', 39), ('1', 39)]), []);
        assert_eq!(key_words(&[('1', 39), ('2', 40)]), [u32::from(b'e')]);
    }

    #[test]
    fn forty_quiet_ms_are_needed_before_the_next_key() {
        let [b, e] = [u32::from(b'b'), u32::from(b'e')];
        assert_eq!(key_words(&[('1', 70), (' ', 39), ('2', 70)]), [b]);
        assert_eq!(key_words(&[('1', 70), (' ', 40), ('2', 70)]), [b, e]);
        assert_eq!(key_words(&[('1', 70), ('2', 70)]), [b]);
        // In a row; a key that does not count starts them anew.
        assert_eq!(key_words(&[('1', 70), (' ', 39), ('2', 1), (' ', 39), ('2', 70)]), [b]);
        assert_eq!(key_words(&[('1', 70), (' ', 39), ('2', 70), (' ', 40), ('2', 70)]), [b, e]);
        // None are needed after a key that was too short.
        assert_eq!(key_words(&[('1', 39), (' ', 1), ('2', 40)]), [e]);
        // A new key is another one also if it is the same.
        assert_eq!(key_words(&[('1', 70), (' ', 40), ('1', 40)]), [b, b]);
    }

    #[test]
    fn an_inhibited_ms_is_quiet_to_dtmf() {
        let mut reader = Reader::fresh(Mode::Dtmf);
        assert_eq!(words(&mut reader, &keys(&[('*', 70)])), []);
        (0..40).for_each(|_| reader.inhibited());
        assert_eq!(words(&mut reader, &keys(&[('1', 39)])), []);
        reader.inhibited();
        assert_eq!(words(&mut reader, &keys(&[('1', 39)])), []);
        // The prefix stays.
        assert_eq!(words(&mut reader, &keys(&[('1', 1)])), [u32::from(b'a')]);
    }

    /// Every key behind every list of up to six signs; a digit behind it shows the signs in hand.
    #[test]
    fn every_list_of_signs_with_every_key() {
        let reads = |code: &str| match dtmf_reads(code) {
            Some(character) => u32::from(character),
            None => 0x1000_0004,
        };
        let b = u32::from(b'b');
        for signs in sign_lists(6) {
            for key in KEYS.chars() {
                let code = format!("{signs}{key}");
                let wanted = match key {
                    '*' | '#' => vec![reads(&format!("{code}1"))],
                    'A'..='D' => vec![0x1000_0005, b],
                    _ => vec![reads(&code), b],
                };
                assert_eq!(typed(&format!("{code}1")), wanted, "{code}");
            }
        }
        assert_eq!(typed("*********11"), [NO_ROW.word(), b]);
    }

    #[test]
    fn ranges() {
        for (mode, last) in [(Mode::Baudot45, 143), (Mode::Baudot50, 130), (Mode::Edt, 95)] {
            for (next, good) in [(0, true), (last, true), (last + 1, false), (WAITING, true)] {
                let Reader::Frames(reader) = Reader::fresh(mode) else { unreachable!() };
                assert_eq!(Reader::Frames(FrameReader { next, ..reader }).in_range(), good);
            }
        }
        let fresh = KeyReader::fresh();
        assert!(Reader::Keys(KeyReader { level: 16, run: 40, prefix: 16, ..fresh }).in_range());
        for wrong in [
            KeyReader { level: 17, ..fresh },
            KeyReader { run: 41, ..fresh },
            KeyReader { prefix: 0, ..fresh },
            KeyReader { prefix: 17, ..fresh },
        ] {
            assert!(!Reader::Keys(wrong).in_range());
        }
    }
}
