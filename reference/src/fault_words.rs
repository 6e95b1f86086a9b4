//! Compares the words of spoiled codes (document 02, request 103): frames with every level at every
//! sample, in Baudot in both shifts, and every key behind every list of up to four * and #, each with
//! a clean code behind it. The engine must give the words of the reference's reader, each in its ms:
//! in one call, with each sample in a call of its own, and in two calls. Part of `differential`.

use crate::engine::Station;
use reference::annex::{FIGURES_CODE, LETTERS_CODE};
use reference::answer::SUCCESS;
use reference::demand3::Entries;
use reference::fault::{Cause, Fault};
use reference::line::{codes, runs, sign_lists, signal, Code, KEYS, MARK, QUIET, SPACE};
use reference::mode::Mode;
use reference::random::Random;
use reference::reader::{Hear, Reader, IN_A_ROW};
use reference::station::Ran;
use std::process::exit;

/// The longest line of a case.
const LONGEST: usize = 800;

/// The * and # ahead of a key.
const MOST_SIGNS: usize = 4;

/// Where the cuts come from, and how many words of each cause were alike; characters stand at 0.
struct Comparison<'a> {
    random: &'a mut Random,
    words: [u64; 6],
}

/// A word and the ms of the line in which it comes.
type Word = (usize, u32);

/// Compares all; gives back a summary.
pub fn compare(random: &mut Random) -> String {
    let mut comparison = Comparison { random, words: [0; 6] };
    let (mut single, mut frames) = (0, 0);
    for mode in [Mode::Baudot45, Mode::Baudot50, Mode::Edt] {
        single += comparison.single_samples(mode);
        frames += comparison.all_samples(mode);
    }
    let keys = comparison.all_keys();
    // In Baudot two modes and two shifts, in EDT two parities with one sample set.
    assert_eq!(single, 4 * (32 * 7 * 3) + 2 * (128 * 11 * 3));
    assert_eq!(frames, 4 * 3u64.pow(7) + 3u64.pow(11));
    assert_eq!(keys, 31 * 16);
    let cause = |cause: Cause| comparison.words[cause as usize];
    format!(
        "words of spoiled codes: no difference; frames with one sample set {single}, with every level \
         at every sample {frames}, keys behind * and # {keys}; characters {}, faults by quiet {}, by a \
         stop {}, by parity {}, by no row {}, by A to D {}",
        comparison.words[0],
        cause(Cause::Quiet),
        cause(Cause::StopNotMark),
        cause(Cause::OddParity),
        cause(Cause::NoRow),
        cause(Cause::LetterKey),
    )
}

/// The samples of a frame.
fn samples(mode: Mode) -> Vec<usize> {
    (0..mode.elements()).map(|element| mode.sample_at(element)).collect()
}

impl Comparison<'_> {
    /// Every code, in EDT with either parity, with each level in the ms of each sample. Gives back
    /// the number of frames.
    fn single_samples(&mut self, mode: Mode) -> u64 {
        let mut frames = 0;
        for code in codes(mode) {
            let clean = signal(mode, &code);
            let mut signals = vec![clean.clone()];
            if mode == Mode::Edt {
                let odd = |(ms, &level)| match mode.element_at(ms) {
                    Mode::PARITY => MARK + SPACE - level,
                    _ => level,
                };
                signals.push(clean.iter().enumerate().map(odd).collect());
            }
            for signal in signals {
                for &sample in &samples(mode) {
                    for level in [QUIET, MARK, SPACE] {
                        let mut frame = signal.clone();
                        frame[sample] = level;
                        frames += self.frame(mode, &frame);
                    }
                }
            }
        }
        frames
    }

    /// Every list of levels, one for each element; ms 0 is space. Gives back the number of frames.
    fn all_samples(&mut self, mode: Mode) -> u64 {
        let mut frames = 0;
        for number in 0..3usize.pow(mode.elements() as u32) {
            let level = |element| (number / 3usize.pow(element as u32) % 3) as u8;
            let levels: Vec<u8> = (0..mode.elements()).map(level).collect();
            let mut frame: Vec<u8> =
                (0..mode.code_length()).map(|ms| levels[mode.element_at(ms)]).collect();
            frame[0] = SPACE;
            frames += self.frame(mode, &frame);
        }
        frames
    }

    /// A frame and a clean code behind it, in Baudot behind each shift code. Gives back how often.
    fn frame(&mut self, mode: Mode, frame: &[u8]) -> u64 {
        if mode == Mode::Edt {
            let next = signal(mode, &Code::SevenBits(b'A'));
            self.hears(mode, &[frame, &next].concat(), &samples(mode));
            return 1;
        }
        let next = signal(mode, &Code::FiveBits(0b00011));
        for shift in [LETTERS_CODE, FIGURES_CODE] {
            let shift = signal(mode, &Code::FiveBits(shift));
            let alone: Vec<_> = samples(mode).iter().map(|ms| shift.len() + ms).collect();
            self.hears(mode, &[&shift, frame, &next].concat(), &alone);
        }
        2
    }

    /// Every key behind every list of signs, and 1 behind it, which shows the signs in hand. Gives
    /// back the number of cases.
    fn all_keys(&mut self) -> u64 {
        let mut cases = 0;
        for signs in sign_lists(MOST_SIGNS) {
            for key in KEYS.chars() {
                let keys = format!("{signs}{key}1");
                let counts = |place| place * Mode::Dtmf.code_length() + usize::from(IN_A_ROW) - 1;
                let alone: Vec<_> = (0..keys.len()).map(counts).collect();
                self.hears(Mode::Dtmf, &signal(Mode::Dtmf, &Code::Keys(keys)), &alone);
                cases += 1;
            }
        }
        cases
    }

    /// A fresh station on both sides hears a line; each of these ms is a call of its own once.
    fn hears(&mut self, mode: Mode, heard: &[u8], alone: &[usize]) {
        let mut reader = Reader::fresh(mode);
        let words = heard.iter().enumerate().map(|(ms, &level)| (ms, reader.hear(level)));
        let wanted: Vec<Word> =
            words.filter_map(|(ms, word)| word.map(|word| (ms, word))).collect();
        let alone: Vec<usize> = alone.iter().flat_map(|&ms| [ms, ms + 1]).collect();
        let two = [self.random.below(heard.len())];
        let after = run(mode, heard, &[], &wanted);
        for cuts in [&alone[..], &two] {
            if run(mode, heard, cuts, &wanted) != after {
                differs(mode, heard, &format!("the station after calls that end at {cuts:?}"));
            }
        }
        for (_, word) in wanted {
            let fault = Fault::of_word(mode, word);
            self.words[fault.map_or(0, |fault| fault.cause as usize)] += 1;
        }
    }
}

/// A run of the engine in calls that end ahead of these ms; each must give the words of its ms. Gives
/// back the station after it.
fn run(mode: Mode, heard: &[u8], cuts: &[usize], wanted: &[Word]) -> Station {
    let mut station = <Station as Entries>::open(mode);
    let (mut sent, mut words) = ([0; LONGEST], [0; LONGEST]);
    let (mut from, mut left) = (0, wanted);
    for &to in cuts.iter().chain([&heard.len()]) {
        let (now, later) = left.split_at(left.partition_point(|&(ms, _)| ms < to));
        let ran = station.run(&heard[from..to], &mut sent, &mut words);
        let alike = now.iter().zip(&words).all(|(&(_, word), &found)| word == found);
        if ran != (Ran { answer: SUCCESS, words: now.len() }) || !alike {
            let found = words.get(..ran.words);
            differs(mode, heard, &format!("ms {from} to {to}: {now:X?} and {ran:?}, {found:X?}"));
        }
        (from, left) = (to, later);
    }
    station
}

fn differs(mode: Mode, heard: &[u8], what: &str) -> ! {
    let (mode, heard) = (mode.number(), runs(heard));
    println!("difference: words of a spoiled code, mode {mode}, {heard:?}: {what}");
    exit(1);
}
