//! What a fitter sees of a wrong setting: the rows of the table in docs/MAKERS.md, section 5, that
//! speak of a setting or of a level that is swapped or lost, with every code behind every code; of a
//! signal that ends too early, with every code; and of a held space. The engine must give the words
//! that the table says. Part of `differential`.

use crate::engine::Station;
use reference::annex::{BAUDOT_READS, FIGURES, FIGURES_CODE, LETTERS, LETTERS_CODE};
use reference::answer::SUCCESS;
use reference::demand3::Entries;
use reference::fault::{Cause, Fault};
use reference::line::{codes, preamble, runs, signal, Code, MARK, QUIET, SPACE};
use reference::mode::Mode;
use std::process::exit;

const FRAMES: [Mode; 3] = [Mode::Baudot45, Mode::Baudot50, Mode::Edt];

/// The longest line of a case.
const LONGEST: usize = 1_000;

/// The leftmost digit of a Baudot code.
const LEFTMOST: u8 = 0b10000;

/// Tries all rows; gives back a summary.
pub fn check() -> String {
    let lines = wrong_parity()
        + one_stop()
        + wrong_speed()
        + swapped_levels()
        + mark_as_quiet()
        + early_ends()
        + held_spaces();
    format!("wrong settings: {lines} lines give the words of the fitter's table")
}

/// The words of a fresh station that hears a line.
fn words(mode: Mode, heard: &[u8]) -> Vec<u32> {
    let mut station = <Station as Entries>::open(mode);
    let (mut sent, mut words) = ([0; LONGEST], [0; LONGEST]);
    let ran = station.run(heard, &mut sent, &mut words);
    expect(ran.answer == SUCCESS, mode, heard, &words);
    words[..ran.words].to_vec()
}

fn expect(holds: bool, mode: Mode, heard: &[u8], found: &[u32]) {
    if !holds {
        let (mode, heard) = (mode.number(), runs(heard));
        println!("wrong settings: mode {mode} on {heard:?} gives {found:X?}");
        exit(1);
    }
}

/// A line must give exactly these words.
fn gives(mode: Mode, heard: &[u8], wanted: &[u32]) -> u64 {
    let found = words(mode, heard);
    expect(found == wanted, mode, heard, &found);
    1
}

/// The word of a fault at the sample of an element.
fn fault(mode: Mode, cause: Cause, element: usize) -> u32 {
    Fault { cause, ms: mode.sample_at(element) }.word()
}

/// Every code of a mode behind every code, by their bits.
fn pairs(mode: Mode) -> impl Iterator<Item = [u8; 2]> {
    let all = 0..codes(mode).len() as u8;
    all.clone().flat_map(move |a| all.clone().map(move |b| [a, b]))
}

/// The signal of a code by its bits.
fn sounds(mode: Mode, bits: u8) -> Vec<u8> {
    match mode {
        Mode::Edt => signal(mode, &Code::SevenBits(bits)),
        _ => signal(mode, &Code::FiveBits(bits)),
    }
}

fn both(mode: Mode, pair: [u8; 2]) -> Vec<u8> {
    pair.map(|bits| sounds(mode, bits)).concat()
}

/// EDT with odd parity, and with always mark or always space in its place: a fault where the parity
/// is not even, and nothing else. In the latter two 64 of the 128 characters pass.
fn wrong_parity() -> u64 {
    let even = |character: u8| if character.count_ones() % 2 == 1 { MARK } else { SPACE };
    let odd = |character: u8| MARK + SPACE - even(character);
    let sent = |character: u8, parity: u8| {
        let level =
            |(ms, level)| if Mode::Edt.element_at(ms) == Mode::PARITY { parity } else { level };
        sounds(Mode::Edt, character).into_iter().enumerate().map(level).collect::<Vec<u8>>()
    };
    let mut lines = 0;
    let parities: [(&dyn Fn(u8) -> u8, usize); 3] = [(&odd, 0), (&|_| MARK, 64), (&|_| SPACE, 64)];
    for (parity, passing) in parities {
        let passes = |character: u8| parity(character) == even(character);
        assert_eq!((0..128).filter(|&character| passes(character)).count(), passing);
        for pair in pairs(Mode::Edt) {
            let heard = pair.map(|character| sent(character, parity(character))).concat();
            let odd = fault(Mode::Edt, Cause::OddParity, Mode::PARITY);
            let wanted = pair.map(|c| if passes(c) { u32::from(c) } else { odd });
            lines += gives(Mode::Edt, &heard, &wanted);
        }
    }
    lines
}

/// EDT with one stop element: a fault at the second one's place where a character follows at once;
/// right text where mark lasts an element longer.
fn one_stop() -> u64 {
    let mut lines = 0;
    for pair in pairs(Mode::Edt) {
        let [a, b] = pair.map(|character| {
            let mut code = sounds(Mode::Edt, character);
            code.truncate((0..code.len()).filter(|&ms| Mode::Edt.element_at(ms) < 10).count());
            code
        });
        let heard = [&a[..], &b].concat();
        let found = words(Mode::Edt, &heard);
        let wanted = fault(Mode::Edt, Cause::StopNotMark, 10);
        expect(found.first() == Some(&wanted), Mode::Edt, &heard, &found);
        let longer = [MARK; 9];
        let heard = [&a[..], &longer, &b, &longer].concat();
        lines += 1 + gives(Mode::Edt, &heard, &pair.map(u32::from));
    }
    lines
}

/// What a fresh reader makes of these Baudot codes; where there is none, a fault of this word.
fn read(codes: &[Option<u8>], fault: u32) -> Vec<u32> {
    let mut shift = LETTERS;
    let mut words = Vec::new();
    for code in codes {
        match *code {
            None => words.push(fault),
            Some(LETTERS_CODE) => shift = LETTERS,
            Some(FIGURES_CODE) => shift = FIGURES,
            Some(code) => {
                let read = BAUDOT_READS[usize::from(shift) - 1][usize::from(code)];
                words.extend(read.map(u32::from));
            }
        }
    }
    words
}

/// Baudot at the other speed. At 50 bit/s a code of 45.45 whose leftmost digit is 0 gives a fault at
/// the stop; the others are right. At 45.45 a code of 50 is read with 1 for its leftmost digit.
fn wrong_speed() -> u64 {
    let mut lines = 0;
    for pair in pairs(Mode::Baudot45) {
        let fast = pair.map(|code| (code & LEFTMOST != 0).then_some(code));
        let wanted = read(&fast, fault(Mode::Baudot50, Cause::StopNotMark, 6));
        lines += gives(Mode::Baudot50, &both(Mode::Baudot45, pair), &wanted);
        let slow = pair.map(|code| Some(code | LEFTMOST));
        lines += gives(Mode::Baudot45, &both(Mode::Baudot50, pair), &read(&slow, 0));
    }
    lines
}

/// Bursts of two codes, with these levels for those sent, and quiet behind: what is said of the words
/// must hold.
fn bursts(level: impl Fn(u8) -> u8, holds: impl Fn(Mode, &[u32]) -> bool) -> u64 {
    let mut lines = 0;
    for mode in FRAMES {
        for pair in pairs(mode) {
            let sent = [preamble(mode), both(mode, pair)].concat();
            let line: Vec<u8> = sent.into_iter().map(&level).collect();
            let heard = [&line[..], &[QUIET; 200]].concat();
            let found = words(mode, &heard);
            expect(holds(mode, &found), mode, &heard, &found);
            lines += 1;
        }
    }
    lines
}

/// Mark and space swapped: the preamble is a held space, and the first word its fault at the stop.
fn swapped_levels() -> u64 {
    bursts(
        |level| MARK + SPACE - level,
        |mode, words| words.first() == Some(&fault(mode, Cause::StopNotMark, mode.stops().start)),
    )
}

/// Mark reported as quiet: faults by quiet alone, and never a character.
fn mark_as_quiet() -> u64 {
    let by_quiet =
        |mode, word| Fault::of_word(mode, word).is_some_and(|fault| fault.cause == Cause::Quiet);
    bursts(
        |level| if level == MARK { QUIET } else { level },
        |mode, words| !words.is_empty() && words.iter().all(|&word| by_quiet(mode, word)),
    )
}

/// A signal that ends behind the last sample of a digit or parity: quiet at the first stop's sample
/// that it does not reach, and nothing else.
fn early_ends() -> u64 {
    let mut lines = 0;
    for mode in FRAMES {
        for code in codes(mode) {
            let signal = signal(mode, &code);
            for stop in mode.stops() {
                for ms in mode.sample_at(stop - 1) + 1..=mode.sample_at(stop) {
                    let heard = [&signal[..ms], &[QUIET; 200]].concat();
                    lines += gives(mode, &heard, &[fault(mode, Cause::Quiet, stop)]);
                }
            }
        }
    }
    lines
}

/// Space that is held until behind the first stop's sample: one fault there, however long it lasts.
fn held_spaces() -> u64 {
    let mut lines = 0;
    for mode in FRAMES {
        let stop = mode.stops().start;
        for ms in mode.sample_at(stop) + 1..LONGEST - 200 {
            let heard = [vec![SPACE; ms], vec![QUIET; 200]].concat();
            lines += gives(mode, &heard, &[fault(mode, Cause::StopNotMark, stop)]);
        }
    }
    lines
}
