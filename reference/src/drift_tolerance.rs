//! How far the edges of a Baudot burst may be moved (document 02, request 111): by 4 ms either way, each
//! on its own, and at 45.45 bit/s by 5, the engine must read what it reads of the burst as it was sent,
//! hunting when the burst arrives. One ms more breaks it. Part of `differential`.

use crate::drifts::moved;
use crate::engine::Station;
use crate::met::must_meet;
use reference::annex::{FIGURES, FIGURES_CODE, LETTERS, LETTERS_CODE};
use reference::answer::SUCCESS;
use reference::demand3::Entries;
use reference::drift::{Drifts, Report};
use reference::line::{codes, preamble, runs, signal, text_codes, Code, MARK, QUIET, SPACE};
use reference::mode::Mode;
use reference::random::Random;
use reference::station::MOST_MS;
use std::process::exit;

/// The random bursts of a mode, and the quiet ahead of and behind each; it is longer than any edge is
/// moved.
const BURSTS: usize = 2_000;
const AROUND: usize = 12;

/// How many ms the edges may be moved.
fn tolerance(mode: Mode) -> usize {
    if mode == Mode::Baudot45 {
        5
    } else {
        4
    }
}

/// Tries all; gives back a summary.
pub fn check(random: &mut Random) -> String {
    let lines = [Mode::Baudot45, Mode::Baudot50].map(|mode| {
        let most = tolerance(mode);
        let extremes = extremes(mode);
        let mut broken = 0;
        for _ in 0..BURSTS {
            let burst = burst(random, mode);
            let clear = reads(mode, &burst);
            same(mode, &burst, &moved(random, &burst, most), &clear);
            broken += u64::from(reads(mode, &moved(random, &burst, most + 1)).0 != clear.0);
        }
        narrow_start(mode);
        let broken = must_meet("tolerance", mode, "broken by one ms more", broken);
        format!(
            "  mode {}: by up to {most} ms, bursts {BURSTS}, every code with every edge moved as far as \
             can be {extremes}; {broken}",
            mode.number()
        )
    });
    format!("moved edges: each burst is read as it was sent\n{}", lines.join("\n"))
}

/// What a fresh station reads: its words, its reader's shift, and how many edges count.
type Read = (Vec<u32>, u8, u32);

fn reads(mode: Mode, heard: &[u8]) -> Read {
    let mut station = <Station as Entries>::open(mode);
    let (mut sent, mut words, mut report) = ([0; MOST_MS], [0; MOST_MS], Report::default());
    let mut all = Vec::new();
    for heard in heard.chunks(MOST_MS) {
        let ran = station.run_drift(heard, &mut sent, &mut words, &mut report);
        assert_eq!(ran.answer, SUCCESS);
        all.extend(&words[..ran.words]);
    }
    (all, station.core.reader.shift, report.edges)
}

/// A moved burst must be read as the burst; there, no word is a fault.
fn same(mode: Mode, burst: &[u8], moved: &[u8], wanted: &Read) {
    let found = reads(mode, moved);
    if found != *wanted || found.0.iter().any(|&word| word > 0x7F) {
        println!("difference: moved edges, mode {}, {:?}", mode.number(), runs(burst));
        println!("moved {:?}: {found:X?} and {wanted:X?}", runs(moved));
        exit(1);
    }
}

/// The signal of a burst of these codes, with quiet around it.
fn line(mode: Mode, codes: &[Code]) -> Vec<u8> {
    let mut line = [vec![QUIET; AROUND], preamble(mode)].concat();
    codes.iter().for_each(|code| line.extend(signal(mode, code)));
    line.extend([QUIET; AROUND]);
    line
}

/// A burst of a random text.
fn burst(random: &mut Random, mode: Mode) -> Vec<u8> {
    let length = 1 + random.below(8);
    let text = match random.below(2) {
        0 => random.english(length),
        _ => random.uniform(length, 128),
    };
    line(mode, &text_codes(mode, &text))
}

/// Every code by itself, with each of its edges, begin and end among them, as early or as late as can
/// be, in every combination. Gives back how many.
fn extremes(mode: Mode) -> u64 {
    let mut lines = 0;
    for code in codes(mode) {
        let clear = line(mode, &[code]);
        let wanted = reads(mode, &clear);
        let levels = runs(&clear);
        for late in 0u32..1 << (levels.len() - 1) {
            let mut moved = Vec::new();
            let mut end = 0;
            for (number, &(level, length)) in levels.iter().enumerate() {
                end += length;
                let is_late = late >> number & 1 == 1;
                let by = tolerance(mode);
                moved.resize(if is_late { end + by } else { end - by }, level);
            }
            same(mode, &clear, &moved, &wanted);
            lines += 1;
        }
    }
    lines
}

/// 11111 behind figures, whose start comes late and ends early. Within the tolerance it is read; one ms
/// more and its start is too short, and the character behind it is read in figures.
fn narrow_start(mode: Mode) {
    let five = |code: u8| Code::FiveBits(code);
    let codes = [FIGURES_CODE, LETTERS_CODE, 0b00011].map(five);
    let clear = line(mode, &codes);
    let start = AROUND + usize::from(mode.preamble()) + mode.code_length();
    let narrow = |by: usize| {
        let mut line = clear.clone();
        line[start..start + mode.element()].fill(MARK);
        line[start + by..start + mode.element() - by].fill(SPACE);
        reads(mode, &line)
    };
    let by = tolerance(mode);
    let (within, beyond) = (narrow(by), narrow(by + 1));
    let a = u32::from(b'A');
    let good = (&within.0[..], within.1) == (&[a], LETTERS)
        && (&beyond.0[..], beyond.1) == (&[u32::from(b'-')], FIGURES)
        && reads(mode, &clear) == within;
    if !good {
        println!("difference: a narrow start, mode {}: {within:X?}, {beyond:X?}", mode.number());
        exit(1);
    }
}
