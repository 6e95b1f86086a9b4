//! Compares every head of a Baudot burst (document 02, request 101): the engine, the reference's
//! station, the send model and the codes by the bare conversion, from every shift, every count and
//! every first character. Then heads that no list of calls leads to: a preamble that is over, one
//! with none waiting, and a fresh sender in the middle of a burst. A preview must tell the ms of each
//! (request 106). Part of `differential`.

use crate::damaged_stations::{agree, in_range, reference_of, CODE_PART, PREAMBLE_PART};
use crate::engine::{OnLine, Sender, Station};
use reference::annex::FIGURES;
use reference::answer::SUCCESS;
use reference::baudot::{FRESH, REPEAT};
use reference::demand3::Entries;
use reference::line::{burst_codes, codes, preamble, signal, text_codes, Code, QUIET};
use reference::mode::Mode;
use reference::random::Random;
use reference::send_model::SendModel;
use reference::station::Ran;
use std::process::exit;

/// The quiet ms behind a burst.
const AFTER: usize = 20;

/// The engine's line outside a burst.
pub const NO_BURST: OnLine = OnLine { at: 0, part: 0, code: 0 };

const BAUDOT: [Mode; 2] = [Mode::Baudot45, Mode::Baudot50];

/// How many cases were compared.
#[derive(Default)]
struct Compared {
    heads: u64,
    over: u64,
    none_waiting: u64,
    fresh: u64,
}

/// Compares all; gives back a summary.
pub fn compare(random: &mut Random) -> String {
    let mut compared = Compared::default();
    for mode in BAUDOT {
        let characters: Vec<u8> =
            (0..128).filter(|&c| mode.alphabet().normal(c).is_some()).collect();
        for (shift, count) in senders() {
            for &character in &characters {
                head(random, mode, [shift, count], character);
                compared.heads += 1;
                preamble_over(random, mode, [shift, count], character);
                compared.over += 1;
            }
            for at in 0..=mode.preamble() {
                none_waiting(random, mode, [shift, count], at);
                compared.none_waiting += 1;
            }
        }
        compared.fresh += fresh_in_a_burst(random, mode);
    }
    for mode in [Mode::Dtmf, Mode::Edt] {
        for at in 0..=mode.preamble() {
            none_waiting(random, mode, [FRESH, 0], at);
            compared.none_waiting += 1;
        }
    }
    let Compared { heads, over, none_waiting, fresh } = compared;
    // Two modes, three shifts, 73 counts and 106 characters.
    assert_eq!((heads, over), (46_428, 46_428));
    format!(
        "heads of bursts: no difference; every shift, count and character {heads}, behind a forged \
         preamble {over}, preamble and none waiting {none_waiting}, fresh sender in a burst {fresh}; \
         the ms of each are previewed"
    )
}

/// Every shift and count.
fn senders() -> impl Iterator<Item = (u8, u8)> {
    (FRESH..=FIGURES).flat_map(|shift| (0..=REPEAT).map(move |count| (shift, count)))
}

/// An engine's station with a free line and these numbers.
pub fn forged(mode: Mode, [shift, count]: [u8; 2], line: OnLine, waiting: &[u8]) -> Station {
    let mut station = Station::open(mode.number()).1;
    station.core.sender = Sender { shift, count };
    station.core.line = line;
    station.core.waiting = waiting.len() as u16;
    station.chars[..waiting.len()].copy_from_slice(waiting);
    station
}

fn signals(mode: Mode, codes: &[Code]) -> Vec<u8> {
    codes.iter().flat_map(|code| signal(mode, code)).collect()
}

/// A character offered to a station in no burst.
fn head(random: &mut Random, mode: Mode, [shift, count]: [u8; 2], character: u8) {
    let (codes, reached) = burst_codes(mode, shift, &[character]);
    let wanted = [preamble(mode), signals(mode, &codes)].concat();
    let mut station = forged(mode, [shift, count], NO_BURST, b"");
    if station.offer(&[character]) != SUCCESS {
        differs(&station, "the offer is refused");
    }
    let after = sends(random, &station, &wanted);
    if (after.core.sender.shift, after.core.sender.count) != (reached, 1) {
        differs(&station, "the sender behind the burst");
    }
    let mut model =
        SendModel::with_sender(mode, (shift != FRESH).then_some(shift), usize::from(count));
    model.offered(&[character]);
    let mut taken = None;
    for (ms, &level) in wanted.iter().enumerate() {
        let said = model.ms(QUIET);
        taken = taken.or(said.taken.map(|character| (ms, character)));
        if said.sent != level || !said.in_burst {
            differs(&station, "the send model");
        }
    }
    let own = wanted.len() - mode.code_length();
    if taken != Some((own, character)) || model.ms(QUIET).in_burst || model.shift() != Some(reached)
    {
        differs(&station, "the send model takes it otherwise, or goes on");
    }
}

/// A preamble that is over, with a character waiting.
fn preamble_over(random: &mut Random, mode: Mode, sender: [u8; 2], character: u8) {
    let line = OnLine { at: mode.preamble(), part: PREAMBLE_PART, code: 0 };
    let (codes, _) = burst_codes(mode, sender[0], &[character]);
    let station = forged(mode, sender, line, &[character]);
    sends(random, &station, &signals(mode, &codes));
}

/// A preamble of which some ms are sent, with none waiting. In Baudot its shift code ends the burst.
fn none_waiting(random: &mut Random, mode: Mode, sender: [u8; 2], at: u16) {
    let station = forged(mode, sender, OnLine { at, part: PREAMBLE_PART, code: 0 }, b"");
    let mut wanted = preamble(mode)[usize::from(at)..].to_vec();
    if BAUDOT.contains(&mode) {
        wanted.extend(signals(mode, &burst_codes(mode, sender[0], b"").0));
    }
    sends(random, &station, &wanted);
}

/// A code on the line and a fresh sender: the bare rule. Gives back the number of cases.
fn fresh_in_a_burst(random: &mut Random, mode: Mode) -> u64 {
    let mut cases = 0;
    let length = mode.code_length();
    for (number, code) in codes(mode).iter().enumerate() {
        for at in [0, 1, length / 2, length - 1, length] {
            for count in [0, 1, 71, 72] {
                for text in [&b""[..], b"E", b"3", b" ", b"E3"] {
                    let line = OnLine { at: at as u16, part: CODE_PART, code: number as u8 };
                    let station = forged(mode, [FRESH, count], line, text);
                    let rest = &signal(mode, code)[at..];
                    let wanted = [rest, &signals(mode, &text_codes(mode, text))].concat();
                    sends(random, &station, &wanted);
                    cases += 1;
                }
            }
        }
    }
    cases
}

/// The station must send these ms on a quiet line, and then nothing, in one call and in two; a preview
/// must tell how many they are; and it must go as the reference does. Gives back the station behind
/// the burst.
fn sends(random: &mut Random, station: &Station, wanted: &[u8]) -> Station {
    // A part that is over with none waiting takes a quiet ms.
    let (previewed, ms) = ({ *station }.preview(b""), wanted.len().max(1));
    if previewed != (SUCCESS, ms as u32) {
        differs(station, &format!("previewed {previewed:?}, and it has {ms} ms"));
    }
    let heard = vec![QUIET; wanted.len() + AFTER];
    let wanted = [wanted, &[QUIET; AFTER]].concat();
    let (whole, sent) = run(station, &heard, heard.len());
    if sent != wanted {
        differs(station, &difference(&wanted, &sent));
    }
    if run(station, &heard, random.below(heard.len())) != (whole, sent) {
        differs(station, "two calls");
    }
    let mut reference = reference_of(station);
    let (mut sent, mut words) = (vec![9; heard.len()], vec![9; heard.len()]);
    let ran = reference.run(&heard, &mut sent, &mut words);
    if ran != (Ran { answer: SUCCESS, words: 0 }) || sent != wanted {
        differs(station, "the reference");
    }
    if !agree(&whole, &reference) || reference.between_bursts().is_none() || !in_range(&whole) {
        differs(station, &format!("behind the burst {whole:?}, of the reference {reference:?}"));
    }
    whole
}

/// A run of the engine in two calls, the second perhaps of no ms: the station behind it, and what it
/// has sent.
fn run(station: &Station, heard: &[u8], cut: usize) -> (Station, Vec<u8>) {
    let mut after = *station;
    let (mut sent, mut words) = (vec![9; heard.len()], vec![9; heard.len()]);
    for ms in [0..cut, cut..heard.len()] {
        let ran = after.run(&heard[ms.clone()], &mut sent[ms.clone()], &mut words[ms]);
        if ran != (Ran { answer: SUCCESS, words: 0 }) {
            differs(station, &format!("{ran:?}"));
        }
    }
    (after, sent)
}

/// The first ms in which two signals differ.
fn difference(wanted: &[u8], sent: &[u8]) -> String {
    let ms = (0..sent.len()).find(|&ms| wanted[ms] != sent[ms]).expect("a ms");
    format!("ms {ms}, sent {} and not {}", sent[ms], wanted[ms])
}

fn differs(station: &Station, what: &str) -> ! {
    let waiting = &station.chars[..usize::from(station.core.waiting)];
    println!("difference: head of a burst, {:?}, waiting {waiting:02X?}: {what}", station.core);
    exit(1);
}
