//! Compares the engine with the reference on random conversions, on a calling set's random ms, on
//! every head of a Baudot burst, on every spoiled frame, on stations' random calls, refused and
//! damaged ones among them, on previews and on reports of edges, and checks the ceiling of sending time,
//! how far edges may be moved, what a fitter is told of wrong settings, and demand 3 with the engine as
//! both stations. Arguments: number of cases (one sending, one reading, four ms of the calling set, and
//! in each mode 35 ms of stations and 200 ms that previews tell), seed. Exit 1 on a difference.

#[path = "../burst_heads.rs"]
mod burst_heads;
#[path = "../calling_sessions.rs"]
mod calling_sessions;
#[path = "../ceilings.rs"]
mod ceilings;
#[path = "../damaged_stations.rs"]
mod damaged_stations;
#[path = "../drift_lines.rs"]
mod drift_lines;
#[path = "../drift_ranges.rs"]
mod drift_ranges;
#[path = "../drift_tolerance.rs"]
mod drift_tolerance;
#[path = "../drifts.rs"]
mod drifts;
#[path = "../engine.rs"]
mod engine;
#[path = "../fault_words.rs"]
mod fault_words;
#[path = "../met.rs"]
mod met;
#[path = "../previews.rs"]
mod previews;
#[path = "../station_sessions.rs"]
mod station_sessions;
#[path = "../wrong_settings.rs"]
mod wrong_settings;

use reference::annex::{FIGURES, LETTERS};
use reference::answer::{CHARACTER, CODE, RESULT_SLICE, STATE, SUCCESS};
use reference::baudot::{self, FRESH, REPEAT};
use reference::demand3_lists::{check_lists, Summary};
use reference::mode::Mode;
use reference::normal::Alphabet;
use reference::random::Random;
use std::fmt::Debug;
use std::process::exit;

/// The longest text of a case, and the room its codes may need.
const LONGEST: usize = 5000;
const ROOM: usize = 2 * LONGEST + 1;

/// Bytes kept around an output slice, to see writes outside it.
const MARGIN: usize = 16;

/// How often each answer was met.
type Tally = [u64; 256];

fn main() {
    let mut arguments = std::env::args().skip(1);
    let mut number = |default| match arguments.next() {
        Some(argument) => argument.parse().expect("a number"),
        None => default,
    };
    let (cases, seed) = (number(1_000_000), number(18));
    let mut random = Random::new(seed);
    let (mut sends, mut reads) = ([0; 256], [0; 256]);

    every_single_byte();
    let mut round_trips = 0u64;
    for _ in 0..cases {
        sends[usize::from(random_send(&mut random))] += 1;
        reads[usize::from(random_read(&mut random))] += 1;
        round_trips += u64::from(round_trip(&mut random));
    }

    let met = |name: &str, tally: &Tally, answers: [u8; 4]| {
        let counts = answers.map(|answer| {
            let count = tally[usize::from(answer)];
            if count == 0 {
                println!("{name} never answered {answer}");
                exit(1);
            }
            format!("{answer}: {count}")
        });
        format!("{name} {}", counts.join(", "))
    };
    println!(
        "no difference; cases {cases}, seed {seed}; {}; {}; read back {round_trips}",
        met("send", &sends, [SUCCESS, STATE, CHARACTER, RESULT_SLICE]),
        met("read", &reads, [SUCCESS, STATE, RESULT_SLICE, CODE]),
    );
    println!("{}", calling_sessions::compare(&mut random, (4 * cases).max(1_000_000)));
    println!("{}", burst_heads::compare(&mut random));
    println!("{}", fault_words::compare(&mut random));
    println!("{}", wrong_settings::check());
    println!("{}", station_sessions::compare(&mut random, (30 * cases).max(1_000_000)));
    println!("{}", damaged_stations::check(&mut random, 10_000));
    println!("{}", previews::compare(&mut random, (200 * cases).max(50_000_000)));
    println!("{}", ceilings::compare(&mut random));
    println!("{}", drifts::compare(&mut random));
    println!("{}", drift_ranges::check(&mut random));
    println!("{}", drift_tolerance::check(&mut random));
    for mode in Mode::ALL {
        println!("{}", demand_3(mode, seed, (5 * cases as usize).max(500_000)));
    }
}

/// Demand 3 on random lists, with the engine as both stations.
fn demand_3(mode: Mode, seed: u64, ms: usize) -> String {
    let summary = match check_lists::<engine::Station>(mode, seed, ms) {
        Ok(summary) => summary,
        Err(error) => {
            println!("demand 3: {error}");
            exit(1);
        }
    };
    let Summary { ms, idle, compared, read, most_before, just_inhibited } = summary;
    if [idle, compared, read, just_inhibited].contains(&0) {
        println!("demand 3, mode {}: not tried, {summary:?}", mode.number());
        exit(1);
    }
    format!(
        "demand 3, mode {}: holds; ms {ms}, idle periods {idle}, ms compared {compared}, characters \
         read {read}, most before synchronizing {most_before}, just inhibited {just_inhibited}",
        mode.number()
    )
}

/// Every text and every code of one byte, at the ends of the ranges.
fn every_single_byte() {
    for byte in 0..=255 {
        for shift in [0, 1, 2, 3, 255] {
            for space in 0..=4 {
                for count in [0, 1, 71, 72, 73, 255] {
                    compare_send(&[byte], shift, count, space);
                }
                compare_read(&[byte], shift, space);
            }
        }
    }
}

/// Compares one sending; gives back the answer.
fn random_send(random: &mut Random) -> u8 {
    let mut text = random_text(random);
    let shift = random_shift(random, FRESH);
    let count = match random.below(16) {
        0 => random.bits() as u8,
        1 => REPEAT + 1,
        2..=3 => REPEAT,
        _ => random.below(usize::from(REPEAT) + 1) as u8,
    };
    let needed = baudot::send(&text, shift, count, &mut [0; ROOM]).length;
    let space = random_space(random, needed, 2 * text.len() + 1);
    damage(random, &mut text, 0x80);
    compare_send(&text, shift, count, space)
}

/// Compares one reading; gives back the answer.
fn random_read(random: &mut Random) -> u8 {
    let mut codes = if random.one_in(2) {
        let mut codes = vec![0; ROOM];
        let sent = baudot::send(&random_text(random), FRESH, 0, &mut codes);
        codes.truncate(sent.length);
        codes
    } else {
        let length = random_length(random);
        random.uniform(length, 32)
    };
    let shift = random_shift(random, LETTERS);
    let needed = baudot::read(&codes, shift, &mut [0; ROOM]).length;
    let space = random_space(random, needed, codes.len());
    damage(random, &mut codes, 0x20);
    compare_read(&codes, shift, space)
}

/// Sends a text and reads it back with the engine alone: that must give its normal form, and
/// leave the reader in the sender's shift. False if the text sends nothing.
fn round_trip(random: &mut Random) -> bool {
    let text = random_text(random);
    let shift = random.below(3) as u8;
    let count = random.below(usize::from(REPEAT) + 1) as u8;
    let (mut codes, mut back) = ([0; ROOM], [0; ROOM]);
    let sent = engine::send(&text, shift, count, &mut codes);
    // Any reader follows a fresh sender; else the reader has the sender's shift.
    let start = if shift == FRESH { random.pick(&[LETTERS, FIGURES]) } else { shift };
    let codes = codes.get(..sent.length).unwrap_or(&codes);
    let read = engine::read(codes, start, &mut back);
    let normal = Alphabet::Baudot.normal_list(&text);
    let good = (sent.answer, read.answer) == (SUCCESS, SUCCESS)
        && back.get(..read.length) == Some(&normal)
        && (codes.is_empty() || read.shift == sent.shift);
    if !good {
        println!("difference: sent and read back is not the normal form");
        println!("text {text:02X?}, shift {shift}, count {count}, reader in {start}");
        println!("{sent:?}, codes {codes:?}");
        println!("{read:?}");
        println!("normal form {normal:02X?}");
        exit(1);
    }
    !normal.is_empty()
}

fn random_length(random: &mut Random) -> usize {
    match random.below(64) {
        0 => random.below(LONGEST + 1),
        1..=8 => random.below(6),
        _ => random.below(300),
    }
}

fn random_text(random: &mut Random) -> Vec<u8> {
    let length = random_length(random);
    match random.below(8) {
        0..=2 => random.english(length),
        3..=5 => random.uniform(length, 128),
        // Few kinds of character, so that the shift seldom changes.
        _ => {
            let kinds = random.uniform(3, 128);
            (0..length).map(|_| random.pick(&kinds)).collect()
        }
    }
}

/// A shift from `least` to 2, now and then another.
fn random_shift(random: &mut Random, least: u8) -> u8 {
    match random.below(16) {
        0 => random.bits() as u8,
        1 => random.pick(&[least.wrapping_sub(1), FIGURES + 1]),
        _ => least + random.below(usize::from(FIGURES + 1 - least)) as u8,
    }
}

/// The length of an output slice: too short, exactly right, longer, or the worst case.
fn random_space(random: &mut Random, needed: usize, worst: usize) -> usize {
    match random.below(8) {
        0 => needed.saturating_sub(1),
        1 => random.below(needed + 1),
        2..=3 => needed,
        4 => needed + 1 + random.below(8),
        5 => random.below(worst + 1),
        _ => worst,
    }
}

/// Puts a byte of at least `limit` somewhere, one time in eight.
fn damage(random: &mut Random, bytes: &mut [u8], limit: u8) {
    if !bytes.is_empty() && random.one_in(8) {
        let place = random.below(bytes.len());
        bytes[place] = match random.below(3) {
            0 => limit,
            _ => limit + random.below(256 - usize::from(limit)) as u8,
        };
    }
}

fn compare_send(text: &[u8], shift: u8, count: u8, space: usize) -> u8 {
    compare(
        || format!("send {text:02X?}, shift {shift}, count {count}"),
        space,
        |codes| baudot::send(text, shift, count, codes),
        |codes| engine::send(text, shift, count, codes),
    )
    .answer
}

fn compare_read(codes: &[u8], shift: u8, space: usize) -> u8 {
    compare(
        || format!("read {codes:?}, shift {shift}"),
        space,
        |text| baudot::read(codes, shift, text),
        |text| engine::read(codes, shift, text),
    )
    .answer
}

/// Runs both on an output slice of length `space` and compares the results, and the slices with
/// their surroundings. The pattern in them is above any code and character.
fn compare<R: Debug + PartialEq>(
    case: impl Fn() -> String,
    space: usize,
    reference: impl Fn(&mut [u8]) -> R,
    engine: impl Fn(&mut [u8]) -> R,
) -> R {
    let pattern: Vec<u8> =
        (0..space + 2 * MARGIN).map(|i| 0x80 | (i as u8).wrapping_mul(37)).collect();
    let run = |conversion: &dyn Fn(&mut [u8]) -> R| {
        let mut output = pattern.clone();
        let result = conversion(&mut output[MARGIN..MARGIN + space]);
        (result, output)
    };
    let (wanted, found) = (run(&reference), run(&engine));
    if wanted != found {
        println!("difference: {}, output slice of {space}", case());
        println!("reference {:?}", wanted.0);
        println!("engine    {:?}", found.0);
        let differs = |i: &usize| wanted.1[*i] != found.1[*i];
        if let Some(i) = (0..wanted.1.len()).find(differs) {
            let place = i as isize - MARGIN as isize;
            println!("output[{place}]: reference {:02X}, engine {:02X}", wanted.1[i], found.1[i]);
        }
        exit(1);
    }
    wanted.0
}
