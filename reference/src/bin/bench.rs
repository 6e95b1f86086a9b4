//! Speed of the engine and of the reference, side by side: millions of characters (sending), codes
//! (reading) or ms (calling set) a second and ns a ms (stations), the best of several rounds in
//! which the two alternate; a ratio above 1 says that the engine is faster. Then the engine's previews
//! beside its offers, and sizes. With `pass` and what `station_bench::pass` takes, one pass of a
//! station, for callgrind.

#[path = "../engine.rs"]
mod engine;
#[path = "../station_bench.rs"]
mod station_bench;

use reference::annex::LETTERS;
use reference::answer::SUCCESS;
use reference::baudot::{self, FRESH};
use reference::calling::{Set, State, MOST};
use reference::drift::Report;
use reference::random::Random;
use reference::station::Station;
use std::collections::BTreeSet;
use std::hint::black_box;
use std::process::Command;
use std::time::Instant;

const LENGTH: usize = 1 << 16;
const CALLS: usize = 32;
const ROUNDS: usize = 15;

fn main() {
    let words: Vec<String> = std::env::args().skip(1).collect();
    if words.first().is_some_and(|word| word == "pass") {
        return station_bench::pass(&words[1..]);
    }
    let mut random = Random::new(18);
    let english = random.english(LENGTH);
    let uniform = random.uniform(LENGTH, 128);
    let uniform_codes = random.uniform(LENGTH, 32);
    println!("{:<42} {:>8} {:>10} {:>6}", "million a second", "engine", "reference", "ratio");
    for (name, text) in [("English", &english), ("uniform 00 to 7F", &uniform)] {
        let worst = 2 * text.len() + 1;
        let codes = codes_of(text);
        send_row(&format!("send {name}"), text, worst);
        send_row(&format!("send {name}, slice exact"), text, codes.len());
        read_row(&format!("read codes of {name}"), &codes);
    }
    read_row("read uniform codes", &uniform_codes);
    calling_row("calling set, nothing heard", &[0; LENGTH]);
    let tones: Vec<u8> = (0..LENGTH).map(|ms| if ms % 900 < 450 { 3 } else { 0 }).collect();
    calling_row("calling set, a tone of 450 ms and none", &tones);
    calling_row("calling set, tones at random", &random_tones(&mut random));
    let mut chosen = vec![0; LENGTH];
    chosen[0] = 1;
    calling_row("calling set, choice made", &chosen);
    station_bench::rows();
    station_bench::calls();
    station_bench::previews();
    sizes();
}

/// Bytes of each state, and of the code and the constants of each library.
fn sizes() {
    println!("\n{:<42} {:>8} {:>10}", "bytes of a state", "engine", "reference");
    let row = |name: &str, engine: usize, reference: usize| {
        println!("{name:<42} {engine:>8} {reference:>10}");
    };
    row("station", size_of::<engine::Station>(), size_of::<Station>());
    row("report of edges", size_of::<Report>(), size_of::<Report>());
    row("calling set", size_of::<State>(), size_of::<Set>());
    println!("\n{:<42} {:>8} {:>10}  called", "bytes of a library", "code", "constants");
    for name in ["cuyrapaq"] {
        let library = format!("{}/lib{name}.a", env!("CQ_LIB_DIR"));
        let [size, symbols] = [["size", "-A"], ["nm", "-P"]].map(|[tool, option]| {
            let output = Command::new(tool).args([option, &library]).output();
            output.map(|output| String::from_utf8_lossy(&output.stdout).into_owned())
        });
        let (Ok(size), Ok(symbols)) = (size, symbols) else {
            println!("lib{name}.a: size and nm are not there");
            continue;
        };
        let of = |sections: &[&str]| -> usize {
            let mut columns = size.lines().map(|line| line.split_whitespace());
            let named = |name: &str| sections.iter().any(|section| name.starts_with(section));
            columns
                .by_ref()
                .filter(|line| line.clone().next().is_some_and(named))
                .filter_map(|mut line| line.nth(1)?.parse::<usize>().ok())
                .sum()
        };
        let (undefined, defined): (BTreeSet<_>, BTreeSet<_>) =
            symbols.lines().fold(Default::default(), |(mut undefined, mut defined), line| {
                let mut columns = line.split_whitespace();
                if let (Some(name), Some(kind)) = (columns.next(), columns.next()) {
                    if kind == "U" { &mut undefined } else { &mut defined }.insert(name);
                }
                (undefined, defined)
            });
        let called: Vec<_> = undefined.difference(&defined).copied().collect();
        let called = if called.is_empty() { "nothing".into() } else { called.join(" ") };
        let (code, constants) = (of(&[".text"]), of(&[".rodata", ".data", ".bss"]));
        println!("{:<42} {code:>8} {constants:>10}  {called}", format!("lib{name}.a"));
    }
}

/// Tones that must last more than 1 ms, for a few ms each.
fn random_tones(random: &mut Random) -> Vec<u8> {
    let mut tones = Vec::new();
    while tones.len() < LENGTH {
        let tone = random.pick(&[0, 3, 4, 5, 6, 7]);
        tones.resize(tones.len() + 1 + random.below(5), tone);
    }
    tones.truncate(LENGTH);
    tones
}

/// A fresh set on all the tones, in calls as long as a call may be.
fn calling_row(name: &str, tones: &[u8]) {
    let (mut sent, mut choice) = (vec![0; tones.len()], 0);
    let (mut other, mut other_choice) = (vec![0; tones.len()], 0);
    row(
        name,
        tones.len(),
        || {
            let mut state = engine::calling_fresh();
            let calls = black_box(tones).chunks(MOST).zip(black_box(&mut sent).chunks_mut(MOST));
            let answers = calls.map(|(tones, sent)| engine::calling_run(&mut state, tones, sent));
            let worst = answers.max().unwrap();
            choice = engine::calling_choice(&state).choice;
            worst
        },
        || {
            let mut set = Set::default();
            let calls = black_box(tones).chunks(MOST).zip(black_box(&mut other).chunks_mut(MOST));
            let worst = calls.map(|(tones, sent)| set.run(tones, sent)).max().unwrap();
            other_choice = set.choice();
            worst
        },
    );
    assert!((sent, choice) == (other, other_choice), "the two differ");
}

fn codes_of(text: &[u8]) -> Vec<u8> {
    let mut codes = vec![0; 2 * text.len() + 1];
    let sent = baudot::send(text, FRESH, 0, &mut codes);
    codes.truncate(sent.length);
    codes
}

fn send_row(name: &str, text: &[u8], space: usize) {
    let mut codes = vec![0; space];
    let mut other = vec![0; space];
    row(
        name,
        text.len(),
        || engine::send(black_box(text), FRESH, 0, black_box(&mut codes)).answer,
        || baudot::send(black_box(text), FRESH, 0, black_box(&mut other)).answer,
    );
    assert!(codes == other, "the two differ");
}

/// One row with a slice for the worst case, one with a slice as long as the result.
fn read_row(name: &str, codes: &[u8]) {
    let exact = baudot::read(codes, LETTERS, &mut vec![0; codes.len()]).length;
    for (addition, space) in [("", 2 * codes.len() + 1), (", slice exact", exact)] {
        let mut text = vec![0; space];
        let mut other = vec![0; space];
        row(
            &format!("{name}{addition}"),
            codes.len(),
            || engine::read(black_box(codes), LETTERS, black_box(&mut text)).answer,
            || baudot::read(black_box(codes), LETTERS, black_box(&mut other)).answer,
        );
        assert!(text == other, "the two differ");
    }
}

fn row(
    name: &str,
    length: usize,
    mut engine: impl FnMut() -> u8,
    mut reference: impl FnMut() -> u8,
) {
    let (mut best_engine, mut best_reference) = (0f64, 0f64);
    for _ in 0..ROUNDS {
        best_engine = best_engine.max(rate(length, &mut engine));
        best_reference = best_reference.max(rate(length, &mut reference));
    }
    println!(
        "{name:<42} {best_engine:>8.1} {best_reference:>10.1} {:>6.2}",
        best_engine / best_reference
    );
}

/// Millions a second.
fn rate(length: usize, conversion: &mut impl FnMut() -> u8) -> f64 {
    let start = Instant::now();
    for _ in 0..CALLS {
        assert_eq!(conversion(), SUCCESS);
    }
    (length * CALLS) as f64 / start.elapsed().as_secs_f64() / 1e6
}
