//! Stations of the engine and of the reference, side by side: ns a ms, in Baudot also with a report of
//! the edges, where valgrind is there also instructions a ms, and the first and the millionth call. Then
//! the engine's previews beside its offers. Part of `bench`.

use crate::engine;
use reference::answer::SUCCESS;
use reference::demand3::Entries;
use reference::drift::{Drifts, Report};
use reference::line::{preamble, signal, text_codes, QUIET};
use reference::mode::Mode;
use reference::normal::Alphabet;
use reference::random::Random;
use reference::station::{Station, MOST_MS, MOST_WAITING};
use std::hint::black_box;
use std::process::Command;
use std::time::Instant;

/// The ms of a pass; 256 waiting characters take longer in every mode.
const LENGTH: usize = 4 * MOST_MS;
const PASSES: usize = 12;
const ROUNDS: usize = 100;

/// The ms of a short call.
const SHORT: usize = 20;

/// The characters of a short burst.
const TURN: usize = 20;

/// What a station has to do: the text it was offered, the text it is offered ahead of each `MOST_MS`
/// ms, and what it hears; and whether it is given a report.
struct Work {
    name: &'static str,
    mode: Mode,
    text: Vec<u8>,
    turns: Vec<u8>,
    heard: Vec<u8>,
    report: bool,
}

/// The places of two works.
const SENDING: usize = 1;
const READING: usize = 2;

fn works(mode: Mode) -> Vec<Work> {
    let random = &mut Random::new(18);
    let work =
        |name, text, heard| Work { name, mode, text, turns: Vec::new(), heard, report: false };
    let mut reading = preamble(mode);
    while reading.len() < LENGTH {
        for code in text_codes(mode, &random.english(100)) {
            reading.extend(signal(mode, &code));
        }
    }
    reading.truncate(LENGTH);
    // English without the characters that send nothing in the mode.
    let mut text = random.english(2 * MOST_WAITING);
    text.retain(|&character| mode.alphabet().normal(character).is_some());
    text.truncate(MOST_WAITING);
    let noise = random.uniform(LENGTH, usize::from(mode.highest_level()) + 1);
    let none = Vec::new;
    let turns = text[..TURN].to_vec();
    let bursts = Work { turns, ..work("bursts of 20", none(), vec![QUIET; LENGTH]) };
    let drift = Work { report: true, ..work("reading, report", none(), reading.clone()) };
    let mut works = vec![
        work("idle", none(), vec![QUIET; LENGTH]),
        work("sending", text, vec![QUIET; LENGTH]),
        work("reading", none(), reading),
    ];
    works.extend((mode.alphabet() == Alphabet::Baudot).then_some(drift));
    works.extend([work("noise", none(), noise), bursts]);
    works
}

/// A row for each mode, work and length of a call.
pub fn rows() {
    let counting = Command::new("valgrind").arg("--version").output().is_ok();
    print!("\n{:<42} {:>8} {:>10} {:>6}", "station, ns a ms", "engine", "reference", "ratio");
    println!("{}", if counting { "  instructions a ms" } else { "" });
    for mode in Mode::ALL {
        for (number, work) in works(mode).iter().enumerate() {
            for call in [MOST_MS, SHORT] {
                let [engine, reference] = ns(work, call);
                let name = format!("mode {}, {}, calls of {call} ms", mode.number(), work.name);
                print!("{name:<42} {engine:>8.2} {reference:>10.2} {:>6.2}", reference / engine);
                if counting {
                    for (side, entries) in SIDES {
                        let entry = entries[usize::from(work.report)];
                        let count = instructions(side, entry, mode, number, call);
                        print!(" {:>9}", count.map_or("-".into(), |count| format!("{count:.1}")));
                    }
                }
                println!();
            }
        }
    }
}

/// The two sides, and the functions of each that callgrind is to count, without a report and with one.
const SIDES: [(&str, [&str; 2]); 2] = [
    ("engine", ["cq_station_run", "cq_station_run_drift"]),
    ("reference", ["reference::station::Station::run*"; 2]),
];

/// The instructions a ms of one pass, which another process of this program makes.
fn instructions(side: &str, entry: &str, mode: Mode, work: usize, call: usize) -> Option<f64> {
    let output = Command::new("valgrind")
        .args(["--tool=callgrind", "--callgrind-out-file=/dev/null"])
        .arg(format!("--toggle-collect={entry}"))
        .arg(std::env::current_exe().ok()?)
        .args(["pass", side, &mode.number().to_string(), &work.to_string(), &call.to_string()])
        .output()
        .ok()?;
    let said = String::from_utf8_lossy(&output.stderr).into_owned();
    let (_, count) = said.split_once("Collected :")?;
    let count: f64 = count.split_whitespace().next()?.parse().ok()?;
    (count > 0.0).then_some(count / LENGTH as f64)
}

/// One pass of a side, to be counted: the side, the mode, the work and the ms of a call.
pub fn pass(words: &[String]) {
    let number = |place: usize| words[place].parse::<usize>().expect("a number");
    let mode = Mode::from_number(number(1) as u8).expect("a mode");
    let work = &works(mode)[number(2)];
    if words[0] == "engine" {
        Pass::<engine::Station>::new(work).play(work, number(3));
    } else {
        Pass::<Station>::new(work).play(work, number(3));
    }
}

/// The ns a ms of the engine and of the reference.
fn ns(work: &Work, call: usize) -> [f64; 2] {
    let (mut engine, mut reference) =
        (Pass::<engine::Station>::new(work), Pass::<Station>::new(work));
    let mut best = [f64::INFINITY; 2];
    for _ in 0..ROUNDS {
        best[0] = best[0].min(engine.time(work, call));
        best[1] = best[1].min(reference.time(work, call));
    }
    let same = (engine.sent, engine.words, engine.count, engine.report)
        == (reference.sent, reference.words, reference.count, reference.report);
    assert!(same, "the two differ");
    best
}

/// A station before a pass, and what the pass gives.
struct Pass<S> {
    station: S,
    sent: Vec<u8>,
    words: Vec<u32>,
    count: usize,
    report: Report,
}

impl<S: Drifts> Pass<S> {
    fn new(work: &Work) -> Pass<S> {
        let mut station = S::open(work.mode);
        assert_eq!(station.offer(&work.text), SUCCESS);
        let (sent, words) = (vec![0; LENGTH], vec![0; LENGTH]);
        Pass { station, sent, words, count: 0, report: Report::default() }
    }

    /// The ns a ms of some passes.
    fn time(&mut self, work: &Work, call: usize) -> f64 {
        let start = Instant::now();
        for _ in 0..PASSES {
            self.play(work, call);
        }
        start.elapsed().as_secs_f64() * 1e9 / (PASSES * LENGTH) as f64
    }

    fn play(&mut self, work: &Work, call: usize) {
        let mut station = black_box(&self.station).clone();
        (self.count, self.report) = (0, Report::default());
        let calls = black_box(&work.heard).chunks(call).zip(self.sent.chunks_mut(call));
        for (number, (heard, sent)) in calls.enumerate() {
            if !work.turns.is_empty() && number * call % MOST_MS < call {
                assert_eq!(station.offer(&work.turns), SUCCESS);
            }
            let words = &mut self.words[self.count..];
            let ran = match work.report {
                true => station.run_drift(heard, sent, words, &mut self.report),
                false => station.run(heard, sent, words),
            };
            assert_eq!(ran.answer, SUCCESS);
            self.count += ran.words;
        }
        black_box(&station);
    }
}

/// The first and the millionth call of a station that reads, and the mean of the first and of the
/// last thousand.
pub fn calls() {
    const CALLS: usize = 1_000_000;
    let name = format!("station, ns a call of {SHORT} ms");
    println!("\n{name:<42} {:>8} {:>10}", "engine", "reference");
    let work = &works(Mode::Baudot45)[READING];
    let (engine, reference) =
        (call_times::<engine::Station>(work, CALLS), call_times::<Station>(work, CALLS));
    let mean = |ns: &[u32]| ns.iter().sum::<u32>() / ns.len() as u32;
    for (name, of) in [
        ("first", &(|ns: &[u32]| ns[0]) as &dyn Fn(&[u32]) -> u32),
        ("millionth", &|ns| ns[CALLS - 1]),
        ("mean of the first thousand", &|ns| mean(&ns[..1000])),
        ("mean of the last thousand", &|ns| mean(&ns[CALLS - 1000..])),
    ] {
        println!("{name:<42} {:>8} {:>10}", of(&engine), of(&reference));
    }
}

/// ns of an offer of 256 characters to a fresh station, and of a preview: while these wait, and of
/// these as its text. The ratio is that of the preview to the offer.
pub fn previews() {
    println!("\n{:<42} {:>8} {:>10} {:>6}", "station, ns a call", "offer", "preview", "ratio");
    for mode in Mode::ALL {
        let english = works(mode)[SENDING].text.clone();
        let mut texts = vec![("English", english)];
        if matches!(mode, Mode::Baudot45 | Mode::Baudot50) {
            texts.push(("1A1A..", b"1A".repeat(MOST_WAITING / 2)));
        }
        for (name, text) in texts {
            let [offer, waiting, offered] = preview_ns(mode, &text);
            for (what, preview) in [("256 waiting", waiting), ("text of 256", offered)] {
                let name = format!("mode {}, {what}, {name}", mode.number());
                println!("{name:<42} {offer:>8.0} {preview:>10.0} {:>6.2}", preview / offer);
            }
        }
    }
}

/// The ns of the offer, of a preview behind it and of a preview in its place.
fn preview_ns(mode: Mode, text: &[u8]) -> [f64; 3] {
    let mut fresh = engine::Station::open(mode.number()).1;
    let mut full = fresh;
    assert_eq!((full.offer(text), usize::from(full.core.waiting)), (SUCCESS, MOST_WAITING));
    assert_eq!(fresh.preview(text), full.preview(b""));
    let mut best = [f64::INFINITY; 3];
    for _ in 0..ROUNDS {
        let offer = call_ns(|| {
            let mut station = *black_box(&fresh);
            let answer = station.offer(black_box(text));
            black_box(&station);
            answer
        });
        let waiting = call_ns(|| black_box(&mut full).preview(black_box(b"")).0);
        let offered = call_ns(|| black_box(&mut fresh).preview(black_box(text)).0);
        for (best, ns) in best.iter_mut().zip([offer, waiting, offered]) {
            *best = best.min(ns);
        }
    }
    best
}

/// The ns of a call that succeeds, as the mean of a thousand.
fn call_ns(mut call: impl FnMut() -> u8) -> f64 {
    const CALLS: usize = 1000;
    let start = Instant::now();
    for _ in 0..CALLS {
        assert_eq!(call(), SUCCESS);
    }
    start.elapsed().as_secs_f64() * 1e9 / CALLS as f64
}

/// The ns of each call of a list.
fn call_times<S: Entries>(work: &Work, calls: usize) -> Vec<u32> {
    let mut station = S::open(work.mode);
    let (mut sent, mut words) = ([0; SHORT], [0; SHORT]);
    let heard = work.heard.chunks_exact(SHORT).cycle().take(calls);
    let time = |heard| {
        let start = Instant::now();
        let ran = black_box(&mut station).run(heard, &mut sent, &mut words);
        let ns = start.elapsed().as_nanos() as u32;
        assert_eq!(ran.answer, SUCCESS);
        ns
    };
    heard.map(time).collect()
}
