//! Compares the engine's calling set with the reference's in sessions of random calls. Part of
//! `differential`.

use crate::engine;
use reference::answer::{CALLING_STATE, DURATION, SENT_SLICE, SUCCESS, TONE};
use reference::calling::{
    length, most_in_a_row, Chosen, Set, State, LAST_TONE, MOST, NONE, PERIOD,
};
use reference::random::Random;
use std::process::exit;

/// Bytes kept around the sent slice, to see writes outside it; no sent ms has such a value.
const MARGIN: usize = 16;

/// Numbers of no tone.
const NO_TONES: [u8; 3] = [LAST_TONE + 1, LAST_TONE + 2, u8::MAX];

/// What the sessions have met.
#[derive(Default)]
struct Met {
    sessions: u64,
    ms: u64,
    answers: [u64; 13],
    sent: [u64; 3],
    choices: [u64; LAST_TONE as usize + 1],
    forged: [u64; 13],
}

/// A calling set on both sides.
struct Session {
    reference: Set,
    engine: State,
}

/// Sessions of at least so many ms in all; gives back a summary.
pub fn compare(random: &mut Random, ms: u64) -> String {
    let mut met = Met::default();
    while met.ms < ms {
        let mut session = Session { reference: Set::default(), engine: engine::calling_fresh() };
        let heard = random_heard(random);
        let mut rest = &heard[..];
        while !rest.is_empty() {
            let (tones, behind) = rest.split_at(random_cut(random).min(rest.len()));
            if random.one_in(4) {
                session.refused(random, tones, &mut met);
            }
            let space = tones.len() + random.pick(&[0, 0, 1, 20]);
            session.call(tones, space, &mut met);
            rest = behind;
        }
        met.sessions += 1;
        met.choices[usize::from(session.reference.choice())] += 1;
    }
    for _ in 0..ms / 100 {
        let answer = forged(random);
        met.forged[usize::from(answer)] += 1;
    }
    let all = |name: &str, counts: &[(usize, u64)]| {
        let counts: Vec<_> = counts
            .iter()
            .map(|(value, count)| {
                if *count == 0 {
                    println!("calling set: {name} {value} never met");
                    exit(1);
                }
                format!("{value}: {count}")
            })
            .collect();
        format!("{name} {}", counts.join(", "))
    };
    let numbered = |counts: &[u64]| counts.iter().copied().enumerate().collect::<Vec<_>>();
    let answers = [SUCCESS, DURATION, SENT_SLICE, TONE, CALLING_STATE]
        .map(|answer| (usize::from(answer), met.answers[usize::from(answer)]));
    let forged = [SUCCESS, CALLING_STATE]
        .map(|answer| (usize::from(answer), met.forged[usize::from(answer)]));
    format!(
        "calling set: no difference; sessions {}, ms {}; {}; {}; {}; {}",
        met.sessions,
        met.ms,
        all("answer", &answers),
        all("sent", &numbered(&met.sent)),
        all("choice", &numbered(&met.choices)),
        all("forged state asked for its choice", &forged),
    )
}

impl Session {
    /// The same call on both sides, with the first `space` bytes of an area as the sent slice.
    fn call(&mut self, tones: &[u8], space: usize, met: &mut Met) {
        let before = self.engine;
        let area: Vec<u8> =
            (0..space + 2 * MARGIN).map(|i| 0x80 | (i as u8).wrapping_mul(37)).collect();
        let (mut wanted, mut found) = (area.clone(), area);
        let slice = MARGIN..MARGIN + space;
        let reference = if self.engine.in_range() {
            self.reference.run(tones, &mut wanted[slice.clone()])
        } else {
            CALLING_STATE
        };
        let engine = engine::calling_run(&mut self.engine, tones, &mut found[slice]);
        let good = reference == engine
            && wanted == found
            && if engine == SUCCESS { self.engine.in_range() } else { self.engine == before };
        let wanted_choice = if engine == CALLING_STATE {
            Chosen { answer: CALLING_STATE, choice: 0 }
        } else {
            Chosen { answer: SUCCESS, choice: self.reference.choice() }
        };
        let choice = engine::calling_choice(&self.engine);
        let good = good && choice == wanted_choice;
        if !good {
            println!("difference: calling set, tones {tones:?}, sent slice of {space}");
            println!("reference: answer {reference}, {wanted_choice:?}");
            println!("engine: answer {engine}, {choice:?}, {before:?}, then {:?}", self.engine);
            if let Some(i) = (0..found.len()).find(|&i| wanted[i] != found[i]) {
                let place = i as isize - MARGIN as isize;
                println!("sent[{place}]: reference {}, engine {}", wanted[i], found[i]);
            }
            exit(1);
        }
        met.answers[usize::from(engine)] += 1;
        if engine == SUCCESS {
            met.ms += tones.len() as u64;
            for &value in &found[MARGIN..MARGIN + tones.len()] {
                met.sent[usize::from(value)] += 1;
            }
        }
    }

    /// A call that is refused, for one reason or several.
    fn refused(&mut self, random: &mut Random, tones: &[u8], met: &mut Met) {
        let mut tones = tones.to_vec();
        let reasons = random.pick(&[1, 1, 2, 2, 4, 4, 8, 8, 3, 6, 9, 12, 15]);
        let state = self.engine;
        if reasons & 1 != 0 {
            match random.below(5) {
                0 => self.engine.tone = random.pick(&NO_TONES),
                1 => self.engine.ms = random.pick(&[0, most_in_a_row() as u16 + 1, u16::MAX]),
                2 => self.engine.place = random.pick(&[PERIOD as u16, PERIOD as u16 + 1, u16::MAX]),
                3 => self.engine.choice = random.pick(&NO_TONES),
                _ => self.engine = State { tone: 0, ms: 0, place: 0, choice: 0 },
            }
        }
        if reasons & 2 != 0 {
            tones.resize(MOST + 1 + random.below(300), NONE);
        }
        if reasons & 4 != 0 {
            let place = random.below(tones.len() + 1);
            tones.insert(place, random.pick(&NO_TONES));
        }
        let space = match tones.len() {
            0 => 0,
            length if reasons & 8 != 0 => random.below(length),
            length => length,
        };
        // With no ms too few are none.
        if reasons != 8 || !tones.is_empty() {
            self.call(&tones, space, met);
        }
        self.engine = state;
    }
}

/// A state of any numbers, each likely to be at an end of its range, is asked for its choice; gives
/// back the answer.
fn forged(random: &mut Random) -> u8 {
    let state = State {
        tone: random.pick(&[0, 1, 5, 10, 11, 11, 12, 255]),
        ms: random.pick(&[0, 1, 2, 400, 1699, 1700, 1701, 65_535]),
        place: random.pick(&[0, 1, 5000, 11_198, 11_199, 11_199, 11_200, 65_535]),
        choice: random.pick(&[0, 1, 2, 7, 10, 11, 12, 255]),
    };
    let (wanted, found) = (state.chosen(), engine::calling_choice(&state));
    if wanted != found {
        println!("difference: the choice of {state:?}: reference {wanted:?}, engine {found:?}");
        exit(1);
    }
    found.answer
}

/// Tones and none in turn, each for a number of ms that is likely to matter.
fn random_heard(random: &mut Random) -> Vec<u8> {
    let mut heard = Vec::new();
    loop {
        let tone = match random.below(40) {
            0..=1 => 1 + random.below(usize::from(LAST_TONE)) as u8,
            2..=20 => random.pick(&[3, 4, 5, 6, 7]),
            _ => NONE,
        };
        let ms = if tone == NONE {
            match random.below(16) {
                0..=3 => 400,
                4..=5 => 399,
                6 => 401,
                7..=11 => 1 + random.below(410),
                12..=13 => random.below(4000),
                14 => random.below(12_000),
                _ => random.below(30_000),
            }
        } else {
            let length = length(tone) as usize;
            match random.below(8) {
                0..=1 => length - 1,
                2 => length,
                3 => length + random.below(length),
                _ => 1 + random.below(length),
            }
        };
        heard.resize(heard.len() + ms, tone);
        if random.one_in(10) {
            return heard;
        }
    }
}

/// How many ms of the rest go into the next call.
fn random_cut(random: &mut Random) -> usize {
    match random.below(8) {
        0 => 0,
        1 => 1,
        2..=3 => random.below(60),
        4..=5 => MOST,
        _ => random.below(MOST + 1),
    }
}
