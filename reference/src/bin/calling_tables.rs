//! Prints what a calling set sends and chooses: the timetable, each tone around its length, tones
//! that are interrupted, the silence after a tone, and the refusals.

use reference::answer::{CALLING_STATE, SUCCESS};
use reference::calling::{length, Set, State, LAST_TONE, MOST, NONE};

/// A slice for sent ms holds this before a call.
const PATTERN: u8 = 9;

fn main() {
    session(&[(NONE, 22_400)]);
    for tone in 1..=LAST_TONE {
        let length = length(tone) as usize;
        session(&[(tone, length - 1), (tone, 1), (NONE, 1500), (tone % LAST_TONE + 1, 1700)]);
    }
    session(&[(3, 499), (4, 499), (3, 499), (4, 500)]);
    session(&[(5, 1699), (NONE, 1), (5, 1699), (5, 1)]);
    session(&[(NONE, 1100), (6, 699), (NONE, 399), (7, 1499), (NONE, 400), (NONE, 1400)]);
    session(&[(NONE, 8300), (7, 1), (NONE, 399), (NONE, 1), (NONE, 1001), (3, 1), (NONE, 1401)]);

    let fresh = State { tone: NONE, ms: 400, place: 0, choice: 0 };
    for tone in [11, 12, 255] {
        state(State { tone, ..fresh });
    }
    for ms in [0, 1, 1700, 1701, 65_535] {
        state(State { ms, ..fresh });
    }
    for place in [11_199, 11_200, 65_535] {
        state(State { place, ..fresh });
    }
    for choice in [11, 12, 255] {
        state(State { choice, ..fresh });
    }

    let bad = State { choice: 12, ..fresh };
    call(bad, 12, MOST + 1, 0);
    call(fresh, 12, MOST + 1, 0);
    call(fresh, 0, MOST + 1, MOST + 1);
    call(fresh, 12, MOST, 0);
    call(fresh, 255, 1, 1);
    call(fresh, 11, 1, 0);
    call(fresh, 0, MOST, MOST - 1);
    call(fresh, 0, MOST, MOST + 1);
    call(fresh, 0, 0, 0);
}

/// A fresh set hears each tone for a number of ms.
fn session(parts: &[(u8, usize)]) {
    println!("set");
    let mut set = Set::default();
    for &(tone, ms) in parts {
        println!("heard {tone} {ms}");
        let mut rows: Vec<(u8, usize)> = Vec::new();
        for _ in 0..ms {
            let mut sent = [PATTERN];
            assert_eq!(set.run(&[tone], &mut sent), SUCCESS);
            match rows.last_mut() {
                Some(row) if row.0 == sent[0] => row.1 += 1,
                _ => rows.push((sent[0], 1)),
            }
        }
        for (value, ms) in rows {
            println!("sent {value} {ms}");
        }
        println!("choice {}", set.choice());
    }
}

/// Whether a state is taken, and what asking for its choice gives.
fn state(state: State) {
    let answer = if state.in_range() { SUCCESS } else { CALLING_STATE };
    let State { tone, ms, place, choice } = state;
    let asked = state.chosen();
    println!(
        "state {tone} {ms} {place} {choice} answer {answer} asked {} choice {}",
        asked.answer, asked.choice
    );
}

/// One call with `ms` times the same tone and the front of an area as its slice: the answer, and
/// how much of the area stays.
fn call(state: State, tone: u8, ms: usize, room: usize) {
    let mut area = [PATTERN; MOST + 1];
    let answer = if state.in_range() {
        Set::default().run(&vec![tone; ms], &mut area[..room])
    } else {
        CALLING_STATE
    };
    let kept = area.iter().filter(|&&value| value == PATTERN).count();
    println!("call {tone} {ms} {room} answer {answer} kept {kept}");
}
