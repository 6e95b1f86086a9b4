//! The ceiling of sending time (document 02, request 112). No preview may pass it, neither the engine's
//! nor the reference's, which counts ms by ms, and the texts that take longest must reach it: for every
//! number of characters, on lines that are not free yet, and in bursts that go on, those of stations
//! that no list of calls leads to among them. Ceilings that are wrong on purpose must be found out by
//! the same cases. Part of `differential`.

use crate::burst_heads::{forged, NO_BURST};
use crate::damaged_stations::{how_many_send, part_length, part_of, random_station};
use crate::damaged_stations::{CODE_PART, PREAMBLE_PART};
use crate::engine::{OnLine, Station};
use crate::met::{must_meet, must_meet_all};
use crate::previews::{every_ms, put_silent, text_of, Pair, ALL, BAUDOT};
use reference::annex::{FIGURES, LETTERS};
use reference::answer::SUCCESS;
use reference::baudot::{FRESH, REPEAT};
use reference::mode::Mode;
use reference::normal::Alphabet;
use reference::random::Random;
use reference::station::{FREE, MOST_WAITING};
use std::collections::BTreeSet;

/// The random texts of each number of characters, and the random stations of a mode.
const TEXTS: usize = 3;
const STATIONS: usize = 2000;

/// Where a station is, as far as a ceiling asks.
#[derive(Clone, Copy, PartialEq, Eq)]
enum Place {
    Free,
    NotFree,
    Preamble,
    Code,
}

const PLACES: [(Place, &str); 4] = [
    (Place::Free, "line free"),
    (Place::NotFree, "line not free yet"),
    (Place::Preamble, "preamble on the line"),
    (Place::Code, "code on the line"),
];

/// Ways to get the ceiling wrong.
#[derive(Clone, Copy, PartialEq, Eq)]
enum Slip {
    NoOpening,
    ShortCode,
    NoPreamble,
    LineFree,
    PartOver,
    NoLastMs,
    OneCodeMore,
}

/// Each with the modes in which it must be found out.
const SLIPS: [(Slip, &str, &[u8]); 7] = [
    (Slip::NoOpening, "2n for 2n + 1", BAUDOT),
    (Slip::ShortCode, "codes one ms short", ALL),
    (Slip::NoPreamble, "no preamble", &[1, 2, 4]),
    (Slip::LineFree, "a line always free", ALL),
    (Slip::PartOver, "no ms left of the part on the line", ALL),
    (Slip::NoLastMs, "no ms to end a burst", ALL),
    (Slip::OneCodeMore, "one code more", ALL),
];

/// What a ceiling hangs on.
struct Case {
    mode: Mode,
    /// How many of the text send something, and how many wait with these.
    offered: u32,
    waiting: u32,
    place: Place,
    /// In no burst the ms until the line is free; in a burst those left of the part on the line.
    ahead: u32,
    fresh: bool,
}

/// The ms of the longest code: in DTMF three marks and a digit.
fn longest_code(mode: Mode) -> u32 {
    let keys = if mode == Mode::Dtmf { 4 } else { 1 };
    (keys * mode.code_length()) as u32
}

impl Case {
    fn of(mode: Mode, Station { core, .. }: &Station, text: &[u8]) -> Case {
        let length = part_length(mode, part_of(mode, core.line.part, core.line.code)) as u32;
        let left = length - u32::from(core.line.at);
        let (place, ahead) = match core.line.part {
            PREAMBLE_PART => (Place::Preamble, left),
            CODE_PART => (Place::Code, left),
            _ if core.silence == FREE => (Place::Free, 0),
            _ => (Place::NotFree, u32::from(FREE - core.silence)),
        };
        let offered = how_many_send(mode, text) as u32;
        let (waiting, fresh) = (u32::from(core.waiting) + offered, core.sender.shift == FRESH);
        Case { mode, offered, waiting, place, ahead, fresh }
    }

    /// The most ms until the station is idle, on a quiet line; wrong by a slip, if one is given. On a
    /// free line, with n waiting, 150 + 165 (2n + 1), 150 + 150 (2n + 1), 480n and 300 + 100n.
    fn ceiling(&self, slip: Option<Slip>) -> u32 {
        let Case { mode, waiting, place, ahead, fresh, .. } = *self;
        let unless = |wrong: Slip, number: u32| if slip == Some(wrong) { 0 } else { number };
        let ahead = match place {
            Place::Free | Place::NotFree if waiting == 0 => return 0,
            Place::Free | Place::NotFree => {
                unless(Slip::LineFree, ahead) + unless(Slip::NoPreamble, mode.preamble().into())
            }
            Place::Preamble | Place::Code => unless(Slip::PartOver, ahead),
        };
        // In Baudot each character may bring a shift code; and one opens the burst, or comes ahead of
        // the next character where a fresh sender has a code on the line.
        let opens = u32::from(place != Place::Code || fresh);
        let codes = match mode.alphabet() {
            Alphabet::Baudot => 2 * waiting + unless(Slip::NoOpening, opens),
            Alphabet::Dtmf | Alphabet::Edt => waiting,
        };
        let codes = codes + 1 - unless(Slip::OneCodeMore, 1);
        let code = longest_code(mode) - 1 + unless(Slip::ShortCode, 1);
        // A part that is over with none waiting takes a quiet ms.
        (ahead + code * codes).max(unless(Slip::NoLastMs, 1))
    }
}

/// The text of so many characters that takes longest, behind a sender of this shift: in Baudot each is
/// of another shift than what stands ahead of it; in DTMF A has four keys.
fn longest_text(mode: Mode, shift: u8, number: usize) -> Vec<u8> {
    let two = match mode.alphabet() {
        Alphabet::Baudot if shift == FIGURES => b"A1",
        Alphabet::Baudot => b"1A",
        Alphabet::Dtmf | Alphabet::Edt => b"AA",
    };
    two.iter().copied().cycle().take(number).collect()
}

/// What the previews must meet besides, in some modes or in all.
#[derive(Clone, Copy)]
enum Thing {
    NoneWaiting,
    BurstOver,
    WaitingAndOffered,
    SendNothing,
    FreshInABurst,
}

const THINGS: [(Thing, &str, &[u8]); 5] = [
    (Thing::NoneWaiting, "none waiting", ALL),
    (Thing::BurstOver, "burst over", ALL),
    (Thing::WaitingAndOffered, "some waiting and some offered", ALL),
    (Thing::SendNothing, "characters that send nothing", &[1, 2, 3]),
    (Thing::FreshInABurst, "fresh sender in a burst at the ceiling", BAUDOT),
];

/// How many previews reach the ceiling because they must, and of the others those that reach it and
/// those that stay below.
#[derive(Default)]
struct Count {
    must: u64,
    reach: u64,
    below: u64,
}

/// What the previews of a mode have met.
#[derive(Default)]
struct Met {
    previews: u64,
    most: u32,
    /// By place, with some waiting.
    places: [Count; PLACES.len()],
    /// Where the ceiling is reached: how many wait on a free line, and the silence of one that is not.
    numbers: BTreeSet<u32>,
    silences: BTreeSet<u32>,
    things: [u64; THINGS.len()],
    /// The previews that find out a slip.
    found_out: [u64; SLIPS.len()],
}

impl Met {
    /// Counts a preview with some waiting.
    fn place(&mut self, case: &Case, must: bool, reaches: bool) {
        let count = &mut self.places[case.place as usize];
        *match (must, reaches) {
            (true, _) => &mut count.must,
            (false, true) => &mut count.reach,
            (false, false) => &mut count.below,
        } += 1;
        match case.place {
            Place::Free if reaches => _ = self.numbers.insert(case.waiting),
            Place::NotFree if reaches => _ = self.silences.insert(u32::from(FREE) - case.ahead),
            _ => (),
        }
    }
}

struct Comparison<'a> {
    mode: Mode,
    random: &'a mut Random,
    met: Met,
}

/// Compares all; gives back a summary, a line for each mode.
pub fn compare(random: &mut Random) -> String {
    let lines = Mode::ALL.map(|mode| {
        let mut comparison = Comparison { mode, random, met: Met::default() };
        comparison.every_number();
        comparison.every_ms_of_calls();
        comparison.every_ms_of_parts();
        for _ in 0..STATIONS {
            comparison.random_station();
        }
        summary(mode, &comparison.met)
    });
    format!("ceilings: none is passed, and each is reached\n{}", lines.join("\n"))
}

fn summary(mode: Mode, met: &Met) -> String {
    assert!(met.numbers.iter().copied().eq(1..=MOST_WAITING as u32), "a number is not reached");
    assert!(met.silences.iter().copied().eq(0..u32::from(FREE)), "a silence is not met");
    let places = PLACES.map(|(place, name)| {
        let Count { must, reach, below } = met.places[place as usize];
        let counts = [("longest texts", must), ("others at the ceiling", reach), ("below", below)];
        // In EDT no text takes longer than another.
        let counts = if mode == Mode::Edt { &counts[..1] } else { &counts };
        let counts = counts.iter().map(|&(what, count)| {
            must_meet("ceilings", mode, &format!("{name}, {what}"), count);
            format!("{what} {count}")
        });
        format!("{name}: {}", counts.collect::<Vec<_>>().join(", "))
    });
    format!(
        "  mode {}: previews {}, at most {} ms; {}; {}; wrong ceilings found out: {}",
        mode.number(),
        met.previews,
        met.most,
        places.join("; "),
        must_meet_all("ceilings", mode, &THINGS, |thing| met.things[thing as usize]),
        must_meet_all("ceilings that are wrong", mode, &SLIPS, |slip| met.found_out[slip as usize]),
    )
}

impl Comparison<'_> {
    /// A preview must not pass the ceiling; where the text takes longest, and in EDT always, it must
    /// reach it.
    fn preview(&mut self, pair: &Pair, text: &[u8], longest: bool) {
        let (answer, ms) = pair.preview(text);
        if answer != SUCCESS {
            pair.differs(text, "it is refused");
        }
        let longest = longest || self.mode == Mode::Edt;
        let case = Case::of(self.mode, &pair.engine, text);
        let breaks = |ceiling: u32| ms > ceiling || longest && ms < ceiling;
        let ceiling = case.ceiling(None);
        if breaks(ceiling) {
            pair.differs(text, &format!("{ms} ms, and the ceiling is {ceiling}"));
        }
        for (slip, _, _) in SLIPS {
            self.met.found_out[slip as usize] += u64::from(breaks(case.ceiling(Some(slip))));
        }
        let (none, reaches, offered) = (case.waiting == 0, ms == ceiling, case.offered as usize);
        for (thing, holds) in [
            (Thing::NoneWaiting, none && ms == 0),
            (Thing::BurstOver, none && ms == 1 && case.ahead == 0),
            (Thing::WaitingAndOffered, case.offered > 0 && case.waiting > case.offered),
            (Thing::SendNothing, offered < text.len()),
            (Thing::FreshInABurst, case.place == Place::Code && case.fresh && !none && reaches),
        ] {
            self.met.things[thing as usize] += u64::from(holds);
        }
        self.met.previews += 1;
        self.met.most = self.met.most.max(ms);
        if !none {
            self.met.place(&case, longest, reaches);
        }
    }

    /// The same with some of the characters waiting already, none or all of them now and then.
    fn waiting_and_offered(&mut self, mut pair: Pair, text: &[u8], longest: bool) {
        let (waiting, offered) = text.split_at(self.random.below(text.len() + 1));
        pair.offer(waiting);
        self.preview(&pair, offered, longest);
    }

    /// Every number of characters on a free line: the longest text, from a fresh sender and in Baudot
    /// from either shift and both ends of the count; and random texts.
    fn every_number(&mut self) {
        let either = [LETTERS, FIGURES].iter().flat_map(|&shift| [[shift, 0], [shift, REPEAT]]);
        let shifts = either.filter(|_| self.mode.alphabet() == Alphabet::Baudot);
        let senders: Vec<_> = [[FRESH, 0]].into_iter().chain(shifts).collect();
        for number in 0..=MOST_WAITING {
            for &sender in &senders {
                let mut text = longest_text(self.mode, sender[0], number);
                put_silent(self.random, self.mode, &mut text);
                let pair = Pair::of(forged(self.mode, sender, NO_BURST, b""));
                self.waiting_and_offered(pair, &text, true);
            }
            for _ in 0..TEXTS {
                let text = text_of(self.random, self.mode, number);
                let pair = self.silent();
                self.waiting_and_offered(pair, &text, number == 0);
            }
        }
    }

    /// A station in no burst with a free line and none waiting, its other numbers at random.
    fn silent(&mut self) -> Pair {
        let mut station = random_station(self.random, self.mode);
        station.core.line = NO_BURST;
        (station.core.waiting, station.core.silence) = (0, FREE);
        Pair::of(station)
    }

    /// Every ms of a burst of the longest text, of the inhibited ms behind it, of a busy line and of
    /// the silence behind that.
    fn every_ms_of_calls(&mut self) {
        let mode = self.mode;
        every_ms(mode, &longest_text(mode, FRESH, 4), |pair| {
            let core = &pair.engine.core;
            let text = longest_text(mode, core.sender.shift, 3);
            self.preview(pair, &text, core.line.part == 0);
            self.preview(pair, b"", core.line.part == 0);
            self.preview(pair, b"e", false);
        });
    }

    /// Every ms of a preamble and of a code, behind it the longest text, from every shift. A fresh
    /// sender that has a code on the line and none waiting sends no shift code.
    fn every_ms_of_parts(&mut self) {
        let mode = self.mode;
        let code = match mode.alphabet() {
            Alphabet::Baudot => 0b00100,
            Alphabet::Dtmf => 7 * 16 + 1, // ***1
            Alphabet::Edt => b'A',
        };
        for part in [PREAMBLE_PART, CODE_PART] {
            for at in 0..=part_length(mode, part_of(mode, part, code)) as u16 {
                for shift in FRESH..=FIGURES {
                    let most = if at == 0 { MOST_WAITING } else { 2 };
                    for number in [0, 1, most] {
                        let text = longest_text(mode, shift, number);
                        let line = OnLine { at, part, code };
                        let pair = Pair::of(forged(mode, [shift, 0], line, b""));
                        let longest = number > 0 || part == PREAMBLE_PART || shift != FRESH;
                        self.waiting_and_offered(pair, &text, longest);
                    }
                }
            }
        }
    }

    /// A station that no list of calls need lead to: what waits, and a few more.
    fn random_station(&mut self) {
        let pair = Pair::forged(self.random, self.mode);
        self.preview(&pair, b"", false);
        let space = MOST_WAITING - usize::from(pair.engine.core.waiting);
        let number = self.random.below(4).min(space);
        let text = text_of(self.random, self.mode, number);
        self.preview(&pair, &text, false);
    }
}
