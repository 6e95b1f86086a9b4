//! Compares the engine's previews (document 02, request 106) with the reference's, and with what the
//! engine itself does if it is offered the text and run on quiet. The stations are those of lists of
//! calls, of some at every ms; random ones that no list of calls leads to; and damaged ones. Each
//! preview must leave the station as it was, byte for byte. Part of `differential`.

use crate::damaged_stations::{
    damage, how_many_send, in_range, part_length, part_of, random_station, reference_of, sends,
};
use crate::engine;
use crate::met::{must_meet, must_meet_all};
use reference::annex::{FIGURES, FIGURES_CODE, LETTERS_CODE};
use reference::answer::{CHARACTER, SPACE, STATE, SUCCESS};
use reference::baudot::{FRESH, REPEAT};
use reference::demand3::Entries;
use reference::line::{Code, QUIET};
use reference::mode::Mode;
use reference::random::Random;
use reference::station::{Part, Ran, Station, FREE, INHIBITED, MOST_MS, MOST_WAITING};
use std::process::exit;

const DEL: u8 = 0x7F;

/// What the previews that succeed must meet, in some modes or in all.
#[derive(Clone, Copy)]
enum Thing {
    Idle,
    LineFree,
    LineBusy,
    SomeSilence,
    Inhibited,
    FreeFirst,
    InhibitedFirst,
    Preamble,
    PreambleOver,
    PreambleNoneWaiting,
    ShiftCode,
    OwnCode,
    Keys1,
    Keys2,
    Keys3,
    Keys4,
    NoMsSent,
    LastMs,
    CodeOver,
    OverNoneWaiting,
    FreshInABurst,
    Count72,
    BusyInABurst,
    NoneWaiting,
    AllWaiting,
    NoText,
    AllSpaceOffered,
    LongText,
    DelInFigures,
    DelSent,
    Above16Bits,
}

pub const ALL: &[u8] = &[1, 2, 3, 4];
pub const BAUDOT: &[u8] = &[1, 2];
const DTMF: &[u8] = &[3];

const THINGS: [(Thing, &str, &[u8]); 31] = [
    (Thing::Idle, "idle", ALL),
    (Thing::LineFree, "line free", ALL),
    (Thing::LineBusy, "busy", ALL),
    (Thing::SomeSilence, "1 to 299 ms of silence", ALL),
    (Thing::Inhibited, "inhibited", ALL),
    (Thing::FreeFirst, "and the line free before the end of it", ALL),
    (Thing::InhibitedFirst, "and free behind it", ALL),
    (Thing::Preamble, "preamble", &[1, 2, 4]),
    (Thing::PreambleOver, "preamble over", ALL),
    (Thing::PreambleNoneWaiting, "preamble and none waiting", ALL),
    (Thing::ShiftCode, "shift code", BAUDOT),
    (Thing::OwnCode, "other code", &[1, 2, 4]),
    (Thing::Keys1, "code of 1 key", DTMF),
    (Thing::Keys2, "of 2", DTMF),
    (Thing::Keys3, "of 3", DTMF),
    (Thing::Keys4, "of 4", DTMF),
    (Thing::NoMsSent, "no ms of it sent", ALL),
    (Thing::LastMs, "last ms", ALL),
    (Thing::CodeOver, "code over", ALL),
    (Thing::OverNoneWaiting, "code over and none waiting", ALL),
    (Thing::FreshInABurst, "fresh sender in a burst", BAUDOT),
    (Thing::Count72, "count of 72 in a burst", BAUDOT),
    (Thing::BusyInABurst, "silence below 300 in a burst", ALL),
    (Thing::NoneWaiting, "0 waiting", ALL),
    (Thing::AllWaiting, "256 waiting", ALL),
    (Thing::NoText, "no text", ALL),
    (Thing::AllSpaceOffered, "256 offered", ALL),
    (Thing::LongText, "more than 256 bytes", &[1, 2, 3]),
    (Thing::DelInFigures, "DEL and a reader in figures", BAUDOT),
    (Thing::DelSent, "DEL that is sent", &[3, 4]),
    (Thing::Above16Bits, "more than 65535 ms", &[1, 2, 3]),
];

/// What the previews of a mode have met.
#[derive(Default)]
struct Met {
    /// The ms that they told, and the longest.
    ms: u64,
    longest: u32,
    answers: [u64; 5],
    /// Those refused with 1 or 3 that a later question would refuse, too.
    state_first: u64,
    character_first: u64,
    /// The stations of calls, those forged in range and the damaged ones.
    called: u64,
    forged: u64,
    damaged: u64,
    things: [u64; THINGS.len()],
}

impl Met {
    fn add_if(&mut self, holds: bool, thing: Thing) {
        self.things[thing as usize] += u64::from(holds);
    }
}

struct Comparison<'a> {
    mode: Mode,
    random: &'a mut Random,
    met: Met,
}

/// Previews that tell at least so many ms in each mode; gives back a summary, a line for each mode.
pub fn compare(random: &mut Random, ms: u64) -> String {
    let lines = Mode::ALL.map(|mode| {
        let mut comparison = Comparison { mode, random, met: Met::default() };
        comparison.burst_and_busy_line();
        while comparison.met.ms < ms {
            comparison.list();
            for _ in 0..10 {
                comparison.forged();
            }
        }
        summary(mode, &comparison.met)
    });
    format!("previews: no difference, and each comes true\n{}", lines.join("\n"))
}

fn summary(mode: Mode, met: &Met) -> String {
    let one = |name: &str, count: u64| must_meet("previews", mode, name, count);
    let answers = [SUCCESS, STATE, CHARACTER, SPACE].map(|answer| {
        one(&format!("answer {answer}"), met.answers[usize::from(answer)]);
        format!("{answer}: {}", met.answers[usize::from(answer)])
    });
    format!(
        "  mode {}: previews {}, {}, {}; ms {}, at most {}; {}, {}, {}; {}",
        mode.number(),
        answers.join(", "),
        one("1 ahead of 3 or 4", met.state_first),
        one("3 ahead of 4", met.character_first),
        met.ms,
        met.longest,
        one("stations of calls", met.called),
        one("forged", met.forged),
        one("damaged", met.damaged),
        must_meet_all("previews", mode, &THINGS, |thing| met.things[thing as usize]),
    )
}

/// A station on both sides.
#[derive(Clone)]
pub struct Pair {
    pub engine: engine::Station,
    reference: Station,
}

impl Pair {
    fn fresh(mode: Mode) -> Pair {
        let (engine, reference) = (engine::Station::open(mode.number()).1, Station::fresh(mode));
        Pair { engine, reference }
    }

    /// With the numbers of an engine's station that is in range.
    pub fn of(engine: engine::Station) -> Pair {
        Pair { engine, reference: reference_of(&engine) }
    }

    /// One that no list of calls need lead to.
    pub fn forged(random: &mut Random, mode: Mode) -> Pair {
        let mut engine = random_station(random, mode);
        // Few waiting, so that there are many stations.
        if random.below(8) > 0 {
            engine.core.waiting = engine.core.waiting.min(random.below(4) as u16);
        }
        Pair::of(engine)
    }

    pub fn offer(&mut self, text: &[u8]) {
        let answers = (self.engine.offer(text), self.reference.offer(text));
        assert!(answers.0 == answers.1, "an offer of {text:02X?} answers {answers:?}");
    }

    fn hear(&mut self, heard: &[u8]) {
        for heard in heard.chunks(MOST_MS) {
            run(&mut self.engine, heard);
            let (mut sent, mut words) = ([0; MOST_MS], [0; MOST_MS]);
            assert_eq!(self.reference.run(heard, &mut sent, &mut words).answer, SUCCESS);
        }
    }

    /// A preview, the same on both sides; the engine's station must stay. If that is out of range, it
    /// must be refused with 1.
    pub fn preview(&self, text: &[u8]) -> (u8, u32) {
        let good = in_range(&self.engine);
        let wanted = if good { self.reference.preview(text) } else { (STATE, 0) };
        let mut station = self.engine;
        let found = station.preview(text);
        if found != wanted {
            self.differs(text, &format!("{found:?}, and not {wanted:?}"));
        }
        if station != self.engine {
            self.differs(text, &format!("it is changed, {station:?}"));
        }
        found
    }

    pub fn differs(&self, text: &[u8], what: &str) -> ! {
        let waiting = &self.engine.chars[..usize::from(self.engine.core.waiting).min(MOST_WAITING)];
        println!("difference: preview of {text:02X?}: {what}");
        println!("{:?}, waiting {waiting:02X?}", self.engine.core);
        exit(1);
    }
}

/// Every ms of a fresh station's burst of a text, of the inhibited ms behind it, of a busy line and of
/// the silence behind that.
pub fn every_ms(mode: Mode, text: &[u8], mut each: impl FnMut(&Pair)) {
    let mut pair = Pair::fresh(mode);
    pair.offer(text);
    let (_, burst) = pair.reference.preview(b"");
    let [inhibited, free] = [INHIBITED, FREE].map(usize::from);
    let after = [(QUIET, inhibited + 10), (1, 30), (QUIET, free + 10)];
    let line = [(QUIET, burst as usize)].into_iter().chain(after);
    for level in line.flat_map(|(level, ms)| std::iter::repeat_n(level, ms)) {
        each(&pair);
        pair.hear(&[level]);
    }
}

/// A text of so many characters that send something: few over and over, English, or any.
pub fn text_of(random: &mut Random, mode: Mode, number: usize) -> Vec<u8> {
    let from = match random.below(8) {
        0..=4 => random.pick(&[&b"eTO5 9\n:A"[..], b"e", b"1A", b"599 ", b"!"]).to_vec(),
        5 => random.english(MOST_WAITING),
        _ => random.uniform(MOST_WAITING, 128),
    };
    let mut text = Vec::new();
    let mut waits = 0;
    for &character in from.iter().cycle() {
        if waits == number {
            break;
        }
        waits += how_many_send(mode, &[character]);
        text.push(character);
    }
    put_silent(random, mode, &mut text);
    text
}

/// Now and then puts characters into a text that send nothing, where the mode has any: they may stand
/// anywhere.
pub fn put_silent(random: &mut Random, mode: Mode, text: &mut Vec<u8>) {
    if random.one_in(8) && mode != Mode::Edt {
        let place = random.below(text.len() + 1);
        text.splice(place..place, vec![0; random.pick(&[1, 2, 300])]);
    }
}

fn run(station: &mut engine::Station, heard: &[u8]) {
    let (mut sent, mut words) = ([0; MOST_MS], [0; MOST_MS]);
    let Ran { answer, .. } = station.run(heard, &mut sent, &mut words);
    assert_eq!(answer, SUCCESS);
}

/// Runs the engine's station on quiet, in calls of at most `MOST_MS` ms.
fn quiet(station: &mut engine::Station, mut ms: usize) {
    while ms > 0 {
        let now = ms.min(MOST_MS);
        run(station, &[QUIET; MOST_MS][..now]);
        ms -= now;
    }
}

fn is_idle(station: &engine::Station) -> bool {
    station.core.waiting == 0 && station.core.line.part == 0
}

impl Comparison<'_> {
    /// One preview on both sides, and what comes of it.
    fn preview(&mut self, pair: &Pair, text: &[u8]) {
        let found = pair.preview(text);
        self.met.answers[usize::from(found.0)] += 1;
        self.met.ms += u64::from(found.1);
        self.met.longest = self.met.longest.max(found.1);
        if found.0 == SUCCESS {
            self.comes_true(pair, text, found.1 as usize);
            self.meets(&pair.engine, text, found.1);
        } else {
            let waiting = usize::from(pair.engine.core.waiting);
            let some = how_many_send(self.mode, text);
            let (above, full) = (!text.is_ascii(), waiting + some > MOST_WAITING);
            self.met.state_first += u64::from(found.0 == STATE && (above || full));
            self.met.character_first += u64::from(found.0 == CHARACTER && full);
        }
    }

    /// Offered the text and run on quiet the engine must be idle after exactly so many ms. Somewhere
    /// on the way another preview, of no text, must tell the ms that are left.
    fn comes_true(&mut self, pair: &Pair, text: &[u8], ms: usize) {
        let mut station = pair.engine;
        if station.offer(text) != SUCCESS {
            pair.differs(text, "the offer is refused");
        }
        if ms > 0 {
            let first = self.random.below(ms);
            quiet(&mut station, first);
            let left = station.preview(b"");
            if left != (SUCCESS, (ms - first) as u32) {
                pair.differs(text, &format!("{ms} ms, and {first} later {left:?}"));
            }
            quiet(&mut station, ms - 1 - first);
            if is_idle(&station) {
                pair.differs(text, &format!("idle before {ms} ms"));
            }
            quiet(&mut station, 1);
        }
        if !is_idle(&station) {
            pair.differs(text, &format!("not idle after {ms} ms, {:?}", station.core));
        }
    }

    /// Counts what a preview has met that succeeded.
    fn meets(&mut self, station: &engine::Station, text: &[u8], ms: u32) {
        let (mode, core) = (self.mode, &station.core);
        let part = part_of(mode, core.line.part, core.line.code);
        let (at, some) = (usize::from(core.line.at), how_many_send(mode, text));
        let (in_burst, waits) = (core.line.part != 0, core.waiting > 0 || some > 0);
        let is_baudot = matches!(mode, Mode::Baudot45 | Mode::Baudot50);
        let shift_code = is_baudot && [LETTERS_CODE, FIGURES_CODE].contains(&core.line.code);
        let keys = match &part {
            Some(Part::Code(Code::Keys(keys))) => keys.len(),
            _ => 0,
        };
        let (is_preamble, is_code) = (core.line.part == 1, core.line.part == 2);
        let length = part_length(mode, part);
        let met = &mut self.met;

        met.add_if(ms == 0 && !in_burst && !waits, Thing::Idle);
        let line = !in_burst && waits;
        let (silence, inhibited) = (core.silence, core.inhibited);
        met.add_if(line && silence == FREE && inhibited == 0, Thing::LineFree);
        met.add_if(line && silence == 0 && inhibited == 0, Thing::LineBusy);
        met.add_if(line && (1..FREE).contains(&silence) && inhibited == 0, Thing::SomeSilence);
        met.add_if(line && silence == FREE && inhibited > 0, Thing::Inhibited);
        let (to_free, odd) = (FREE - silence, line && silence < FREE && inhibited > 0);
        met.add_if(odd && to_free < inhibited, Thing::FreeFirst);
        met.add_if(odd && to_free > inhibited, Thing::InhibitedFirst);

        met.add_if(is_preamble && at < length && waits, Thing::Preamble);
        met.add_if(is_preamble && at == length && waits, Thing::PreambleOver);
        met.add_if(is_preamble && !waits, Thing::PreambleNoneWaiting);
        let midst = is_code && 0 < at && at + 1 < length;
        met.add_if(midst && shift_code, Thing::ShiftCode);
        met.add_if(midst && !shift_code, Thing::OwnCode);
        for (number, thing) in
            [(1, Thing::Keys1), (2, Thing::Keys2), (3, Thing::Keys3), (4, Thing::Keys4)]
        {
            met.add_if(midst && keys == number, thing);
        }
        met.add_if(is_code && at == 0, Thing::NoMsSent);
        met.add_if(is_code && at + 1 == length, Thing::LastMs);
        met.add_if(is_code && at == length && waits, Thing::CodeOver);
        met.add_if(is_code && at == length && !waits, Thing::OverNoneWaiting);
        let sender = &core.sender;
        met.add_if(is_code && sender.shift == FRESH && waits, Thing::FreshInABurst);
        let repeats = sender.shift != FRESH && sender.count == REPEAT;
        met.add_if(is_code && repeats && waits, Thing::Count72);
        met.add_if(in_burst && silence < FREE, Thing::BusyInABurst);

        met.add_if(core.waiting == 0, Thing::NoneWaiting);
        met.add_if(usize::from(core.waiting) == MOST_WAITING, Thing::AllWaiting);
        met.add_if(text.is_empty(), Thing::NoText);
        met.add_if(some == MOST_WAITING, Thing::AllSpaceOffered);
        met.add_if(text.len() > MOST_WAITING, Thing::LongText);
        let del = text.contains(&DEL);
        met.add_if(del && core.reader.shift == FIGURES, Thing::DelInFigures);
        met.add_if(del && sends(mode)[usize::from(DEL)], Thing::DelSent);
        met.add_if(ms > u32::from(u16::MAX), Thing::Above16Bits);
    }

    /// At every ms of a burst and of a line that is busy and then quiet. In DTMF the codes have four,
    /// two, three keys and one.
    fn burst_and_busy_line(&mut self) {
        every_ms(self.mode, b"A?1b", |pair| {
            for text in [&b""[..], b"e", b"1"] {
                self.preview(pair, text);
            }
            self.met.called += 1;
        });
    }

    /// A list of calls, with previews at some points.
    fn list(&mut self) {
        let mut pair = Pair::fresh(self.mode);
        for _ in 0..8 {
            if self.random.one_in(2) {
                let text = self.text(&pair.engine);
                pair.offer(&text);
            }
            let heard = self.heard(&pair.engine);
            pair.hear(&heard);
            self.previews(&pair);
            self.met.called += 1;
        }
    }

    /// A station that no list of calls need lead to, and the same damaged.
    fn forged(&mut self) {
        let mut pair = Pair::forged(self.random, self.mode);
        self.previews(&pair);
        self.met.forged += 1;
        damage(self.random, &mut pair.engine);
        self.previews(&pair);
        self.met.damaged += 1;
    }

    /// What waits by itself, and with a text; and a text that is refused.
    fn previews(&mut self, pair: &Pair) {
        self.preview(pair, b"");
        let text = self.text(&pair.engine);
        self.preview(pair, &text);
        let text = self.refused_text(&pair.engine);
        self.preview(pair, &text);
    }

    /// A text that is taken: mostly a few characters, now and then as many as there is space for.
    fn text(&mut self, station: &engine::Station) -> Vec<u8> {
        let space = MOST_WAITING.saturating_sub(usize::from(station.core.waiting));
        let wanted = match self.random.below(64) {
            0..=1 => space,
            2 => self.random.below(space + 1),
            3..=8 => self.random.below(60),
            9..=16 => 0,
            _ => 1 + self.random.below(6),
        };
        let mut text = text_of(self.random, self.mode, wanted.min(space));
        // DEL may stand anywhere, too, if there is space for it.
        if self.random.one_in(4) && how_many_send(self.mode, &text) < space {
            let place = self.random.below(text.len() + 1);
            text.insert(place, DEL);
        }
        text
    }

    /// A text with a byte that is no character, with too many that send something, or with both.
    fn refused_text(&mut self, station: &engine::Station) -> Vec<u8> {
        let mut text = self.text(station);
        let reasons = 1 + self.random.below(3);
        if reasons & 1 != 0 {
            let number = MOST_WAITING + 1 - how_many_send(self.mode, &text);
            text.extend(vec![b'e'; number + self.random.pick(&[0, 0, 1, 700])]);
            // Only as many as are too many.
            let space = MOST_WAITING.saturating_sub(usize::from(station.core.waiting));
            while self.random.below(8) > 0 && how_many_send(self.mode, &text) > space + 1 {
                text.pop();
            }
        }
        if reasons & 2 != 0 {
            let place = self.random.below(text.len() + 1);
            text.insert(place, self.random.pick(&[0x80, 0x81, 0xC5, 0xFF]));
        }
        text
    }

    /// What is heard next: some ms of quiet or signal, or as many as the part on the line still has,
    /// or one less.
    fn heard(&mut self, station: &engine::Station) -> Vec<u8> {
        let line = &station.core.line;
        let length = part_length(self.mode, part_of(self.mode, line.part, line.code));
        let left = length - usize::from(line.at);
        let ms = match self.random.below(8) {
            0..=2 => left.saturating_sub(self.random.below(2)),
            3..=5 => self.random.below(700),
            6 => self.random.below(MOST_MS + 1),
            _ => usize::from(station.core.inhibited) + self.random.below(3),
        };
        let highest = usize::from(self.mode.highest_level());
        let mut heard = vec![QUIET; ms];
        if self.random.one_in(2) {
            let level = self.random.below(highest + 1) as u8;
            let from = self.random.below(ms + 1);
            heard[from..].fill(level);
            let behind = self.random.pick(&[0, 0, 1, 20, 299, 300, 301]);
            heard.extend(vec![QUIET; behind]);
        }
        heard
    }
}
