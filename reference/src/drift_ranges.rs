//! Question 1 of waiting edges and of reports, asked of the engine (document 02, request 111): each
//! number at the ends of its range, one beyond and far beyond, at every place of a reader; through runs,
//! with a report and without one, offers and previews. What is in range goes on as the reference does.
//! Then the order of a run's questions. Part of `differential`.

use crate::damaged_stations::{frame_ms, in_range, report_in_range, same_bytes};
use crate::drifts::{differs, forged, piece, report_of, Both};
use crate::engine::{Edges, Station};
use crate::met::{must_meet, must_meet_all};
use crate::previews::{ALL, BAUDOT};
use reference::answer::{DURATION, EDGES, LEVEL, SENT_SLICE, STATE, SUCCESS, WORD_SLICE};
use reference::demand3::Entries;
use reference::drift::{Drifts, Report, Waiting, MOST_DISPLACED, MOST_EDGES};
use reference::line::{preamble, signal, text_codes, QUIET, SPACE};
use reference::mode::Mode;
use reference::random::Random;
use reference::station::{Ran, MOST_MS};

/// A number, and an end of its range.
#[derive(Clone, Copy, PartialEq, Eq)]
enum Bound {
    Edges,
    SumBelow,
    SumAbove,
    SmallestBelow,
    SmallestAbove,
    LargestBelow,
    LargestAbove,
    Level,
}

const BOUNDS: [(Bound, &str); 8] = [
    (Bound::Edges, "edges"),
    (Bound::SumBelow, "sum below"),
    (Bound::SumAbove, "sum above"),
    (Bound::SmallestBelow, "smallest below"),
    (Bound::SmallestAbove, "smallest above"),
    (Bound::LargestBelow, "largest below"),
    (Bound::LargestAbove, "largest above"),
    (Bound::Level, "level"),
];

/// What the stations must meet besides, in some modes or in all.
#[derive(Clone, Copy)]
enum Thing {
    Hunting,
    Waiting,
    InAFrame,
    QuietInAFrame,
    SmallestAboveLargest,
    Dropped,
    Ms,
    Full,
}

const FRAMES: &[u8] = &[1, 2, 4];

const THINGS: [(Thing, &str, &[u8]); 8] = [
    (Thing::Hunting, "stations hunting", ALL),
    (Thing::Waiting, "waiting after a fault", ALL),
    (Thing::InAFrame, "in a frame", FRAMES),
    (Thing::QuietInAFrame, "with quiet as its latest level", BAUDOT),
    (Thing::SmallestAboveLargest, "with the smallest above the largest", BAUDOT),
    (Thing::Dropped, "whose edges the first ms drops", BAUDOT),
    (Thing::Ms, "ms behind those in range", BAUDOT),
    (Thing::Full, "reports in range answered with 18", BAUDOT),
];

/// The numbers of waiting edges, or of a report, to be tried from.
#[derive(Clone, Copy)]
struct Base {
    waiting: Waiting,
    most_edges: u32,
    highest_level: u8,
}

impl Base {
    /// The last value in range, the first beyond, and one far beyond.
    fn values(&self, bound: Bound) -> [i64; 3] {
        let edges = i64::from(self.waiting.report.edges);
        let displaced = i64::from(MOST_DISPLACED);
        let above = [i64::from(i32::MAX), 1];
        let (last, [far, one]) = match bound {
            Bound::Edges => (i64::from(self.most_edges), [i64::from(u32::MAX), 1]),
            Bound::SumAbove => (displaced * edges, above),
            Bound::SumBelow => (-displaced * edges, [i64::from(i32::MIN), -1]),
            Bound::SmallestAbove | Bound::LargestAbove => (displaced * edges.min(1), above),
            Bound::SmallestBelow | Bound::LargestBelow => {
                (-displaced * edges.min(1), [i64::from(i32::MIN), -1])
            }
            Bound::Level => (i64::from(self.highest_level), [255, 1]),
        };
        [last, last + one, far]
    }

    fn with(&self, bound: Bound, value: i64) -> Waiting {
        let mut waiting = self.waiting;
        let report = &mut waiting.report;
        match bound {
            Bound::Edges => report.edges = value as u32,
            Bound::SumBelow | Bound::SumAbove => report.sum = value as i32,
            Bound::SmallestBelow | Bound::SmallestAbove => report.smallest = value as i32,
            Bound::LargestBelow | Bound::LargestAbove => report.largest = value as i32,
            Bound::Level => waiting.level = value as u8,
        }
        waiting
    }
}

/// How often each bound was tried: at it, one beyond, and far beyond.
type Tried = [[u64; 3]; BOUNDS.len()];

/// What is met in a mode.
#[derive(Default)]
struct Met {
    waiting: Tried,
    reports: Tried,
    orders: u64,
    things: [u64; THINGS.len()],
}

impl Met {
    fn add_if(&mut self, holds: bool, thing: Thing) {
        self.things[thing as usize] += u64::from(holds);
    }

    fn station(&mut self, Station { core, edges, .. }: &Station, good: bool) {
        let (place, in_frame) = (core.reader.frame.place, frame_ms(core).is_some());
        self.add_if(place == 0, Thing::Hunting);
        self.add_if(place == 1, Thing::Waiting);
        self.add_if(place > 1, Thing::InAFrame);
        self.add_if(good && in_frame && edges.level == QUIET, Thing::QuietInAFrame);
        let Report { edges, smallest, largest, .. } = edges.report;
        self.add_if(good && smallest > largest, Thing::SmallestAboveLargest);
        let inhibited = core.line.part != 0 || core.inhibited > 0;
        self.add_if(good && inhibited && edges > 0, Thing::Dropped);
    }
}

struct Ranges<'a> {
    mode: Mode,
    random: &'a mut Random,
    met: Met,
}

/// Tries all; gives back a summary, a line for each mode.
pub fn check(random: &mut Random) -> String {
    let lines = Mode::ALL.map(|mode| {
        let mut ranges = Ranges { mode, random, met: Met::default() };
        ranges.every_place();
        ranges.reports();
        ranges.order();
        summary(mode, &ranges.met)
    });
    format!("ranges of edges: no difference\n{}", lines.join("\n"))
}

fn summary(mode: Mode, met: &Met) -> String {
    let all = |name: &str, bounds: &[(Bound, &str)], tried: &Tried| {
        let counts = ["at a bound", "one beyond", "far beyond"].iter().enumerate();
        let counts = counts.map(|(which, beyond)| {
            let all = bounds.iter().map(|&(bound, what)| {
                let count = tried[bound as usize][which];
                must_meet(name, mode, &format!("{what} {beyond}"), count);
                count
            });
            format!("{beyond} {}", all.sum::<u64>())
        });
        format!("{name} {}", counts.collect::<Vec<_>>().join(", "))
    };
    format!(
        "  mode {}: {}; {}; orders of questions {}; {}",
        mode.number(),
        all("waiting edges", &BOUNDS, &met.waiting),
        all("reports", &BOUNDS[..BOUNDS.len() - 1], &met.reports),
        met.orders,
        must_meet_all("ranges of edges", mode, &THINGS, |thing| met.things[thing as usize]),
    )
}

impl Ranges<'_> {
    /// Waiting edges at every place of the reader.
    fn every_place(&mut self) {
        let last = match self.mode {
            Mode::Dtmf => 1,
            _ => self.mode.last_sample() as u8 + 1,
        };
        for place in 0..=last {
            let mut station = Station::open(self.mode.number()).1;
            if BAUDOT.contains(&self.mode.number()) && self.random.one_in(8) {
                station = forged(self.random, self.mode);
            }
            station.core.reader.frame.place = place;
            station.core.reader.frame.digits =
                if self.mode == Mode::Dtmf { 0 } else { self.random.below(32) as u8 };
            let ms = frame_ms(&station.core);
            let most_edges = ms.map_or(0, |ms| ms as u32 - 1);
            let highest_level = if ms.is_some() { SPACE } else { 0 };
            let mut numbers = vec![0, 1, most_edges / 2, most_edges];
            numbers.retain(|&edges| edges <= most_edges);
            numbers.dedup();
            for edges in numbers {
                let report = report_of(self.random, edges);
                let level = self.random.below(usize::from(highest_level) + 1) as u8;
                let base = Base { waiting: Waiting { report, level }, most_edges, highest_level };
                self.every_bound(&station, &base);
            }
        }
    }

    fn every_bound(&mut self, station: &Station, base: &Base) {
        for (bound, _) in BOUNDS {
            for (which, value) in base.values(bound).into_iter().enumerate() {
                let mut edges = Edges::from(base.with(bound, value));
                edges.padding = [self.random.bits() as u8; 3];
                let station = Station { edges, ..*station };
                self.station(&station, which == 0);
                self.met.station(&station, which == 0);
                self.met.waiting[bound as usize][which] += 1;
            }
        }
    }

    /// Every entry asks for the waiting edges. A station in range goes on.
    fn station(&mut self, station: &Station, good: bool) {
        let both = Both::of(*station);
        let answer = if good { SUCCESS } else { STATE };
        let expect = |holds: bool, what: &str| {
            if !holds {
                differs(station, &[], None, &format!("{what}, in range {good}"));
            }
        };
        expect(in_range(station) == good && both.reference.in_range() == good, "question 1");
        let Both { mut engine, mut reference } = both.clone();
        let text = self.random.pick(&[&b""[..], b"\x80", b"E"]);
        let text = if good { b"" } else { text };
        let previewed = engine.preview(text);
        expect(previewed == reference.preview(text) && previewed.0 == answer, "a preview");
        expect(same_bytes(&engine, station), "a preview changes it");
        let answers = [engine.offer(text), reference.offer(text)];
        expect(answers == [answer; 2] && engine == *station, "an offer");
        let mut report = Report::default();
        for report in [None, Some(&mut report)] {
            let heard: &[u8] = if good { &[] } else { self.random.pick(&[&[], &[1, 2, 200]]) };
            let (ran, _) = both.clone().run(heard, report);
            expect(ran == Ran { answer, words: 0 }, "a run");
        }
        if good && BAUDOT.contains(&self.mode.number()) {
            self.goes_on(both);
        }
    }

    /// Some ms in calls of either kind; both sides must go on alike.
    fn goes_on(&mut self, mut both: Both) {
        let mut heard = piece(self.random, self.mode);
        heard.extend(piece(self.random, self.mode));
        heard.truncate(MOST_MS);
        let mut report = Report::default();
        let mut heard = &heard[..];
        while !heard.is_empty() {
            let ms = self.random.pick(&[1, 20, 200, MOST_MS]).min(heard.len());
            let (now, later) = heard.split_at(ms);
            let with_report = self.random.one_in(2).then_some(&mut report);
            let (ran, _) = both.run(now, with_report);
            assert_eq!(ran.answer, SUCCESS);
            self.met.things[Thing::Ms as usize] += ms as u64;
            heard = later;
        }
    }

    /// Reports at and beyond the bounds.
    fn reports(&mut self) {
        let both = Both::of(Station::open(self.mode.number()).1);
        for edges in [0, 1, 2, 1000, MOST_EDGES - 1, MOST_EDGES] {
            let waiting = Waiting { report: report_of(self.random, edges), level: 0 };
            let base = Base { waiting, most_edges: MOST_EDGES, highest_level: 0 };
            for (bound, _) in BOUNDS.into_iter().filter(|(bound, _)| *bound != Bound::Level) {
                for (which, value) in base.values(bound).into_iter().enumerate() {
                    let report = base.with(bound, value).report;
                    self.report(&both, report, which == 0);
                    self.met.reports[bound as usize][which] += 1;
                }
            }
        }
    }

    fn report(&mut self, both: &Both, report: Report, good: bool) {
        assert_eq!((report_in_range(&report), report.in_range()), (good, good), "{report:?}");
        let whole = piece(self.random, self.mode);
        for heard in [&[][..], &whole[..whole.len().min(MOST_MS)]] {
            let mut after = report;
            let (ran, _) = both.clone().run(heard, Some(&mut after));
            let wanted = if good { [SUCCESS, EDGES] } else { [STATE; 2] };
            let none = heard.is_empty() && good && ran.answer != SUCCESS;
            if !wanted.contains(&ran.answer) || none || ran.answer != SUCCESS && after != report {
                differs(&both.engine, heard, Some(report), &format!("{ran:?}"));
            }
            self.met.add_if(ran.answer == EDGES, Thing::Full);
        }
    }

    /// Runs with every list of reasons for a refusal: the first question decides.
    fn order(&mut self) {
        let mut line = preamble(self.mode);
        text_codes(self.mode, b"E").iter().for_each(|code| line.extend(signal(self.mode, code)));
        let counts = BAUDOT.contains(&self.mode.number());
        for reasons in 0u32..1 << 7 {
            let has = |reason: u32| reasons >> reason & 1 == 1;
            let mut station = Station::open(self.mode.number()).1;
            station.edges.level = u8::from(has(0));
            let mut report = Report { edges: MOST_EDGES, ..Report::default() };
            report.edges = if has(6) { report.edges } else { 0 };
            report.sum = if has(1) { i32::MAX } else { 0 };
            let mut heard = line.clone();
            heard.resize(if has(2) { MOST_MS + 1 } else { line.len() }, 0);
            heard[0] = if has(3) { self.mode.highest_level() + 1 } else { heard[0] };
            let short = |short: bool| heard.len() - usize::from(short);
            let lengths = [short(has(4)), short(has(5))];
            let answers = [STATE, STATE, DURATION, LEVEL, SENT_SLICE, WORD_SLICE, EDGES];
            let last = if counts { 7 } else { 6 };
            let answer =
                (0..last).find(|&reason| has(reason)).map(|reason| answers[reason as usize]);
            self.refused(&Both::of(station), &heard, lengths, report, answer);
        }
    }

    /// A run with slices of these lengths must give this answer on both sides, and change nothing if it
    /// is a refusal.
    fn refused(
        &mut self,
        both: &Both,
        heard: &[u8],
        [sent, words]: [usize; 2],
        report: Report,
        refusal: Option<u8>,
    ) {
        let Both { mut engine, mut reference } = both.clone();
        let lent = || (vec![0xA5; sent], vec![0xA5A5_A5A5; words], report);
        let (mut a, mut b) = (lent(), lent());
        let found = engine.run_drift(heard, &mut a.0, &mut a.1, &mut a.2);
        let wanted = reference.run_drift(heard, &mut b.0, &mut b.1, &mut b.2);
        let stays = same_bytes(&engine, &both.engine) && a == lent();
        let good = found == wanted
            && a == b
            && found.answer == refusal.unwrap_or(SUCCESS)
            && (refusal.is_none() || stays);
        if !good {
            differs(
                &both.engine,
                heard,
                Some(report),
                &format!("{found:?}, {wanted:?}, {refusal:?}"),
            );
        }
        self.met.orders += 1;
    }
}
