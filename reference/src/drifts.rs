//! Compares reports of edges (document 02, request 111): runs with a report and runs without one, mixed,
//! on lines whose edges are moved, with clicks, quiet and noise in them and bursts of the station's own
//! between them. Each report must be the reference's and that of the whole line, measured at once, and
//! each station the reference's. Lines that are measured wrong must be found out by the same runs. Part
//! of `differential`.

use crate::burst_heads::NO_BURST;
use crate::damaged_stations::{
    agree, in_range, random_station, reference_of, report_in_range, same_bytes, FIRST_IN_FRAME,
};
use crate::drift_lines::{End, Found, Line, Slip, SLIPS};
use crate::engine;
use crate::met::{must_meet, must_meet_all};
use crate::previews::{ALL, BAUDOT};
use reference::answer::{EDGES, STATE, SUCCESS};
use reference::demand3::Entries;
use reference::drift::{Drifts, Report, Waiting, MOST_DISPLACED, MOST_EDGES};
use reference::line::{preamble, runs, signal, text_codes, QUIET};
use reference::mode::Mode;
use reference::normal::Alphabet;
use reference::random::Random;
use reference::station::{Ran, Station, FREE, MOST_MS};
use std::ops::Range;
use std::process::exit;

/// The ms of the lists of a mode.
const MS: usize = 4_000_000;

/// Elements kept behind a slice, to see writes beyond it.
const MARGIN: usize = 8;

/// What the lists must meet, in some modes or in all.
#[derive(Clone, Copy)]
enum Thing {
    WithReport,
    Without,
    Of0,
    Of1,
    Of2,
    OfMost,
    InAFrame,
    EdgesWait,
    QuietLatest,
    TwoStops,
    AheadOfABurst,
    BehindABurst,
    BegunWithout,
    EndedWithout,
    Forged,
    Offers,
    Full,
    OneLess,
    Refused,
    Codes,
    NoEdge,
    Faulty,
    NoStart,
    DroppedInABurst,
    DroppedBehindIt,
    OnTime,
    Early,
    Late,
    Earliest,
    Tie,
    AtTheStop,
    ThroughQuiet,
}

const THINGS: [(Thing, &str, &[u8]); 32] = [
    (Thing::WithReport, "runs with a report", ALL),
    (Thing::Without, "without one", ALL),
    (Thing::Of0, "runs of 0 ms", ALL),
    (Thing::Of1, "of 1", ALL),
    (Thing::Of2, "of 2", ALL),
    (Thing::OfMost, "of 4096", ALL),
    (Thing::InAFrame, "that end in a frame", BAUDOT),
    (Thing::EdgesWait, "with edges waiting", BAUDOT),
    (Thing::QuietLatest, "with quiet as its latest level", BAUDOT),
    (Thing::TwoStops, "with two frames that count", BAUDOT),
    (Thing::AheadOfABurst, "with one ahead of its burst", BAUDOT),
    (Thing::BehindABurst, "with one behind its burst", BAUDOT),
    (Thing::BegunWithout, "frames begun without a report and counted", BAUDOT),
    (Thing::EndedWithout, "ended without one", BAUDOT),
    (Thing::Forged, "lists from a forged station", BAUDOT),
    (Thing::Offers, "offers", ALL),
    (Thing::Full, "reports at 65536", BAUDOT),
    (Thing::OneLess, "at 65535", BAUDOT),
    (Thing::Refused, "answer 18", BAUDOT),
    (Thing::Codes, "frames with a code", BAUDOT),
    (Thing::NoEdge, "and no edge", BAUDOT),
    (Thing::Faulty, "faulty ones with edges", BAUDOT),
    (Thing::NoStart, "without a start", BAUDOT),
    (Thing::DroppedInABurst, "dropped in a burst", BAUDOT),
    (Thing::DroppedBehindIt, "dropped behind a burst", BAUDOT),
    (Thing::OnTime, "edges on time", BAUDOT),
    (Thing::Early, "early", BAUDOT),
    (Thing::Late, "late", BAUDOT),
    (Thing::Earliest, "as early as can be", BAUDOT),
    (Thing::Tie, "at a tie", BAUDOT),
    (Thing::AtTheStop, "at the stop sample", BAUDOT),
    (Thing::ThroughQuiet, "changes through quiet", BAUDOT),
];

/// What the lists of a mode have met.
#[derive(Default)]
struct Met {
    lists: u64,
    ms: usize,
    calls: u64,
    edges: u64,
    things: [u64; THINGS.len()],
    /// The calls that find out a slip.
    found_out: [u64; SLIPS.len()],
}

impl Met {
    fn add_if(&mut self, holds: bool, thing: Thing) {
        self.things[thing as usize] += u64::from(holds);
    }
}

/// Compares all; gives back a summary, a line for each mode.
pub fn compare(random: &mut Random) -> String {
    let lines = Mode::ALL.map(|mode| {
        let mut met = Met::default();
        for number in 0.. {
            if met.ms > MS {
                break;
            }
            List::new(random, mode, &mut met).play(number % CUTS.len());
        }
        if BAUDOT.contains(&mode.number()) {
            every_cut(random, mode, &mut met);
        }
        summary(mode, &met)
    });
    format!("reports of edges: no difference\n{}", lines.join("\n"))
}

fn summary(mode: Mode, met: &Met) -> String {
    let found_out = |slip| met.found_out[slip as usize];
    let wrong = must_meet_all("reports that are wrong", mode, &SLIPS, found_out);
    let baudot = BAUDOT.contains(&mode.number());
    if baudot {
        must_meet("reports", mode, "edges", met.edges);
    } else {
        assert_eq!(met.edges, 0, "edges in mode {}", mode.number());
    }
    format!(
        "  mode {}: lists {}, ms {}, calls {}, edges {}; {}{}{wrong}",
        mode.number(),
        met.lists,
        met.ms,
        met.calls,
        met.edges,
        must_meet_all("reports", mode, &THINGS, |thing| met.things[thing as usize]),
        if baudot { "; wrong reports found out: " } else { "" },
    )
}

/// A station on both sides.
#[derive(Clone)]
pub struct Both {
    pub engine: engine::Station,
    pub reference: Station,
}

impl Both {
    /// With the numbers of an engine's station whose core is in range; in DTMF and EDT its reader is
    /// fresh.
    pub fn of(engine: engine::Station) -> Both {
        Both { engine, reference: reference_of(&engine) }
    }

    /// A run on both sides, with a report or without one, which must do the same. Gives back the
    /// answer, and what was sent.
    pub fn run(&mut self, heard: &[u8], report: Option<&mut Report>) -> (Ran, Vec<u8>) {
        let (before, given) = (self.engine, report.as_deref().copied());
        let found = run(&mut self.engine, heard, given);
        let wanted = run(&mut self.reference, heard, given);
        let stays =
            || same_bytes(&self.engine, &before) && found == refused(heard, given, found.ran);
        let good = found == wanted
            && if found.ran.answer == SUCCESS { self.agree() } else { stays() }
            && (given.is_none() || self.same_without(&before, heard, &found));
        if !good {
            let what = format!("{found:?} and {wanted:?}, behind it {:?}", self.engine.core);
            differs(&before, heard, given, &what);
        }
        if let (Some(report), Some(found)) = (report, found.report) {
            *report = found;
        }
        (found.ran, found.sent[..heard.len()].to_vec())
    }

    /// Does a run without a report do the same? One that was refused for its report is not.
    fn same_without(&self, before: &engine::Station, heard: &[u8], found: &Done) -> bool {
        let mut other = *before;
        let done = run(&mut other, heard, None);
        match (found.ran.answer, found.report) {
            (EDGES, _) => done.ran.answer == SUCCESS,
            (STATE, Some(report)) if !report_in_range(&report) => true,
            _ => done == Done { report: None, ..found.clone() } && other == self.engine,
        }
    }

    pub fn agree(&self) -> bool {
        in_range(&self.engine) && agree(&self.engine, &self.reference)
    }
}

/// What a run has given: its slices with what stands behind them, and the report.
#[derive(Clone, Debug, PartialEq)]
struct Done {
    ran: Ran,
    sent: Vec<u8>,
    words: Vec<u32>,
    report: Option<Report>,
}

/// What a run gives that is refused.
fn refused(heard: &[u8], report: Option<Report>, ran: Ran) -> Done {
    let length = heard.len() + MARGIN;
    Done { ran, sent: vec![0xA5; length], words: vec![0xA5A5_A5A5; length], report }
}

fn run<S: Drifts>(station: &mut S, heard: &[u8], report: Option<Report>) -> Done {
    let mut done = refused(heard, report, Ran { answer: SUCCESS, words: 0 });
    done.ran = match &mut done.report {
        Some(report) => station.run_drift(heard, &mut done.sent, &mut done.words, report),
        None => station.run(heard, &mut done.sent, &mut done.words),
    };
    done
}

pub fn differs(station: &engine::Station, heard: &[u8], report: Option<Report>, what: &str) -> ! {
    println!("difference: edges, run of {:?} with {report:?}: {what}", runs(heard));
    println!("{:?}, {:?}", station.core, station.edges);
    exit(1);
}

/// A report in range with so many edges.
pub fn report_of(random: &mut Random, edges: u32) -> Report {
    if edges == 0 {
        return Report::default();
    }
    let mut from = |most: i32| random.below(2 * most as usize + 1) as i32 - most;
    let sum = from(MOST_DISPLACED * edges as i32);
    Report { edges, sum, smallest: from(MOST_DISPLACED), largest: from(MOST_DISPLACED) }
}

/// A signal whose levels change up to so many ms early or late, each change on its own.
pub fn moved(random: &mut Random, signal: &[u8], most: usize) -> Vec<u8> {
    let mut moved = Vec::new();
    let mut end = 0;
    for (level, length) in runs(signal) {
        end += length;
        let late = end + random.below(2 * most + 1);
        moved.resize(late.saturating_sub(most).max(moved.len()), level);
    }
    moved
}

/// A burst of a random text, perhaps with less preamble.
fn burst(random: &mut Random, mode: Mode) -> Vec<u8> {
    let length = 1 + random.below(5);
    let text = match random.below(3) {
        0 => random.english(length),
        1 => random.uniform(length, 128),
        _ => (0..length).map(|_| random.pick(b"E5T9 \n:AYR")).collect(),
    };
    let mut burst = preamble(mode);
    burst.truncate(random.pick(&[0, 1, 40, burst.len()]));
    text_codes(mode, &text).iter().for_each(|code| burst.extend(signal(mode, code)));
    burst
}

/// Puts up to so many ms of a level over a signal, a few times.
fn put(random: &mut Random, signal: &mut [u8], times: usize, level: Option<u8>, most: usize) {
    for _ in 0..times.min(signal.len()) {
        let at = random.below(signal.len());
        let end = signal.len().min(at + 1 + random.below(most));
        let level = level.unwrap_or_else(|| random.below(3) as u8);
        signal[at..end].fill(level);
    }
}

/// Some ms to be heard: quiet, a burst with its edges moved, clicks or quiet in it, or noise.
pub fn piece(random: &mut Random, mode: Mode) -> Vec<u8> {
    let most = random.below(13);
    let clear = burst(random, mode);
    let mut moved = moved(random, &clear, most);
    match random.below(10) {
        0 => vec![QUIET; random.pick(&[1, 20, 299, 300, 301, 700])],
        1 => vec![random.below(3) as u8; 1 + random.below(300)],
        2..=4 => moved,
        5 => clear,
        6 => {
            put(random, &mut moved, 6, None, 3);
            moved
        }
        7 => {
            put(random, &mut moved, 8, Some(QUIET), 8);
            moved
        }
        8 => (0..random.below(300)).map(|_| random.below(3) as u8).collect(),
        _ => {
            let most = 1 + random.below(40);
            (0..30).flat_map(|_| vec![random.below(3) as u8; 1 + random.below(most)]).collect()
        }
    }
}

/// The ms of the calls of a list, and of the list; those of the last one are at random.
const CUTS: [(&[usize], usize); 6] = [
    (&[1], 2_000),
    (&[2, 2, 2, 0], 4_000),
    (&[20], 12_000),
    (&[1, 2, 3, 11, 22, 143, 144, 165], 12_000),
    (&[MOST_MS], 40_000),
    (&[], 30_000),
];

/// A run of a list: its ms, its report ahead of it and behind it if it has one, and what waits then.
struct Call {
    ms: Range<usize>,
    reports: Option<[Report; 2]>,
    waiting: Waiting,
}

/// A list of calls of one station, and what it has heard.
struct List<'a> {
    random: &'a mut Random,
    mode: Mode,
    met: &'a mut Met,
    both: Both,
    line: Line,
    calls: Vec<Call>,
    start: Report,
    report: Report,
}

impl List<'_> {
    /// From a fresh station, and in Baudot now and then from one that no list of calls need lead to;
    /// from a fresh report, or from one that is nearly full.
    fn new<'a>(random: &'a mut Random, mode: Mode, met: &'a mut Met) -> List<'a> {
        let mut engine = engine::Station::open(mode.number()).1;
        if mode.alphabet() == Alphabet::Baudot && random.one_in(3) {
            engine = forged(random, mode);
            met.add_if(true, Thing::Forged);
        }
        let edges = match random.below(8) {
            0 => MOST_EDGES - random.below(3) as u32,
            1 => MOST_EDGES - random.below(200) as u32,
            2 => random.below(MOST_EDGES as usize) as u32,
            _ => 0,
        };
        let start = report_of(random, edges);
        let (both, line) = (Both::of(engine), Line::of(&engine));
        List { random, mode, met, both, line, calls: Vec::new(), start, report: start }
    }

    fn play(mut self, cuts: usize) {
        let (lengths, ms) = CUTS[cuts];
        let mut heard = Vec::new();
        while heard.len() < ms {
            heard.extend(piece(self.random, self.mode));
        }
        let mut heard = &heard[..];
        while !heard.is_empty() {
            let length = match lengths {
                [] => self.random.below(700),
                _ => self.random.pick(lengths),
            };
            let (now, later) = heard.split_at(length.min(heard.len()));
            if self.random.one_in(24) {
                self.offer();
            }
            if self.random.one_in(8) {
                self.most_edges(now);
            }
            let with_report = self.random.below(3) > 0;
            self.call(now, with_report);
            heard = later;
        }
        self.measured();
    }

    fn offer(&mut self) {
        let text = self.random.pick(&[&b"E"[..], b"9", b"a1", b"\x7F", b"", b"TOO"]);
        let answers = (self.both.engine.offer(text), self.both.reference.offer(text));
        if answers.0 != answers.1 || !self.both.agree() {
            differs(&self.both.engine, &[], None, &format!("an offer answers {answers:?}"));
        }
        self.met.add_if(true, Thing::Offers);
    }

    /// A run that fills a report, and one that would pass its most edges.
    fn most_edges(&mut self, heard: &[u8]) {
        let mut counted = Report::default();
        self.both.clone().run(heard, Some(&mut counted));
        for more in 0..=counted.edges.min(1) {
            let report = report_of(self.random, MOST_EDGES - counted.edges + more);
            let mut after = report;
            let (ran, _) = self.both.clone().run(heard, Some(&mut after));
            let wanted = if more == 0 { report.joined(counted) } else { report };
            if (ran.answer == EDGES) != (more == 1) || after != wanted {
                differs(&self.both.engine, heard, Some(report), &format!("{ran:?}, {after:?}"));
            }
            self.met.add_if(more == 0, Thing::Full);
            self.met.add_if(more == 1, Thing::Refused);
        }
    }

    /// The next run. If the report has no space for its edges, it goes without.
    fn call(&mut self, heard: &[u8], with_report: bool) {
        let before = self.report;
        let report = with_report.then_some(&mut self.report);
        let (ran, sent) = self.both.run(heard, report);
        if ran.answer == EDGES {
            self.met.add_if(true, Thing::Refused);
            return self.call(heard, false);
        }
        if ran.answer != SUCCESS {
            differs(&self.both.engine, heard, Some(before), &format!("{ran:?}"));
        }
        let start = self.line.levels.len();
        self.line.hears(heard, &sent);
        let ms = start..self.line.levels.len();
        let reports = with_report.then_some([before, self.report]);
        self.met_call(heard.len(), with_report);
        self.calls.push(Call { ms, reports, waiting: self.both.engine.edges.waiting() });
    }

    fn met_call(&mut self, ms: usize, with_report: bool) {
        let (met, edges) = (&mut *self.met, self.both.engine.edges);
        met.calls += 1;
        met.ms += ms;
        met.add_if(with_report, Thing::WithReport);
        met.add_if(!with_report, Thing::Without);
        for (number, thing) in
            [(0, Thing::Of0), (1, Thing::Of1), (2, Thing::Of2), (MOST_MS, Thing::OfMost)]
        {
            met.add_if(ms == number, thing);
        }
        let place = self.both.engine.core.reader.frame.place;
        met.add_if(place >= FIRST_IN_FRAME, Thing::InAFrame);
        met.add_if(edges.report.edges > 0, Thing::EdgesWait);
        met.add_if(place >= FIRST_IN_FRAME && edges.level == QUIET, Thing::QuietLatest);
        met.add_if(self.report.edges == MOST_EDGES, Thing::Full);
        met.add_if(self.report.edges == MOST_EDGES - 1, Thing::OneLess);
    }

    /// Measures the whole line: each report behind a run, and each of the waiting edges.
    fn measured(&mut self) {
        self.met.lists += 1;
        let baudot = self.mode.alphabet() == Alphabet::Baudot;
        let frames = if baudot { self.line.frames() } else { Vec::new() };
        let counted = self.line.counted(&frames, None);
        let mut all = self.start;
        for call in &self.calls {
            let edges = counted_in(&counted, &call.ms);
            if let Some([before, after]) = call.reports {
                all = all.joined(edges);
                self.expect(call, before.joined(edges) == after, "the report");
                self.met.edges += u64::from(edges.edges);
            }
            let waiting = self.line.waiting(&frames, call.ms.end);
            self.expect(call, waiting == call.waiting, "the waiting edges");
        }
        let last = self.calls.last().expect("a call");
        self.expect(last, all == self.report, "the report of all calls");
        for (slip, _, modes) in SLIPS {
            if modes.contains(&self.mode.number()) {
                let wrong = self.line.counted(&frames, Some(slip));
                let calls = self.calls.iter();
                self.met.found_out[slip as usize] +=
                    calls.filter(|call| call.finds_out(&wrong)).count() as u64;
            }
        }
        self.met_calls(&counted);
        frames.iter().for_each(|frame| self.met_frame(frame));
    }

    fn expect(&self, call: &Call, holds: bool, what: &str) {
        if !holds {
            let (mode, Call { ms, reports, waiting }) = (self.mode.number(), call);
            println!("difference: edges, mode {mode}, ms {ms:?} of {:?}", runs(&self.line.levels));
            println!("{what} of the whole line; {reports:?}, waiting {waiting:?}");
            exit(1);
        }
    }

    /// Counts what the frames that count meet among the calls.
    fn met_calls(&mut self, counted: &[(usize, Report)]) {
        for call in self.calls.iter().filter(|call| call.reports.is_some()) {
            let mut stops = counted.iter().map(|&(ms, _)| ms).filter(|ms| call.ms.contains(ms));
            let (first, last) = (stops.next(), stops.last());
            self.met.add_if(last.is_some(), Thing::TwoStops);
            let mut bursts = call.ms.clone().filter(|&ms| self.line.in_burst(ms));
            if let (Some(first), Some(begin)) = (first, bursts.next()) {
                let end = bursts.last().unwrap_or(begin);
                self.met.add_if(first < begin, Thing::AheadOfABurst);
                self.met.add_if(last.unwrap_or(first) > end, Thing::BehindABurst);
            }
        }
    }

    /// Counts what a frame has met.
    fn met_frame(&mut self, frame: &Found) {
        let edges = self.line.edges(frame.heard(), None);
        let some = !self.line.waiting(&[*frame], frame.last).report.eq(&Report::default());
        let with_report = |ms: usize| {
            let place = self.calls.partition_point(|call| call.ms.end <= ms);
            self.calls.get(place).is_some_and(|call| call.reports.is_some())
        };
        let [begun, ended] = [frame.first, frame.last].map(with_report);
        let (met, code) = (&mut *self.met, frame.end == End::Code);
        met.add_if(code, Thing::Codes);
        met.add_if(code && edges.is_empty() && frame.first >= self.line.ahead, Thing::NoEdge);
        met.add_if(code && some && !begun && ended, Thing::BegunWithout);
        met.add_if(code && some && begun && !ended, Thing::EndedWithout);
        met.add_if(frame.end == End::Fault && some, Thing::Faulty);
        met.add_if(frame.end == End::NoStart && some, Thing::NoStart);
        let dropped = frame.end == End::Inhibited && some;
        met.add_if(dropped && self.line.in_burst(frame.last), Thing::DroppedInABurst);
        met.add_if(dropped && !self.line.in_burst(frame.last), Thing::DroppedBehindIt);
        if code {
            let half = self.mode.element() as i32 / 2;
            for &(ms, displaced) in &edges {
                met.add_if(displaced == 0, Thing::OnTime);
                met.add_if(displaced < 0, Thing::Early);
                met.add_if(displaced > 0, Thing::Late);
                met.add_if(displaced == 1 - half, Thing::Earliest);
                met.add_if(displaced == half, Thing::Tie);
                met.add_if(ms == self.mode.last_sample(), Thing::AtTheStop);
            }
            let through = self.line.edges(frame.heard(), Some(Slip::ThroughQuiet));
            met.add_if(through.len() > edges.len(), Thing::ThroughQuiet);
        }
    }
}

impl Call {
    /// Is its report another one than that of a line that is measured wrong?
    fn finds_out(&self, wrong: &[(usize, Report)]) -> bool {
        self.reports
            .is_some_and(|[before, after]| before.joined(counted_in(wrong, &self.ms)) != after)
    }
}

/// The edges of the frames that count in some ms.
fn counted_in(counted: &[(usize, Report)], ms: &Range<usize>) -> Report {
    let from = counted.partition_point(|(at, _)| *at < ms.start);
    let now = counted[from..].iter().take_while(|(at, _)| *at < ms.end);
    now.fold(Report::default(), |all, (_, report)| all.joined(*report))
}

/// A Baudot station that no list of calls need lead to, often in no burst, with a frame that its own
/// burst drops soon.
pub fn forged(random: &mut Random, mode: Mode) -> engine::Station {
    let mut station = random_station(random, mode);
    station.core.waiting = station.core.waiting.min(3);
    if random.below(4) > 0 {
        station.core.line = NO_BURST;
        station.core.inhibited = random.pick(&[0, 0, 0, 1, 2]);
        station.core.silence = FREE - random.below(20) as u16;
    }
    station
}

/// A burst with its edges moved, cut in two at every ms.
fn every_cut(random: &mut Random, mode: Mode, met: &mut Met) {
    for most in [4, 12] {
        let clear = burst(random, mode);
        let heard = moved(random, &clear, most);
        for cut in 0..=heard.len() {
            let mut list = List::new(random, mode, met);
            list.call(&heard[..cut], true);
            list.call(&heard[cut..], true);
            list.measured();
        }
    }
}
