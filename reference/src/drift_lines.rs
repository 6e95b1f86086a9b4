//! The edges of a whole line at once (document 02, request 111): its frames are cut out of it first, and
//! each is measured then. It may be told to get them wrong. Part of `differential`.

use crate::damaged_stations::frame_ms;
use crate::engine::Station;
use crate::previews::BAUDOT;
use reference::drift::{Report, Waiting};
use reference::line::{MARK, QUIET, SPACE};
use reference::mode::Mode;
use reference::station::INHIBITED;
use std::ops::Range;

/// Ways to get the edges wrong.
#[derive(Clone, Copy, PartialEq, Eq)]
pub enum Slip {
    TieLater,
    NoStopEdge,
    StartEdge,
    FaultyKept,
    NoStartKept,
    InhibitedKept,
    Unsigned,
    CallOfTheStart,
    Exchanged,
    ThroughQuiet,
}

pub const SLIPS: [(Slip, &str, &[u8]); 10] = [
    (Slip::TieLater, "a tie to the later multiple", BAUDOT),
    (Slip::NoStopEdge, "no edge at the stop sample", BAUDOT),
    (Slip::StartEdge, "an edge at the start", BAUDOT),
    (Slip::FaultyKept, "edges of faulty frames", BAUDOT),
    (Slip::NoStartKept, "of frames without a start", BAUDOT),
    (Slip::InhibitedKept, "of frames that an inhibited ms drops", BAUDOT),
    (Slip::Unsigned, "an unsigned sum", BAUDOT),
    (Slip::CallOfTheStart, "edges in the call of the start", BAUDOT),
    (Slip::Exchanged, "smallest and largest exchanged", BAUDOT),
    (Slip::ThroughQuiet, "changes through quiet", BAUDOT),
];

/// How a frame ends; one that is open goes on behind the line.
#[derive(Clone, Copy, Debug, PartialEq, Eq)]
pub enum End {
    Code,
    Fault,
    NoStart,
    Inhibited,
    Open,
}

/// A frame of a line: its first ms, the one that ends it, and how that does.
#[derive(Clone, Copy)]
pub struct Found {
    pub first: usize,
    pub last: usize,
    pub end: End,
}

impl Found {
    /// Its ms that were heard, as far as the line goes.
    pub fn heard(&self) -> Range<usize> {
        match self.end {
            End::Inhibited | End::Open => self.first..self.last,
            _ => self.first..self.last + 1,
        }
    }
}

/// What a Baudot station hears in all its runs.
pub struct Line {
    mode: Mode,
    /// The ms so far of the frame in which the station began, and their edges. Their levels stand ahead
    /// of all others, as quiet but for the latest.
    pub ahead: usize,
    before: Report,
    /// Did it begin waiting after a fault?
    waits: bool,
    pub levels: Vec<u8>,
    sent: Vec<u8>,
    /// Is a ms inhibited? And how many still are.
    inhibited: Vec<bool>,
    left: u16,
}

impl Line {
    pub fn of(station: &Station) -> Line {
        let (core, mode) = (&station.core, Mode::from_number(station.core.mode).expect("a mode"));
        let ahead = frame_ms(core).unwrap_or(0);
        let mut levels = vec![QUIET; ahead];
        levels.iter_mut().rev().take(1).for_each(|latest| *latest = station.edges.level);
        // The first ms of a station that is in a burst belongs to it.
        let left = if core.line.part == 0 { core.inhibited } else { 1 + INHIBITED };
        let (before, waits) = (station.edges.report, core.reader.frame.place == 1);
        let (sent, inhibited) = (vec![QUIET; ahead], vec![false; ahead]);
        Line { mode, ahead, before, waits, levels, sent, inhibited, left }
    }

    /// A run: in Baudot every ms of a burst is sent as mark or space.
    pub fn hears(&mut self, heard: &[u8], sent: &[u8]) {
        for (&level, &sent) in heard.iter().zip(sent) {
            if sent != QUIET {
                self.left = 1 + INHIBITED;
            }
            self.levels.push(level);
            self.sent.push(sent);
            self.inhibited.push(self.left > 0);
            self.left = self.left.saturating_sub(1);
        }
    }

    /// Did the station send in a ms?
    pub fn in_burst(&self, ms: usize) -> bool {
        self.sent[ms] != QUIET
    }

    /// All frames, in order.
    pub fn frames(&self) -> Vec<Found> {
        let mut frames = Vec::new();
        let mut ms = if self.waits { self.wait_from(0) } else { 0 };
        while ms < self.levels.len() {
            let begun = ms == 0 && self.ahead > 0;
            if !begun && (self.inhibited[ms] || self.levels[ms] != SPACE) {
                ms += 1;
                continue;
            }
            let (last, end) = self.end_of(ms);
            frames.push(Found { first: ms, last, end });
            ms = if end == End::Fault { self.wait_from(last + 1) } else { last + 1 };
        }
        frames
    }

    /// From where the reader hunts that waits from a ms on.
    fn wait_from(&self, from: usize) -> usize {
        let ends = |&ms: &usize| self.inhibited[ms] || self.levels[ms] != SPACE;
        (from..self.levels.len()).find(ends).map_or(self.levels.len(), |ms| ms + 1)
    }

    /// The ms that ends a frame, and how. What stood ahead of the line is taken as good.
    fn end_of(&self, first: usize) -> (usize, End) {
        let samples: Vec<usize> =
            (0..self.mode.elements()).map(|j| self.mode.sample_at(j)).collect();
        for ms in first.max(self.ahead)..self.levels.len() {
            if self.inhibited[ms] {
                return (ms, End::Inhibited);
            }
            let (level, sample) = (self.levels[ms], samples.iter().position(|&s| s == ms - first));
            match sample {
                Some(0) if level != SPACE => return (ms, End::NoStart),
                Some(1..) if level == QUIET => return (ms, End::Fault),
                Some(6) if level == MARK => return (ms, End::Code),
                Some(6) => return (ms, End::Fault),
                _ => {}
            }
        }
        (self.levels.len(), End::Open)
    }

    /// The displacements of the edges in some ms of a frame, each with its ms in the frame.
    pub fn edges(&self, heard: Range<usize>, slip: Option<Slip>) -> Vec<(usize, i32)> {
        let (first, element) = (heard.start, self.mode.element() as i32);
        let levels = &self.levels[heard];
        let mut edges = Vec::new();
        if slip == Some(Slip::StartEdge) && first > 0 && self.levels[first - 1] == MARK {
            edges.push((0, 0));
        }
        let mut latest = levels[0];
        for (ms, two) in (1..).zip(levels.windows(2)) {
            let before = if slip == Some(Slip::ThroughQuiet) { latest } else { two[0] };
            let left_out = slip == Some(Slip::NoStopEdge) && ms == self.mode.last_sample();
            if before + two[1] == MARK + SPACE && before != QUIET && two[1] != QUIET && !left_out {
                let late = ms as i32 % element;
                let tie = 2 * late == element && slip == Some(Slip::TieLater);
                let early = 2 * late > element || tie;
                edges.push((ms, if early { late - element } else { late }));
            }
            latest = if two[1] == QUIET { latest } else { two[1] };
        }
        edges
    }

    /// The report of some ms of a frame.
    fn report(&self, heard: Range<usize>, slip: Option<Slip>) -> Report {
        let before = if heard.start < self.ahead { self.before } else { Report::default() };
        let mut all = Report::default();
        for (_, displaced) in self.edges(heard, slip) {
            let sum = if slip == Some(Slip::Unsigned) { displaced.abs() } else { displaced };
            all = all.joined(Report { edges: 1, sum, smallest: displaced, largest: displaced });
        }
        if slip == Some(Slip::Exchanged) {
            (all.smallest, all.largest) = (all.largest, all.smallest);
        }
        before.joined(all)
    }

    /// The frames that count: each with the ms in which it does, in order, and with its report.
    pub fn counted(&self, frames: &[Found], slip: Option<Slip>) -> Vec<(usize, Report)> {
        let kept = match slip {
            Some(Slip::FaultyKept) => End::Fault,
            Some(Slip::NoStartKept) => End::NoStart,
            Some(Slip::InhibitedKept) => End::Inhibited,
            _ => End::Code,
        };
        let counts = frames.iter().filter(|frame| frame.end == End::Code || frame.end == kept);
        let at_start = slip == Some(Slip::CallOfTheStart);
        let ms = |frame: &Found| if at_start { frame.first } else { frame.last };
        counts.map(|frame| (ms(frame), self.report(frame.heard(), slip))).collect()
    }

    /// What waits ahead of a ms.
    pub fn waiting(&self, frames: &[Found], ms: usize) -> Waiting {
        let place = frames.partition_point(|frame| frame.first < ms);
        match frames[..place].last() {
            Some(frame) if ms <= frame.last => {
                Waiting { report: self.report(frame.first..ms, None), level: self.levels[ms - 1] }
            }
            _ => Waiting::default(),
        }
    }
}
