//! The edges of Baudot frames, early or late (document 02, request 111): reports of them, and the frame
//! that a station is in. The levels of its ms are kept, and its edges are found when they are asked for.

use crate::demand3::Entries;
use crate::line::{MARK, QUIET, SPACE};
use crate::mode::Mode;
use crate::normal::Alphabet;
use crate::reader::Place;
use crate::station::{Ran, Station};

/// The most edges of a report, and the largest displacement either way.
pub const MOST_EDGES: u32 = 65_536;
pub const MOST_DISPLACED: i32 = 11;

/// How many edges, the sum of their displacements, the smallest and the largest. With no edge all are 0.
#[repr(C)]
#[derive(Clone, Copy, Debug, Default, PartialEq, Eq)]
pub struct Report {
    pub edges: u32,
    pub sum: i32,
    pub smallest: i32,
    pub largest: i32,
}

impl Report {
    /// The report of some displacements.
    pub fn of(displacements: &[i64]) -> Report {
        let (Some(&smallest), Some(&largest)) =
            (displacements.iter().min(), displacements.iter().max())
        else {
            return Report::default();
        };
        let sum = number(displacements.iter().sum());
        let edges = displacements.len() as u32;
        Report { edges, sum, smallest: number(smallest), largest: number(largest) }
    }

    /// The report of the edges of both; one that has none leaves the other as it is, in range or not.
    pub fn joined(self, other: Report) -> Report {
        if self.edges == 0 || other.edges == 0 {
            return if other.edges == 0 { self } else { other };
        }
        Report {
            edges: self.edges + other.edges,
            sum: number(i64::from(self.sum) + i64::from(other.sum)),
            smallest: self.smallest.min(other.smallest),
            largest: self.largest.max(other.largest),
        }
    }

    /// Question 1.
    pub fn in_range(&self) -> bool {
        let [edges, sum] = [i64::from(self.edges), i64::from(self.sum)];
        let displaced = -MOST_DISPLACED..=MOST_DISPLACED;
        match self.edges {
            0 => *self == Report::default(),
            1..=MOST_EDGES => {
                displaced.contains(&self.smallest)
                    && displaced.contains(&self.largest)
                    && sum.abs() <= i64::from(MOST_DISPLACED) * edges
            }
            _ => false,
        }
    }
}

fn number(number: i64) -> i32 {
    i32::try_from(number).expect("a number of a report")
}

/// What waits in a station: the edges of its frame so far, and the level of the latest ms. All are 0
/// outside a frame.
#[derive(Clone, Copy, Debug, Default, PartialEq, Eq)]
pub struct Waiting {
    pub report: Report,
    pub level: u8,
}

/// The ms of a frame less the nearest multiple of the element; of two that are as near the earlier one.
pub fn displacement(mode: Mode, ms: usize) -> i64 {
    let multiples = (0..=mode.elements()).map(|element| element * mode.element());
    let displacements = multiples.map(|multiple| ms as i64 - multiple as i64);
    displacements.min_by_key(|displacement| displacement.abs()).expect("a multiple")
}

/// The displacements of the edges in a frame's levels, which begin with ms 0.
pub fn displacements(mode: Mode, levels: &[u8]) -> Vec<i64> {
    let changes = levels.windows(2).zip(1..);
    let edges = changes.filter(|(two, _)| [[MARK, SPACE], [SPACE, MARK]].iter().any(|e| e == two));
    edges.map(|(_, ms)| displacement(mode, ms)).collect()
}

/// The frame that a Baudot station is in.
#[derive(Clone, Debug, Default, PartialEq, Eq)]
pub struct Frame {
    /// The level of each ms so far; none outside a frame.
    levels: Vec<u8>,
    /// What a forged station began with.
    forged: Waiting,
}

impl Frame {
    /// A frame of so many ms, with these edges so far. All its levels but the latest are taken as quiet,
    /// so that they bring no edge.
    pub fn forged(ms: usize, waiting: Waiting) -> Frame {
        let mut levels = vec![QUIET; ms];
        if let Some(latest) = levels.last_mut() {
            *latest = waiting.level;
        }
        Frame { levels, forged: waiting }
    }

    pub fn waiting(&self, mode: Mode) -> Waiting {
        let report = self.forged.report.joined(Report::of(&displacements(mode, &self.levels)));
        Waiting { report, level: self.levels.last().copied().unwrap_or(self.forged.level) }
    }

    /// The most edges that could wait; no ms brings two.
    pub fn most_edges(&self) -> usize {
        self.forged.report.edges as usize + self.levels.len()
    }

    /// Question 1.
    pub fn in_range(&self, mode: Mode) -> bool {
        let waiting = self.waiting(mode);
        if self.levels.is_empty() || mode.alphabet() != Alphabet::Baudot {
            return waiting == Waiting::default();
        }
        waiting.report.in_range()
            && (waiting.report.edges as usize) < self.levels.len()
            && waiting.level <= SPACE
    }

    /// No frame any more.
    pub fn end(&mut self) {
        self.levels.clear();
        self.forged = Waiting::default();
    }

    /// A ms that was heard, and where it has left the reader. Gives back the edges that count: those of
    /// a frame behind whose stop sample the reader hunts.
    #[inline]
    pub fn hear(&mut self, mode: Mode, level: u8, reader: Place) -> Option<Report> {
        if reader == Place::Hunting && self.levels.is_empty() {
            return None;
        }
        self.levels.push(level);
        if matches!(reader, Place::Frame(_)) {
            return None;
        }
        let whole = self.levels.len() == mode.last_sample() + 1;
        let counted = (whole && reader == Place::Hunting).then(|| self.waiting(mode).report);
        self.end();
        counted
    }
}

/// The entries of a station with reports.
pub trait Drifts: Entries {
    fn run_drift(
        &mut self,
        heard: &[u8],
        sent: &mut [u8],
        words: &mut [u32],
        report: &mut Report,
    ) -> Ran;
}

impl Drifts for Station {
    fn run_drift(
        &mut self,
        heard: &[u8],
        sent: &mut [u8],
        words: &mut [u32],
        report: &mut Report,
    ) -> Ran {
        Station::run_drift(self, heard, sent, words, report)
    }
}

#[cfg(test)]
mod tests {
    use super::*;
    use crate::line::{signal, Code};

    #[test]
    fn displaced_by_the_nearest_multiple() {
        for (mode, wanted) in [
            (Mode::Baudot45, [(1, 1), (11, 11), (12, -10), (21, -1), (22, 0), (143, 11)]),
            (Mode::Baudot50, [(1, 1), (10, 10), (11, -9), (19, -1), (20, 0), (130, 10)]),
        ] {
            for (ms, displaced) in wanted {
                assert_eq!(displacement(mode, ms), displaced);
            }
            for ms in 0..=mode.last_sample() {
                let (ms, e) = (ms as i64, mode.element() as i64);
                let displaced = displacement(mode, ms as usize);
                assert_eq!((ms - displaced) % e, 0);
                assert!(-e < 2 * displaced && 2 * displaced <= e);
            }
        }
    }

    #[test]
    fn edges_of_codes() {
        for mode in [Mode::Baudot45, Mode::Baudot50] {
            // Start, 1, four times 0, stop.
            let e = signal(mode, &Code::FiveBits(0b00001));
            assert_eq!(displacements(mode, &e), [0, 0, 0]);
            let mut moved = e.clone();
            moved[mode.element() - 3..mode.element()].fill(MARK);
            moved[2 * mode.element()..][..5].fill(MARK);
            assert_eq!(displacements(mode, &moved), [-3, 5, 0]);
            // A change through quiet is none.
            moved[mode.element() - 3] = QUIET;
            assert_eq!(displacements(mode, &moved), [5, 0]);
        }
    }

    #[test]
    fn reports() {
        assert_eq!(Report::of(&[]), Report::default());
        let [a, b] = [Report::of(&[-3, 5]), Report::of(&[11, -10, 1])];
        assert_eq!(a, Report { edges: 2, sum: 2, smallest: -3, largest: 5 });
        assert_eq!(a.joined(b), Report::of(&[-3, 5, 11, -10, 1]));
        assert_eq!(a.joined(Report::default()), a);
        assert_eq!(Report::default().joined(a), a);
    }

    #[test]
    fn ranges_of_reports() {
        let report = |edges, sum, smallest, largest| Report { edges, sum, smallest, largest };
        for good in [
            report(0, 0, 0, 0),
            report(1, 11, -11, 11),
            report(1, -11, 11, -11),
            report(65_536, 720_896, 0, 0),
            report(65_536, -720_896, 0, 0),
        ] {
            assert!(good.in_range(), "{good:?}");
        }
        for bad in [
            report(0, 1, 0, 0),
            report(0, 0, -1, 0),
            report(0, 0, 0, 1),
            report(1, 12, 0, 0),
            report(1, -12, 0, 0),
            report(1, i32::MIN, 0, 0),
            report(1, 0, -12, 0),
            report(1, 0, 12, 0),
            report(1, 0, 0, -12),
            report(1, 0, i32::MIN, 0),
            report(65_537, 0, 0, 0),
            report(u32::MAX, 0, 0, 0),
        ] {
            assert!(!bad.in_range(), "{bad:?}");
        }
    }
}
