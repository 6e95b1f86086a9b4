//! Random lists of calls on which demand 3 is checked. They aim at what could break it: half
//! frames, a prefix in hand, keys and spaces held up to the last 40 ms of the idle period,
//! inhibition that ends with it, B opened late, offers inside bursts and right behind them, and
//! refused calls.

use crate::annex::FIGURES_CODE;
use crate::demand3::{check, Checked, Entries, Log, CLEAR, IDLE};
use crate::line::{codes, key_number, preamble, signal, text_codes, Code, QUIET};
use crate::line::{KEYS, KEY_GAP, KEY_LENGTH, MARK, SPACE};
use crate::mode::Mode;
use crate::random::Random;
use crate::send_model::SendModel;
use crate::station::{MOST_MS, MOST_WAITING};
use std::ops::Range;

/// What the lists have met.
#[derive(Clone, Copy, Debug, Default)]
pub struct Summary {
    /// The ms that A and B have run.
    pub ms: usize,
    /// The idle periods checked.
    pub idle: usize,
    pub compared: usize,
    pub read: usize,
    pub most_before: usize,
    /// Lists in which B's inhibition ended with the idle period.
    pub just_inhibited: usize,
}

impl Summary {
    fn add(&mut self, checked: Checked) {
        self.idle += 1;
        self.compared += checked.compared;
        self.read += checked.read;
        self.most_before = self.most_before.max(checked.before);
    }
}

/// Checks pairs of lists of at least so many ms in all.
pub fn check_lists<S: Entries>(mode: Mode, seed: u64, ms: usize) -> Result<Summary, String> {
    let mut lists = Lists { mode, random: Random::new(seed) };
    let mut summary = Summary::default();
    let mut number = 0;
    while summary.ms < ms {
        number += 1;
        lists
            .pair::<S>(&mut summary)
            .map_err(|error| format!("{mode:?}, seed {seed}, pair {number}: {error}"))?;
    }
    Ok(summary)
}

struct Lists {
    mode: Mode,
    random: Random,
}

impl Lists {
    /// A list on A, and one on B that keeps the premises for an idle period of A.
    fn pair<S: Entries>(&mut self, summary: &mut Summary) -> Result<(), String> {
        let a: Log<S> = self.list_on_a()?;
        summary.ms += a.ms.len();
        let stretches = idle_stretches(&a);
        if stretches.is_empty() {
            return Ok(());
        }
        let idle = self.idle_period(&stretches);
        let b: Log<S> = self.list_on_b(&a, idle)?;
        summary.ms += b.ms.len();
        let before = idle.checked_sub(1).and_then(|ms| b.at(ms));
        summary.just_inhibited += usize::from(before.is_some_and(|ms| ms.in_burst));
        let Some(checked) = check(&a, &b, idle)? else {
            return Err(format!("the premises do not hold for the idle period from ms {idle}"));
        };
        summary.add(checked);
        // The premises then hold for every later idle period as well.
        for later in stretches.iter().flat_map(|ms| [ms.start, ms.end - IDLE]) {
            if later > idle {
                if let Some(checked) = check(&a, &b, later)? {
                    summary.add(checked);
                }
            }
        }
        Ok(())
    }

    /// The start of an idle period, mostly one at whose end a burst begins.
    fn idle_period(&mut self, stretches: &[Range<usize>]) -> usize {
        let stretch = &stretches[self.random.below(stretches.len())];
        let last = stretch.end - IDLE;
        match self.random.below(6) {
            0 => stretch.start,
            1 => stretch.start + self.random.below(last - stretch.start + 1),
            _ => last,
        }
    }

    fn list_on_a<S: Entries>(&mut self) -> Result<Log<S>, String> {
        let mut a = Log::open(self.mode, self.random.below(3000));
        let length = 1500 + self.random.below(8000);
        while a.ms.len() < length {
            match self.random.below(12) {
                0..=1 => a.offer(&self.text())?,
                2 => self.refused(&mut a)?,
                3..=4 => {
                    let heard = self.piece(&a, a.now());
                    a.run(&heard)?;
                }
                5..=6 => a.run(&vec![QUIET; self.random.below(400)])?,
                7..=8 => self.finish_burst(&mut a)?,
                _ => self.idle_on_a(&mut a)?,
            }
        }
        Ok(a)
    }

    /// Up to the last ms of the burst, or one less or more; then perhaps an offer.
    fn finish_burst<S: Entries>(&mut self, a: &mut Log<S>) -> Result<(), String> {
        let left = (a.burst_left() + self.random.pick(&[0, 0, 1])).min(MOST_MS);
        a.run(&vec![QUIET; left.saturating_sub(self.random.pick(&[0, 0, 1]))])?;
        if self.random.one_in(2) {
            a.offer(&self.text())?;
        }
        Ok(())
    }

    /// Sends all that waits, and then stays idle for some ms around the 300.
    fn idle_on_a<S: Entries>(&mut self, a: &mut Log<S>) -> Result<(), String> {
        while a.model.in_burst() || a.model.waiting() > 0 {
            a.run(&vec![QUIET; a.burst_left().clamp(1, MOST_MS)])?;
        }
        let ms = self.random.pick(&[0, 1, 299, 300, 300, 300, 301, 340, 700]);
        // While it is inhibited it does not matter what A hears.
        let level = self.random.pick(&[QUIET, MARK, SPACE]);
        a.run(&[vec![level; ms.min(300)], vec![QUIET; ms.saturating_sub(300)]].concat())?;
        if self.random.one_in(4) {
            self.refused(a)?;
        }
        a.offer(&self.text())
    }

    fn list_on_b<S: Entries>(&mut self, a: &Log<S>, idle: usize) -> Result<Log<S>, String> {
        let clear = idle + IDLE - CLEAR;
        let opened = match self.random.below(6) {
            0 => clear,
            1 => clear.saturating_sub(self.random.below(60)),
            2 => idle + self.random.below(IDLE - CLEAR + 1),
            3 => idle.saturating_sub(self.random.below(600)),
            _ => idle.saturating_sub(self.random.below(6000)),
        };
        let mut b = Log::open(self.mode, opened);
        let mut heard = self.spoiled(a, opened, clear);
        self.before_the_idle_period(&mut b, &mut heard, idle)?;
        heard.extend((clear..a.now()).map(|ms| a.at(ms).unwrap().sent));
        if self.random.one_in(4) {
            let most = heard.len();
            heard.truncate(most.min(clear - opened + CLEAR + self.random.below(most)));
        }
        while b.ms.len() < heard.len() {
            let most = self.random.pick(&[1, 30, 1000, MOST_MS]);
            let ms = self.random.below(most + 1).min(heard.len() - b.ms.len());
            b.run(&heard[b.ms.len()..][..ms])?;
            if self.random.one_in(4) {
                self.refused(&mut b)?;
            }
            if self.random.one_in(4) {
                b.offer(b"")?;
            }
        }
        Ok(b)
    }

    /// Plays B up to the start of the idle period. What it is offered has gone out by then, often
    /// just then.
    fn before_the_idle_period<S: Entries>(
        &mut self,
        b: &mut Log<S>,
        heard: &mut [u8],
        idle: usize,
    ) -> Result<(), String> {
        while b.now() < idle {
            let done = b.ms.len();
            let left = idle - b.now();
            match self.random.below(6) {
                0..=1 => {
                    let text = self.text();
                    if sent_by(b.model.clone(), &text, &heard[done..done + left]) {
                        b.offer(&text)?;
                    }
                }
                2 => self.refused(b)?,
                3 if b.model.waiting() == 0 && !b.model.in_burst() => {
                    let text = self.short_text();
                    let length = burst_length(b.model.clone(), &text);
                    let fresh = done == 0 && left >= length;
                    if length > 0 && (fresh || left >= length + IDLE) {
                        let wait = left - length;
                        heard[done + wait.saturating_sub(IDLE)..done + wait].fill(QUIET);
                        run_all(b, &heard[done..done + wait])?;
                        b.offer(&text)?;
                        run_all(b, &heard[done + wait..done + left])?;
                    }
                }
                _ => {
                    let ms = self.random.below(left.min(MOST_MS) + 1);
                    b.run(&heard[done..done + ms])?;
                }
            }
        }
        Ok(())
    }

    /// A call that is refused.
    fn refused<S: Entries>(&mut self, log: &mut Log<S>) -> Result<(), String> {
        let level = self.random.below(usize::from(self.mode.highest_level()) + 1) as u8;
        let ms = 1 + self.random.below(50);
        match self.random.below(6) {
            0 => log.offer(b"TOO \x80599"),
            1 => log.offer(&[b'e'; MOST_WAITING + 1]),
            2 => log.refused_run(&[level; MOST_MS + 1], MOST_MS + 1, MOST_MS + 1),
            3 => log.refused_run(&[self.mode.highest_level() + 1], 1, 1),
            4 => log.refused_run(&vec![level; ms], ms - 1, ms),
            _ => log.refused_run(&vec![level; ms], ms, ms - 1),
        }
    }

    /// A text to be offered; a long one of one shift now and then, so that shift codes are far
    /// apart.
    fn text(&mut self) -> Vec<u8> {
        match self.random.below(16) {
            0 => {
                let from = self.random.pick(&[&b"E "[..], b"TOO", b"599 \r\n"]);
                let length = self.random.below(90);
                (0..length).map(|_| self.random.pick(from)).collect()
            }
            1 => {
                let length = self.random.below(12);
                self.random.uniform(length, 128)
            }
            2 => self.random.pick(&[&b""[..], b"\x00", b"\x7F", b"A\x7F1"]).to_vec(),
            _ => self.short_text(),
        }
    }

    fn short_text(&mut self) -> Vec<u8> {
        let length = 1 + self.random.below(4);
        (0..length).map(|_| self.random.pick(b"TOO599 eAb1:?,(*\n")).collect()
    }

    /// What B hears before the last 40 ms.
    fn spoiled<S: Entries>(&mut self, a: &Log<S>, from: usize, to: usize) -> Vec<u8> {
        let tail = self.tail();
        let mut heard = Vec::new();
        while heard.len() < to - from {
            heard.extend(self.piece(a, from + heard.len()));
        }
        heard.truncate((to - from).saturating_sub(tail.len()));
        let skipped = tail.len() - (to - from - heard.len());
        heard.extend(&tail[skipped..]);
        heard
    }

    fn level(&mut self) -> u8 {
        self.random.below(usize::from(self.mode.highest_level()) + 1) as u8
    }

    /// Some ms to be heard at a time: quiet, runs, a burst, what A sends, codes or noise.
    fn piece<S: Entries>(&mut self, a: &Log<S>, now: usize) -> Vec<u8> {
        match self.random.below(6) {
            0 => vec![QUIET; 1 + self.random.below(400)],
            1 => {
                let runs = 1 + self.random.below(8);
                (0..runs).flat_map(|_| vec![self.level(); 1 + self.random.below(120)]).collect()
            }
            2 => {
                let mut burst = preamble(self.mode);
                for code in text_codes(self.mode, &self.short_text()) {
                    burst.extend(signal(self.mode, &code));
                }
                burst.truncate(1 + self.random.below(burst.len()));
                burst
            }
            3 => {
                let (ms, late) = (1 + self.random.below(1500), self.random.below(300));
                let sent = |ms: usize| ms.checked_sub(late).and_then(|ms| a.at(ms));
                (now..now + ms).map(|ms| sent(ms).map_or(QUIET, |ms| ms.sent)).collect()
            }
            4 => self.code_signal(),
            _ => (0..1 + self.random.below(100)).map(|_| self.level()).collect(),
        }
    }

    fn code_signal(&mut self) -> Vec<u8> {
        let code = self.random.below(codes(self.mode).len());
        signal(self.mode, &codes(self.mode)[code])
    }

    /// The end of what B hears before the last 40 ms.
    fn tail(&mut self) -> Vec<u8> {
        if self.mode == Mode::Dtmf {
            return self.key_tail();
        }
        let random = &mut self.random;
        match random.below(7) {
            // A reader in figures.
            0 if self.mode != Mode::Edt => {
                let mut tail = signal(self.mode, &Code::FiveBits(FIGURES_CODE));
                tail.extend(vec![MARK; random.below(40)]);
                tail
            }
            // Half a frame.
            0..=2 => {
                let mut tail = self.code_signal();
                tail.truncate(1 + self.random.below(tail.len()));
                tail
            }
            // A fault, and the wait after it.
            3 => vec![SPACE; 1 + random.below(400)],
            4 => vec![MARK, SPACE],
            // A fault in the last ms or near it.
            5 => {
                let last = self.mode.sample_at(self.mode.elements() - 1);
                [vec![MARK], vec![SPACE; last + random.below(3)]].concat()
            }
            _ => vec![MARK; random.below(50)],
        }
    }

    /// The same in DTMF: a prefix, then a key held or a gap that has begun.
    fn key_tail(&mut self) -> Vec<u8> {
        let mut tail = Vec::new();
        for _ in 0..self.random.below(6) {
            let key = key_number(self.random.pick(&['*', '#', '#', '1', 'A']));
            tail.extend([key; KEY_LENGTH]);
            tail.extend([QUIET; KEY_GAP]);
        }
        let key = 1 + self.random.below(KEYS.len()) as u8;
        match self.random.below(4) {
            0 => tail.extend(vec![key; self.random.pick(&[1, 38, 39, 40, 41])]),
            1 => tail.extend(vec![key; 1 + self.random.below(200)]),
            2 => {
                tail.extend([key; KEY_LENGTH]);
                tail.extend(vec![QUIET; self.random.below(KEY_GAP)]);
            }
            _ => {}
        }
        tail
    }
}

/// The longest stretches of ms in which A is in no burst, as far as they hold an idle period.
fn idle_stretches<S: Entries>(a: &Log<S>) -> Vec<Range<usize>> {
    let mut start = a.opened;
    let stretches = a.ms.chunk_by(|one, next| one.in_burst == next.in_burst).map(|stretch| {
        start += stretch.len();
        (!stretch[0].in_burst).then_some(start - stretch.len()..start)
    });
    stretches.flatten().filter(|stretch| stretch.len() >= IDLE).collect()
}

fn run_all<S: Entries>(log: &mut Log<S>, heard: &[u8]) -> Result<(), String> {
    heard.chunks(MOST_MS).try_for_each(|heard| log.run(heard))
}

/// Has everything been sent after these heard ms, if a text is offered now?
fn sent_by(mut model: SendModel, text: &[u8], heard: &[u8]) -> bool {
    model.offered(text);
    model.ran(heard);
    model.waiting() == 0 && !model.in_burst()
}

/// The ms of a burst for a text, if nothing waits and the line is free.
fn burst_length(mut model: SendModel, text: &[u8]) -> usize {
    model.ran(&[QUIET; IDLE]);
    model.offered(text);
    (0..).take_while(|_| model.ms(QUIET).in_burst).count()
}

#[cfg(test)]
mod tests {
    use super::*;
    use crate::answer::SUCCESS;
    use crate::station::{Ran, Station};
    use std::cell::Cell;

    const MS: usize = 2_000_000;

    #[test]
    fn b_reads_what_follows_an_idle_period() {
        for mode in Mode::ALL {
            let summary = check_lists::<Station>(mode, 3, MS).unwrap();
            assert!(summary.idle > 300 && summary.read > 2000, "{summary:?}");
            assert!(summary.compared > 100_000 && summary.just_inhibited > 5, "{summary:?}");
            assert_eq!(summary.most_before, usize::from(mode == Mode::Dtmf));
        }
    }

    /// What is wrong with a station.
    #[derive(Clone, Copy, Debug, PartialEq)]
    enum Fault {
        NeverSends,
        NeverReads,
        ReadsInTheFirstCall,
        ReadsTheSameAlways,
        /// From the second burst on, the code behind the preamble is left out.
        OpensOnce,
    }

    thread_local! {
        static FAULT: Cell<Fault> = const { Cell::new(Fault::NeverSends) };
    }

    #[derive(Clone, PartialEq)]
    struct Wrong {
        station: Station,
        mode: Mode,
        fault: Fault,
        called: bool,
        /// The ms of the burst that are sent, and whether it is the first.
        burst: usize,
        first: bool,
    }

    impl Entries for Wrong {
        fn open(mode: Mode) -> Wrong {
            let (station, fault) = (Station::fresh(mode), FAULT.get());
            Wrong { station, mode, fault, called: false, burst: 0, first: true }
        }

        fn offer(&mut self, text: &[u8]) -> u8 {
            let mut copy = self.station.clone();
            let station =
                if self.fault == Fault::NeverSends { &mut copy } else { &mut self.station };
            station.offer(text)
        }

        fn run(&mut self, heard: &[u8], sent: &mut [u8], words: &mut [u32]) -> Ran {
            let before = self.station.clone();
            let mut ran = self.station.run(heard, sent, words);
            if self.fault == Fault::OpensOnce && ran.answer == SUCCESS {
                self.station = before;
                ran.words = self.run_opening_once(heard, sent, words);
            }
            match self.fault {
                Fault::NeverReads => ran.words = 0,
                Fault::ReadsInTheFirstCall if self.called => ran.words = 0,
                Fault::ReadsTheSameAlways => words[..ran.words].fill(u32::from(b'E')),
                _ => {}
            }
            self.called |= ran.answer == SUCCESS && !heard.is_empty();
            ran
        }
    }

    impl Wrong {
        /// Runs ms by ms. Behind a preamble a code goes by unseen.
        fn run_opening_once(&mut self, heard: &[u8], sent: &mut [u8], words: &mut [u32]) -> usize {
            let mut count = 0;
            for (&level, sent) in heard.iter().zip(sent) {
                let mut now = [0];
                count += self.station.run(&[level], &mut now, &mut words[count..]).words;
                [*sent] = now;
                self.burst = if *sent == QUIET { 0 } else { self.burst + 1 };
                if self.burst == usize::from(self.mode.preamble()) {
                    let unseen = if self.first { 0 } else { self.mode.code_length() };
                    let (mut levels, mut none) = (vec![0; unseen], vec![0; unseen]);
                    self.station.run(&vec![QUIET; unseen], &mut levels, &mut none);
                    self.first = false;
                }
            }
            count
        }
    }

    #[test]
    fn hollow_stations_are_found_out() {
        for fault in [
            Fault::NeverSends,
            Fault::NeverReads,
            Fault::ReadsInTheFirstCall,
            Fault::ReadsTheSameAlways,
        ] {
            FAULT.set(fault);
            for mode in Mode::ALL {
                assert!(check_lists::<Wrong>(mode, 3, MS).is_err(), "{mode:?} {fault:?}");
            }
        }
    }

    #[test]
    fn a_station_that_opens_one_burst_alone_with_a_shift_code_is_found_out() {
        FAULT.set(Fault::OpensOnce);
        for mode in [Mode::Baudot45, Mode::Baudot50] {
            let error = check_lists::<Wrong>(mode, 3, MS).unwrap_err();
            assert!(error.contains("by the model"), "{error}");
        }
    }
}
