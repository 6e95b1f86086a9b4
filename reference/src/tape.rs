//! Heard ms as text, for the test programs. Pairs of bytes: `m` and the number of a mode is a fresh
//! reader; `i` and a count are inhibited ms; a level, written as the sign that many behind `0`,
//! and a count are ms of that level. A count from 1 to 94 is written as the sign that many behind
//! the space. LF may stand between two pairs.

use crate::line::runs;
use crate::mode::Mode;

/// The most ms of a pair.
const MOST: usize = 94;

/// The most pairs of a line.
const LINE: usize = 49;

#[derive(Clone, Copy, Debug, PartialEq, Eq)]
pub enum Pair {
    Fresh(Mode),
    Inhibited(usize),
    Heard(u8, usize),
}

/// Writes such text.
#[derive(Default)]
pub struct Tape {
    pub text: Vec<u8>,
    /// The pairs in all and in this line.
    pub pairs: usize,
    in_line: usize,
    /// A run that may go on.
    run: Option<Pair>,
}

impl Tape {
    pub fn fresh(&mut self, mode: Mode) {
        self.end();
        self.pair(b'm', b'0' + mode.number());
    }

    pub fn inhibited(&mut self, ms: usize) {
        self.add(Pair::Inhibited(ms));
    }

    pub fn level(&mut self, level: u8, ms: usize) {
        self.add(Pair::Heard(level, ms));
    }

    pub fn signal(&mut self, signal: &[u8]) {
        for (level, ms) in runs(signal) {
            self.level(level, ms);
        }
    }

    /// Ends the run and the line.
    pub fn end(&mut self) {
        self.end_run();
        if self.in_line > 0 {
            self.line_feed();
        }
    }

    fn add(&mut self, pair: Pair) {
        match (&mut self.run, pair) {
            (_, Pair::Heard(_, 0) | Pair::Inhibited(0)) => {}
            (Some(Pair::Heard(level, ms)), Pair::Heard(same, more)) if *level == same => {
                *ms += more;
            }
            (Some(Pair::Inhibited(ms)), Pair::Inhibited(more)) => *ms += more,
            _ => {
                self.end_run();
                self.run = Some(pair);
            }
        }
    }

    fn end_run(&mut self) {
        match self.run.take() {
            Some(Pair::Heard(level, ms)) => self.counts(b'0' + level, ms),
            Some(Pair::Inhibited(ms)) => self.counts(b'i', ms),
            _ => {}
        }
    }

    fn counts(&mut self, sign: u8, mut ms: usize) {
        while ms > 0 {
            let count = ms.min(MOST);
            self.pair(sign, b' ' + count as u8);
            ms -= count;
        }
    }

    fn pair(&mut self, first: u8, second: u8) {
        if self.in_line == LINE {
            self.line_feed();
        }
        self.text.extend([first, second]);
        self.pairs += 1;
        self.in_line += 1;
    }

    fn line_feed(&mut self) {
        self.text.push(b'\n');
        self.in_line = 0;
    }
}

/// The pairs of a text; None if it is no such text.
pub fn pairs(mut text: &[u8]) -> Option<Vec<Pair>> {
    let mut pairs = Vec::new();
    let mut highest = None;
    loop {
        text = match text {
            [] => return Some(pairs),
            [b'\n', rest @ ..] => rest,
            [first, second, rest @ ..] => {
                let pair = pair(*first, *second, highest)?;
                if let Pair::Fresh(mode) = pair {
                    highest = Some(mode.highest_level());
                }
                pairs.push(pair);
                rest
            }
            _ => return None,
        }
    }
}

/// A pair, read by a reader whose highest level is known.
fn pair(first: u8, second: u8, highest: Option<u8>) -> Option<Pair> {
    if first == b'm' {
        return second.checked_sub(b'0').and_then(Mode::from_number).map(Pair::Fresh);
    }
    let highest = highest?;
    let ms = usize::from(second.checked_sub(b' ')?);
    if !(1..=MOST).contains(&ms) {
        return None;
    }
    if first == b'i' {
        return Some(Pair::Inhibited(ms));
    }
    first.checked_sub(b'0').filter(|&level| level <= highest).map(|level| Pair::Heard(level, ms))
}

/// Is it of a size and a form that a test program reads?
pub fn is_input(text: &[u8]) -> bool {
    text.len() <= 60_000 && text.split(|&byte| byte == b'\n').all(|line| line.len() < 100)
}

#[cfg(test)]
mod tests {
    use super::Pair::{Fresh, Heard, Inhibited};
    use super::*;

    #[test]
    fn written_and_read() {
        let mut tape = Tape::default();
        tape.fresh(Mode::Dtmf);
        tape.level(16, 94);
        tape.level(16, 1);
        tape.inhibited(2);
        tape.inhibited(1);
        tape.level(0, 0);
        tape.signal(&[1, 1, 2]);
        tape.fresh(Mode::Edt);
        tape.level(2, 190);
        tape.end();
        assert_eq!(tape.text, b"m3@~@!i#1\"2!\nm42~2~2\"\n");
        let wanted = [
            Fresh(Mode::Dtmf),
            Heard(16, 94),
            Heard(16, 1),
            Inhibited(3),
            Heard(1, 2),
            Heard(2, 1),
            Fresh(Mode::Edt),
            Heard(2, 94),
            Heard(2, 94),
            Heard(2, 2),
        ];
        assert_eq!(pairs(&tape.text).unwrap(), wanted);
        assert_eq!(tape.pairs, wanted.len());
    }

    #[test]
    fn other_texts() {
        for text in [&b"1!"[..], b"m0", b"m5", b"m", b"m13!", b"m31 ", b"m31\x7F", b"m3A!", b"m3/!"]
        {
            assert_eq!(pairs(text), None);
        }
        assert_eq!(pairs(b"\n\nm1\n").unwrap(), [Fresh(Mode::Baudot45)]);
    }
}
