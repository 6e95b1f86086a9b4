//! Demand 3 tried on two stations: their lists of calls are played and kept ms by ms, and for an
//! idle period (document 01: a rest) of station A it is checked that B reads what follows.

use crate::answer::SUCCESS;
use crate::line::QUIET;
use crate::mode::Mode;
use crate::send_model::{Part, SendModel};
use crate::station::{Ran, Station, MOST_MS, MOST_WAITING};

/// The ms of an idle period.
pub const IDLE: usize = 300;

/// The last ms of it, from which on B hears what A sends.
pub const CLEAR: usize = 40;

/// The entries of a station.
pub trait Entries: Clone + PartialEq {
    fn open(mode: Mode) -> Self;
    fn offer(&mut self, text: &[u8]) -> u8;
    fn run(&mut self, heard: &[u8], sent: &mut [u8], words: &mut [u32]) -> Ran;
}

impl Entries for Station {
    fn open(mode: Mode) -> Station {
        Station::open(mode.number()).1
    }

    fn offer(&mut self, text: &[u8]) -> u8 {
        Station::offer(self, text)
    }

    fn run(&mut self, heard: &[u8], sent: &mut [u8], words: &mut [u32]) -> Ran {
        Station::run(self, heard, sent, words)
    }
}

/// A ms that a station has run.
#[derive(Clone, Copy, Debug)]
pub struct Ms {
    pub heard: u8,
    pub sent: u8,
    pub word: Option<u32>,
    /// What the send model says: whether characters waited before the ms, and of the ms itself.
    pub waiting: bool,
    pub in_burst: bool,
    pub taken: Option<u8>,
    pub ended: Option<Part>,
}

/// A station, its send model, and all that it has run.
pub struct Log<S> {
    pub mode: Mode,
    /// The ms of the clock that is its first.
    pub opened: usize,
    pub model: SendModel,
    pub ms: Vec<Ms>,
    /// The next ms at each offer that held a character and succeeded.
    pub offers: Vec<usize>,
    station: S,
}

/// What lent slices hold before a call.
const PATTERN: u8 = 0xAA;

impl<S: Entries> Log<S> {
    pub fn open(mode: Mode, opened: usize) -> Log<S> {
        let (station, model) = (S::open(mode), SendModel::fresh(mode));
        Log { mode, opened, model, ms: Vec::new(), offers: Vec::new(), station }
    }

    /// The next ms.
    pub fn now(&self) -> usize {
        self.opened + self.ms.len()
    }

    pub fn at(&self, ms: usize) -> Option<&Ms> {
        self.ms.get(ms.checked_sub(self.opened)?)
    }

    /// An offer, which must succeed if document 01 says so, and else leave the station.
    pub fn offer(&mut self, text: &[u8]) -> Result<(), String> {
        let alphabet = self.mode.alphabet();
        let good = text.is_ascii() && {
            let more = text.iter().filter(|&&c| alphabet.normal(c).is_some()).count();
            self.model.waiting() + more <= MOST_WAITING
        };
        let before = self.station.clone();
        let answer = self.station.offer(text);
        if good != (answer == SUCCESS) {
            return Err(format!("ms {}: offer {text:02X?} answered {answer}", self.now()));
        }
        if good {
            self.model.offered(text);
            if !text.is_empty() {
                self.offers.push(self.now());
            }
        } else if self.station != before {
            return Err(format!("ms {}: a refused offer changes the station", self.now()));
        }
        Ok(())
    }

    /// A run that must be refused, and leave the station and the slices.
    pub fn refused_run(&mut self, heard: &[u8], sent: usize, words: usize) -> Result<(), String> {
        let before = self.station.clone();
        let mut sent = vec![PATTERN; sent];
        let mut words = vec![u32::from(PATTERN); words];
        let ran = self.station.run(heard, &mut sent, &mut words);
        let unchanged = self.station == before
            && sent.iter().all(|&level| level == PATTERN)
            && words.iter().all(|&word| word == u32::from(PATTERN));
        if ran.answer == SUCCESS || ran.words != 0 || !unchanged {
            return Err(format!("ms {}: no refusal, or not without a trace", self.now()));
        }
        Ok(())
    }

    /// A run that must succeed. It is run a second time ms by ms, which must give the same; and
    /// each sent ms must be the one the model says.
    pub fn run(&mut self, heard: &[u8]) -> Result<(), String> {
        assert!(heard.len() <= MOST_MS);
        let start = self.now();
        let (mut sent, mut words) = ([PATTERN; MOST_MS], [0; MOST_MS]);
        let mut single = self.station.clone();
        let ran = self.station.run(heard, &mut sent[..heard.len()], &mut words[..heard.len()]);
        if ran.answer != SUCCESS {
            return Err(format!("ms {start}: run answered {}", ran.answer));
        }
        let mut words = words[..ran.words].iter();
        for (&level, &sent) in heard.iter().zip(&sent) {
            let (mut single_sent, mut word) = ([PATTERN], [0]);
            let ran = single.run(&[level], &mut single_sent, &mut word);
            let waiting = self.model.waiting() > 0;
            let said = self.model.ms(level);
            let now = self.now();
            if sent != said.sent || single_sent != [said.sent] || ran.answer != SUCCESS {
                return Err(format!("ms {now}: sent {sent}, by the model {}", said.sent));
            }
            let word = (ran.words > 0).then_some(word[0]);
            if word.is_some() && words.next() != word.as_ref() {
                return Err(format!("ms {now}: another word in a run of one ms"));
            }
            self.ms.push(Ms {
                heard: level,
                sent,
                word,
                waiting,
                in_burst: said.in_burst,
                taken: said.taken,
                ended: said.ended,
            });
        }
        if words.next().is_some() || single != self.station {
            return Err(format!("run from ms {start}: not the same as ms by ms"));
        }
        Ok(())
    }

    /// The ms until the burst has ended, if only quiet is heard and nothing more is offered.
    pub fn burst_left(&self) -> usize {
        let mut model = self.model.clone();
        (0..).take_while(|_| model.in_burst() && model.ms(QUIET).in_burst).count()
    }

    /// Is it in no burst in these ms, and has it run them?
    pub fn is_idle(&self, mut ms: std::ops::Range<usize>) -> bool {
        ms.all(|ms| self.at(ms).is_some_and(|ms| !ms.in_burst))
    }
}

/// What a check has gone through.
#[derive(Clone, Copy, Debug, Default)]
pub struct Checked {
    /// The ms at which B's words were compared.
    pub compared: usize,
    /// The characters B had to read.
    pub read: usize,
    /// The characters before the synchronizing code had ended.
    pub before: usize,
}

/// The most characters that may precede that point. In Baudot none: document 02, request 101.
fn bound(mode: Mode) -> usize {
    match mode {
        Mode::Baudot45 | Mode::Baudot50 | Mode::Edt => 0,
        Mode::Dtmf => 1,
    }
}

/// Do B's premises hold for an idle period of A that begins at this ms?
fn premises<S: Entries>(a: &Log<S>, b: &Log<S>, idle: usize) -> bool {
    let from = idle.max(b.opened);
    a.is_idle(idle..idle + IDLE)
        && b.opened <= idle + IDLE - CLEAR
        && b.offers.iter().all(|&offer| offer < from)
        && b.ms[from - b.opened..].iter().all(|ms| !ms.in_burst && !ms.waiting)
}

/// Checks the claim for an idle period of A that begins at this ms, at every later ms up to which
/// B hears what A sends. None if the premises do not hold.
pub fn check<S: Entries>(a: &Log<S>, b: &Log<S>, idle: usize) -> Result<Option<Checked>, String> {
    if idle + IDLE > b.now() || !premises(a, b, idle) {
        return Ok(None);
    }
    let end = idle + IDLE;
    let hears = |ms| a.at(ms).zip(b.at(ms)).is_some_and(|(a, b)| a.sent == b.heard);
    if !(end - CLEAR..end).all(hears) {
        return Ok(None);
    }
    let alphabet = a.mode.alphabet();
    let mut checked = Checked::default();
    let mut synchronized = a.mode == Mode::Edt;
    let (mut wanted, mut found) = (Vec::new(), Vec::new());
    for now in (end..).take_while(|&ms| hears(ms)) {
        let (said, heard) = (a.at(now).unwrap(), b.at(now).unwrap());
        if synchronized {
            let normal = said.taken.and_then(|character| alphabet.normal(character));
            wanted.extend(normal.map(u32::from));
            found.extend(heard.word);
        } else {
            checked.before += usize::from(said.taken.is_some());
            // The first code behind the idle period: in Baudot of whatever kind, in DTMF one with a
            // digit, as all are. It is of the first burst, since A was in none.
            synchronized = said.ended.is_some_and(|part| part != Part::Preamble);
        }
        if checked.before > bound(a.mode) {
            return Err(format!("ms {now}: {} characters and not synchronized", checked.before));
        }
        if !said.in_burst {
            if wanted != found {
                return Err(format!(
                    "idle from ms {idle}, ms {now}: wanted {wanted:02X?}, found {found:02X?}"
                ));
            }
            checked.compared += 1;
            checked.read += wanted.len();
            wanted.clear();
            found.clear();
        }
    }
    Ok(Some(checked))
}

#[cfg(test)]
mod tests {
    use super::*;

    /// A sends a text, is idle, and sends more; B is opened at the first of the 40 ms. Gives back
    /// both and the start of the idle period.
    fn two_bursts(mode: Mode, text: &[u8], more: &[u8]) -> (Log<Station>, Log<Station>, usize) {
        let mut a = Log::<Station>::open(mode, 7);
        a.offer(text).unwrap();
        a.run(&[QUIET]).unwrap();
        a.run(&vec![QUIET; a.burst_left()]).unwrap();
        let idle = a.now();
        a.run(&[QUIET; IDLE]).unwrap();
        a.offer(more).unwrap();
        a.run(&[QUIET]).unwrap();
        while a.model.in_burst() {
            a.run(&vec![QUIET; a.burst_left().min(MOST_MS)]).unwrap();
        }
        a.run(&[QUIET; 10]).unwrap();
        let mut b = Log::<Station>::open(mode, idle + IDLE - CLEAR);
        let heard: Vec<u8> = (b.opened..a.now()).map(|ms| a.at(ms).unwrap().sent).collect();
        heard.chunks(1000).for_each(|heard| b.run(heard).unwrap());
        (a, b, idle)
    }

    #[test]
    fn each_mode_reads_a_text() {
        for mode in Mode::ALL {
            for text in [&b"E"[..], b"3"] {
                // In DTMF the T is lost.
                let (a, b, idle) = two_bursts(mode, text, b"TOO 599 GA");
                let checked = check(&a, &b, idle).unwrap().unwrap();
                let before = [0, 0, 1, 0][usize::from(mode.number()) - 1];
                assert_eq!(checked.before, before);
                assert_eq!(checked.read, 10 - before);
                assert_eq!(checked.compared, 10);
            }
        }
    }

    #[test]
    fn none_of_many_characters_comes_first() {
        for mode in [Mode::Baudot45, Mode::Baudot50] {
            let (a, b, idle) = two_bursts(mode, b"3", &[b'5'; 80]);
            let checked = check(&a, &b, idle).unwrap().unwrap();
            assert_eq!((checked.before, checked.read), (0, 80));
        }
    }

    /// The ms of a log that belong to the first code behind a ms.
    fn first_code(log: &Log<Station>, from: usize) -> std::ops::Range<usize> {
        let ended = |part: &dyn Fn(Part) -> bool| {
            let ended = |ms: &Ms| ms.ended.is_some_and(part);
            from - log.opened + log.ms[from - log.opened..].iter().position(ended).unwrap()
        };
        ended(&|part| part == Part::Preamble) + 1..ended(&|part| part != Part::Preamble) + 1
    }

    #[test]
    fn a_burst_that_does_not_open_with_a_shift_code_is_noticed() {
        for mode in [Mode::Baudot45, Mode::Baudot50] {
            for (text, more) in [(b"E", b"E"), (b"3", b"3"), (b"3", b" ")] {
                // The code is cut out of what A sends, of what its model says and of what B hears.
                let (mut a, mut b, idle) = two_bursts(mode, text, more);
                let code = first_code(&a, idle);
                assert_eq!(code.len(), mode.code_length());
                let late = b.opened - a.opened;
                a.ms.drain(code.clone());
                b.ms.drain(code.start - late..code.end - late);
                let error = check(&a, &b, idle).unwrap_err();
                assert!(error.ends_with("1 characters and not synchronized"), "{error}");
            }
        }
    }

    #[test]
    fn a_character_in_the_other_shift_is_noticed() {
        for mode in [Mode::Baudot45, Mode::Baudot50] {
            // B reads 5 as T: it has missed the code.
            let (a, mut b, idle) = two_bursts(mode, b"3", b"5");
            let word = b.ms.iter_mut().find_map(|ms| ms.word.as_mut()).unwrap();
            assert_eq!(std::mem::replace(word, u32::from(b'T')), u32::from(b'5'));
            let error = check(&a, &b, idle).unwrap_err();
            assert!(error.ends_with("wanted [35], found [54]"), "{error}");
        }
    }

    #[test]
    fn without_the_40_ms_nothing_is_claimed() {
        let mut a = Log::<Station>::open(Mode::Edt, 0);
        a.run(&[QUIET; 400]).unwrap();
        let mut b = Log::<Station>::open(Mode::Edt, 261);
        b.run(&[QUIET; 100]).unwrap();
        assert!(check(&a, &b, 0).unwrap().is_none());
        assert!(check(&a, &b, 1).unwrap().is_some());
        let mut b = Log::<Station>::open(Mode::Edt, 0);
        b.run(&[1; 261]).unwrap();
        b.run(&[QUIET; 100]).unwrap();
        assert!(check(&a, &b, 0).unwrap().is_none());
        assert!(check(&a, &b, 1).unwrap().is_some());
    }
}
