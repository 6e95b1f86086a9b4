//! The engine's C entries as safe functions. Not part of the library: `differential` and `bench`
//! take this file in, and with it the engine's static library.

use reference::baudot::{Sent, Text};
use reference::calling::{Chosen, State};
use reference::demand3::Entries;
use reference::drift::{Drifts, Report, Waiting};
use reference::mode::Mode;
use reference::station::{Ran, MOST_WAITING};
use std::mem::MaybeUninit;

const _: &str = env!("CQ_LIB_DIR", "set CQ_LIB_DIR to the folder of libcuyrapaq.a");

/// What is on the line.
#[repr(C)]
#[derive(Clone, Copy, Debug, PartialEq, Eq)]
pub struct OnLine {
    pub at: u16,
    pub part: u8,
    pub code: u8,
}

#[repr(C)]
#[derive(Clone, Copy, Debug, PartialEq, Eq)]
pub struct Sender {
    pub shift: u8,
    pub count: u8,
}

#[repr(C)]
#[derive(Clone, Copy, Debug, PartialEq, Eq)]
pub struct Frame {
    pub place: u8,
    pub digits: u8,
}

#[repr(C)]
#[derive(Clone, Copy, Debug, PartialEq, Eq)]
pub struct Keys {
    pub key: u8,
    pub ms: u8,
    pub needed: u8,
}

#[repr(C)]
#[derive(Clone, Copy, Debug, PartialEq, Eq)]
pub struct Reader {
    pub frame: Frame,
    pub keys: Keys,
    pub shift: u8,
    pub prefix: u8,
}

#[repr(C)]
#[derive(Clone, Copy, Debug, PartialEq, Eq)]
pub struct Core {
    pub waiting: u16,
    pub silence: u16,
    pub inhibited: u16,
    pub line: OnLine,
    pub sender: Sender,
    pub reader: Reader,
    pub mode: u8,
}

/// The edges that wait. Whatever stands in the padding, two are equal if their numbers are.
#[repr(C)]
#[derive(Clone, Copy, Debug)]
pub struct Edges {
    pub report: Report,
    pub level: u8,
    pub padding: [u8; 3],
}

impl Edges {
    pub fn waiting(&self) -> Waiting {
        Waiting { report: self.report, level: self.level }
    }
}

impl From<Waiting> for Edges {
    fn from(Waiting { report, level }: Waiting) -> Edges {
        Edges { report, level, padding: [0; 3] }
    }
}

impl PartialEq for Edges {
    fn eq(&self, other: &Edges) -> bool {
        self.waiting() == other.waiting()
    }
}

impl Eq for Edges {}

/// A station as the engine holds it; `cuyrapaq.h` says what its numbers mean.
#[repr(C)]
#[derive(Clone, Copy, Debug, PartialEq, Eq)]
pub struct Station {
    pub core: Core,
    pub edges: Edges,
    pub chars: [u8; MOST_WAITING],
}

const _: () = assert!(size_of::<Core>() == 20 && size_of::<Report>() == 16);
const _: () = assert!(size_of::<Station>() == 296 && align_of::<Station>() == 4);

#[repr(C)]
struct StationRan {
    answer: u8,
    words: usize,
}

#[repr(C)]
struct StationPreviewed {
    answer: u8,
    ms: u32,
}

// First, since it may hold the other entries too.
#[link(name = "cuyrapaq", kind = "static")]
extern "C" {
    fn cq_station_open(station: *mut Station, mode: u8) -> u8;

    fn cq_station_offer(station: *mut Station, text: *const u8, text_length: usize) -> u8;

    fn cq_station_run(
        station: *mut Station,
        heard: *const u8,
        heard_length: usize,
        sent: *mut u8,
        sent_length: usize,
        words: *mut u32,
        words_length: usize,
    ) -> StationRan;

    fn cq_station_run_drift(
        station: *mut Station,
        heard: *const u8,
        heard_length: usize,
        sent: *mut u8,
        sent_length: usize,
        words: *mut u32,
        words_length: usize,
        report: *mut Report,
    ) -> StationRan;

    fn cq_station_preview(
        station: *const Station,
        text: *const u8,
        text_length: usize,
    ) -> StationPreviewed;

    fn cq_baudot_send(
        text: *const u8,
        text_length: usize,
        shift: u8,
        count: u8,
        codes: *mut u8,
        codes_length: usize,
    ) -> Sent;

    fn cq_baudot_read(
        codes: *const u8,
        codes_length: usize,
        shift: u8,
        text: *mut u8,
        text_length: usize,
    ) -> Text;

    fn cq_calling_fresh() -> State;

    fn cq_calling_choice(state: *const State) -> Chosen;

    fn cq_calling_run(
        state: *mut State,
        tones: *const u8,
        tones_length: usize,
        sent: *mut u8,
        sent_length: usize,
    ) -> u8;
}

pub fn send(text: &[u8], shift: u8, count: u8, codes: &mut [u8]) -> Sent {
    // Safety: each pointer goes with the length of its slice.
    unsafe {
        cq_baudot_send(text.as_ptr(), text.len(), shift, count, codes.as_mut_ptr(), codes.len())
    }
}

pub fn read(codes: &[u8], shift: u8, text: &mut [u8]) -> Text {
    // Safety: each pointer goes with the length of its slice.
    unsafe { cq_baudot_read(codes.as_ptr(), codes.len(), shift, text.as_mut_ptr(), text.len()) }
}

pub fn calling_fresh() -> State {
    // Safety: it takes nothing.
    unsafe { cq_calling_fresh() }
}

pub fn calling_choice(state: &State) -> Chosen {
    // Safety: the pointer leads to a state.
    unsafe { cq_calling_choice(state) }
}

pub fn calling_run(state: &mut State, tones: &[u8], sent: &mut [u8]) -> u8 {
    // Safety: the pointer leads to a state, and each other goes with the length of its slice.
    unsafe { cq_calling_run(state, tones.as_ptr(), tones.len(), sent.as_mut_ptr(), sent.len()) }
}

impl Station {
    pub fn open(mode: u8) -> (u8, Station) {
        // The padding need not be filled.
        let mut station = MaybeUninit::zeroed();
        // Safety: the pointer leads to space for a station, and every opening fills it.
        unsafe {
            let answer = cq_station_open(station.as_mut_ptr(), mode);
            (answer, station.assume_init())
        }
    }

    /// The answer and the ms. The station is lent as one that may change, so that a change would show.
    pub fn preview(&mut self, text: &[u8]) -> (u8, u32) {
        let station = std::ptr::from_mut(self).cast_const();
        // Safety: the pointer leads to a station, and the other goes with the length of its slice.
        let previewed = unsafe { cq_station_preview(station, text.as_ptr(), text.len()) };
        (previewed.answer, previewed.ms)
    }
}

impl Entries for Station {
    fn open(mode: Mode) -> Station {
        Station::open(mode.number()).1
    }

    fn offer(&mut self, text: &[u8]) -> u8 {
        // Safety: the pointer leads to a station, and the other goes with the length of its slice.
        unsafe { cq_station_offer(self, text.as_ptr(), text.len()) }
    }

    fn run(&mut self, heard: &[u8], sent: &mut [u8], words: &mut [u32]) -> Ran {
        // Safety: the pointer leads to a station, and each other goes with the length of its slice.
        let ran = unsafe {
            cq_station_run(
                self,
                heard.as_ptr(),
                heard.len(),
                sent.as_mut_ptr(),
                sent.len(),
                words.as_mut_ptr(),
                words.len(),
            )
        };
        Ran { answer: ran.answer, words: ran.words }
    }
}

impl Drifts for Station {
    fn run_drift(
        &mut self,
        heard: &[u8],
        sent: &mut [u8],
        words: &mut [u32],
        report: &mut Report,
    ) -> Ran {
        // Safety: the pointers lead to a station and a report, and each other goes with the length of
        // its slice.
        let ran = unsafe {
            cq_station_run_drift(
                self,
                heard.as_ptr(),
                heard.len(),
                sent.as_mut_ptr(),
                sent.len(),
                words.as_mut_ptr(),
                words.len(),
                report,
            )
        };
        Ran { answer: ran.answer, words: ran.words }
    }
}
