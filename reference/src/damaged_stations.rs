//! Question 1 asked of the engine: stations whose numbers are at the ends of their ranges and just
//! beyond, and random ones that no list of calls leads to. What a number of the struct stands for is
//! the header's; how far it goes is derived here from document 01. Part of `differential`.

use crate::engine::{Core, OnLine, Station};
use reference::annex::{FIGURES, LETTERS};
use reference::answer::{STATE, SUCCESS};
use reference::baudot::REPEAT;
use reference::demand3::Entries;
use reference::drift::{Drifts, Report, Waiting, MOST_DISPLACED, MOST_EDGES};
use reference::fault::is_word;
use reference::line::{Code, KEYS, PREFIXES, QUIET};
use reference::mode::Mode;
use reference::normal::Alphabet;
use reference::random::Random;
use reference::reader::{Place, IN_A_ROW};
use reference::station::{Part, Ran, FREE, INHIBITED, MOST_MS, MOST_WAITING};
use std::process::exit;
use std::sync::LazyLock;

/// Nothing (0), the preamble or a code is on the line: document 01, "The station's turn", second point
/// (there: lead).
pub const PREAMBLE_PART: u8 = 1;
pub const CODE_PART: u8 = 2;

/// Codes have five bits, characters seven: document 01, second paragraph.
const FIVE_BITS: usize = 1 << 5;
const SEVEN_BITS: usize = 1 << 7;

/// The number of a DTMF code is this many times the place of its marks among all prefixes, plus the
/// digit's key: the header.
const PREFIX: usize = 16;

/// Behind the prefixes of up to three marks one value stands for those of more: document 01, "DTMF
/// alphabet (Annex B)", sentences 2 and 9.
const PREFIX_TOO_LONG: usize = PREFIXES.len();

/// The digits are the first of the keys.
const DIGITS: usize = 10;

/// The most ms of a key that has not counted yet: document 01, "Line signal", reading DTMF.
const KEY_NOT_COUNTED: u8 = IN_A_ROW - 1;

/// The code of a number: five bits; zero to three marks and one digit; seven bits.
fn code_of(mode: Mode, number: u8) -> Option<Code> {
    let n = usize::from(number);
    match mode {
        Mode::Baudot45 | Mode::Baudot50 => (n < FIVE_BITS).then_some(Code::FiveBits(number)),
        Mode::Dtmf => {
            let prefix = PREFIXES.get(n / PREFIX)?;
            let digit = KEYS.chars().nth((n % PREFIX).checked_sub(1)?)?;
            digit.is_ascii_digit().then(|| Code::Keys(format!("{prefix}{digit}")))
        }
        Mode::Edt => (n < SEVEN_BITS).then_some(Code::SevenBits(number)),
    }
}

/// The part of these numbers, if they are in range; where it is no code, that number may be 0.
pub fn part_of(mode: Mode, part: u8, code: u8) -> Option<Part> {
    let found = code_of(mode, code);
    match part {
        0 if code == 0 || found.is_some() => Some(Part::Idle),
        PREAMBLE_PART if code == 0 || found.is_some() => Some(Part::Preamble),
        CODE_PART => found.map(Part::Code),
        _ => None,
    }
}

/// The ms of a part on the line; none if there is no such part.
pub fn part_length(mode: Mode, part: Option<Part>) -> usize {
    match part {
        None | Some(Part::Idle) => 0,
        Some(Part::Preamble) => usize::from(mode.preamble()),
        Some(Part::Code(Code::Keys(keys))) => keys.len() * mode.code_length(),
        Some(Part::Code(_)) => mode.code_length(),
    }
}

/// The highest number of a code, and the highest value of the digits of a frame.
fn highest_codes(mode: Mode) -> (usize, usize) {
    match mode {
        Mode::Baudot45 | Mode::Baudot50 => (FIVE_BITS - 1, FIVE_BITS - 1),
        Mode::Dtmf => ((PREFIXES.len() - 1) * PREFIX + DIGITS, 0),
        Mode::Edt => (SEVEN_BITS - 1, SEVEN_BITS - 1),
    }
}

/// The highest place of a frame: before its last sample (document 01, "Line signal", reading Baudot or
/// EDT: looks). Place 0 hunts and 1 waits; DTMF has no frames, and no place besides these.
fn last_place(mode: Mode) -> usize {
    match mode {
        Mode::Dtmf => 1,
        _ => mode.last_sample() + 1,
    }
}

/// The places of a reader ahead of the second ms of a frame and later: the header.
pub const FIRST_IN_FRAME: u8 = 2;

/// The ms so far of the frame whose edges are measured; none outside a Baudot frame.
pub fn frame_ms(core: &Core) -> Option<usize> {
    let place = core.reader.frame.place;
    let baudot = [Mode::Baudot45, Mode::Baudot50].map(Mode::number).contains(&core.mode);
    (baudot && place >= FIRST_IN_FRAME).then(|| usize::from(place) - 1)
}

/// A report as document 02 has it, request 111: no edge and all 0, or each number within its range.
pub fn report_in_range(&Report { edges, sum, smallest, largest }: &Report) -> bool {
    if edges == 0 {
        return [sum, smallest, largest] == [0; 3];
    }
    let most = MOST_DISPLACED.unsigned_abs();
    edges <= MOST_EDGES
        && smallest.unsigned_abs() <= most
        && largest.unsigned_abs() <= most
        && sum.unsigned_abs() <= most * edges
}

/// The waiting edges, by the same request: in a frame a report in range with fewer edges than ms so far
/// and a level, and else nothing.
fn edges_in_range(Station { core, edges, .. }: &Station) -> bool {
    match frame_ms(core) {
        Some(ms) => {
            report_in_range(&edges.report)
                && (edges.report.edges as usize) < ms
                && edges.level <= Mode::Baudot45.highest_level()
        }
        None => edges.waiting() == Waiting::default(),
    }
}

/// Which bytes are characters that send something, by mode.
static SENDS: LazyLock<[[bool; 256]; 4]> = LazyLock::new(|| {
    Mode::ALL.map(|mode| {
        std::array::from_fn(|byte| byte < 128 && mode.alphabet().normal(byte as u8).is_some())
    })
});

pub fn sends(mode: Mode) -> &'static [bool; 256] {
    &SENDS[usize::from(mode.number()) - 1]
}

/// How many characters of a text send something.
pub fn how_many_send(mode: Mode, text: &[u8]) -> usize {
    text.iter().filter(|&&byte| sends(mode)[usize::from(byte)]).count()
}

/// Question 1 of document 01, "Questions in order": each number within the values given there. Ms are
/// counted as far as a rule asks for: 300 without signal, 300 inhibited, 40 of a key or of quiet.
pub fn in_range(station: &Station) -> bool {
    let Some(mode) = Mode::from_number(station.core.mode) else {
        return false;
    };
    let (core, reader) = (&station.core, &station.core.reader);
    let part = part_of(mode, core.line.part, core.line.code);
    let sends = sends(mode);
    usize::from(core.waiting) <= MOST_WAITING
        && station.chars[..usize::from(core.waiting)].iter().all(|&c| sends[usize::from(c)])
        && core.silence <= FREE
        && core.inhibited <= INHIBITED
        && part.is_some()
        && usize::from(core.line.at) <= part_length(mode, part)
        && core.sender.shift <= FIGURES
        && core.sender.count <= REPEAT
        && usize::from(reader.frame.place) <= last_place(mode)
        && usize::from(reader.frame.digits) <= highest_codes(mode).1
        && usize::from(reader.keys.key) <= KEYS.len()
        && reader.keys.ms <= KEY_NOT_COUNTED
        && reader.keys.needed <= IN_A_ROW
        && (LETTERS..=FIGURES).contains(&reader.shift)
        && usize::from(reader.prefix) <= PREFIX_TOO_LONG
        && edges_in_range(station)
}

/// The numbers of a station.
const FIELDS: usize = 22;

/// Sets one number of a station.
fn set(station: &mut Station, field: usize, value: i32) {
    let (core, edges) = (&mut station.core, &mut station.edges);
    let (byte, short) = (value as u8, value as u16);
    match field {
        0 => core.waiting = short,
        1 => core.silence = short,
        2 => core.inhibited = short,
        3 => core.line.at = short,
        4 => core.line.part = byte,
        5 => core.line.code = byte,
        6 => core.sender.shift = byte,
        7 => core.sender.count = byte,
        8 => core.reader.frame.place = byte,
        9 => core.reader.frame.digits = byte,
        10 => core.reader.keys.key = byte,
        11 => core.reader.keys.ms = byte,
        12 => core.reader.keys.needed = byte,
        13 => core.reader.shift = byte,
        14 => core.reader.prefix = byte,
        15 => core.mode = byte,
        16 => edges.level = byte,
        17 => edges.report.edges = value as u32,
        18 => edges.report.sum = value,
        19 => edges.report.smallest = value,
        20 => edges.report.largest = value,
        _ => station.chars[0] = byte,
    }
}

/// The least and the most value of a number in a station that is in range but for it.
fn range(station: &Station, mode: Mode, field: usize) -> (i32, i32) {
    let line = &station.core.line;
    if (16..=20).contains(&field) {
        return edges_range(station, field);
    }
    let (line_code, frame_code) = highest_codes(mode);
    let most = match field {
        0 => MOST_WAITING,
        1 => usize::from(FREE),
        2 => usize::from(INHIBITED),
        3 => part_length(mode, part_of(mode, line.part, line.code)),
        4 => usize::from(CODE_PART),
        5 => line_code,
        6 | 13 => usize::from(FIGURES),
        7 => usize::from(REPEAT),
        8 => last_place(mode),
        9 => frame_code,
        10 => KEYS.len(),
        11 => usize::from(KEY_NOT_COUNTED),
        12 => usize::from(IN_A_ROW),
        14 => PREFIX_TOO_LONG,
        15 => usize::from(mode.number()),
        _ => SEVEN_BITS - 1,
    };
    let least = match field {
        13 => usize::from(LETTERS),
        15 => most,
        _ => 0,
    };
    (least as i32, most as i32)
}

/// The same of a number of the waiting edges.
fn edges_range(Station { core, edges, .. }: &Station, field: usize) -> (i32, i32) {
    let Some(ms) = frame_ms(core) else { return (0, 0) };
    let some = edges.report.edges.min(1) as i32;
    let most = match field {
        16 => i32::from(Mode::Baudot45.highest_level()),
        17 => ms as i32 - 1,
        18 => MOST_DISPLACED * edges.report.edges as i32,
        _ => MOST_DISPLACED * some,
    };
    (if field <= 17 { 0 } else { -most }, most)
}

/// Puts one number of a station, or a waiting character, out of range.
pub fn damage(random: &mut Random, station: &mut Station) {
    let mode = Mode::from_number(station.core.mode).expect("a mode");
    loop {
        let mut damaged = *station;
        let field = random.below(FIELDS + 1);
        if field == FIELDS {
            let waiting = usize::from(station.core.waiting);
            let place = random.below(waiting.max(1));
            damaged.chars[place] = random.pick(&[0, 1, 0x7F, 0x80, 0xFF]);
        } else {
            let (least, most) = range(station, mode, field);
            let beyond = [most + 1, most + 2, 255, 256, 65_535, least - 1];
            set(&mut damaged, field, random.pick(&beyond));
        }
        if !in_range(&damaged) {
            *station = damaged;
            return;
        }
    }
}

/// A station of the mode in range, each number by itself at random, often at an end of its range.
pub fn random_station(random: &mut Random, mode: Mode) -> Station {
    let mut station = Station::open(mode.number()).1;
    for field in [4, 5, 3, 0, 1, 2, 6, 7, 8, 9, 10, 11, 12, 13, 14, 16, 17, 18, 19, 20] {
        let (least, most) = range(&station, mode, field);
        let value = match random.below(4) {
            0 => least,
            1 => most,
            _ => least + random.below((most - least) as usize + 1) as i32,
        };
        set(&mut station, field, value);
        while field == 5 && part_of(mode, station.core.line.part, station.core.line.code).is_none()
        {
            set(&mut station, field, random.below(most as usize + 1) as i32);
        }
    }
    if random.one_in(2) {
        station.core.waiting = station.core.waiting.min(3);
    }
    station.edges.padding = [random.bits() as u8; 3];
    for (place, character) in station.chars.iter_mut().enumerate() {
        // Behind those that wait anything may stand.
        let waits = place < usize::from(station.core.waiting);
        loop {
            *character = random.below(if waits { 128 } else { 256 }) as u8;
            if !waits || sends(mode)[usize::from(*character)] {
                break;
            }
        }
    }
    station
}

/// How many stations were tried, by whether they were in range.
#[derive(Default)]
struct Tried {
    good: u64,
    bad: u64,
}

/// Tries stations at the ends of the ranges and `number` random ones of each mode; gives back a
/// summary.
pub fn check(random: &mut Random, number: usize) -> String {
    let mut tried = Tried::default();
    for mode in Mode::ALL {
        every_part(random, mode, &mut tried);
        for _ in 0..20 {
            ends(random, mode, &mut tried);
        }
        for _ in 0..number {
            let mut station = random_station(random, mode);
            try_station(random, &station, &mut tried);
            damage(random, &mut station);
            try_station(random, &station, &mut tried);
        }
    }
    for byte in [0u8, 0x80, 0xFF] {
        // Safety: a station is numbers alone.
        let station: Station = unsafe { std::mem::transmute([byte; size_of::<Station>()]) };
        try_station(random, &station, &mut tried);
    }
    let Tried { good, bad } = tried;
    assert!(good > 0 && bad > 0);
    format!("damaged stations: each refused, {bad}; in range, each ran, {good}")
}

/// A fresh station with every part and code on the line: at its start, over and beyond.
fn every_part(random: &mut Random, mode: Mode, tried: &mut Tried) {
    let mut station = Station::open(mode.number()).1;
    let mut codes = 0;
    for (part, code) in (0..=3).flat_map(|part| (0..=255).map(move |code| (part, code))) {
        let most = part_length(mode, part_of(mode, part, code)) as u16;
        for at in [0, most, most + 1] {
            station.core.line = OnLine { at, part, code };
            try_station(random, &station, tried);
        }
        codes += u32::from(part == 2 && part_of(mode, part, code).is_some());
    }
    assert_eq!(codes, [32, 32, 150, 128][usize::from(mode.number()) - 1]);
}

/// Every number of a fresh and of a random station at both ends of its range and beyond each.
fn ends(random: &mut Random, mode: Mode, tried: &mut Tried) {
    for base in [Station::open(mode.number()).1, random_station(random, mode)] {
        for field in 0..FIELDS {
            let (least, most) = range(&base, mode, field);
            for value in [least - 1, least, most, most + 1, 255, 65_535, i32::MIN, i32::MAX] {
                let mut station = base;
                set(&mut station, field, value);
                try_station(random, &station, tried);
            }
        }
        for part in 0..=2 {
            let mut station = base;
            station.core.line.part = part;
            station.core.line.code = random.below(highest_codes(mode).0 + 1) as u8;
            let most = part_length(mode, part_of(mode, part, station.core.line.code)) as u16;
            for at in [0, most, most + 1] {
                station.core.line.at = at;
                try_station(random, &station, tried);
            }
        }
        let (first, last) = (0, MOST_WAITING - 1);
        for (waiting, place) in [(256, first), (256, last), (255, last), (1, first), (1, 1)] {
            for character in [0, b'E', 0x7F, 0x80, 0xFF] {
                let mut station = base;
                station.core.waiting = waiting;
                station.chars.fill(b'E');
                station.chars[place] = character;
                try_station(random, &station, tried);
            }
        }
    }
}

/// Asks the engine: if the station is out of range both entries must refuse it and change nothing,
/// else both must succeed and keep it in range, and it must send as the reference does.
fn try_station(random: &mut Random, station: &Station, tried: &mut Tried) {
    let good = if in_range(station) { ran(random, station) } else { refused(random, station) };
    if !good {
        println!("difference: question 1, {station:?}");
        exit(1);
    }
    *(if in_range(station) { &mut tried.good } else { &mut tried.bad }) += 1;
}

fn refused(random: &mut Random, station: &Station) -> bool {
    let (mut sent, mut words) = ([0xA5; 64], [0xA5A5_A5A5; 64]);
    let mut after = *station;
    // The first question decides, whatever the others would answer.
    let text = random.pick(&[&b""[..], b"E", b"\xFF", &[b'E'; 300]]);
    let heard = random.pick(&[&[][..], &[1; 64], &[200; 64], &[0; MOST_MS + 1]]);
    let (sent_length, word_length) = (random.pick(&[0, 64]), random.pick(&[0, 64]));
    let before = Report { edges: random.pick(&[0, 1, MOST_EDGES, u32::MAX]), ..Report::default() };
    let (mut report, refusal) = (before, Ran { answer: STATE, words: 0 });
    let (sent_slice, word_slice) = (&mut sent[..sent_length], &mut words[..word_length]);
    after.offer(text) == STATE
        && after.run(heard, sent_slice, word_slice) == refusal
        && after.run_drift(heard, sent_slice, word_slice, &mut report) == refusal
        && report == before
        && same_bytes(&after, station)
        && sent == [0xA5; 64]
        && words == [0xA5A5_A5A5; 64]
}

/// Are all numbers the same, and the bytes of the padding, too?
pub fn same_bytes(a: &Station, b: &Station) -> bool {
    a == b && a.edges.padding == b.edges.padding
}

fn ran(random: &mut Random, station: &Station) -> bool {
    const LONGEST: usize = 700;
    let mode = Mode::from_number(station.core.mode).expect("a mode");
    let highest = mode.highest_level();
    let ms = random.below(LONGEST);
    let mut heard = [0; LONGEST];
    let mut place = 0;
    while place < ms {
        let end = ms.min(place + 1 + random.below(120));
        heard[place..end].fill(random.below(usize::from(highest) + 1) as u8);
        place = end;
    }
    let heard = &heard[..ms];
    let play = |cut: usize| {
        let (mut after, mut sent, mut words) = (*station, [9; LONGEST], [9; LONGEST]);
        let first = after.run(&heard[..cut], &mut sent, &mut words);
        let second = after.run(&heard[cut..], &mut sent[cut..], &mut words[first.words..]);
        let answers = (first.answer, second.answer) == (SUCCESS, SUCCESS);
        (answers, after, sent, words, first.words + second.words)
    };
    let (answers, mut after, sent, words, count) = play(ms);
    answers
        && in_range(&after)
        && sent[..ms].iter().all(|&level| level <= highest)
        && sent[ms..].iter().all(|&level| level == 9)
        && words[..count].iter().all(|&word| is_word(mode, word))
        && words[count..].iter().all(|&word| word == 9)
        && play(random.below(ms + 1)) == (answers, after, sent, words, count)
        && as_reference(station, heard)
        && after.offer(b"") == SUCCESS
        && (after.core.waiting >= 256 || after.offer(b"e") == SUCCESS)
        && in_range(&after)
        && (mode.alphabet() == Alphabet::Baudot
            || after.core.reader.shift == station.core.reader.shift)
}

/// Where a reader of frames is.
fn place_of(place: u8) -> Place {
    match place {
        0 => Place::Hunting,
        1 => Place::Waiting,
        _ => Place::Frame(usize::from(place) - 1),
    }
}

/// A Baudot reader's place, the bits sampled so far and its shift. The engine's digits come in from the
/// top, so that those not sampled yet are its lowest ones.
fn baudot_reader(core: &Core) -> Option<(Place, u8, u8)> {
    let mode = Mode::from_number(core.mode)?;
    let (frame, ms) = (core.reader.frame, frame_ms(core).unwrap_or(0));
    let to_come = (1..=5).filter(|&element| mode.sample_at(element) >= ms).count();
    let baudot = mode.alphabet() == Alphabet::Baudot;
    let digits = || if to_come == 5 { 0 } else { frame.digits >> to_come };
    baudot.then(|| (place_of(frame.place), digits(), core.reader.shift))
}

/// The reference's station with the numbers of one whose core is in range, and with its edges, whatever
/// they are. In DTMF and EDT its reader is fresh.
pub fn reference_of(station: &Station) -> reference::station::Station {
    let forged = with_fresh_reader(station);
    let forged = match baudot_reader(&station.core) {
        Some((place, bits, shift)) => forged.with_reader(place, bits, shift),
        None => forged,
    };
    forged.with_edges(station.edges.waiting())
}

fn with_fresh_reader(station: &Station) -> reference::station::Station {
    let (core, line) = (&station.core, &station.core.line);
    let mode = Mode::from_number(core.mode).expect("a mode");
    reference::station::Station::forged(
        mode,
        [core.silence, core.inhibited],
        [core.sender.shift, core.sender.count],
        &part_of(mode, line.part, line.code).expect("a part"),
        line.at,
        &station.chars[..usize::from(core.waiting)],
    )
}

/// Do the same wait and the same edges, is a Baudot reader the same, and are both in a burst or have the
/// same silence and inhibited ms, shift and count?
pub fn agree(engine: &Station, reference: &reference::station::Station) -> bool {
    let core = &engine.core;
    let between = (core.line.part == 0)
        .then_some(([core.silence, core.inhibited], [core.sender.shift, core.sender.count]));
    engine.chars[..usize::from(core.waiting)] == reference.text()
        && engine.edges.waiting() == reference.edges()
        && baudot_reader(core) == reference.baudot_reader()
        && between == reference.between_bursts()
}

/// Does the station, in DTMF and EDT with a fresh reader, go as the reference does from the same
/// numbers? On a quiet line with few waiting it must come to rest, too.
fn as_reference(station: &Station, heard: &[u8]) -> bool {
    let mut engine = *station;
    if baudot_reader(&station.core).is_none() {
        engine.core.reader = Station::open(station.core.mode).1.core.reader;
    }
    let mut reference = reference_of(station);
    let mut alike = |heard: &[u8]| {
        let (mut sent, mut words) = ([[9; MOST_MS]; 2], [[9; MOST_MS]; 2]);
        engine.run(heard, &mut sent[0], &mut words[0])
            == reference.run(heard, &mut sent[1], &mut words[1])
            && sent[0] == sent[1]
            && words[0] == words[1]
            && agree(&engine, &reference)
    };
    alike(heard)
        && (station.core.waiting > 3
            || alike(&[QUIET; MOST_MS]) && engine.core.waiting == 0 && engine.core.line.part == 0)
}
