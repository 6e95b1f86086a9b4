//! Takes Tables A.1, A.2, B.1 and B.2 from a text of V.18 and compares them, cell by cell, with the
//! reference's tables and with those of the definitions, and, place by place, with what the
//! reference converts and what the engine's C entries do. Then changes the text, one sign or one
//! line at a time: each change must be noticed. Arguments: the text, and the files of the
//! definitions in the order of the tables. Exit 1 on a difference.

#[allow(dead_code)]
#[path = "../engine.rs"]
mod engine;

use engine::Station;
use reference::annex::{EITHER, FIGURES, FIGURES_CODE, LETTERS, LETTERS_CODE};
use reference::answer::SUCCESS;
use reference::demand3::Entries;
use reference::departures::{DEPARTURES, MISSING_TABS};
use reference::fault::NO_ROW;
use reference::line::{runs, signal, Code, KEYS, KEY_GAP, KEY_LENGTH, QUIET};
use reference::mode::Mode;
use reference::print::{
    cell_differences, character, conversion_differences, conversions, damage_differences,
    definition, reference_tables, sent_bits, take, Conversions, Reference, NONE,
};
use reference::station::MOST_MS;
use std::fs::read_to_string;
use std::process::exit;

fn main() {
    let files: Vec<String> = std::env::args().skip(1).collect();
    let [text, definitions @ ..] = &files[..] else { usage() };
    let Ok(definitions): Result<[&String; 4], _> =
        definitions.iter().collect::<Vec<_>>().try_into()
    else {
        usage()
    };
    let text = open(text);
    let definitions = definitions.map(|file| {
        definition(&open(file)).unwrap_or_else(|error| fail(&[format!("{file}: {error}")]))
    });
    let lines: Vec<&str> = text.lines().collect();
    let print = take(&lines).unwrap_or_else(|error| fail(&[error]));

    let mut differences = damage_differences(&print);
    differences.extend(cell_differences("the reference", &print, &reference_tables()));
    differences.extend(cell_differences("the definition", &print, &definitions));
    differences.extend(conversion_differences("the reference", &print, &Reference));
    differences.extend(conversion_differences("the engine", &print, &Engine));
    if !differences.is_empty() {
        fail(&differences);
    }
    println!(
        "the print, the reference and the engine: {} lines alike in the text, the reference and the \
         definitions, {} places with a tab put back; {} conversions, {} of them ruled otherwise",
        print.lines.len(),
        MISSING_TABS.len(),
        conversions(&print).len(),
        DEPARTURES.len(),
    );
    let (signs, rows) = changes(&lines, &print.lines);
    println!("changes of the text: {signs} of one sign, {rows} of a line left out, each noticed");
}

fn usage() -> ! {
    eprintln!("usage: print TEXT TABLE_A1 TABLE_A2 TABLE_B1 TABLE_B2");
    exit(2)
}

fn open(file: &str) -> String {
    read_to_string(file).unwrap_or_else(|error| fail(&[format!("{file}: {error}")]))
}

fn fail(differences: &[String]) -> ! {
    for difference in differences {
        println!("difference: {difference}");
    }
    exit(1)
}

/// Replaces each sign of each printed line by another, and leaves out each line; gives back how
/// many of both.
fn changes(text: &[&str], printed: &[usize]) -> (usize, usize) {
    let tables = reference_tables();
    let notice = |text: &[&str], what: String| {
        let same = take(text).is_ok_and(|print| {
            damage_differences(&print).is_empty()
                && cell_differences("", &print, &tables).is_empty()
        });
        if same {
            fail(&[format!("not noticed: {what}")]);
        }
    };
    let mut signs = 0;
    for &at in printed {
        let line = text[at];
        for (place, sign) in line.char_indices().filter(|(_, sign)| !sign.is_whitespace()) {
            let other = match sign {
                '0' => '1',
                '1'..='9' => '0',
                '*' => '#',
                '#' => '*',
                'X' => 'Y',
                _ => 'X',
            };
            let behind = &line[place + sign.len_utf8()..];
            let changed = format!("{}{other}{behind}", &line[..place]);
            let mut text = text.to_vec();
            text[at] = &changed;
            notice(&text, format!("{line} as {changed}"));
            signs += 1;
        }
        let mut text = text.to_vec();
        text.remove(at);
        notice(&text, format!("{line} left out"));
    }
    (signs, printed.len())
}

/// The engine by its C entries: the bare conversions of Baudot, and a DTMF station.
struct Engine;

/// What no conversion gives.
fn odd(what: impl std::fmt::Debug) -> String {
    format!("{what:?}")
}

impl Conversions for Engine {
    fn reads_bits(&self, shift: u8, code: u8) -> String {
        let mut text = [0; 1];
        let read = engine::read(&[code], shift, &mut text);
        match (read.answer, read.length, read.shift) {
            (SUCCESS, 0, LETTERS) => "LTRS".to_string(),
            (SUCCESS, 0, FIGURES) => "FIGS".to_string(),
            (SUCCESS, 1, after) if after == shift => character(text[0]),
            _ => odd(read),
        }
    }

    /// A code of a shift has the shift code ahead of it in the other one.
    fn sends_bits(&self, character: u8) -> String {
        let sent = [LETTERS, FIGURES].map(|shift| {
            let mut codes = [0; 3];
            let sent = engine::send(&[character], shift, 0, &mut codes);
            assert_eq!(sent.answer, SUCCESS);
            codes[..sent.length].to_vec()
        });
        match [&sent[0][..], &sent[1][..]] {
            [&[], &[]] => NONE.to_string(),
            [&[a], &[b]] if a == b => sent_bits(EITHER, a),
            [&[a], &[LETTERS_CODE, b]] if a == b => sent_bits(LETTERS, a),
            [&[FIGURES_CODE, a], &[b]] if a == b => sent_bits(FIGURES, a),
            _ => odd(sent),
        }
    }

    fn reads_keys(&self, code: &str) -> String {
        let heard = signal(Mode::Dtmf, &Code::Keys(code.to_string()));
        let (mut sent, mut words) = (vec![0; heard.len()], vec![0; heard.len()]);
        let mut station = <Station as Entries>::open(Mode::Dtmf);
        let ran = station.run(&heard, &mut sent, &mut words);
        match (ran.answer, &words[..ran.words]) {
            (SUCCESS, &[word]) if word == NO_ROW.word() => NONE.to_string(),
            (SUCCESS, &[word @ 0..0x80]) => character(word as u8),
            _ => odd((ran, words)),
        }
    }

    fn sends_keys(&self, character: u8) -> String {
        let (mut sent, mut words) = ([0; MOST_MS], [0; MOST_MS]);
        let mut station = <Station as Entries>::open(Mode::Dtmf);
        let answers = (
            station.offer(&[character]),
            station.run(&[QUIET; MOST_MS], &mut sent, &mut words).answer,
        );
        assert_eq!(answers, (SUCCESS, SUCCESS));
        let runs = runs(&sent);
        if runs == [(QUIET, MOST_MS)] {
            return NONE.to_string();
        }
        let is_key = |pair: &[(u8, usize)]| match *pair {
            [(level, KEY_LENGTH), (QUIET, quiet)] => level != QUIET && quiet >= KEY_GAP,
            _ => false,
        };
        if !runs.chunks(2).all(is_key) {
            return odd(runs);
        }
        runs.chunks(2).map(|pair| char::from(KEYS.as_bytes()[usize::from(pair[0].0) - 1])).collect()
    }
}
