//! Tables A.1, A.2, B.1 and B.2 taken from a text of V.18 itself, and what they say by their code
//! columns alone. `print` compares them with the tables that were typed in.

use crate::annex::{self, Sending, EITHER, FIGURES, FIGURES_CODE, LETTERS};
use crate::departures::{DEPARTURES, MISSING_SIGN, MISSING_TABS};

/// The tables, in the order in which they are printed.
pub const NAMES: [&str; 4] = ["A.1", "A.2", "B.1", "B.2"];

/// A printed line: the three cells of its left half, then those of its right half.
pub type Line = [String; 6];

/// What a column holds.
#[derive(Clone, Copy)]
enum Column {
    FiveBits,
    SevenBits,
    Keys,
    Sign,
}

/// The columns of a half of each table.
const COLUMNS: [[Column; 3]; 4] = [
    [Column::FiveBits, Column::Sign, Column::SevenBits],
    [Column::SevenBits, Column::Sign, Column::FiveBits],
    [Column::Keys, Column::Sign, Column::SevenBits],
    [Column::SevenBits, Column::Sign, Column::Keys],
];

/// What the last column of a half may hold besides: no code.
const NO_CODE: [&str; 3] = ["NULL", "NULL (Note)", "(Note)"];

/// The four tables of a text.
pub struct Print {
    pub tables: [Vec<Line>; 4],
    /// The places at which a tab between two cells was missing.
    pub missing_tabs: Vec<String>,
    /// Which lines of the text are printed lines, counted from 0.
    pub lines: Vec<usize>,
}

/// Takes the tables from the lines of a text. A table is a line whose second word is its name with
/// "/V.18", a line of titles, and printed lines up to an empty one; its other pages begin alike.
pub fn take(text: &[&str]) -> Result<Print, String> {
    let mut print = Print { tables: Default::default(), missing_tabs: vec![], lines: vec![] };
    let mut at = 0;
    while at < text.len() {
        let heading =
            text[at].split_whitespace().nth(1).and_then(|word| word.strip_suffix("/V.18"));
        let Some(table) = NAMES.iter().position(|&name| heading == Some(name)) else {
            at += 1;
            continue;
        };
        let blank = |at: usize| text.get(at).is_none_or(|line| line.trim().is_empty());
        at += 1;
        while at < text.len() && blank(at) {
            at += 1;
        }
        at += 1;
        while !blank(at) {
            let Some((line, missing)) = cells(table, text[at]) else {
                return Err(format!("{}: no printed line: {}", NAMES[table], text[at]));
            };
            if let Some(half) = missing {
                print.missing_tabs.push(place(table, half, &line));
            }
            print.tables[table].push(line);
            print.lines.push(at);
            at += 1;
        }
    }
    match print.tables.iter().position(Vec::is_empty) {
        Some(table) => Err(format!("the text has no Table {}", NAMES[table])),
        None => Ok(print),
    }
}

/// The cells of a printed line, and the half in which a tab is missing. It is put back where the
/// cells then are what their columns hold, if there is one such place.
fn cells(table: usize, line: &str) -> Option<(Line, Option<usize>)> {
    if let Some(cells) = six(table, line) {
        return Some((cells, None));
    }
    let mut found = None;
    for (at, _) in line.char_indices() {
        if let Some(cells) = six(table, &format!("{}\t{}", &line[..at], &line[at..])) {
            let half = usize::from(line[..at].matches('\t').count() >= 3);
            if found.replace((cells, Some(half))).is_some() {
                return None;
            }
        }
    }
    found
}

/// The cells between tabs, if there are six and each is what its column holds.
fn six(table: usize, line: &str) -> Option<Line> {
    let mut cells = Line::default();
    let mut parts = line.split('\t');
    for (i, into) in cells.iter_mut().enumerate() {
        *into = cell(parts.next()?);
        if !holds(COLUMNS[table][i % 3], i % 3 == 2, into) {
            return None;
        }
    }
    parts.next().is_none().then_some(cells)
}

/// A cell without the text's markup ahead of $, and with one blank on each side of >>.
fn cell(cell: &str) -> String {
    let cell = cell.trim().replace("\\$", "$");
    match cell.rfind(">>") {
        Some(at) => format!("{} >> {}", cell[..at].trim(), cell[at + 2..].trim()),
        None => cell,
    }
}

fn holds(column: Column, last: bool, cell: &str) -> bool {
    let bits = |cell: &str| cell.chars().all(|sign| "01".contains(sign));
    match column {
        _ if last && NO_CODE.contains(&cell) => true,
        Column::FiveBits => cell.len() == 5 && bits(cell),
        Column::SevenBits => {
            let parts: Vec<&str> = cell.split(' ').collect();
            parts.iter().map(|part| part.len()).eq([3, 4]) && parts.into_iter().all(bits)
        }
        Column::Keys => {
            let digit = cell.trim_start_matches(['*', '#']);
            cell.len() <= 5 && digit.len() == 1 && digit.as_bytes()[0].is_ascii_digit()
        }
        Column::Sign => {
            let (first, second) = cell.split_once(" >> ").unwrap_or((cell, cell));
            (first.is_empty() || is_sign(first)) && is_sign(second)
        }
    }
}

/// One sign, or a name in capitals, with or without a note.
fn is_sign(cell: &str) -> bool {
    let cell = cell.split_once(" (Note").map_or(cell, |(sign, _)| sign);
    let name = cell.strip_prefix('(').and_then(|cell| cell.strip_suffix(')')).unwrap_or(cell);
    cell.chars().count() == 1
        || name.starts_with(|sign: char| sign.is_ascii_uppercase())
            && name.chars().all(|sign| " 0123456789".contains(sign) || sign.is_ascii_uppercase())
}

/// The place of a half of a printed line: the table, and what is converted.
fn place(table: usize, half: usize, line: &Line) -> String {
    let from = &line[3 * half];
    match COLUMNS[table][0] {
        Column::FiveBits => read_place([LETTERS, FIGURES][half], from),
        Column::SevenBits => sent_place(table, bits(from)),
        _ => format!("{} {from}", NAMES[table]),
    }
}

fn read_place(shift: u8, code: &str) -> String {
    format!("A.1 {} {code}", shift_name(shift))
}

fn sent_place(table: usize, character: u8) -> String {
    format!("{} {character:02X}", NAMES[table])
}

fn shift_name(shifts: u8) -> &'static str {
    match shifts {
        LETTERS => "letters",
        FIGURES => "figures",
        _ => "both",
    }
}

/// The number of binary digits.
fn bits(cell: &str) -> u8 {
    cell.chars().filter(|&sign| sign != ' ').fold(0, |n, sign| 2 * n + u8::from(sign == '1'))
}

/// Lines of a table that was typed in.
pub fn typed(table: &[[&str; 6]]) -> Vec<Line> {
    table.iter().map(|line| line.map(str::to_string)).collect()
}

/// The reference's own tables, as typed in.
pub fn reference_tables() -> [Vec<Line>; 4] {
    [typed(&annex::A1), typed(&annex::A2), typed(&annex::B1), typed(&annex::B2)]
}

/// The lines of a table in a file of antt: after the word `line` six strings.
pub fn definition(source: &str) -> Result<Vec<Line>, String> {
    let lines = source.lines().filter_map(|line| line.trim().strip_prefix("line "));
    lines
        .map(|line| strings(line).try_into().map_err(|_| format!("no six strings: {line}")))
        .collect()
}

/// The strings of a line; in a string \ stands ahead of " and \.
fn strings(line: &str) -> Vec<String> {
    let (mut strings, mut open) = (Vec::<String>::new(), false);
    let mut signs = line.chars();
    while let Some(sign) = signs.next() {
        match (open, sign) {
            (false, '"') => strings.push(String::new()),
            (true, '"') | (false, _) => {}
            (true, _) => {
                let sign = if sign == '\\' { signs.next().unwrap_or(sign) } else { sign };
                strings.last_mut().expect("an open string").push(sign);
            }
        }
        open ^= sign == '"';
    }
    strings
}

/// Where a text differs from tables that were typed in, cell by cell. Damage of the text that is
/// listed is none.
pub fn cell_differences(whose: &str, print: &Print, tables: &[Vec<Line>; 4]) -> Vec<String> {
    let mut differences = Vec::new();
    for (table, name) in NAMES.iter().enumerate() {
        let (text, typed) = (&print.tables[table], &tables[table]);
        if text.len() != typed.len() {
            let (text, typed) = (text.len(), typed.len());
            differences.push(format!("{name}: lines: the text has {text}, {whose} has {typed}"));
        }
        for (text, typed) in text.iter().zip(typed) {
            for i in (0..6).filter(|&i| text[i] != typed[i]) {
                let (place, text, typed) = (place(table, i / 3, text), &text[i], &typed[i]);
                if (place.as_str(), text.as_str(), typed.as_str()) != MISSING_SIGN {
                    differences.push(format!("{place}: the text has {text}, {whose} has {typed}"));
                }
            }
        }
    }
    differences
}

/// Where the damage of a text is not the damage that is listed.
pub fn damage_differences(print: &Print) -> Vec<String> {
    let listed = MISSING_TABS.map(str::to_string);
    let new = print.missing_tabs.iter().filter(|place| !listed.contains(place));
    let gone = listed.iter().filter(|place| !print.missing_tabs.contains(place));
    let mut differences: Vec<_> = new
        .map(|place| format!("{place}: a tab is missing, and that is not listed"))
        .chain(gone.map(|place| format!("{place}: no tab is missing, and one is listed")))
        .collect();
    let (at, text, _) = MISSING_SIGN;
    let there = (0..4).any(|table| {
        let mut lines = print.tables[table].iter();
        lines.any(|line| {
            (0..2).any(|half| place(table, half, line) == at && line[3 * half + 1] == text)
        })
    });
    if !there {
        differences.push(format!("{at}: no sign is missing, and one is listed"));
    }
    differences
}

/// The four conversions, each place by itself. "none" is no character, or no code.
pub trait Conversions {
    /// What a five-bit code reads as in a shift: a character, or the shift that it selects.
    fn reads_bits(&self, shift: u8, code: u8) -> String;
    /// The shift and the five-bit code that a character is sent as.
    fn sends_bits(&self, character: u8) -> String;
    /// The character that a DTMF code reads as.
    fn reads_keys(&self, code: &str) -> String;
    /// The DTMF code that a character is sent as.
    fn sends_keys(&self, character: u8) -> String;
}

pub const NONE: &str = "none";

pub fn character(character: u8) -> String {
    format!("{character:02X}")
}

pub fn sent_bits(shifts: u8, code: u8) -> String {
    format!("{} {code:05b}", shift_name(shifts))
}

/// Every place of the four tables, and what stands there.
pub fn conversions(of: &impl Conversions) -> Vec<(String, String)> {
    let mut all = Vec::new();
    for shift in [LETTERS, FIGURES] {
        all.extend(
            (0..32).map(|code| {
                (read_place(shift, &format!("{code:05b}")), of.reads_bits(shift, code))
            }),
        );
    }
    all.extend((0..128).map(|c| (sent_place(1, c), of.sends_bits(c))));
    all.extend(keys().into_iter().map(|code| (format!("B.1 {code}"), of.reads_keys(&code))));
    all.extend((0..128).map(|c| (sent_place(3, c), of.sends_keys(c))));
    all
}

/// Up to four of * and #, then a digit.
fn keys() -> Vec<String> {
    let (mut codes, mut prefixes) = (Vec::new(), vec![String::new()]);
    for _ in 0..=4 {
        let digits = |prefix| (0..10).map(move |digit| format!("{prefix}{digit}"));
        codes.extend(prefixes.iter().flat_map(digits));
        let longer = |prefix: &String| ["*", "#"].map(|mark| prefix.clone() + mark);
        prefixes = prefixes.iter().flat_map(longer).collect();
    }
    codes
}

impl Print {
    /// The first row of a table whose first cell is such; left half before right.
    fn row(&self, table: usize, halves: &[usize], is: impl Fn(&str) -> bool) -> Option<[&str; 3]> {
        let rows = halves.iter().flat_map(|half| {
            self.tables[table]
                .iter()
                .map(move |line| [0, 1, 2].map(|i| line[3 * half + i].as_str()))
        });
        rows.into_iter().find(|row| is(row[0]))
    }
}

/// The print alone: the code columns, and no ruling but that which gives a code of A.2 its shift,
/// which is not printed (document 01, "Baudot alphabet (Annex A)", second point, sentence 2).
impl Conversions for Print {
    fn reads_bits(&self, shift: u8, code: u8) -> String {
        match self.row(0, &[usize::from(shift == FIGURES)], |cell| bits(cell) == code) {
            Some([_, sign, "(Note)"]) => sign.to_string(),
            Some([_, _, to]) => character(bits(to)),
            None => NONE.to_string(),
        }
    }

    fn sends_bits(&self, character: u8) -> String {
        match self.row(1, &[0, 1], |cell| bits(cell) == character) {
            Some([_, _, to]) if !NO_CODE.contains(&to) => {
                let shifts = match to {
                    "00000" | "00010" | "00100" | "01000" => EITHER,
                    _ if character.is_ascii_alphabetic() || character == b'@' => LETTERS,
                    _ => FIGURES,
                };
                sent_bits(shifts, bits(to))
            }
            _ => NONE.to_string(),
        }
    }

    fn reads_keys(&self, code: &str) -> String {
        match self.row(2, &[0, 1], |cell| cell == code) {
            Some([_, "NULL", "NULL"]) => character(0),
            Some([_, _, to]) => character(bits(to)),
            None => NONE.to_string(),
        }
    }

    fn sends_keys(&self, character: u8) -> String {
        match self.row(3, &[0, 1], |cell| bits(cell) == character) {
            Some([_, _, to]) if !NO_CODE.contains(&to) => to.to_string(),
            _ => NONE.to_string(),
        }
    }
}

/// The reference: the rulings of document 01 over the tables that were typed in.
pub struct Reference;

impl Conversions for Reference {
    fn reads_bits(&self, shift: u8, code: u8) -> String {
        match annex::BAUDOT_READS[usize::from(shift == FIGURES)][usize::from(code)] {
            Some(read) => character(read),
            None if code == FIGURES_CODE => "FIGS".to_string(),
            None => "LTRS".to_string(),
        }
    }

    fn sends_bits(&self, character: u8) -> String {
        let sends = annex::BAUDOT_SENDS[usize::from(character)];
        sends.map_or(NONE.to_string(), |Sending { shifts, code }| sent_bits(shifts, code))
    }

    fn reads_keys(&self, code: &str) -> String {
        annex::dtmf_reads(code).map_or(NONE.to_string(), character)
    }

    fn sends_keys(&self, character: u8) -> String {
        annex::dtmf_sends(character).unwrap_or(NONE).to_string()
    }
}

/// Where conversions differ from the print other than the departures say, and departures that are
/// none.
pub fn conversion_differences(whose: &str, print: &Print, of: &impl Conversions) -> Vec<String> {
    let (print, found) = (conversions(print), conversions(of));
    let mut differences = Vec::new();
    for ((place, printed), (_, found)) in print.iter().zip(&found) {
        match DEPARTURES.iter().find(|departure| departure.place == place) {
            None if printed != found => differences
                .push(format!("{place}: printed {printed}, {whose} has {found}; not listed")),
            Some(listed) if printed == found => differences.push(format!(
                "{place}: printed {printed}, {whose} has {found}; listed as ruled by {}",
                listed.ruling
            )),
            Some(listed) if (listed.printed, listed.ruled) != (printed, found) => {
                differences.push(format!(
                    "{place}: printed {printed}, {whose} has {found}; listed as {}, {}",
                    listed.printed, listed.ruled
                ))
            }
            _ => {}
        }
    }
    for departure in &DEPARTURES {
        if print.iter().all(|(place, _)| place != departure.place) {
            differences.push(format!("{}: listed, and there is no such place", departure.place));
        }
    }
    differences
}

#[cfg(test)]
mod tests {
    use super::*;

    /// A text of the reference's own tables, with the damage that is listed.
    fn text() -> String {
        let mut text = String::from("a line\n\n");
        for (table, lines) in reference_tables().iter().enumerate() {
            let pages = lines.split_at(lines.len() / 2);
            for page in [pages.0, pages.1] {
                text += &format!("Table {}/V.18 and more\n\na\tb\tc\td\te\tf\n", NAMES[table]);
                for line in page {
                    let mut cells = line.join("\t").replace("| >> !", ">> !").replace('$', "\\$");
                    for half in (0..2)
                        .filter(|&half| MISSING_TABS.contains(&place(table, half, line).as_str()))
                    {
                        let [from, sign, to] = [0, 1, 2].map(|i| line[3 * half + i].as_str());
                        let whole = [from, sign, to].join("\t");
                        let damaged = if sign.ends_with('(') {
                            format!("{from}\t{sign}{to}")
                        } else {
                            format!("{from}{sign}\t{to}")
                        };
                        cells = cells.replace(&whole, &damaged);
                    }
                    text += &(cells + "\n");
                }
                text += "\nA NOTE\n";
            }
        }
        text
    }

    fn differences(text: &str) -> Vec<String> {
        let lines: Vec<&str> = text.lines().collect();
        let print = match take(&lines) {
            Ok(print) => print,
            Err(error) => return vec![error],
        };
        let mut all = damage_differences(&print);
        all.extend(cell_differences("it", &print, &reference_tables()));
        all.extend(conversion_differences("it", &print, &Reference));
        all
    }

    fn changed(old: &str, new: &str) -> Vec<String> {
        let text = text();
        assert_eq!(text.matches(old).count(), 1, "{old}");
        differences(&text.replace(old, new))
    }

    #[test]
    fn the_same_tables_do_not_differ() {
        assert_eq!(differences(&text()), [""; 0]);
    }

    #[test]
    fn a_change_of_the_text_is_told() {
        let found = changed("00001\tE\t100 0101", "00001\tE\t100 0111");
        assert_eq!(
            found,
            [
                "A.1 letters 00001: the text has 100 0111, it has 100 0101",
                "A.1 letters 00001: printed 47, it has 45; not listed"
            ]
        );
        let found = changed("\n1\tb\t", "\n1\te\t");
        assert_eq!(found, ["B.1 1: the text has e, it has b"]);
        let found = changed("011 0000\t0\t10110\t111 0000\tp\t10110\n", "");
        assert_eq!(found[0], "A.2: lines: the text has 63, it has 64");
        let found = changed("00001\tE\t100 0101", "00001\tE\t100 0121");
        assert_eq!(found.len(), 1);
        assert!(found[0].starts_with("A.1: no printed line"));
    }

    #[test]
    fn a_departure_that_is_none_is_told() {
        let found = changed("#2\tf\t110 1110", "#2\tf\t110 0110");
        let place = "\"DTMF alphabet (Annex B)\", sentence 4";
        assert_eq!(
            found[1..],
            [format!("B.1 #2: printed 66, it has 66; listed as ruled by {place}")]
        );
    }

    #[test]
    fn damage_is_as_listed() {
        let found = changed("\t01111\t(010 1000", "\t01111\t(\t010 1000");
        assert_eq!(found, ["A.1 figures 01111: no tab is missing, and one is listed"]);
        let found = changed("\t01110\t:\t011 1010", "\t01110:\t011 1010");
        assert_eq!(found, ["A.1 figures 01110: a tab is missing, and that is not listed"]);
        let found = changed("\t>> !\t", "\t| >> !\t");
        assert_eq!(found, ["A.2 7C: no sign is missing, and one is listed"]);
    }

    #[test]
    fn a_tab_is_put_back_at_one_place_alone() {
        let (line, half) = cells(3, "011 1100\t<>> (**6\t111 1100\tø (Note)\t*#2").unwrap();
        assert_eq!(line, ["011 1100", "< >> (", "**6", "111 1100", "ø (Note)", "*#2"]);
        assert_eq!(half, Some(0));
        let (line, half) = cells(1, "001 1101\tIS3 >> LF\t00010\t101 1101] >>)\t10010").unwrap();
        assert_eq!(line[3..], ["101 1101", "] >> )", "10010"]);
        assert_eq!(half, Some(1));
        assert!(cells(1, "001 1101\tIS3 >> LF\t00010101 1101] >>)\t10010").is_none());
    }

    #[test]
    fn definitions_are_read() {
        let source = r#"    line "1" "\\ >> /" "2" "3" "\"" "4" ∷"#;
        let line = ["1", "\\ >> /", "2", "3", "\"", "4"].map(str::to_string);
        assert_eq!(definition(&format!("-- a comment\na2 =\n{source}\n    []\n")), Ok(vec![line]));
        assert!(definition("line \"1\" \"2\"").is_err());
    }
}
