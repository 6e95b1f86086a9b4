//! Tables A.1, A.2, B.1 and B.2 of V.18 (11/2000) as printed, left and right half of each row,
//! and the rulings of document 01 applied over them.

/// Table A.1, five bits to seven.
#[rustfmt::skip]
pub const A1: [[&str; 6]; 32] = [
    ["00000", "(BACKSP)", "000 1000", "00000", "(BACKSP)", "000 1000"],
    ["00001", "E",        "100 0101", "00001", "3",        "011 0011"],
    ["00010", "LF",       "000 1010", "00010", "LF",       "000 1010"],
    ["00011", "A",        "100 0001", "00011", "–",        "010 1101"],
    ["00100", "SPACE",    "010 0000", "00100", "SPACE",    "010 0000"],
    ["00101", "S",        "101 0011", "00101", "–",        "000 0000"],
    ["00110", "I",        "100 1001", "00110", "8",        "011 1000"],
    ["00111", "U",        "101 0101", "00111", "7",        "011 0111"],
    ["01000", "CR",       "000 1101", "01000", "CR",       "000 1101"],
    ["01001", "D",        "100 0100", "01001", "$",        "010 0100"],
    ["01010", "R",        "101 0010", "01010", "4",        "011 0100"],
    ["01011", "J",        "100 1010", "01011", "'",        "010 0111"],
    ["01100", "N",        "100 1110", "01100", ",",        "010 1100"],
    ["01101", "F",        "100 0110", "01101", "!",        "010 0001"],
    ["01110", "C",        "100 0011", "01110", ":",        "011 1010"],
    ["01111", "K",        "100 1011", "01111", "(",        "010 1000"],
    ["10000", "T",        "101 0100", "10000", "5",        "011 0101"],
    ["10001", "Z",        "101 1010", "10001", "\"",       "010 0010"],
    ["10010", "L",        "100 1100", "10010", ")",        "010 1001"],
    ["10011", "W",        "101 0111", "10011", "2",        "011 0010"],
    ["10100", "H",        "100 1000", "10100", "=",        "011 1101"],
    ["10101", "Y",        "101 1001", "10101", "6",        "011 0110"],
    ["10110", "P",        "101 0000", "10110", "0",        "011 0000"],
    ["10111", "Q",        "101 0001", "10111", "1",        "011 0001"],
    ["11000", "O",        "100 1111", "11000", "9",        "011 1001"],
    ["11001", "B",        "100 0010", "11001", "?",        "011 1111"],
    ["11010", "G",        "100 0111", "11010", "+",        "010 1011"],
    ["11011", "FIGS",     "(Note)",   "11011", "FIGS",     "(Note)"],
    ["11100", "M",        "100 1101", "11100", ".",        "010 1110"],
    ["11101", "X",        "101 1000", "11101", "/",        "010 1111"],
    ["11110", "V",        "101 0110", "11110", ";",        "011 1011"],
    ["11111", "LTRS",     "(Note)",   "11111", "LTRS",     "(Note)"],
];

/// Table A.2, seven bits to five.
#[rustfmt::skip]
pub const A2: [[&str; 6]; 64] = [
    ["000 0000", "NULL",         "NULL",  "100 0000", "@ >> X",     "11101"],
    ["000 0001", "SOH",          "NULL",  "100 0001", "A",          "00011"],
    ["000 0010", "STX",          "NULL",  "100 0010", "B",          "11001"],
    ["000 0011", "ETX",          "NULL",  "100 0011", "C",          "01110"],
    ["000 0100", "EOT",          "NULL",  "100 0100", "D",          "01001"],
    ["000 0101", "ENQ",          "NULL",  "100 0101", "E",          "00001"],
    ["000 0110", "ACK",          "NULL",  "100 0110", "F",          "01101"],
    ["000 0111", "BEL",          "NULL",  "100 0111", "G",          "11010"],
    ["000 1000", "BACKSPACE",    "00000", "100 1000", "H",          "10100"],
    ["000 1001", "HT >> SPACE",  "00100", "100 1001", "I",          "00110"],
    ["000 1010", "LF",           "00010", "100 1010", "J",          "01011"],
    ["000 1011", "VT >> LF",     "00010", "100 1011", "K",          "01111"],
    ["000 1100", "FF >> LF",     "00010", "100 1100", "L",          "10010"],
    ["000 1101", "CR",           "01000", "100 1101", "M",          "11100"],
    ["000 1110", "SO",           "NULL",  "100 1110", "N",          "01100"],
    ["000 1111", "SI",           "NULL",  "100 1111", "O",          "11000"],
    ["001 0000", "DLE",          "NULL",  "101 0000", "P",          "10110"],
    ["001 0001", "DC1",          "NULL",  "101 0001", "Q",          "10111"],
    ["001 0010", "DC2",          "NULL",  "101 0010", "R",          "01010"],
    ["001 0011", "DC3",          "NULL",  "101 0011", "S",          "00101"],
    ["001 0100", "DC4",          "NULL",  "101 0100", "T",          "10000"],
    ["001 0101", "NAK",          "NULL",  "101 0101", "U",          "00111"],
    ["001 0110", "SYN",          "NULL",  "101 0110", "V",          "11110"],
    ["001 0111", "ETB",          "NULL",  "101 0111", "W",          "10011"],
    ["001 1000", "CAN",          "NULL",  "101 1000", "X",          "11101"],
    ["001 1001", "EM",           "NULL",  "101 1001", "Y",          "10101"],
    ["001 1010", "SUB >> ?",     "11001", "101 1010", "Z",          "10001"],
    ["001 1011", "ESC",          "NULL",  "101 1011", "[ >> (",     "01111"],
    ["001 1100", "IS4 >> LF",    "00010", "101 1100", "\\ >> /",    "11101"],
    ["001 1101", "IS3 >> LF",    "00010", "101 1101", "] >> )",     "10010"],
    ["001 1110", "IS2 >> LF",    "00010", "101 1110", "^ >> '",     "01011"],
    ["001 1111", "IS1 >> SPACE", "00100", "101 1111", "_ >> SPACE", "00100"],
    ["010 0000", "SPACE",        "00100", "110 0000", "'",          "00111"],
    ["010 0001", "!",            "01101", "110 0001", "a",          "00011"],
    ["010 0010", "\"",           "10001", "110 0010", "b",          "11001"],
    ["010 0011", "# >> $",       "01001", "110 0011", "c",          "01110"],
    ["010 0100", "$",            "01001", "110 0100", "d",          "01001"],
    ["010 0101", "% >> /",       "11101", "110 0101", "e",          "00001"],
    ["010 0110", "& >> +",       "11010", "110 0110", "f",          "01101"],
    ["010 0111", "'",            "01011", "110 0111", "g",          "11010"],
    ["010 1000", "(",            "01111", "110 1000", "h",          "10100"],
    ["010 1001", ")",            "10010", "110 1001", "i",          "00110"],
    ["010 1010", "*",            "11100", "110 1010", "j",          "01011"],
    ["010 1011", "+",            "11010", "110 1011", "k",          "01111"],
    ["010 1100", ",",            "01100", "110 1100", "l",          "10010"],
    ["010 1101", "-",            "00011", "110 1101", "m",          "11100"],
    ["010 1110", ".",            "11100", "110 1110", "n",          "01100"],
    ["010 1111", "/",            "11101", "110 1111", "o",          "11000"],
    ["011 0000", "0",            "10110", "111 0000", "p",          "10110"],
    ["011 0001", "1",            "10111", "111 0001", "q",          "10111"],
    ["011 0010", "2",            "10011", "111 0010", "r",          "01010"],
    ["011 0011", "3",            "00001", "111 0011", "s",          "00101"],
    ["011 0100", "4",            "01010", "111 0100", "t",          "10000"],
    ["011 0101", "5",            "10000", "111 0101", "u",          "00111"],
    ["011 0110", "6",            "10101", "111 0110", "v",          "11110"],
    ["011 0111", "7",            "00111", "111 0111", "w",          "10011"],
    ["011 1000", "8",            "00110", "111 1000", "x",          "11101"],
    ["011 1001", "9",            "11000", "111 1001", "y",          "10101"],
    ["011 1010", ":",            "01110", "111 1010", "z",          "10001"],
    ["011 1011", ";",            "11110", "111 1011", "{ >> (",     "01111"],
    ["011 1100", "< >> (",       "01111", "111 1100", "| >> !",     "01101"],
    ["011 1101", "=",            "10100", "111 1101", "} >> )",     "10010"],
    ["011 1110", "> >> )",       "10010", "111 1110", "~ >> SPACE", "00100"],
    ["011 1111", "?",            "11001", "111 1111", "DEL",        "NULL (Note)"],
];

/// Table B.1, DTMF to seven bits.
#[rustfmt::skip]
pub const B1: [[&str; 6]; 43] = [
    ["1",   "b",          "110 0010", "**4",   ":",          "011 1010"],
    ["2",   "e",          "110 0101", "**5",   "%",          "010 0101"],
    ["3",   "h",          "110 1000", "**6",   "(",          "010 1000"],
    ["4",   "k",          "110 1011", "**7",   ")",          "011 1110"],
    ["5",   "n",          "110 1110", "**8",   ",",          "010 1100"],
    ["6",   "q",          "111 0001", "**9",   "LF",         "000 1010"],
    ["7",   "t",          "111 0100", "**0",   "NULL",       "NULL"],
    ["8",   "w",          "111 0111", "##*1",  "æ (Note 1)", "111 1011"],
    ["9",   "z",          "111 1010", "##*2",  "ø (Note 1)", "111 1100"],
    ["0",   "SPACE",      "010 0000", "##*3",  "å (Note 1)", "111 1101"],
    ["*1",  "a",          "110 0001", "##*4",  "Æ (Note 1)", "101 1011"],
    ["*2",  "d",          "110 0100", "##*5",  "Ø (Note 1)", "101 1100"],
    ["*3",  "g",          "110 0111", "##*6",  "Å (Note 1)", "101 1101"],
    ["*4",  "j",          "110 1010", "###*1", "A",          "100 0001"],
    ["*5",  "m",          "110 1101", "###*2", "D",          "100 0100"],
    ["*6",  "p",          "111 0000", "###*3", "G",          "100 0111"],
    ["*7",  "s",          "111 0011", "###*4", "J",          "100 1010"],
    ["*8",  "v",          "111 0110", "###*5", "M",          "100 1101"],
    ["*9",  "y",          "111 1001", "###*6", "P",          "101 0000"],
    ["*0",  "BACK SPACE", "000 1000", "##*7",  "S",          "101 0011"],
    ["#1",  "c",          "110 0011", "##*8",  "V",          "101 0110"],
    ["#2",  "f",          "110 1110", "##*9",  "Y",          "101 1001"],
    ["#3",  "i",          "110 1001", "##*0",  "NULL",       "NULL"],
    ["#4",  "l",          "110 1100", "##1",   "B",          "100 0010"],
    ["#5",  "o",          "110 1111", "##2",   "E",          "100 0101"],
    ["#6",  "r",          "111 0010", "##3",   "H",          "100 1000"],
    ["#7",  "u",          "111 0101", "##4",   "K",          "100 1011"],
    ["#8",  "x",          "111 1000", "##5",   "N",          "100 1110"],
    ["#9",  ".",          "010 1110", "##6",   "Q",          "101 0001"],
    ["#0",  "?",          "011 1111", "##7",   "T",          "101 0100"],
    ["*#1", "1",          "011 0001", "##8",   "W",          "101 0111"],
    ["*#2", "2",          "011 0010", "##9",   "Z",          "101 1010"],
    ["*#3", "3",          "011 0011", "##0",   "SPACE",      "010 0000"],
    ["*#4", "4",          "011 0100", "###1",  "C",          "100 0011"],
    ["*#5", "5",          "011 0101", "###2",  "F",          "100 0110"],
    ["*#6", "6",          "011 0110", "###3",  "I",          "100 1001"],
    ["*#7", "7",          "011 0111", "###4",  "L",          "100 1100"],
    ["*#8", "8",          "011 1000", "###5",  "O",          "100 1111"],
    ["*#9", "9",          "011 1001", "###6",  "R",          "101 0010"],
    ["*#0", "0",          "011 0000", "###7",  "U",          "101 0101"],
    ["**1", "+",          "010 0110", "###8",  "X",          "101 1000"],
    ["**2", "-",          "010 1101", "###9",  ";",          "011 1011"],
    ["**3", "=",          "011 1101", "###0",  "!",          "010 0001"],
];

/// Table B.2, seven bits to DTMF.
#[rustfmt::skip]
pub const B2: [[&str; 6]; 64] = [
    ["000 0000", "NULL",         "NULL", "100 0000", "@ >> X",     "###8"],
    ["000 0001", "SOH",          "NULL", "100 0001", "A",          "##*1"],
    ["000 0010", "STX",          "NULL", "100 0010", "B",          "##1"],
    ["000 0011", "ETX",          "NULL", "100 0011", "C",          "###1"],
    ["000 0100", "EOT",          "NULL", "100 0100", "D",          "##*2"],
    ["000 0101", "ENQ",          "NULL", "100 0101", "E",          "##2"],
    ["000 0110", "ACK",          "NULL", "100 0110", "F",          "###2"],
    ["000 0111", "BEL",          "NULL", "100 0111", "G",          "##*3"],
    ["000 1000", "BACKSPACE",    "*0",   "100 1000", "H",          "##3"],
    ["000 1001", "HT >> SPACE",  "0",    "100 1001", "I",          "###3"],
    ["000 1010", "LF",           "**9",  "100 1010", "J",          "##*4"],
    ["000 1011", "VT >> LF",     "**9",  "100 1011", "K",          "##4"],
    ["000 1100", "FF >> LF",     "**9",  "100 1100", "L",          "####4"],
    ["000 1101", "CR",           "NULL", "100 1101", "M",          "##*5"],
    ["000 1110", "SO",           "NULL", "100 1110", "N",          "##5"],
    ["000 1111", "SI",           "NULL", "100 1111", "O",          "####5"],
    ["001 0000", "DLE",          "NULL", "101 0000", "P",          "##*6"],
    ["001 0001", "DC1",          "NULL", "101 0001", "Q",          "##6"],
    ["001 0010", "DC2",          "NULL", "101 0010", "R",          "####6"],
    ["001 0011", "DC3",          "NULL", "101 0011", "S",          "##*7"],
    ["001 0100", "DC4",          "NULL", "101 0100", "T",          "##7"],
    ["001 0101", "NAK",          "NULL", "101 0101", "U",          "###7"],
    ["001 0110", "SYN",          "NULL", "101 0110", "V",          "##*8"],
    ["001 0111", "ETB",          "NULL", "101 0111", "W",          "##8"],
    ["001 1000", "CAN",          "NULL", "101 1000", "X",          "###8"],
    ["001 1001", "EM",           "NULL", "101 1001", "Y",          "##*9"],
    ["001 1010", "SUB >> ?",     "#0",   "101 1010", "Z",          "##9"],
    ["001 1011", "ESC",          "NULL", "101 1011", "Æ (Note)",   "*4"],
    ["001 1100", "IS4 >> LF",    "**9",  "101 1100", "Ø (Note)",   "*5"],
    ["001 1101", "IS3 >> LF",    "**9",  "101 1101", "Å (Note)",   "*6"],
    ["001 1110", "IS2 >> LF",    "**9",  "101 1110", "^ >> '",     "NULL"],
    ["001 1111", "IS1 >> SPACE", "0",    "101 1111", "_ >> SPACE", "0"],
    ["010 0000", "SPACE",        "0",    "110 0000", "'",          "NULL"],
    ["010 0001", "!",            "###0", "110 0001", "a",          "*1"],
    ["010 0010", "\"",           "NULL", "110 0010", "b",          "1"],
    ["010 0011", "# >> $",       "NULL", "110 0011", "c",          "#1"],
    ["010 0100", "$",            "NULL", "110 0100", "d",          "*2"],
    ["010 0101", "% >> /",       "**5",  "110 0101", "e",          "2"],
    ["010 0110", "& >> +",       "**1",  "110 1110", "f",          "#2"],
    ["010 0111", "'",            "NULL", "110 0111", "g",          "*3"],
    ["010 1000", "(",            "**6",  "110 1000", "h",          "3"],
    ["010 1001", ")",            "**7",  "110 1001", "i",          "#3"],
    ["010 1010", "_ >> .",       "#9",   "110 1010", "j",          "*4"],
    ["010 1011", "+",            "**1",  "110 1011", "k",          "4"],
    ["010 1100", ",",            "**8",  "110 1100", "l",          "#4"],
    ["010 1101", "-",            "**2",  "110 1101", "m",          "*5"],
    ["010 1110", ".",            "#9",   "110 1110", "n",          "5"],
    ["010 1111", "/",            "NULL", "110 1111", "o",          "#5"],
    ["011 0000", "0",            "*#0",  "111 0000", "p",          "*6"],
    ["011 0001", "1",            "*#1",  "111 0001", "q",          "6"],
    ["011 0010", "2",            "*#2",  "111 0010", "r",          "#6"],
    ["011 0011", "3",            "*#3",  "111 0011", "s",          "*7"],
    ["011 0100", "4",            "*#4",  "111 0100", "t",          "7"],
    ["011 0101", "5",            "*#5",  "111 0101", "u",          "#7"],
    ["011 0110", "6",            "*#6",  "111 0110", "v",          "*8"],
    ["011 0111", "7",            "*#7",  "111 0111", "w",          "8"],
    ["011 1000", "8",            "*#8",  "111 1000", "x",          "#8"],
    ["011 1001", "9",            "*#9",  "111 1001", "y",          "*9"],
    ["011 1010", ":",            "**4",  "111 1010", "z",          "9"],
    ["011 1011", ";",            "###9", "111 1011", "æ (Note)",   "*#1"],
    ["011 1100", "< >> (",       "**6",  "111 1100", "ø (Note)",   "*#2"],
    ["011 1101", "=",            "**3",  "111 1101", "å (Note)",   "*#3"],
    ["011 1110", "> >> )",       "**7",  "111 1110", "~ >> SPACE", "0"],
    ["011 1111", "?",            "#0",   "111 1111", "DEL",        "*0"],
];

/// A cell of binary digits as a number; None for a cell of words.
const fn digits(cell: &str) -> Option<u8> {
    let cell = cell.as_bytes();
    let mut number = 0;
    let mut i = 0;
    while i < cell.len() {
        match cell[i] {
            b' ' => {}
            b'0' | b'1' => number = 2 * number + cell[i] - b'0',
            _ => return None,
        }
        i += 1;
    }
    Some(number)
}

/// The shifts. As bits of a set they also say in which shifts a code is sent.
pub const LETTERS: u8 = 1;
pub const FIGURES: u8 = 2;
pub const EITHER: u8 = LETTERS | FIGURES;

/// The codes that select a shift.
pub const LETTERS_CODE: u8 = 0b11111;
pub const FIGURES_CODE: u8 = 0b11011;

/// A.1: the character a code gives in letters (first) and in figures; None for a shift code.
/// The seven-bit column decides, so figures 00101 gives 00.
pub const BAUDOT_READS: [[Option<u8>; 32]; 2] = {
    let mut reads = [[None; 32]; 2];
    let mut i = 0;
    while i < A1.len() {
        let row = &A1[i];
        reads[0][digits(row[0]).unwrap() as usize] = digits(row[2]);
        reads[1][digits(row[3]).unwrap() as usize] = digits(row[5]);
        i += 1;
    }
    reads
};

/// What a character sends in Baudot: a code, in one of these shifts.
#[derive(Clone, Copy, Debug, PartialEq, Eq)]
pub struct Sending {
    pub shifts: u8,
    pub code: u8,
}

/// A.2: what each character sends; None where NULL is printed. 60 is sent as the apostrophe.
pub const BAUDOT_SENDS: [Option<Sending>; 128] = {
    let mut sends = [None; 128];
    let mut i = 0;
    while i < 2 * A2.len() {
        let (row, half) = (&A2[i / 2], 3 * (i % 2));
        let character = digits(row[half]).unwrap();
        if let Some(code) = digits(row[half + 2]) {
            let shifts = match (character, code) {
                (b'A'..=b'Z' | b'a'..=b'z' | b'@', _) => LETTERS,
                (_, 0b00000 | 0b00010 | 0b00100 | 0b01000) => EITHER,
                _ => FIGURES,
            };
            sends[character as usize] = Some(Sending { shifts, code });
        }
        i += 1;
    }
    sends[0x60] = sends[b'\'' as usize];
    sends
};

/// The three cells of every row, the whole left half before the right.
fn rows<'a>(table: &'a [[&'static str; 6]]) -> impl Iterator<Item = [&'static str; 3]> + 'a {
    let left = table.iter().map(|row| [row[0], row[1], row[2]]);
    left.chain(table.iter().map(|row| [row[3], row[4], row[5]]))
}

/// Has this DTMF code the shape that is read: a prefix of at most three of * and #, and a digit?
fn is_shaped(code: &str) -> bool {
    let prefix = code.trim_end_matches(|sign: char| sign.is_ascii_digit());
    prefix.len() <= 3 && prefix.len() + 1 == code.len() && prefix.chars().all(|c| "*#".contains(c))
}

/// The rows of B.1 in order, code and character, and whether the row is struck:
/// for its shape, or because its code stood in an earlier row.
pub fn dtmf_rows() -> impl Iterator<Item = (&'static str, u8, bool)> {
    rows(&B1).enumerate().map(|(i, [code, sign, bits])| {
        let struck = !is_shaped(code) || rows(&B1).take(i).any(|row| row[0] == code);
        (code, dtmf_character(sign, bits), struck)
    })
}

/// The character of a row of B.1. Its character column decides, so #2 gives f, **1 gives + and
/// **7 gives the right bracket. T.50 has no national letters: for those the bits stand.
fn dtmf_character(sign: &str, bits: &str) -> u8 {
    match sign {
        "NULL" => 0x00,
        "BACK SPACE" => 0x08,
        "LF" => 0x0A,
        "SPACE" => 0x20,
        _ if sign.ends_with(" (Note 1)") => digits(bits).unwrap(),
        _ => {
            assert!(sign.len() == 1 && sign.is_ascii(), "no character: {sign}");
            sign.as_bytes()[0]
        }
    }
}

/// The character a DTMF code gives; None is a fault.
pub fn dtmf_reads(code: &str) -> Option<u8> {
    dtmf_rows().find(|&(row, _, struck)| row == code && !struck).map(|(_, character, _)| character)
}

/// The DTMF code of a character: by its first remaining row in B.1, else by B.2 (looked up by the
/// seven bits) if that code has a remaining row. NULL is never sent, and nothing is sent as **0.
pub fn dtmf_sends(character: u8) -> Option<&'static str> {
    let first = dtmf_rows()
        .find(|&(_, read, struck)| read == character && !struck)
        .map(|(code, _, _)| code);
    let second = || {
        rows(&B2)
            .find(|row| digits(row[0]) == Some(character))
            .map(|row| row[2])
            .filter(|code| dtmf_reads(code).is_some())
    };
    first.or_else(second).filter(|&code| character != 0 && code != "**0")
}

#[cfg(test)]
mod tests {
    use super::*;

    /// The character a sign of the print stands for.
    fn named(sign: &str) -> u8 {
        match sign {
            "(BACKSP)" | "BACKSPACE" => 0x08,
            "LF" => 0x0A,
            "CR" => 0x0D,
            "SPACE" => 0x20,
            "–" => b'-',
            _ => sign.as_bytes()[0],
        }
    }

    #[test]
    fn a1_is_whole_and_agrees_with_its_signs() {
        let odd: Vec<_> = rows(&A1)
            .filter(|row| digits(row[2]).is_some_and(|bits| bits != named(row[1])))
            .collect();
        assert_eq!(odd, [["00101", "–", "000 0000"]]);
        for shift in BAUDOT_READS {
            for (code, read) in shift.iter().enumerate() {
                let selects = [LETTERS_CODE, FIGURES_CODE].contains(&(code as u8));
                assert_eq!(read.is_none(), selects);
            }
        }
    }

    #[test]
    fn a2_is_whole_and_reads_back_as_drawn() {
        assert!(rows(&A2).map(|row| digits(row[0]).unwrap()).eq(0..128));
        for [bits, signs, _] in rows(&A2) {
            let character = digits(bits).unwrap();
            let silent = matches!(character, 0..=7 | 0x0E..=0x19 | 0x1B | 0x7F);
            assert_eq!(BAUDOT_SENDS[character as usize].is_none(), silent);
            if let Some(Sending { shifts, code }) = BAUDOT_SENDS[character as usize] {
                let drawn = named(signs.rsplit(" >> ").next().unwrap()).to_ascii_uppercase();
                let drawn = if character == b'*' { b'.' } else { drawn };
                for shift in [LETTERS, FIGURES].into_iter().filter(|s| s & shifts != 0) {
                    let read = BAUDOT_READS[shift as usize - 1][code as usize];
                    assert_eq!(read, Some(drawn), "{bits}");
                }
            }
        }
    }

    #[test]
    fn b1_strikes_the_rows_with_a_prefix_of_four_alone() {
        let struck: Vec<_> = dtmf_rows().filter(|row| row.2).map(|row| row.0).collect();
        assert_eq!(struck, ["###*1", "###*2", "###*3", "###*4", "###*5", "###*6"]);
        let odd: Vec<_> = rows(&B1)
            .filter(|row| digits(row[2]).is_some_and(|bits| bits != dtmf_character(row[1], row[2])))
            .map(|row| row[0])
            .collect();
        assert_eq!(odd, ["#2", "**1", "**7"]);
    }

    #[test]
    fn b2_names_every_character_but_f() {
        let missing: Vec<_> = (0..128)
            .filter(|&character| rows(&B2).all(|row| digits(row[0]) != Some(character)))
            .collect();
        assert_eq!(missing, [b'f']);
    }

    #[test]
    fn dtmf_examples() {
        assert_eq!(dtmf_sends(b'b'), Some("1"));
        assert_eq!(dtmf_sends(b':'), Some("**4"));
        assert_eq!(dtmf_sends(b' '), Some("0"));
        assert_eq!(dtmf_sends(b'A'), Some("##*1"));
        assert_eq!(dtmf_sends(b'*'), Some("#9"));
        assert_eq!(dtmf_sends(b'L'), Some("###4"));
        assert_eq!(dtmf_sends(0x7F), Some("*0"));
        assert_eq!(dtmf_sends(0x00), None);
        assert_eq!(dtmf_sends(b'\r'), None);
        assert_eq!(dtmf_reads("##*1"), Some(0x7B));
        assert_eq!(dtmf_reads("**0"), Some(0x00));
        assert_eq!(dtmf_reads("**7"), Some(b')'));
        assert_eq!(dtmf_reads("#2"), Some(b'f'));
        assert_eq!(dtmf_reads("###*1"), None);
        assert_eq!(dtmf_reads("***1"), None);
    }
}
