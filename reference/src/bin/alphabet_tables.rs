//! Prints the table listing: what every character sends and what every code reads as.

use reference::annex::{
    dtmf_reads, dtmf_sends, BAUDOT_READS, BAUDOT_SENDS, EITHER, FIGURES_CODE, LETTERS,
};
use reference::normal::Alphabet;

fn main() {
    for alphabet in [Alphabet::Baudot, Alphabet::Dtmf, Alphabet::Edt] {
        for character in 0..128 {
            character_line(alphabet, character);
        }
    }
    for code in 0..32 {
        let [letters, figures] = BAUDOT_READS.map(|reads| match reads[usize::from(code)] {
            Some(character) => format!("{character:02X}"),
            None if code == FIGURES_CODE => "FIGS".to_string(),
            None => "LTRS".to_string(),
        });
        println!("code {code:05b} letters {letters} figures {figures}");
    }
    for length in 0..=4 {
        for signs in 0..1 << length {
            let prefix: String = (0..length)
                .rev()
                .map(|place| if signs >> place & 1 == 0 { '*' } else { '#' })
                .collect();
            for digit in "1234567890".chars() {
                let code = format!("{prefix}{digit}");
                match dtmf_reads(&code) {
                    Some(character) => println!("key {code} reads {character:02X}"),
                    None => println!("key {code} reads fault"),
                }
            }
        }
    }
}

fn character_line(alphabet: Alphabet, character: u8) {
    let (name, sends, reads) = match alphabet {
        Alphabet::Baudot => {
            let sending = BAUDOT_SENDS[character as usize];
            let written = sending.map(|sending| {
                let shift = match sending.shifts {
                    EITHER => 'E',
                    LETTERS => 'L',
                    _ => 'F',
                };
                format!("{shift} {:05b}", sending.code)
            });
            let reads = sending.and_then(|sending| {
                let shift = usize::from(sending.shifts & LETTERS == 0);
                BAUDOT_READS[shift][sending.code as usize]
            });
            ("baudot", written, reads)
        }
        Alphabet::Dtmf => {
            let code = dtmf_sends(character);
            ("dtmf", code.map(str::to_string), code.and_then(dtmf_reads))
        }
        Alphabet::Edt => ("edt", Some(format!("{character:07b}")), Some(character)),
    };
    let hex = |character: Option<u8>| character.map_or("-".to_string(), |c| format!("{c:02X}"));
    println!(
        "{name} {character:02X} sends {} reads {} normal {}",
        sends.unwrap_or("-".to_string()),
        hex(reads),
        hex(alphabet.normal(character)),
    );
}
