//! Where the engine and the reference depart from the print of V.18, each place with the sentence of
//! document 01 that rules on it; and what of the print is damaged in its text. `print` fails if a
//! place is missing here, or is no departure, or no damage, any more.

/// A place of a table, what its code columns say, what is ruled, and where.
pub struct Departure {
    pub place: &'static str,
    pub printed: &'static str,
    pub ruled: &'static str,
    /// The section of document 01, and the sentence in it.
    pub ruling: &'static str,
}

/// 60 is sent as the apostrophe.
const APOSTROPHE: &str = "\"Baudot alphabet (Annex A)\", second point, sentence 4";
/// The character column decides.
const COLUMN: &str = "\"DTMF alphabet (Annex B)\", sentence 4";
/// Rows of another shape are struck.
const STRUCK: &str = "\"DTMF alphabet (Annex B)\", sentence 5";
/// A row that remains in B.1 goes before B.2.
const B1_FIRST: &str = "\"DTMF alphabet (Annex B)\", sentence 6";

const fn at(
    place: &'static str,
    printed: &'static str,
    ruled: &'static str,
    ruling: &'static str,
) -> Departure {
    Departure { place, printed, ruled, ruling }
}

/// By shift and code in A.1, by character in A.2 and B.2, by code in B.1.
pub const DEPARTURES: [Departure; 21] = [
    at("A.2 60", "figures 00111", "figures 01011", APOSTROPHE),
    at("B.1 #2", "6E", "66", COLUMN),
    at("B.1 **1", "26", "2B", COLUMN),
    at("B.1 **7", "3E", "29", COLUMN),
    at("B.1 ###*1", "41", "none", STRUCK),
    at("B.1 ###*2", "44", "none", STRUCK),
    at("B.1 ###*3", "47", "none", STRUCK),
    at("B.1 ###*4", "4A", "none", STRUCK),
    at("B.1 ###*5", "4D", "none", STRUCK),
    at("B.1 ###*6", "50", "none", STRUCK),
    at("B.2 4C", "####4", "###4", B1_FIRST),
    at("B.2 4F", "####5", "###5", B1_FIRST),
    at("B.2 52", "####6", "###6", B1_FIRST),
    at("B.2 5B", "*4", "##*4", B1_FIRST),
    at("B.2 5C", "*5", "##*5", B1_FIRST),
    at("B.2 5D", "*6", "##*6", B1_FIRST),
    at("B.2 66", "none", "#2", B1_FIRST),
    at("B.2 6E", "#2", "5", B1_FIRST),
    at("B.2 7B", "*#1", "##*1", B1_FIRST),
    at("B.2 7C", "*#2", "##*2", B1_FIRST),
    at("B.2 7D", "*#3", "##*3", B1_FIRST),
];

/// Where the text lacks a tab beside a bracket.
pub const MISSING_TABS: [&str; 13] = [
    "A.1 figures 01111",
    "A.1 figures 10010",
    "A.2 5B",
    "A.2 5D",
    "A.2 28",
    "A.2 29",
    "A.2 7B",
    "A.2 3C",
    "B.1 **6",
    "B.1 **7",
    "B.2 28",
    "B.2 29",
    "B.2 3C",
];

/// Where the text lacks a sign: the place, the cell in the text, and the cell with the sign.
pub const MISSING_SIGN: (&str, &str, &str) = ("A.2 7C", " >> !", "| >> !");
