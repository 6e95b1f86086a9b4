//! The answers of the public entries, by document 01's numbers ("Questions in order").

pub const SUCCESS: u8 = 0;
/// A number of the station, or the shift or count of a conversion, is out of range.
pub const STATE: u8 = 1;
/// The mode is none of 1 to 4.
pub const MODE: u8 = 2;
/// A byte is above 127.
pub const CHARACTER: u8 = 3;
/// There is no space for all that send something.
pub const SPACE: u8 = 4;
/// More than 4,096 ms.
pub const DURATION: u8 = 5;
/// A heard ms is no level of the mode.
pub const LEVEL: u8 = 6;
/// The sent slice is too short.
pub const SENT_SLICE: u8 = 7;
/// The word slice is too short.
pub const WORD_SLICE: u8 = 8;
/// The slice for the result of a conversion is too short.
pub const RESULT_SLICE: u8 = 9;
/// A code is above 11111.
pub const CODE: u8 = 10;
/// A heard value is no tone.
pub const TONE: u8 = 11;
/// The state of a calling set is out of range.
pub const CALLING_STATE: u8 = 12;
/// The report would pass 65,536 edges (document 02, request 111).
pub const EDGES: u8 = 18;
