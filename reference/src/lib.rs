//! Reference for the textphone alphabets, the Baudot conversions, the line signal with its readers,
//! the station and the calling set, written from V.18, the rulings of document 01 and requests 101,
//! 103, 106 and 111 of document 02 alone; a check of demand 3 on random lists of calls; and the printed
//! tables, taken from a text of V.18.

pub mod annex;
pub mod answer;
pub mod baudot;
pub mod calling;
pub mod demand3;
pub mod demand3_lists;
pub mod departures;
pub mod drift;
pub mod fault;
pub mod line;
pub mod mode;
pub mod normal;
pub mod print;
pub mod random;
pub mod reader;
pub mod send_model;
pub mod station;
pub mod tape;
