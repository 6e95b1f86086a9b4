//! Prints the line signal of every code of every mode as runs: the level and the ms of each.

use reference::line::{codes, preamble, runs, signal};
use reference::mode::Mode;

fn main() {
    for mode in Mode::ALL {
        println!("mode {} preamble{}", mode.number(), written(&preamble(mode)));
        for code in codes(mode) {
            println!("{code}{}", written(&signal(mode, &code)));
        }
    }
}

/// The runs of a signal, a space before each number.
fn written(signal: &[u8]) -> String {
    runs(signal).into_iter().map(|(level, ms)| format!(" {level} {ms}")).collect()
}
