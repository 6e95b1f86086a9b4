//! Reads up to 4,096 bytes of standard input and prints their Baudot codes, one a line;
//! with a byte above 127 among them it prints nothing.

use reference::baudot::{send, FRESH};
use std::io::{self, Read, Write};

const MOST: usize = 4096;

fn main() -> io::Result<()> {
    let mut text = Vec::new();
    io::stdin().take(MOST as u64).read_to_end(&mut text)?;
    let mut codes = [0; 2 * MOST + 1];
    // A refusal has length 0.
    let sent = send(&text, FRESH, 0, &mut codes);
    let mut out = io::BufWriter::new(io::stdout().lock());
    for code in &codes[..sent.length] {
        writeln!(out, "{code:05b}")?;
    }
    out.flush()
}
