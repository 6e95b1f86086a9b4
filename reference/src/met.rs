//! What a comparison of stations has met. Part of `differential`.

use reference::mode::Mode;
use std::process::exit;

/// A kind of case and how often it was met; if that is never, the comparison has failed.
pub fn must_meet(comparison: &str, mode: Mode, kind: &str, count: u64) -> String {
    if count == 0 {
        println!("{comparison}, mode {}: {kind} never met", mode.number());
        exit(1);
    }
    format!("{kind} {count}")
}

/// Every kind of a table that the mode must meet, and how often it was met.
pub fn must_meet_all<K: Copy>(
    comparison: &str,
    mode: Mode,
    kinds: &[(K, &str, &[u8])],
    count: impl Fn(K) -> u64,
) -> String {
    let kinds = kinds.iter().filter(|(_, _, modes)| modes.contains(&mode.number()));
    let met = kinds.map(|&(kind, name, _)| must_meet(comparison, mode, name, count(kind)));
    met.collect::<Vec<_>>().join(", ")
}
