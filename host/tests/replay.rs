//! The committed call script prints the committed lines, which are the original's.

mod script;

use std::fs;

use script::{assert_lines, path, printed};

#[test]
fn the_sample() {
    let sample = fs::read(path("crates/replay/stdin")).expect("the call script");
    let lines = fs::read_to_string(path("crates/replay/stdout")).expect("its lines");
    let (ours, calls) = printed(&sample);
    assert_lines(&ours, &lines, "the sample");
    assert_eq!(calls, lines.lines().filter(|line| !is_state(line)).count());
    println!("{calls} calls");
}

/// Whether a line is not a call's.
fn is_state(line: &str) -> bool {
    ["open ", "bad call", "panel ", "dc ", "object ", "crc "].iter().any(|p| line.starts_with(p))
}
