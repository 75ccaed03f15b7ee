//! What the programs of this benchmark share.

use std::hint::black_box;
use std::time::Instant;

/// The number of rounds, the program's only argument. Without it there are 101. Ends
/// the program if it is not a number above 0.
pub fn rounds(program: &str) -> u32 {
    let rounds = std::env::args().nth(1).map_or(Ok(101), |n| n.parse());
    let Ok(rounds @ 1..) = rounds else {
        eprintln!("{program} [ROUNDS]");
        std::process::exit(2);
    };
    rounds
}

pub fn median(mut times: Vec<f64>) -> f64 {
    times.sort_by(f64::total_cmp);
    times[times.len() / 2]
}

/// Which rows are over their targets.
#[allow(dead_code)]
pub fn targets(over: &[&str]) -> String {
    match over {
        [] => "all targets met".into(),
        names => format!("over its target: {}", names.join(", ")),
    }
}

/// The time of one part in nanoseconds, measured over `count` of them.
#[allow(dead_code)]
pub fn time<T>(count: u32, mut part: impl FnMut() -> T) -> f64 {
    let start = Instant::now();
    for _ in 0..count {
        black_box(part());
    }
    start.elapsed().as_nanos() as f64 / f64::from(count)
}
