//! Device records, as in docs/record-cases.md, and how they are refused.

mod edges;
mod random;
mod record;
mod run;
mod stream;
mod tally;
mod wrong;

pub use random::handles;
pub use run::{records, run};

/// What is printed for the stream.
pub fn answers(stream: &[u8]) -> String {
    stream::answered(stream, &mut tally::Tally::new())
        .iter()
        .flat_map(|line| [line, "\n"])
        .collect()
}
