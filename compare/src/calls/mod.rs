//! Calls on a device: the scripts of docs/call-script.md, run with the original.

mod call;
mod device;
mod drawing;
mod drawn;
mod edges;
mod examples;
mod form;
mod handle;
mod handles;
mod line;
mod lines;
mod original;
mod outcome;
mod paint;
mod pictures;
mod random;
mod run;
mod sample;
mod script;
mod spoilt;
mod step;
mod tables;
mod tally;

pub use device::{bytes_of, MAX_MEMORY, MAX_OBJECTS, MAX_SIDE};
pub use drawing::drawing;
pub use handle::STOCK;
pub use lines::{Point, LEAST, MOST};
pub use run::{run, run_handles, run_lines, run_pictures, run_tables};
pub use sample::sample;
pub use script::picture;

use tally::Tally;

/// The random script that a seed makes.
pub fn script(seed: u64) -> Vec<u8> {
    random::script(seed, &mut Tally::new())
}

/// The random script of lines and moves that a seed makes.
pub fn line_script(seed: u64) -> Vec<u8> {
    lines::script(seed, &mut Tally::new())
}

/// The random script with saves and loads that a seed makes.
pub fn table_script(seed: u64) -> Vec<u8> {
    tables::script(seed, &mut Tally::new())
}

/// What is printed for the script; an error if a sum of the original overflows, or
/// if it cannot give the handles of a loaded table.
pub fn answers(script: &[u8]) -> Result<String, String> {
    Ok(script::answered(script, &mut Tally::new())?.text())
}

/// What is printed for a script in which no sum overflows.
#[cfg(test)]
fn printed(script: &[u8]) -> String {
    answers(script).expect("no sum overflows")
}
