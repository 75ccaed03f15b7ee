//! The drawing primitives: the cases of docs/primitive-cases.md, run with the
//! original.

mod canvas;
mod case;
mod clip;
mod colors;
mod examples;
mod lent;
mod original;
mod random;
mod run;
mod sample;
mod script;
mod tally;

pub use run::run;
pub use sample::sample;
pub use script::answers;

/// The bytes of a random script, and the tally of its cases.
pub fn cases(seed: u64, count: u64) -> (Vec<u8>, tally::Tally) {
    let (mut script, mut tally) = (script::Script::new(), tally::Tally::default());
    random::add(&mut script, seed, count, random::ALL, &mut tally);
    (script.bytes(), tally)
}
