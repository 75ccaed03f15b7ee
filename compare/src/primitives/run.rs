//! Compares a program with the original on random scripts.

use super::random;
use super::script::Script;
use super::tally::Tally;
use crate::program::{self, first_difference, hexadecimal, line_at, Progress};

/// How many cases a script has.
const BATCH: u64 = 2000;

/// Compares `count` cases, script by script, each from the next seed. True if all
/// answers are equal; otherwise it prints the first difference.
pub fn run(program: &str, count: u64, first: u64) -> Result<bool, String> {
    let mut tally = Tally::default();
    let mut progress = Progress::new(count, "cases");
    let mut seed = first;
    let mut done = 0;
    while done < count {
        let batch = BATCH.min(count - done);
        let mut script = Script::new();
        random::add(&mut script, seed, batch, random::ALL, &mut tally);
        let output = program::run(program, &script.bytes());
        let output = output.map_err(|error| format!("{program}: {error}"))?;
        if let Some(at) = first_difference(&script.answers, &output.stdout) {
            println!("{}", report(&script, &output.stdout, at));
            println!("script    compare cases {seed} {}", batch.min(at as u64 + 1));
            println!("ended     {}", output.status);
            return Ok(false);
        }
        if !output.status.success() {
            return Err(format!("{program} on compare cases {seed} {batch}: {}", output.status));
        }
        done += batch;
        seed = seed.wrapping_add(1);
        progress.show(done);
    }
    println!("{done} cases compared, from seed {first} on: all answers equal\n{tally}");
    Ok(true)
}

/// The case in readable form and as bytes, with both answers.
fn report(script: &Script, printed: &[u8], at: usize) -> String {
    let line = line_at(printed, at);
    let Some(case) = script.cases.get(at) else {
        return format!("all {at} answers are equal, the output does not end after them\n{line}");
    };
    let mut bytes = Vec::new();
    case.write(&mut bytes);
    let bytes = hexadecimal(&bytes);
    let (number, answer) = (at + 1, &script.answers[at]);
    format!(
        "answers differ at case {number}: {case}\n\
         bytes     {bytes}\n\
         original  {answer}\n\
         program   {line}"
    )
}
