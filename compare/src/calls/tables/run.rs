//! Compares a program with the plain device on the scripts of records.

use std::sync::atomic::{AtomicBool, AtomicU64, Ordering};
use std::thread;

use super::edges;
use super::plain::answered;
use super::record::{scripts, Script};
use super::tally::Tally;
use crate::calls::run::shown;
use crate::program::{self, Progress};

/// How many programs run at a time.
const AT_A_TIME: usize = 2;

/// Compares the scripts one after another, up to the first difference.
fn compare_all(
    program: &str,
    scripts: Vec<Script>,
    name: &str,
    tally: &mut Tally,
) -> Result<bool, String> {
    for (at, script) in scripts.into_iter().enumerate() {
        let bytes = script.bytes();
        let answered = answered(script, tally);
        let shown = |at| shown(&answered, at);
        if !program::compare(program, &bytes, &answered.lines, shown, &format!("{name}-{at}"))? {
            return Ok(false);
        }
    }
    Ok(true)
}

/// Compares the scripts of the fixed records and of `count` random ones, each from
/// the next seed. False at the first difference, which it prints.
pub fn run_records(program: &str, count: u64, first: u64) -> Result<(bool, Tally), String> {
    let mut tally = Tally::new();
    for (at, (table, scripts)) in edges::records().into_iter().enumerate() {
        tally.record(&table);
        if !compare_all(program, scripts, &format!("tables-fixed-{at}"), &mut tally)? {
            return Ok((false, tally));
        }
    }
    let (equal, random) = run_random(program, count, first)?;
    tally.merge(&random);
    Ok((equal, tally))
}

/// The same for the random records alone. Two programs run at a time.
fn run_random(program: &str, count: u64, first: u64) -> Result<(bool, Tally), String> {
    let (next, stopped) = (AtomicU64::new(0), AtomicBool::new(false));
    // Each worker takes the next record, until there is none or one has stopped.
    let work = |progress: Option<Progress>| {
        let (mut tally, mut progress) = (Tally::new(), progress);
        while !stopped.load(Ordering::Relaxed) {
            let done = next.fetch_add(1, Ordering::Relaxed);
            if done >= count {
                break;
            }
            let seed = first.wrapping_add(done);
            let (table, scripts) = scripts(seed);
            tally.record(&table);
            let equal = compare_all(program, scripts, &format!("tables-{seed}"), &mut tally);
            if equal != Ok(true) {
                stopped.store(true, Ordering::Relaxed);
                return equal.map(|_| (false, tally));
            }
            progress.iter_mut().for_each(|progress| progress.show(done + 1));
        }
        Ok((true, tally))
    };
    let results: Vec<_> = thread::scope(|scope| {
        let progress = |at| (at == 0).then(|| Progress::new(count, "records"));
        let begin = |at| scope.spawn(move || work(progress(at)));
        let workers: Vec<_> = (0..AT_A_TIME).map(begin).collect();
        workers.into_iter().map(|worker| worker.join().expect("no panic")).collect()
    });
    let (mut equal, mut tally) = (true, Tally::new());
    for result in results {
        let (same, counts) = result?;
        equal &= same;
        tally.merge(&counts);
    }
    Ok((equal, tally))
}
