//! Compares a program with the specification's list on streams of records.

use super::edges;
use super::random;
use super::record::{Record, MOST_LENT};
use super::stream::{answered, LONGEST, MAGIC};
use super::tally::Tally;
use crate::program::{self, hexadecimal, Progress};
use crate::rng::Rng;

/// How many records a stream has; with this many it is never too long.
const BATCH: u64 = 64;

/// A stream of the records at the edges and `count` random ones, its lines and its
/// tally; an error if it is too long.
pub fn records(count: u64, seed: u64) -> Result<(Vec<u8>, String, Tally), String> {
    let mut tally = Tally::new();
    let mut rng = Rng::new(seed);
    let random = (0..count).map(|_| random::record(&mut rng, &mut tally));
    let stream = stream(edges::records().into_iter().chain(random));
    if stream.len() > LONGEST {
        return Err(format!("{count} records are over {LONGEST} bytes"));
    }
    let lines = answered(&stream, &mut tally);
    Ok((stream, lines.join("\n") + "\n", tally))
}

/// Compares `count` records, stream by stream, each from the next seed. True if all
/// lines are equal; otherwise it prints the first difference.
pub fn run(program: &str, count: u64, first: u64) -> Result<bool, String> {
    let mut tally = Tally::new();
    if !compare(program, &stream(edges::records()), "records-edges", &mut tally)? {
        return Ok(false);
    }
    let mut progress = Progress::new(count, "records");
    let (mut seed, mut done) = (first, 0);
    while done < count {
        let batch = BATCH.min(count - done);
        let mut rng = Rng::new(seed);
        let mut stream = stream((0..batch).map(|_| random::record(&mut rng, &mut tally)));
        spoil(&mut rng, &mut stream);
        if !compare(program, &stream, &format!("records-{seed}"), &mut tally)? {
            return Ok(false);
        }
        done += batch;
        seed = seed.wrapping_add(1);
        progress.show(done);
    }
    println!(
        "{} records compared, from seed {first} on: all lines equal\n{tally}",
        tally.records()
    );
    Ok(true)
}

fn compare(program: &str, stream: &[u8], name: &str, tally: &mut Tally) -> Result<bool, String> {
    let lines = answered(stream, tally);
    program::compare(program, stream, &lines, |at| shown(stream, at), name)
}

fn stream(records: impl IntoIterator<Item = Record>) -> Vec<u8> {
    let mut stream = MAGIC.to_vec();
    records.into_iter().for_each(|record| record.write(&mut stream));
    stream
}

/// Sometimes makes the stream a bad one, by its first bytes or after its records.
fn spoil(rng: &mut Rng, stream: &mut Vec<u8>) {
    let mut record = random::record(rng, &mut Tally::new());
    let end = stream.len() as u64;
    match rng.below(32) {
        0 => return stream.truncate(rng.below(4) as usize),
        1 => return stream[rng.below(4) as usize] ^= 1,
        2 => record.panel_lent = MOST_LENT + 1,
        3 => record.store_lent = u32::MAX,
        4 => record.stock_dirty = 2,
        5 => record.screen = 2,
        6 => {
            record.write(stream);
            let cut = 1 + rng.below(stream.len() as u64 - end - 1);
            return stream.truncate((end + cut) as usize);
        }
        _ => return,
    }
    record.write(stream);
}

/// The record of a line, as a stream with one record.
fn shown(stream: &[u8], at: usize) -> String {
    let mut rest = stream.strip_prefix(MAGIC).unwrap_or_default();
    let mut bytes = MAGIC.to_vec();
    match (0..=at).map_while(|_| Record::read(&mut rest)).nth(at) {
        Some(record) => record.write(&mut bytes),
        None => return "no record's".into(),
    }
    format!("record {at}\nalone     {}", hexadecimal(&bytes))
}

#[cfg(test)]
mod tests {
    use super::*;

    #[test]
    fn about_half_of_the_records_are_sound() {
        let (stream, text, tally) = records(400, 1).unwrap();
        assert!(stream.len() < 400_000, "{}", stream.len());
        let edges = edges::records().len();
        assert_eq!(text.lines().count(), edges + 400);
        let random = text.lines().skip(edges);
        let unsound = random.filter(|line| line.ends_with(" 9")).count();
        assert!((160..240).contains(&unsound), "{tally}");
        assert!(tally.least() >= 5, "{tally}");
    }

    #[test]
    fn streams_are_spoilt_at_times() {
        let mut rng = Rng::new(1);
        let mut ends = [0; 3];
        for _ in 0..300 {
            let mut stream = stream([edges::base(), edges::base()]);
            spoil(&mut rng, &mut stream);
            let lines = answered(&stream, &mut Tally::new());
            match lines.last().map(String::as_str) {
                Some("bad script") => ends[0] += 1,
                Some("bad record") => ends[1] += 1,
                _ => ends[2] += 1,
            }
        }
        assert!(ends.into_iter().all(|count| count > 5), "{ends:?}");
    }
}
