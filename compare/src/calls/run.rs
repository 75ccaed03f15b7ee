//! Compares a program with the original on call scripts.

use super::drawing::drawing;
use super::edges;
use super::handles::handles;
use super::lines;
use super::random;
use super::sample::sample;
use super::script::{answered, picture, Answered, Performed};
use super::step::Step;
use super::tables;
use super::tally::Tally;
use crate::program::{self, hexadecimal, Progress};

/// How many bytes of a call are shown.
const SHOWN: usize = 512;
/// The repository's drawings by their names.
const DRAWINGS: [(&str, &str); 2] = [
    ("service", include_str!("../../../drawings/service.txt")),
    ("discharge", include_str!("../../../drawings/discharge.txt")),
];

/// A function that makes the random script of a seed.
type Scripts = fn(u64, &mut Tally) -> Vec<u8>;

/// Compares the scripts at the edges and `count` random ones, each from the next
/// seed. True if all lines are equal; otherwise it prints the first difference.
pub fn run(program: &str, count: u64, first: u64) -> Result<bool, String> {
    let mut tally = Tally::new();
    let edges = edges::scripts();
    if !compare_all(program, &edges, "edge", &mut tally)? {
        return Ok(false);
    }
    if !compare_seeds(program, count, first, ("calls", random::script), &mut tally)? {
        return Ok(false);
    }
    let (edges, calls) = (edges.len(), tally.calls());
    println!("{edges} scripts at the edges, {count} random ones from seed {first} on");
    println!("{calls} calls compared: all lines equal\n{tally}");
    Ok(true)
}

/// Compares the fixed scripts of lines, and random ones, each from the next seed,
/// until they have `count` lines. True if all lines that are printed are equal;
/// otherwise it prints the first difference.
pub fn run_lines(program: &str, count: u64, first: u64) -> Result<bool, String> {
    let mut tally = Tally::new();
    let edges = lines::edges();
    if !compare_all(program, &edges, "lines-edge", &mut tally)? {
        return Ok(false);
    }
    let (fixed, mut scripts) = (tally.lines().lines(), 0);
    let mut progress = Progress::new(count, "lines");
    while tally.lines().lines() - fixed < count {
        let seed = first.wrapping_add(scripts);
        let script = lines::script(seed, &mut tally);
        if !compare(program, &script, &format!("lines-{seed}"), &mut tally)? {
            return Ok(false);
        }
        scripts += 1;
        progress.show(tally.lines().lines() - fixed);
    }
    let (edges, calls) = (edges.len(), tally.calls());
    println!(
        "{edges} fixed scripts with {fixed} lines, {scripts} random ones from seed {first} on"
    );
    println!("{calls} calls compared: all lines equal\n{tally}");
    Ok(true)
}

/// Random scripts of calls with saves and loads between them: one for so many
/// records.
const RECORDS_PER_SCRIPT: u64 = 20;

/// Compares the fixed scripts of loads and saves, the scripts of `count` random
/// records, each from the next seed, and random scripts of calls with saves and
/// loads. True if all lines are equal; otherwise it prints the first difference.
pub fn run_tables(program: &str, count: u64, first: u64) -> Result<bool, String> {
    let mut tally = Tally::new();
    if !compare_all(program, &tables::edges(), "tables-edge", &mut tally)? {
        return Ok(false);
    }
    let (equal, records) = tables::run_records(program, count, first)?;
    if !equal {
        return Ok(false);
    }
    let scripts = count.div_ceil(RECORDS_PER_SCRIPT);
    if !compare_seeds(program, scripts, first, ("mixed", tables::script), &mut tally)? {
        return Ok(false);
    }
    println!("{} records, {count} of them random from seed {first} on", records.records());
    println!("{} calls compared: all lines equal\n{records}", records.calls());
    println!("fixed scripts, and {scripts} random ones of calls with saves and loads");
    println!("{} calls compared: all lines equal\n{tally}", tally.calls());
    Ok(true)
}

/// Compares the script whose handles pass the stock ones.
pub fn run_handles(program: &str) -> Result<bool, String> {
    let mut tally = Tally::new();
    let equal = compare(program, &handles(), "handles", &mut tally)?;
    if equal {
        println!("{} calls compared: all lines equal\n{tally}", tally.calls());
    }
    Ok(equal)
}

/// Compares the pictures of the fixed sample, of the repository's drawings and of
/// `count` random scripts, every fourth of them one of lines, each from the next
/// seed. True if every byte is equal; otherwise it prints the first difference.
pub fn run_pictures(program: &str, count: u64, first: u64) -> Result<bool, String> {
    let mut fixed = vec![("sample".to_string(), sample().0)];
    for (name, text) in DRAWINGS {
        let script = drawing(text).map_err(|error| format!("drawings/{name}.txt: {error}"))?;
        fixed.push((name.into(), script));
    }
    let mut progress = Progress::new(fixed.len() as u64 + count, "scripts");
    let random = (0..count).map(|done| {
        let seed = first.wrapping_add(done);
        let (name, scripts): (_, Scripts) =
            if done % 4 == 3 { ("lines", lines::script) } else { ("calls", random::script) };
        (format!("{name}-{seed}"), scripts(seed, &mut Tally::new()))
    });
    let (mut pictures, mut without) = (0, 0);
    for (name, script) in fixed.into_iter().chain(random) {
        let due = picture(&script)?;
        if !program::compare_bytes(program, &["ppm"], &script, &due, &name)? {
            return Ok(false);
        }
        if due.starts_with(b"P6\n") {
            pictures += 1;
        } else {
            without += 1;
        }
        progress.show(pictures + without);
    }
    println!("sample, drawings and {count} random scripts from seed {first} on");
    println!("{pictures} pictures compared, {without} scripts without one: every byte equal");
    Ok(true)
}

/// Compares the scripts one after another, up to the first difference.
fn compare_all(
    program: &str,
    scripts: &[Vec<u8>],
    name: &str,
    tally: &mut Tally,
) -> Result<bool, String> {
    for (at, script) in scripts.iter().enumerate() {
        if !compare(program, script, &format!("{name}-{at}"), tally)? {
            return Ok(false);
        }
    }
    Ok(true)
}

/// Compares `count` random scripts, each from the next seed, up to the first
/// difference.
fn compare_seeds(
    program: &str,
    count: u64,
    first: u64,
    (name, scripts): (&str, Scripts),
    tally: &mut Tally,
) -> Result<bool, String> {
    let mut progress = Progress::new(count, "scripts");
    for done in 0..count {
        let seed = first.wrapping_add(done);
        let script = scripts(seed, tally);
        if !compare(program, &script, &format!("{name}-{seed}"), tally)? {
            return Ok(false);
        }
        progress.show(done + 1);
    }
    Ok(true)
}

fn compare(program: &str, script: &[u8], name: &str, tally: &mut Tally) -> Result<bool, String> {
    let answered = answered(script, tally)?;
    program::compare(program, script, &answered.lines, |at| shown(&answered, at), name)
}

/// A description of what a line belongs to. If state lines differ, it lists the
/// calls since the last equal state.
pub fn shown(answered: &Answered, at: usize) -> String {
    let steps = &answered.steps;
    let index = steps.iter().position(|done| done.lines.contains(&at));
    match index.map(|index| (&steps[index].step, &steps[..index])) {
        Some((Step::Call(call), _)) => format!("{call}\nbytes     {}", begin(&call.bytes())),
        Some((Step::Look, before)) => {
            let looks = before.iter().filter(|done| done.step == Step::Look).count();
            format!("look {}, {}", looks + 1, since_look(before))
        }
        None if at == 0 => "open".into(),
        None => format!("the end, {}", since_look(steps)),
    }
}

/// The calls after the last look.
fn since_look(steps: &[Performed]) -> String {
    let calls = steps.iter().rev().map_while(|done| match &done.step {
        Step::Call(call) => Some(format!("\n          {call}")),
        Step::Look => None,
    });
    let mut calls: Vec<String> = calls.collect();
    calls.reverse();
    format!("calls since the last look: {}{}", calls.len(), calls.concat())
}

/// The bytes in hexadecimal; only the first ones if there are many.
fn begin(bytes: &[u8]) -> String {
    match bytes.get(..SHOWN) {
        Some(first) => format!("{}..", hexadecimal(first)),
        None => hexadecimal(bytes),
    }
}

#[cfg(test)]
mod tests {
    use super::*;
    use crate::calls::script::Header;
    use crate::calls::step::LOOK;

    #[test]
    fn the_drawings_have_pictures() {
        for ((_, text), magic) in DRAWINGS.into_iter().zip([b"GDI1", b"GDI2"]) {
            let script = drawing(text).expect("every line is good");
            assert!(script.starts_with(magic));
            assert!(picture(&script).unwrap().starts_with(b"P6\n240 320\n255\n"));
        }
    }

    #[test]
    fn a_line_is_told_by_its_step() {
        let header = Header { panel_len: 8, store_len: 2, width: 2, height: 2, fill: 0 };
        let steps = [0x01, LOOK, LOOK, 0x01, 0x01, LOOK, 0x01];
        let script = [header.bytes(), steps.to_vec()].concat();
        let answered = answered(&script, &mut Tally::new()).unwrap();
        let lines: Vec<String> = (0..answered.lines.len()).map(|at| shown(&answered, at)).collect();
        let call = "create memory DC";
        let (one, two) = (format!("\n          {call}"), format!("\n          {call}").repeat(2));
        let expected = [
            (1, "open".to_string()),
            (1, format!("{call}\nbytes     01")),
            (4, format!("look 1, calls since the last look: 1{one}")),
            (4, "look 2, calls since the last look: 0".into()),
            (2, format!("{call}\nbytes     01")),
            (6, format!("look 3, calls since the last look: 2{two}")),
            (1, format!("{call}\nbytes     01")),
            (7, format!("the end, calls since the last look: 1{one}")),
        ];
        let expected = expected.into_iter().flat_map(|(count, line)| vec![line; count]);
        assert_eq!(lines, expected.collect::<Vec<_>>());
    }
}
