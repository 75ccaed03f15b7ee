//! Runs the proved program, compares what it writes, and shows the progress of a
//! long comparison.

use std::borrow::Cow;
use std::io::{self, IsTerminal, Write};
use std::process::{Command, Output, Stdio};
use std::thread;
use std::time::{Duration, Instant};
use std::{env, fs};

/// Runs the program on the script.
pub fn run(program: &str, script: &[u8]) -> io::Result<Output> {
    run_with(program, &[], script)
}

/// Runs the program on the script, with arguments.
fn run_with(program: &str, arguments: &[&str], script: &[u8]) -> io::Result<Output> {
    let mut command = Command::new(program);
    let mut child = command.args(arguments).stdin(Stdio::piped()).stdout(Stdio::piped()).spawn()?;
    let mut stdin = child.stdin.take().expect("standard input is piped");
    // A thread writes while this one reads, so that no full pipe blocks both programs.
    thread::scope(|scope| {
        // If the program stops reading, its output will differ.
        scope.spawn(move || stdin.write_all(script));
        child.wait_with_output()
    })
}

/// The number of the first line that differs from the answer; the number of
/// answers if only the end of the output differs.
pub fn first_difference(answers: &[String], printed: &[u8]) -> Option<usize> {
    let mut lines = printed.split(|&byte| byte == b'\n');
    let differs = |answer: &String| lines.next() != Some(answer.as_bytes());
    let at = answers.iter().position(differs);
    at.or_else(|| (!lines.eq([b""])).then_some(answers.len()))
}

/// A line of the output, or 'nothing'.
pub fn line_at(printed: &[u8], at: usize) -> Cow<'_, str> {
    let line = printed.split(|&byte| byte == b'\n').nth(at);
    let line = line.filter(|line| !line.is_empty());
    line.map_or("nothing".into(), String::from_utf8_lossy)
}

/// Compares what the program prints for a script with the expected lines, and
/// prints the first that differs. It keeps a script on which the program fails.
pub fn compare(
    program: &str,
    script: &[u8],
    lines: &[String],
    shown: impl Fn(usize) -> String,
    name: &str,
) -> Result<bool, String> {
    let difference = |printed: &[u8]| {
        let at = first_difference(lines, printed)?;
        Some(difference(lines, printed, at, shown))
    };
    is_equal(program, &[], script, difference, name)
}

/// Compares what the program, run with arguments, writes for a script with the
/// expected bytes, and prints the first that differs. It keeps a script on which
/// the program fails.
pub fn compare_bytes(
    program: &str,
    arguments: &[&str],
    script: &[u8],
    due: &[u8],
    name: &str,
) -> Result<bool, String> {
    is_equal(program, arguments, script, |written| byte_difference(due, written), name)
}

/// Whether the program writes the expected output for a script. If not, it prints
/// the difference and keeps the script.
fn is_equal(
    program: &str,
    arguments: &[&str],
    script: &[u8],
    difference: impl FnOnce(&[u8]) -> Option<String>,
    name: &str,
) -> Result<bool, String> {
    let output = run_with(program, arguments, script);
    let output = output.map_err(|error| format!("{program}: {error}"))?;
    if let Some(difference) = difference(&output.stdout) {
        println!("{difference}");
        println!("ended     {}", output.status);
        println!("script    {}", kept(script, name)?);
        return Ok(false);
    }
    if !output.status.success() {
        return Err(format!("{program} on {}: {}", kept(script, name)?, output.status));
    }
    Ok(true)
}

/// The line that differs, with the call or record that it belongs to.
fn difference(
    lines: &[String],
    printed: &[u8],
    at: usize,
    shown: impl Fn(usize) -> String,
) -> String {
    let line = line_at(printed, at);
    let Some(due) = lines.get(at) else {
        return format!("all {at} lines are equal, the output does not end after them\n{line}");
    };
    let (number, shown) = (at + 1, shown(at));
    format!("lines differ at line {number}: {shown}\nexpected  {due}\nprogram   {line}")
}

/// Where the output first differs from the expected bytes; `None` if it does not.
pub fn byte_difference(due: &[u8], written: &[u8]) -> Option<String> {
    let at = written.iter().zip(due).take_while(|(a, b)| a == b).count();
    let (due, written) = (due.len(), written.len());
    (at < due.max(written)).then(|| format!("differs at byte {at} of {due}, {written} written"))
}

/// Writes the script to the folder for temporary files, as bytes and in
/// hexadecimal. Returns both paths.
fn kept(script: &[u8], name: &str) -> Result<String, String> {
    let path = env::temp_dir().join(format!("compare-{name}.script"));
    let text = path.with_extension("hex");
    let written = fs::write(&path, script);
    let written = written.and_then(|()| fs::write(&text, hexadecimal(script) + "\n"));
    written.map_err(|error| format!("{}: {error}", path.display()))?;
    Ok(format!("{} and {}", path.display(), text.display()))
}

pub fn hexadecimal(bytes: &[u8]) -> String {
    bytes.iter().map(|byte| format!("{byte:02x}")).collect()
}

/// A progress line on standard error: updated in place on a terminal, otherwise a
/// new line about every five seconds.
pub struct Progress {
    total: u64,
    what: &'static str,
    shown: Instant,
}

impl Progress {
    pub fn new(total: u64, what: &'static str) -> Self {
        let shown = Instant::now();
        Self { total, what, shown }
    }

    pub fn show(&mut self, done: u64) {
        let Self { total, what, .. } = self;
        if io::stderr().is_terminal() {
            // The next output overwrites this line.
            eprint!("{done} of {total} {what}\r");
        } else if self.shown.elapsed() >= Duration::from_secs(5) {
            eprintln!("{done} of {total} {what}");
            self.shown = Instant::now();
        }
    }
}

#[cfg(test)]
mod tests {
    use super::*;

    #[test]
    fn differences_are_found() {
        let answers = ["01 c618".to_string(), "02 848284".to_string()];
        let at = |printed: &str| first_difference(&answers, printed.as_bytes());
        assert_eq!(at("01 c618\n02 848284\n"), None);
        assert_eq!(at("01 c618\n02 848285\n"), Some(1));
        assert_eq!(at("01 c618\n"), Some(1));
        assert_eq!(at(""), Some(0));
        assert_eq!(at("01 c618\n02 848284"), Some(2));
        assert_eq!(at("01 c618\n02 848284\n\n"), Some(2));
    }

    #[test]
    fn a_difference_is_shown() {
        let lines = ["open 0".to_string(), "03 0 dead1000".to_string()];
        let shown = |at| format!("call {at}");
        let at = |printed: &str| {
            let at = first_difference(&lines, printed.as_bytes()).expect("they differ");
            difference(&lines, printed.as_bytes(), at, shown)
        };
        assert_eq!(
            at("open 0\n03 5 00000000\n"),
            "lines differ at line 2: call 1\nexpected  03 0 dead1000\nprogram   03 5 00000000"
        );
        assert!(at("open 0\n").ends_with("\nprogram   nothing"));
        assert!(at("open 0\n03 0 dead1000\ncrc\n").starts_with("all 2 lines are equal, "));
    }

    #[test]
    fn bytes_differ_at_a_byte_or_at_an_end() {
        assert_eq!(byte_difference(b"P6\n", b"P6\n"), None);
        for (written, difference) in [
            ("P5\n", "differs at byte 1 of 3, 3 written"),
            ("P6", "differs at byte 2 of 3, 2 written"),
            ("P6\n\n", "differs at byte 3 of 3, 4 written"),
        ] {
            assert_eq!(byte_difference(b"P6\n", written.as_bytes()).as_deref(), Some(difference));
        }
    }
}
