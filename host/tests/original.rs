//! Random call scripts print the same lines as the original, and scripts with lines
//! and moves, loads and saves the same as the comparison's own rules. `SCRIPTS=3000 cargo test
//! --offline --test original` compares more.

mod script;

use std::io::Write;
use std::path::PathBuf;
use std::process::{Command, Output, Stdio};

use script::{assert_lines, path, printed};

/// How many scripts to compare.
fn scripts() -> u64 {
    std::env::var("SCRIPTS").map_or(120, |number| number.parse().expect("SCRIPTS is a number"))
}

/// The comparison's program; it is built if there is none.
fn compare() -> PathBuf {
    let program = path("compare/target/release/compare");
    if !program.exists() {
        let mut cargo = Command::new(env!("CARGO"));
        cargo.args(["build", "--quiet", "--offline", "--release"]).current_dir(path("compare"));
        assert!(cargo.status().expect("cargo").success());
    }
    program
}

fn run(arguments: &[&str], input: &[u8]) -> Output {
    let mut program = Command::new(compare())
        .args(arguments)
        .stdin(Stdio::piped())
        .stdout(Stdio::piped())
        .stderr(Stdio::piped())
        .spawn()
        .expect("the comparison");
    // The program may end before it has read everything.
    _ = program.stdin.take().expect("its input").write_all(input);
    program.wait_with_output().expect("its output")
}

/// Compares this many scripts that the command makes, each from the next seed.
fn compare_scripts(command: &str, scripts: u64) {
    let (mut all, mut dropped) = (0, 0);
    for seed in 1..=scripts {
        let made = run(&[command, &seed.to_string()], &[]);
        assert!(made.status.success(), "{command}: {}", String::from_utf8_lossy(&made.stderr));
        let script = made.stdout;
        let answers = run(&["call-answers"], &script);
        if !answers.status.success() {
            let message = String::from_utf8_lossy(&answers.stderr);
            assert!(message.contains("overflow"), "seed {seed}: {message}");
            dropped += 1;
            continue;
        }
        let lines = String::from_utf8(answers.stdout).expect("lines");
        let (ours, calls) = printed(&script);
        assert_lines(&ours, &lines, &format!("{command}, seed {seed}"));
        all += calls;
    }
    println!("{all} calls of {} scripts, {dropped} dropped", scripts - dropped);
    assert!(dropped < scripts / 2 && all as u64 > 80 * scripts);
}

#[test]
fn random_scripts() {
    compare_scripts("call-script", scripts());
}

#[test]
fn random_lines() {
    compare_scripts("line-script", scripts().div_ceil(4));
}

#[test]
fn random_tables() {
    compare_scripts("table-script", scripts().div_ceil(4));
}
