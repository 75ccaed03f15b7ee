//! Compares the proved drawing core with the original: the commands.

mod argument;
mod calls;
mod clip;
mod codes;
mod counts;
mod crc;
mod overflow;
mod ppm;
mod primitives;
mod program;
mod random;
mod records;
mod rng;
mod span;
mod table;

use std::io::{self, Read, Write};
use std::process::ExitCode;
use std::{env, fs};

const USAGE: &str = "\
usage:
  compare cases SEED COUNT          write a random script to standard output
  compare answers                   print the original's answers to the script on standard input
  compare sample SCRIPT ANSWERS     write the fixed sample and the original's answers to files
  compare run PROGRAM COUNT SEED    compare COUNT random cases with a program that reads scripts
  compare call-script SEED          write a random call script to standard output
  compare call-answers              print the original's lines for the call script on standard input
  compare call-picture              write the final panel of the call script on standard input
  compare script TEXT               write the call script of a drawing to standard output
  compare sample-calls STDIN STDOUT write the fixed call script and the original's lines to files
  compare calls PROGRAM COUNT SEED  compare COUNT random call scripts with a program
  compare handles PROGRAM           compare the call script that goes past the stock handles
  compare line-script SEED          write a random call script of lines to standard output
  compare lines PROGRAM COUNT SEED  compare random call scripts with COUNT lines with a program
  compare table-script SEED         write a random call script with saves and loads to standard output
  compare tables PROGRAM COUNT SEED compare loads and saves of COUNT random records with a program
  compare pictures PROGRAM COUNT SEED
                                    compare the final panels of COUNT random call scripts with a program
  compare records STDIN STDOUT COUNT SEED
                                    write records, COUNT of them random, and their lines to files
  compare record-answers            print the lines for the records on standard input
  compare records-run PROGRAM COUNT SEED
                                    compare COUNT random records with a program
  compare ppm PROGRAM COUNT SEED    compare COUNT random pictures with a program that writes them";

fn main() -> ExitCode {
    let arguments: Vec<String> = env::args().skip(1).collect();
    let arguments: Vec<&str> = arguments.iter().map(String::as_str).collect();
    match command(&arguments) {
        Ok(true) => ExitCode::SUCCESS,
        Ok(false) => ExitCode::FAILURE,
        Err(message) => {
            eprintln!("{message}");
            ExitCode::from(2)
        }
    }
}

/// Runs a command. False if answers differ; an error if it could not compare.
fn command(arguments: &[&str]) -> Result<bool, String> {
    match arguments {
        ["call-script" | "call-answers" | "call-picture" | "script", ..]
        | ["sample-calls" | "calls" | "handles" | "pictures", ..]
        | ["line-script" | "lines" | "table-script" | "tables", ..] => calls_command(arguments),
        ["records" | "record-answers" | "records-run", ..] => records_command(arguments),
        ["ppm", program, count, seed] => ppm::run(program, number(count)?, number(seed)?),
        _ => primitives_command(arguments),
    }
}

fn calls_command(arguments: &[&str]) -> Result<bool, String> {
    match arguments {
        ["call-script", seed] => print(&calls::script(number(seed)?))?,
        ["line-script", seed] => print(&calls::line_script(number(seed)?))?,
        ["table-script", seed] => print(&calls::table_script(number(seed)?))?,
        ["call-answers"] => print(calls::answers(&input()?)?.as_bytes())?,
        ["call-picture"] => print(&calls::picture(&input()?)?)?,
        ["script", text] => {
            let text = fs::read_to_string(text).map_err(|e| format!("{text}: {e}"))?;
            print(&calls::drawing(&text)?)?;
        }
        ["sample-calls", script, lines] => {
            let (sample, text, tally) = calls::sample();
            write(script, &sample)?;
            write(lines, text.as_bytes())?;
            eprintln!("{tally}");
        }
        ["calls", program, count, seed] => {
            return calls::run(program, number(count)?, number(seed)?);
        }
        ["handles", program] => return calls::run_handles(program),
        ["lines", program, count, seed] => {
            return calls::run_lines(program, number(count)?, number(seed)?);
        }
        ["tables", program, count, seed] => {
            return calls::run_tables(program, number(count)?, number(seed)?);
        }
        ["pictures", program, count, seed] => {
            return calls::run_pictures(program, number(count)?, number(seed)?);
        }
        _ => return Err(USAGE.into()),
    }
    Ok(true)
}

fn records_command(arguments: &[&str]) -> Result<bool, String> {
    match arguments {
        ["records", stream, lines, count, seed] => {
            let (records, text, tally) = records::records(number(count)?, number(seed)?)?;
            write(stream, &records)?;
            write(lines, text.as_bytes())?;
            eprintln!("{tally}");
        }
        ["record-answers"] => print(records::answers(&input()?).as_bytes())?,
        ["records-run", program, count, seed] => {
            return records::run(program, number(count)?, number(seed)?);
        }
        _ => return Err(USAGE.into()),
    }
    Ok(true)
}

fn primitives_command(arguments: &[&str]) -> Result<bool, String> {
    match arguments {
        ["cases", seed, count] => {
            let (script, tally) = primitives::cases(number(seed)?, number(count)?);
            print(&script)?;
            eprintln!("{tally}");
        }
        ["answers"] => {
            print(&primitives::answers(&input()?)?)?;
        }
        ["sample", script, answers] => {
            let (sample, tally) = primitives::sample();
            write(script, &sample.bytes())?;
            write(answers, &sample.lines())?;
            eprintln!("{tally}");
        }
        ["run", program, count, seed] => {
            return primitives::run(program, number(count)?, number(seed)?);
        }
        _ => return Err(USAGE.into()),
    }
    Ok(true)
}

fn number(text: &str) -> Result<u64, String> {
    text.parse().map_err(|_| format!("{text} is not a number\n{USAGE}"))
}

fn input() -> Result<Vec<u8>, String> {
    let mut bytes = Vec::new();
    io::stdin().read_to_end(&mut bytes).map_err(|e| format!("standard input: {e}"))?;
    Ok(bytes)
}

fn print(bytes: &[u8]) -> Result<(), String> {
    io::stdout().write_all(bytes).map_err(|e| format!("standard output: {e}"))
}

fn write(path: &str, bytes: &[u8]) -> Result<(), String> {
    fs::write(path, bytes).map_err(|e| format!("{path}: {e}"))
}
