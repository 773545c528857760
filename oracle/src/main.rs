//! The command: writes scripts and checks them.

use std::fs;
use std::io::{self, Write};
use std::process::ExitCode;

use oracle::board_calls::{self, board_calls};
use oracle::framing::{read, write};
use oracle::generator::generate;
use oracle::rules::DOCUMENT_01;
use oracle::script::{Record, judge, spoil};
use oracle::the_board::REQUEST_W7;
use oracle::the_year::REQUEST_W9;
use oracle::year_calls::{self, year_calls};

const USAGE: &str = "usage: oracle script|year|board [--seed N] [--calls M] [--out FILE] [--spoil 0|1] | oracle check FILE | oracle rollover";

/// From this size on, a script in which something never comes up is a failure.
const FULL_SIZE: usize = 8_000;

fn main() -> ExitCode {
    let arguments: Vec<String> = std::env::args().skip(1).collect();
    let words: Vec<&str> = arguments.iter().map(String::as_str).collect();
    let done = match words.as_slice() {
        ["script", options @ ..] => Options::read(options).map(|o| script(&o)),
        ["year", options @ ..] => Options::read(options).map(|o| year(&o)),
        ["board", options @ ..] => Options::read(options).map(|o| board(&o)),
        ["check", file] => Ok(check(file)),
        ["rollover"] => {
            print!("{}", oracle::rollover::picture(1));
            Ok(Ok(()))
        }
        _ => Err(USAGE.to_string()),
    };
    match done {
        Ok(Ok(())) => ExitCode::SUCCESS,
        Ok(Err(line)) => {
            eprintln!("oracle: {line}");
            ExitCode::FAILURE
        }
        Err(line) => {
            eprintln!("oracle: {line}");
            ExitCode::from(2)
        }
    }
}

struct Options {
    seed: u64,
    calls: usize,
    out: Option<String>,
    spoil: usize,
}

impl Options {
    fn read(words: &[&str]) -> Result<Options, String> {
        let mut options = Options {
            seed: 1,
            calls: FULL_SIZE,
            out: None,
            spoil: 0,
        };
        for pair in words.chunks(2) {
            let &[option, value] = pair else {
                return Err(USAGE.to_string());
            };
            let no_number = |_| format!("{option} takes a number, not {value}");
            match option {
                "--seed" => options.seed = value.parse().map_err(no_number)?,
                "--calls" => options.calls = value.parse().map_err(no_number)?,
                "--spoil" => options.spoil = value.parse().map_err(no_number)?,
                "--out" => options.out = Some(value.to_string()),
                _ => return Err(USAGE.to_string()),
            }
        }
        Ok(options)
    }
}

fn script(options: &Options) -> Result<(), String> {
    let mut recorder = generate(options.seed, options.calls);
    if options.spoil != 0 {
        eprintln!("{} calls are spoiled", spoil(&mut recorder.records));
    }
    put(options, &write(&recorder.records))?;
    eprint!("{}", recorder.report);
    all_came_up(options, recorder.report.missing())
}

/// A script of the report's calls (W9).
fn year(options: &Options) -> Result<(), String> {
    let mut made = year_calls(&REQUEST_W9, options.seed, options.calls);
    if options.spoil != 0 {
        let spoiled = year_calls::spoil(&mut made.calls);
        eprintln!("{spoiled} calls are spoiled");
    }
    put(options, &year_calls::script(&made.calls))?;
    for (what, times) in &made.came_up {
        eprintln!("{times:7} {what}");
    }
    all_came_up(options, made.missing())
}

/// A script of the board's calls (W7).
fn board(options: &Options) -> Result<(), String> {
    let mut made = board_calls(&REQUEST_W7, options.seed, options.calls);
    if options.spoil != 0 {
        let spoiled = board_calls::spoil(&mut made.calls);
        eprintln!("{spoiled} calls are spoiled");
    }
    put(options, &board_calls::script(&made.calls))?;
    for (what, times) in &made.came.0 {
        eprintln!("{times:7} {what}");
    }
    all_came_up(options, made.came.missing())
}

fn put(options: &Options, bytes: &[u8]) -> Result<(), String> {
    let written = match &options.out {
        Some(file) => fs::write(file, bytes),
        None => io::stdout().write_all(bytes),
    };
    written.map_err(|error| format!("the script can not be written: {error}"))
}

fn all_came_up<What: AsRef<str>>(options: &Options, missing: Vec<What>) -> Result<(), String> {
    if options.calls < FULL_SIZE || missing.is_empty() {
        return Ok(());
    }
    let missing: Vec<&str> = missing.iter().map(AsRef::as_ref).collect();
    Err(format!("never came up: {}", missing.join(", ")))
}

/// Reads a script and performs it with the oracle.
fn check(file: &str) -> Result<(), String> {
    let bytes = fs::read(file).map_err(|error| format!("{file}: {error}"))?;
    let records = read(&bytes).map_err(|fault| format!("{file}: {fault}"))?;
    let mut table = Vec::new();
    let mut calls = 0;
    for (place, record) in records.iter().enumerate() {
        let judged = judge(&mut DOCUMENT_01.clone(), record, &mut table);
        let differs = |what| format!("{file}: record {}: differs in {what}", place + 2);
        judged.map_err(differs)?;
        calls += usize::from(matches!(record, Record::Call(..)));
    }
    eprintln!("{calls} calls, all as expected");
    Ok(())
}
