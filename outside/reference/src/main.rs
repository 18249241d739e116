//! reference calls                     the calls that are stored
//! reference random N SEED             N random calls
//! reference reply                     the replies to the calls on standard input
//! reference tablecheck                what the program tablecheck prints for this standard input
//! reference weekcount BATCH VOICE..   what the program weekcount prints for these files
//! reference tableback COLUMNS         what the program tableback writes for this standard input
//! reference batch N [SEED]            a batch of N notices of 32 facts each, the values random

use reference::random::Random;
use reference::untable::{untable, LONGEST_TABLE_BACK};
use reference::{calls, listed, listed_back, listed_defaults, random, tablecheck, valid, weekcount};
use std::fs;
use std::io::{self, BufRead, BufWriter, Read, Write};
use std::process::ExitCode;

/// The stored calls: those that are named, then this many random ones, then this many random weeks; behind them those that are
/// named of tables with a default, then this many random ones; and so for tables that are given back.
const STORED: usize = 6000;
const STORED_WEEKS: usize = 500;
const STORED_DEFAULTS: usize = 1000;
const STORED_BACK: usize = 600;
const STORED_SEED: u64 = 1;

fn stored_calls() -> impl Iterator<Item = String> {
    let drawn = |wanted: usize, draw: fn(&mut Random) -> String| {
        let mut random = Random::new(STORED_SEED);
        (0..wanted).map(move |_| draw(&mut random))
    };
    let before_defaults = listed::calls().into_iter().chain(drawn(STORED, random::call)).chain(drawn(STORED_WEEKS, random::week));
    let before_back = before_defaults.chain(listed_defaults::calls()).chain(drawn(STORED_DEFAULTS, random::defaulted));
    before_back.chain(listed_back::calls()).chain(drawn(STORED_BACK, random::back))
}

/// One in ten is a week, two in ten are about a table with a default, two in ten ask for a table back.
fn random_calls(wanted: usize, seed: u64) -> impl Iterator<Item = String> {
    let mut random = Random::new(seed);
    (0..wanted).map(move |at| match at % 10 {
        9 => random::week(&mut random),
        5 | 6 => random::back(&mut random),
        7 | 8 => random::defaulted(&mut random),
        _ => random::call(&mut random),
    })
}

fn main() -> ExitCode {
    let arguments: Vec<String> = std::env::args().skip(1).collect();
    let words: Vec<&str> = arguments.iter().map(String::as_str).collect();
    let done = match words[..] {
        ["calls"] => print(stored_calls()),
        ["random", wanted, seed] => match (wanted.parse(), seed.parse()) {
            (Ok(wanted), Ok(seed)) => print(random_calls(wanted, seed)),
            _ => return usage(),
        },
        ["reply"] => print(io::stdin().lock().lines().map(|line| calls::reply(&line.expect("a line of text")))),
        ["tablecheck"] => print_tablecheck(),
        ["weekcount", batch, ref voices @ ..] if !voices.is_empty() => print_weekcount(batch, voices),
        ["tableback", columns] => match columns.parse() {
            Ok(columns) => write_table(columns),
            Err(_) => return usage(),
        },
        ["batch", wanted, ref seed @ ..] if seed.len() <= 1 => match (wanted.parse(), seed.first().unwrap_or(&"1").parse()) {
            (Ok(wanted), Ok(seed)) => write_batch(wanted, seed),
            _ => return usage(),
        },
        _ => return usage(),
    };
    match done {
        Ok(()) => ExitCode::SUCCESS,
        Err(error) => {
            eprintln!("reference: {error}");
            ExitCode::FAILURE
        }
    }
}

fn usage() -> ExitCode {
    eprintln!(
        "reference calls | random N SEED | reply | tablecheck | weekcount BATCH VOICE.. | tableback COLUMNS | batch N [SEED]"
    );
    ExitCode::from(2)
}

fn print(lines: impl Iterator<Item = String>) -> io::Result<()> {
    let mut out = BufWriter::new(io::stdout().lock());
    for line in lines {
        writeln!(out, "{line}")?;
    }
    out.flush()
}

fn print_tablecheck() -> io::Result<()> {
    let mut input = Vec::new();
    io::stdin().lock().read_to_end(&mut input)?;
    io::stdout().lock().write_all(tablecheck::text(&input).as_bytes())
}

fn print_weekcount(batch: &str, voices: &[&str]) -> io::Result<()> {
    let batch = fs::read(batch)?;
    let named = |name: &&str| Ok((name.to_string(), fs::read(name)?));
    let voices = voices.iter().map(named).collect::<io::Result<Vec<_>>>()?;
    io::stdout().lock().write_all(weekcount::text(&batch, &voices).as_bytes())
}

/// A refusal is a line on standard error.
fn write_table(columns: u64) -> io::Result<()> {
    let mut nodes = Vec::new();
    io::stdin().lock().read_to_end(&mut nodes)?;
    let mut table = [0; LONGEST_TABLE_BACK];
    match untable(&nodes, columns, &mut table) {
        Ok(length) => io::stdout().lock().write_all(&table[..length]),
        Err(refusal) => writeln!(io::stderr(), "refused {} {} {}", refusal.number, refusal.place, refusal.second),
    }
}

fn write_batch(wanted: usize, seed: u64) -> io::Result<()> {
    let mut random = Random::new(seed);
    let mut out = BufWriter::new(io::stdout().lock());
    for _ in 0..wanted {
        let facts = valid::rising(&mut random, 32);
        out.write_all(&valid::field(17, &valid::notice_bytes(&facts)))?;
    }
    out.flush()
}
