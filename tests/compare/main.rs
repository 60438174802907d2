//! Compares the library, behind its bridge, with the independent reader, on seeded inputs.
//!
//! compare TESTS BUILT [--seed N] [--payloads N] [--quick]
//!
//! TESTS is the folder of tests/x86, BUILT that of the programs bridge and reader. --quick takes fewer
//! payloads, and then puts each broken variant in the place of the reader: the comparison must see it.

mod bit_writer;
mod calls;
mod comparison;
mod fields;
#[path = "../independent/mod.rs"]
mod independent;
mod inputs;
mod messages;
mod payloads;
mod processes;
mod random;
mod report;
mod request;
mod tally;
mod variants;

use comparison::compare;
use std::path::PathBuf;
use std::process::ExitCode;
use std::{env, io};

const LONG_RUN: u64 = 1_000_000;
const QUICK_RUN: u64 = 60_000;

pub struct Options {
    tests: PathBuf,
    built: PathBuf,
    seed: u64,
    payloads: u64,
    quick: bool,
}

fn main() -> ExitCode {
    let Some(options) = options(env::args().skip(1)) else {
        eprintln!("compare: expected TESTS BUILT [--seed N] [--payloads N] [--quick]");
        return ExitCode::from(2);
    };
    match run(&options) {
        Ok(true) => ExitCode::SUCCESS,
        Ok(false) => ExitCode::FAILURE,
        Err(error) => {
            eprintln!("compare: {error}");
            ExitCode::from(2)
        }
    }
}

fn options(mut words: impl Iterator<Item = String>) -> Option<Options> {
    let mut options = Options {
        tests: words.next()?.into(),
        built: words.next()?.into(),
        seed: 1,
        payloads: LONG_RUN,
        quick: false,
    };
    while let Some(word) = words.next() {
        match word.as_str() {
            "--seed" => options.seed = words.next()?.parse().ok()?,
            "--payloads" => options.payloads = words.next()?.parse().ok()?,
            "--quick" => {
                options.quick = true;
                options.payloads = QUICK_RUN;
            }
            _ => return None,
        }
    }
    Some(options)
}

/// Whether all was as it must be.
fn run(options: &Options) -> io::Result<bool> {
    let comparison = compare(options, &options.built.join("reader"))?;
    print!("{}", comparison.tally);
    if let Some(difference) = comparison.difference {
        print!("seed {}, {difference}", options.seed);
        return Ok(false);
    }
    let missing = comparison.tally.missing();
    if !missing.is_empty() {
        println!("compare: never reached: {}", missing.join(", "));
        return Ok(false);
    }
    if options.quick && !variants::all_are_caught(options)? {
        return Ok(false);
    }
    println!(
        "compare: {} payloads, {} slot calls, no difference",
        grouped(comparison.tally.payloads),
        grouped(comparison.tally.calls)
    );
    Ok(true)
}

/// A count with its thousands apart.
fn grouped(count: u64) -> String {
    let digits = count.to_string();
    let mut grouped = String::new();
    for (place, digit) in digits.chars().enumerate() {
        if place > 0 && (digits.len() - place) % 3 == 0 {
            grouped.push(',');
        }
        grouped.push(digit);
    }
    grouped
}
