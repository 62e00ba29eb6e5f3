//! Compares the proved library with a second implementation on random cases. docs/DIFFERENTIAL.md tells what is compared, and how.
#![deny(unsafe_code)]

mod answers;
mod cases;
mod compare;
mod files;
mod generate;
mod linked;
mod meaning;
mod mutate;
mod random;
mod show;
mod shrink;
mod survey;
mod tally;

use crate::cases::Case;
use crate::compare::compare;
use crate::tally::Tally;
use std::process::ExitCode;
use std::sync::atomic::{AtomicU64, Ordering};
use std::time::Instant;

/// A thread takes so many cases at a time.
const SHARE: u64 = 256;

/// What is asked for on the command line.
struct Wanted {
    cases: u64,
    seed: u64,
    threads: usize,
    first: u64,
}

/// Reads the arguments: pairs of a name and a number.
fn wanted() -> Result<Wanted, String> {
    let threads = std::thread::available_parallelism().map_or(1, usize::from);
    let mut wanted = Wanted {
        cases: 1_000_000,
        seed: 1,
        threads,
        first: 0,
    };
    let mut arguments = std::env::args().skip(1);
    while let Some(name) = arguments.next() {
        let text = arguments.next().ok_or(format!("{name} wants a number"))?;
        let number: u64 = text
            .parse()
            .map_err(|_| format!("{name} wants a number, not {text}"))?;
        match name.as_str() {
            "--cases" => wanted.cases = number,
            "--seed" => wanted.seed = number,
            "--threads" => wanted.threads = number.max(1) as usize,
            "--first" => wanted.first = number,
            _ => return Err(format!("there is no argument {name}")),
        }
    }
    Ok(wanted)
}

/// Takes shares of the cases until none is left. `found` is the lowest number of a case with a mismatch, so far.
fn work(wanted: &Wanted, next: &AtomicU64, found: &AtomicU64) -> Tally {
    let mut tally = Tally::default();
    let end = wanted.first + wanted.cases;
    loop {
        let from = next.fetch_add(SHARE, Ordering::Relaxed);
        if from >= end.min(found.load(Ordering::Relaxed)) {
            return tally;
        }
        for number in from..(from + SHARE).min(end) {
            let case = generate::case(wanted.seed, number);
            let (library, mismatch) = compare(&case);
            tally.count(&case, &library);
            if mismatch.is_some() {
                found.fetch_min(number, Ordering::Relaxed);
                return tally;
            }
        }
    }
}

/// Prints a case with a mismatch, and a smaller one.
fn report(wanted: &Wanted, number: u64) {
    let case = generate::case(wanted.seed, number);
    println!(
        "mismatch: seed {}, case {number} (alone: --seed {} --first {number} --cases 1)",
        wanted.seed, wanted.seed
    );
    print_case(&case);
    println!("shrunk:");
    print_case(&shrink::shrunk(&case));
}

fn print_case(case: &Case) {
    print!("{case}");
    if let (_, Some(mismatch)) = compare(case) {
        println!("  {}", mismatch.what);
        println!("  library: {}", mismatch.library);
        println!("  second:  {}", mismatch.second);
    }
}

fn main() -> ExitCode {
    let wanted = match wanted() {
        Ok(wanted) => wanted,
        Err(error) => {
            eprintln!("differential: {error}");
            return ExitCode::from(2);
        }
    };
    let started = Instant::now();
    let next = AtomicU64::new(wanted.first);
    let found = AtomicU64::new(u64::MAX);
    let mut tally = Tally::default();
    std::thread::scope(|scope| {
        let threads: Vec<_> = (0..wanted.threads)
            .map(|_| scope.spawn(|| work(&wanted, &next, &found)))
            .collect();
        for thread in threads {
            tally.add(&thread.join().expect("no thread stops before its end"));
        }
    });
    print!("{tally}");
    let seconds = started.elapsed().as_secs_f64();
    match found.into_inner() {
        u64::MAX => {
            println!(
                "differential: {} cases, seed {}, no mismatch, {seconds:.1} s",
                wanted.cases, wanted.seed
            );
            ExitCode::SUCCESS
        }
        number => {
            report(&wanted, number);
            ExitCode::FAILURE
        }
    }
}
