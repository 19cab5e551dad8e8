//! Compares the library with the model on random calls until the time is up or a difference shows.
//!
//! `fuzz SECONDS [SEED]` makes calls from the seed, which it prints. `fuzz replay` reads calls from standard input, one
//! in a line as a report gives them, and prints what the model makes of each, and where the other differs: the refusal's
//! number, the answer's length, the walks, the answer and the fates. `fuzz calls COUNT SEED` prints calls, for `replay`
//! or for another implementation to answer.
//!
//! `fuzz program PATH [INPUTS] [SEED]` runs the program at the path on inputs instead, 3,000 or as many as asked, and
//! compares what it prints with the model's text.
//!
//! Built without the feature `library`, the twin stands in for the library.

mod compare;
mod program;
mod summary;

use calls::{Call, Random};
use std::path::Path;
use std::process::ExitCode;
use std::time::{Duration, Instant, SystemTime};
use summary::Summary;

const USAGE: &str = "usage: fuzz SECONDS [SEED], or fuzz replay < CALLS, or fuzz calls COUNT SEED,
or fuzz program PATH [INPUTS] [SEED]";

fn main() -> ExitCode {
    let words: Vec<String> = std::env::args().skip(1).collect();
    let words: Vec<&str> = words.iter().map(String::as_str).collect();
    let numbers: Vec<u64> = words.iter().filter_map(|word| word.parse().ok()).collect();
    match (&words[..], &numbers[..]) {
        (["replay"], _) => replay(),
        (["calls", _, _], &[count, seed]) => {
            let mut random = Random::new(seed);
            (0..count).for_each(|_| println!("{}", Call::any(&mut random).line()));
            ExitCode::SUCCESS
        }
        (["program", path, more @ ..], _) => program(Path::new(path), more),
        ([_], &[seconds]) => fuzz(seconds, new_seed()),
        ([_, _], &[seconds, seed]) => fuzz(seconds, seed),
        _ => usage(),
    }
}

fn usage() -> ExitCode {
    eprintln!("{USAGE}");
    ExitCode::from(2)
}

/// A seed from the clock.
fn new_seed() -> u64 {
    let since = SystemTime::now().duration_since(SystemTime::UNIX_EPOCH);
    since.map_or(1, |d| d.as_nanos() as u64)
}

fn program(path: &Path, more: &[&str]) -> ExitCode {
    let numbers: Option<Vec<u64>> = more.iter().map(|word| word.parse().ok()).collect();
    match numbers.as_deref() {
        Some([]) => program::compare(path, 3_000, new_seed()),
        Some(&[inputs]) => program::compare(path, inputs, new_seed()),
        Some(&[inputs, seed]) => program::compare(path, inputs, seed),
        _ => usage(),
    }
}

fn fuzz(seconds: u64, seed: u64) -> ExitCode {
    println!("{} against the model, seed {seed}, {seconds} s", compare::OTHER);
    let mut random = Random::new(seed);
    let mut summary = Summary::default();
    let start = Instant::now();
    let mut told = start;
    while start.elapsed() < Duration::from_secs(seconds) {
        // The clock is asked once in a while: asking it at each call would take as long as a short call.
        for _ in 0..200 {
            let call = Call::any(&mut random);
            let outcome = compare::run(&call, random.bits());
            if let Some(difference) = outcome.difference {
                println!("difference at call {} of seed {seed}: {difference}", summary.calls());
                println!("call: {}", call.line());
                println!("run it again by: echo '<the call>' | fuzz replay");
                return ExitCode::from(1);
            }
            summary.add(&outcome.wanted, &outcome.fates);
        }
        if told.elapsed() > Duration::from_secs(5) {
            told = Instant::now();
            eprintln!("{} s, {} calls, no difference", start.elapsed().as_secs(), summary.calls());
        }
    }
    println!("{summary}no difference");
    ExitCode::SUCCESS
}

fn replay() -> ExitCode {
    let mut status = ExitCode::SUCCESS;
    for line in std::io::stdin().lines() {
        let call = match line.map_err(|e| e.to_string()).and_then(|line| Call::of_line(&line)) {
            Ok(call) => call,
            Err(what) => {
                eprintln!("not a call: {what}");
                return ExitCode::from(2);
            }
        };
        let outcome = compare::run(&call, 0);
        let model::Answer { refused, length, walks } = outcome.wanted;
        println!("{refused} {length} {walks} {} {}", calls::hex(&outcome.answer), calls::hex(&outcome.fates));
        if let Some(difference) = outcome.difference {
            println!("difference: {difference}");
            status = ExitCode::from(1);
        }
    }
    status
}
