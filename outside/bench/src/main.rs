//! Times the library beside its twin and FLINT, in one run, and prints the ratios.
//!
//! `bench` compares results and then times. `bench count CASE CALLS` makes so many calls of a case, each implementation
//! in a function of its own, for an instruction counter to look at; `bench cases` lists the cases.

mod agree;
mod count;
mod flint;
mod library;
mod sheets;
mod systems;
mod timing;

use std::process::ExitCode;

fn main() -> ExitCode {
    let words: Vec<String> = std::env::args().skip(1).collect();
    let words: Vec<&str> = words.iter().map(String::as_str).collect();
    match words[..] {
        [] => match agree::check() {
            Ok(what) => {
                println!("{what}\n");
                timing::tidying();
                timing::calls();
                timing::growth();
                ExitCode::SUCCESS
            }
            Err(what) => {
                println!("{what}");
                ExitCode::from(1)
            }
        },
        ["cases"] => {
            count::CASES.iter().for_each(|case| println!("{case}"));
            ExitCode::SUCCESS
        }
        ["count", case, calls] if count::CASES.contains(&case) && calls.parse::<usize>().is_ok() => {
            count::run(case, calls.parse().unwrap_or(0));
            ExitCode::SUCCESS
        }
        _ => {
            eprintln!("usage: bench, or bench count CASE CALLS, or bench cases");
            ExitCode::from(2)
        }
    }
}
