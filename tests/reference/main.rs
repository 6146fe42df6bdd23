//! The reference as a program.
//!
//!     reference --self-test        holds it to the rules' examples
//!     reference --desk < input     prints what the desk prints

use reference::{answers, self_test, STACK};
use std::io::{Read, Write};
use std::process::ExitCode;

const EFFORT: answers::Effort = answers::Effort { steps: 20_000_000, tokens: 0 };

fn input() -> std::io::Result<Vec<u8>> {
    let mut bytes = Vec::new();
    std::io::stdin().read_to_end(&mut bytes)?;
    Ok(bytes)
}

fn desk() -> Result<String, String> {
    let input = input().map_err(|error| error.to_string())?;
    Ok(answers::desk_answer(&input, EFFORT).map_or(format!("ANSWER {} 0 0\n", answers::TOO_MUCH), |answer| answers::lines(&answer)))
}

fn print(lines: Result<String, String>) -> ExitCode {
    let said = lines.and_then(|lines| std::io::stdout().write_all(lines.as_bytes()).map_err(|error| error.to_string()));
    match said {
        Ok(()) => ExitCode::SUCCESS,
        Err(why) => {
            eprintln!("reference: {why}");
            ExitCode::from(2)
        }
    }
}

fn run() -> ExitCode {
    let words: Vec<String> = std::env::args().skip(1).collect();
    match words.iter().map(String::as_str).collect::<Vec<_>>()[..] {
        ["--self-test"] if self_test::run() => ExitCode::SUCCESS,
        ["--self-test"] => ExitCode::FAILURE,
        ["--desk"] => print(desk()),
        _ => {
            eprintln!("usage: reference --self-test | --desk");
            ExitCode::from(64)
        }
    }
}

fn main() -> ExitCode {
    let worker = std::thread::Builder::new().stack_size(STACK).spawn(run).expect("a thread with a large stack");
    worker.join().unwrap_or(ExitCode::FAILURE)
}
