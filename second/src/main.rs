//! A second program for the split command key, literal and by brute force,
//! to be compared with the first on random records.

mod bench;
mod calls;
mod check;
mod check_calls;
mod check_open;
mod clique;
mod cross;
mod cross_calls;
mod dealer;
mod desk_calls;
mod field;
mod fit;
mod follow;
mod lies;
mod lists;
#[cfg(test)]
mod lists_tests;
#[cfg(test)]
mod locate_tests;
mod make;
mod named;
mod named_unsent;
#[cfg(test)]
mod named_unsent_tests;
mod named_wide;
mod outcome;
mod party;
mod poly;
mod program;
#[cfg(test)]
mod program_tests;
mod published;
mod random_runs;
mod record;
mod rng;
mod scenario;
mod short_inputs;
mod stations;
#[cfg(test)]
mod stations_tests;
mod store;
#[cfg(test)]
mod store_tests;
mod stories;
#[cfg(test)]
mod stories_tests;
mod story_refusals;
#[cfg(test)]
mod story_refusals_tests;
mod story_runs;
#[cfg(test)]
mod story_runs_tests;
mod story_stations;
#[cfg(test)]
mod story_stations_tests;
mod story_tables;
#[cfg(test)]
mod story_tables_tests;
mod story_unsent;
#[cfg(test)]
mod story_unsent_tests;
mod story_wide;
#[cfg(test)]
mod story_wide_tests;
mod story_widths;
mod tables;
#[cfg(test)]
mod tables_tests;
mod tamper_deals;
mod tamper_sent;
#[cfg(test)]
mod tests;
mod unsent;
#[cfg(test)]
mod unsent_tests;
#[cfg(test)]
mod wide_tests;
mod wire;
#[cfg(test)]
mod wire_tests;

use std::fs;
use std::io::{self, Read, Write};
use std::path::Path;
use std::process::ExitCode;

const USAGE: &str = "usage: second run < RECORD
       second cases FILE...
       second answer < CALLS
       second make SEED COUNT DIR
       second store DIR
       second check SEED COUNT
       second calls SEED COUNT
       second stream SEED COUNT
       second stories
       second story-stream
       second stored-stream SEED COUNT
       second cross SEED COUNT BENCH
       second cross-calls SEED COUNT CALLS";

fn main() -> ExitCode {
    let done = arguments().and_then(|args| {
        let words: Vec<&str> = args.iter().map(String::as_str).collect();
        io::stdout().write_all(&command(&words)?).map_err(told)
    });
    match done {
        Ok(()) => ExitCode::SUCCESS,
        Err(what) => {
            eprintln!("{what}");
            ExitCode::FAILURE
        }
    }
}

fn arguments() -> Result<Vec<String>, String> {
    std::env::args_os()
        .skip(1)
        .map(|word| word.into_string().map_err(|_| "not UTF-8".to_string()))
        .collect()
}

fn told(error: io::Error) -> String {
    error.to_string()
}

/// What the command prints, or why it fails.
fn command(words: &[&str]) -> Result<Vec<u8>, String> {
    match *words {
        // The only ones that print no text.
        ["stream", seed, count] => Ok(wire::stream(number(seed)?, size(count)?)),
        ["story-stream"] => Ok(stories::stream()),
        ["stored-stream", seed, count] => Ok(stories::stored_stream(number(seed)?, size(count)?)),
        _ => text_command(words).map(String::into_bytes),
    }
}

fn text_command(words: &[&str]) -> Result<String, String> {
    match *words {
        ["run"] => Ok(bench::run(&input()?)),
        ["cases", ref files @ ..] => cases(files),
        ["answer"] => Ok(wire::answers(&input()?)),
        ["make", seed, count, folder] => {
            make::make_files(number(seed)?, size(count)?, Path::new(folder)).map_err(told)?;
            Ok(String::new())
        }
        ["store", folder] => store::write_files(Path::new(folder)).map_err(told),
        ["check", seed, count] => check(number(seed)?, size(count)?),
        ["calls", seed, count] => Ok(lists::text(number(seed)?, size(count)?)),
        ["stories"] => Ok(stories::text()),
        ["cross", seed, count, program] => {
            cross::cross(number(seed)?, size(count)?, Path::new(program))
        }
        ["cross-calls", seed, count, program] => {
            cross_calls::cross_calls(number(seed)?, size(count)?, Path::new(program))
        }
        _ => Err(USAGE.to_string()),
    }
}

fn number(word: &str) -> Result<u64, String> {
    word.parse().map_err(|_| format!("not a number: {word}"))
}

fn size(word: &str) -> Result<usize, String> {
    Ok(number(word)? as usize)
}

fn input() -> Result<Vec<u8>, String> {
    let mut bytes = Vec::new();
    io::stdin().read_to_end(&mut bytes).map_err(told)?;
    Ok(bytes)
}

/// Each file's name as it was given, then its record's text.
fn cases(files: &[&str]) -> Result<String, String> {
    let mut text = String::new();
    for name in files {
        let bytes = fs::read(name).map_err(|e| format!("{name}: {e}"))?;
        text += &format!("# {name}\n{}", bench::run(&bytes));
    }
    Ok(text)
}

fn check(seed: u64, rounds: usize) -> Result<String, String> {
    let tally = check::check(seed, rounds).map_err(|what| format!("FAILED: {what}"))?;
    let lines = tally
        .iter()
        .map(|(what, times)| format!("{times:8} {what}\n"));
    let table: String = lines.collect();
    Ok(format!("{table}{rounds} rounds, all right\n"))
}
