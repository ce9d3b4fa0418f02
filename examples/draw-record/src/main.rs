//! draw-record: draws a record. Reads it from standard input and writes a picture, SVG, to standard output.
//! Verdict, shares, refusals and the happy set are what the proved library answers. Read from the record itself is what no
//! function of it gives: who confirms whom, what was published, and who sent another pair than its deal gives.

mod conduct;
mod deal;
mod doumbaht;
mod facts;
mod label;
mod legend;
mod lines;
mod picture;
mod record;
mod ring;
mod svg;

use facts::Reading;
use record::Record;
use std::io::{self, Read, Write};
use std::process::ExitCode;

/// The picture of a record's bytes.
fn picture_of(bytes: &[u8]) -> Option<String> {
    let text = doumbaht::text(bytes);
    match facts::parse(&text)? {
        Reading::Refused(number) => Some(picture::refused(&text, number)),
        Reading::Facts(facts) => {
            let record = Record::read(bytes)?;
            let happy = doumbaht::happy_set(&record.reports);
            Some(picture::draw(&text, &facts, happy, &record))
        }
    }
}

/// Reads, draws and writes; or what went wrong.
fn run() -> Result<(), String> {
    let mut bytes = Vec::new();
    io::stdin().read_to_end(&mut bytes).map_err(|error| format!("cannot read the record: {error}"))?;
    let picture = picture_of(&bytes).ok_or("the library's text is not one that this program knows")?;
    let mut out = io::stdout();
    out.write_all(picture.as_bytes())
        .and_then(|()| out.flush())
        .map_err(|error| format!("cannot write the picture: {error}"))
}

fn main() -> ExitCode {
    if std::env::args_os().len() > 1 {
        eprintln!("usage: draw-record < RECORD > PICTURE.svg");
        return ExitCode::from(2);
    }
    match run() {
        Ok(()) => ExitCode::SUCCESS,
        Err(what) => {
            eprintln!("draw-record: {what}");
            ExitCode::FAILURE
        }
    }
}
