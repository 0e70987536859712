//! A stand-in for the program under test. It answers with the second opinion
//! itself, so that the comparison can be tried; with a word behind it, it
//! makes a deliberate mistake of that kind now and then.

use second::frame::{self, HEAD, RESULT, STATE};
use second::rules::answer;
use std::io::{stdin, stdout, BufReader, BufWriter, Result, Write};
use std::process::ExitCode;

/// Where a mistake of this kind alters a byte of the answer.
fn place_of(mistake: &str, text: usize) -> Option<usize> {
    match mistake {
        "number" => Some(0),
        "place" => Some(2),
        "used" => Some(5),
        "length" => Some(6),
        "result" => Some(HEAD),
        "result-end" => Some(HEAD + RESULT - 1),
        "state" => Some(HEAD + RESULT),
        "state-end" => Some(HEAD + RESULT + STATE - 1),
        "text" => Some(HEAD + RESULT + STATE + text / 2),
        "text-end" => Some(frame::WHOLE - 1),
        _ => None,
    }
}

/// Answers all jobs; every 50th answer has the mistake.
fn echo(mistake: &str) -> Result<()> {
    let mut input = BufReader::new(stdin().lock());
    let mut out = BufWriter::new(stdout().lock());
    let mut number = 0;
    while let Some(mut job) = frame::read_job(&mut input)? {
        number += 1;
        let wrong = number % 50 == 0;
        if wrong && mistake == "epsilon" && job.len() > 4 {
            job[4] ^= 1;
        }
        let answer = answer(&job);
        let mut bytes = frame::expected(&answer);
        if let (true, Some(place)) = (wrong, place_of(mistake, answer.text.len())) {
            bytes[place] ^= 1;
        }
        if !(wrong && mistake == "fewer") {
            out.write_all(&bytes)?;
        }
    }
    if mistake == "more" {
        out.write_all(&[0])?;
    }
    out.flush()
}

fn main() -> ExitCode {
    let mistake = std::env::args().nth(1).unwrap_or_default();
    match echo(&mistake) {
        Ok(()) if mistake != "status" => ExitCode::SUCCESS,
        _ => ExitCode::FAILURE,
    }
}
