//! Runs the program under test on batches of jobs and compares all that it
//! gives back, byte for byte.

use crate::job::number_at;
use crate::rules::{answer, Answer};
use crate::{frame, jobs};
use std::io::{BufReader, BufWriter, Error, ErrorKind, Read, Result};
use std::process::{Child, ChildStdin, Command, Stdio};
use std::sync::atomic::{AtomicU64, Ordering};
use std::sync::Mutex;
use std::thread;

/// The most jobs given to one start of the program.
const BATCH: u64 = 1000;
/// Batches under way at a time.
const WORKERS: usize = 2;
/// The differences that are shown; the others are only counted.
const SHOWN: u64 = 5;

pub struct Plan {
    pub jobs: u64,
    pub seed: u64,
    pub command: Vec<String>,
}

/// What has been seen so far.
#[derive(Default)]
pub struct Tally {
    pub compared: u64,
    pub differences: u64,
    /// Answers by number: 0 for a network, else the refusal.
    pub answers: [u64; 11],
    pub most_types: usize,
    pub most_links: usize,
    pub most_rounds: usize,
}

impl Tally {
    fn count(&mut self, answer: &Answer) {
        self.compared += 1;
        self.answers[usize::from(answer.number)] += 1;
        if answer.number == 0 {
            let field = |place| number_at(&answer.result, place);
            self.most_types = self.most_types.max(field(0));
            self.most_links = self.most_links.max(field(6));
            self.most_rounds = self.most_rounds.max(field(8));
        }
    }

    fn differ(&mut self, lines: &str) {
        self.differences += 1;
        if self.differences <= SHOWN {
            println!("{lines}");
        }
    }

    /// The table at the end of a run, and its last line.
    pub fn print(&self) {
        println!("answered with a network: {}", self.answers[0]);
        for (number, count) in self.answers.iter().enumerate().skip(1) {
            println!("refused {number}: {count}");
        }
        println!("most types: {}", self.most_types);
        println!("most links: {}", self.most_links);
        println!("most rounds: {}", self.most_rounds);
        let (compared, differences) = (self.compared, self.differences);
        println!("{compared} jobs compared, {differences} differences");
    }
}

/// Compares all jobs of the plan.
pub fn run(plan: &Plan) -> Tally {
    let tally = Mutex::new(Tally::default());
    let next = AtomicU64::new(0);
    thread::scope(|scope| {
        for _ in 0..WORKERS {
            scope.spawn(|| loop {
                let first = next.fetch_add(BATCH, Ordering::SeqCst);
                if first >= plan.jobs {
                    break;
                }
                let end = plan.jobs.min(first + BATCH);
                if let Err(fault) = batch(plan, first..end, &tally) {
                    let lines = format!("jobs {first} to {}: {fault}", end - 1);
                    tally.lock().unwrap().differ(&lines);
                }
            });
        }
    });
    tally.into_inner().unwrap()
}

/// Starts the program once and compares its answers to a range of jobs. An
/// error is a fault of the batch as a whole, such as too few answers.
fn batch(plan: &Plan, range: std::ops::Range<u64>, tally: &Mutex<Tally>) -> Result<()> {
    let jobs: Vec<Vec<u8>> = range.clone().map(|k| jobs::job(plan.seed, k)).collect();
    let mut child = Command::new(&plan.command[0])
        .args(&plan.command[1..])
        .stdin(Stdio::piped())
        .stdout(Stdio::piped())
        .spawn()?;
    let input = child.stdin.take();
    let outcome = thread::scope(|scope| {
        let writer = scope.spawn(|| write_all(input, &jobs));
        let outcome = read_all(&mut child, &jobs, range.start, tally);
        if outcome.is_err() {
            // The writer must not wait for a program that reads no more.
            let _ = child.kill();
        }
        let written = writer.join().unwrap();
        outcome.and(written)
    });
    let status = child.wait()?;
    outcome?;
    if !status.success() {
        return fault(&format!("the program ended with {status}"));
    }
    Ok(())
}

fn fault(words: &str) -> Result<()> {
    Err(Error::new(ErrorKind::Other, words))
}

/// Writes the jobs and closes the pipe.
fn write_all(input: Option<ChildStdin>, jobs: &[Vec<u8>]) -> Result<()> {
    let mut out = BufWriter::new(input.expect("the pipe was asked for"));
    for job in jobs {
        frame::write_job(&mut out, job)?;
    }
    out.into_inner()?;
    Ok(())
}

/// Reads the answers to the jobs and compares each.
fn read_all(child: &mut Child, jobs: &[Vec<u8>], first: u64, tally: &Mutex<Tally>) -> Result<()> {
    let output = child.stdout.take().expect("the pipe was asked for");
    let mut output = BufReader::with_capacity(1 << 16, output);
    let mut given = vec![0; frame::WHOLE];
    for (number, job) in (first..).zip(jobs) {
        let answer = answer(job);
        if let Err(error) = output.read_exact(&mut given) {
            return fault(&format!("no whole answer to job {number}: {error}"));
        }
        let difference = difference(&answer, &given);
        let mut tally = tally.lock().unwrap();
        tally.count(&answer);
        if let Some(what) = difference {
            let hex = hex(job);
            tally.differ(&format!("job {number} differs\n  {what}\n  job: {hex}"));
        }
    }
    if output.read(&mut given[..1])? != 0 {
        return fault("bytes follow the last answer");
    }
    Ok(())
}

/// Says where an answer differs from the one expected: each number that does
/// and the first place of each memory. Nothing if they are equal.
pub fn difference(answer: &Answer, given: &[u8]) -> Option<String> {
    let expected = frame::expected(answer);
    if expected == given {
        return None;
    }
    let mut what = Vec::new();
    let length = |bytes: &[u8]| number_at(bytes, 6) + 65_536 * number_at(bytes, 8);
    let numbers = [
        ("number", number_at(&expected, 0), number_at(given, 0)),
        ("place", number_at(&expected, 2), number_at(given, 2)),
        ("used", number_at(&expected, 4), number_at(given, 4)),
        ("length of the text", length(&expected), length(given)),
    ];
    for (name, want, got) in numbers {
        if want != got {
            what.push(format!("{name}: expected {want}, got {got}"));
        }
    }
    let state = frame::HEAD + frame::RESULT;
    let text = state + frame::STATE;
    what.extend(in_memory("result", &expected, given, frame::HEAD..state));
    what.extend(in_memory("state area", &expected, given, state..text));
    what.extend(in_memory("text", &expected, given, text..frame::WHOLE));
    what.extend(in_text(&expected[text..], &given[text..]));
    Some(what.join("\n  "))
}

/// The first byte of a memory that differs.
fn in_memory(
    name: &str,
    expected: &[u8],
    given: &[u8],
    range: std::ops::Range<usize>,
) -> Option<String> {
    let (expected, given) = (&expected[range.clone()], &given[range]);
    let place = (0..expected.len()).find(|&p| expected[p] != given[p])?;
    let (want, got) = (expected[place], given[place]);
    Some(format!("{name} byte {place}: expected {want}, got {got}"))
}

/// The first line of the text that differs, the lines counted from 1.
fn in_text(expected: &[u8], given: &[u8]) -> Option<String> {
    let lines = |bytes: &[u8]| -> Vec<String> {
        let text = String::from_utf8_lossy(bytes).replace('\0', "");
        text.lines().map(|line| format!("{line:?}")).collect()
    };
    let (want, got) = (lines(expected), lines(given));
    let most = want.len().max(got.len());
    let line = (0..most).find(|&l| want.get(l) != got.get(l))?;
    let show = |lines: &[String]| lines.get(line).map_or("no line".into(), String::clone);
    let (want, got) = (show(&want), show(&got));
    Some(format!(
        "text line {}: expected {want}, got {got}",
        line + 1
    ))
}

/// Bytes in hex.
pub fn hex(bytes: &[u8]) -> String {
    bytes.iter().map(|byte| format!("{byte:02x}")).collect()
}
