//! The test command: compares a program's answers to jobs from a seed with
//! the answers of the second opinion.

use second::compare::{self, hex, Plan};
use second::jobs::job;
use second::rules::answer;
use std::io::Write;
use std::process::ExitCode;

const USAGE: &str = "\
usage: second [--jobs N] [--seed S] COMMAND [ARGS..]
       second [--seed S] --show K
       second --answer FILE
";

/// What the command line asks for.
enum Order {
    Compare(Plan),
    Show { seed: u64, number: u64 },
    Answer { file: String },
}

/// Reads the command line; nothing if it makes no sense.
fn order(arguments: Vec<String>) -> Option<Order> {
    let (mut jobs, mut seed, mut show, mut file) = (10_000, 1, None, None);
    let mut rest = arguments.into_iter().peekable();
    while rest.peek().map_or(false, |word| word.starts_with("--")) {
        let (option, value) = (rest.next()?, rest.next()?);
        match option.as_str() {
            "--jobs" => jobs = value.parse().ok()?,
            "--seed" => seed = value.parse().ok()?,
            "--show" => show = Some(value.parse().ok()?),
            "--answer" => file = Some(value),
            _ => return None,
        }
    }
    let command: Vec<String> = rest.collect();
    match (show, file, command.is_empty()) {
        (Some(number), None, true) => Some(Order::Show { seed, number }),
        (None, Some(file), true) => Some(Order::Answer { file }),
        (None, None, false) => Some(Order::Compare(Plan {
            jobs,
            seed,
            command,
        })),
        _ => None,
    }
}

fn print_text(job: &[u8]) -> bool {
    std::io::stdout().write_all(&answer(job).text).is_ok()
}

/// Carries out an order. True if all went well and nothing differs.
fn obey(order: Order) -> bool {
    match order {
        Order::Compare(plan) => {
            let tally = compare::run(&plan);
            tally.print();
            tally.compared == plan.jobs && tally.differences == 0
        }
        Order::Show { seed, number } => {
            let job = job(seed, number);
            println!("{}", hex(&job));
            print_text(&job)
        }
        Order::Answer { file } => match std::fs::read(&file) {
            Ok(job) => print_text(&job),
            Err(error) => {
                eprintln!("{file}: {error}");
                false
            }
        },
    }
}

fn main() -> ExitCode {
    let good = match order(std::env::args().skip(1).collect()) {
        Some(order) => obey(order),
        None => {
            eprint!("{USAGE}");
            false
        }
    };
    if good {
        ExitCode::SUCCESS
    } else {
        ExitCode::FAILURE
    }
}
