//! Compares the port's answers with apicula's on made inputs, or records the stored list for `crates/replay`.

use beside::check::{Checker, Difference};
use beside::input::Input;
use beside::{make, record, shrink};
use std::io::{self, IsTerminal, Write};
use std::process::ExitCode;
use std::time::{Duration, Instant};

const USAGE: &str = "usage: compare [--seed N] [--cases N | --minutes N]
       compare --record FILE

Compares the port with apicula. A seed and a case's number determine the case. The run ends after so many
cases, or begins no case after so many minutes.
--record writes the stored list for crates/replay, from apicula's answers alone.";

const DEFAULT_SEED: u64 = 1;
const DEFAULT_CASES: u64 = 400_000;

/// When a run ends.
enum End {
    Cases(u64),
    Time(Duration),
}

enum Task {
    Compare { seed: u64, end: End },
    Record(String),
}

fn main() -> ExitCode {
    let args: Vec<String> = std::env::args().skip(1).collect();
    match task(&args) {
        Some(Task::Compare { seed, end }) => compare(seed, end),
        Some(Task::Record(file)) => write_list(&file),
        None => {
            eprintln!("{USAGE}");
            ExitCode::from(2)
        }
    }
}

/// What the arguments ask for, if they are as the usage says.
fn task(args: &[String]) -> Option<Task> {
    let (mut seed, mut end) = (DEFAULT_SEED, End::Cases(DEFAULT_CASES));
    for option in args.chunks(2) {
        let [name, value] = option else { return None };
        match name.as_str() {
            "--record" if args.len() == 2 => return Some(Task::Record(value.clone())),
            "--seed" => seed = value.parse().ok()?,
            "--cases" => end = End::Cases(value.parse().ok()?),
            "--minutes" => end = End::Time(minutes(value)?),
            _ => return None,
        }
    }
    Some(Task::Compare { seed, end })
}

fn minutes(value: &str) -> Option<Duration> {
    Duration::try_from_secs_f64(60.0 * value.parse::<f64>().ok()?).ok()
}

fn write_list(file: &str) -> ExitCode {
    match std::fs::write(file, record::list()) {
        Ok(()) => ExitCode::SUCCESS,
        Err(error) => {
            eprintln!("{file}: {error}");
            ExitCode::FAILURE
        }
    }
}

fn compare(seed: u64, end: End) -> ExitCode {
    let start = Instant::now();
    let mut checker = Checker::default();
    let mut progress = Progress::new();
    let mut case = 0;
    while !ended(&end, case, start) {
        if let Some((input, difference)) = check_case(&mut checker, seed, case) {
            progress.clear();
            report(seed, case, input, difference);
            return ExitCode::FAILURE;
        }
        case += 1;
        progress.show(case, checker.tally.comparisons());
    }
    progress.clear();
    println!("seed {seed}, cases 0 to {}: no difference", case.saturating_sub(1));
    print!("{}", checker.tally);
    ExitCode::SUCCESS
}

fn ended(end: &End, case: u64, start: Instant) -> bool {
    match end {
        End::Cases(cases) => case >= *cases,
        End::Time(time) => start.elapsed() >= *time,
    }
}

/// Checks all inputs of a case, up to one that differs.
fn check_case(checker: &mut Checker, seed: u64, case: u64) -> Option<(Input, Difference)> {
    make::inputs(seed, case).into_iter().find_map(|input| {
        let difference = checker.check(&input).err()?;
        Some((input, difference))
    })
}

/// Prints a difference, as it was found and at the smallest input found that has one of the same kind.
fn report(seed: u64, case: u64, input: Input, found: Difference) {
    println!("seed {seed}, case {case}: the port differs");
    print_difference(&found);
    let mut checker = Checker::default();
    std::panic::set_hook(Box::new(|_| {}));
    let smallest = shrink::shrink(input, &mut |smaller| checker.check(smaller).is_err_and(|d| d.kind == found.kind));
    println!("smallest input found:");
    print!("{smallest}");
    if let Err(difference) = checker.check(&smallest) {
        print_difference(&difference);
    }
}

fn print_difference(difference: &Difference) {
    println!("{}: {}", difference.kind, difference.at);
    println!("  {}: {}", difference.by, difference.expected);
    println!("  port: {}", difference.port);
}

/// A line on the terminal that tells how far the run is. Where there is no terminal nothing is shown.
struct Progress {
    terminal: bool,
    last: Instant,
}

impl Progress {
    fn new() -> Progress {
        Progress { terminal: io::stderr().is_terminal(), last: Instant::now() }
    }

    fn show(&mut self, cases: u64, comparisons: u64) {
        if self.terminal && self.last.elapsed() > Duration::from_millis(200) {
            self.last = Instant::now();
            self.write(&format!("{cases} cases, {comparisons} comparisons"));
        }
    }

    fn clear(&self) {
        if self.terminal {
            self.write(&" ".repeat(60));
            self.write("");
        }
    }

    fn write(&self, line: &str) {
        eprint!("\r{line}");
        let _ = io::stderr().flush();
    }
}
