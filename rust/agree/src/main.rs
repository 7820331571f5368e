//! Compares the interpreters on generated calls.
//!
//! ```text
//! agree [--calls N] [--seed S]     at least N calls (200,000), from seed S (1)
//! agree --call FILE                one call, as a mismatch prints it
//! agree --program FILE [--calls N] [--seed S]
//!                                  the command line program, on N inputs at least (3,000)
//! ```
//!
//! A mismatch prints the whole call and ends the program with status 1. Where standard error is a
//! terminal, a line there says how far it is.

#![forbid(unsafe_code)]

use agree::call::Call;
use agree::compare::compare;
use agree::generate::Calls;
use agree::progress::Progress;
use agree::{engines, limits, text};
use std::collections::BTreeMap;
use std::process::ExitCode;
use std::time::Instant;

const USAGE: &str = "agree [--calls N] [--seed S] | agree --call FILE | agree --program FILE [--calls N] [--seed S]";

/// What the command line asks.
#[derive(Default)]
struct Task {
    calls: Option<usize>,
    seed: Option<u64>,
    call: Option<String>,
    program: Option<String>,
}

fn main() -> ExitCode {
    let result = match read_arguments() {
        Some(task) => perform_task(task),
        None => Err(format!("usage: {USAGE}")),
    };
    match result {
        Ok(text) => {
            println!("{text}");
            ExitCode::SUCCESS
        }
        Err(text) => {
            println!("{text}");
            ExitCode::FAILURE
        }
    }
}

fn read_arguments() -> Option<Task> {
    let mut task = Task::default();
    let mut arguments = std::env::args().skip(1);
    while let Some(name) = arguments.next() {
        let value = arguments.next()?;
        match name.as_str() {
            "--calls" => task.calls = Some(value.parse().ok()?),
            "--seed" => task.seed = Some(value.parse().ok()?),
            "--call" => task.call = Some(value),
            "--program" => task.program = Some(value),
            _ => return None,
        }
    }
    Some(task)
}

fn perform_task(task: Task) -> Result<String, String> {
    let seed = task.seed.unwrap_or(1);
    match (task.call, task.program) {
        (Some(file), _) => one(&file),
        (None, Some(program)) => compare_program(&program, task.calls.unwrap_or(3_000), seed),
        (None, None) => generate(task.calls.unwrap_or(200_000), seed),
    }
}

/// How often each routine gave each kind of answer.
type Counts = BTreeMap<(&'static str, String), usize>;

fn generate(calls: usize, seed: u64) -> Result<String, String> {
    let names: Vec<&str> = engines::ALL.iter().map(|engine| engine.name()).collect();
    println!("comparing {}, seed {seed}", names.join(", "));
    let start = Instant::now();
    let mut counts = Counts::new();
    let fixed = limits::calls();
    let (mut source, mut stuck) = (Calls::new(seed), Calls::new(seed));
    let random = calls.saturating_sub(fixed.len());
    let generated = (0..random).map(|_| source.next_call());
    // As many calls of `reasons` as there are of a middling routine.
    let more = random / 11;
    let reasons = (0..more).map(|_| stuck.next_reasons());
    let total = fixed.len() + random + more;
    for call in Progress::new(fixed.into_iter().chain(generated).chain(reasons), total) {
        perform(&call, &mut counts).map_err(|text| format!("mismatch, seed {seed}: {text}"))?;
    }
    print_counts(&counts);
    let total: usize = counts.values().sum();
    let seconds = start.elapsed().as_secs_f64();
    Ok(format!("{total} calls, 0 mismatches, {seconds:.1} s"))
}

fn perform(call: &Call, counts: &mut Counts) -> Result<(), String> {
    let answer = compare(call, engines::ALL)?;
    *counts.entry((call.routine(), answer.kind())).or_default() += 1;
    Ok(())
}

fn print_counts(counts: &Counts) {
    let mut routine = "";
    for ((name, kind), count) in counts {
        if *name != routine {
            print!("{}{name}:", if routine.is_empty() { "" } else { "\n" });
            routine = name;
        }
        print!(" {kind} {count};");
    }
    println!();
}

fn one(file: &str) -> Result<String, String> {
    let text = std::fs::read_to_string(file).map_err(|error| format!("{file}: {error}"))?;
    let call = Call::parse(&text).ok_or(format!("{file} holds no call"))?;
    let answer = compare(&call, engines::ALL)?;
    Ok(format!("{answer:?}"))
}

fn compare_program(program: &str, calls: usize, seed: u64) -> Result<String, String> {
    println!("comparing {program}, seed {seed}");
    let fixed = text::fixed();
    let mut source = text::Inputs::new(seed);
    let random = calls.saturating_sub(fixed.len());
    let generated = (0..random).map(|_| source.next_input());
    let mut count = 0;
    let total = fixed.len() + random;
    for input in Progress::new(fixed.into_iter().chain(generated), total) {
        text::compare(program, &input).map_err(|text| format!("mismatch, seed {seed}: {text}"))?;
        count += 1;
    }
    Ok(format!("{count} inputs, 0 mismatches"))
}
