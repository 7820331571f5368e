//! Measures two interpreters side by side: the proved library and the tuned one, or without the
//! feature `proved` the tree interpreter and the tuned one.
//!
//! ```text
//! bench [--rounds N] [NAME..]     N rounds (15); only the cases whose names hold a NAME
//! ```
//!
//! In each round both perform each case in turn; the best of each counts.

#![forbid(unsafe_code)]

mod cases;
mod rules;

use cases::Case;
use interpreter::{Routines, Tuned};
use std::time::{Duration, Instant};

#[cfg(feature = "proved")]
const OTHER: &dyn Routines = &agree::engines::Proved;
#[cfg(not(feature = "proved"))]
const OTHER: &dyn Routines = &interpreter::Tree;

/// One measurement takes this long at least.
const LEAST: Duration = Duration::from_millis(20);

fn main() {
    let (rounds, names) = arguments();
    let (other, tuned) = (OTHER.name(), Tuned.name());
    println!(
        "| case | steps | without memory | {other}, ns a step | {tuned}, ns a step | {other}/{tuned} |"
    );
    println!("|---|---:|---:|---:|---:|---:|");
    for case in cases::all() {
        if names.is_empty() || names.iter().any(|name| case.name.contains(name.as_str())) {
            measure(case, rounds);
        }
    }
}

/// The rounds and the names of the cases.
fn arguments() -> (usize, Vec<String>) {
    let mut rounds = 15;
    let mut names = Vec::new();
    let mut arguments = std::env::args().skip(1);
    while let Some(argument) = arguments.next() {
        if argument == "--rounds" {
            let number = arguments.next().and_then(|text| text.parse().ok());
            rounds = number.expect("--rounds takes a number");
        } else {
            names.push(argument);
        }
    }
    (rounds, names)
}

/// Measures a case and prints its line.
fn measure(mut case: Case, rounds: usize) {
    let steps = case.steps();
    let repeats = [repeats(&mut case, OTHER), repeats(&mut case, &Tuned)];
    let mut best = [f64::INFINITY; 2];
    for round in 0..rounds {
        for turn in 0..2 {
            // Each goes first in every other round.
            let which = (round + turn) % 2;
            let engine: &dyn Routines = if which == 0 { OTHER } else { &Tuned };
            let time = time(&mut case, engine, repeats[which]);
            best[which] = best[which].min(time);
        }
    }
    let per_step = best.map(|seconds| seconds * 1e9 / steps as f64);
    println!(
        "| {} | {} | {} | {:.1} | {:.1} | {:.2} |",
        case.name,
        steps,
        case.all(),
        per_step[0],
        per_step[1],
        per_step[0] / per_step[1]
    );
}

/// How often a case is performed in one measurement.
fn repeats(case: &mut Case, engine: &dyn Routines) -> u32 {
    let mut repeats = 1;
    while time(case, engine, repeats) * f64::from(repeats) < LEAST.as_secs_f64() {
        repeats *= 2;
    }
    repeats
}

/// The seconds that a case takes, on the average.
fn time(case: &mut Case, engine: &dyn Routines, repeats: u32) -> f64 {
    let start = Instant::now();
    for _ in 0..repeats {
        case.perform(engine);
    }
    start.elapsed().as_secs_f64() / f64::from(repeats)
}
