//! How much stack each routine needs: `cargo run --release -p agree --example stack`.
//!
//! A child process runs one call in a thread whose stack has so many KiB; a stack that is too small
//! ends the child. The smallest size that passes is printed, and what of it a thread needs that
//! calls nothing. The expression is the deepest that a table can hold: 512 calls nested.

use agree::words::{RuleWords, Words, symbol, table, truth, variable};
use hethalip::{Match, Reasons, Replay, Run, Step};
use std::env;
use std::process::{Command, Stdio};
use std::thread;

const ROUTINES: [&str; 9] = [
    "nothing",
    "check_table",
    "check_configuration",
    "step",
    "step_by_rule",
    "match_rule",
    "reasons",
    "run",
    "replay",
];

/// So many calls: `bool.neg` of `bool.neg` and so on, of `bool.true()`.
fn nested(calls: usize) -> Words {
    [[4, 2].repeat(calls - 1), vec![4, 0]].concat()
}

/// One rule, the deepest expression on its right and on both sides of its condition.
fn rules() -> Words {
    let count = |t| symbol(1, &[t]);
    let rule = RuleWords::new(7, count(variable(0)), count(nested(511)));
    table(&[rule.when(nested(512), nested(512))])
}

fn perform(routine: &str) {
    let rules = rules();
    let configuration = symbol(1, &[truth(true)]);
    let (mut out, mut other) = ([0; 8], [0; 8]);
    match routine {
        "nothing" => {}
        "check_table" => assert_eq!(hethalip::check_table(&rules), hethalip::Check::Good),
        "check_configuration" => {
            let check = hethalip::check_configuration(&configuration);
            assert_eq!(check, hethalip::Check::Good);
        }
        "step" => {
            let step = hethalip::step(&rules, &configuration, &mut out);
            assert!(matches!(step, Step::Stepped { .. }));
        }
        "step_by_rule" => {
            let step = hethalip::step_by_rule(&rules, &configuration, 0, &mut out);
            assert!(matches!(step, Step::Stepped { .. }));
        }
        "match_rule" => {
            let answer = hethalip::match_rule(&rules, &configuration, 0);
            assert_eq!(answer, Match::Matches { compared: 2 });
        }
        "reasons" => {
            let answer = hethalip::reasons(&rules, &configuration, &mut out);
            assert_eq!(answer, Reasons::NotStuck { rule: 0 });
        }
        "run" => {
            let run = hethalip::run(&rules, &configuration, 3, 4, &mut out, &mut other);
            assert_eq!(run, Run::Spent { steps: 3 });
        }
        _ => replay(&rules, &configuration),
    }
}

fn replay(rules: &[i64], configuration: &[i64]) {
    let (mut out, mut choices, mut work) = ([0; 8], [0; 2], [0; 40]);
    let replay = hethalip::replay(
        rules,
        configuration,
        &[7, 7],
        4,
        &mut out,
        &mut choices,
        &mut work,
    );
    assert_eq!(replay, Replay::Reproduced);
}

/// Whether the routine runs in a thread with a stack of so many KiB.
fn passes(routine: &str, kib: usize) -> bool {
    let program = env::current_exe().expect("this program");
    Command::new(program)
        .args([routine, &kib.to_string()])
        .stderr(Stdio::null())
        .status()
        .expect("a child process")
        .success()
}

fn main() {
    let words: Vec<String> = env::args().skip(1).collect();
    if let [routine, kib] = &words[..] {
        let routine = routine.clone();
        let size = kib.parse::<usize>().expect("KiB") << 10;
        let thread = thread::Builder::new().stack_size(size);
        let done = thread.spawn(move || perform(&routine)).expect("a thread");
        return done.join().expect("the call returns");
    }
    for routine in ROUTINES {
        let kib = (16..=1024).step_by(4).find(|&kib| passes(routine, kib));
        println!("{routine}: {} KiB", kib.expect("1 MiB is enough"));
    }
}
