//! The interpreters agree: at every limit, and on random calls.

use agree::call::Call;
use agree::compare::compare;
use agree::engines;
use agree::generate::Calls;
use agree::limits;
use agree::text::{self, Inputs};
use interpreter::cli_answer;
use std::collections::BTreeSet;

fn assert_agree(call: &Call) {
    if let Err(text) = compare(call, engines::ALL) {
        panic!("{text}");
    }
}

#[test]
fn at_every_limit() {
    for call in limits::calls() {
        assert_agree(&call);
    }
}

#[test]
fn on_random_calls() {
    let mut calls = Calls::new(2_026);
    for _ in 0..30_000 {
        assert_agree(&calls.next_call());
    }
}

#[test]
fn a_printed_call_reads_back() {
    let mut calls = Calls::new(7);
    for _ in 0..1_000 {
        let call = calls.next_call();
        assert_eq!(Call::parse(&call.to_string()), Some(call));
    }
}

#[test]
fn every_input_of_the_command_line_is_answered() {
    let mut inputs = Inputs::new(11);
    let generated: Vec<Vec<u8>> = (0..3_000).map(|_| inputs.next_input()).collect();
    let mut kinds = BTreeSet::new();
    for input in text::fixed().into_iter().chain(generated) {
        let answer = String::from_utf8(cli_answer(&input)).expect("plain text");
        let lines: Vec<&str> = answer.split_terminator('\n').collect();
        assert!(answer.ends_with('\n'));
        assert_eq!(
            lines.len(),
            1 + lines[0].starts_with("reproduced,") as usize
        );
        kinds.insert(
            answer
                .split(',')
                .next()
                .unwrap_or("")
                .trim_end()
                .to_string(),
        );
        if let Some(number) = answer.strip_prefix("refused,") {
            kinds.insert(number.trim_end().to_string());
        }
    }
    let expected = [
        "1",
        "2",
        "4",
        "5",
        "6",
        "7",
        "not reproduced",
        "refused",
        "reproduced",
    ];
    assert_eq!(kinds.into_iter().collect::<Vec<_>>(), expected);
}
