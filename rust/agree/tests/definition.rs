//! The replay against the words of its definition: all lists of rules that yield a log are listed,
//! whatever their sizes, and the answer is read off that list.

use agree::call::Call;
use agree::compare::{Answer, perform};
use agree::engines;
use agree::generate::Calls;
use interpreter::Replay;
use interpreter::tree::{Table, Term};

/// A list of rules and the configurations that it goes through, the initial one first.
#[derive(Clone)]
struct Path {
    rules: Vec<u16>,
    terms: Vec<Term>,
}

impl Path {
    fn last(&self) -> &Term {
        self.terms.last().expect("the initial configuration")
    }

    fn is_within(&self, limit: usize) -> bool {
        self.terms.iter().all(|term| term.size() <= limit)
    }
}

/// All paths that yield each first part of the log, the empty one included; `None` if they are
/// too many to list.
fn all_paths(table: &Table, initial: &Term, log: &[u16]) -> Option<Vec<Vec<Path>>> {
    let mut parts = vec![vec![Path {
        rules: Vec::new(),
        terms: vec![initial.clone()],
    }]];
    for &action in log {
        let mut longer = Vec::new();
        for path in &parts[parts.len() - 1] {
            for (number, rule) in table.rules.iter().enumerate() {
                if rule.action != action {
                    continue;
                }
                if let Some(successor) = rule.successor(path.last()) {
                    let mut path = path.clone();
                    path.rules.push(number as u16);
                    path.terms.push(successor);
                    longer.push(path);
                }
            }
        }
        if longer.len() > 300 {
            return None;
        }
        parts.push(longer);
    }
    Some(parts)
}

/// Whether a path within the limit that yields a first part of the log ends in a configuration
/// with a successor above the limit by a rule that carries the next action.
fn goes_over(table: &Table, parts: &[Vec<Path>], log: &[u16], limit: usize) -> bool {
    let goes = |path: &Path, action: u16| {
        path.is_within(limit)
            && table.rules.iter().any(|rule| {
                rule.action == action
                    && rule
                        .successor(path.last())
                        .is_some_and(|term| term.size() > limit)
            })
    };
    log.iter()
        .zip(parts)
        .any(|(&action, paths)| paths.iter().any(|path| goes(path, action)))
}

#[derive(Default, Debug)]
struct Seen {
    reproduced: usize,
    later_rule: usize,
    over: usize,
    not: usize,
}

/// Compares one replay with the definition, unless it is refused or has too many paths.
fn check(call: &Call, seen: &mut Seen) {
    let Call::Replay {
        table,
        configuration,
        log,
        limit,
        choices,
        out,
        ..
    } = call
    else {
        return;
    };
    let outcome = perform(call, engines::ALL[engines::ALL.len() - 1]);
    if matches!(outcome.answer, Answer::Replay(Replay::Refused(_))) || log.len() > 8 {
        return;
    }
    let limit = *limit as usize;
    let table = Table::read(table).expect("a good table");
    let (initial, _) = Term::read(configuration, 32_768).expect("a good configuration");
    let Some(parts) = all_paths(&table, &initial, log) else {
        return;
    };
    let whole = &parts[log.len()];
    let within = whole.iter().filter(|path| path.is_within(limit));
    let (mut choices, mut out) = (choices.halves(), out.words());
    let expected = if let Some(first) = within.min_by_key(|path| path.rules.clone()) {
        let words = first.last().words();
        choices[..log.len()].copy_from_slice(&first.rules);
        out[..words.len()].copy_from_slice(&words);
        seen.reproduced += 1;
        let lowest = table
            .rules
            .iter()
            .position(|rule| Some(&rule.action) == log.first());
        seen.later_rule += (first.rules.first().map(|&rule| rule as usize) != lowest) as usize;
        Replay::Reproduced
    } else if goes_over(&table, &parts, log, limit) {
        seen.over += 1;
        Replay::OverLimit
    } else {
        seen.not += 1;
        assert!(
            whole.is_empty(),
            "no path of any size yields the log\n{call}"
        );
        Replay::NotReproduced
    };
    assert_eq!(outcome.answer, Answer::Replay(expected), "{call}");
    assert_eq!(outcome.choices, choices, "{call}");
    assert_eq!(outcome.out, out, "{call}");
}

#[test]
fn replays_are_as_defined() {
    let mut seen = Seen::default();
    let mut calls = Calls::new(5);
    for _ in 0..40_000 {
        check(&calls.next_call(), &mut seen);
    }
    println!("{seen:?}");
    assert!(seen.reproduced > 1_000 && seen.later_rule > 200 && seen.over > 100 && seen.not > 200);
}
