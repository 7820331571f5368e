//! How far a left agrees, by every interpreter, against the words of its definition; and that the
//! random calls meet what a match can meet.

mod common;

use agree::call::Call;
use agree::compare::{Answer, compare, perform};
use agree::engines;
use agree::generate::Calls;
use agree::words::Words;
use common::{DIFFERENCES, defined_match, kinds_of_difference};
use interpreter::tree::{Table, Term};
use interpreter::{Match, Routines, Step, Tree};
use std::collections::BTreeMap;

const CALLS: usize = 20_000;

/// A call of `match_rule` that is not refused and names a rule.
struct Matching {
    call: Call,
    table: Table,
    rule: usize,
    left: Words,
}

impl Matching {
    fn new(call: Call) -> Option<Matching> {
        let Call::MatchRule { rule, .. } = call else {
            return None;
        };
        let table = Table::read(call.table())?;
        let (configuration, rest) = Term::read(call.configuration(), 32_768)?;
        if !rest.is_empty() || !configuration.is_ground() {
            return None;
        }
        let left = table.rules.get(rule)?.left.words();
        Some(Matching {
            call,
            table,
            rule,
            left,
        })
    }

    fn nodes(&self) -> usize {
        self.left.len() / 2
    }
}

#[test]
fn matches_are_as_defined() {
    let mut calls = Calls::new(21);
    let mut seen = BTreeMap::<String, usize>::new();
    for _ in 0..CALLS {
        let call = calls.next_match();
        let Some(matching) = Matching::new(call).filter(|it| it.call.configuration().len() < 800)
        else {
            continue;
        };
        let expected = Answer::Match(defined_match(&matching.left, matching.call.configuration()));
        for engine in engines::ALL {
            let answer = perform(&matching.call, *engine).answer;
            assert_eq!(answer, expected, "{}\n{}", engine.name(), matching.call);
        }
        *seen.entry(expected.kind()).or_default() += 1;
    }
    println!("{seen:?}");
    assert!(seen["matches"] > 3_000 && seen["differs"] > 3_000);
}

/// A rule applies only if its left matches, and without conditions it does so exactly then.
#[test]
fn a_step_by_rule_says_the_same() {
    let mut calls = Calls::new(22);
    let (mut free, mut stuck) = (0, 0);
    for _ in 0..CALLS / 4 {
        let Some(matching) = Matching::new(calls.next_match()) else {
            continue;
        };
        let conditions = &matching.table.rules[matching.rule].conditions;
        let (table, configuration) = (matching.call.table(), matching.call.configuration());
        for engine in engines::ALL {
            let answer = engine.match_rule(table, configuration, matching.rule);
            let matches = matches!(answer, Match::Matches { .. });
            let step = engine.step_by_rule(table, configuration, matching.rule, &mut []);
            let applies = step != Step::Stuck;
            assert!(matches || !applies, "{}", matching.call);
            if conditions.is_empty() {
                assert_eq!(matches, applies, "{}", matching.call);
            }
            free += conditions.is_empty() as usize;
            stuck += (matches && !applies) as usize;
        }
    }
    println!("{free} without conditions, {stuck} match and do not apply");
    assert!(free > 1_000 && stuck > 200);
}

/// What a match is like whose left matches.
fn kinds_of_match(matching: &Matching) -> Vec<&'static str> {
    let mut kinds = vec!["matches"];
    if matching.left.chunks(2).any(|node| node[0] == 5) {
        kinds.push("matches with a dictionary");
    }
    if matching.nodes() > 20 {
        kinds.push("matches with more than 20 nodes");
    }
    if matching.left.len() < matching.call.configuration().len() {
        kinds.push("matches with fewer nodes than the configuration has");
    }
    let step = Tree.step_by_rule(
        matching.call.table(),
        matching.call.configuration(),
        matching.rule,
        &mut [],
    );
    if step == Step::Stuck {
        kinds.push("matches, and a condition fails");
    }
    kinds
}

#[test]
fn every_kind_of_match() {
    let mut counts: BTreeMap<String, usize> = BTreeMap::new();
    let mut calls = Calls::new(23);
    for _ in 0..CALLS {
        let call = calls.next_match();
        let answer = match compare(&call, engines::ALL) {
            Ok(answer) => answer,
            Err(text) => panic!("{text}"),
        };
        let kinds = match (answer, Matching::new(call)) {
            (Answer::Match(Match::Matches { compared }), Some(matching)) => {
                assert_eq!(compared as usize, matching.nodes());
                kinds_of_match(&matching)
            }
            (Answer::Match(Match::Differs { compared }), Some(matching)) => {
                kinds_of_difference(&matching.left, compared as usize - 1)
            }
            (answer, None) => {
                *counts.entry(answer.kind()).or_default() += 1;
                continue;
            }
            (answer, Some(_)) => panic!("{answer:?}"),
        };
        for kind in kinds {
            *counts.entry(kind.to_string()).or_default() += 1;
        }
    }
    println!("{counts:#?}");
    let wanted = [
        "matches",
        "matches with a dictionary",
        "matches with more than 20 nodes",
        "matches with fewer nodes than the configuration has",
        "matches, and a condition fails",
        "names no rule",
        "refused 1",
        "refused 2",
    ];
    for kind in wanted.into_iter().chain(DIFFERENCES) {
        let count = counts.get(kind).copied().unwrap_or(0);
        assert!(count >= 200, "{kind}: {count}");
    }
}
