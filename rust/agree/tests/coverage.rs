//! The random calls meet what they are for. These counts are of the generator, not of a routine.

use agree::call::Call;
use agree::compare::perform;
use agree::generate::Calls;
use agree::search::{search, search_once};
use interpreter::tree::{Function, Label, Rule, Table, Term, Valuation, matches, value};
use interpreter::{Routines, Tree};
use std::cmp::Ordering;
use std::collections::BTreeMap;

const CALLS: usize = 40_000;

/// The answers that each routine gives.
const ANSWERS: [(&str, &[&str]); 8] = [
    ("check_table", &["good", "refused 1"]),
    ("check_configuration", &["good", "refused 2"]),
    (
        "step",
        &["stepped", "stuck", "refused 1", "refused 2", "refused 6"],
    ),
    (
        "step_by_rule",
        &["stepped", "stuck", "refused 1", "refused 2", "refused 6"],
    ),
    (
        "match_rule",
        &[
            "matches",
            "differs",
            "names no rule",
            "refused 1",
            "refused 2",
        ],
    ),
    (
        "reasons",
        &["stuck", "not stuck", "refused 1", "refused 2", "refused 5"],
    ),
    (
        "run",
        &[
            "stuck",
            "spent",
            "refused 1",
            "refused 2",
            "refused 3",
            "refused 4",
            "refused 5",
            "refused 6",
        ],
    ),
    (
        "replay",
        &[
            "reproduced",
            "not reproduced",
            "refused 1",
            "refused 2",
            "refused 3",
            "refused 4",
            "refused 5",
            "refused 6",
        ],
    ),
];

#[test]
fn every_kind_of_answer() {
    let mut counts: BTreeMap<String, usize> = BTreeMap::new();
    let (mut calls, mut stuck) = (Calls::new(3), Calls::new(3));
    let reasons = CALLS / 11;
    for number in 0..CALLS + reasons {
        let call = if number < CALLS {
            calls.next_call()
        } else {
            stuck.next_reasons()
        };
        let answer = perform(&call, &Tree).answer;
        let kind = format!("{} {}", call.routine(), answer.kind());
        *counts.entry(kind).or_default() += 1;
    }
    println!("{counts:#?}");
    for (routine, kinds) in ANSWERS {
        for kind in kinds {
            let name = format!("{routine} {kind}");
            let count = counts.get(&name).copied().unwrap_or(0);
            assert!(count >= 50, "{name}: {count}");
        }
    }
}

/// What a call of a function gives: its code and the kind of the value.
type Values = BTreeMap<(i64, &'static str), usize>;

/// What a share's division leaves: the sign of the product, the side of the half.
fn share_rest(term: &Term, valuation: &Valuation) -> Option<&'static str> {
    let whole = |term| match value(term, valuation).label() {
        Label::Int(number) => Some(number as i128),
        _ => None,
    };
    let [a, b, c] = term.children() else {
        return None;
    };
    if !matches!(term.label(), Label::Call(Function::Share)) || whole(term).is_none() {
        return None;
    }
    let (product, c) = (whole(a)? * whole(b)?, whole(c)?);
    let (quotient, rest) = (product / c, product % c);
    let kind = match (2 * rest.abs()).cmp(&c) {
        _ if rest == 0 => 0,
        Ordering::Less => 1,
        Ordering::Greater => 2,
        Ordering::Equal if quotient % 2 == 0 => 3,
        Ordering::Equal => 4,
    };
    Some(RESTS[kind + 5 * (product < 0) as usize])
}

/// Zero and above, then below.
const RESTS: [&str; 10] = [
    "nothing left",
    "less than a half left",
    "more than a half left",
    "a half above an even number",
    "a half above an odd number",
    "below zero, nothing left",
    "below zero, less than a half left",
    "below zero, more than a half left",
    "below zero, a half below an even number",
    "below zero, a half below an odd number",
];

/// How often rules matched, and why they did not apply or did.
#[derive(Default, Debug)]
struct Rules {
    unmatched: usize,
    repeated: usize,
    repeated_unmatched: usize,
    condition_failed: usize,
    conditions_hold: usize,
    eight_conditions: usize,
    values: Values,
    rests: BTreeMap<&'static str, usize>,
}

impl Rules {
    fn count(&mut self, rule: &Rule, configuration: &Term) {
        let repeated = repeats_a_variable(&rule.left);
        let Some(valuation) = matches(&rule.left, configuration) else {
            self.unmatched += 1;
            self.repeated_unmatched += repeated as usize;
            return;
        };
        self.repeated += repeated as usize;
        self.count_calls(&rule.right, &valuation);
        for (one, two) in &rule.conditions {
            self.count_calls(one, &valuation);
            self.count_calls(two, &valuation);
        }
        let applies = rule.successor(configuration).is_some();
        self.condition_failed += !applies as usize;
        self.conditions_hold += (applies && !rule.conditions.is_empty()) as usize;
        self.eight_conditions += (applies && rule.conditions.len() == 8) as usize;
    }

    fn count_calls(&mut self, term: &Term, valuation: &Valuation) {
        if let Label::Call(function) = term.label() {
            let kind = match value(term, valuation).label() {
                Label::Error => "error",
                Label::Bool(false) => "false",
                Label::Bool(true) => "true",
                Label::Int(number) if number < 0 => "negative",
                Label::Int(_) => "number",
                Label::Dictionary => "dictionary",
                _ => "symbol",
            };
            *self.values.entry((function.code(), kind)).or_default() += 1;
        }
        if let Some(rest) = share_rest(term, valuation) {
            *self.rests.entry(rest).or_default() += 1;
        }
        for child in term.children() {
            self.count_calls(child, valuation);
        }
    }
}

fn repeats_a_variable(left: &Term) -> bool {
    let words = left.words();
    let mut variables: Vec<i64> = words
        .chunks(2)
        .filter(|node| node[0] == 3)
        .map(|node| node[1])
        .collect();
    let count = variables.len();
    variables.sort_unstable();
    variables.dedup();
    variables.len() < count
}

#[test]
fn rules_and_functions() {
    let mut rules = Rules::default();
    let mut calls = Calls::new(4);
    for _ in 0..CALLS {
        let call = calls.next_call();
        if !matches!(call, Call::Step { .. } | Call::StepByRule { .. }) {
            continue;
        }
        let table = Table::read(call.table());
        let configuration = Term::read(call.configuration(), 32_768);
        if let (Some(table), Some((configuration, []))) = (table, configuration)
            && configuration.is_ground()
        {
            for rule in &table.rules {
                rules.count(rule, &configuration);
            }
        }
    }
    println!("{rules:?}");
    assert!(rules.repeated > 500 && rules.repeated_unmatched > 200);
    assert!(rules.condition_failed > 500 && rules.conditions_hold > 500);
    assert!(rules.eight_conditions > 20);
    assert_functions(&rules.values);
    for rest in RESTS {
        let count = rules.rests.get(rest).copied().unwrap_or(0);
        assert!(count >= 20, "a share, {rest}: {count}");
    }
}

/// Every function gives every kind of value that it can.
fn assert_functions(values: &Values) {
    for code in 0..18 {
        let kinds: &[&str] = match code {
            0 => &["true"],
            1 => &["false"],
            2..=5 | 10..=12 => &["true", "false", "error"],
            6 | 7 | 13 => &["true", "false"],
            15 => &["dictionary"],
            16 => &[
                "true",
                "false",
                "number",
                "negative",
                "dictionary",
                "symbol",
                "error",
            ],
            17 => &["dictionary", "error"],
            _ => &["number", "negative", "error"],
        };
        for kind in kinds {
            let count = values.get(&(code, kind)).copied().unwrap_or(0);
            assert!(count >= 40, "function {code} {kind}: {count}");
        }
        let wrong = values
            .iter()
            .find(|((other, kind), _)| *other == code && !kinds.contains(kind));
        assert_eq!(wrong, None);
    }
}

#[test]
fn searches() {
    let mut counts: BTreeMap<String, usize> = BTreeMap::new();
    let mut calls = Calls::new(6);
    for _ in 0..CALLS {
        let call = calls.next_call();
        let Call::Replay {
            table,
            configuration,
            log,
            limit,
            ..
        } = &call
        else {
            continue;
        };
        let kind = perform(&call, &Tree).answer.kind();
        if kind.starts_with("refused") && kind != "refused 6" {
            continue;
        }
        let table = Table::read(table).expect("a good table");
        let (initial, _) = Term::read(configuration, 32_768).expect("a good configuration");
        let met = search(&table, &initial, log, *limit as usize, usize::MAX).expect("it ends");
        let mut count = |what: &str| *counts.entry(format!("{kind}, {what}")).or_default() += 1;
        count("all");
        if met.backtracks > 1 {
            count("after going back");
        }
        if met.backtracks > 20 {
            count("after going back often");
        }
        if met.over {
            count("with a successor above the limit");
        }
        if met.successors > 100 {
            count("by a long search");
        }
        if log.len() > 20 {
            count("of a long log");
        }
        let once = search_once(&table, &initial, log, *limit as usize, usize::MAX);
        let once = once.expect("it ends");
        assert_eq!(once.over, met.over);
        if met.successors > once.successors {
            count("paths meet");
        }
        if met.successors > 3 * once.successors {
            count("paths meet often");
        }
        if met.successors > 3 * once.successors && *limit as usize > 4 * initial.size() {
            count("paths meet often, with room");
        }
    }
    println!("{counts:#?}");
    let wanted = [
        ("reproduced, after going back", 200),
        ("reproduced, after going back often", 20),
        ("reproduced, with a successor above the limit", 50),
        ("reproduced, of a long log", 20),
        ("not reproduced, after going back", 200),
        ("not reproduced, after going back often", 50),
        ("not reproduced, by a long search", 20),
        ("refused 6, after going back", 100),
        ("refused 6, after going back often", 20),
        ("reproduced, paths meet", 60),
        ("reproduced, paths meet often", 10),
        ("not reproduced, paths meet", 80),
        ("not reproduced, paths meet often", 30),
        ("not reproduced, paths meet often, with room", 8),
        ("refused 6, paths meet", 50),
        ("refused 6, paths meet often", 20),
    ];
    for (kind, least) in wanted {
        let count = counts.get(kind).copied().unwrap_or(0);
        assert!(count >= least, "{kind}: {count}");
    }
}

#[test]
fn names_differ() {
    let names: Vec<&str> = agree::engines::ALL
        .iter()
        .map(|engine| Routines::name(*engine))
        .collect();
    assert!(names.len() >= 2 && names[0] != names[1]);
}
