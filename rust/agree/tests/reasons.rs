//! The reasons of a stuck configuration, by every interpreter, against the words of their
//! definition; and that the random calls meet what they can meet.

mod common;

use agree::call::{Buffer, Call};
use agree::compare::{Answer, Outcome, compare, perform};
use agree::engines;
use agree::generate::Calls;
use agree::words::{RuleWords, int, table};
use common::{DIFFERENCES, defined_match, kinds_of_difference};
use interpreter::tree::{Rule, Table};
use interpreter::{Match, Reasons, Refusal, Routines, Step, Tree};
use std::collections::BTreeMap;

/// A call of `reasons` that is not refused.
struct Asked {
    call: Call,
    rules: Vec<Rule>,
    list: Buffer,
}

impl Asked {
    fn new(call: Call) -> Option<Asked> {
        let Call::Reasons { list, .. } = call else {
            return None;
        };
        let answer = perform(&call, &Tree).answer;
        if matches!(answer, Answer::Reasons(Reasons::Refused(_))) {
            return None;
        }
        let rules = Table::read(call.table())?.rules;
        Some(Asked { call, rules, list })
    }

    /// What an interpreter answers, and its list.
    fn outcome(&self, engine: &dyn Routines) -> (Reasons, Vec<i64>) {
        let outcome = perform(&self.call, engine);
        (reasons_of(&outcome), outcome.list)
    }
}

fn reasons_of(outcome: &Outcome) -> Reasons {
    match outcome.answer {
        Answer::Reasons(reasons) => reasons,
        other => panic!("{other:?}"),
    }
}

/// Whether a condition of a rule holds, by an interpreter's step: a rule with the same left and no
/// other condition applies.
fn holds(rule: &Rule, number: usize, configuration: &[i64], engine: &dyn Routines) -> bool {
    let (one, two) = &rule.conditions[number];
    let alone = RuleWords::new(0, rule.left.words(), int(0)).when(one.words(), two.words());
    engine.step(&table(&[alone]), configuration, &mut []) != Step::Stuck
}

/// The entry that a rule has by its definition; none if the rule applies. The place is that of the
/// last of the fewest first nodes of the left that no valuation matches; or else all conditions
/// below the number hold, and the one of that number does not.
fn defined_entry(rule: &Rule, configuration: &[i64], engine: &dyn Routines) -> Option<[i64; 2]> {
    match defined_match(&rule.left.words(), configuration) {
        Match::Differs { compared } => Some([0, i64::from(compared) - 1]),
        _ => (0..rule.conditions.len())
            .find(|&number| !holds(rule, number, configuration, engine))
            .map(|number| [1, number as i64]),
    }
}

/// The answer and the list by the definition.
fn defined(asked: &Asked, engine: &dyn Routines) -> (Reasons, Vec<i64>) {
    let mut list = asked.list.words();
    let entries: Vec<Option<[i64; 2]>> = asked
        .rules
        .iter()
        .map(|rule| defined_entry(rule, asked.call.configuration(), engine))
        .collect();
    if let Some(rule) = entries.iter().position(Option::is_none) {
        return (Reasons::NotStuck { rule: rule as u8 }, list);
    }
    for (words, entry) in list.chunks_mut(2).zip(entries.into_iter().flatten()) {
        words.copy_from_slice(&entry);
    }
    (Reasons::Listed, list)
}

#[test]
fn reasons_are_as_defined() {
    let mut calls = Calls::new(31);
    let mut seen = BTreeMap::<String, usize>::new();
    for _ in 0..10_000 {
        let call = calls.next_reasons();
        let Some(asked) = Asked::new(call).filter(|it| it.call.configuration().len() < 800) else {
            continue;
        };
        for engine in engines::ALL {
            let expected = defined(&asked, *engine);
            let outcome = asked.outcome(*engine);
            assert_eq!(outcome, expected, "{}\n{}", engine.name(), asked.call);
        }
        let kind = perform(&asked.call, &Tree).answer.kind();
        *seen.entry(kind).or_default() += 1;
    }
    println!("{seen:?}");
    assert!(seen["stuck"] > 3_000 && seen["not stuck"] > 1_000);
}

/// Asserts that a list is full exactly if the step is stuck, and else that the answer is the step's
/// rule: the lowest that applies, by the step by each rule.
fn assert_as_steps(asked: &Asked, engine: &dyn Routines) {
    let (table, configuration) = (asked.call.table(), asked.call.configuration());
    let applies = |rule| engine.step_by_rule(table, configuration, rule, &mut []) != Step::Stuck;
    let (answer, list) = asked.outcome(engine);
    let step = engine.step(table, configuration, &mut vec![0; 65_536]);
    assert_eq!(answer == Reasons::Listed, step == Step::Stuck);
    let expected = match (0..asked.rules.len()).find(|&rule| applies(rule)) {
        Some(rule) => Reasons::NotStuck { rule: rule as u8 },
        None => Reasons::Listed,
    };
    assert_eq!(answer, expected, "{}\n{}", engine.name(), asked.call);
    if let Step::Stepped { rule, .. } = step {
        assert_eq!(answer, Reasons::NotStuck { rule });
    }
    let before = asked.list.words();
    let written = match answer {
        Reasons::Listed => 2 * asked.rules.len(),
        _ => 0,
    };
    assert_eq!(list[written..], before[written..], "{}", asked.call);
}

/// Asserts that an entry's place is a match's count less one, and that a match is said to match
/// exactly where a condition is the reason.
fn assert_as_matches(asked: &Asked, engine: &dyn Routines) {
    let (answer, list) = asked.outcome(engine);
    if answer != Reasons::Listed {
        return;
    }
    let (table, configuration) = (asked.call.table(), asked.call.configuration());
    for (number, rule) in asked.rules.iter().enumerate() {
        let expected = match list[2 * number..2 * number + 2] {
            [0, place] => Match::Differs {
                compared: place as u32 + 1,
            },
            _ => Match::Matches {
                compared: rule.left.size() as u32,
            },
        };
        let answer = engine.match_rule(table, configuration, number);
        assert_eq!(answer, expected, "{}\n{}", engine.name(), asked.call);
    }
}

#[test]
fn steps_and_matches_say_the_same() {
    let mut calls = Calls::new(32);
    let (mut stuck, mut others) = (0, 0);
    for _ in 0..6_000 {
        // Each rule asks for a check of the whole table.
        let call = calls.next_reasons();
        let Some(asked) = Asked::new(call).filter(|it| it.call.table().len() < 4_000) else {
            continue;
        };
        for engine in engines::ALL {
            assert_as_steps(&asked, *engine);
            assert_as_matches(&asked, *engine);
        }
        let is_stuck = asked.outcome(&Tree).0 == Reasons::Listed;
        stuck += is_stuck as usize;
        others += !is_stuck as usize;
    }
    println!("{stuck} stuck, {others} not");
    assert!(stuck > 2_000 && others > 500);
}

/// How often each kind came up.
#[derive(Default)]
struct Counts(BTreeMap<String, usize>);

impl Counts {
    fn add(&mut self, kind: &str) {
        *self.0.entry(kind.to_string()).or_default() += 1;
    }

    fn assert_at_least(&self, least: usize, kinds: &[&str]) {
        for kind in kinds {
            let count = self.0.get(*kind).copied().unwrap_or(0);
            assert!(count >= least, "{kind}: {count}");
        }
    }

    /// What each entry of a list met.
    fn add_entries(&mut self, asked: &Asked, list: &[i64]) {
        for (rule, entry) in asked.rules.iter().zip(list.chunks(2)) {
            if entry[0] == 1 {
                self.add(&format!("condition {} fails", entry[1]));
                self.add_later(asked, rule, entry[1] as usize + 1);
                continue;
            }
            for kind in kinds_of_difference(&rule.left.words(), entry[1] as usize) {
                self.add(kind);
            }
            if !rule.conditions.is_empty() {
                self.add("differs, with conditions");
            }
        }
    }

    /// Whether a condition behind the first that fails does so too, or holds.
    fn add_later(&mut self, asked: &Asked, rule: &Rule, from: usize) {
        for number in from..rule.conditions.len() {
            let kind = match holds(rule, number, asked.call.configuration(), &Tree) {
                true => "a condition fails before one that holds",
                false => "a condition fails before one that fails",
            };
            self.add(kind);
        }
    }

    fn add_stuck(&mut self, asked: &Asked, list: &[i64]) {
        self.add(match asked.rules.len() {
            0 => "stuck without rules",
            1 => "stuck with one rule",
            2..=20 => "stuck with 2 to 20 rules",
            21..=199 => "stuck with 21 to 199 rules",
            _ => "stuck with 200 rules or more",
        });
        if asked.rules.len() == 256 {
            self.add("stuck with 256 rules");
        }
        self.add(match asked.list.len - 2 * asked.rules.len() {
            0 => "a list of just the words",
            _ => "a list with words behind",
        });
        self.add_entries(asked, list);
    }

    fn add_not_stuck(&mut self, asked: &Asked, rule: usize) {
        self.add(match rule {
            0 => "not stuck by rule 0",
            _ if rule + 1 == asked.rules.len() => "not stuck by the last rule of several",
            _ => "not stuck by a rule in between",
        });
        let (table, configuration) = (asked.call.table(), asked.call.configuration());
        if Tree.step(table, configuration, &mut vec![0; 65_536]) == Step::OverLimit {
            self.add("not stuck, a successor above every limit");
        }
    }

    /// A call that was refused because of its list.
    fn add_short(&mut self, call: &Call) {
        let Call::Reasons { list, .. } = call else {
            return;
        };
        let rules = call.table()[0] as usize;
        self.add(match list.len {
            0 => "short by all words",
            len if len + 1 == 2 * rules => "short by a word",
            _ => "short by more",
        });
        let step = Tree.step(call.table(), call.configuration(), &mut []);
        self.add(match step {
            Step::Stuck => "short, and stuck",
            _ => "short, and some rule applies",
        });
    }
}

fn counts() -> Counts {
    let mut counts = Counts::default();
    let mut calls = Calls::new(33);
    for _ in 0..20_000 {
        let call = calls.next_reasons();
        let answer = match compare(&call, engines::ALL) {
            Ok(answer) => answer,
            Err(text) => panic!("{text}"),
        };
        counts.add(&answer.kind());
        if answer == Answer::Reasons(Reasons::Refused(Refusal::ShortBuffer)) {
            counts.add_short(&call);
        }
        let Some(asked) = Asked::new(call) else {
            continue;
        };
        match asked.outcome(&Tree) {
            (Reasons::NotStuck { rule }, _) => counts.add_not_stuck(&asked, rule.into()),
            (_, list) => counts.add_stuck(&asked, &list),
        }
    }
    println!("{:#?}", counts.0);
    counts
}

#[test]
fn every_kind_of_reason() {
    let counts = counts();
    counts.assert_at_least(200, &DIFFERENCES);
    for number in 0..8 {
        counts.assert_at_least(200, &[&format!("condition {number} fails")]);
    }
    counts.assert_at_least(
        200,
        &[
            "stuck",
            "not stuck",
            "refused 1",
            "refused 2",
            "refused 5",
            "stuck without rules",
            "stuck with one rule",
            "stuck with 2 to 20 rules",
            "stuck with 21 to 199 rules",
            "a list of just the words",
            "a list with words behind",
            "differs, with conditions",
            "a condition fails before one that holds",
            "a condition fails before one that fails",
            "not stuck by rule 0",
            "not stuck by the last rule of several",
            "not stuck by a rule in between",
            "not stuck, a successor above every limit",
            "short by a word",
            "short by all words",
            "short, and stuck",
            "short, and some rule applies",
        ],
    );
    counts.assert_at_least(
        50,
        &["stuck with 200 rules or more", "stuck with 256 rules"],
    );
}
