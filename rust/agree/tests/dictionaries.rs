//! The random calls meet what dictionaries can do, good and bad. These counts are of the generator,
//! not of a routine.

use agree::call::Call;
use agree::compare::{Answer, perform};
use agree::generate::{Calls, game};
use agree::rng::Rng;
use agree::words::{ARITIES, EMPTY, RuleWords};
use interpreter::tree::{Function, Label, Rule, Table, Term, Valuation, matches, value};
use interpreter::{Check, Match, Reasons, Refusal, Replay, Run, Step, Tree};
use std::collections::BTreeMap;

const CALLS: usize = 40_000;

/// How often something came up.
#[derive(Default, Debug)]
struct Counts(BTreeMap<String, usize>);

impl Counts {
    fn add(&mut self, what: &str) {
        *self.0.entry(what.to_string()).or_default() += 1;
    }

    fn assert_each(&self, least: usize, wanted: &[&str]) {
        println!("{self:#?}");
        for what in wanted {
            let count = self.0.get(*what).copied().unwrap_or(0);
            assert!(count >= least, "{what}: {count}");
        }
    }
}

#[test]
fn half_of_the_games() {
    let has = |words: &[i64]| {
        words
            .chunks(2)
            .any(|node| node[0] == 5 || node[0] == 4 && node[1] >= EMPTY)
    };
    let in_rule = |rule: &RuleWords| {
        let sides = rule.conditions.iter().flatten();
        has(&rule.left) || has(&rule.right) || sides.into_iter().any(|side| has(side))
    };
    let mut rng = Rng::new(8);
    let games = 4_000;
    let with = (0..games)
        .map(|_| game(&mut rng))
        .filter(|game| has(&game.configuration) || game.rules.iter().any(in_rule))
        .count();
    let share = 100 * with / games;
    assert!((45..60).contains(&share), "{share} in a hundred");
}

/// A term of which nothing is asked but the counts of its children.
struct Loose {
    tag: i64,
    datum: i64,
    children: Vec<Loose>,
}

impl Loose {
    fn read(words: &[i64]) -> Option<(Loose, &[i64])> {
        let (&[tag, datum], mut rest) = words.split_first_chunk()?;
        let count = match tag {
            4 => *ARITIES.get(usize::try_from(datum).ok()?)?,
            5 if (0..=65).contains(&datum) => 2 * datum as usize,
            5 => return None,
            8..=15 => (tag - 8) as usize,
            _ => 0,
        };
        let mut children = Vec::new();
        for _ in 0..count {
            let (child, behind) = Loose::read(rest)?;
            children.push(child);
            rest = behind;
        }
        let term = Loose {
            tag,
            datum,
            children,
        };
        Some((term, rest))
    }

    fn is_update(&self) -> bool {
        [self.tag, self.datum] == [4, 17]
    }

    fn any(&self, test: &impl Fn(&Loose) -> bool) -> bool {
        test(self) || self.children.iter().any(|child| child.any(test))
    }
}

/// The terms of a table, each with its place in its rule.
fn terms_of(table: &[i64]) -> Option<Vec<(&'static str, Loose)>> {
    let (&count, mut rest) = table.split_first()?;
    let mut terms = Vec::new();
    for _ in 0..count {
        let (&[_, conditions], behind) = rest.split_first_chunk()?;
        rest = behind;
        if !(0..=8).contains(&conditions) {
            return None;
        }
        for place in 0..2 + 2 * conditions {
            let (term, behind) = Loose::read(rest)?;
            let name = match place {
                0 => "left",
                1 => "right",
                _ => "condition",
            };
            terms.push((name, term));
            rest = behind;
        }
    }
    rest.is_empty().then_some(terms)
}

/// The faults of a dictionary's own node and keys, and of what is below it.
fn count_faults(term: &Loose, place: &str, counts: &mut Counts) {
    if term.tag == 5 {
        let keys: Vec<&Loose> = term.children.iter().step_by(2).collect();
        let numbers: Vec<i64> = keys.iter().map(|key| key.datum).collect();
        let foreign = keys.iter().any(|key| key.tag != 2);
        let mut add = |what: &str| counts.add(&format!("{what} in a {place}"));
        if foreign {
            add("foreign key");
        } else if numbers.windows(2).any(|two| two[0] == two[1]) {
            add("equal keys");
        } else if !numbers.is_sorted() {
            add("falling keys");
        }
        if keys.len() == 65 {
            add("65 entries");
        }
        for (tag, name) in [(3, "variable"), (4, "call")] {
            if keys.iter().any(|key| key.tag == tag) {
                add(&format!("{name} as a key"));
            }
            let values = term.children.iter().skip(1).step_by(2);
            if values
                .into_iter()
                .any(|value| value.any(&|below| below.tag == tag))
            {
                add(&format!("{name} in a value"));
            }
        }
    }
    for child in &term.children {
        count_faults(child, place, counts);
    }
}

/// Updates where none may stand.
fn count_updates(term: &Loose, place: &str, counts: &mut Counts) {
    if term.is_update() && place != "right" {
        counts.add(&format!("update in a {place}"));
    }
    if term.tag == 4 {
        let inside = |child: &Loose| child.any(&Loose::is_update);
        for (argument, child) in term.children.iter().enumerate() {
            if inside(child) && term.is_update() {
                counts.add(&format!("update in an update's argument {argument}"));
            } else if inside(child) {
                counts.add(&format!("update under a call in a {place}"));
            }
        }
    }
    for child in &term.children {
        count_updates(child, place, counts);
    }
}

fn refusal(answer: Answer) -> Option<Refusal> {
    match answer {
        Answer::Check(Check::Refused(why))
        | Answer::Step(Step::Refused(why))
        | Answer::Match(Match::Refused(why))
        | Answer::Reasons(Reasons::Refused(why))
        | Answer::Run(Run::Refused(why))
        | Answer::Replay(Replay::Refused(why)) => Some(why),
        _ => None,
    }
}

#[test]
fn what_is_refused() {
    let mut counts = Counts::default();
    let mut calls = Calls::new(9);
    for _ in 0..CALLS {
        let call = calls.next_call();
        match refusal(perform(&call, &Tree).answer) {
            Some(Refusal::BadTable) => {
                for (place, term) in terms_of(call.table()).unwrap_or_default() {
                    count_faults(&term, place, &mut counts);
                    count_updates(&term, place, &mut counts);
                }
            }
            Some(Refusal::BadConfiguration) if call.configuration().len() < 4_000 => {
                if let Some((term, _)) = Loose::read(call.configuration()) {
                    count_faults(&term, "configuration", &mut counts);
                }
            }
            _ => {}
        }
    }
    let mut wanted = Vec::new();
    for place in ["left", "right", "condition", "configuration"] {
        for fault in [
            "equal keys",
            "falling keys",
            "foreign key",
            "65 entries",
            "variable as a key",
            "variable in a value",
            "call as a key",
            "call in a value",
        ] {
            wanted.push(format!("{fault} in a {place}"));
        }
    }
    wanted.extend((0..3).map(|argument| format!("update in an update's argument {argument}")));
    for place in [
        "update in a left",
        "update in a condition",
        "update under a call in a right",
        "update under a call in a condition",
    ] {
        wanted.push(place.to_string());
    }
    let wanted: Vec<&str> = wanted.iter().map(String::as_str).collect();
    counts.assert_each(10, &wanted);
}

/// The keys of a dictionary.
fn keys(dictionary: &Term) -> Vec<i64> {
    let words = dictionary.children().iter().step_by(2).map(Term::words);
    words.map(|words| words[1]).collect()
}

/// What an update does.
fn update_kind(arguments: &[Term]) -> &'static str {
    let [dictionary, key, _] = arguments else {
        return "no update";
    };
    let (Label::Dictionary, Label::Int(key)) = (dictionary.label(), key.label()) else {
        return match dictionary.label() {
            Label::Dictionary => "update with a key of another kind",
            _ => "update of another kind",
        };
    };
    let keys = keys(dictionary);
    let place = keys.iter().filter(|&&other| other < key).count();
    match (keys.contains(&key), place) {
        (true, _) if keys.len() == 64 => "update replaces one of 64",
        (true, _) => "update replaces",
        _ if keys.len() == 64 => "update with a sixty-fifth key",
        _ if keys.is_empty() => "update of an empty dictionary",
        (_, 0) => "update in front",
        (_, place) if place == keys.len() => "update at the end",
        _ => "update in the middle",
    }
}

/// What a lookup does.
fn lookup_kind(arguments: &[Term], value: &Term) -> &'static str {
    let [dictionary, key] = arguments else {
        return "no lookup";
    };
    let (Label::Dictionary, Label::Int(key)) = (dictionary.label(), key.label()) else {
        return match dictionary.label() {
            Label::Dictionary => "lookup of a key of another kind",
            _ => "lookup in another kind",
        };
    };
    match (keys(dictionary).contains(&key), value.label()) {
        (false, _) => "lookup of an absent key",
        (true, Label::Error) => "lookup of an error",
        (true, Label::Dictionary) => "lookup of a dictionary",
        (true, _) if value.size() > 1 => "lookup of a term",
        (true, _) => "lookup of a leaf",
    }
}

/// Counts the calls of an expression, by what they do and by what is around them.
fn count_calls(term: &Term, around: &str, valuation: &Valuation, counts: &mut Counts) {
    let Label::Call(function) = term.label() else {
        for child in term.children() {
            count_calls(child, around, valuation, counts);
        }
        return;
    };
    let arguments: Vec<Term> = term
        .children()
        .iter()
        .map(|argument| value(argument, valuation))
        .collect();
    match function {
        Function::Lookup => {
            counts.add(lookup_kind(&arguments, &value(term, valuation)));
            counts.add(&format!("lookup {around}"));
            let source = match term.children()[0].label() {
                Label::Variable(_) => "lookup in the configuration",
                Label::Dictionary => "lookup in the table",
                _ => "lookup in what a call gives",
            };
            counts.add(source);
        }
        Function::Update => {
            counts.add(update_kind(&arguments));
            counts.add(match arguments[2].label() {
                Label::Dictionary => "update with a dictionary",
                Label::Error => "update with an error",
                _ => "update with something else",
            });
        }
        _ => {}
    }
    let inside = match function {
        Function::Lookup => "under a lookup",
        Function::Update => "under an update",
        Function::Plus | Function::Minus | Function::Share => "under arithmetic",
        _ => "under another call",
    };
    for child in term.children() {
        count_calls(child, inside, valuation, counts);
    }
}

fn count_rule(rule: &Rule, configuration: &Term, counts: &mut Counts) {
    let Some(valuation) = matches(&rule.left, configuration) else {
        return;
    };
    if !rule.left.all(|label| label != Label::Dictionary) {
        counts.add("a dictionary in a left matches");
    }
    count_calls(&rule.right, "in a right", &valuation, counts);
    for (one, two) in &rule.conditions {
        count_calls(one, "in a condition", &valuation, counts);
        count_calls(two, "in a condition", &valuation, counts);
    }
}

/// Counts dictionaries of a configuration, by size and by what is in them.
fn count_dictionaries(term: &Term, counts: &mut Counts) {
    let mut pending = vec![term];
    while let Some(term) = pending.pop() {
        pending.extend(term.children());
        if term.label() != Label::Dictionary {
            continue;
        }
        counts.add("dictionary");
        if term.children().len() == 128 {
            counts.add("dictionary of 64 entries");
        }
        if term.children().is_empty() {
            counts.add("dictionary without entries");
        }
        let values = || term.children().iter().skip(1).step_by(2);
        if values().any(|value| value.label() == Label::Dictionary) {
            counts.add("dictionary in a dictionary");
        }
        if values().any(|value| value.label() == Label::Error) {
            counts.add("error in a dictionary");
        }
    }
}

#[test]
fn what_is_computed() {
    let mut counts = Counts::default();
    let mut calls = Calls::new(10);
    for _ in 0..CALLS {
        let call = calls.next_call();
        let (rule, out) = match &call {
            Call::Step { out, .. } => (None, out),
            Call::StepByRule { rule, out, .. } => (Some(*rule), out),
            _ => continue,
        };
        let answer = perform(&call, &Tree).answer;
        if refusal(answer).is_some() {
            continue;
        }
        let table = Table::read(call.table()).expect("a good table");
        let (configuration, _) = Term::read(call.configuration(), 32_768).expect("a term");
        count_dictionaries(&configuration, &mut counts);
        for rule in &table.rules {
            count_rule(rule, &configuration, &mut counts);
        }
        count_limit(&table, rule, &configuration, out.len, &mut counts);
    }
    counts.assert_each(
        40,
        &[
            "dictionary",
            "dictionary without entries",
            "dictionary of 64 entries",
            "dictionary in a dictionary",
            "error in a dictionary",
            "a dictionary in a left matches",
            "lookup of a leaf",
            "lookup of a term",
            "lookup of a dictionary",
            "lookup of an error",
            "lookup of an absent key",
            "lookup of a key of another kind",
            "lookup in another kind",
            "lookup in the configuration",
            "lookup in the table",
            "lookup in what a call gives",
            "lookup in a right",
            "lookup in a condition",
            "lookup under a lookup",
            "lookup under an update",
            "lookup under arithmetic",
            "lookup under another call",
            "update replaces",
            "update replaces one of 64",
            "update in front",
            "update in the middle",
            "update at the end",
            "update of an empty dictionary",
            "update with a sixty-fifth key",
            "update of another kind",
            "update with a key of another kind",
            "update with a dictionary",
            "update with an error",
            "update at the limit",
            "update one above the limit",
        ],
    );
}

/// Counts successors through an update that are as large as may be, or one node larger.
fn count_limit(
    table: &Table,
    rule: Option<usize>,
    configuration: &Term,
    out: usize,
    counts: &mut Counts,
) {
    let rules = match rule {
        Some(number) => table.rules.get(number..=number).unwrap_or_default(),
        None => &table.rules,
    };
    let chosen = rules
        .iter()
        .find_map(|rule| Some((rule, rule.successor(configuration)?)));
    let Some((rule, successor)) = chosen else {
        return;
    };
    if rule
        .right
        .all(|label| label != Label::Call(Function::Update))
    {
        return;
    }
    match successor.size().checked_sub(out / 2) {
        Some(0) => counts.add("update at the limit"),
        Some(1) => counts.add("update one above the limit"),
        _ => {}
    }
}
