//! Tables and configurations with one fault in what they do with dictionaries.

use super::terms::{keys, leaf};
use crate::rng::Rng;
use crate::words::{
    EMPTY, LOOKUP, RuleWords, UPDATE, Words, call, dictionary, error, int, symbol, table, term_end,
    truth, variable,
};

/// The words of a table with such a fault in one of its rules.
pub(super) fn faulty_table(rng: &mut Rng, rules: &[RuleWords]) -> Words {
    let mut rules = rules.to_vec();
    if rules.is_empty() {
        rules.push(RuleWords::new(1, variable(0), variable(0)));
    }
    let at = rng.below(rules.len());
    let rule = &mut rules[at];
    if rng.percent(45) {
        misplace_update(rng, rule);
    } else {
        let x = some_variable(rng, &rule.left);
        let faulty = faulty_dictionary(rng, &x);
        place_literal(rng, rule, faulty);
    }
    table(&rules)
}

/// A configuration with a faulty dictionary in place of one of its parts.
pub(super) fn faulty_configuration(rng: &mut Rng, configuration: &mut Words) {
    let faulty = faulty_dictionary(rng, &variable(0));
    replace_part(rng, configuration, &faulty);
}

/// A variable of the left, or a number if it has none.
fn some_variable(rng: &mut Rng, left: &[i64]) -> Words {
    let variables: Vec<&[i64]> = left.chunks(2).filter(|node| node[0] == 3).collect();
    if variables.is_empty() {
        int(1)
    } else {
        rng.pick(&variables).to_vec()
    }
}

/// Puts a term in place of a part of another, or of all of it.
fn replace_part(rng: &mut Rng, words: &mut Words, part: &[i64]) {
    let at = 2 * rng.below(words.len() / 2);
    let end = term_end(words, at);
    words.splice(at..end, part.iter().copied());
}

/// Puts an update where none may stand.
fn misplace_update(rng: &mut Rng, rule: &mut RuleWords) {
    let x = some_variable(rng, &rule.left);
    let update = call(UPDATE, &[x.clone(), int(rng.range(0, 3)), int(1)]);
    match rng.below(10) {
        0..2 => replace_part(rng, &mut rule.left, &update),
        2..4 => add_condition(rng, rule, update),
        4 => add_condition(rng, rule, call(7, &[update])),
        5 => rule.right = call(7, &[update]),
        6 => rule.right = symbol(2, &[x, call(LOOKUP, &[update, int(1)])]),
        place => {
            let mut arguments = [x.clone(), int(1), x];
            arguments[place - 7] = update;
            rule.right = symbol(2, &[call(UPDATE, &arguments)]);
        }
    }
}

fn add_condition(rng: &mut Rng, rule: &mut RuleWords, side: Words) {
    let mut sides = [side, truth(true)];
    rng.shuffle(&mut sides);
    rule.conditions.truncate(7);
    rule.conditions.push(sides);
}

/// Puts a literal somewhere into a rule.
fn place_literal(rng: &mut Rng, rule: &mut RuleWords, literal: Words) {
    match rng.below(8) {
        0..2 => replace_part(rng, &mut rule.left, &literal),
        2 => rule.right = literal,
        3 => rule.right = symbol(1, &[literal, int(0)]),
        4 => rule.right = call(UPDATE, &[literal, int(1), int(1)]),
        5 => add_condition(rng, rule, literal),
        _ => add_condition(rng, rule, call(LOOKUP, &[literal, int(1)])),
    }
}

/// Keys and values in turn, and the count that is said.
struct Entries {
    count: i64,
    terms: Vec<Words>,
}

impl Entries {
    fn words(&self) -> Words {
        [&[5, self.count], self.terms.concat().as_slice()].concat()
    }
}

/// A dictionary with one fault, in itself or further in.
fn faulty_dictionary(rng: &mut Rng, x: &Words) -> Words {
    let count = 2 + rng.below(4);
    let mut entries = rising(rng, count);
    let at = 2 * rng.below(count);
    let (one, two) = (at, (at + 2) % (2 * count));
    match rng.below(18) {
        0..2 => entries.terms[one] = entries.terms[two].clone(),
        2..4 => entries.terms.swap(one, two),
        4..6 => entries.terms[at] = foreign_key(rng),
        6..8 => entries.terms[at] = x.clone(),
        8..10 => entries.terms[at] = call(EMPTY, &[]),
        10..12 => entries.terms[at + 1] = deep(rng, x.clone()),
        12..14 => {
            let calls = [call(EMPTY, &[]), call(8, &[int(1), x.clone()])];
            let inner = calls[rng.below(2)].clone();
            entries.terms[at + 1] = deep(rng, inner);
        }
        14..16 => entries = rising(rng, 65),
        16 => entries.count = rng.pick(&[-1, 65, i64::MIN, i64::MAX]),
        _ => entries.count += rng.pick(&[-1, 1]),
    }
    let faulty = entries.words();
    match rng.below(4) {
        0 => symbol(1, &[faulty]),
        1 => dictionary(&[(0, int(1)), (1, faulty), (2, int(1))]),
        _ => faulty,
    }
}

/// A good dictionary.
fn rising(rng: &mut Rng, count: usize) -> Entries {
    let terms = keys(rng, count)
        .into_iter()
        .flat_map(|key| [int(key), int(1)])
        .collect();
    Entries {
        count: count as i64,
        terms,
    }
}

/// A key that is no whole number.
fn foreign_key(rng: &mut Rng) -> Words {
    match rng.below(6) {
        0 => error(),
        1 => truth(true),
        2 => symbol(0, &[]),
        3 => symbol(0, &[int(1)]),
        4 => dictionary(&[]),
        _ => dictionary(&[(1, leaf(rng))]),
    }
}

/// The term itself, or below a symbol, or below a dictionary.
fn deep(rng: &mut Rng, term: Words) -> Words {
    match rng.below(3) {
        0 => term,
        1 => symbol(2, &[int(0), term]),
        _ => dictionary(&[(0, int(0)), (5, term)]),
    }
}
