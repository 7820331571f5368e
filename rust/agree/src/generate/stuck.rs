//! Sheets whose rules do not apply to their configuration, each for a reason that is chosen: the
//! left disagrees at some node, or a condition fails. Some sheets have a rule that applies.

use super::expressions::Expressions;
use super::games::Game;
use super::matching::{is_configuration, other, places, wide_term};
use super::terms::{Bound, generalise, ground};
use crate::rng::Rng;
use crate::words::{RuleWords, Words, bush, int, symbol, table, term_end, variable};
use interpreter::tree::{Table, Term};
use std::slice;

/// The most conditions of a rule.
const CONDITIONS: usize = 8;

/// A configuration, and rules made for it that do not apply. In some sheets one more does.
pub(super) fn sheet(rng: &mut Rng) -> Game {
    let count = rule_count(rng);
    let mut configuration = if count > 40 {
        ground(rng, 12)
    } else {
        wide_term(rng)
    };
    let huge = rng.percent(8);
    if huge {
        configuration = symbol(9, &[configuration, bush(80)]);
    }
    let mut rules: Vec<RuleWords> = (0..count).map(|_| rule(rng, &configuration)).collect();
    guard(rng, &mut rules, &configuration);
    if huge {
        insert(rng, &mut rules, huge_rule());
    } else if rng.percent(30) {
        let (left, _) = generalise(rng, &configuration, 25);
        insert(rng, &mut rules, RuleWords::new(1, left, int(0)));
    }
    Game {
        rules,
        configuration,
    }
}

fn rule_count(rng: &mut Rng) -> usize {
    match rng.below(40) {
        0..2 => 0,
        2..8 => 1,
        8..30 => 2 + rng.below(6),
        30..37 => 8 + rng.below(20),
        37..39 => 41 + rng.below(60),
        _ => rng.pick(&[200, 255, 256]),
    }
}

/// Puts a rule before all others, behind them, or in between.
fn insert(rng: &mut Rng, rules: &mut Vec<RuleWords>, rule: RuleWords) {
    let place = match rng.below(3) {
        0 => 0,
        1 => rules.len(),
        _ => rng.below(rules.len() + 1),
    };
    rules.insert(place, rule);
    rules.truncate(256);
}

/// From any term to 433 of it, more nodes than any limit if it has 76.
fn huge_rule() -> RuleWords {
    let right = [[15, 0].repeat(72), variable(0).repeat(433)].concat();
    RuleWords::new(1, variable(0), right)
}

/// A rule made for the configuration, whose left may disagree and whose conditions may fail.
fn rule(rng: &mut Rng, configuration: &[i64]) -> RuleWords {
    let chance = rng.pick(&[0, 10, 25, 40]);
    let (mut left, mut bound) = generalise(rng, configuration, chance);
    disagree(rng, &mut left);
    bound.retain(|(number, _)| left.chunks(2).any(|node| *node == [3, *number]));
    let right = match bound.first() {
        Some((number, _)) => symbol(1, &[variable(*number)]),
        None => int(0),
    };
    let mut rule = RuleWords::new(rng.range(0, 65_535), left, right);
    Expressions { rng, bound: &bound }.conditions(&mut rule, configuration);
    rule
}

/// Changes a left at one or two of its nodes, or not at all.
fn disagree(rng: &mut Rng, left: &mut Words) {
    let mut places = places(rng, left, other_variables(left));
    places.sort_unstable();
    // The later place first, so that the earlier one stays where it is.
    for place in places.into_iter().rev() {
        let mut changed = left.clone();
        change_node(rng, &mut changed, 2 * place);
        // A changed key may not rise any more.
        if is_configuration(&changed) {
            *left = changed;
        }
    }
}

/// The nodes that are variables other than the first one.
fn other_variables(left: &[i64]) -> Vec<usize> {
    let first = first_variable(left);
    let nodes = left.chunks(2).enumerate();
    nodes
        .filter(|(_, node)| node[0] == 3 && Some(node[1]) != first)
        .map(|(place, _)| place)
        .collect()
}

fn first_variable(left: &[i64]) -> Option<i64> {
    let node = left.chunks(2).find(|node| node[0] == 3)?;
    Some(node[1])
}

/// Puts something else where a node stands: the first variable again in place of another one.
fn change_node(rng: &mut Rng, left: &mut Words, at: usize) {
    match first_variable(left) {
        Some(first) if left[at] == 3 && left[at + 1] != first => left[at + 1] = first,
        _ => {
            let end = term_end(left, at);
            let other = other(rng, &left[at..end]);
            left.splice(at..end, other);
        }
    }
}

/// Keeps each rule that applies to the configuration from doing so: one of its conditions fails.
pub(super) fn guard(rng: &mut Rng, rules: &mut [RuleWords], configuration: &[i64]) {
    let Some((term, _)) = Term::read(configuration, 32_768) else {
        return;
    };
    for rule in rules {
        let read = Table::read(&table(slice::from_ref(rule)));
        if read.is_some_and(|table| table.rules[0].obstacle(&term).is_none()) {
            fail(rng, rule, configuration);
        }
    }
}

/// Gives a rule that applies a condition that fails: often the last, behind some that hold, and now
/// and then before another that fails.
fn fail(rng: &mut Rng, rule: &mut RuleWords, configuration: &[i64]) {
    let bound = bound_by(&rule.left, configuration);
    rule.conditions.truncate(CONDITIONS - 1);
    let room = CONDITIONS - rule.conditions.len();
    for _ in 0..rng.below(room) {
        let mut expressions = Expressions { rng, bound: &bound };
        let holds = expressions.sure_condition(&rule.left, configuration, true);
        rule.conditions.insert(0, holds);
    }
    let count = rule.conditions.len();
    let place = match rng.below(2) {
        0 => count,
        _ => rng.below(count + 1),
    };
    let again = rng.percent(30) && count + 1 < CONDITIONS;
    for place in [place, count + 1].into_iter().take(1 + again as usize) {
        let mut expressions = Expressions { rng, bound: &bound };
        let fails = expressions.sure_condition(&rule.left, configuration, false);
        rule.conditions.insert(place, fails);
    }
}

/// What the variables of a left stand for that matches.
fn bound_by(left: &[i64], configuration: &[i64]) -> Bound {
    let mut bound = Bound::new();
    let mut at = 0;
    for node in left.chunks(2) {
        let end = match node[0] {
            3 => term_end(configuration, at),
            _ => at + 2,
        };
        if node[0] == 3 && bound.iter().all(|(number, _)| *number != node[1]) {
            bound.push((node[1], configuration[at..end].to_vec()));
        }
        at = end;
    }
    bound
}
