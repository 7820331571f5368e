//! Games whose meters lie in a dictionary.

use super::expressions::{Expressions, Kind};
use super::games::{Game, actions};
use super::terms::{Bound, ground, map, symbol_number};
use crate::rng::Rng;
use crate::words::{
    LOOKUP, RuleWords, UPDATE, Words, call, dictionary, entries, int, symbol, truth, variable,
};

/// A cabinet: its meters, a number and something else, and rules that look meters up and update
/// them.
pub(super) fn cabinet(rng: &mut Rng) -> Game {
    let root = symbol_number(rng);
    let meters = meters(rng);
    let key = entries(&meters).first().map_or(0, |(key, _)| *key);
    let number = int(rng.pick(&[key, 0, 1, 5]));
    // The meters twice, for repeated variables.
    let other = if rng.percent(25) {
        meters.clone()
    } else {
        ground(rng, 4)
    };
    let parts = [meters, number, other];
    let bound: Bound = (0..).zip(parts.iter().cloned()).collect();
    let configuration = symbol(root, &parts);
    let actions = actions(rng);
    let rules = (0..1 + rng.below(5))
        .map(|_| {
            let action = rng.pick(&actions);
            cabinet_rule(rng, action, root, &bound, &configuration)
        })
        .collect();
    Game {
        rules,
        configuration,
    }
}

/// Meters: few, or as many as there may be, or nearly; some hold dictionaries.
fn meters(rng: &mut Rng) -> Words {
    let count = match rng.below(20) {
        0 => 0,
        1..3 => 1,
        3..12 => 2 + rng.below(5),
        12..14 => 6 + rng.below(50),
        14..16 => 63,
        _ => 64,
    };
    let nodes = if count < 8 { 6 } else { 1 };
    map(rng, count, nodes)
}

fn cabinet_rule(
    rng: &mut Rng,
    action: i64,
    root: i64,
    bound: &Bound,
    configuration: &[i64],
) -> RuleWords {
    let literal = rng.percent(10);
    let repeated = !literal && rng.percent(if bound[0].1 == bound[2].1 { 60 } else { 2 });
    let other = variable(if repeated { 0 } else { 2 });
    let meters = if literal {
        bound[0].1.clone()
    } else {
        variable(0)
    };
    let left = symbol(root, &[meters, variable(1), other.clone()]);
    let known: Bound = bound[literal as usize..3 - repeated as usize].to_vec();
    let mut expressions = Expressions { rng, bound: &known };
    let right = cabinet_right(&mut expressions, root, literal, other);
    let mut rule = RuleWords::new(action, left, right);
    if expressions.rng.percent(50) {
        let looked = expressions.lookup(Kind::Int, 2);
        let test = match expressions.rng.below(3) {
            0 => [looked.clone(), looked],
            1 => [call(11, &[int(-2), looked]), truth(true)],
            _ => [looked, int(expressions.rng.range(-2, 9))],
        };
        rule.conditions.push(test);
    } else {
        expressions.conditions(&mut rule, configuration);
    }
    let fits = |words: &Words| words.len() <= 2 * 512;
    rule.conditions.retain(|sides| sides.iter().all(fits));
    if !fits(&rule.left) || !fits(&rule.right) {
        return RuleWords::new(action, variable(0), variable(0));
    }
    rule
}

/// What becomes of a cabinet. Where the left has its meters as a literal, there is no variable for
/// them.
fn cabinet_right(expressions: &mut Expressions, root: i64, literal: bool, other: Words) -> Words {
    let kept = if literal { call(15, &[]) } else { variable(0) };
    let choice = expressions.rng.below(20);
    match choice {
        0..9 => {
            let number = match expressions.rng.below(3) {
                0 => variable(1),
                1 => call(8, &[variable(1), int(1)]),
                _ => expressions.lookup(Kind::Int, 2),
            };
            symbol(root, &[expressions.update(2), number, other])
        }
        // A meter gains.
        9..12 => {
            let key = variable(1);
            let gained = call(8, &[call(LOOKUP, &[kept.clone(), key.clone()]), int(1)]);
            let updated = call(UPDATE, &[kept, key, gained]);
            symbol(root, &[updated, variable(1), other])
        }
        12 => expressions.update(3),
        13..15 => {
            let found = expressions.lookup(Kind::Any, 2);
            symbol(root, &[kept, variable(1), found])
        }
        15 => expressions.lookup(Kind::Any, 3),
        // A dictionary among the meters takes their place.
        16 => symbol(root, &[expressions.lookup(Kind::Map, 2), variable(1), kept]),
        17..19 => symbol(
            root,
            &[
                expressions.update(2),
                variable(1),
                symbol(
                    3,
                    &[expressions.update(1), expressions.lookup(Kind::Any, 1)],
                ),
            ],
        ),
        _ => expressions.right(3),
    }
}

/// Meters alone: the configuration is a dictionary.
pub(super) fn bare(rng: &mut Rng) -> Game {
    let configuration = meters(rng);
    let bound: Bound = vec![(0, configuration.clone())];
    let actions = actions(rng);
    let rules = (0..1 + rng.below(4))
        .map(|_| {
            let action = rng.pick(&actions);
            let mut expressions = Expressions { rng, bound: &bound };
            let right = match expressions.rng.below(4) {
                0 => expressions.lookup(Kind::Any, 2),
                _ => expressions.update(2),
            };
            let mut rule = RuleWords::new(action, variable(0), right);
            expressions.conditions(&mut rule, &configuration);
            rule
        })
        .collect();
    Game {
        rules,
        configuration,
    }
}

/// Counters in a dictionary, and rules with one action that each raise one of them, or put it
/// there: paths that take the same moves meet again. The second action asks for what is rare.
pub(super) fn counters(rng: &mut Rng) -> Game {
    let places = 1 + rng.below(4) as i64;
    let x = || variable(0);
    let at = |counters: Words| symbol(3, &[counters]);
    let action = rng.range(0, 65_535);
    let other = rng.range(0, 65_535);
    let start: Vec<(i64, Words)> = (0..places).map(|place| (place, int(0))).collect();
    let mut rules: Vec<RuleWords> = (0..1 + rng.below(4))
        .map(|_| {
            let key = int(rng.range(0, places - 1));
            let next = match rng.below(8) {
                0 => symbol(4, &[]),
                1 => symbol(4, &[int(0), int(0)]),
                _ => call(8, &[call(LOOKUP, &[x(), key.clone()]), int(1)]),
            };
            let key = if rng.percent(15) { int(places) } else { key };
            RuleWords::new(action, at(x()), at(call(UPDATE, &[x(), key, next])))
        })
        .collect();
    if rng.percent(60) {
        // The same successor by two rules.
        let rule = rules[rng.below(rules.len())].clone();
        rules.push(rule);
    }
    let key = int(rng.range(0, places - 1));
    let goal = int(rng.range(0, 6));
    rules.push(RuleWords::new(other, at(x()), int(0)).when(call(LOOKUP, &[x(), key]), goal));
    Game {
        rules,
        configuration: at(dictionary(&start)),
    }
}
