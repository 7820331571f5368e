//! Tables with a configuration that they do something with.

use super::expressions::{Expressions, calls_on};
use super::meters;
use super::terms::{Bound, generalise, ground, leaf, map, number, symbol_number};
use crate::rng::Rng;
use crate::words::{
    RuleWords, Words, bush, call, chain, int, spin_rules, symbol, table, truth, variable,
};

/// Rules and a configuration.
#[derive(Clone, Debug)]
pub struct Game {
    /// The rules.
    pub rules: Vec<RuleWords>,
    /// The configuration.
    pub configuration: Words,
}

impl Game {
    /// The table's words.
    pub fn table(&self) -> Words {
        table(&self.rules)
    }
}

/// A game of any kind. About half of them have dictionaries.
pub fn game(rng: &mut Rng) -> Game {
    let mut game = match rng.below(1_600) {
        1_000..1_380 => meters::cabinet(rng),
        1_380..1_450 => meters::bare(rng),
        1_450..1_600 => meters::counters(rng),
        0..50 => spin(rng),
        50..230 => machine(rng),
        230..350 => stack(rng),
        350..520 => from_configuration(rng),
        520..640 => functions(rng),
        640..720 => shared(rng),
        720..870 => maze(rng),
        870..960 => rejoining(rng),
        960..990 => many_rules(rng),
        _ => large(rng),
    };
    if rng.percent(15) {
        mix(rng, &mut game);
    }
    if rng.percent(5) {
        let action = rng.range(0, 65_535);
        game.rules.iter_mut().for_each(|rule| rule.action = action);
    }
    game
}

/// Repeats a rule, or puts the rules in another order, or leaves them all out.
fn mix(rng: &mut Rng, game: &mut Game) {
    match rng.below(10) {
        0 => game.rules.clear(),
        1..5 => rng.shuffle(&mut game.rules),
        _ if game.rules.is_empty() => {}
        _ => {
            let rule = game.rules[rng.below(game.rules.len())].clone();
            game.rules.insert(rng.below(game.rules.len() + 1), rule);
        }
    }
    game.rules.truncate(256);
}

/// Few actions, so that rules share them.
pub(super) fn actions(rng: &mut Rng) -> Vec<i64> {
    let count = rng.pick(&[1, 2, 2, 3]);
    (0..count)
        .map(|_| match rng.below(5) {
            0 => rng.pick(&[0, 65_535]),
            1 => rng.range(0, 65_535),
            _ => rng.range(1, 20),
        })
        .collect()
}

/// The sample game, from another configuration.
fn spin(rng: &mut Rng) -> Game {
    let spin = |child| symbol(1, &[child]);
    let count = int(rng.range(-1, 4));
    let configuration = match rng.below(8) {
        0 => symbol(2, &[count.clone(), spin(count)]),
        1 => symbol(3, &[spin(count)]),
        2 => spin(leaf(rng)),
        _ => spin(count),
    };
    let mut rules = spin_rules();
    if rng.percent(30) {
        rules.push(RuleWords::new(
            10,
            variable(0),
            symbol(2, &[int(0), variable(0)]),
        ));
    }
    Game {
        rules,
        configuration,
    }
}

/// A root symbol with a few places, and rules that change what stands there.
fn machine(rng: &mut Rng) -> Game {
    let places = 1 + rng.below(4);
    let roots: Vec<i64> = (0..1 + rng.below(3)).map(|_| symbol_number(rng)).collect();
    let mut contents: Vec<Words> = (0..places).map(|_| content(rng)).collect();
    if rng.percent(40) {
        // Equal contents, for repeated variables.
        contents[places - 1] = contents[0].clone();
    }
    let configuration = symbol(roots[0], &contents);
    let actions = actions(rng);
    let count = 1 + rng.below(6);
    let rules = (0..count)
        .map(|_| {
            let action = rng.pick(&actions);
            let mut rule = rule_for(rng, action, &configuration, 75, 85);
            if rng.percent(30) && rule.left[0] >= 8 && rule.right[0] == rule.left[0] {
                rule.right[1] = rng.pick(&roots);
            }
            if rng.percent(15) && rule.left[0] >= 8 {
                rule.left[1] = rng.pick(&roots);
            }
            rule
        })
        .collect();
    Game {
        rules,
        configuration,
    }
}

/// What stands in a place of a machine.
fn content(rng: &mut Rng) -> Words {
    match rng.below(10) {
        0..5 => int(rng.range(-2, 5)),
        5 => int(number(rng)),
        6 => truth(rng.percent(50)),
        7 if rng.percent(50) => map(rng, 2, 3),
        _ => ground(rng, 6),
    }
}

/// A rule whose left comes from the configuration. The chances in a hundred: that a part becomes
/// a variable, and that the right is like the left.
fn rule_for(
    rng: &mut Rng,
    action: i64,
    configuration: &[i64],
    variable_chance: usize,
    like_chance: usize,
) -> RuleWords {
    let (left, bound) = generalise(rng, configuration, variable_chance);
    let like = rng.percent(like_chance);
    let mut expressions = Expressions { rng, bound: &bound };
    let right = if like {
        expressions.right_like(&left)
    } else {
        expressions.right(3)
    };
    let mut rule = RuleWords::new(action, left, right);
    expressions.conditions(&mut rule, configuration);
    rule
}

/// Terms that are put on each other, taken off, doubled, swapped and compared.
fn stack(rng: &mut Rng) -> Game {
    let x = || variable(0);
    let y = || variable(1);
    let f = symbol_number(rng);
    let g = symbol_number(rng);
    let item = leaf(rng);
    let all = [
        (x(), symbol(f, &[x()])),
        (x(), symbol(f, &[item.clone(), x()])),
        (x(), symbol(f, &[x(), item.clone()])),
        (symbol(f, &[x()]), x()),
        (symbol(f, &[x(), y()]), y()),
        (symbol(f, &[x(), y()]), x()),
        (x(), symbol(g, &[x(), x()])),
        (symbol(g, &[x(), x()]), x()),
        (symbol(g, &[x(), y()]), symbol(g, &[y(), x()])),
        (
            symbol(g, &[x(), symbol(f, &[y()])]),
            symbol(g, &[symbol(f, &[x()]), y()]),
        ),
        (symbol(f, &[symbol(f, &[x()])]), symbol(g, &[x(), x(), x()])),
        (
            symbol(g, &[x(), y(), x()]),
            symbol(f, &[call(13, &[x(), y()]), x()]),
        ),
    ];
    let actions = actions(rng);
    let rules = (0..2 + rng.below(6))
        .map(|_| {
            let (left, right) = all[rng.below(all.len())].clone();
            RuleWords::new(rng.pick(&actions), left, right)
        })
        .collect();
    let below = ground(rng, 8);
    let configuration = match rng.below(4) {
        0 => below,
        1 => symbol(f, &[below]),
        2 => symbol(f, &[item, below]),
        _ => symbol(g, &[below.clone(), below]),
    };
    Game {
        rules,
        configuration,
    }
}

/// Any configuration, and rules made for it or for one like it.
fn from_configuration(rng: &mut Rng) -> Game {
    let size = rng.pick(&[1, 3, 8, 16, 30]);
    let configuration = ground(rng, size);
    let actions = actions(rng);
    let chance = rng.pick(&[20, 40, 60]);
    let rules = (0..1 + rng.below(6))
        .map(|_| {
            let action = rng.pick(&actions);
            let mut model = configuration.clone();
            if rng.percent(25) {
                change_leaf(rng, &mut model);
            }
            rule_for(rng, action, &model, chance, 40)
        })
        .collect();
    Game {
        rules,
        configuration,
    }
}

/// Changes the number of one node. A key may be one that does not rise then.
fn change_leaf(rng: &mut Rng, configuration: &mut [i64]) {
    let at = 2 * rng.below(configuration.len() / 2);
    match configuration[at] {
        1 => configuration[at + 1] ^= 1,
        2 => configuration[at + 1] = number(rng),
        8.. => configuration[at + 1] = symbol_number(rng),
        _ => {}
    }
}

/// Calls of all functions on numbers near the limits and on other arguments.
fn functions(rng: &mut Rng) -> Game {
    let mut arguments = close_arguments(rng);
    let last = if rng.percent(30) { 17 } else { 14 };
    if last == 17 && rng.percent(60) {
        let place = rng.below(3);
        arguments[place] = map(rng, 2, 2);
    }
    let configuration = symbol(0, &arguments);
    let left = symbol(0, &[variable(0), variable(1), variable(2)]);
    let actions = actions(rng);
    let rules = (0..1 + rng.below(4))
        .map(|_| {
            let mut terms: Vec<Words> = vec![variable(0), variable(1), variable(2)];
            terms.push(rng.pick(&arguments_of(&arguments)).to_vec());
            rng.shuffle(&mut terms);
            let codes: Vec<i64> = (0..1 + rng.below(5)).map(|_| rng.range(0, last)).collect();
            let mut calls = calls_on(&terms, &codes);
            let bound: Bound = arguments
                .iter()
                .enumerate()
                .map(|(place, term)| (place as i64, term.clone()))
                .collect();
            let nested = Expressions { rng, bound: &bound }.any(4);
            calls.push(nested);
            let action = rng.pick(&actions);
            let mut rule = RuleWords::new(action, left.clone(), symbol(1, &calls));
            Expressions { rng, bound: &bound }.conditions(&mut rule, &configuration);
            rule
        })
        .collect();
    Game {
        rules,
        configuration,
    }
}

fn arguments_of(arguments: &[Words]) -> Vec<&[i64]> {
    arguments.iter().map(Words::as_slice).collect()
}

/// Three arguments, often numbers whose sum or difference is at the edge of 64 bits.
fn close_arguments(rng: &mut Rng) -> [Words; 3] {
    let first = number(rng);
    let edge = rng.pick(&[i64::MAX, i64::MIN]);
    let near = rng.range(-1, 1);
    let second = match rng.below(4) {
        0 => edge.wrapping_sub(first).wrapping_add(near),
        1 => first.wrapping_sub(edge).wrapping_add(near),
        2 => first.wrapping_add(near),
        _ => number(rng),
    };
    let mut arguments = [int(first), int(second), int(number(rng))];
    for argument in &mut arguments {
        if rng.percent(20) {
            *argument = ground(rng, 4);
        }
    }
    arguments
}

/// Several rules with one action, and many of them with the same successor.
fn shared(rng: &mut Rng) -> Game {
    let count = |child| symbol(5, &[child]);
    let x = || variable(0);
    let action = rng.range(0, 65_535);
    let other = rng.range(0, 65_535);
    let mut rules = Vec::new();
    for _ in 0..2 + rng.below(3) {
        let by = rng.pick(&[1, 1, 1, 2, -1, 0]);
        rules.push(RuleWords::new(
            action,
            count(x()),
            count(call(8, &[x(), int(by)])),
        ));
    }
    if rng.percent(30) {
        // Growth, for what goes over the limit.
        rules.push(RuleWords::new(action, count(x()), count(count(x()))));
    }
    let goal = rng.range(1, 6);
    rules.push(RuleWords::new(other, count(int(goal)), int(goal)));
    rng.shuffle(&mut rules);
    Game {
        rules,
        configuration: count(int(rng.range(0, 2))),
    }
}

/// A few places with ways between them that share two actions, so that a log can be followed in
/// many ways and most of them end. Some ways make the configuration larger, some smaller.
fn maze(rng: &mut Rng) -> Game {
    let x = || variable(0);
    let at = |place: i64, load: Words| symbol(2, &[int(place), load]);
    let places = rng.range(3, 8);
    let actions = [rng.range(0, 9), rng.pick(&[10, 65_535])];
    let ways = places as usize + rng.below(2 * places as usize);
    let rules = (0..ways)
        .map(|_| {
            let action = rng.pick(&actions);
            let from = rng.range(0, places - 1);
            let to = rng.range(0, places - 1);
            let wrapped = symbol(7, &[x()]);
            match rng.below(10) {
                0..2 => RuleWords::new(action, at(from, x()), at(to, wrapped)),
                2 => RuleWords::new(action, at(from, wrapped), at(to, x())),
                3 => RuleWords::new(action, at(from, x()), at(to, symbol(7, &[x(), x()]))),
                4 => {
                    let left = symbol(2, &[variable(1), x()]);
                    let next = call(8, &[variable(1), int(1)]);
                    let rule = RuleWords::new(action, left, symbol(2, &[next, x()]));
                    rule.when(call(12, &[variable(1), int(to)]), truth(true))
                }
                _ => RuleWords::new(action, at(from, x()), at(to, x())),
            }
        })
        .collect();
    Game {
        rules,
        configuration: at(0, int(0)),
    }
}

/// A few counters, and rules with one action that each move some of them, in any order: paths that
/// take the same moves meet again. A move can make the configuration larger, so that one takes the
/// place of what the search kept beside a smaller one. The second action asks for what is rare.
fn rejoining(rng: &mut Rng) -> Game {
    let places = 1 + rng.below(4);
    let all: Vec<Words> = (0..places as i64).map(variable).collect();
    let load = variable(places as i64);
    let at = |counters: &[Words], load: Words| symbol(3, &[counters, &[load]].concat());
    let action = rng.range(0, 65_535);
    let other = rng.range(0, 65_535);
    let mut rules: Vec<RuleWords> = (0..1 + rng.below(4))
        .map(|_| {
            let mut next = all.clone();
            let place = rng.below(places);
            next[place] = call(8, &[variable(place as i64), int(rng.pick(&[1, 1, 1, -1]))]);
            let carried = match rng.below(8) {
                0 => symbol(4, &[load.clone()]),
                1 => symbol(4, &[int(0), load.clone(), int(0)]),
                _ => load.clone(),
            };
            RuleWords::new(action, at(&all, load.clone()), at(&next, carried))
        })
        .collect();
    if rng.percent(60) {
        // The same successor by two rules.
        let rule = rules[rng.below(rules.len())].clone();
        rules.push(rule);
    }
    let mut goal = all.clone();
    goal[rng.below(places)] = int(rng.range(0, 6));
    rules.push(RuleWords::new(other, at(&goal, load), int(0)));
    let start = vec![int(0); places];
    let nodes = rng.pick(&[1, 1, 3, 12, 40]);
    Game {
        rules,
        configuration: at(&start, bush(nodes)),
    }
}

/// Up to 256 rules of which few match.
fn many_rules(rng: &mut Rng) -> Game {
    let configuration = symbol(rng.range(0, 9), &[int(rng.range(0, 20)), ground(rng, 5)]);
    let actions = actions(rng);
    let count = rng.pick(&[20, 60, 200, 255, 256]);
    let mut rules: Vec<RuleWords> = (0..count)
        .map(|_| {
            let from = rng.range(0, 9);
            let mut left = symbol(from, &[variable(0), variable(1)]);
            if rng.percent(60) {
                left = symbol(from, &[int(rng.range(0, 20)), variable(1)]);
            }
            let has_x = left[2] == 3;
            let next = if has_x {
                call(rng.pick(&[8, 9]), &[variable(0), int(1)])
            } else {
                int(rng.range(0, 20))
            };
            let right = symbol(rng.range(0, 9), &[next, variable(1)]);
            let rule = RuleWords::new(rng.pick(&actions), left, right);
            if has_x {
                let bound = int(rng.range(0, 20));
                rule.when(call(12, &[variable(0), bound]), truth(true))
            } else {
                rule
            }
        })
        .collect();
    let action = rng.pick(&actions);
    rules[count - 1] = rule_for(rng, action, &configuration, 60, 80);
    Game {
        rules,
        configuration,
    }
}

/// Configurations of up to 32,768 nodes, and rules that carry them along, compare or double them.
fn large(rng: &mut Rng) -> Game {
    let nodes = rng.pick(&[200, 2_000, 8_191, 16_383, 32_700]);
    let part = if rng.percent(50) {
        chain(nodes, symbol_number(rng))
    } else {
        bush(nodes)
    };
    let x = || variable(0);
    let y = || variable(1);
    let all = [
        (symbol(6, &[x(), y()]), symbol(6, &[y(), x()])),
        (symbol(6, &[x(), x()]), x()),
        (symbol(6, &[x(), y()]), symbol(6, &[x(), y(), x()])),
        (x(), symbol(6, &[x(), x()])),
        (x(), symbol(6, &[int(1), x()])),
        (
            symbol(6, &[x(), y()]),
            symbol(6, &[call(13, &[x(), y()]), y()]),
        ),
    ];
    let actions = actions(rng);
    let rules = (0..1 + rng.below(4))
        .map(|_| {
            let (left, right) = all[rng.below(all.len())].clone();
            let rule = RuleWords::new(rng.pick(&actions), left, right);
            if rng.percent(30) {
                rule.when(x(), x())
            } else {
                rule
            }
        })
        .collect();
    let configuration = match rng.below(3) {
        0 => part,
        1 if part.len() <= 32_760 => symbol(6, &[part.clone(), part]),
        _ => symbol(6, &[int(1), part]),
    };
    Game {
        rules,
        configuration,
    }
}
