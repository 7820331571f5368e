//! Numbers, ground terms, and lefts that match them.

use crate::rng::Rng;
use crate::words::{Words, dictionary, error, int, symbol, term_end, truth, variable};
use std::collections::BTreeSet;

/// A whole number: small ones, those at a limit of a function, and any.
pub(super) fn number(rng: &mut Rng) -> i64 {
    const M: i64 = 2_147_483_647;
    const EDGES: [i64; 16] = [
        i64::MAX,
        i64::MAX - 1,
        i64::MIN,
        i64::MIN + 1,
        M,
        M - 1,
        M + 1,
        -M,
        -M + 1,
        -M - 1,
        0,
        1,
        -1,
        2,
        3_037_000_499,
        1 << 32,
    ];
    match rng.below(10) {
        0..6 => rng.range(-3, 6),
        6..9 => rng.pick(&EDGES),
        _ => rng.word() as i64,
    }
}

/// A symbol's number: few different ones, so that they meet.
pub(super) fn symbol_number(rng: &mut Rng) -> i64 {
    if rng.percent(90) {
        rng.range(0, 3)
    } else {
        rng.pick(&[4_095, 4_094, 7, 1_000])
    }
}

/// A ground term of one node.
pub(super) fn leaf(rng: &mut Rng) -> Words {
    match rng.below(100) {
        0..10 => error(),
        10..30 => truth(rng.percent(50)),
        30..80 => int(number(rng)),
        80 => dictionary(&[]),
        _ => symbol(symbol_number(rng), &[]),
    }
}

/// So many keys that rise: near each other, or with those at the limits of a word.
pub(super) fn keys(rng: &mut Rng, count: usize) -> Vec<i64> {
    let last = 3 * count as i64;
    let edges = rng.percent(30);
    let mut keys = BTreeSet::new();
    while keys.len() < count {
        keys.insert(if edges && rng.percent(20) {
            number(rng)
        } else {
            rng.range(-2, last)
        });
    }
    keys.into_iter().collect()
}

/// A dictionary of so many entries, at most so many nodes in each value.
pub(super) fn map(rng: &mut Rng, count: usize, nodes: usize) -> Words {
    let keys = keys(rng, count);
    let entries: Vec<(i64, Words)> = keys
        .into_iter()
        .map(|key| {
            let value = match rng.below(10) {
                0..4 => int(rng.range(-2, 9)),
                4 if nodes > 2 => small_map(rng, nodes),
                _ => ground(rng, nodes),
            };
            (key, value)
        })
        .collect();
    dictionary(&entries)
}

/// A dictionary with entries, of at most so many nodes, three at least.
fn small_map(rng: &mut Rng, nodes: usize) -> Words {
    let count = 1 + rng.below(4.min((nodes - 1) / 2));
    map(rng, count, (nodes - 1) / count - 1)
}

/// A ground term of at most so many nodes.
pub(super) fn ground(rng: &mut Rng, nodes: usize) -> Words {
    if nodes <= 1 || rng.percent(15) {
        return leaf(rng);
    }
    if nodes > 2 && rng.percent(12) {
        return small_map(rng, nodes);
    }
    let most = 7.min(nodes - 1);
    let count = if rng.percent(70) {
        1 + rng.below(most.min(3))
    } else {
        rng.below(most + 1)
    };
    let number = symbol_number(rng);
    let mut rest = nodes - 1;
    let mut children: Vec<Words> = Vec::new();
    for child in 0..count {
        let after = count - child - 1;
        let share = 1 + rng.below(rest - after);
        // Equal children now and then, for repeated variables.
        let term = match children.last() {
            Some(last) if rng.percent(30) && last.len() / 2 <= rest - after => last.clone(),
            _ => ground(rng, share),
        };
        rest -= term.len() / 2;
        children.push(term);
    }
    symbol(number, &children)
}

/// A left's variables, with what each stood for when the left was made.
pub(super) type Bound = Vec<(i64, Words)>;

/// A left that matches a configuration, or nearly: parts of the configuration become variables.
/// The chance in a hundred that a part does is given. Below a dictionary none does.
pub(super) fn generalise(rng: &mut Rng, configuration: &[i64], chance: usize) -> (Words, Bound) {
    let mut left = Words::new();
    let mut bound = Bound::new();
    let mut at = 0;
    while at < configuration.len() {
        let chance = if at == 0 { chance / 5 } else { chance };
        if rng.percent(chance) {
            let end = term_end(configuration, at);
            let number = variable_for(rng, &configuration[at..end], &mut bound);
            left.extend(variable(number));
            at = end;
        } else if configuration[at] == 5 {
            let end = term_end(configuration, at);
            left.extend(&configuration[at..end]);
            at = end;
        } else {
            left.extend(&configuration[at..at + 2]);
            at += 2;
        }
    }
    (left, bound)
}

/// The variable for a part: one that stands for the same, or rarely for another, or a new one.
fn variable_for(rng: &mut Rng, part: &[i64], bound: &mut Bound) -> i64 {
    let same = bound.iter().find(|(_, term)| term == part);
    if let Some((number, _)) = same
        && rng.percent(60)
    {
        return *number;
    }
    let free: Vec<i64> = (0..16)
        .filter(|number| bound.iter().all(|(other, _)| other != number))
        .collect();
    if free.is_empty() || (!bound.is_empty() && rng.percent(4)) {
        return bound[rng.below(bound.len())].0;
    }
    let number = if rng.percent(70) {
        free[0]
    } else {
        rng.pick(&free)
    };
    bound.push((number, part.to_vec()));
    number
}
