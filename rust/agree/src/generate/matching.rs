//! Configurations made for a left: they match it, or differ at a chosen node.

use super::terms::{generalise, ground, leaf, map, number, symbol_number};
use crate::rng::Rng;
use crate::words::{
    RuleWords, Words, bush, child_count, dictionary, entries, int, symbol, term_end, terms, truth,
};
use interpreter::tree::Term;
use std::collections::BTreeMap;

/// A rule with a left of many nodes. Now and then its condition never holds.
pub(super) fn wide_rule(rng: &mut Rng) -> RuleWords {
    let left = wide_left(rng);
    let rule = RuleWords::new(rng.range(0, 65_535), left, int(0));
    if rng.percent(30) {
        rule.when(truth(true), truth(false))
    } else {
        rule
    }
}

/// A term of many nodes: reels side by side, meters beside something else, or any.
pub(super) fn wide_term(rng: &mut Rng) -> Words {
    match rng.below(10) {
        0..3 => window(rng),
        3..6 => {
            let count = rng.below(7);
            let children = [ground(rng, 8), map(rng, count, 6), ground(rng, 8)];
            symbol(symbol_number(rng), &children)
        }
        _ => ground(rng, 40),
    }
}

/// A left of many nodes.
fn wide_left(rng: &mut Rng) -> Words {
    let model = wide_term(rng);
    let chance = rng.pick(&[0, 10, 25, 40]);
    let (mut left, _) = generalise(rng, &model, chance);
    // The same variables again, wherever they come to stand.
    let different = rng.pick(&[1, 2, 3, 16]);
    for node in left.chunks_mut(2).filter(|node| node[0] == 3) {
        node[1] = rng.range(0, different - 1);
    }
    left
}

/// A window: reels with as many symbols each.
fn window(rng: &mut Rng) -> Words {
    let height = 1 + rng.below(7);
    let reels: Vec<Words> = (0..1 + rng.below(7))
        .map(|_| {
            let symbols: Vec<Words> = (0..height).map(|_| symbol(rng.range(0, 9), &[])).collect();
            symbol(21, &symbols)
        })
        .collect();
    symbol(20, &reels)
}

/// A configuration that matches the left, or differs at one or two of its nodes.
pub(super) fn configuration_for(rng: &mut Rng, left: &[i64]) -> Words {
    for _ in 0..10 {
        let places = places(rng, left, later_places(left));
        let words = Instance::new(rng, left, &places).term();
        if is_configuration(&words) {
            return words;
        }
    }
    // A game's left may itself have keys that do not rise.
    int(0)
}

/// Whether the words are a configuration, or a left: a changed key may not rise any more.
pub(super) fn is_configuration(words: &[i64]) -> bool {
    matches!(Term::read(words, 32_768), Some((_, [])))
}

/// The numbers of the left's nodes at which left and configuration are to differ: often the last, one
/// of these variables, or one in a dictionary.
pub(super) fn places(rng: &mut Rng, left: &[i64], variables: Vec<usize>) -> Vec<usize> {
    let nodes = left.len() / 2;
    let some = |rng: &mut Rng, among: Vec<usize>| match among.as_slice() {
        [] => rng.below(nodes),
        among => rng.pick(among),
    };
    let place = match rng.below(10) {
        0..3 => return Vec::new(),
        3 => 0,
        4 => nodes - 1,
        5..7 => some(rng, variables),
        7 => some(rng, in_dictionaries(left)),
        _ => rng.below(nodes),
    };
    let mut places = vec![place];
    if rng.percent(20) {
        places.push(rng.below(nodes));
    }
    places
}

/// The nodes that are variables which stood before.
fn later_places(left: &[i64]) -> Vec<usize> {
    let mut seen = [false; 16];
    let variables = left.chunks(2).enumerate().filter(|(_, node)| node[0] == 3);
    variables
        .filter(|(_, node)| std::mem::replace(&mut seen[node[1] as usize], true))
        .map(|(place, _)| place)
        .collect()
}

/// The nodes of dictionaries and below them.
fn in_dictionaries(left: &[i64]) -> Vec<usize> {
    let mut places = Vec::new();
    let mut at = 0;
    while at < left.len() {
        if left[at] == 5 {
            let end = term_end(left, at);
            places.extend(at / 2..end / 2);
            at = end;
        } else {
            at += 2;
        }
    }
    places
}

/// A term made along a left: what its variables stand for, and where it differs.
struct Instance<'a> {
    rng: &'a mut Rng,
    left: &'a [i64],
    at: usize,
    places: &'a [usize],
    bound: BTreeMap<i64, Words>,
}

impl<'a> Instance<'a> {
    fn new(rng: &'a mut Rng, left: &'a [i64], places: &'a [usize]) -> Instance<'a> {
        Instance {
            rng,
            left,
            at: 0,
            places,
            bound: BTreeMap::new(),
        }
    }

    /// The term of the left's part that comes next.
    fn term(&mut self) -> Words {
        let here = self.places.contains(&(self.at / 2));
        let (tag, datum) = (self.left[self.at], self.left[self.at + 1]);
        self.at += 2;
        if tag == 3 {
            let rng = &mut *self.rng;
            let bound = self.bound.entry(datum).or_insert_with(|| taken(rng));
            let mut words = bound.clone();
            if here {
                change(self.rng, &mut words);
            }
            return words;
        }
        let mut words = vec![tag, datum];
        for _ in 0..child_count(tag, datum) {
            words.extend(self.term());
        }
        if here { other(self.rng, &words) } else { words }
    }
}

/// What a variable takes.
fn taken(rng: &mut Rng) -> Words {
    match rng.below(40) {
        0 => bush(100),
        1 => map(rng, 64, 1),
        _ => ground(rng, 6),
    }
}

/// Changes a term at any of its nodes.
fn change(rng: &mut Rng, words: &mut Words) {
    let at = 2 * rng.below(words.len() / 2);
    let end = term_end(words, at);
    let other = other(rng, &words[at..end]);
    words.splice(at..end, other);
}

/// A term with another first node: another number above the same children, another count of
/// children, or something else.
pub(super) fn other(rng: &mut Rng, term: &[i64]) -> Words {
    loop {
        let mut words = term.to_vec();
        match (rng.below(4), term[0]) {
            (0..2, 1) => words[1] ^= 1,
            (0, 2) => words[1] = number(rng),
            (1..3, 2) => words[1] = words[1].wrapping_add(rng.pick(&[1, -1])),
            (0..2, 8..) => words[1] = symbol_number(rng),
            (2, 8..) => words = other_children(rng, term),
            (0..3, 5) => words = other_entries(rng, term),
            _ => words = ground(rng, 4),
        }
        if words[..2] != term[..2] {
            return words;
        }
    }
}

/// The symbol with a child more or less.
fn other_children(rng: &mut Rng, term: &[i64]) -> Words {
    let mut children = terms(&term[2..]);
    if children.is_empty() || children.len() < 7 && rng.percent(50) {
        children.push(leaf(rng));
    } else {
        children.pop();
    }
    symbol(term[1], &children)
}

/// The dictionary with an entry more or less.
fn other_entries(rng: &mut Rng, term: &[i64]) -> Words {
    let mut entries = entries(term);
    let above = match entries.last() {
        Some((last, _)) => last.checked_add(1),
        None => Some(number(rng)),
    };
    match above {
        Some(key) if entries.is_empty() || entries.len() < 64 && rng.percent(50) => {
            entries.push((key, leaf(rng)));
        }
        _ => {
            entries.pop();
        }
    }
    dictionary(&entries)
}
