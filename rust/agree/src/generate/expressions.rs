//! Expressions, rights and conditions over the variables of a left.

use super::terms::{Bound, ground, leaf, map, number, symbol_number};
use crate::rng::Rng;
use crate::words::{
    ARITIES, EMPTY, LOOKUP, RuleWords, UPDATE, Words, call, entries, error, int, symbol, truth,
    variable,
};
use interpreter::tree::{Term, matches, value};

/// What an argument should be.
#[derive(Clone, Copy, PartialEq)]
pub(super) enum Kind {
    Bool,
    Int,
    Map,
    Any,
}

fn kind_of(term: &[i64]) -> Kind {
    match term[0] {
        1 => Kind::Bool,
        2 => Kind::Int,
        5 => Kind::Map,
        _ => Kind::Any,
    }
}

/// The kind of the function's arguments and of its value. (A lookup goes its own way.)
fn signature(code: i64) -> (Kind, Kind) {
    match code {
        0..=5 => (Kind::Bool, Kind::Bool),
        6 | 7 | 13 => (Kind::Any, Kind::Bool),
        10..=12 => (Kind::Int, Kind::Bool),
        _ => (Kind::Int, Kind::Int),
    }
}

/// Makes expressions over the variables of a left.
pub(super) struct Expressions<'a> {
    pub(super) rng: &'a mut Rng,
    pub(super) bound: &'a Bound,
}

impl Expressions<'_> {
    /// Any expression, with calls so deep at most.
    pub(super) fn any(&mut self, depth: usize) -> Words {
        match self.rng.below(4) {
            0 => self.of(Kind::Bool, depth),
            1 | 2 => self.of(Kind::Int, depth),
            _ => self.of(Kind::Any, depth),
        }
    }

    /// An expression that should have such a value.
    fn of(&mut self, kind: Kind, depth: usize) -> Words {
        // Another kind now and then: the value is an error then.
        let kind = if self.rng.percent(6) { Kind::Any } else { kind };
        if depth == 0 || self.rng.percent(40) {
            return self.leaf(kind);
        }
        if kind == Kind::Map || self.has_map() && self.rng.percent(35) {
            return self.lookup(kind, depth);
        }
        let code = loop {
            let code = self.rng.range(0, 14);
            if kind == Kind::Any || signature(code).1 == kind {
                break code;
            }
        };
        self.call(code, depth)
    }

    /// Whether a variable stands for a dictionary. Now and then one might.
    fn has_map(&mut self) -> bool {
        self.rng.percent(1) || self.bound.iter().any(|(_, term)| term[0] == 5)
    }

    /// A dictionary as an expression, and the dictionary that it should be: a variable, what a
    /// lookup finds, a literal, or the empty one.
    fn map(&mut self, depth: usize) -> (Words, Words) {
        let maps: Vec<&(i64, Words)> = self.bound.iter().filter(|(_, term)| term[0] == 5).collect();
        let (mut expression, mut words) = match self.rng.below(20) {
            0 => (call(EMPTY, &[]), vec![5, 0]),
            1..4 => {
                let count = self.rng.below(4);
                let literal = map(self.rng, count, 3);
                (literal.clone(), literal)
            }
            _ if maps.is_empty() => (vec![5, 0], vec![5, 0]),
            _ => {
                let (number, term) = maps[self.rng.below(maps.len())];
                (variable(*number), term.clone())
            }
        };
        for _ in 0..depth {
            let inner: Vec<(i64, Words)> = entries(&words)
                .into_iter()
                .filter(|(_, value)| value[0] == 5)
                .collect();
            if inner.is_empty() || self.rng.percent(40) {
                break;
            }
            let (key, value) = &inner[self.rng.below(inner.len())];
            expression = call(LOOKUP, &[expression, int(*key)]);
            words = value.clone();
        }
        (expression, words)
    }

    /// A lookup that should find such a value, if the dictionary has one.
    pub(super) fn lookup(&mut self, kind: Kind, depth: usize) -> Words {
        let (map, words) = self.map(depth);
        let all = entries(&words);
        let wanted: Vec<i64> = all
            .iter()
            .filter(|(_, value)| kind == Kind::Any || kind_of(value) == kind)
            .map(|(key, _)| *key)
            .collect();
        let key = match self.rng.below(20) {
            0 => self.of(Kind::Any, depth.saturating_sub(1)),
            1 => self.of(Kind::Int, depth.saturating_sub(1)),
            2 => int(number(self.rng)),
            3..5 => int(self.other_key(&words)),
            _ if wanted.is_empty() => int(self.some_key(&words)),
            _ => int(self.rng.pick(&wanted)),
        };
        if self.rng.percent(4) {
            return call(LOOKUP, &[self.leaf(Kind::Any), key]);
        }
        call(LOOKUP, &[map, key])
    }

    /// A key of the dictionary, if it has one.
    fn some_key(&mut self, words: &[i64]) -> i64 {
        match entries(words).as_slice() {
            [] => self.rng.range(-1, 3),
            all => all[self.rng.below(all.len())].0,
        }
    }

    /// A key that the dictionary should not have: below all, above all, or between two.
    fn other_key(&mut self, words: &[i64]) -> i64 {
        let all = entries(words);
        let (Some(first), Some(last)) = (all.first(), all.last()) else {
            return self.rng.range(-1, 3);
        };
        let gap = all
            .windows(2)
            .find(|two| two[0].0.wrapping_add(1) < two[1].0);
        match (self.rng.below(3), gap) {
            (0, _) => first.0.wrapping_sub(self.rng.range(1, 3)),
            (1, Some(two)) => two[0].0 + 1,
            _ => last.0.wrapping_add(self.rng.range(1, 3)),
        }
    }

    /// An update: it replaces a value, or puts one in front, in the middle or at the end. Rarely it
    /// has an argument of another kind.
    pub(super) fn update(&mut self, depth: usize) -> Words {
        let (mut map, words) = self.map(depth);
        if self.rng.percent(4) {
            map = self.leaf(Kind::Any);
        }
        let key = match self.rng.below(20) {
            0 => self.of(Kind::Any, depth),
            1..3 => self.of(Kind::Int, depth),
            3..10 => int(self.some_key(&words)),
            _ => int(self.other_key(&words)),
        };
        let value = match self.rng.below(10) {
            0 => error(),
            1 => self.map(depth).0,
            2 => ground(self.rng, 5),
            3..6 => self.lookup(Kind::Any, depth),
            _ => self.any(depth),
        };
        call(UPDATE, &[map, key, value])
    }

    /// A call of this function.
    fn call(&mut self, code: i64, depth: usize) -> Words {
        if code == 13 && self.rng.percent(40) {
            return self.same_symbol();
        }
        let (kind, _) = signature(code);
        let count = ARITIES[code as usize];
        let arguments: Vec<Words> = (0..count)
            .map(|place| {
                if code == 14 && self.rng.percent(60) {
                    int(self.share_argument(place))
                } else {
                    self.of(kind, depth - 1)
                }
            })
            .collect();
        call(code, &arguments)
    }

    /// A comparison of two symbols, often of the same one with other children.
    fn same_symbol(&mut self) -> Words {
        let number = symbol_number(self.rng);
        let mut arguments = vec![
            symbol(number, &[]),
            symbol(number, &[leaf(self.rng), leaf(self.rng)]),
        ];
        let symbols: Vec<i64> = self
            .bound
            .iter()
            .filter(|(_, term)| term[0] >= 8)
            .map(|(number, _)| *number)
            .collect();
        if !symbols.is_empty() {
            arguments[0] = variable(self.rng.pick(&symbols));
        }
        self.rng.shuffle(&mut arguments);
        call(13, &arguments)
    }

    /// A number in the range of `z.share`'s argument, or one beyond. Some are so small that the
    /// value is often an exact half.
    fn share_argument(&mut self, place: usize) -> i64 {
        const M: i64 = 2_147_483_647;
        if self.rng.percent(40) {
            return match place {
                2 => self.rng.pick(&[2, 2, 4, 6, 20, 100]),
                _ => self.rng.pick(&[1, 3, -1, -3, 5, -5, 7, -9, 25, -50, 150]),
            };
        }
        let number = self.rng.pick(&[
            M,
            M - 1,
            -M,
            M + 1,
            -M - 1,
            0,
            1,
            2,
            3,
            -1,
            7,
            -7,
            100,
            1_000_003,
            -65_537,
        ]);
        if place == 2 && self.rng.percent(80) {
            number.abs().max(1)
        } else {
            number
        }
    }

    /// An expression without a call.
    fn leaf(&mut self, kind: Kind) -> Words {
        let of_kind: Vec<i64> = self
            .bound
            .iter()
            .filter(|(_, term)| kind == Kind::Any || kind_of(term) == kind)
            .map(|(number, _)| *number)
            .collect();
        if !of_kind.is_empty() && self.rng.percent(75) {
            return variable(self.rng.pick(&of_kind));
        }
        match kind {
            Kind::Bool => truth(self.rng.percent(50)),
            Kind::Int => int(number(self.rng)),
            Kind::Map => self.map(0).0,
            Kind::Any if self.rng.percent(50) => leaf(self.rng),
            Kind::Any => ground(self.rng, 6),
        }
    }

    /// A right of a random shape.
    pub(super) fn right(&mut self, depth: usize) -> Words {
        if depth == 0 || self.rng.percent(45) {
            return match self.rng.below(10) {
                0..6 if !self.bound.is_empty() => {
                    variable(self.bound[self.rng.below(self.bound.len())].0)
                }
                0..7 => self.any(2),
                7 if self.has_map() => self.update(2),
                7 => self.any(2),
                _ => ground(self.rng, 4),
            };
        }
        let count = self.rng.below(4);
        let children: Vec<Words> = (0..count).map(|_| self.right(depth - 1)).collect();
        symbol(symbol_number(self.rng), &children)
    }

    /// A right of the left's shape, so that the rule may apply to its own successor: a variable
    /// becomes an expression of the same kind.
    pub(super) fn right_like(&mut self, left: &[i64]) -> Words {
        let mut right = Words::new();
        for node in left.chunks(2) {
            let bound = self.bound.iter().find(|(number, _)| *number == node[1]);
            match bound {
                Some((_, term)) if node[0] == 3 && self.rng.percent(60) => {
                    right.extend(match kind_of(term) {
                        Kind::Any => self.leaf(Kind::Any),
                        Kind::Map if self.rng.percent(80) => self.update(2),
                        kind => self.of(kind, 2),
                    });
                }
                _ => right.extend(node),
            }
        }
        right
    }

    /// Both sides of a condition, often one that holds for what the variables stood for, or one
    /// that surely does.
    fn condition(&mut self, left: &[i64], configuration: &[i64], sure: bool) -> [Words; 2] {
        let one = self.any(3);
        let two = match self.rng.below(10) {
            _ if sure => self.value(&one, left, configuration),
            0 => one.clone(),
            1 => self.any(3),
            2 => truth(self.rng.percent(50)),
            3 => call(self.rng.range(0, 1), &[]),
            4 => self.near(&one, left, configuration),
            _ => self.value(&one, left, configuration),
        };
        if self.rng.percent(20) {
            [two, one]
        } else {
            [one, two]
        }
    }

    /// Both sides of a condition that surely holds, or surely fails, if the left matches.
    pub(super) fn sure_condition(
        &mut self,
        left: &[i64],
        configuration: &[i64],
        holds: bool,
    ) -> [Words; 2] {
        let sides = if holds {
            self.condition(left, configuration, true)
        } else {
            let one = self.any(3);
            let two = self.near(&one, left, configuration);
            [one, two]
        };
        if fit(&sides) {
            sides
        } else {
            [truth(true), truth(holds)]
        }
    }

    /// The value of an expression for what the variables stood for, if the left matched.
    fn value(&mut self, expression: &[i64], left: &[i64], configuration: &[i64]) -> Words {
        let read = |words| Term::read(words, 32_768).map(|(term, _)| term);
        let (Some(expression), Some(left), Some(configuration)) =
            (read(expression), read(left), read(configuration))
        else {
            return truth(true);
        };
        match matches(&left, &configuration) {
            Some(valuation) => value(&expression, &valuation).words(),
            None => truth(true),
        }
    }

    /// Something else of the value's kind.
    fn near(&mut self, expression: &[i64], left: &[i64], configuration: &[i64]) -> Words {
        let mut words = self.value(expression, left, configuration);
        match words[0] {
            1 => words[1] = 1 - words[1],
            2 => words[1] = words[1].wrapping_add(1),
            8..=15 => words[1] = (words[1] + 1) % 4_096,
            _ => words = int(0),
        }
        words
    }

    /// Gives a rule a few conditions, rarely as many as there may be.
    pub(super) fn conditions(&mut self, rule: &mut RuleWords, configuration: &[i64]) {
        let count = match self.rng.below(20) {
            0..9 => 0,
            9..15 => 1,
            15..17 => 2,
            17..19 => 3,
            _ => 8,
        };
        for _ in 0..count {
            let sure = count > 1 && self.rng.percent(90);
            let condition = self.condition(&rule.left, configuration, sure);
            if fit(&condition) {
                rule.conditions.push(condition);
            }
        }
    }
}

/// Whether both sides of a condition have no more nodes than they may have.
fn fit(condition: &[Words; 2]) -> bool {
    condition.iter().all(|side| side.len() <= 2 * 512)
}

/// A call of each function on these arguments, in turn as often as they last.
pub(super) fn calls_on(arguments: &[Words], codes: &[i64]) -> Vec<Words> {
    let mut rest = arguments.iter().cycle();
    codes
        .iter()
        .map(|&code| {
            let count = ARITIES[code as usize];
            let taken: Vec<Words> = rest.by_ref().take(count).cloned().collect();
            call(code, &taken)
        })
        .collect()
}
