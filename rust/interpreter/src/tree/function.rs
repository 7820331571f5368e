//! The eighteen built-in functions.

use super::dictionary::{dictionary_of, empty, entries_of, lookup, update};
use super::term::{Label, Term};
use crate::limits;
use std::cmp::Ordering;

/// A built-in function.
#[derive(Clone, Copy, Debug, PartialEq, Eq, Hash)]
#[repr(i64)]
pub enum Function {
    /// `bool.true()`
    True = 0,
    /// `bool.false()`
    False = 1,
    /// `bool.neg(A)`
    Neg = 2,
    /// `bool.and(A,B)`
    And = 3,
    /// `bool.or(A,B)`
    Or = 4,
    /// `bool.eq(A,B)`
    BoolEq = 5,
    /// `bool.is(A)`
    BoolIs = 6,
    /// `z.is(A)`
    IntIs = 7,
    /// `z.plus(A,B)`
    Plus = 8,
    /// `z.minus(A,B)`
    Minus = 9,
    /// `z.eq(A,B)`
    IntEq = 10,
    /// `z.le(A,B)`
    Le = 11,
    /// `z.lt(A,B)`
    Lt = 12,
    /// `term.same_symbol(A,B)`
    SameSymbol = 13,
    /// `z.share(A,B,C)`
    Share = 14,
    /// `map.empty()`
    Empty = 15,
    /// `map.lookup(D,K)`
    Lookup = 16,
    /// `map.update(D,K,V)`
    Update = 17,
}

use Function::*;

/// The functions in the order of their codes.
const ALL: [Function; 18] = [
    True, False, Neg, And, Or, BoolEq, BoolIs, IntIs, Plus, Minus, IntEq, Le, Lt, SameSymbol,
    Share, Empty, Lookup, Update,
];

impl Function {
    /// The function of this code.
    pub fn from_code(code: i64) -> Option<Function> {
        ALL.get(usize::try_from(code).ok()?).copied()
    }

    /// The function's code, 0 to 17.
    pub fn code(self) -> i64 {
        self as i64
    }

    /// How many arguments it takes.
    pub fn arity(self) -> usize {
        match self {
            True | False | Empty => 0,
            Neg | BoolIs | IntIs => 1,
            And | Or | BoolEq | Plus | Minus | IntEq | Le | Lt | SameSymbol | Lookup => 2,
            Share | Update => 3,
        }
    }

    /// Its result. Only the functions on dictionaries look below their arguments' first nodes.
    pub fn apply(self, arguments: &[Term]) -> Term {
        use Label::{Bool, Dictionary, Int, Symbol};
        let error = || Term::leaf(Label::Error);
        let truth = |truth| Term::leaf(Bool(truth));
        let number = |number: Option<i64>| number.map_or_else(error, |n| Term::leaf(Int(n)));
        let labels: Vec<Label> = arguments.iter().map(Term::label).collect();
        match (self, &labels[..]) {
            (True, []) => truth(true),
            (False, []) => truth(false),
            (Neg, &[Bool(a)]) => truth(!a),
            (And, &[Bool(a), Bool(b)]) => truth(a && b),
            (Or, &[Bool(a), Bool(b)]) => truth(a || b),
            (BoolEq, &[Bool(a), Bool(b)]) => truth(a == b),
            (BoolIs, [a]) => truth(matches!(a, Bool(_))),
            (IntIs, [a]) => truth(matches!(a, Int(_))),
            (Plus, &[Int(a), Int(b)]) => number(a.checked_add(b)),
            (Minus, &[Int(a), Int(b)]) => number(a.checked_sub(b)),
            (IntEq, &[Int(a), Int(b)]) => truth(a == b),
            (Le, &[Int(a), Int(b)]) => truth(a <= b),
            (Lt, &[Int(a), Int(b)]) => truth(a < b),
            (SameSymbol, &[Symbol(a), Symbol(b)]) => truth(a == b),
            (SameSymbol, [_, _]) => truth(false),
            (Share, &[Int(a), Int(b), Int(c)]) => number(share(a, b, c)),
            (Empty, []) => dictionary_of(empty()),
            (Lookup, &[Dictionary, Int(key)]) => {
                lookup(&entries_of(&arguments[0]), key).unwrap_or_else(error)
            }
            (Update, &[Dictionary, Int(key), _]) => {
                let updated = update(&entries_of(&arguments[0]), key, &arguments[2]);
                updated.map_or_else(error, dictionary_of)
            }
            _ => error(),
        }
    }
}

/// A times B over C to the nearest, an exact half to the even neighbour, if the three are in range.
fn share(a: i64, b: i64, c: i64) -> Option<i64> {
    let factor = -limits::SHARE + 1..limits::SHARE;
    let divisor = 1..limits::SHARE;
    if factor.contains(&a) && factor.contains(&b) && divisor.contains(&c) {
        Some(nearest(a * b, c))
    } else {
        None
    }
}

/// `z` over `c` to the nearest: the quotient rounded down, or the next number; of an exact half the
/// even one.
fn nearest(z: i64, c: i64) -> i64 {
    let below = z.div_euclid(c);
    let above = below + 1;
    let doubled = 2 * z.rem_euclid(c);
    match doubled.cmp(&c) {
        Ordering::Less => below,
        Ordering::Greater => above,
        Ordering::Equal if below % 2 == 0 => below,
        Ordering::Equal => above,
    }
}
