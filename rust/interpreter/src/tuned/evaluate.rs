//! The value of expressions.
//!
//! Only a lookup and an update look below the first node of an argument, and all other functions
//! give one node. So most calls need only the first node of each argument's value, two words that
//! stay in registers. What a lookup finds is a part of the table or of the configuration, wherever
//! its dictionary lies, and is not copied.

use super::dictionary::{find, place_of};
use super::rules::Bindings;
use super::{BOOL, CALL, DICTIONARY, EMPTY, ERROR, INT, LOOKUP, Node, SYMBOL, VARIABLE, term_end};
use crate::limits;

/// The first node of a value.
pub(super) type Head = (i64, i64);

const FAILED: Head = (ERROR, 0);

/// Nodes that hold expressions, and what the variables stand for. Each function takes the place to
/// read from and gives the place behind what it has read.
#[derive(Clone, Copy)]
pub(super) struct Expressions<'a, const MAPS: bool> {
    pub(super) code: &'a [Node],
    pub(super) configuration: &'a [Node],
    pub(super) bindings: &'a Bindings,
}

/// A value: one node, or a part of the table or of the configuration.
#[derive(Clone, Copy)]
pub(super) enum Value<'a> {
    Node(Head),
    Part(&'a [Node]),
}

/// The value of a lookup or an update that stands under no call.
#[derive(Clone, Copy)]
pub(super) enum Made<'a> {
    /// What was found, or an error.
    Value(Value<'a>),
    /// A dictionary: so many entries, those before a key, the key, its value, those behind it.
    Updated(i64, &'a [Node], i64, Value<'a>, &'a [Node]),
}

impl Value<'_> {
    #[inline(always)]
    fn size(self) -> usize {
        match self {
            Value::Node(_) => 1,
            Value::Part(part) => part.len(),
        }
    }

    /// Writes the value from the start of `out`, and gives its size.
    #[inline(always)]
    fn write(self, out: &mut [Node]) -> usize {
        match self {
            Value::Node((tag, datum)) => out[0] = [tag, datum],
            Value::Part(part) => copy(part, &mut out[..part.len()]),
        }
        self.size()
    }
}

impl Made<'_> {
    /// Its nodes.
    pub(super) fn size(self) -> usize {
        match self {
            Made::Value(value) => value.size(),
            Made::Updated(_, before, _, value, behind) => {
                2 + before.len() + value.size() + behind.len()
            }
        }
    }

    /// Writes it from the start of `out`, and gives its size.
    pub(super) fn write(self, out: &mut [Node]) -> usize {
        match self {
            Made::Value(value) => value.write(out),
            Made::Updated(count, before, key, value, behind) => {
                out[0] = [DICTIONARY, count];
                let mut to = 1 + before.len();
                out[1..to].copy_from_slice(before);
                out[to] = [INT, key];
                to += 1;
                to += value.write(&mut out[to..]);
                out[to..to + behind.len()].copy_from_slice(behind);
                to + behind.len()
            }
        }
    }
}

/// Copies a part. Most are one node, for which a call of the system's copy is slow.
#[inline(always)]
pub(super) fn copy(part: &[Node], out: &mut [Node]) {
    if let ([from], [to]) = (part, &mut *out) {
        *to = *from;
    } else {
        out.copy_from_slice(part);
    }
}

/// Whether a literal with this tag may have nodes below it.
#[inline(always)]
fn has_parts<const MAPS: bool>(tag: i64) -> bool {
    tag > SYMBOL || MAPS && tag == DICTIONARY
}

/// The first term of these nodes.
#[inline(always)]
fn first_term(nodes: &[Node]) -> &[Node] {
    &nodes[..term_end::<true>(nodes, 0)]
}

impl<'a, const MAPS: bool> Expressions<'a, MAPS> {
    /// Whether the two expressions here have the same value.
    #[inline(always)]
    pub(super) fn condition_holds(self, at: usize) -> (bool, usize) {
        let (one, at) = self.value(at);
        let (two, at) = self.value(at);
        let holds = match (one, two) {
            (Value::Node(one), Value::Node(two)) => one == two,
            (Value::Part(one), Value::Part(two)) => one == two,
            (Value::Node(node), Value::Part(part)) | (Value::Part(part), Value::Node(node)) => {
                part.len() == 1 && part[0] == [node.0, node.1]
            }
        };
        (holds, at)
    }

    #[inline(always)]
    fn value(self, at: usize) -> (Value<'a>, usize) {
        let [tag, datum] = self.code[at];
        match tag {
            VARIABLE => {
                let part = self.bindings.part(datum, self.configuration);
                (Value::Part(part), at + 1)
            }
            CALL if MAPS && datum == LOOKUP => {
                let (found, at) = self.lookup(at + 1);
                let found = found.map(|nodes| Value::Part(first_term(nodes)));
                (found.unwrap_or(Value::Node(FAILED)), at)
            }
            CALL => {
                let (head, at) = self.call(datum, at + 1);
                (Value::Node(head), at)
            }
            _ if has_parts::<MAPS>(tag) => {
                let end = term_end::<MAPS>(self.code, at);
                (Value::Part(&self.code[at..end]), end)
            }
            _ => (Value::Node((tag, datum)), at + 1),
        }
    }

    /// The first node of an expression's value.
    #[inline(always)]
    fn head(self, at: usize) -> (Head, usize) {
        let [tag, datum] = self.code[at];
        match tag {
            VARIABLE => {
                let [tag, datum] = self.configuration[self.bindings.start(datum)];
                ((tag, datum), at + 1)
            }
            CALL => self.inner_call(datum, at + 1),
            _ if has_parts::<MAPS>(tag) => ((tag, datum), term_end::<MAPS>(self.code, at)),
            _ => ((tag, datum), at + 1),
        }
    }

    /// The value of a call within a call: the one place that recurses.
    #[inline(never)]
    fn inner_call(self, code: i64, at: usize) -> (Head, usize) {
        self.call(code, at)
    }

    /// The value of a call whose arguments are here. Most calls are of numbers, so these go first.
    #[inline(always)]
    pub(super) fn call(self, code: i64, at: usize) -> (Head, usize) {
        match code {
            8..=13 => {
                let (a, at) = self.head(at);
                let (b, at) = self.head(at);
                (binary(code, a, b), at)
            }
            _ => self.other_call(code, at),
        }
    }

    /// The same for the functions of truth values, `z.share`, and those of dictionaries.
    #[inline(never)]
    fn other_call(self, code: i64, at: usize) -> (Head, usize) {
        if code < 2 {
            return (truth(code == 0), at);
        }
        if MAPS && code == EMPTY {
            return ((DICTIONARY, 0), at);
        }
        if MAPS && code == LOOKUP {
            let (found, at) = self.lookup(at);
            return (found.map_or(FAILED, |nodes| (nodes[0][0], nodes[0][1])), at);
        }
        let (a, at) = self.head(at);
        if code == 2 || code == 6 || code == 7 {
            return (unary(code, a), at);
        }
        let (b, at) = self.head(at);
        if code != 14 {
            return (connective(code, a, b), at);
        }
        let (c, at) = self.head(at);
        (share(a, b, c), at)
    }

    /// What a lookup finds whose arguments are here: the nodes from the value's first on.
    #[inline(never)]
    fn lookup(self, at: usize) -> (Option<&'a [Node]>, usize) {
        let (dictionary, at) = self.dictionary(at);
        let (key, at) = self.head(at);
        match (dictionary, key) {
            (Some(dictionary), (INT, key)) => (find(key, dictionary), at),
            _ => (None, at),
        }
    }

    /// The value of the expression here if it is a dictionary: the nodes from its first on. There
    /// are none behind it, unless a lookup finds it.
    #[inline(always)]
    fn dictionary(self, at: usize) -> (Option<&'a [Node]>, usize) {
        let [tag, datum] = self.code[at];
        let (value, end) = match tag {
            VARIABLE => (self.bindings.part(datum, self.configuration), at + 1),
            CALL if datum == LOOKUP => {
                let (found, end) = self.lookup(at + 1);
                (found.unwrap_or(&[]), end)
            }
            CALL if datum == EMPTY => (&[[DICTIONARY, 0]][..], at + 1),
            // No other function gives one.
            CALL => (&[][..], self.inner_call(datum, at + 1).1),
            _ => {
                let end = term_end::<true>(self.code, at);
                (&self.code[at..end], end)
            }
        };
        let is = value.first().is_some_and(|node| node[0] == DICTIONARY);
        (is.then_some(value), end)
    }

    /// The value of the lookup or update here.
    #[inline(always)]
    pub(super) fn made(self, at: usize) -> (Made<'a>, usize) {
        if self.code[at][1] == LOOKUP {
            let (value, end) = self.value(at);
            (Made::Value(value), end)
        } else {
            self.update(at + 1)
        }
    }

    /// The value of an update whose arguments are here.
    fn update(self, at: usize) -> (Made<'a>, usize) {
        let found = self.code[at] == [CALL, LOOKUP];
        let (dictionary, at) = self.dictionary(at);
        let (key, at) = self.head(at);
        let (value, at) = self.value(at);
        match (dictionary, key) {
            (Some(nodes), (INT, key)) => {
                let dictionary = if found { first_term(nodes) } else { nodes };
                (updated(dictionary, key, value), at)
            }
            _ => (Made::Value(Value::Node(FAILED)), at),
        }
    }
}

/// A dictionary with the value at the key: replaced, or put in its place if there is room.
#[inline(always)]
fn updated<'a>(dictionary: &'a [Node], key: i64, value: Value<'a>) -> Made<'a> {
    let place = place_of(key, dictionary);
    let (behind, count) = if place.found {
        (term_end::<true>(dictionary, place.at + 1), dictionary[0][1])
    } else {
        (place.at, dictionary[0][1] + 1)
    };
    if count > limits::ENTRIES as i64 {
        return Made::Value(Value::Node(FAILED));
    }
    let before = &dictionary[1..place.at];
    Made::Updated(count, before, key, value, &dictionary[behind..])
}

#[inline(always)]
fn truth(truth: bool) -> Head {
    (BOOL, truth as i64)
}

#[inline(always)]
fn number(number: Option<i64>) -> Head {
    number.map_or(FAILED, |number| (INT, number))
}

#[inline(always)]
fn unary(code: i64, a: Head) -> Head {
    match code {
        6 => truth(a.0 == BOOL),
        7 => truth(a.0 == INT),
        _ if a.0 == BOOL => truth(a.1 == 0),
        _ => FAILED,
    }
}

fn connective(code: i64, a: Head, b: Head) -> Head {
    if a.0 != BOOL || b.0 != BOOL {
        return FAILED;
    }
    match code {
        3 => truth(a.1 & b.1 == 1),
        4 => truth(a.1 | b.1 == 1),
        _ => truth(a.1 == b.1),
    }
}

#[inline(always)]
fn binary(code: i64, a: Head, b: Head) -> Head {
    if code == 13 {
        return truth(a.0 >= SYMBOL && b.0 >= SYMBOL && a.1 == b.1);
    }
    if a.0 != INT || b.0 != INT {
        return FAILED;
    }
    match code {
        8 => number(a.1.checked_add(b.1)),
        9 => number(a.1.checked_sub(b.1)),
        10 => truth(a.1 == b.1),
        11 => truth(a.1 <= b.1),
        _ => truth(a.1 < b.1),
    }
}

/// `z` over `c`, toward zero, and one further where twice the rest is above `c`, or equal to it and
/// the quotient odd.
#[inline(always)]
fn nearest(z: i64, c: i64) -> i64 {
    let (quotient, rest) = (z / c, z % c);
    let further = 2 * rest.abs() + (quotient & 1) > c;
    quotient + if further { z.signum() } else { 0 }
}

fn share(a: Head, b: Head, c: Head) -> Head {
    let factor = |a: Head| a.0 == INT && -limits::SHARE < a.1 && a.1 < limits::SHARE;
    if factor(a) && factor(b) && factor(c) && c.1 > 0 {
        (INT, nearest(a.1 * b.1, c.1))
    } else {
        FAILED
    }
}
