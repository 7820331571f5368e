//! Terms as trees.

use super::dictionary::has_rising_keys;
use super::function::Function;
use crate::limits;
use std::mem;
use std::rc::Rc;

/// What stands at a node.
#[derive(Clone, Copy, Debug, PartialEq, Eq, Hash)]
pub enum Label {
    /// Tag 0.
    Error,
    /// Tag 1.
    Bool(bool),
    /// Tag 2.
    Int(i64),
    /// Tag 3.
    Variable(u8),
    /// Tag 4.
    Call(Function),
    /// Tag 5. The children are key and value in turn; the datum says how many entries there are.
    Dictionary,
    /// Tags 8 to 15: the symbol's number. The tag says the child count.
    Symbol(u16),
}

/// A term. Its parts are shared, so that a copy costs nothing.
#[derive(Clone)]
pub struct Term(Rc<Node>);

struct Node {
    label: Label,
    children: Vec<Term>,
    /// The nodes of the whole term.
    size: usize,
}

impl Label {
    /// The label and child count of a node with these two words, if there is such a node.
    fn read(tag: i64, datum: i64) -> Option<(Label, usize)> {
        match tag {
            0 if datum == 0 => Some((Label::Error, 0)),
            1 if datum == 0 || datum == 1 => Some((Label::Bool(datum == 1), 0)),
            2 => Some((Label::Int(datum), 0)),
            3 => {
                let variable = below(datum, limits::VARIABLES)?;
                Some((Label::Variable(variable as u8), 0))
            }
            4 => {
                let function = Function::from_code(datum)?;
                Some((Label::Call(function), function.arity()))
            }
            5 => {
                let entries = below(datum, limits::ENTRIES + 1)?;
                Some((Label::Dictionary, 2 * entries))
            }
            8..=15 => {
                let symbol = below(datum, limits::SYMBOLS)?;
                Some((Label::Symbol(symbol as u16), (tag - 8) as usize))
            }
            _ => None,
        }
    }

    /// The two words of a node with this label and child count.
    fn words(self, children: usize) -> [i64; 2] {
        match self {
            Label::Error => [0, 0],
            Label::Bool(truth) => [1, truth as i64],
            Label::Int(number) => [2, number],
            Label::Variable(variable) => [3, variable as i64],
            Label::Call(function) => [4, function.code()],
            Label::Dictionary => [5, children as i64 / 2],
            Label::Symbol(symbol) => [8 + children as i64, symbol as i64],
        }
    }
}

/// The word as a number from 0 to below the bound.
fn below(word: i64, bound: usize) -> Option<usize> {
    usize::try_from(word).ok().filter(|&number| number < bound)
}

impl Term {
    /// A term of these parts.
    pub fn new(label: Label, children: Vec<Term>) -> Term {
        let size = 1 + children.iter().map(Term::size).sum::<usize>();
        Term(Rc::new(Node {
            label,
            children,
            size,
        }))
    }

    /// A term of one node.
    pub fn leaf(label: Label) -> Term {
        Term::new(label, Vec::new())
    }

    /// The label of the first node.
    pub fn label(&self) -> Label {
        self.0.label
    }

    /// The children of the first node.
    pub fn children(&self) -> &[Term] {
        &self.0.children
    }

    /// The nodes of the whole term.
    pub fn size(&self) -> usize {
        self.0.size
    }

    /// Reads one term, of at most so many nodes, from the start of the words. Gives it with the
    /// words that follow it. The keys of its dictionaries are whole numbers that rise.
    pub fn read(words: &[i64], max_nodes: usize) -> Option<(Term, &[i64])> {
        // The nodes that still lack children: label, child count, the children so far.
        let mut open: Vec<(Label, usize, Vec<Term>)> = Vec::new();
        let mut rest = words;
        for _ in 0..max_nodes {
            let (&[tag, datum], behind) = rest.split_first_chunk()?;
            rest = behind;
            let (label, count) = Label::read(tag, datum)?;
            open.push((label, count, Vec::with_capacity(count)));
            if let Some(term) = close(&mut open)? {
                return Some((term, rest));
            }
        }
        None
    }

    /// The term's words, in preorder.
    pub fn words(&self) -> Vec<i64> {
        let mut words = Vec::with_capacity(2 * self.size());
        let mut pending = vec![self];
        while let Some(term) = pending.pop() {
            words.extend(term.label().words(term.children().len()));
            pending.extend(term.children().iter().rev());
        }
        words
    }

    /// Whether the term and all below it have labels that the test admits.
    pub fn all(&self, admits: impl Fn(Label) -> bool) -> bool {
        let mut pending = vec![self];
        while let Some(term) = pending.pop() {
            if !admits(term.label()) {
                return false;
            }
            pending.extend(term.children());
        }
        true
    }

    /// Whether the term has neither variables nor calls.
    pub fn is_ground(&self) -> bool {
        self.all(|label| !matches!(label, Label::Variable(_) | Label::Call(_)))
    }
}

/// Makes terms of the last open nodes as long as they lack no child. Gives the term if none is
/// left open, and nothing at all if a dictionary's keys are not as they should be.
fn close(open: &mut Vec<(Label, usize, Vec<Term>)>) -> Option<Option<Term>> {
    while let Some((label, _, children)) = open.pop_if(|(_, count, have)| have.len() == *count) {
        if label == Label::Dictionary && !has_rising_keys(&children) {
            return None;
        }
        let term = Term::new(label, children);
        match open.last_mut() {
            Some((_, _, siblings)) => siblings.push(term),
            None => return Some(Some(term)),
        }
    }
    Some(None)
}

/// Terms are equal if their words are.
impl PartialEq for Term {
    fn eq(&self, other: &Term) -> bool {
        let mut pending = vec![(self, other)];
        while let Some((one, two)) = pending.pop() {
            if Rc::ptr_eq(&one.0, &two.0) {
                continue;
            }
            if one.label() != two.label() || one.children().len() != two.children().len() {
                return false;
            }
            pending.extend(one.children().iter().zip(two.children()));
        }
        true
    }
}

impl Eq for Term {}

/// Frees the nodes one by one: the compiler's own way would call itself once a level.
impl Drop for Node {
    fn drop(&mut self) {
        let mut pending = mem::take(&mut self.children);
        while let Some(term) = pending.pop() {
            if let Some(mut node) = Rc::into_inner(term.0) {
                pending.append(&mut node.children);
            }
        }
    }
}
