//! Tables and rules as trees, and what makes them well formed.

use super::function::Function;
use super::term::{Label, Term};
use crate::limits;

/// A rule: left, right, side conditions and action.
pub struct Rule {
    /// The action that it carries.
    pub action: u16,
    /// What the configuration must match.
    pub left: Term,
    /// What the successor is made of.
    pub right: Term,
    /// Pairs of expressions that must have the same value.
    pub conditions: Vec<(Term, Term)>,
}

/// A well formed table.
pub struct Table {
    /// The rules, by number.
    pub rules: Vec<Rule>,
}

impl Table {
    /// The table of these words, if they are well formed.
    pub fn read(words: &[i64]) -> Option<Table> {
        if words.len() > limits::TABLE_WORDS {
            return None;
        }
        let (&count, mut rest) = words.split_first()?;
        let count = number(count, 0, limits::RULES)?;
        let mut rules = Vec::with_capacity(count);
        for _ in 0..count {
            let (rule, behind) = Rule::read(rest)?;
            rules.push(rule);
            rest = behind;
        }
        rest.is_empty().then_some(Table { rules })
    }
}

impl Rule {
    /// Reads one rule from the start of the words. Gives it with the words that follow it.
    fn read(words: &[i64]) -> Option<(Rule, &[i64])> {
        let (&[action, condition_count], rest) = words.split_first_chunk()?;
        let action = number(action, 0, limits::ACTIONS - 1)? as u16;
        let condition_count = number(condition_count, 0, limits::CONDITIONS)?;
        let (left, rest) = Term::read(rest, limits::TERM_NODES)?;
        let (right, mut rest) = Term::read(rest, limits::TERM_NODES)?;
        let mut conditions = Vec::with_capacity(condition_count);
        for _ in 0..condition_count {
            let (one, behind) = Term::read(rest, limits::TERM_NODES)?;
            let (two, behind) = Term::read(behind, limits::TERM_NODES)?;
            conditions.push((one, two));
            rest = behind;
        }
        let rule = Rule {
            action,
            left,
            right,
            conditions,
        };
        rule.is_well_formed().then_some((rule, rest))
    }

    fn is_well_formed(&self) -> bool {
        let sides = || self.conditions.iter().flat_map(|(one, two)| [one, two]);
        is_left(&self.left)
            && is_right(&self.right)
            && sides().all(is_expression)
            && variables_within(&self.right, &self.left)
            && sides().all(|side| variables_within(side, &self.left))
    }
}

/// The word as a number in this range, both ends included.
fn number(word: i64, least: usize, most: usize) -> Option<usize> {
    usize::try_from(word)
        .ok()
        .filter(|number| (least..=most).contains(number))
}

/// A left has no call, and no variable below a dictionary.
fn is_left(term: &Term) -> bool {
    match term.label() {
        Label::Call(_) => false,
        Label::Dictionary => term.is_ground(),
        _ => term.children().iter().all(is_left),
    }
}

/// A right is a term with expressions at its leaves, or updates whose arguments are expressions.
fn is_right(term: &Term) -> bool {
    match term.label() {
        Label::Symbol(_) => term.children().iter().all(is_right),
        Label::Call(Function::Update) => term.children().iter().all(is_expression),
        _ => is_expression(term),
    }
}

/// An expression is a ground term, a variable, or a call other than an update whose arguments are
/// expressions.
fn is_expression(term: &Term) -> bool {
    match term.label() {
        Label::Variable(_) => true,
        Label::Call(Function::Update) => false,
        Label::Call(_) => term.children().iter().all(is_expression),
        _ => term.is_ground(),
    }
}

/// Whether each variable of a term occurs in the left.
fn variables_within(term: &Term, left: &Term) -> bool {
    term.all(|label| match label {
        Label::Variable(_) => !left.all(|other| other != label),
        _ => true,
    })
}
