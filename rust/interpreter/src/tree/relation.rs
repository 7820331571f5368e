//! The relations of Minuska's appendix A, computed: matching, the value of an expression, the term
//! that a right stands for, the successor by one rule, and why there is none.

use super::rules::Rule;
use super::term::{Label, Term};
use crate::limits;

/// What each variable stands for.
#[derive(Default)]
pub struct Valuation([Option<Term>; limits::VARIABLES]);

impl Valuation {
    /// The term of a variable. A rule names only variables that its left has bound.
    pub fn get(&self, variable: u8) -> &Term {
        self.0[variable as usize]
            .as_ref()
            .expect("a variable of the left")
    }

    /// Binds a variable, or compares if it is bound: all places of one variable hold equal terms.
    fn bind(&mut self, variable: u8, term: &Term) -> bool {
        match &self.0[variable as usize] {
            Some(bound) => bound == term,
            None => {
                self.0[variable as usize] = Some(term.clone());
                true
            }
        }
    }
}

/// The valuation under which the term matches the left (document 01: the left fits), if any.
pub fn matches(left: &Term, term: &Term) -> Option<Valuation> {
    compare(left, term).0
}

/// The same, and how many nodes of the left were compared: all of them if the term matches, else
/// those in preorder up to the first that disagrees. (A variable that occurs again disagrees at its
/// later place.)
pub fn compare(left: &Term, term: &Term) -> (Option<Valuation>, usize) {
    let mut valuation = Valuation::default();
    let mut compared = 0;
    let matches = matches_under(left, term, &mut valuation, &mut compared);
    (matches.then_some(valuation), compared)
}

/// Each call compares the left's first node, and those for its children come in preorder.
fn matches_under(
    left: &Term,
    term: &Term,
    valuation: &mut Valuation,
    compared: &mut usize,
) -> bool {
    *compared += 1;
    if let Label::Variable(variable) = left.label() {
        return valuation.bind(variable, term);
    }
    left.label() == term.label()
        && left.children().len() == term.children().len()
        && left
            .children()
            .iter()
            .zip(term.children())
            .all(|(left, term)| matches_under(left, term, valuation, compared))
}

/// The value of an expression.
pub fn value(expression: &Term, valuation: &Valuation) -> Term {
    match expression.label() {
        Label::Variable(variable) => valuation.get(variable).clone(),
        Label::Call(function) => {
            let arguments = expression.children().iter();
            let values: Vec<Term> = arguments
                .map(|argument| value(argument, valuation))
                .collect();
            function.apply(&values)
        }
        _ => expression.clone(),
    }
}

/// A right with each expression replaced by its value.
pub fn instantiate(right: &Term, valuation: &Valuation) -> Term {
    match right.label() {
        Label::Symbol(_) => {
            let children = right.children().iter();
            Term::new(
                right.label(),
                children
                    .map(|child| instantiate(child, valuation))
                    .collect(),
            )
        }
        _ => value(right, valuation),
    }
}

/// Why a rule does not apply.
#[derive(Clone, Copy, Debug, PartialEq, Eq)]
pub enum Obstacle {
    /// The place, from 0, of the first node of the left that disagrees.
    Left(usize),
    /// The left matches. The number, from 0, of the lowest condition that fails.
    Condition(usize),
}

impl Rule {
    /// The successor of a configuration by this rule, if the rule applies.
    pub fn successor(&self, configuration: &Term) -> Option<Term> {
        let valuation = matches(&self.left, configuration)?;
        self.failing_condition(&valuation)
            .is_none()
            .then(|| instantiate(&self.right, &valuation))
    }

    /// Why the rule does not apply to a configuration; nothing if it does. The place of a node is
    /// the count of those compared less one.
    pub fn obstacle(&self, configuration: &Term) -> Option<Obstacle> {
        match compare(&self.left, configuration) {
            (Some(valuation), _) => self.failing_condition(&valuation).map(Obstacle::Condition),
            (None, compared) => Some(Obstacle::Left(compared - 1)),
        }
    }

    /// The number of the lowest condition that fails.
    fn failing_condition(&self, valuation: &Valuation) -> Option<usize> {
        self.conditions
            .iter()
            .position(|(one, two)| value(one, valuation) != value(two, valuation))
    }
}
