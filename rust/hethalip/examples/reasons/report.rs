//! What is said of a game: why each rule does not apply, or which one does.

use crate::rules::{Rule, rules};
use crate::term::{Names, counted, end, node, variable};
use hethalip::{MAX_NODES, Reason, Refusal, Step, Why, step, why_stuck};
use std::collections::BTreeMap;

/// How to read the lines below it.
const NOTE: &str = "(rules, conditions and the nodes of a left are counted from 0, a node before its children; X0 is variable 0, s3 symbol 3)";

/// The lines on a game: one for each rule if it is stuck.
pub fn report(table: &[i64], configuration: &[i64], names: Names) -> Result<String, Refusal> {
    let mut lines = match why_stuck(table, configuration)? {
        Why::NotStuck { rule } => {
            let action = rules(table)[usize::from(rule)].action;
            vec![format!(
                "not stuck: a step takes rule {rule}, action {action}"
            )]
        }
        Why::Stuck(reasons) => stuck(table, configuration, &reasons, names),
    };
    lines.push(String::new());
    Ok(lines.join("\n"))
}

fn stuck(table: &[i64], configuration: &[i64], reasons: &[Reason], names: Names) -> Vec<String> {
    let whole = names.term(configuration);
    if reasons.is_empty() {
        return vec![format!("stuck at {whole}: the table has no rules")];
    }
    let count = counted(reasons.len(), "rule", "rules");
    let mut lines = vec![
        format!("stuck at {whole}: of {count} none applies"),
        NOTE.to_string(),
    ];
    let rules = rules(table).into_iter().zip(reasons);
    lines.extend(rules.enumerate().map(|(number, (rule, reason))| {
        let action = rule.action;
        let fit = Fit::new(rule.left, configuration, names);
        let what = match *reason {
            Reason::Left { place } => fit.difference(place as usize),
            Reason::Condition { number } => fit.failure(&rule, number.into()),
        };
        format!("rule {number}, action {action}: {reason}: {what}")
    }));
    lines
}

/// A left beside the configuration, as far as they agree.
struct Fit<'a> {
    left: &'a [i64],
    configuration: &'a [i64],
    /// Where in the configuration each node of the left stands, the first that disagrees included.
    places: Vec<usize>,
    names: Names,
}

impl<'a> Fit<'a> {
    fn new(left: &'a [i64], configuration: &'a [i64], names: Names) -> Fit<'a> {
        let mut at = 0;
        let mut places = Vec::new();
        for tag in left.iter().step_by(2) {
            if at == configuration.len() {
                break;
            }
            places.push(at);
            at = match tag {
                3 => end(configuration, at),
                _ => at + 2,
            };
        }
        Fit {
            left,
            configuration,
            places,
            names,
        }
    }

    /// The configuration's term where the left has the node of this number.
    fn term(&self, place: usize) -> &'a [i64] {
        let start = self.places[place];
        &self.configuration[start..end(self.configuration, start)]
    }

    /// The number of the node at which a variable first stands.
    fn first(&self, number: i64) -> Option<usize> {
        self.left.chunks(2).position(|node| *node == [3, number])
    }

    /// What stands at a node that disagrees, in the left and in the configuration.
    fn difference(&self, place: usize) -> String {
        let own = node(self.left, 2 * place);
        let other = self.term(place);
        match (own, self.first(own[1])) {
            ([3, number], Some(first)) => format!(
                "{} was {} at node {first}, the configuration has {}",
                variable(number),
                self.names.term(self.term(first)),
                self.names.term(other)
            ),
            _ => format!(
                "the rule has {}, the configuration has {}",
                self.names.node(own),
                self.names.node(node(other, 0))
            ),
        }
    }

    /// Both sides of a condition that fails, with their values and those of their variables.
    fn failure(&self, rule: &Rule, number: usize) -> String {
        let sides = rule.conditions[number];
        let [one, two] = sides.map(|side| self.side(side));
        let mut variables = BTreeMap::new();
        // A side that is a variable itself shows its value already.
        for words in sides.iter().filter(|side| side.len() > 2) {
            for node in words.chunks(2).filter(|node| node[0] == 3) {
                variables.insert(node[1], self.first(node[1]));
            }
        }
        let values: Vec<String> = variables
            .into_iter()
            .filter_map(|(number, first)| {
                let term = self.names.term(self.term(first?));
                Some(format!("{} is {term}", variable(number)))
            })
            .collect();
        match values.as_slice() {
            [] => format!("{one} is not {two}"),
            _ => format!("{one} is not {two}; {}", values.join(", ")),
        }
    }

    /// One side of a condition, and its value if that is something else.
    fn side(&self, side: &[i64]) -> String {
        let text = self.names.term(side);
        match self.value(side) {
            Some(value) if value != text => format!("{text} (which is {value})"),
            _ => text,
        }
    }

    /// The value of an expression: a step by a rule from the left to the expression.
    fn value(&self, expression: &[i64]) -> Option<String> {
        let table = [&[1, 0, 0], self.left, expression].concat();
        let mut out = vec![0; 2 * MAX_NODES];
        match step(&table, self.configuration, &mut out) {
            Step::Stepped { nodes, .. } => Some(self.names.term(&out[..2 * nodes as usize])),
            _ => None,
        }
    }
}
