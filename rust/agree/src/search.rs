//! A replay's search as counted work: how much there is to do for an interpreter that remembers
//! nothing, and for one that looks at each configuration once.

use interpreter::tree::{Table, Term};
use std::collections::HashSet;

/// What the search met.
#[derive(Clone, Copy, Default, Debug, PartialEq, Eq)]
pub struct Met {
    /// The successors formed, those above the limit included.
    pub successors: usize,
    /// How often a configuration was left, all of its rules tried.
    pub backtracks: usize,
    /// Whether a successor was above the limit.
    pub over: bool,
}

/// Goes through the lists of rules in dictionary order up to the first that yields the log, or
/// through all. `None` if that takes more than so many successors.
pub fn search(
    table: &Table,
    initial: &Term,
    log: &[u16],
    limit: usize,
    most: usize,
) -> Option<Met> {
    count(table, initial, log, limit, most, false)
}

/// The same, and a configuration that was searched in vain at its depth is not entered again.
pub fn search_once(
    table: &Table,
    initial: &Term,
    log: &[u16],
    limit: usize,
    most: usize,
) -> Option<Met> {
    count(table, initial, log, limit, most, true)
}

fn count(
    table: &Table,
    initial: &Term,
    log: &[u16],
    limit: usize,
    most: usize,
    once: bool,
) -> Option<Met> {
    let mut in_vain: HashSet<(usize, Vec<i64>)> = HashSet::new();
    let mut met = Met::default();
    let mut path = vec![(initial.clone(), 0)];
    while let Some((configuration, next)) = path.pop() {
        let Some(&action) = log.get(path.len()) else {
            return Some(met);
        };
        let Some((rule, successor)) = next_successor(table, &configuration, action, next) else {
            met.backtracks += 1;
            if once {
                in_vain.insert((path.len(), configuration.words()));
            }
            continue;
        };
        met.successors += 1;
        if met.successors > most {
            return None;
        }
        path.push((configuration, rule + 1));
        if successor.size() > limit {
            met.over = true;
        } else if !(once && in_vain.contains(&(path.len(), successor.words()))) {
            path.push((successor, 0));
        }
    }
    Some(met)
}

/// The lowest rule from this number on that carries the action and applies, and its successor.
fn next_successor(
    table: &Table,
    configuration: &Term,
    action: u16,
    from: usize,
) -> Option<(usize, Term)> {
    let rules = table.rules.iter().enumerate().skip(from);
    rules
        .filter(|(_, rule)| rule.action == action)
        .find_map(|(number, rule)| Some((number, rule.successor(configuration)?)))
}
