//! Random walks by the tree interpreter, to know what a table does.

use crate::rng::Rng;
use crate::search::search;
use interpreter::tree::{Table, Term};

/// What a walk met.
pub(super) struct Walk {
    /// The actions taken.
    pub(super) log: Vec<u16>,
    /// The nodes of the largest configuration.
    pub(super) most_nodes: usize,
    /// The last configuration.
    pub(super) last: Term,
}

/// A walk of at most so many steps, no configuration above the limit.
pub(super) fn walk(
    rng: &mut Rng,
    table: &Table,
    initial: &Term,
    steps: usize,
    limit: usize,
) -> Walk {
    let mut walk = Walk {
        log: Vec::new(),
        most_nodes: initial.size(),
        last: initial.clone(),
    };
    while walk.log.len() < steps {
        let successors: Vec<(u16, Term)> = table
            .rules
            .iter()
            .filter_map(|rule| Some((rule.action, rule.successor(&walk.last)?)))
            .filter(|(_, term)| term.size() <= limit)
            .collect();
        if successors.is_empty() {
            break;
        }
        let (action, term) = successors[rng.below(successors.len())].clone();
        walk.log.push(action);
        walk.most_nodes = walk.most_nodes.max(term.size());
        walk.last = term;
    }
    walk
}

/// The sizes of the configurations of a run, the initial one included, and of the one after it
/// if a rule still applies: at most so many steps within the limit.
pub(super) fn run_sizes(
    table: &Table,
    initial: &Term,
    steps: usize,
    limit: usize,
) -> (Vec<usize>, Option<usize>) {
    let mut sizes = vec![initial.size()];
    let mut configuration = initial.clone();
    loop {
        let next = table
            .rules
            .iter()
            .find_map(|rule| rule.successor(&configuration));
        match next {
            Some(term) if term.size() <= limit && sizes.len() <= steps => {
                sizes.push(term.size());
                configuration = term;
            }
            next => return (sizes, next.map(|term| term.size())),
        }
    }
}

/// The longest first part of a log for which a search without memory forms at most so many
/// successors.
pub(super) fn searchable(
    table: &Table,
    initial: &Term,
    log: &[u16],
    limit: usize,
    most: usize,
) -> usize {
    let mut length = log.len();
    while search(table, initial, &log[..length], limit, most).is_none() {
        length -= length.div_ceil(3);
    }
    length
}
