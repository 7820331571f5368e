//! Dictionaries in words: their check, and the walk to a key.

use super::check::{in_range, is_ground_node};
use super::{DICTIONARY, INT, Node, child_count, term_end};
use crate::limits;

/// A dictionary whose end is not reached yet.
struct Open {
    /// The entries that are still to come.
    entries: i64,
    /// The key before.
    key: Option<i64>,
    /// What the value around it waits for: so many terms behind the dictionary.
    pending: usize,
}

/// Where the dictionary ends that starts here, if it is well formed and ground. One walk: it keeps
/// the dictionaries around a node on a stack of its own.
#[cold]
pub(super) fn dictionary_end(nodes: &[Node], start: usize) -> Option<usize> {
    let mut open: Vec<Open> = Vec::new();
    let mut at = start;
    // The terms that the innermost open value waits for.
    let mut pending = 1;
    loop {
        let node = nodes.get(at)?;
        at += 1;
        pending -= 1;
        if node[0] == DICTIONARY {
            if !in_range(node[1], limits::ENTRIES + 1) {
                return None;
            }
            open.push(Open {
                entries: node[1],
                key: None,
                pending,
            });
            pending = 0;
        } else if is_ground_node(node) {
            pending += child_count(node[0]);
        } else {
            return None;
        }
        while pending == 0 {
            let Some(last) = open.last_mut() else {
                return Some(at);
            };
            if last.entries == 0 {
                pending = last.pending;
                open.pop();
                continue;
            }
            let &[INT, key] = nodes.get(at)? else {
                return None;
            };
            if Some(key) <= last.key {
                return None;
            }
            last.key = Some(key);
            last.entries -= 1;
            at += 1;
            pending = 1;
        }
    }
}

/// The place of a key in a dictionary.
pub(super) struct Place {
    /// Where its entry starts, or would.
    pub(super) at: usize,
    /// Whether there is such an entry.
    pub(super) found: bool,
}

/// Walks to a key in the dictionary that starts these nodes. Keys rise, so the walk ends at the
/// first that is not below it.
#[inline(always)]
pub(super) fn place_of(key: i64, dictionary: &[Node]) -> Place {
    let mut at = 1;
    for _ in 0..dictionary[0][1] {
        let other = dictionary[at][1];
        if other >= key {
            return Place {
                at,
                found: other == key,
            };
        }
        at = term_end::<true>(dictionary, at + 1);
    }
    Place { at, found: false }
}

/// What stands at a key of the dictionary that starts these nodes: the nodes from the value's
/// first on.
#[inline(always)]
pub(super) fn find(key: i64, dictionary: &[Node]) -> Option<&[Node]> {
    let place = place_of(key, dictionary);
    place.found.then(|| &dictionary[place.at + 1..])
}
