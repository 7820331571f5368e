//! The search of a replay.

use super::rules::Table;
use super::term::Term;
use std::collections::HashSet;

/// What the search finds.
pub enum Found {
    /// The first list of rules in dictionary order that yields the log within the limit, and its
    /// last configuration.
    List(Vec<u16>, Term),
    /// No such list, but a successor above the limit was met.
    OverLimit,
    /// No such list, and no successor above the limit.
    Nothing,
}

/// Goes through the lists of rules in dictionary order.
pub fn search(table: &Table, initial: Term, log: &[u16], limit: usize) -> Found {
    let search = Search {
        table,
        log,
        limit,
        path: vec![Frame::new(initial)],
        in_vain: vec![HashSet::new(); log.len() + 1],
        over: false,
    };
    search.go()
}

/// A configuration of the path so far, and the lowest rule not yet tried on it.
struct Frame {
    configuration: Term,
    next: usize,
}

impl Frame {
    fn new(configuration: Term) -> Frame {
        Frame {
            configuration,
            next: 0,
        }
    }
}

struct Search<'a> {
    table: &'a Table,
    log: &'a [u16],
    limit: usize,
    /// The path so far: one frame more than actions. A stack, since logs are long.
    path: Vec<Frame>,
    /// By the number of actions before it: the words of each configuration from which the rest of
    /// the log was tried in vain.
    in_vain: Vec<HashSet<Vec<i64>>>,
    /// Whether a successor above the limit was met.
    over: bool,
}

impl Search<'_> {
    fn go(mut self) -> Found {
        while !self.path.is_empty() {
            if self.path.len() > self.log.len() {
                return self.list();
            }
            match self.next_successor() {
                Some(configuration) => self.path.push(Frame::new(configuration)),
                None => self.give_up(),
            }
        }
        if self.over {
            Found::OverLimit
        } else {
            Found::Nothing
        }
    }

    /// The next successor of the last configuration that is worth following.
    fn next_successor(&mut self) -> Option<Term> {
        let depth = self.path.len();
        let action = self.log[depth - 1];
        let frame = self.path.last_mut()?;
        while let Some(rule) = self.table.rules.get(frame.next) {
            frame.next += 1;
            if rule.action != action {
                continue;
            }
            let Some(successor) = rule.successor(&frame.configuration) else {
                continue;
            };
            if successor.size() > self.limit {
                self.over = true;
                continue;
            }
            let in_vain = &self.in_vain[depth];
            if in_vain.is_empty() || !in_vain.contains(&successor.words()) {
                return Some(successor);
            }
        }
        None
    }

    /// Leaves the last configuration, and remembers it.
    fn give_up(&mut self) {
        if let Some(frame) = self.path.pop() {
            self.in_vain[self.path.len()].insert(frame.configuration.words());
        }
    }

    /// The list of rules of a path that yields the whole log.
    fn list(mut self) -> Found {
        let last = self.path.pop().expect("the initial configuration at least");
        let chosen = self.path.iter().map(|frame| (frame.next - 1) as u16);
        Found::List(chosen.collect(), last.configuration)
    }
}
