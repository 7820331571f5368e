//! The checks: one walk over the words.

use super::dictionary::dictionary_end;
use super::rules::{Rule, Rules};
use super::{BOOL, BOUND, CALL, DICTIONARY, ERROR, INT, LAST, LOOKUP, Node, SYMBOL, UPDATE};
use super::{VARIABLE, child_count, nodes};
use crate::limits;

/// What a configuration's check finds.
#[derive(Clone, Copy, PartialEq)]
pub(super) enum Configuration {
    /// The words are no ground term that fills them.
    Malformed,
    /// They are one, and have no dictionary.
    Plain,
    /// They are one with a dictionary.
    WithMaps,
}

/// Whether the words are one ground term that fills them, and with a dictionary.
pub(super) fn configuration(words: &[i64]) -> Configuration {
    if !words.len().is_multiple_of(2) || words.len() > 2 * limits::CONFIGURATION_NODES {
        return Configuration::Malformed;
    }
    let mut pending = 1;
    for node in nodes(words) {
        if pending == 0 || !is_ground_node(node) {
            return configuration_with_maps(nodes(words));
        }
        pending += child_count(node[0]);
        pending -= 1;
    }
    if pending == 0 {
        Configuration::Plain
    } else {
        Configuration::Malformed
    }
}

/// The same, for what has no chance without a dictionary.
#[cold]
fn configuration_with_maps(nodes: &[Node]) -> Configuration {
    let mut term = Term::<true>::new(nodes);
    match term.ground(1) {
        Some(()) if term.at == nodes.len() => Configuration::WithMaps,
        _ => Configuration::Malformed,
    }
}

/// The index of a table, if its words are well formed. Most tables have no dictionaries and pass
/// the check without them.
pub(super) fn index(words: &[i64]) -> Option<Rules<'_>> {
    let mut rules = index_of::<false>(words);
    if rules.is_none() {
        rules = index_with_maps(words);
    }
    rules
}

/// The same, for what has no chance without dictionaries.
#[cold]
#[inline(never)]
fn index_with_maps(words: &[i64]) -> Option<Rules<'_>> {
    index_of::<true>(words)
}

fn index_of<const MAPS: bool>(words: &[i64]) -> Option<Rules<'_>> {
    let (&count, rest) = words.split_first()?;
    if words.len() > limits::TABLE_WORDS
        || !rest.len().is_multiple_of(2)
        || !in_range(count, limits::RULES + 1)
    {
        return None;
    }
    let mut rules = Rules::with_capacity(count as usize, MAPS);
    let mut walk = Walk::<MAPS> {
        nodes: nodes(rest),
        at: 0,
    };
    for _ in 0..count {
        let rule = walk.rule(&mut rules)?;
        rules.push(rule);
    }
    (walk.at == walk.nodes.len()).then_some(rules)
}

#[inline(always)]
pub(super) fn in_range(word: i64, bound: usize) -> bool {
    (word as u64) < bound as u64
}

/// The highest datum of a configuration's node by its tag, all data as unsigned numbers.
const HIGHEST: [u64; 16] = {
    let symbol = limits::SYMBOLS as u64 - 1;
    let mut highest = [symbol; 16];
    highest[ERROR as usize] = 0;
    highest[BOOL as usize] = 1;
    highest[INT as usize] = u64::MAX;
    highest
};

/// The tags of a configuration's nodes, dictionaries left out, a bit each.
const GROUND: u32 = 1 << ERROR | 1 << BOOL | 1 << INT | 0xff << SYMBOL;

/// Whether these two words are a node of a configuration, and no dictionary.
#[inline(always)]
pub(super) fn is_ground_node(&[tag, datum]: &Node) -> bool {
    in_range(tag, 16) && GROUND >> tag & 1 == 1 && datum as u64 <= HIGHEST[tag as usize]
}

/// The argument count of the function of this code, if there is one that may stand under a call:
/// an update may not.
#[inline(always)]
fn argument_count<const MAPS: bool>(code: i64) -> Option<usize> {
    const COUNTS: [u8; 17] = [0, 0, 1, 2, 2, 2, 1, 1, 2, 2, 2, 2, 2, 2, 3, 0, 2];
    let counts = if MAPS { &COUNTS[..] } else { &COUNTS[..15] };
    counts.get(code as usize).map(|&count| count as usize)
}

/// A walk over one term of a rule. Without `MAPS` it refuses dictionaries and their functions.
struct Term<'a, const MAPS: bool> {
    nodes: &'a [Node],
    at: usize,
    /// The variables met, a bit each.
    variables: u16,
}

impl<'a, const MAPS: bool> Term<'a, MAPS> {
    fn new(nodes: &'a [Node]) -> Term<'a, MAPS> {
        Term {
            nodes,
            at: 0,
            variables: 0,
        }
    }

    #[inline(always)]
    fn next(&mut self) -> Option<&'a Node> {
        let node = self.nodes.get(self.at);
        self.at += 1;
        node
    }

    fn variable(&mut self, datum: i64) -> Option<()> {
        if !in_range(datum, limits::VARIABLES) {
            return None;
        }
        self.variables |= 1 << datum;
        Some(())
    }

    /// The rest of a dictionary whose first node was read last. Gives all its nodes: they are
    /// ground, keys included.
    fn dictionary(&mut self) -> Option<&'a [Node]> {
        let start = self.at - 1;
        self.at = dictionary_end(self.nodes, start)?;
        Some(&self.nodes[start..self.at])
    }

    /// A left: symbols, variables and literals. It is copied, and the copy tells the places of a
    /// variable apart.
    fn left(&mut self, copy: &mut Vec<Node>) -> Option<()> {
        let mut pending = 1;
        while pending > 0 {
            let node = self.next()?;
            let &[tag, datum] = node;
            if tag == VARIABLE {
                let before = self.variables;
                self.variable(datum)?;
                let new = self.variables != before;
                copy.push(match pending {
                    _ if !new => [BOUND, datum],
                    1 => [LAST, datum],
                    _ => [VARIABLE, datum],
                });
            } else if is_ground_node(node) {
                pending += child_count(tag);
                copy.push([tag, datum]);
            } else if MAPS && tag == DICTIONARY {
                copy.extend(self.dictionary()?);
            } else {
                return None;
            }
            pending -= 1;
        }
        Some(())
    }

    /// The ground terms that so many places wait for.
    fn ground(&mut self, places: usize) -> Option<()> {
        let mut pending = places;
        while pending > 0 {
            let node = self.next()?;
            if is_ground_node(node) {
                pending += child_count(node[0]);
            } else if MAPS && node[0] == DICTIONARY {
                self.dictionary()?;
            } else {
                return None;
            }
            pending -= 1;
        }
        Some(())
    }

    /// The expressions that so many places wait for: below a symbol or a dictionary all is ground.
    fn expressions(&mut self, places: usize) -> Option<()> {
        let mut pending = places;
        while pending > 0 {
            let node = self.next()?;
            let &[tag, datum] = node;
            match tag {
                VARIABLE => self.variable(datum)?,
                CALL => pending += argument_count::<MAPS>(datum)?,
                _ if is_ground_node(node) => self.ground(child_count(tag))?,
                DICTIONARY if MAPS => {
                    self.dictionary()?;
                }
                _ => return None,
            }
            pending -= 1;
        }
        Some(())
    }

    /// A right: symbols with expressions at the leaves, or updates. Counts the successor's nodes,
    /// without those of variables, lookups and updates, which are listed instead.
    fn right(&mut self, copies: &mut Vec<u16>) -> Option<usize> {
        let mut pending = 1;
        let mut fixed = 0;
        while pending > 0 {
            let node = self.next()?;
            let &[tag, datum] = node;
            fixed += 1;
            match tag {
                VARIABLE => {
                    self.variable(datum)?;
                    copies.push(datum as u16);
                    fixed -= 1;
                }
                CALL if MAPS && (datum == LOOKUP || datum == UPDATE) => {
                    copies.push((limits::VARIABLES + self.at - 1) as u16);
                    self.expressions(if datum == LOOKUP { 2 } else { 3 })?;
                    fixed -= 1;
                }
                CALL => self.expressions(argument_count::<MAPS>(datum)?)?,
                _ if is_ground_node(node) => pending += child_count(tag),
                DICTIONARY if MAPS => fixed += self.dictionary()?.len() - 1,
                _ => return None,
            }
            pending -= 1;
        }
        Some(fixed)
    }
}

/// A walk over the rules.
struct Walk<'a, const MAPS: bool> {
    nodes: &'a [Node],
    at: usize,
}

impl<'a, const MAPS: bool> Walk<'a, MAPS> {
    fn rule(&mut self, rules: &mut Rules<'a>) -> Option<Rule<'a>> {
        let &[action, condition_count] = self.nodes.get(self.at)?;
        if !in_range(action, limits::ACTIONS) || !in_range(condition_count, limits::CONDITIONS + 1)
        {
            return None;
        }
        self.at += 1;
        let first_left = rules.lefts.len();
        let first_copy = rules.copies.len();
        let (_, known) = self.term(|term| term.left(&mut rules.lefts))?;
        let mut fixed = 0;
        let (right, mut used) = self.term(|term| {
            fixed = term.right(&mut rules.copies)?;
            Some(())
        })?;
        let start = self.at;
        for _ in 0..2 * condition_count {
            used |= self.term(|term| term.expressions(1))?.1;
        }
        let rule = Rule {
            action: action as u16,
            left: first_left..rules.lefts.len(),
            right,
            conditions: &self.nodes[start..self.at],
            fixed,
            copies: first_copy..rules.copies.len(),
        };
        (used & !known == 0).then_some(rule)
    }

    /// One term of at most 512 nodes, with its variables.
    fn term(
        &mut self,
        walk: impl FnOnce(&mut Term<'a, MAPS>) -> Option<()>,
    ) -> Option<(&'a [Node], u16)> {
        let rest = &self.nodes[self.at..];
        let mut term = Term::new(&rest[..rest.len().min(limits::TERM_NODES)]);
        walk(&mut term)?;
        self.at += term.at;
        Some((&rest[..term.at], term.variables))
    }
}
