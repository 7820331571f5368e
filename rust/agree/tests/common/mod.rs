//! What tests of matching and of reasons share: a match by its definition, and the kinds of nodes at
//! which a left differs.

use agree::words::term_end;
use interpreter::Match;
use std::collections::BTreeMap;

/// Each part of the configuration that is a term.
fn all_parts(configuration: &[i64]) -> Vec<&[i64]> {
    (0..configuration.len())
        .step_by(2)
        .map(|start| &configuration[start..term_end(configuration, start)])
        .collect()
}

/// What some of the variables stand for, and how many of the configuration's words the left's first
/// nodes come to under it.
#[derive(Clone)]
struct Valuation<'a> {
    terms: BTreeMap<i64, &'a [i64]>,
    words: usize,
}

impl<'a> Valuation<'a> {
    /// The valuations that take one node of a left more, with some of these parts.
    fn longer(
        &self,
        node: &'a [i64],
        parts: &[&'a [i64]],
        configuration: &[i64],
    ) -> Vec<Valuation<'a>> {
        let values: Vec<&[i64]> = match (node[0], self.terms.get(&node[1])) {
            (3, Some(term)) => vec![term],
            (3, None) => parts.to_vec(),
            _ => vec![node],
        };
        let fit = |value: &&[i64]| configuration[self.words..].starts_with(value);
        let taken = |value: &'a [i64]| {
            let mut next = self.clone();
            next.words += value.len();
            if node[0] == 3 {
                next.terms.insert(node[1], value);
            }
            next
        };
        values.into_iter().filter(fit).map(taken).collect()
    }
}

/// A match as the definition has it. The left's first nodes can be matched if under some valuation,
/// of all that there are, their words are the configuration's first. The count is that of the fewest
/// first nodes that cannot be matched, or of all.
pub fn defined_match(left: &[i64], configuration: &[i64]) -> Match {
    let parts = all_parts(configuration);
    let mut valuations = vec![Valuation {
        terms: BTreeMap::new(),
        words: 0,
    }];
    for (place, node) in left.chunks(2).enumerate() {
        let mut longer: Vec<Valuation> = valuations
            .iter()
            .flat_map(|valuation| valuation.longer(node, &parts, configuration))
            .collect();
        // Equal parts are one value, wherever they stand.
        longer.dedup_by(|one, two| one.terms == two.terms);
        assert!(longer.len() <= 1, "the valuation is unique");
        if longer.is_empty() {
            return Match::Differs {
                compared: place as u32 + 1,
            };
        }
        valuations = longer;
    }
    assert_eq!(valuations[0].words, configuration.len());
    Match::Matches {
        compared: left.len() as u32 / 2,
    }
}

/// The kinds of nodes at which a left differs.
pub const DIFFERENCES: [&str; 8] = [
    "differs at the first node",
    "differs in the middle",
    "differs at the last node",
    "differs at a later place of a variable",
    "differs at a dictionary",
    "differs inside a dictionary",
    "differs at a symbol below the root",
    "differs after more than 20 nodes",
];

/// What stands at the place where a left differs, in the words above.
pub fn kinds_of_difference(left: &[i64], place: usize) -> Vec<&'static str> {
    let mut kinds = vec![match place {
        0 => "differs at the first node",
        _ if 2 * place + 2 == left.len() => "differs at the last node",
        _ => "differs in the middle",
    }];
    match left[2 * place] {
        3 => kinds.push("differs at a later place of a variable"),
        5 => kinds.push("differs at a dictionary"),
        8.. if place > 0 => kinds.push("differs at a symbol below the root"),
        _ => {}
    }
    if is_in_dictionary(left, place) {
        kinds.push("differs inside a dictionary");
    }
    if place >= 20 {
        kinds.push("differs after more than 20 nodes");
    }
    kinds
}

/// Whether the node of that number stands below a dictionary.
fn is_in_dictionary(left: &[i64], place: usize) -> bool {
    (0..place).any(|above| left[2 * above] == 5 && 2 * place < term_end(left, 2 * above))
}
