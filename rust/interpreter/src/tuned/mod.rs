//! The fast form: it works on the words and builds no trees.
//!
//! All terms lie at an even distance from each other, so both slices are taken as nodes, pairs of
//! words. A table is checked and indexed in one walk; after that neither the table nor a
//! configuration is checked again. A run allocates nothing once it has the index: it writes to its two
//! lent buffers in turn. A replay keeps its stack in the work area, and a set of the configurations
//! that it has searched in vain.
//!
//! If neither the table nor the first configuration has a dictionary, and no function on them is
//! called, none ever comes up. So everything is compiled twice: with `MAPS`, for where there may be
//! dictionaries, and without, where a tag says all about its node. A check without `MAPS` goes first,
//! and what it refuses is checked again with them.

mod check;
mod dictionary;
mod evaluate;
mod routines;
mod rules;

pub use routines::{check_configuration, check_table, match_rule, reasons};
pub use routines::{replay, run, step, step_by_rule};

/// Two words, tag and datum.
type Node = [i64; 2];

const ERROR: i64 = 0;
const BOOL: i64 = 1;
const INT: i64 = 2;
const VARIABLE: i64 = 3;
const CALL: i64 = 4;
/// The datum is the entry count.
const DICTIONARY: i64 = 5;
/// A symbol's tag is this and its child count.
const SYMBOL: i64 = 8;
/// In an indexed left: a variable that an earlier place has bound. No node has this tag.
const BOUND: i64 = 6;
/// In an indexed left: a new variable at the last node. No node has this tag.
const LAST: i64 = 7;

/// The code of `map.empty()`, the first of the functions on dictionaries.
const EMPTY: i64 = 15;
/// The code of `map.lookup(D,K)`.
const LOOKUP: i64 = 16;
/// The code of `map.update(D,K,V)`.
const UPDATE: i64 = 17;

/// The words as nodes. An odd word at the end is left out.
fn nodes(words: &[i64]) -> &[Node] {
    words.as_chunks().0
}

/// The words as nodes to write.
fn nodes_mut(words: &mut [i64]) -> &mut [Node] {
    words.as_chunks_mut().0
}

/// The child count of a node that is no call and no dictionary: tags 8 to 15 say it, all others
/// have none.
#[inline(always)]
fn child_count(tag: i64) -> usize {
    ((tag & 7) & -(tag >> 3)) as usize
}

/// The child count of a node that is no call.
#[inline(always)]
fn children<const MAPS: bool>([tag, datum]: Node) -> usize {
    if MAPS && tag == DICTIONARY {
        2 * datum as usize
    } else {
        child_count(tag)
    }
}

/// Where the ground term ends that starts at this place of well formed nodes.
#[inline(always)]
fn term_end<const MAPS: bool>(nodes: &[Node], start: usize) -> usize {
    match children::<MAPS>(nodes[start]) {
        0 => start + 1,
        pending => skip_terms::<MAPS>(nodes, start + 1, pending),
    }
}

/// Where so many terms end that follow each other from this place on. There is one at least.
fn skip_terms<const MAPS: bool>(nodes: &[Node], start: usize, terms: usize) -> usize {
    let mut at = start;
    let mut pending = terms;
    loop {
        // One test for both ends of the range: no term, or at least a block of them.
        while pending.wrapping_sub(1) < BLOCK - 1 {
            pending = pending - 1 + children::<MAPS>(nodes[at]);
            at += 1;
        }
        if pending == 0 {
            return at;
        }
        // Each node ends one term at most, so a whole block is there.
        let block = &nodes[at..at + BLOCK];
        pending -= BLOCK;
        pending += block
            .iter()
            .map(|&node| children::<MAPS>(node))
            .sum::<usize>();
        at += BLOCK;
    }
}

/// The nodes that [`skip_terms`] takes at once.
const BLOCK: usize = 8;
