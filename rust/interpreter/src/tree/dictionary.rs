//! Dictionaries as lists of entries, and the three functions on them.

use super::term::{Label, Term};
use crate::limits;

/// A key and its value.
pub type Entry = (i64, Term);

/// `map.empty()`: no entries.
pub fn empty() -> Vec<Entry> {
    Vec::new()
}

/// `map.lookup(D,K)`: the value of the entry whose key is K, if there is one.
pub fn lookup(entries: &[Entry], key: i64) -> Option<Term> {
    entries
        .iter()
        .find(|(other, _)| *other == key)
        .map(|(_, value)| value.clone())
}

/// `map.update(D,K,V)`: the entries below K, then K with V, then the entries above K; nothing if
/// they are too many.
pub fn update(entries: &[Entry], key: i64, value: &Term) -> Option<Vec<Entry>> {
    let below = entries.iter().filter(|(other, _)| *other < key).cloned();
    let above = entries.iter().filter(|(other, _)| *other > key).cloned();
    let updated: Vec<Entry> = below.chain([(key, value.clone())]).chain(above).collect();
    (updated.len() <= limits::ENTRIES).then_some(updated)
}

/// The dictionary of these entries.
pub fn dictionary_of(entries: Vec<Entry>) -> Term {
    let children = entries
        .into_iter()
        .flat_map(|(key, value)| [Term::leaf(Label::Int(key)), value]);
    Term::new(Label::Dictionary, children.collect())
}

/// The entries of a dictionary.
pub fn entries_of(dictionary: &Term) -> Vec<Entry> {
    let children = dictionary.children();
    let keys = keys(children).expect("a dictionary's keys are whole numbers");
    let values = children.iter().skip(1).step_by(2).cloned();
    keys.into_iter().zip(values).collect()
}

/// Whether the keys of a dictionary with these children are whole numbers, each above the one
/// before it.
pub fn has_rising_keys(children: &[Term]) -> bool {
    keys(children).is_some_and(|keys| keys.is_sorted_by(|one, two| one < two))
}

/// The keys of a dictionary with these children, if they are whole numbers.
fn keys(children: &[Term]) -> Option<Vec<i64>> {
    let keys = children.iter().step_by(2);
    keys.map(|key| match key.label() {
        Label::Int(number) => Some(number),
        _ => None,
    })
    .collect()
}
