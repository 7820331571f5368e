//! Terms, rules and tables as words.

/// The words of a term, a table or a part of one.
pub type Words = Vec<i64>;

/// The error.
pub fn error() -> Words {
    vec![0, 0]
}

/// A truth value.
pub fn truth(truth: bool) -> Words {
    vec![1, truth as i64]
}

/// A whole number.
pub fn int(number: i64) -> Words {
    vec![2, number]
}

/// A variable.
pub fn variable(number: i64) -> Words {
    vec![3, number]
}

/// A call.
pub fn call(code: i64, arguments: &[Words]) -> Words {
    [&[4, code], arguments.concat().as_slice()].concat()
}

/// A symbol with its children.
pub fn symbol(number: i64, children: &[Words]) -> Words {
    let tag = 8 + children.len() as i64;
    [&[tag, number], children.concat().as_slice()].concat()
}

/// A dictionary with these entries, in this order.
pub fn dictionary(entries: &[(i64, Words)]) -> Words {
    let mut words = vec![5, entries.len() as i64];
    for (key, value) in entries {
        words.extend([2, *key]);
        words.extend(value);
    }
    words
}

/// The entries of a dictionary whose keys are whole numbers.
pub fn entries(dictionary: &[i64]) -> Vec<(i64, Words)> {
    let mut entries = Vec::new();
    let mut at = 2;
    for _ in 0..dictionary[1] {
        let end = term_end(dictionary, at + 2);
        entries.push((dictionary[at + 1], dictionary[at + 2..end].to_vec()));
        at = end;
    }
    entries
}

/// The code of `map.empty()`.
pub const EMPTY: i64 = 15;
/// The code of `map.lookup(D,K)`.
pub const LOOKUP: i64 = 16;
/// The code of `map.update(D,K,V)`.
pub const UPDATE: i64 = 17;

/// Each function's argument count, by code.
pub const ARITIES: [usize; 18] = [0, 0, 1, 2, 2, 2, 1, 1, 2, 2, 2, 2, 2, 2, 3, 0, 2, 3];

/// A chain: symbols with one child above a leaf, so many nodes in all.
pub fn chain(nodes: usize, number: i64) -> Words {
    let mut words = [9, number].repeat(nodes - 1);
    words.extend([2, 7]);
    words
}

/// A bush of so many nodes: each symbol deals them out evenly to at most seven children.
pub fn bush(nodes: usize) -> Words {
    let mut words = Vec::with_capacity(2 * nodes);
    let mut pending = vec![nodes];
    while let Some(nodes) = pending.pop() {
        let below = nodes - 1;
        let children = below.min(7);
        if children == 0 {
            words.extend([2, nodes as i64]);
            continue;
        }
        words.extend([8 + children as i64, children as i64]);
        pending.extend((0..children).map(|child| (below + child) / children));
    }
    words
}

/// So many dictionaries of two entries, each in the first value of the one around it: four nodes
/// for each, and one.
pub fn nest(count: usize) -> Words {
    let inside = [2, 0];
    let behind = [2, 2, 2, 0].repeat(count);
    [[5, 2, 2, 1].repeat(count), inside.to_vec(), behind].concat()
}

/// The same nodes with symbols in place of the dictionaries.
pub fn nest_of_symbols(count: usize) -> Words {
    let mut words = nest(count);
    for node in words.chunks_mut(2).filter(|node| node[0] == 5) {
        node.copy_from_slice(&[12, 2]);
    }
    words
}

/// How many children a node has.
pub fn child_count(tag: i64, datum: i64) -> usize {
    match tag {
        4 => ARITIES[datum as usize],
        5 => 2 * datum as usize,
        8..=15 => (tag - 8) as usize,
        _ => 0,
    }
}

/// Where the term ends that starts here.
pub fn term_end(words: &[i64], start: usize) -> usize {
    let mut pending = 1;
    let mut at = start;
    while pending > 0 {
        pending += child_count(words[at], words[at + 1]);
        pending -= 1;
        at += 2;
    }
    at
}

/// The terms that follow each other in these words.
pub fn terms(words: &[i64]) -> Vec<Words> {
    let mut terms = Vec::new();
    let mut at = 0;
    while at < words.len() {
        let end = term_end(words, at);
        terms.push(words[at..end].to_vec());
        at = end;
    }
    terms
}

/// A rule's parts.
#[derive(Clone, Debug)]
pub struct RuleWords {
    /// The action that it carries.
    pub action: i64,
    /// The left.
    pub left: Words,
    /// The right.
    pub right: Words,
    /// Both sides of each condition.
    pub conditions: Vec<[Words; 2]>,
}

impl RuleWords {
    /// A rule without conditions.
    pub fn new(action: i64, left: Words, right: Words) -> RuleWords {
        RuleWords {
            action,
            left,
            right,
            conditions: Vec::new(),
        }
    }

    /// The rule with one condition more.
    pub fn when(mut self, one: Words, two: Words) -> RuleWords {
        self.conditions.push([one, two]);
        self
    }

    /// The words of the rule.
    pub fn words(&self) -> Words {
        let mut words = vec![self.action, self.conditions.len() as i64];
        words.extend(&self.left);
        words.extend(&self.right);
        for side in self.conditions.iter().flatten() {
            words.extend(side);
        }
        words
    }
}

/// The words of a table.
pub fn table(rules: &[RuleWords]) -> Words {
    let mut words = vec![rules.len() as i64];
    for rule in rules {
        words.extend(rule.words());
    }
    words
}

/// The sample rules of the scope paper: spin is symbol 1, bonus 2.
pub fn spin_rules() -> Vec<RuleWords> {
    let x = || variable(0);
    let spin = |child| symbol(1, &[child]);
    let counted = RuleWords::new(10, spin(x()), spin(call(9, &[x(), int(1)])));
    vec![
        counted.when(call(12, &[int(0), x()]), truth(true)),
        RuleWords::new(10, spin(x()), symbol(2, &[x(), spin(x())])),
        RuleWords::new(20, symbol(2, &[x(), variable(1)]), variable(1)),
    ]
}

#[cfg(test)]
mod tests {
    use super::*;

    #[test]
    fn the_sample_table() {
        let words: Words = vec![
            3, 10, 1, 9, 1, 3, 0, 9, 1, 4, 9, 3, 0, 2, 1, 4, 12, 2, 0, 3, 0, 1, 1, 10, 0, 9, 1, 3,
            0, 10, 2, 3, 0, 9, 1, 3, 0, 20, 0, 10, 2, 3, 0, 3, 1, 3, 1,
        ];
        assert_eq!(table(&spin_rules()), words);
    }

    #[test]
    fn sizes() {
        for nodes in [1, 2, 7, 8, 9, 100, 32_768] {
            assert_eq!(chain(nodes, 0).len(), 2 * nodes);
            let bush = bush(nodes);
            assert_eq!(bush.len(), 2 * nodes);
            assert_eq!(term_end(&bush, 0), 2 * nodes);
        }
        for count in [1, 2, 8_000] {
            for words in [nest(count), nest_of_symbols(count)] {
                assert_eq!(words.len(), 2 * (4 * count + 1));
                assert_eq!(term_end(&words, 0), words.len());
            }
        }
    }

    #[test]
    fn dictionaries() {
        let pairs = [(-1, int(5)), (3, dictionary(&[])), (4, chain(3, 0))];
        let words = dictionary(&pairs);
        assert_eq!(words[..6], [5, 3, 2, -1, 2, 5]);
        assert_eq!(entries(&words), pairs);
    }
}
