//! A table taken apart. It is known to be well formed.

use crate::term::end;

/// What a reason points at in a rule.
pub struct Rule<'a> {
    pub action: i64,
    pub left: &'a [i64],
    /// Both sides of each condition.
    pub conditions: Vec<[&'a [i64]; 2]>,
}

/// The rules of a table.
pub fn rules(table: &[i64]) -> Vec<Rule<'_>> {
    let mut cursor = Cursor { table, at: 0 };
    (0..cursor.word()).map(|_| cursor.rule()).collect()
}

/// A place in a table.
struct Cursor<'a> {
    table: &'a [i64],
    at: usize,
}

impl<'a> Cursor<'a> {
    fn word(&mut self) -> i64 {
        self.at += 1;
        self.table[self.at - 1]
    }

    fn term(&mut self) -> &'a [i64] {
        let start = self.at;
        self.at = end(self.table, start);
        &self.table[start..self.at]
    }

    fn rule(&mut self) -> Rule<'a> {
        let (action, count) = (self.word(), self.word());
        let (left, _right) = (self.term(), self.term());
        Rule {
            action,
            left,
            conditions: (0..count).map(|_| [self.term(), self.term()]).collect(),
        }
    }
}
