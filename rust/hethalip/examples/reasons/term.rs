//! Terms in a form that people read: `spin[2]`, `{1: 520}`, `z.lt(0, X0)`.

/// Names for symbols. Those without one go by their numbers.
#[derive(Clone, Copy)]
pub struct Names(pub &'static [(i64, &'static str)]);

/// Each function's name and argument count, by code.
const FUNCTIONS: [(&str, usize); 18] = [
    ("bool.true", 0),
    ("bool.false", 0),
    ("bool.neg", 1),
    ("bool.and", 2),
    ("bool.or", 2),
    ("bool.eq", 2),
    ("bool.is", 1),
    ("z.is", 1),
    ("z.plus", 2),
    ("z.minus", 2),
    ("z.eq", 2),
    ("z.le", 2),
    ("z.lt", 2),
    ("term.same_symbol", 2),
    ("z.share", 3),
    ("map.empty", 0),
    ("map.lookup", 2),
    ("map.update", 3),
];

/// A term's text has so many nodes at most. What is left out is two dots.
const SHOWN: usize = 40;

/// How many terms follow a node as its children.
fn children([tag, datum]: [i64; 2]) -> usize {
    match tag {
        4 => FUNCTIONS[datum as usize].1,
        5 => 2 * datum as usize,
        8.. => tag as usize - 8,
        _ => 0,
    }
}

/// The node at a place of the words.
pub fn node(words: &[i64], at: usize) -> [i64; 2] {
    [words[at], words[at + 1]]
}

/// The place behind the term that starts at a place of the words.
pub fn end(words: &[i64], start: usize) -> usize {
    let (mut at, mut missing) = (start, 1);
    while missing > 0 {
        missing = missing - 1 + children(node(words, at));
        at += 2;
    }
    at
}

/// A variable's name.
pub fn variable(number: i64) -> String {
    format!("X{number}")
}

/// `1 child`, `2 children`.
pub fn counted(count: usize, one: &str, many: &str) -> String {
    let thing = if count == 1 { one } else { many };
    format!("{count} {thing}")
}

impl Names {
    fn get(self, symbol: i64) -> Option<&'static str> {
        let named = self.0.iter().find(|(number, _)| *number == symbol);
        named.map(|(_, name)| *name)
    }

    /// What a node is, without what is below it.
    pub fn node(self, node: [i64; 2]) -> String {
        let [tag, datum] = node;
        let count = children(node);
        let below = counted(count, "child", "children");
        match (tag, self.get(datum)) {
            (5, _) => format!("a dictionary of {}", counted(count / 2, "entry", "entries")),
            (8.., Some(name)) => format!("{name} (symbol {datum}, {below})"),
            (8.., None) => format!("symbol {datum} with {below}"),
            _ => leaf(node),
        }
    }

    /// The text of a whole term.
    pub fn term(self, words: &[i64]) -> String {
        let mut text = Text {
            names: self,
            words,
            at: 0,
            room: SHOWN,
        };
        text.term()
    }
}

/// A node that has none below it.
fn leaf([tag, datum]: [i64; 2]) -> String {
    match tag {
        0 => "error".to_string(),
        1 => (datum == 1).to_string(),
        3 => variable(datum),
        _ => datum.to_string(),
    }
}

/// The text of a term in the making.
struct Text<'a> {
    names: Names,
    words: &'a [i64],
    at: usize,
    /// How many nodes there is room for.
    room: usize,
}

impl Text<'_> {
    /// The text of the term that comes next. It goes no deeper than there is room.
    fn term(&mut self) -> String {
        if self.room == 0 {
            return "..".to_string();
        }
        self.room -= 1;
        let [tag, datum] = node(self.words, self.at);
        self.at += 2;
        let below = self.below(children([tag, datum]));
        match tag {
            4 => format!("{}({})", FUNCTIONS[datum as usize].0, below.join(", ")),
            5 => {
                let entries: Vec<String> = below.chunks(2).map(|entry| entry.join(": ")).collect();
                format!("{{{}}}", entries.join(", "))
            }
            8.. => {
                let name = self.names.get(datum);
                let name = name.map_or_else(|| format!("s{datum}"), str::to_string);
                format!("{name}[{}]", below.join(", "))
            }
            _ => leaf([tag, datum]),
        }
    }

    /// The texts of so many terms. Where there is no room left, two dots stand for the rest.
    fn below(&mut self, count: usize) -> Vec<String> {
        let mut texts = Vec::new();
        while texts.len() < count {
            let full = self.room == 0;
            texts.push(self.term());
            if full {
                break;
            }
        }
        texts
    }
}
