//! A call as data.

use crate::rng::Rng;
use crate::words::Words;
use std::fmt::{self, Display, Formatter};

/// A buffer to lend: its length, and what decides the words that it held before.
#[derive(Clone, Copy, Debug, PartialEq, Eq)]
pub struct Buffer {
    /// Its length in elements.
    pub len: usize,
    /// 0 for zeros, else the seed of its words.
    pub fill: u64,
}

impl Buffer {
    /// A buffer of that length that held other words before.
    pub fn new(rng: &mut Rng, len: usize) -> Buffer {
        let fill = if rng.percent(10) { 0 } else { rng.word() };
        Buffer { len, fill }
    }

    /// The words that it held before.
    pub fn words(self) -> Words {
        let mut rng = Rng::new(self.fill);
        let mut words = vec![0; self.len];
        match self.fill % 4 {
            _ if self.fill == 0 => {}
            0 => words.fill(-1),
            1 => words.fill_with(|| rng.range(0, 12)),
            2 => words.fill(i64::MIN),
            _ => words.fill_with(|| rng.word() as i64),
        }
        words
    }

    /// The same for elements of 16 bits.
    pub fn halves(self) -> Vec<u16> {
        self.words().iter().map(|&word| word as u16).collect()
    }
}

/// A call of one of the routines.
#[derive(Clone, Debug, PartialEq, Eq)]
#[allow(missing_docs)]
pub enum Call {
    CheckTable {
        table: Words,
    },
    CheckConfiguration {
        configuration: Words,
    },
    Step {
        table: Words,
        configuration: Words,
        out: Buffer,
    },
    StepByRule {
        table: Words,
        configuration: Words,
        rule: usize,
        out: Buffer,
    },
    MatchRule {
        table: Words,
        configuration: Words,
        rule: usize,
    },
    Reasons {
        table: Words,
        configuration: Words,
        list: Buffer,
    },
    Run {
        table: Words,
        configuration: Words,
        budget: u64,
        limit: u64,
        out: Buffer,
        spare: Buffer,
    },
    Replay {
        table: Words,
        configuration: Words,
        log: Vec<u16>,
        limit: u64,
        out: Buffer,
        choices: Buffer,
        work: Buffer,
    },
}

impl Call {
    /// The routine's name.
    pub fn routine(&self) -> &'static str {
        match self {
            Call::CheckTable { .. } => "check_table",
            Call::CheckConfiguration { .. } => "check_configuration",
            Call::Step { .. } => "step",
            Call::StepByRule { .. } => "step_by_rule",
            Call::MatchRule { .. } => "match_rule",
            Call::Reasons { .. } => "reasons",
            Call::Run { .. } => "run",
            Call::Replay { .. } => "replay",
        }
    }

    /// The call's table, if it has one.
    pub fn table(&self) -> &[i64] {
        match self {
            Call::CheckConfiguration { .. } => &[],
            Call::CheckTable { table }
            | Call::Step { table, .. }
            | Call::StepByRule { table, .. }
            | Call::MatchRule { table, .. }
            | Call::Reasons { table, .. }
            | Call::Run { table, .. }
            | Call::Replay { table, .. } => table,
        }
    }

    /// The call's configuration, if it has one.
    pub fn configuration(&self) -> &[i64] {
        match self {
            Call::CheckTable { .. } => &[],
            Call::CheckConfiguration { configuration }
            | Call::Step { configuration, .. }
            | Call::StepByRule { configuration, .. }
            | Call::MatchRule { configuration, .. }
            | Call::Reasons { configuration, .. }
            | Call::Run { configuration, .. }
            | Call::Replay { configuration, .. } => configuration,
        }
    }

    /// Reads the text that a call prints as.
    pub fn parse(text: &str) -> Option<Call> {
        let mut fields = Fields(text.lines());
        match fields.next("call")? {
            "check_table" => Some(Call::CheckTable {
                table: fields.list("table")?,
            }),
            "check_configuration" => Some(Call::CheckConfiguration {
                configuration: fields.list("configuration")?,
            }),
            routine => {
                let table = fields.list("table")?;
                let configuration = fields.list("configuration")?;
                fields.call(routine, table, configuration)
            }
        }
    }
}

/// One line for each argument: its name and its value. A buffer is its length and its fill.
impl Display for Call {
    fn fmt(&self, f: &mut Formatter) -> fmt::Result {
        writeln!(f, "call {}", self.routine())?;
        if !matches!(self, Call::CheckConfiguration { .. }) {
            write_list(f, "table", self.table())?;
        }
        if !matches!(self, Call::CheckTable { .. }) {
            write_list(f, "configuration", self.configuration())?;
        }
        self.write_others(f)
    }
}

impl Call {
    /// Writes the arguments that are neither the table nor the configuration.
    fn write_others(&self, f: &mut Formatter) -> fmt::Result {
        match self {
            Call::CheckTable { .. } | Call::CheckConfiguration { .. } => Ok(()),
            Call::Step { out, .. } => write_buffer(f, "out", *out),
            Call::StepByRule { rule, out, .. } => {
                writeln!(f, "rule {rule}")?;
                write_buffer(f, "out", *out)
            }
            Call::MatchRule { rule, .. } => writeln!(f, "rule {rule}"),
            Call::Reasons { list, .. } => write_buffer(f, "list", *list),
            Call::Run {
                budget,
                limit,
                out,
                spare,
                ..
            } => {
                writeln!(f, "budget {budget}\nlimit {limit}")?;
                write_buffer(f, "out", *out)?;
                write_buffer(f, "spare", *spare)
            }
            Call::Replay {
                log,
                limit,
                out,
                choices,
                work,
                ..
            } => {
                write_list(f, "log", log)?;
                writeln!(f, "limit {limit}")?;
                write_buffer(f, "out", *out)?;
                write_buffer(f, "choices", *choices)?;
                write_buffer(f, "work", *work)
            }
        }
    }
}

fn write_list<T: ToString>(f: &mut Formatter, name: &str, list: &[T]) -> fmt::Result {
    let numbers: Vec<String> = list.iter().map(T::to_string).collect();
    writeln!(f, "{name} {}", numbers.join(","))
}

fn write_buffer(f: &mut Formatter, name: &str, buffer: Buffer) -> fmt::Result {
    writeln!(f, "{name} {} {}", buffer.len, buffer.fill)
}

/// The lines of a call's text.
struct Fields<'a>(std::str::Lines<'a>);

impl<'a> Fields<'a> {
    /// The call of a routine that takes a table and a configuration, from what follows them.
    fn call(&mut self, routine: &str, table: Words, configuration: Words) -> Option<Call> {
        match routine {
            "step" => Some(Call::Step {
                table,
                configuration,
                out: self.buffer("out")?,
            }),
            "step_by_rule" => Some(Call::StepByRule {
                table,
                configuration,
                rule: self.number("rule")?,
                out: self.buffer("out")?,
            }),
            "match_rule" => Some(Call::MatchRule {
                table,
                configuration,
                rule: self.number("rule")?,
            }),
            "reasons" => Some(Call::Reasons {
                table,
                configuration,
                list: self.buffer("list")?,
            }),
            "run" => self.run(table, configuration),
            "replay" => self.replay(table, configuration),
            _ => None,
        }
    }

    fn run(&mut self, table: Words, configuration: Words) -> Option<Call> {
        Some(Call::Run {
            table,
            configuration,
            budget: self.number("budget")?,
            limit: self.number("limit")?,
            out: self.buffer("out")?,
            spare: self.buffer("spare")?,
        })
    }

    fn replay(&mut self, table: Words, configuration: Words) -> Option<Call> {
        Some(Call::Replay {
            table,
            configuration,
            log: self.list("log")?,
            limit: self.number("limit")?,
            out: self.buffer("out")?,
            choices: self.buffer("choices")?,
            work: self.buffer("work")?,
        })
    }

    fn next(&mut self, name: &str) -> Option<&'a str> {
        self.0.next()?.strip_prefix(name)?.strip_prefix(' ')
    }

    fn number<T: std::str::FromStr>(&mut self, name: &str) -> Option<T> {
        self.next(name)?.parse().ok()
    }

    fn list<T: std::str::FromStr>(&mut self, name: &str) -> Option<Vec<T>> {
        match self.next(name)? {
            "" => Some(Vec::new()),
            text => text.split(',').map(|number| number.parse().ok()).collect(),
        }
    }

    fn buffer(&mut self, name: &str) -> Option<Buffer> {
        let (len, fill) = self.next(name)?.split_once(' ')?;
        Some(Buffer {
            len: len.parse().ok()?,
            fill: fill.parse().ok()?,
        })
    }
}
