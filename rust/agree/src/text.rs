//! Inputs for the command line program, and the comparison of a program's output.

use crate::call::Call;
use crate::generate::Calls;
use crate::rng::Rng;
use crate::search::search;
use crate::words::{spin_rules, table};
use interpreter::cli_answer;
use interpreter::tree::{Table, Term};
use std::io::{self, Write};
use std::process::{Command, Stdio};

/// Numbers that some field does not take, or only just.
const NUMBERS: [&str; 24] = [
    "0",
    "-0",
    "00",
    "01",
    "-1",
    "-01",
    "+1",
    "",
    "-",
    " 1",
    "1 ",
    "1.",
    "\"1\"",
    "65535",
    "65536",
    "9223372036854775807",
    "9223372036854775808",
    "-9223372036854775808",
    "-9223372036854775809",
    "18446744073709551615",
    "18446744073709551616",
    "99999999999999999999",
    "100000000000000000000",
    "184467440737095516160000000000000000000001",
];

/// Inputs that no generator is needed for: the sample, every first part of it, and lines at their
/// limits and one beyond.
pub fn fixed() -> Vec<Vec<u8>> {
    let sample = sample();
    let mut inputs: Vec<String> = (0..=sample.len()).map(|end| sample[..end].into()).collect();
    for number in NUMBERS {
        for line in 0..4 {
            inputs.push(with_line(&sample, line, number));
            inputs.push(with_line(&sample, line, &format!("2,{number}")));
        }
    }
    for (line, most) in [(0, 2_048), (1, 1_024), (2, 256), (3, 1)] {
        for count in [most, most + 1] {
            inputs.push(with_line(&sample, line, &vec!["0"; count].join(",")));
            inputs.push(with_line(&sample, line, &vec!["2"; count].join(",")));
        }
    }
    for line in 0..4 {
        for bytes in [16_383, 16_384, 16_385, 16_386, 40_000] {
            inputs.push(with_line(&sample, line, &long_line(bytes)));
            inputs.push(with_line(&sample, line, &"1".repeat(bytes)));
        }
    }
    // The table's first rule is X to X, so the limits of out and work show.
    let idle = "1,10,0,3,0,3,0";
    for (count, limit) in [(0, 512), (0, 513), (3, 511), (4, 511), (256, 6), (256, 7)] {
        let log = vec!["10"; count].join(",");
        inputs.push(format!("{idle}\n2,-5\n{log}\n{limit}\n"));
    }
    for behind in ["\n", "1\n", "x", "\r\n", "\0"] {
        inputs.push(format!("{sample}{behind}"));
    }
    inputs.push(sample.replace('\n', "\r\n"));
    let mut bytes: Vec<Vec<u8>> = inputs.into_iter().map(String::into_bytes).collect();
    bytes.push([0xff].repeat(100));
    bytes.push([0].repeat(100_000));
    bytes
}

fn sample() -> String {
    let table = join(&table(&spin_rules()));
    format!("{table}\n9,1,2,2\n10,20\n4\n")
}

/// A line of so many bytes with as few numbers as that takes.
fn long_line(bytes: usize) -> String {
    let mut line = "111111111111111,".repeat(bytes / 16);
    line.push_str(&"1".repeat(bytes - line.len()));
    if line.ends_with(',') {
        line.pop();
        line.push('1');
    }
    line
}

/// The input with one of its lines replaced.
fn with_line(input: &str, line: usize, text: &str) -> String {
    let mut lines: Vec<&str> = input.lines().collect();
    lines[line] = text;
    lines.join("\n") + "\n"
}

fn join<T: ToString>(numbers: &[T]) -> String {
    let numbers: Vec<String> = numbers.iter().map(T::to_string).collect();
    numbers.join(",")
}

/// An endless list of random inputs.
pub struct Inputs {
    rng: Rng,
    calls: Calls,
}

impl Inputs {
    /// The inputs of a seed.
    pub fn new(seed: u64) -> Inputs {
        Inputs {
            rng: Rng::new(seed),
            calls: Calls::new(seed),
        }
    }

    /// The next input: a replay as text, now and then wrong in one place.
    pub fn next_input(&mut self) -> Vec<u8> {
        loop {
            let text = self.replay_text();
            let text = match self.rng.below(10) {
                0..5 => text.into_bytes(),
                5..8 => self.change_number(&text).into_bytes(),
                _ => self.change_byte(text.into_bytes()),
            };
            if search_ends(&text) {
                return text;
            }
        }
    }

    /// A replay of a size that the program takes, or nearly.
    fn replay_text(&mut self) -> String {
        loop {
            if let Call::Replay {
                table,
                configuration,
                log,
                limit,
                ..
            } = self.calls.next_call()
                && table.len() <= 2_100
                && configuration.len() <= 1_100
                && log.len() <= 260
            {
                let lines = [join(&table), join(&configuration), join(&log)];
                return format!("{}\n{limit}\n", lines.join("\n"));
            }
        }
    }

    /// Replaces one number by one that is at a limit or malformed.
    fn change_number(&mut self, text: &str) -> String {
        let line = self.rng.below(4);
        let old: Vec<&str> = text.lines().nth(line).unwrap_or("").split(',').collect();
        let mut numbers = old.clone();
        numbers[self.rng.below(old.len())] = self.rng.pick(&NUMBERS);
        with_line(text, line, &numbers.join(","))
    }

    /// Changes, takes out or puts in one byte.
    fn change_byte(&mut self, mut text: Vec<u8>) -> Vec<u8> {
        let at = self.rng.below(text.len());
        let byte = self.rng.pick(b"0123456789-,,\n\n\r +a\0\xff");
        match self.rng.below(4) {
            0 => {
                text.remove(at);
            }
            1 => text.insert(at, byte),
            2 => text[at] = byte,
            _ => text.truncate(at),
        }
        text
    }
}

/// Whether a search without memory ends soon, if there is one to do.
fn search_ends(text: &[u8]) -> bool {
    let text = String::from_utf8_lossy(text);
    let lines: Vec<&str> = text.split('\n').collect();
    let numbers = |line: usize| -> Option<Vec<i64>> {
        let line = lines.get(line)?;
        line.split(',').map(|number| number.parse().ok()).collect()
    };
    let (Some(table), Some(configuration), Some(log), Some(limit)) =
        (numbers(0), numbers(1), numbers(2), numbers(3))
    else {
        return true;
    };
    let log: Vec<u16> = log.iter().map(|&action| action as u16).collect();
    match (Table::read(&table), Term::read(&configuration, 512)) {
        (Some(table), Some((term, []))) => {
            search(&table, &term, &log, limit[0] as usize, 100_000).is_some()
        }
        _ => true,
    }
}

/// Runs a program on an input, and says where its output is not the interpreter's.
pub fn compare(program: &str, input: &[u8]) -> Result<(), String> {
    let output = run(program, input).map_err(|error| format!("{program}: {error}"))?;
    let expected = cli_answer(input);
    if output == expected {
        return Ok(());
    }
    Err(format!(
        "the program wrote:\n{}\nthe interpreter:\n{}\ninput:\n{}",
        output.escape_ascii(),
        expected.escape_ascii(),
        input.escape_ascii()
    ))
}

fn run(program: &str, input: &[u8]) -> io::Result<Vec<u8>> {
    let mut child = Command::new(program)
        .stdin(Stdio::piped())
        .stdout(Stdio::piped())
        .spawn()?;
    if let Some(mut stdin) = child.stdin.take() {
        // A program may stop reading once it has seen too much.
        match stdin.write_all(input) {
            Err(error) if error.kind() != io::ErrorKind::BrokenPipe => return Err(error),
            _ => {}
        }
    }
    Ok(child.wait_with_output()?.stdout)
}
