//! The text of the command line program (document 01: the replay desk).

use crate::answer::Replay;
use crate::limits;
use crate::tree;
use std::fmt::Write;
use std::ops::RangeInclusive;

const LINE_BYTES: usize = 16_384;
const TABLE_NUMBERS: usize = 2_048;
const CONFIGURATION_NUMBERS: usize = 1_024;
const LOG_NUMBERS: usize = 256;
const OUT_WORDS: usize = 1_024;
const WORK_WORDS: usize = 4_096;

/// The number of the refusal that only the program gives: its text is unreadable.
const UNREADABLE: u8 = 7;

/// What the program's four lines say.
struct Request {
    table: Vec<i64>,
    configuration: Vec<i64>,
    log: Vec<u16>,
    limit: u64,
}

/// The whole output of the program for its whole input.
pub fn cli_answer(input: &[u8]) -> Vec<u8> {
    let text = match read_request(input) {
        Some(request) => answer(&request),
        None => refused(UNREADABLE),
    };
    text.into_bytes()
}

fn answer(request: &Request) -> String {
    let mut out = [0; OUT_WORDS];
    let mut choices = [0; LOG_NUMBERS];
    let mut work = [0; WORK_WORDS];
    let answer = tree::replay(
        &request.table,
        &request.configuration,
        &request.log,
        request.limit,
        &mut out,
        &mut choices,
        &mut work,
    );
    match answer {
        Replay::Reproduced => reproduced(&choices[..request.log.len()], &out),
        Replay::NotReproduced => "not reproduced\n".to_string(),
        Replay::OverLimit => refused(6),
        Replay::Refused(refusal) => refused(refusal as u8),
    }
}

fn refused(number: u8) -> String {
    format!("refused,{number}\n")
}

fn reproduced(choices: &[u16], out: &[i64]) -> String {
    let last = tree::first_term(out).expect("a replay that reproduces writes a configuration");
    let mut text = format!("reproduced,{}", choices.len());
    for choice in choices {
        write!(text, ",{choice}").expect("a string takes all");
    }
    let words: Vec<String> = last.iter().map(i64::to_string).collect();
    text + "\n" + &words.join(",") + "\n"
}

/// Four lines, each ended by LF, and nothing more.
fn read_request(input: &[u8]) -> Option<Request> {
    let lines: Vec<&[u8]> = input.split(|&byte| byte == b'\n').collect();
    let [table, configuration, log, limit, []] = lines[..] else {
        return None;
    };
    let word = i64::MIN as i128..=i64::MAX as i128;
    let action = 0..=limits::ACTIONS as i128 - 1;
    let unsigned = 0..=u64::MAX as i128;
    let table = numbers(table, &word, TABLE_NUMBERS)?;
    let configuration = numbers(configuration, &word, CONFIGURATION_NUMBERS)?;
    let log = if log.is_empty() {
        Vec::new()
    } else {
        numbers(log, &action, LOG_NUMBERS)?
    };
    let limit = numbers(limit, &unsigned, 1)?;
    Some(Request {
        table: table.iter().map(|&n| n as i64).collect(),
        configuration: configuration.iter().map(|&n| n as i64).collect(),
        log: log.iter().map(|&n| n as u16).collect(),
        limit: limit[0] as u64,
    })
}

/// The numbers of a line, at least one and at most so many, each in the range.
fn numbers(line: &[u8], range: &RangeInclusive<i128>, most: usize) -> Option<Vec<i128>> {
    if line.len() > LINE_BYTES {
        return None;
    }
    let numbers: Option<Vec<i128>> = line.split(|&byte| byte == b',').map(number).collect();
    numbers.filter(|numbers| {
        numbers.len() <= most && numbers.iter().all(|number| range.contains(number))
    })
}

/// A decimal number: no leading zeros, and a minus only before a nonzero number. One of more than
/// twenty digits fits no field.
fn number(text: &[u8]) -> Option<i128> {
    let (negative, digits) = match text {
        [b'-', digits @ ..] => (true, digits),
        digits => (false, digits),
    };
    let well_formed = match digits {
        [] => false,
        [b'0'] => !negative,
        [b'0', ..] => false,
        _ => digits.len() <= 20 && digits.iter().all(u8::is_ascii_digit),
    };
    if !well_formed {
        return None;
    }
    let size = digits
        .iter()
        .fold(0, |number, digit| 10 * number + i128::from(digit - b'0'));
    Some(if negative { -size } else { size })
}
