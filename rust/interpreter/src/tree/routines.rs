//! The routines over slices.

use super::relation::{Obstacle, compare};
use super::rules::Table;
use super::search::{Found, search};
use super::term::Term;
use crate::answer::{Check, Match, Reasons, Refusal, Replay, Run, Step};
use crate::limits;

/// Whether the words are a well formed table.
pub fn check_table(table: &[i64]) -> Check {
    match read_table(table) {
        Ok(_) => Check::Good,
        Err(refusal) => Check::Refused(refusal),
    }
}

/// Whether the words are a well formed configuration.
pub fn check_configuration(configuration: &[i64]) -> Check {
    match read_configuration(configuration) {
        Ok(_) => Check::Good,
        Err(refusal) => Check::Refused(refusal),
    }
}

/// One step, by the lowest rule that applies. The limit is what `out` holds.
pub fn step(table: &[i64], configuration: &[i64], out: &mut [i64]) -> Step {
    let (table, configuration) = match read_both(table, configuration) {
        Ok(both) => both,
        Err(refusal) => return Step::Refused(refusal),
    };
    write_step(first_successor(&table, &configuration), &table, out)
}

/// One step by the rule of that number. A number that names no rule does not apply.
pub fn step_by_rule(table: &[i64], configuration: &[i64], rule: usize, out: &mut [i64]) -> Step {
    let (table, configuration) = match read_both(table, configuration) {
        Ok(both) => both,
        Err(refusal) => return Step::Refused(refusal),
    };
    let named = table.rules.get(rule);
    let successor = named.and_then(|rule| rule.successor(&configuration));
    write_step(successor.map(|term| (rule, term)), &table, out)
}

/// How far the left of the rule of that number and the configuration agree.
pub fn match_rule(table: &[i64], configuration: &[i64], rule: usize) -> Match {
    let (table, configuration) = match read_both(table, configuration) {
        Ok(both) => both,
        Err(refusal) => return Match::Refused(refusal),
    };
    let Some(rule) = table.rules.get(rule) else {
        return Match::Differs { compared: 0 };
    };
    let (valuation, compared) = compare(&rule.left, &configuration);
    let compared = compared as u32;
    match valuation {
        Some(_) => Match::Matches { compared },
        None => Match::Differs { compared },
    }
}

/// Why no rule applies, for each one: two words in the list. A configuration that is not stuck gets
/// the step's rule, and no word.
pub fn reasons(table: &[i64], configuration: &[i64], list: &mut [i64]) -> Reasons {
    let (table, configuration) = match read_both(table, configuration) {
        Ok(both) => both,
        Err(refusal) => return Reasons::Refused(refusal),
    };
    if list.len() < 2 * table.rules.len() {
        return Reasons::Refused(Refusal::ShortBuffer);
    }
    if let Some((rule, _)) = first_successor(&table, &configuration) {
        return Reasons::NotStuck { rule: rule as u8 };
    }
    for (entry, rule) in list.chunks_exact_mut(2).zip(&table.rules) {
        let obstacle = rule.obstacle(&configuration);
        let words = match obstacle.expect("a rule that does not apply") {
            Obstacle::Left(place) => [0, place as i64],
            Obstacle::Condition(number) => [1, number as i64],
        };
        entry.copy_from_slice(&words);
    }
    Reasons::Listed
}

/// The step repeated, at most `budget` times, within `limit` nodes.
pub fn run(
    table: &[i64],
    configuration: &[i64],
    budget: u64,
    limit: u64,
    out: &mut [i64],
    spare: &mut [i64],
) -> Run {
    let long = budget > limits::BUDGET;
    let (table, initial, limit) = match read_all(table, configuration, long, limit) {
        Ok(all) => all,
        Err(refusal) => return Run::Refused(refusal),
    };
    if out.len() < 2 * limit || spare.len() < 2 * limit {
        return Run::Refused(Refusal::ShortBuffer);
    }
    let (answer, last) = run_from(&table, initial, budget, limit);
    spare[..2 * limit].fill(0);
    out[..2 * limit].fill(0);
    write(&last, out);
    answer
}

/// The search for the first list of rules that yields the log within `limit` nodes.
pub fn replay(
    table: &[i64],
    configuration: &[i64],
    log: &[u16],
    limit: u64,
    out: &mut [i64],
    choices: &mut [u16],
    work: &mut [i64],
) -> Replay {
    let long = log.len() > limits::LOG;
    let (table, initial, limit) = match read_all(table, configuration, long, limit) {
        Ok(all) => all,
        Err(refusal) => return Replay::Refused(refusal),
    };
    let work_len = (log.len() + 1) * (2 * limit + 2);
    if out.len() < 2 * limit || choices.len() < log.len() || work.len() < work_len {
        return Replay::Refused(Refusal::ShortBuffer);
    }
    work[..work_len].fill(0);
    match search(&table, initial, log, limit) {
        Found::List(list, last) => {
            choices[..list.len()].copy_from_slice(&list);
            write(&last, out);
            Replay::Reproduced
        }
        Found::OverLimit => Replay::OverLimit,
        Found::Nothing => Replay::NotReproduced,
    }
}

fn read_table(words: &[i64]) -> Result<Table, Refusal> {
    Table::read(words).ok_or(Refusal::BadTable)
}

/// A configuration is one ground term that fills its slice.
fn read_configuration(words: &[i64]) -> Result<Term, Refusal> {
    match Term::read(words, limits::CONFIGURATION_NODES) {
        Some((term, [])) if term.is_ground() => Ok(term),
        _ => Err(Refusal::BadConfiguration),
    }
}

fn read_both(table: &[i64], configuration: &[i64]) -> Result<(Table, Term), Refusal> {
    let table = read_table(table)?;
    Ok((table, read_configuration(configuration)?))
}

/// The refusals 1 to 4 of a run and a replay, or what they start from.
fn read_all(
    table: &[i64],
    configuration: &[i64],
    too_long: bool,
    limit: u64,
) -> Result<(Table, Term, usize), Refusal> {
    let (table, initial) = read_both(table, configuration)?;
    if too_long {
        return Err(Refusal::TooLong);
    }
    // The initial configuration has a node, so this covers a limit of 0.
    if limit < initial.size() as u64 || limit > limits::CONFIGURATION_NODES as u64 {
        return Err(Refusal::BadLimit);
    }
    Ok((table, initial, limit as usize))
}

/// The lowest rule that applies, with its successor.
fn first_successor(table: &Table, configuration: &Term) -> Option<(usize, Term)> {
    let rules = table.rules.iter().enumerate();
    rules
        .filter_map(|(number, rule)| Some((number, rule.successor(configuration)?)))
        .next()
}

/// Writes a step's successor, if there is one and it fits.
fn write_step(successor: Option<(usize, Term)>, table: &Table, out: &mut [i64]) -> Step {
    let Some((rule, successor)) = successor else {
        return Step::Stuck;
    };
    let limit = limits::CONFIGURATION_NODES.min(out.len() / 2);
    if successor.size() > limit {
        return Step::OverLimit;
    }
    write(&successor, out);
    Step::Stepped {
        rule: rule as u8,
        action: table.rules[rule].action,
        nodes: successor.size() as u32,
    }
}

/// Writes a term from the start of a slice.
fn write(term: &Term, out: &mut [i64]) {
    let words = term.words();
    out[..words.len()].copy_from_slice(&words);
}

/// The run's answer and its last configuration.
fn run_from(table: &Table, initial: Term, budget: u64, limit: usize) -> (Run, Term) {
    let mut configuration = initial;
    let mut steps = 0;
    loop {
        let Some((_, successor)) = first_successor(table, &configuration) else {
            return (Run::Stuck { steps }, configuration);
        };
        if steps == budget {
            return (Run::Spent { steps }, configuration);
        }
        if successor.size() > limit {
            return (Run::OverLimit { steps }, configuration);
        }
        configuration = successor;
        steps += 1;
    }
}

/// The first term of the words, which are known to start with one.
pub(crate) fn first_term(words: &[i64]) -> Option<Vec<i64>> {
    let (term, _) = Term::read(words, limits::CONFIGURATION_NODES)?;
    Some(term.words())
}

#[cfg(test)]
mod tests {
    use super::super::term::Label;
    use super::*;

    #[test]
    fn labels_of_a_configuration() {
        assert!(read_configuration(&[0, 0]).is_ok());
        assert!(read_configuration(&[3, 0]).is_err());
        assert!(read_configuration(&[4, 0]).is_err());
        let Ok(term) = read_configuration(&[10, 7, 1, 1, 2, -5]) else {
            panic!("a good configuration");
        };
        assert_eq!(term.label(), Label::Symbol(7));
        assert_eq!(term.children()[1].label(), Label::Int(-5));
    }
}
