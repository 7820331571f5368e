//! The routines over slices.

use super::check::{self, Configuration, index};
use super::rules::{Bindings, Rules};
use super::{Node, nodes, nodes_mut};
use crate::answer::{Check, Match, Reasons, Refusal, Replay, Run, Step};
use crate::limits;
use std::collections::HashSet;

/// Whether the words are a well formed table.
pub fn check_table(table: &[i64]) -> Check {
    match index(table) {
        Some(_) => Check::Good,
        None => Check::Refused(Refusal::BadTable),
    }
}

/// Whether the words are a well formed configuration.
pub fn check_configuration(configuration: &[i64]) -> Check {
    match check::configuration(configuration) {
        Configuration::Malformed => Check::Refused(Refusal::BadConfiguration),
        Configuration::Plain | Configuration::WithMaps => Check::Good,
    }
}

/// One step, by the lowest rule that applies. The limit is what `out` holds.
pub fn step(table: &[i64], configuration: &[i64], out: &mut [i64]) -> Step {
    let (rules, configuration) = match check_both(table, configuration) {
        Ok(both) => both,
        Err(refusal) => return Step::Refused(refusal),
    };
    if rules.has_maps {
        first_step::<true>(&rules, configuration, out)
    } else {
        first_step::<false>(&rules, configuration, out)
    }
}

/// One step by the rule of that number. A number that names no rule does not apply.
pub fn step_by_rule(table: &[i64], configuration: &[i64], rule: usize, out: &mut [i64]) -> Step {
    let (rules, configuration) = match check_both(table, configuration) {
        Ok(both) => both,
        Err(refusal) => return Step::Refused(refusal),
    };
    if rules.has_maps {
        named_step::<true>(&rules, configuration, rule, out)
    } else {
        named_step::<false>(&rules, configuration, rule, out)
    }
}

/// How far the left of the rule of that number and the configuration agree.
pub fn match_rule(table: &[i64], configuration: &[i64], rule: usize) -> Match {
    let (rules, configuration) = match check_both(table, configuration) {
        Ok(both) => both,
        Err(refusal) => return Match::Refused(refusal),
    };
    if rules.has_maps {
        named_match::<true>(&rules, configuration, rule)
    } else {
        named_match::<false>(&rules, configuration, rule)
    }
}

/// Why no rule applies, for each one: two words in the list. The words are gathered on the heap,
/// since a later rule may apply after all.
pub fn reasons(table: &[i64], configuration: &[i64], list: &mut [i64]) -> Reasons {
    let (rules, configuration) = match check_both(table, configuration) {
        Ok(both) => both,
        Err(refusal) => return Reasons::Refused(refusal),
    };
    let Some(list) = list.get_mut(..2 * rules.rules.len()) else {
        return Reasons::Refused(Refusal::ShortBuffer);
    };
    let obstacles = if rules.has_maps {
        rules.obstacles::<true>(configuration)
    } else {
        rules.obstacles::<false>(configuration)
    };
    match obstacles {
        Ok(entries) => {
            nodes_mut(list).copy_from_slice(&entries);
            Reasons::Listed
        }
        Err(rule) => Reasons::NotStuck { rule: rule as u8 },
    }
}

/// The step repeated, at most `budget` times, within `limit` nodes.
pub fn run(
    table: &[i64],
    configuration: &[i64],
    budget: u64,
    limit: u64,
    out: &mut [i64],
    spare: &mut [i64],
) -> Run {
    let long = budget > limits::BUDGET;
    let (rules, initial, limit) = match check_all(table, configuration, long, limit) {
        Ok(all) => all,
        Err(refusal) => return Run::Refused(refusal),
    };
    if out.len() < 2 * limit || spare.len() < 2 * limit {
        return Run::Refused(Refusal::ShortBuffer);
    }
    let out = nodes_mut(&mut out[..2 * limit]);
    let spare = nodes_mut(&mut spare[..2 * limit]);
    let (answer, steps, size) = if rules.has_maps {
        run_between::<true>(&rules, initial, budget, out, spare)
    } else {
        run_between::<false>(&rules, initial, budget, out, spare)
    };
    if steps % 2 == 1 {
        out[..size].copy_from_slice(&spare[..size]);
    }
    out[size..].fill([0, 0]);
    spare.fill([0, 0]);
    answer
}

/// The search for the first list of rules that yields the log within `limit` nodes.
pub fn replay(
    table: &[i64],
    configuration: &[i64],
    log: &[u16],
    limit: u64,
    out: &mut [i64],
    choices: &mut [u16],
    work: &mut [i64],
) -> Replay {
    let long = log.len() > limits::LOG;
    let (rules, initial, limit) = match check_all(table, configuration, long, limit) {
        Ok(all) => all,
        Err(refusal) => return Replay::Refused(refusal),
    };
    let work_len = (log.len() + 1) * (2 * limit + 2);
    if out.len() < 2 * limit || choices.len() < log.len() || work.len() < work_len {
        return Replay::Refused(Refusal::ShortBuffer);
    }
    let frames = nodes_mut(&mut work[..work_len]);
    let answer = if rules.has_maps {
        search::<true>(&rules, initial, log, limit, frames)
    } else {
        search::<false>(&rules, initial, log, limit, frames)
    };
    if answer == Replay::Reproduced {
        write_found(frames, limit, &mut choices[..log.len()], nodes_mut(out));
    }
    frames.fill([0, 0]);
    answer
}

/// The rules of a table, which say whether there may be dictionaries, and the configuration.
#[inline(always)]
fn check_both<'a>(
    table: &'a [i64],
    configuration: &'a [i64],
) -> Result<(Rules<'a>, &'a [Node]), Refusal> {
    let mut rules = index(table).ok_or(Refusal::BadTable)?;
    match check::configuration(configuration) {
        Configuration::Malformed => return Err(Refusal::BadConfiguration),
        Configuration::Plain => {}
        Configuration::WithMaps => rules.has_maps = true,
    }
    Ok((rules, nodes(configuration)))
}

/// The refusals 1 to 4 of a run and a replay, or what they start from.
fn check_all<'a>(
    table: &'a [i64],
    configuration: &'a [i64],
    too_long: bool,
    limit: u64,
) -> Result<(Rules<'a>, &'a [Node], usize), Refusal> {
    let (rules, initial) = check_both(table, configuration)?;
    if too_long {
        return Err(Refusal::TooLong);
    }
    if limit < initial.len() as u64 || limit > limits::CONFIGURATION_NODES as u64 {
        return Err(Refusal::BadLimit);
    }
    Ok((rules, initial, limit as usize))
}

/// The step by the lowest rule that applies.
#[inline(never)]
fn first_step<const MAPS: bool>(rules: &Rules, configuration: &[Node], out: &mut [i64]) -> Step {
    let mut bindings = Bindings::default();
    match rules.first::<MAPS>(configuration, &mut bindings) {
        Some(rule) => write_step::<MAPS>(rules, rule, configuration, &bindings, out),
        None => Step::Stuck,
    }
}

/// The step by the rule of that number, if it applies.
#[inline(never)]
fn named_step<const MAPS: bool>(
    rules: &Rules,
    configuration: &[Node],
    rule: usize,
    out: &mut [i64],
) -> Step {
    let mut bindings = Bindings::default();
    match rules.rules.get(rule) {
        Some(named) if rules.applies::<MAPS>(named, configuration, &mut bindings) => {
            write_step::<MAPS>(rules, rule, configuration, &bindings, out)
        }
        _ => Step::Stuck,
    }
}

/// The match of the rule of that number. An indexed left has its nodes in preorder, one for each.
#[inline(never)]
fn named_match<const MAPS: bool>(rules: &Rules, configuration: &[Node], rule: usize) -> Match {
    let Some(named) = rules.rules.get(rule) else {
        return Match::Differs { compared: 0 };
    };
    match rules.compare::<MAPS>(named, configuration) {
        (_, Some(place)) => Match::Differs {
            compared: place as u32 + 1,
        },
        (nodes, None) => Match::Matches {
            compared: nodes as u32,
        },
    }
}

/// Writes the successor by a rule that applies, if it fits.
fn write_step<const MAPS: bool>(
    rules: &Rules,
    number: usize,
    configuration: &[Node],
    bindings: &Bindings,
    out: &mut [i64],
) -> Step {
    let rule = &rules.rules[number];
    let plan = rules.plan::<MAPS>(rule, configuration, bindings);
    let size = plan.size;
    if size > limits::CONFIGURATION_NODES.min(out.len() / 2) {
        return Step::OverLimit;
    }
    rule.write::<MAPS>(configuration, bindings, plan, nodes_mut(out));
    Step::Stepped {
        rule: number as u8,
        action: rule.action,
        nodes: size as u32,
    }
}

/// Runs between two buffers as long as the limit. Gives the answer, the steps and the size of the
/// last configuration, which stands in `out` after an even number of steps, else in `spare`.
#[inline(never)]
fn run_between<const MAPS: bool>(
    rules: &Rules,
    initial: &[Node],
    budget: u64,
    out: &mut [Node],
    spare: &mut [Node],
) -> (Run, u64, usize) {
    let mut bindings = Bindings::default();
    let mut size = initial.len();
    let mut steps = 0;
    out[..size].copy_from_slice(initial);
    let (mut from, mut to) = (out, spare);
    loop {
        let configuration = &from[..size];
        let Some(number) = rules.first::<MAPS>(configuration, &mut bindings) else {
            return (Run::Stuck { steps }, steps, size);
        };
        if steps == budget {
            return (Run::Spent { steps }, steps, size);
        }
        let rule = &rules.rules[number];
        let plan = rules.plan::<MAPS>(rule, configuration, &bindings);
        let successor = plan.size;
        if successor > to.len() {
            return (Run::OverLimit { steps }, steps, size);
        }
        rule.write::<MAPS>(configuration, &bindings, plan, &mut to[..successor]);
        (from, to) = (to, from);
        size = successor;
        steps += 1;
    }
}

/// With so many actions left or fewer a search is too short to be worth remembering.
const SHORT: usize = 3;

/// Goes through the lists of rules in dictionary order. The stack is in `frames`: for each action
/// a configuration in as many nodes as the limit, then one node with its size and the lowest rule
/// that was not tried on it. If the log is reproduced, the stack is the path. A configuration from
/// which the rest of the log was tried in vain is remembered with its depth, and not entered again.
#[inline(never)]
fn search<const MAPS: bool>(
    rules: &Rules,
    initial: &[Node],
    log: &[u16],
    limit: usize,
    frames: &mut [Node],
) -> Replay {
    let mut bindings = Bindings::default();
    let mut over = false;
    let mut in_vain: HashSet<(usize, Vec<Node>)> = HashSet::new();
    frames[..initial.len()].copy_from_slice(initial);
    frames[limit] = [initial.len() as i64, 0];
    let mut depth = 0;
    while let Some(&action) = log.get(depth) {
        let (frame, behind) = frames[depth * (limit + 1)..].split_at_mut(limit + 1);
        let (configuration, state) = frame.split_at_mut(limit);
        let configuration = &configuration[..state[0][0] as usize];
        let from = state[0][1] as usize;
        let Some(number) = rules.first_with::<MAPS>(action, from, configuration, &mut bindings)
        else {
            if depth == 0 {
                return if over {
                    Replay::OverLimit
                } else {
                    Replay::NotReproduced
                };
            }
            if log.len() - depth > SHORT {
                in_vain.insert((depth, configuration.to_vec()));
            }
            depth -= 1;
            continue;
        };
        state[0][1] = number as i64 + 1;
        let rule = &rules.rules[number];
        let plan = rules.plan::<MAPS>(rule, configuration, &bindings);
        let size = plan.size;
        if size > limit {
            over = true;
            continue;
        }
        rule.write::<MAPS>(configuration, &bindings, plan, &mut behind[..size]);
        let worth = !in_vain.is_empty() && log.len() - depth > SHORT + 1;
        if worth && in_vain.contains(&(depth + 1, behind[..size].to_vec())) {
            continue;
        }
        behind[limit] = [size as i64, 0];
        depth += 1;
    }
    Replay::Reproduced
}

/// Writes the choices and the last configuration of a path.
fn write_found(frames: &[Node], limit: usize, choices: &mut [u16], out: &mut [Node]) {
    let mut path = frames.chunks_exact(limit + 1);
    for (choice, frame) in choices.iter_mut().zip(&mut path) {
        *choice = (frame[limit][1] - 1) as u16;
    }
    if let Some(last) = path.next() {
        let size = last[limit][0] as usize;
        out[..size].copy_from_slice(&last[..size]);
    }
}
