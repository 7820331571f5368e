//! Reasons at their limits: the rule count, the length of the list, each node of the widest lefts,
//! each number of a condition.

use super::{any_rule, buffer, largest_successor, map_of_nodes, sample_nodes, wide_variables};
use crate::call::Call;
use crate::words::{
    RuleWords, Words, bush, call, chain, int, spin_rules, symbol, table, truth, variable,
};
use std::ops::Range;
use std::slice;

/// All these calls.
pub(super) fn calls() -> Vec<Call> {
    let mut calls = rule_counts();
    calls.extend(nodes());
    calls.extend(wide_lefts());
    calls.extend(later_places());
    calls.extend(conditions());
    calls.extend(large_successors());
    calls.extend(refusals_together());
    calls
}

/// The reasons, with a list of so many words.
fn reasons(rules: &[RuleWords], configuration: Words, list: usize) -> Call {
    Call::Reasons {
        table: table(rules),
        configuration,
        list: buffer(list),
    }
}

/// The reasons, with a word more than they take.
fn all_reasons(rules: &[RuleWords], configuration: Words) -> Call {
    reasons(rules, configuration, 2 * rules.len() + 1)
}

/// From no rule to 256, none of which applies, or one: lists from no word to more than enough.
fn rule_counts() -> Vec<Call> {
    let count = |number| symbol(1, &[int(number)]);
    let mut calls = Vec::new();
    for rules in [0, 1, 2, 3, 100, 255, 256] {
        let all: Vec<RuleWords> = (0..rules)
            .map(|number| RuleWords::new(0, count(number), int(0)))
            .collect();
        let needed = 2 * rules as usize;
        for number in [-1, 0, 1, rules / 2, rules - 1, rules] {
            for list in [0, 1, needed.saturating_sub(1), needed, needed + 1, 600] {
                calls.push(reasons(&all, count(number), list));
            }
        }
    }
    calls
}

/// Each kind of node against all others at once: as whole lefts, inside one, and at a variable's
/// later place. With all of them one rule applies, without the equal one none does.
fn nodes() -> Vec<Call> {
    let nodes = sample_nodes();
    let inside = |node: &Words| symbol(3, &[int(7), node.clone(), int(8)]);
    let twice = |node: &Words| symbol(3, &[variable(0), node.clone(), variable(0)]);
    let mut calls = Vec::new();
    for (number, node) in nodes.iter().enumerate() {
        let mut lefts = [
            nodes.clone(),
            nodes.iter().map(inside).collect(),
            nodes.iter().map(twice).collect(),
        ];
        let before = &nodes[number.saturating_sub(1)];
        let beside = symbol(3, &[before.clone(), node.clone(), int(8)]);
        for configuration in [node.clone(), inside(node), beside] {
            calls.push(of_lefts(&lefts.concat(), configuration.clone()));
            calls.extend(lefts.iter().map(|all| of_lefts(all, configuration.clone())));
        }
        lefts.iter_mut().for_each(|all| drop(all.remove(number)));
        calls.push(of_lefts(&lefts.concat(), node.clone()));
        calls.push(of_lefts(&lefts.concat(), inside(node)));
    }
    calls
}

fn of_lefts(lefts: &[Words], configuration: Words) -> Call {
    let rule = |left: &Words| RuleWords::new(0, left.clone(), int(0));
    let rules: Vec<RuleWords> = lefts.iter().map(rule).collect();
    all_reasons(&rules, configuration)
}

/// Lefts of as many nodes as there may be, which disagree at each node from the first to the last.
fn wide_lefts() -> Vec<Call> {
    [chain(512, 3), bush(512), map_of_nodes(512)]
        .iter()
        .flat_map(|left| changed_nodes(left, left, 0..512))
        .collect()
}

/// A left with each variable many times, which disagrees at each place where one stands.
fn later_places() -> Vec<Call> {
    let (left, same) = wide_variables();
    changed_nodes(&left, &same, 72..505)
}

/// A left with a configuration that it matches, and with the same where one of these nodes has
/// another datum.
fn changed_nodes(left: &Words, configuration: &Words, places: Range<usize>) -> Vec<Call> {
    let lefts = slice::from_ref(left);
    let mut calls = vec![of_lefts(lefts, configuration.clone())];
    calls.extend(places.map(|place| {
        let mut other = configuration.clone();
        other[2 * place + 1] += 1;
        of_lefts(lefts, other)
    }));
    calls
}

/// No condition to eight, of which each is the first to fail, or none: those behind it hold, or fail
/// too. The rule stands on both sides of one whose left disagrees, and behind it only.
fn conditions() -> Vec<Call> {
    let other = RuleWords::new(0, symbol(1, &[int(5)]), int(0));
    let failing = (0..=8).flat_map(|count| (0..=count).map(move |failing| (count, failing)));
    let mut calls = Vec::new();
    for (count, failing) in failing {
        for behind in [true, false] {
            let rule = guarded(count, failing, behind);
            let rules = [rule.clone(), other.clone(), rule];
            calls.push(all_reasons(&rules, symbol(1, &[int(4)])));
            calls.push(all_reasons(&rules[1..], symbol(1, &[int(4)])));
            calls.push(all_reasons(&rules, symbol(2, &[int(4)])));
        }
    }
    calls
}

/// A rule with so many conditions on a number, which is 4: the one of that number is the first to
/// fail, and it is said whether those behind it hold.
fn guarded(count: usize, failing: usize, behind: bool) -> RuleWords {
    let x = || variable(0);
    let holds = |number| number < failing || number > failing && behind;
    let less = |number| call(12, &[x(), int(4 + holds(number) as i64)]);
    let mut rule = RuleWords::new(0, symbol(1, &[x()]), x());
    rule.conditions = (0..count)
        .map(|number| [less(number), truth(true)])
        .collect();
    rule
}

/// Every choice of the refusals 1, 2 and 5 at once, of a configuration that is stuck and of one that
/// is not.
fn refusals_together() -> Vec<Call> {
    let good = table(&spin_rules());
    let bad = good[..good.len() - 1].to_vec();
    let configurations = [[9, 1, 2, 2], [9, 3, 2, 2]]
        .iter()
        .flat_map(|whole| [4, 2, 0].map(|words| whole[..words].to_vec()));
    let mut calls = Vec::new();
    for configuration in configurations {
        for table in [&good, &bad] {
            calls.extend([0, 5, 6, 7].map(|list| Call::Reasons {
                table: table.clone(),
                configuration: configuration.clone(),
                list: buffer(list),
            }));
        }
    }
    calls
}

/// Rules that apply although their successor is above every limit, and the same with a condition
/// that fails.
fn large_successors() -> Vec<Call> {
    let Call::Step {
        table,
        configuration,
        ..
    } = largest_successor()
    else {
        return Vec::new();
    };
    let grow = RuleWords::new(9, variable(0), symbol(1, &[variable(0)]));
    let fails = grow.clone().when(variable(0), int(0));
    let largest = chain(32_768, 0);
    vec![
        Call::Reasons {
            table,
            configuration,
            list: buffer(2),
        },
        all_reasons(&[fails.clone(), grow, any_rule()], largest.clone()),
        all_reasons(&[fails.clone(), fails], largest),
    ]
}
