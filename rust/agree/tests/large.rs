//! The largest cases, each in a thread with a stack of 1 MiB: nothing may go down a configuration
//! or along a log by calling itself.

use agree::call::{Buffer, Call};
use agree::compare::{Answer, compare, perform};
use agree::engines;
use agree::words::{
    LOOKUP, RuleWords, UPDATE, Words, bush, call, chain, dictionary, int, nest, symbol, table,
    truth, variable,
};
use interpreter::{Check, Match, Reasons, Replay, Run, Step};
use std::thread;

const STACK: usize = 1 << 20;
const MOST: usize = 32_768;

/// Runs a test with a small stack.
fn with_small_stack(test: impl FnOnce() + Send + 'static) {
    let thread = thread::Builder::new().stack_size(STACK).spawn(test);
    thread
        .expect("a thread")
        .join()
        .expect("the test in the thread passes");
}

fn buffer(len: usize) -> Buffer {
    Buffer {
        len,
        fill: 0xfeed_0001,
    }
}

/// The answer that all interpreters agree on.
fn agreed(call: &Call) -> Answer {
    match compare(call, engines::ALL) {
        Ok(answer) => answer,
        Err(text) => panic!("{}", &text[..text.len().min(2_000)]),
    }
}

fn replay(rules: &[RuleWords], configuration: Words, log: Vec<u16>, limit: usize) -> Call {
    Call::Replay {
        table: table(rules),
        configuration,
        limit: limit as u64,
        out: buffer(2 * limit + 3),
        choices: buffer(log.len() + 1),
        work: buffer((log.len() + 1) * (2 * limit + 2) + 1),
        log,
    }
}

fn step(rules: &[RuleWords], configuration: Words) -> Call {
    Call::Step {
        table: table(rules),
        configuration,
        out: buffer(2 * MOST),
    }
}

/// The match of rule 0 that all interpreters agree on.
fn agreed_match(rules: &[RuleWords], configuration: Words) -> Answer {
    agreed(&Call::MatchRule {
        table: table(rules),
        configuration,
        rule: 0,
    })
}

fn matches(compared: u32) -> Answer {
    Answer::Match(Match::Matches { compared })
}

fn differs(compared: u32) -> Answer {
    Answer::Match(Match::Differs { compared })
}

/// The reasons that all interpreters agree on; without entries if the configuration is not stuck.
fn agreed_reasons(rules: &[RuleWords], configuration: Words) -> (Answer, Vec<[i64; 2]>) {
    let call = Call::Reasons {
        table: table(rules),
        configuration,
        list: buffer(2 * rules.len()),
    };
    let answer = agreed(&call);
    let list = perform(&call, engines::ALL[0]).list;
    let entries = match answer {
        Answer::Reasons(Reasons::Listed) => list.as_chunks().0.to_vec(),
        _ => Vec::new(),
    };
    (answer, entries)
}

fn listed(entries: Vec<[i64; 2]>) -> (Answer, Vec<[i64; 2]>) {
    (Answer::Reasons(Reasons::Listed), entries)
}

fn not_stuck(rule: u8) -> (Answer, Vec<[i64; 2]>) {
    (Answer::Reasons(Reasons::NotStuck { rule }), Vec::new())
}

fn run(rules: &[RuleWords], configuration: Words, budget: u64, limit: usize) -> Call {
    Call::Run {
        table: table(rules),
        configuration,
        budget,
        limit: limit as u64,
        out: buffer(2 * limit),
        spare: buffer(2 * limit),
    }
}

fn x() -> Words {
    variable(0)
}

fn y() -> Words {
    variable(1)
}

/// Into a bonus round and back: two rules share the way in, and only the later one has a way out.
fn bonus_rules() -> Vec<RuleWords> {
    vec![
        RuleWords::new(10, symbol(1, &[x()]), symbol(5, &[x()])),
        RuleWords::new(10, x(), symbol(2, &[x()])),
        RuleWords::new(20, symbol(2, &[x()]), x()),
    ]
}

/// Two rules with the same successor for the first action; the second has none that applies.
fn diamond_rules() -> Vec<RuleWords> {
    let count = |term| symbol(1, &[term]);
    let tick = RuleWords::new(10, count(x()), count(call(8, &[x(), int(1)])));
    vec![
        tick.clone(),
        tick,
        RuleWords::new(20, count(int(-1)), int(0)),
    ]
}

#[test]
fn diamonds_as_long_as_a_log() {
    with_small_stack(|| {
        for (actions, limit) in [(200, 2), (200, 100), (4_096, 2), (4_096, 60)] {
            let log = [vec![10; actions - 1], vec![20]].concat();
            let call = replay(&diamond_rules(), symbol(1, &[int(0)]), log, limit);
            assert_eq!(agreed(&call), Answer::Replay(Replay::NotReproduced));
        }
    });
}

#[test]
fn paths_that_meet_after_two_and_three_steps() {
    let z = || variable(2);
    let at = |one, two, three| symbol(1, &[one, two, three]);
    let next = |term| call(8, &[term, int(1)]);
    let rules = |growth: Words, goal: Words| {
        vec![
            RuleWords::new(10, at(x(), y(), z()), at(next(x()), y(), z())),
            RuleWords::new(10, at(x(), y(), z()), at(x(), next(y()), z())),
            RuleWords::new(10, at(x(), y(), z()), at(x(), y(), growth)),
            RuleWords::new(20, goal, int(0)),
        ]
    };
    let counts = rules(next(z()), at(int(3), int(3), int(6)));
    // The third rule makes the configuration larger: it takes the place of what was kept.
    let grows = rules(symbol(2, &[z()]), at(int(6), int(6), int(0)));
    let start = move || at(int(0), int(0), int(0));
    with_small_stack(move || {
        let log = |moves| [vec![10; moves], vec![20]].concat();
        for limit in [100, 400] {
            let found = replay(&counts, start(), log(12), limit);
            assert_eq!(agreed(&found), Answer::Replay(Replay::Reproduced));
            let missed = replay(&counts, start(), log(20), limit);
            assert_eq!(agreed(&missed), Answer::Replay(Replay::NotReproduced));
            let grown = replay(&grows, start(), log(12), limit);
            assert_eq!(agreed(&grown), Answer::Replay(Replay::Reproduced));
            let missed = replay(&grows, start(), log(14), limit);
            assert_eq!(agreed(&missed), Answer::Replay(Replay::NotReproduced));
        }
        let over = replay(&grows, start(), log(14), 12);
        assert_eq!(agreed(&over), Answer::Replay(Replay::OverLimit));
    });
}

#[test]
fn two_thousand_bonus_rounds_and_back() {
    with_small_stack(|| {
        let log = [vec![10; 2_000], vec![20; 2_000]].concat();
        let call = replay(&bonus_rules(), symbol(1, &[int(2)]), log, 2_002);
        assert_eq!(agreed(&call), Answer::Replay(Replay::Reproduced));
        let outcome = perform(&call, engines::ALL[0]);
        assert!(outcome.choices[..2_000].iter().all(|&rule| rule == 1));
        assert!(outcome.choices[2_000..4_000].iter().all(|&rule| rule == 2));
        assert_eq!(outcome.out[..4], [9, 1, 2, 2]);
    });
}

#[test]
fn two_thousand_bonus_rounds_in_too_little_room() {
    with_small_stack(|| {
        let log = [vec![10; 2_000], vec![20; 2_000]].concat();
        let call = replay(&bonus_rules(), symbol(1, &[int(2)]), log, 2_001);
        assert_eq!(agreed(&call), Answer::Replay(Replay::OverLimit));
    });
}

#[test]
fn two_thousand_bonus_rounds_and_one_more_way_back() {
    with_small_stack(|| {
        let mut log = [vec![10; 2_000], vec![20; 2_000]].concat();
        log.push(20);
        let call = replay(&bonus_rules(), symbol(1, &[int(2)]), log, 2_002);
        assert_eq!(agreed(&call), Answer::Replay(Replay::NotReproduced));
    });
}

#[test]
fn a_log_of_4096_actions() {
    with_small_stack(|| {
        // Counts down by one or by nothing, and the last action asks for zero.
        let count = |child| symbol(1, &[child]);
        let rules = [
            RuleWords::new(7, count(x()), count(call(9, &[x(), int(1)]))),
            RuleWords::new(8, count(int(0)), int(0)),
        ];
        let log = [vec![7; 4_095], vec![8]].concat();
        let reproduced = replay(&rules, count(int(4_095)), log.clone(), 2);
        assert_eq!(agreed(&reproduced), Answer::Replay(Replay::Reproduced));
        let not = replay(&rules, count(int(4_094)), log, 2);
        assert_eq!(agreed(&not), Answer::Replay(Replay::NotReproduced));
    });
}

#[test]
fn a_log_of_4096_actions_from_its_end_back() {
    with_small_stack(|| {
        // Both rules apply everywhere; only the last action tells that the first choice was wrong.
        let at = |place: i64, child| symbol(place, &[child]);
        let rules = [
            RuleWords::new(7, at(1, x()), at(2, x())),
            RuleWords::new(7, at(1, x()), at(3, x())),
            RuleWords::new(7, at(2, x()), at(2, x())),
            RuleWords::new(7, at(3, x()), at(3, x())),
            RuleWords::new(8, at(3, x()), x()),
        ];
        let log = [vec![7; 4_095], vec![8]].concat();
        let call = replay(&rules, at(1, int(5)), log, 2);
        assert_eq!(agreed(&call), Answer::Replay(Replay::Reproduced));
        let outcome = perform(&call, engines::ALL[0]);
        assert_eq!(outcome.choices[0], 1);
        assert_eq!(outcome.choices[4_095], 4);
    });
}

#[test]
fn chains_and_bushes_are_checked() {
    with_small_stack(|| {
        for (nodes, answer) in [
            (MOST, Check::Good),
            (
                MOST + 1,
                Check::Refused(interpreter::Refusal::BadConfiguration),
            ),
        ] {
            for configuration in [chain(nodes, 1), bush(nodes)] {
                let call = Call::CheckConfiguration { configuration };
                assert_eq!(agreed(&call), Answer::Check(answer));
            }
        }
    });
}

#[test]
fn chains_and_bushes_are_carried_along() {
    with_small_stack(|| {
        let pair = |one, two| symbol(4, &[one, two]);
        let swap = RuleWords::new(3, pair(x(), y()), pair(y(), x()));
        for part in [chain(MOST - 2, 9), bush(MOST - 2)] {
            let configuration = pair(int(1), part);
            let stepped = Answer::Step(Step::Stepped {
                rule: 0,
                action: 3,
                nodes: MOST as u32,
            });
            let rules = [swap.clone()];
            assert_eq!(agreed(&step(&rules, configuration.clone())), stepped);
            let spent = Answer::Run(Run::Spent { steps: 51 });
            assert_eq!(agreed(&run(&rules, configuration, 51, MOST)), spent);
        }
    });
}

#[test]
fn equal_halves_of_the_largest_configuration() {
    with_small_stack(|| {
        let pair = |one, two| symbol(4, &[one, two]);
        let rules = [RuleWords::new(3, pair(x(), x()), x())];
        for half in [chain(16_383, 9), bush(16_383)] {
            let same = pair(half.clone(), half.clone());
            let call = step(&rules, same.clone());
            assert!(matches!(
                agreed(&call),
                Answer::Step(Step::Stepped { nodes: 16_383, .. })
            ));
            assert_eq!(agreed_match(&rules, same.clone()), matches(3));
            assert_eq!(agreed_reasons(&rules, same), not_stuck(0));
            let mut other = half.clone();
            let last = other.len() - 1;
            other[last] += 1;
            let different = pair(half, other);
            let call = step(&rules, different.clone());
            assert_eq!(agreed(&call), Answer::Step(Step::Stuck));
            assert_eq!(agreed_match(&rules, different.clone()), differs(3));
            assert_eq!(agreed_reasons(&rules, different), listed(vec![[0, 2]]));
        }
    });
}

/// 256 rules on halves of 16,383 nodes that differ in the last one: rules that compare them at a
/// variable's later place, in a condition, or not at all.
#[test]
fn reasons_of_256_rules_on_the_largest_configuration() {
    with_small_stack(|| {
        let pair = |one, two| symbol(4, &[one, two]);
        let kinds = [
            RuleWords::new(3, pair(x(), x()), x()),
            RuleWords::new(3, pair(x(), y()), x()).when(x(), y()),
            RuleWords::new(3, pair(x(), y()), x())
                .when(x(), x())
                .when(y(), x()),
            RuleWords::new(3, symbol(5, &[x(), x()]), x()),
        ];
        let expected = [[0, 2], [1, 0], [1, 1], [0, 0]];
        let half = chain(16_383, 9);
        let mut other = half.clone();
        other[32_765] += 1;
        let mut rules: Vec<RuleWords> = kinds.iter().cycle().take(256).cloned().collect();
        let different = pair(half, other);
        assert_eq!(different.len(), 2 * MOST - 2);
        let entries = expected.repeat(64);
        assert_eq!(agreed_reasons(&rules, different.clone()), listed(entries));
        // Only the last rule applies, to a successor above every limit.
        rules[255] = RuleWords::new(3, x(), symbol(7, &[x(), x()]));
        assert_eq!(agreed_reasons(&rules, different), not_stuck(255));
    });
}

#[test]
fn reasons_of_nested_dictionaries_and_deep_lefts() {
    with_small_stack(|| {
        let pair = |one, two| symbol(4, &[one, two]);
        for part in [nest(4_000), thin_nest(8_000)] {
            let mut other = part.clone();
            let last = other.len() - 1;
            other[last] += 1;
            let at = |map: Words| call(LOOKUP, &[map, int(1)]);
            let rules = [
                RuleWords::new(1, pair(x(), x()), x()),
                RuleWords::new(1, pair(x(), y()), x()).when(x(), y()),
                RuleWords::new(1, pair(x(), y()), x()).when(at(x()), int(-1)),
                RuleWords::new(1, pair(dictionary(&[]), y()), y()),
            ];
            let entries = vec![[0, 2], [1, 0], [1, 0], [0, 1]];
            let configuration = pair(part, other);
            assert_eq!(agreed_reasons(&rules, configuration), listed(entries));
        }
        // 511 symbols above a number: the last node disagrees, and one less is a leaf too soon.
        let deep = |leaf: Words| [[9, 6].repeat(511), leaf].concat();
        let rules = [
            RuleWords::new(1, deep(int(5)), int(0)),
            RuleWords::new(1, deep(x()), int(0)).when(x(), int(5)),
        ];
        let entries = vec![[0, 511], [1, 0]];
        assert_eq!(agreed_reasons(&rules, deep(int(6))), listed(entries));
        let entries = vec![[0, 510], [0, 510]];
        assert_eq!(agreed_reasons(&rules, chain(511, 6)), listed(entries));
    });
}

#[test]
fn a_replay_of_the_largest_configurations() {
    with_small_stack(|| {
        let rules = [
            RuleWords::new(1, x(), symbol(4, &[x()])),
            RuleWords::new(1, symbol(4, &[x()]), x()),
            RuleWords::new(2, symbol(4, &[x()]), x()),
        ];
        let call = replay(&rules, chain(MOST - 1, 4), vec![1, 2, 1, 1, 2], MOST);
        assert_eq!(agreed(&call), Answer::Replay(Replay::Reproduced));
        let call = replay(&rules, chain(MOST, 4), vec![1, 2, 2, 9], MOST);
        assert_eq!(agreed(&call), Answer::Replay(Replay::OverLimit));
    });
}

#[test]
fn a_run_of_a_million_steps() {
    with_small_stack(|| {
        // state[M, N] to state[M - 1, N + M] if 0 < M
        let state = |one, two| symbol(0, &[one, two]);
        let rule = RuleWords::new(
            1,
            state(x(), y()),
            state(call(9, &[x(), int(1)]), call(8, &[y(), x()])),
        );
        let rules = [rule.when(call(12, &[int(0), x()]), truth(true))];
        let call = run(&rules, state(int(1_000_000), int(0)), 1_000_000, 3);
        let stuck = Answer::Run(Run::Stuck { steps: 1_000_000 });
        assert_eq!(agreed(&call), stuck);
        let outcome = perform(&call, engines::ALL[0]);
        assert_eq!(outcome.out, [10, 0, 2, 0, 2, 500_000_500_000]);
        let call = run(&rules, state(int(1_000_001), int(0)), 1_000_000, 3);
        let spent = Answer::Run(Run::Spent { steps: 1_000_000 });
        assert_eq!(agreed(&call), spent);
    });
}

#[test]
fn expressions_nested_as_deep_as_they_may_be() {
    with_small_stack(|| {
        // 511 calls of bool.neg above a variable.
        let nested = [[4, 2].repeat(511), variable(0)].concat();
        let rule = RuleWords::new(1, x(), nested.clone()).when(nested.clone(), truth(false));
        for (truth_value, stepped) in [(true, true), (false, false)] {
            let answer = agreed(&step(std::slice::from_ref(&rule), truth(truth_value)));
            assert_eq!(answer != Answer::Step(Step::Stuck), stepped);
        }
        // Nested on the right side of a call of two arguments, and on its left side.
        let right = [[4, 8, 2, 1].repeat(255), variable(0)].concat();
        let left = [[4, 8].repeat(255), variable(0), [2, 1].repeat(255)].concat();
        let rule = RuleWords::new(1, x(), right.clone()).when(right, left);
        let call = step(&[rule], int(1_000));
        assert!(matches!(agreed(&call), Answer::Step(Step::Stepped { .. })));
        let outcome = perform(&call, engines::ALL[0]);
        assert_eq!(outcome.out[..2], [2, 1_255]);
    });
}

#[test]
fn lefts_and_rights_as_deep_as_they_may_be() {
    with_small_stack(|| {
        let deep = |leaf: Words| [[9, 6].repeat(511), leaf].concat();
        let rules = [
            RuleWords::new(1, deep(int(5)), int(0)),
            RuleWords::new(2, deep(x()), deep(symbol(3, &[]))),
        ];
        let call = step(&rules, deep(chain(1_000, 6)));
        assert!(matches!(
            agreed(&call),
            Answer::Step(Step::Stepped { rule: 1, .. })
        ));
        let call = step(&rules, deep(int(5)));
        assert!(matches!(
            agreed(&call),
            Answer::Step(Step::Stepped { rule: 0, .. })
        ));
        assert_eq!(agreed_match(&rules, deep(int(5))), matches(512));
        assert_eq!(agreed_match(&rules, deep(int(6))), differs(512));
        assert_eq!(
            agreed_match(&rules[1..], deep(chain(1_000, 6))),
            matches(512)
        );
        assert_eq!(agreed_match(&rules, chain(511, 6)), differs(511));
    });
}

/// Dictionaries of one entry, each the value in the one around it: two nodes for each, and one.
fn thin_nest(count: usize) -> Words {
    [[5, 1, 2, 0].repeat(count), int(7)].concat()
}

#[test]
fn nested_dictionaries_are_checked() {
    with_small_stack(|| {
        let bad = Answer::Check(Check::Refused(interpreter::Refusal::BadConfiguration));
        let check = |configuration| agreed(&Call::CheckConfiguration { configuration });
        // The innermost dictionary gets two equal keys, or one that is no number.
        let cases = [
            (nest(8_191), 4 * 8_191 + 3),
            (thin_nest(16_383), 4 * 16_382 + 2),
        ];
        for (good, changed) in cases {
            assert_eq!(check(good.clone()), Answer::Check(Check::Good));
            let mut wrong = good.clone();
            wrong[changed] = 1;
            assert_eq!(check(wrong), bad);
            let above = [vec![10, 0], good, chain(3, 0)].concat();
            assert_eq!(check(above), bad, "too many nodes");
        }
    });
}

#[test]
fn nested_dictionaries_are_carried_along() {
    with_small_stack(|| {
        let pair = |one, two| symbol(4, &[one, two]);
        let swap = RuleWords::new(3, pair(x(), y()), pair(y(), x()));
        let same = RuleWords::new(3, pair(x(), x()), x());
        for part in [nest(4_000), thin_nest(8_000)] {
            let call = run(
                std::slice::from_ref(&swap),
                pair(int(1), part.clone()),
                51,
                MOST,
            );
            assert_eq!(agreed(&call), Answer::Run(Run::Spent { steps: 51 }));
            let call = step(std::slice::from_ref(&same), pair(part.clone(), part));
            assert!(matches!(agreed(&call), Answer::Step(Step::Stepped { .. })));
        }
    });
}

#[test]
fn large_values_are_looked_up_and_updated() {
    with_small_stack(|| {
        let at = |key| call(LOOKUP, &[x(), int(key)]);
        let moved = call(UPDATE, &[x(), int(3), at(2)]);
        let rules = [
            RuleWords::new(1, symbol(1, &[x()]), moved).when(at(2), at(2)),
            RuleWords::new(2, x(), at(3)),
        ];
        for part in [
            nest(4_000),
            thin_nest(8_000),
            chain(16_000, 3),
            bush(16_000),
        ] {
            let nodes = part.len() as u32 / 2;
            let meters = dictionary(&[(1, int(1)), (2, part.clone()), (5, int(1))]);
            let call = step(&rules, symbol(1, &[meters]));
            // A dictionary, four keys, two small values and the large one twice.
            let stepped = Answer::Step(Step::Stepped {
                rule: 0,
                action: 1,
                nodes: 1 + 4 + 2 + 2 * nodes,
            });
            assert_eq!(agreed(&call), stepped);
            let meters = dictionary(&[(1, int(1)), (3, part)]);
            assert!(matches!(
                agreed(&step(&rules, meters)),
                Answer::Step(Step::Stepped { rule: 1, .. })
            ));
        }
    });
}

#[test]
fn lookups_nested_as_deep_as_they_may_be() {
    with_small_stack(|| {
        // 255 lookups of key 0, each in what the next one finds.
        let nested = [[4, LOOKUP].repeat(255), x(), int(0).repeat(255)].concat();
        let rule = RuleWords::new(1, x(), nested.clone()).when(nested.clone(), nested);
        for (count, value) in [(255, int(7)), (256, thin_nest(1)), (254, vec![0, 0])] {
            let call = step(std::slice::from_ref(&rule), thin_nest(count));
            assert!(matches!(agreed(&call), Answer::Step(Step::Stepped { .. })));
            let outcome = perform(&call, engines::ALL[0]);
            assert_eq!(outcome.out[..value.len()], value);
        }
    });
}
