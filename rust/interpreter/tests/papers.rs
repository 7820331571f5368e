//! The cases of the scope paper, P1 (as the second change request has it) to P7 and those without
//! a mark, for both interpreters. (P8 to P12 are also in `command_line.rs`, as text.) Then those
//! of the first change request, dictionaries, of the third, how far a left agrees, and of the fourth,
//! the reasons for a stuck game.

use interpreter::{Check, Match, Reasons, Refusal, Replay, Routines, Run, Step, Tree, Tuned};

#[rustfmt::skip]
const TABLE: [i64; 47] = [
    3,
    10, 1, 9, 1, 3, 0, 9, 1, 4, 9, 3, 0, 2, 1, 4, 12, 2, 0, 3, 0, 1, 1,
    10, 0, 9, 1, 3, 0, 10, 2, 3, 0, 9, 1, 3, 0,
    20, 0, 10, 2, 3, 0, 3, 1, 3, 1,
];
const SPIN_0: [i64; 4] = [9, 1, 2, 0];
const SPIN_1: [i64; 4] = [9, 1, 2, 1];
const SPIN_2: [i64; 4] = [9, 1, 2, 2];

const BOTH: [&dyn Routines; 2] = [&Tree, &Tuned];

/// The value of an expression without variables: the right of a rule from symbol 0 without
/// children.
fn value_of(routines: &dyn Routines, expression: &[i64]) -> Vec<i64> {
    let table = [&[1, 7, 0, 8, 0], expression].concat();
    let mut out = vec![-1; 64];
    match routines.step(&table, &[8, 0], &mut out) {
        Step::Stepped {
            rule: 0,
            action: 7,
            nodes,
        } => out[..2 * nodes as usize].to_vec(),
        other => panic!("{}: {other:?}", routines.name()),
    }
}

fn assert_value(expression: &[i64], value: &[i64]) {
    for routines in BOTH {
        assert_eq!(
            value_of(routines, expression),
            value,
            "{} of {expression:?}",
            routines.name()
        );
    }
}

fn stepped(rule: u8, action: u16, nodes: u32) -> Step {
    Step::Stepped {
        rule,
        action,
        nodes,
    }
}

#[test]
fn p1_share() {
    assert_value(&[4, 14, 2, 7, 2, 1, 2, 2], &[2, 4]);
    assert_value(&[4, 14, 2, 5, 2, 1, 2, 2], &[2, 2]);
    assert_value(&[4, 14, 2, -7, 2, 1, 2, 2], &[2, -4]);
}

#[test]
fn p2_sum_outside_64_bits() {
    assert_value(&[4, 8, 2, i64::MAX, 2, 1], &[0, 0]);
}

#[test]
fn p3_repeated_variable() {
    // pair[X, X] to X
    let table = [1, 0, 0, 10, 4, 3, 0, 3, 0, 3, 0];
    for routines in BOTH {
        let mut out = [-1; 6];
        let same = routines.step(&table, &[10, 4, 2, 3, 2, 3], &mut out);
        assert_eq!(same, stepped(0, 0, 1));
        assert_eq!(out, [2, 3, -1, -1, -1, -1]);
        let mut out = [-1; 6];
        let different = routines.step(&table, &[10, 4, 2, 3, 2, 4], &mut out);
        assert_eq!(different, Step::Stuck);
        assert_eq!(out, [-1; 6]);
    }
}

#[test]
fn p4_and_of_a_number() {
    assert_value(&[4, 3, 1, 1, 2, 1], &[0, 0]);
}

#[test]
fn p5_spin_2_steps_by_rule_0() {
    for routines in BOTH {
        let mut out = [-1; 6];
        assert_eq!(routines.step(&TABLE, &SPIN_2, &mut out), stepped(0, 10, 2));
        assert_eq!(out, [9, 1, 2, 1, -1, -1]);
    }
}

#[test]
fn p6_spin_0_steps_by_rule_1() {
    for routines in BOTH {
        let mut out = [-1; 8];
        assert_eq!(routines.step(&TABLE, &SPIN_0, &mut out), stepped(1, 10, 4));
        assert_eq!(out, [10, 2, 2, 0, 9, 1, 2, 0]);
    }
}

#[test]
fn p7_hold_is_stuck() {
    for routines in BOTH {
        let mut out = [-1; 8];
        let hold = [9, 3, 9, 1, 2, 2];
        assert_eq!(routines.step(&TABLE, &hold, &mut out), Step::Stuck);
        assert_eq!(out, [-1; 8]);
    }
}

/// The answer of a replay from spin[2], the choices, and `out`; the buffers held 9 before.
fn replay(routines: &dyn Routines, log: &[u16], limit: u64) -> (Replay, Vec<u16>, Vec<i64>) {
    let mut out = vec![9; 2 * limit as usize + 1];
    let mut choices = vec![9; log.len() + 1];
    let work_len = (log.len() + 1) * (2 * limit as usize + 2);
    let mut work = vec![9; work_len + 1];
    let answer = routines.replay(
        &TABLE,
        &SPIN_2,
        log,
        limit,
        &mut out,
        &mut choices,
        &mut work,
    );
    assert!(work[..work_len].iter().all(|&word| word == 0));
    assert_eq!(work[work_len], 9);
    (answer, choices, out)
}

#[test]
fn p8_reproduced_by_a_later_rule() {
    for routines in BOTH {
        let (answer, choices, out) = replay(routines, &[10, 20], 4);
        assert_eq!(answer, Replay::Reproduced);
        assert_eq!(choices, [1, 2, 9]);
        assert_eq!(out, [9, 1, 2, 2, 9, 9, 9, 9, 9]);
    }
}

#[test]
fn p9_over_limit() {
    for routines in BOTH {
        let (answer, choices, out) = replay(routines, &[10, 20], 3);
        assert_eq!(answer, Replay::OverLimit);
        assert_eq!((choices, out), (vec![9; 3], vec![9; 7]));
    }
}

#[test]
fn p10_not_reproduced() {
    for routines in BOTH {
        let (answer, choices, out) = replay(routines, &[20], 4);
        assert_eq!(answer, Replay::NotReproduced);
        assert_eq!((choices, out), (vec![9; 2], vec![9; 9]));
    }
}

#[test]
fn p11_empty_log() {
    for routines in BOTH {
        let (answer, choices, out) = replay(routines, &[], 4);
        assert_eq!(answer, Replay::Reproduced);
        assert_eq!(choices, [9]);
        assert_eq!(out, [9, 1, 2, 2, 9, 9, 9, 9, 9]);
    }
}

#[test]
fn p12_three_actions() {
    for routines in BOTH {
        let (answer, choices, out) = replay(routines, &[10, 10, 20], 4);
        assert_eq!(answer, Replay::Reproduced);
        assert_eq!(choices, [0, 1, 2, 9]);
        assert_eq!(out[..4], SPIN_1);
    }
}

#[test]
fn a_run_is_spent() {
    for routines in BOTH {
        let (mut out, mut spare) = ([9; 9], [9; 9]);
        let answer = routines.run(&TABLE, &SPIN_2, 2, 4, &mut out, &mut spare);
        assert_eq!(answer, Run::Spent { steps: 2 });
        assert_eq!(out, [9, 1, 2, 0, 0, 0, 0, 0, 9]);
        assert_eq!(spare, [0, 0, 0, 0, 0, 0, 0, 0, 9]);
    }
}

#[test]
fn a_run_goes_over_its_limit_below_the_budget_only() {
    for routines in BOTH {
        let (mut out, mut spare) = ([9; 6], [9; 6]);
        let answer = routines.run(&TABLE, &SPIN_2, 3, 3, &mut out, &mut spare);
        assert_eq!(answer, Run::OverLimit { steps: 2 });
        assert_eq!(out, [9, 1, 2, 0, 0, 0]);
        let answer = routines.run(&TABLE, &SPIN_2, 2, 3, &mut out, &mut spare);
        assert_eq!(answer, Run::Spent { steps: 2 });
        let answer = routines.run(&TABLE, &[2, 5], 0, 3, &mut out, &mut spare);
        assert_eq!(answer, Run::Stuck { steps: 0 });
        assert_eq!(out, [2, 5, 0, 0, 0, 0]);
    }
}

#[test]
fn up_to_256_rules() {
    for (count, answer) in [(256, Check::Good), (257, Check::Refused(Refusal::BadTable))] {
        let mut table = vec![count];
        for _ in 0..count {
            table.extend([0, 0, 3, 0, 3, 0]);
        }
        for routines in BOTH {
            assert_eq!(routines.check_table(&table), answer);
        }
    }
}

#[test]
fn up_to_4096_actions() {
    // X to X
    let table = [1, 5, 0, 3, 0, 3, 0];
    for (length, expected) in [
        (4_096, Replay::Reproduced),
        (4_097, Replay::Refused(Refusal::TooLong)),
    ] {
        for routines in BOTH {
            let mut choices = vec![9; length];
            let mut work = vec![0; (length + 1) * 4];
            let log = vec![5; length];
            let answer = routines.replay(
                &table,
                &[2, 7],
                &log,
                1,
                &mut [0; 2],
                &mut choices,
                &mut work,
            );
            assert_eq!(answer, expected);
        }
    }
}

#[test]
fn a_step_by_rule_takes_no_other() {
    for routines in BOTH {
        let mut out = [9; 8];
        let by = |rule, out: &mut [i64]| routines.step_by_rule(&TABLE, &SPIN_2, rule, out);
        assert_eq!(by(1, &mut out), stepped(1, 10, 4));
        assert_eq!(out, [10, 2, 2, 2, 9, 1, 2, 2]);
        assert_eq!(by(1, &mut out[..7]), Step::OverLimit);
        assert_eq!(by(2, &mut out), Step::Stuck);
        assert_eq!(by(3, &mut out), Step::Stuck);
        assert_eq!(by(256, &mut out), Step::Stuck);
        assert_eq!(by(usize::MAX, &mut out), Step::Stuck);
    }
}

#[test]
fn a_step_takes_no_later_rule_for_its_size() {
    // X to pair[X, X]; X to X
    let table = [2, 1, 0, 3, 0, 10, 4, 3, 0, 3, 0, 2, 0, 3, 0, 3, 0];
    for routines in BOTH {
        let mut out = [9; 5];
        let answer = routines.step(&table, &[2, 1], &mut out);
        assert_eq!(answer, Step::OverLimit);
        assert_eq!(out, [9; 5]);
    }
}

#[test]
fn values_of_the_functions() {
    const MIN: i64 = i64::MIN;
    const MAX: i64 = i64::MAX;
    const M: i64 = 2_147_483_647;
    let t = [1, 1];
    let f = [1, 0];
    let e = [0, 0];
    let n = |number| [2, number];
    /// A function's code, its arguments and its value.
    type Case<'a> = (i64, &'a [[i64; 2]], [i64; 2]);
    #[rustfmt::skip]
    let cases: [Case; 42] = [
        (0, &[], t), (1, &[], f),
        (2, &[t], f), (2, &[f], t), (2, &[n(0)], e), (2, &[e], e),
        (3, &[t, t], t), (3, &[f, n(1)], e), (3, &[f, t], f),
        (4, &[f, f], f), (4, &[t, f], t), (4, &[t, e], e),
        (5, &[f, f], t), (5, &[t, f], f), (5, &[n(1), n(1)], e),
        (6, &[t], t), (6, &[e], f), (6, &[n(1)], f), (7, &[n(0)], t), (7, &[e], f),
        (8, &[n(MAX), n(MIN)], n(-1)), (8, &[n(MIN), n(-1)], e), (8, &[n(1), t], e),
        (9, &[n(MIN), n(1)], e), (9, &[n(0), n(MIN)], e), (9, &[n(-1), n(MIN)], n(MAX)),
        (10, &[n(3), n(3)], t), (10, &[t, t], e),
        (11, &[n(3), n(3)], t), (11, &[n(MIN), n(MAX)], t), (12, &[n(3), n(3)], f), (12, &[n(-1), n(0)], t),
        (13, &[[8, 5], [8, 5]], t), (13, &[[8, 5], [8, 6]], f), (13, &[n(5), n(5)], f), (13, &[e, e], f),
        (14, &[n(M), n(-M), n(1)], n(-M * M)), (14, &[n(M + 1), n(1), n(1)], e),
        (14, &[n(1), n(-M - 1), n(1)], e), (14, &[n(1), n(1), n(0)], e),
        (14, &[n(-M), n(3), n(M)], n(-3)), (14, &[n(1), n(1), n(M + 1)], e),
    ];
    for (code, arguments, value) in cases {
        assert_value(
            &[&[4, code], arguments.concat().as_slice()].concat(),
            &value,
        );
    }
    // Symbols of other child counts, and with children.
    assert_value(&[4, 13, 8, 5, 9, 5, 2, 1], &t);
    assert_value(&[4, 13, 10, 5, 9, 7, 2, 0, 2, 1, 9, 5, 2, 1], &t);
}

#[test]
fn two_errors_are_the_same_value() {
    // go[] to 1 if bool.neg(1) is bool.neg(2)
    let table = [1, 0, 1, 8, 0, 2, 1, 4, 2, 2, 1, 4, 2, 2, 2];
    for routines in BOTH {
        let answer = routines.step(&table, &[8, 0], &mut [0; 2]);
        assert_eq!(answer, stepped(0, 0, 1));
    }
}

#[test]
fn what_stands_below_calls_and_in_conditions() {
    let bad = Check::Refused(Refusal::BadTable);
    #[rustfmt::skip]
    let cases: [(&[i64], Check); 12] = [
        // X to z.is(f[1])
        (&[1, 0, 0, 3, 0, 4, 7, 9, 0, 2, 1], Check::Good),
        // X to z.is(f[X])
        (&[1, 0, 0, 3, 0, 4, 7, 9, 0, 3, 0], bad),
        // X to z.is(f[bool.true()])
        (&[1, 0, 0, 3, 0, 4, 7, 9, 0, 4, 0], bad),
        // X to f[z.is(X)]
        (&[1, 0, 0, 3, 0, 9, 0, 4, 7, 3, 0], Check::Good),
        // X to X if f[1] is X
        (&[1, 0, 1, 3, 0, 3, 0, 9, 0, 2, 1, 3, 0], Check::Good),
        // X to X if f[X] is X
        (&[1, 0, 1, 3, 0, 3, 0, 9, 0, 3, 0, 3, 0], bad),
        // X to X if X is f[bool.true()]
        (&[1, 0, 1, 3, 0, 3, 0, 3, 0, 9, 0, 4, 0], bad),
        // X to Y
        (&[1, 0, 0, 3, 0, 3, 1], bad),
        // X to X if X is Y
        (&[1, 0, 1, 3, 0, 3, 0, 3, 0, 3, 1], bad),
        // f[bool.true()] to 1
        (&[1, 0, 0, 9, 0, 4, 0, 2, 1], bad),
        // error to error
        (&[1, 0, 0, 0, 0, 0, 0], Check::Good),
        // No rules.
        (&[0], Check::Good),
    ];
    for (table, answer) in cases {
        for routines in BOTH {
            assert_eq!(
                routines.check_table(table),
                answer,
                "{} of {table:?}",
                routines.name()
            );
        }
    }
}

/// The words of a dictionary.
fn dictionary(entries: &[(i64, &[i64])]) -> Vec<i64> {
    let mut words = vec![5, entries.len() as i64];
    for (key, value) in entries {
        words.extend([2, *key]);
        words.extend(*value);
    }
    words
}

/// A dictionary with so many entries, of keys 0, 2, 4 and so on: each has ten times its key.
fn even_keys(count: i64) -> Vec<i64> {
    let mut words = vec![5, count];
    for entry in 0..count {
        words.extend([2, 2 * entry, 2, 20 * entry]);
    }
    words
}

/// A call of these arguments.
fn call(code: i64, arguments: &[&[i64]]) -> Vec<i64> {
    [&[4, code], arguments.concat().as_slice()].concat()
}

fn lookup(dictionary: &[i64], key: &[i64]) -> Vec<i64> {
    call(16, &[dictionary, key])
}

fn update(dictionary: &[i64], key: &[i64], value: &[i64]) -> Vec<i64> {
    call(17, &[dictionary, key, value])
}

const ERROR: [i64; 2] = [0, 0];
const TRUE: [i64; 2] = [1, 1];
const FALSE: [i64; 2] = [1, 0];
const EMPTY: [i64; 2] = [4, 15];

/// The value of an expression in which X stands for the term, found through a left that binds it.
fn value_at(routines: &dyn Routines, expression: &[i64], x: &[i64]) -> Vec<i64> {
    let table = [&[1, 7, 0, 9, 0, 3, 0], expression].concat();
    let configuration = [&[9, 0], x].concat();
    let mut out = vec![-1; 1_000];
    match routines.step(&table, &configuration, &mut out) {
        Step::Stepped { nodes, .. } => out[..2 * nodes as usize].to_vec(),
        other => panic!("{}: {other:?}", routines.name()),
    }
}

/// The value of a call on a dictionary, wherever that lies: a literal, and a part of the
/// configuration.
fn assert_map_value(call: impl Fn(&[i64]) -> Vec<i64>, dictionary: &[i64], value: &[i64]) {
    for routines in BOTH {
        let name = routines.name();
        let literal = value_at(routines, &call(dictionary), &[2, 0]);
        assert_eq!(literal, value, "{name}, a literal");
        let part = value_at(routines, &call(&[3, 0]), dictionary);
        assert_eq!(part, value, "{name}, a part of the configuration");
    }
}

#[test]
fn an_empty_dictionary() {
    assert_value(&EMPTY, &[5, 0]);
    assert_value(&update(&EMPTY, &[2, 7], &TRUE), &[5, 1, 2, 7, 1, 1]);
    assert_value(&lookup(&EMPTY, &[2, 7]), &ERROR);
}

#[test]
fn lookups() {
    let inner = dictionary(&[(1, &[2, 10]), (2, &[0, 0])]);
    let pair = [10, 4, 2, 8, 5, 0];
    let all = dictionary(&[
        (i64::MIN, &[2, -1]),
        (-1, &pair),
        (0, &ERROR),
        (3, &inner),
        (i64::MAX, &TRUE),
    ]);
    let cases: [(i64, &[i64]); 9] = [
        (i64::MIN, &[2, -1]),
        (i64::MIN + 1, &ERROR),
        (-2, &ERROR),
        (-1, &pair),
        (0, &ERROR),
        (1, &ERROR),
        (3, &inner),
        (4, &ERROR),
        (i64::MAX, &TRUE),
    ];
    for (key, value) in cases {
        assert_map_value(|d| lookup(d, &[2, key]), &all, value);
    }
    // A lookup in what a lookup found, and below other functions.
    let nested = |d: &[i64], key| lookup(&lookup(d, &[2, 3]), &[2, key]);
    assert_map_value(|d| nested(d, 1), &all, &[2, 10]);
    assert_map_value(|d| nested(d, 3), &all, &ERROR);
    assert_map_value(|d| call(8, &[&nested(d, 1), &[2, 5]]), &all, &[2, 15]);
    assert_map_value(|d| call(2, &[&lookup(d, &[2, i64::MAX])]), &all, &FALSE);
    // The key is looked up too.
    assert_map_value(|d| lookup(d, &lookup(d, &[2, i64::MIN])), &all, &pair);
    // Other kinds.
    for key in [&ERROR[..], &TRUE, &[8, 0], &[5, 0], &EMPTY] {
        assert_map_value(|d| lookup(d, key), &all, &ERROR);
    }
    for other in [&ERROR[..], &TRUE, &[2, 3], &[9, 5, 2, 3], &[8, 5]] {
        assert_map_value(|d| lookup(d, &[2, 3]), other, &ERROR);
    }
    assert_value(&lookup(&call(8, &[&[2, 1], &[2, 2]]), &[2, 3]), &ERROR);
}

#[test]
fn updates() {
    let two = dictionary(&[(1, &[2, 10]), (5, &[9, 2, 2, 50])]);
    let cases = [
        // Replaced.
        (1, dictionary(&[(1, &TRUE), (5, &[9, 2, 2, 50])])),
        (5, dictionary(&[(1, &[2, 10]), (5, &TRUE)])),
        // In front, in the middle, at the end.
        (
            -3,
            dictionary(&[(-3, &TRUE), (1, &[2, 10]), (5, &[9, 2, 2, 50])]),
        ),
        (
            2,
            dictionary(&[(1, &[2, 10]), (2, &TRUE), (5, &[9, 2, 2, 50])]),
        ),
        (
            6,
            dictionary(&[(1, &[2, 10]), (5, &[9, 2, 2, 50]), (6, &TRUE)]),
        ),
    ];
    for (key, updated) in cases {
        assert_map_value(|d| update(d, &[2, key], &TRUE), &two, &updated);
    }
    // The value may be anything: an error, a dictionary, what a call gives.
    let with = |value: &[i64]| dictionary(&[(1, value), (5, &[9, 2, 2, 50])]);
    for value in [&ERROR[..], &two, &[12, 3, 2, 1, 5, 0, 0, 0, 1, 0]] {
        assert_map_value(|d| update(d, &[2, 1], value), &two, &with(value));
    }
    let failed = call(2, &[&[2, 1]]);
    assert_map_value(|d| update(d, &[2, 1], &failed), &two, &with(&ERROR));
    assert_map_value(|d| update(d, &[2, 1], &EMPTY), &two, &with(&[5, 0]));
    assert_map_value(
        |d| update(d, &[2, 1], &lookup(d, &[2, 5])),
        &two,
        &with(&[9, 2, 2, 50]),
    );
    assert_map_value(
        |d| update(d, &[2, 1], &call(8, &[&lookup(d, &[2, 1]), &[2, 7]])),
        &two,
        &with(&[2, 17]),
    );
    // Another kind.
    for key in [&ERROR[..], &TRUE, &[8, 0], &[5, 0]] {
        assert_map_value(|d| update(d, key, &TRUE), &two, &ERROR);
    }
    for other in [&ERROR[..], &TRUE, &[2, 3], &[9, 5, 2, 3]] {
        assert_map_value(|d| update(d, &[2, 1], &TRUE), other, &ERROR);
    }
    // An update of what a lookup finds.
    let nest = dictionary(&[(0, &two), (9, &TRUE)]);
    assert_map_value(
        |d| update(&lookup(d, &[2, 0]), &[2, 1], &TRUE),
        &nest,
        &with(&TRUE),
    );
}

#[test]
fn a_sixty_fifth_key() {
    let (most, less) = (even_keys(64), even_keys(63));
    for key in [-1, 1, 63, 127, 128] {
        assert_map_value(|d| update(d, &[2, key], &TRUE), &most, &ERROR);
    }
    assert_map_value(|d| update(d, &[2, 126], &[2, 1_260]), &less, &most);
    for (key, place) in [(0, 0), (62, 31), (126, 63)] {
        let mut replaced = most.clone();
        replaced[4 + 4 * place..6 + 4 * place].copy_from_slice(&TRUE);
        assert_map_value(|d| update(d, &[2, key], &TRUE), &most, &replaced);
    }
}

#[test]
fn a_dictionary_is_no_truth_value_no_number_and_no_symbol() {
    for map in [&EMPTY[..], &[5, 0], &even_keys(3)] {
        assert_value(&call(6, &[map]), &FALSE);
        assert_value(&call(7, &[map]), &FALSE);
        assert_value(&call(13, &[map, map]), &FALSE);
        assert_value(&call(13, &[map, &[8, 0]]), &FALSE);
        assert_value(&call(2, &[map]), &ERROR);
        assert_value(&call(8, &[map, &[2, 1]]), &ERROR);
    }
}

#[test]
fn a_dictionary_in_a_left_matches_itself_alone() {
    // f[dictionary, X] to X
    let table = |map: &[i64]| [&[1, 0, 0, 10, 6], map, &[3, 0, 3, 0]].concat();
    let two = dictionary(&[(1, &[2, 10]), (5, &TRUE)]);
    let others = [
        dictionary(&[(1, &[2, 10])]),
        dictionary(&[(1, &[2, 10]), (5, &FALSE)]),
        dictionary(&[(1, &[2, 10]), (6, &TRUE)]),
        dictionary(&[(1, &[2, 10]), (5, &TRUE), (6, &TRUE)]),
        vec![5, 0],
        vec![12, 2, 2, 1, 2, 10, 2, 5, 1, 1],
    ];
    for routines in BOTH {
        let step = |map: &[i64], other: &[i64]| {
            let configuration = [&[10, 6], other, &[2, 3]].concat();
            routines.step(&table(map), &configuration, &mut [0; 8])
        };
        assert_eq!(step(&two, &two), stepped(0, 0, 1));
        assert_eq!(step(&[5, 0], &[5, 0]), stepped(0, 0, 1));
        for other in &others {
            assert_eq!(step(&two, other), Step::Stuck);
        }
        // pair[X, X]
        let repeated = [1, 0, 0, 10, 4, 3, 0, 3, 0, 2, 1];
        let same = [&[10, 4][..], &two, &two].concat();
        assert_eq!(
            routines.step(&repeated, &same, &mut [0; 2]),
            stepped(0, 0, 1)
        );
        let different = [&[10, 4][..], &two, &others[1]].concat();
        assert_eq!(
            routines.step(&repeated, &different, &mut [0; 2]),
            Step::Stuck
        );
    }
}

#[test]
fn conditions_compare_dictionaries() {
    // f[X] to 1 if these two are the same
    let holds = |routines: &dyn Routines, one: &[i64], two: &[i64], x: &[i64]| {
        let table = [&[1, 0, 1, 9, 0, 3, 0, 2, 1], one, two].concat();
        let configuration = [&[9, 0], x].concat();
        routines.step(&table, &configuration, &mut [0; 2]) == stepped(0, 0, 1)
    };
    let map = dictionary(&[(1, &[2, 10]), (5, &[5, 0]), (6, &ERROR)]);
    let x = &[3, 0];
    for routines in BOTH {
        assert!(holds(routines, x, &map, &map));
        assert!(holds(routines, &EMPTY, x, &[5, 0]));
        assert!(holds(routines, &lookup(x, &[2, 1]), &[2, 10], &map));
        assert!(holds(routines, &lookup(x, &[2, 5]), &EMPTY, &map));
        assert!(holds(routines, &lookup(x, &[2, 5]), &[5, 0], &map));
        // An error that is stored, and one for a key that is not there.
        assert!(holds(
            routines,
            &lookup(x, &[2, 6]),
            &lookup(x, &[2, 7]),
            &map
        ));
        assert!(!holds(routines, &lookup(x, &[2, 1]), &[2, 11], &map));
        assert!(!holds(routines, x, &EMPTY, &map));
        let le = call(11, &[&[2, 10], &lookup(x, &[2, 1])]);
        assert!(holds(routines, &le, &TRUE, &map));
    }
}

#[test]
fn dictionaries_of_configurations() {
    let bad = Check::Refused(Refusal::BadConfiguration);
    let n = |number| vec![2, number];
    let (zero, one) = (n(0), n(1));
    let good = [
        dictionary(&[]),
        dictionary(&[(i64::MIN, &one), (-1, &one), (0, &one), (i64::MAX, &one)]),
        dictionary(&[(1, &dictionary(&[(1, &dictionary(&[])), (2, &zero)]))]),
        dictionary(&[(1, &[9, 0, 5, 1, 2, 1, 2, 1]), (2, &ERROR)]),
        even_keys(64),
    ];
    let mut wrong = vec![
        // Equal keys, falling ones, and such that only unsigned numbers would rise.
        dictionary(&[(1, &one), (1, &one)]),
        dictionary(&[(1, &one), (0, &one)]),
        dictionary(&[(0, &one), (-1, &one)]),
        dictionary(&[(1, &one), (2, &one), (2, &zero)]),
        dictionary(&[(0, &dictionary(&[(1, &one), (1, &one)])), (1, &one)]),
        // Too many, and other counts.
        even_keys(65),
        vec![5, -1],
        vec![5, 1, 2, 1],
        vec![5, 0, 2, 1, 2, 1],
        vec![5, 1],
    ];
    // Keys that are no whole numbers; a variable or a call as a key or in a value.
    for key in [
        &ERROR[..],
        &TRUE,
        &[8, 1],
        &[9, 1, 2, 1],
        &[5, 0],
        &[3, 0],
        &EMPTY,
    ] {
        wrong.push([&[5, 1], key, &[2, 1]].concat());
    }
    for value in [&[3, 0][..], &EMPTY, &[9, 0, 3, 0], &[5, 1, 2, 0, 4, 0]] {
        wrong.push(dictionary(&[(1, value)]));
    }
    for routines in BOTH {
        for words in &good {
            assert_eq!(routines.check_configuration(words), Check::Good);
        }
        for words in &wrong {
            assert_eq!(routines.check_configuration(words), bad, "{words:?}");
            let above = [&[10, 1, 2, 0], words.as_slice()].concat();
            assert_eq!(routines.check_configuration(&above), bad, "{above:?}");
        }
    }
}

#[test]
fn dictionaries_of_rules() {
    let bad = Check::Refused(Refusal::BadTable);
    let x = [3, 0];
    let literals = [
        (dictionary(&[]), Check::Good),
        (dictionary(&[(1, &TRUE), (2, &[5, 0])]), Check::Good),
        (dictionary(&[(1, &x)]), bad),
        (dictionary(&[(1, &EMPTY)]), bad),
        (dictionary(&[(1, &[9, 0, 3, 0])]), bad),
        (dictionary(&[(1, &dictionary(&[(2, &x)]))]), bad),
        (dictionary(&[(1, &dictionary(&[(2, &EMPTY)]))]), bad),
        (vec![5, 1, 3, 0, 2, 1], bad),
        (vec![5, 1, 4, 15, 2, 1], bad),
        (dictionary(&[(2, &TRUE), (1, &TRUE)]), bad),
        (dictionary(&[(1, &TRUE), (1, &TRUE)]), bad),
    ];
    for (literal, answer) in literals {
        let tables = [
            // f[literal, X] to 1; f[X] to literal; f[X] to f[literal]; in a call; in a condition.
            [&[1, 0, 0, 10, 0], &literal[..], &[3, 0, 2, 1]].concat(),
            [&[1, 0, 0, 9, 0, 3, 0], &literal[..]].concat(),
            [&[1, 0, 0, 9, 0, 3, 0, 9, 0], &literal[..]].concat(),
            [&[1, 0, 0, 9, 0, 3, 0, 4, 7], &literal[..]].concat(),
            [&[1, 0, 1, 9, 0, 3, 0, 2, 1], &literal[..], &[2, 1]].concat(),
            [&[1, 0, 1, 9, 0, 3, 0, 2, 1, 2, 1], &literal[..]].concat(),
        ];
        for table in tables {
            for routines in BOTH {
                assert_eq!(routines.check_table(&table), answer, "{table:?}");
            }
        }
    }
}

#[test]
fn where_an_update_may_stand() {
    let bad = Check::Refused(Refusal::BadTable);
    let x = &[3, 0][..];
    let updated = update(x, &[2, 1], x);
    let looked = lookup(x, &[2, 1]);
    let right = |right: &[i64]| [&[1, 0, 0, 9, 0, 3, 0], right].concat();
    let condition = |side: &[i64]| [&[1, 0, 1, 9, 0, 3, 0, 2, 1], side, &[2, 1]].concat();
    let cases = [
        (right(&updated), Check::Good),
        (right(&[&[9, 3], &updated[..]].concat()), Check::Good),
        (
            right(&[&[10, 3], &updated[..], &updated].concat()),
            Check::Good,
        ),
        (right(&update(&EMPTY, &looked, &EMPTY)), Check::Good),
        (right(&update(&looked, &looked, &looked)), Check::Good),
        (right(&looked), Check::Good),
        (condition(&looked), Check::Good),
        (
            condition(&call(8, &[&looked, &lookup(&looked, x)])),
            Check::Good,
        ),
        // Under a call.
        (right(&call(7, &[&updated])), bad),
        (right(&lookup(&updated, &[2, 1])), bad),
        (right(&lookup(x, &updated)), bad),
        (right(&[&[9, 3], &call(7, &[&updated])[..]].concat()), bad),
        // Inside an update, as each argument, and deeper.
        (right(&update(&updated, &[2, 1], x)), bad),
        (right(&update(x, &updated, x)), bad),
        (right(&update(x, &[2, 1], &updated)), bad),
        (right(&update(x, &[2, 1], &call(7, &[&updated]))), bad),
        // In a condition, and in a left.
        (condition(&updated), bad),
        (condition(&call(7, &[&updated])), bad),
        ([&[1, 0, 0], &updated[..], &[2, 1]].concat(), bad),
        ([&[1, 0, 0, 9, 0], &updated[..], &[2, 1]].concat(), bad),
        // Arguments that are no expressions.
        (right(&update(x, &[2, 1], &[9, 0, 3, 0])), bad),
        (right(&update(x, &[2, 1], &[9, 0, 2, 1])), Check::Good),
        // No function has code 18.
        (right(&[4, 18]), bad),
    ];
    for (table, answer) in cases {
        for routines in BOTH {
            assert_eq!(
                routines.check_table(&table),
                answer,
                "{} of {table:?}",
                routines.name()
            );
        }
    }
}

#[test]
fn the_nodes_of_an_update_count() {
    // game[D, V] to game[map.update(D, 2, V), V], where D has the keys 1 and 3.
    let table = [
        1, 0, 0, 10, 7, 3, 0, 3, 1, 10, 7, 4, 17, 3, 0, 2, 2, 3, 1, 3, 1,
    ];
    let map = dictionary(&[(1, &TRUE), (3, &TRUE)]);
    let configuration = [&[10, 7], &map[..], &[9, 0, 2, 5]].concat();
    // The symbol; the dictionary's 5 nodes, and 3 for the new entry; V.
    let nodes = 1 + 5 + 3 + 2;
    for routines in BOTH {
        let mut out = vec![9; 2 * nodes];
        let answer = routines.step(&table, &configuration, &mut out);
        assert_eq!(answer, stepped(0, 0, nodes as u32));
        let updated = dictionary(&[(1, &TRUE), (2, &[9, 0, 2, 5]), (3, &TRUE)]);
        assert_eq!(out, [&[10, 7], &updated[..], &[9, 0, 2, 5]].concat());
        let mut out = vec![9; 2 * nodes - 1];
        let answer = routines.step(&table, &configuration, &mut out);
        assert_eq!(answer, Step::OverLimit);
        assert_eq!(out, vec![9; 2 * nodes - 1]);
    }
}

#[test]
fn a_replay_with_a_meter() {
    // Action 1: D to map.update(D, 1, map.lookup(D, 1) + 5). Action 2, if 10 is at 1: D to
    // map.update(D, 2, 0).
    let x = &[3, 0][..];
    let looked = lookup(x, &[2, 1]);
    let table = [
        &[2, 1, 0, 3, 0],
        &update(x, &[2, 1], &call(8, &[&looked, &[2, 5]]))[..],
        &[2, 1, 3, 0],
        &update(x, &[2, 2], &[2, 0]),
        &looked,
        &[2, 10],
    ]
    .concat();
    let start = dictionary(&[(1, &[2, 0])]);
    for routines in BOTH {
        let replay = |log: &[u16], limit: u64| {
            let (mut out, mut choices) = (vec![9; 2 * limit as usize], vec![9; log.len()]);
            let mut work = vec![9; (log.len() + 1) * (2 * limit as usize + 2)];
            let answer = routines.replay(
                &table,
                &start,
                log,
                limit,
                &mut out,
                &mut choices,
                &mut work,
            );
            (answer, choices, out)
        };
        let (answer, choices, out) = replay(&[1, 1, 2], 5);
        assert_eq!((answer, &choices[..]), (Replay::Reproduced, &[0, 0, 1][..]));
        assert_eq!(out, dictionary(&[(1, &[2, 10]), (2, &[2, 0])]));
        assert_eq!(replay(&[1, 1, 2], 4).0, Replay::OverLimit);
        assert_eq!(replay(&[1, 2], 5).0, Replay::NotReproduced);
    }
}

fn matches(compared: u32) -> Match {
    Match::Matches { compared }
}

fn differs(compared: u32) -> Match {
    Match::Differs { compared }
}

/// Asserts how far a left agrees with a configuration.
fn assert_match(left: &[i64], configuration: &[i64], answer: Match) {
    let table = [&[1, 7, 0], left, &[2, 1]].concat();
    for routines in BOTH {
        assert_eq!(
            routines.match_rule(&table, configuration, 0),
            answer,
            "{} of {left:?} and {configuration:?}",
            routines.name()
        );
    }
}

#[test]
fn p3_how_far_a_pair_agrees() {
    let twice = [10, 4, 3, 0, 3, 0];
    assert_match(&twice, &[10, 4, 2, 3, 2, 3], matches(3));
    assert_match(&twice, &[10, 4, 2, 3, 2, 4], differs(3));
}

#[test]
fn a_left_differs_at_its_root() {
    let spin = [9, 1, 3, 0];
    assert_match(&spin, &SPIN_2, matches(2));
    // Another symbol, another child count, and other kinds.
    for configuration in [
        &[9, 3, 2, 2][..],
        &[8, 1],
        &[10, 1, 2, 2, 2, 2],
        &[2, 1],
        &[1, 1],
        &[0, 0],
        &[5, 1, 2, 1, 2, 2],
    ] {
        assert_match(&spin, configuration, differs(1));
    }
    assert_match(&[2, 5], &[2, 5], matches(1));
    assert_match(&[2, 5], &[2, 6], differs(1));
    assert_match(&[0, 0], &[0, 0], matches(1));
    assert_match(&[0, 0], &[1, 0], differs(1));
}

#[test]
fn a_left_differs_further_in() {
    // f[g[1, true], h[], error, X]
    let left = [12, 1, 10, 2, 2, 1, 1, 1, 8, 3, 0, 0, 3, 0];
    let whole = [12, 1, 10, 2, 2, 1, 1, 1, 8, 3, 0, 0, 2, 9];
    assert_match(&left, &whole, matches(7));
    // The node's number in preorder, and two other words for it.
    for (place, tag, datum) in [
        (0, 12, 2),
        (1, 10, 1),
        (2, 2, 2),
        (2, 2, i64::MIN),
        (2, 1, 1),
        (3, 1, 0),
        (3, 2, 1),
        (4, 8, 4),
        (5, 1, 0),
    ] {
        let mut other = whole;
        other[2 * place..2 * place + 2].copy_from_slice(&[tag, datum]);
        assert_match(&left, &other, differs(place as u32 + 1));
        // What differs behind it plays no part.
        other[10..12].copy_from_slice(&[2, 77]);
        assert_match(&left, &other, differs(place as u32 + 1));
    }
    // g[1], g[1, true, 1] and h[1]: another child count.
    let less = [12, 1, 9, 2, 2, 1, 8, 3, 0, 0, 2, 9];
    let more = [12, 1, 11, 2, 2, 1, 1, 1, 2, 1, 8, 3, 0, 0, 2, 9];
    let leaf = [12, 1, 10, 2, 2, 1, 1, 1, 9, 3, 2, 1, 0, 0, 2, 9];
    assert_match(&left, &less, differs(2));
    assert_match(&left, &more, differs(2));
    assert_match(&left, &leaf, differs(5));
}

#[test]
fn a_variable_is_one_node_whatever_it_takes() {
    // f[X, 1], and chains of so many nodes in place of X.
    for nodes in [1, 2, 300, 32_766] {
        let large = [[9, 6].repeat(nodes - 1), vec![8, 6]].concat();
        assert_match(&[3, 0], &large, matches(1));
        let pair = |last| [&[10, 4], &large[..], &[2, last]].concat();
        assert_match(&[10, 4, 3, 0, 2, 1], &pair(1), matches(3));
        assert_match(&[10, 4, 3, 0, 2, 1], &pair(2), differs(3));
    }
}

#[test]
fn a_repeated_variable_deep_inside() {
    // f[g[X, h[Y]], 1, g[g[h[X]], 2]]
    let left = [
        11, 1, 10, 2, 3, 0, 9, 3, 3, 1, 2, 1, 10, 2, 9, 2, 9, 3, 3, 0, 2, 2,
    ];
    let whole = |x: &[i64], one: i64, again: &[i64], two: i64| {
        let first = [&[11, 1, 10, 2], x, &[9, 3, 0, 0]].concat();
        let second = [&[2, one, 10, 2, 9, 2, 9, 3], again, &[2, two]].concat();
        [first, second].concat()
    };
    let x = [10, 7, 2, 5, 9, 7, 2, 6];
    let mut other = x;
    other[7] = 8;
    assert_match(&left, &whole(&x, 1, &x, 2), matches(11));
    assert_match(&left, &whole(&x, 1, &other, 2), differs(10));
    assert_match(&left, &whole(&other, 1, &x, 2), differs(10));
    assert_match(&left, &whole(&x, 1, &[2, 5], 2), differs(10));
    // Before it and behind it.
    assert_match(&left, &whole(&x, 3, &other, 2), differs(6));
    assert_match(&left, &whole(&x, 1, &x, 3), differs(11));
    assert_match(&left, &whole(&x, 1, &other, 3), differs(10));
}

#[test]
fn three_places_of_one_variable() {
    // f[X, X, X], with three numbers.
    let left = [11, 1, 3, 0, 3, 0, 3, 0];
    let at = |numbers: [i64; 3]| {
        let [one, two, three] = numbers;
        [11, 1, 2, one, 2, two, 2, three]
    };
    assert_match(&left, &at([3, 3, 3]), matches(4));
    assert_match(&left, &at([3, 3, 4]), differs(4));
    assert_match(&left, &at([3, 4, 4]), differs(3));
    assert_match(&left, &at([3, 4, 3]), differs(3));
    // f[X, Y, X, Y, X]: each with its own first place.
    let left = [13, 1, 3, 0, 3, 1, 3, 0, 3, 1, 3, 0];
    let at = |numbers: [i64; 5]| {
        let children = numbers.iter().flat_map(|number| [2, *number]);
        [13, 1].into_iter().chain(children).collect::<Vec<i64>>()
    };
    assert_match(&left, &at([1, 2, 1, 2, 1]), matches(6));
    assert_match(&left, &at([1, 1, 1, 1, 1]), matches(6));
    assert_match(&left, &at([1, 2, 1, 2, 2]), differs(6));
    assert_match(&left, &at([1, 2, 1, 1, 1]), differs(5));
    assert_match(&left, &at([1, 2, 2, 2, 1]), differs(4));
}

#[test]
fn how_far_dictionaries_agree() {
    let pair: &[i64] = &[10, 4, 2, 8, 5, 0];
    // f[X, dictionary, X]: the dictionary's node is the third, then key, value and so on.
    let left = |map: &[i64]| [&[11, 6, 3, 0], map, &[3, 0]].concat();
    let at = |map: &[i64]| [&[11, 6, 2, 3], map, &[2, 3]].concat();
    let map = dictionary(&[(-1, &[2, 10]), (5, pair), (7, &TRUE)]);
    assert_match(&left(&map), &at(&map), matches(12));
    assert_match(&left(&[5, 0]), &at(&[5, 0]), matches(4));
    /// Keys and values, and how far the left agrees with their dictionary.
    type Case<'a> = (&'a [(i64, &'a [i64])], u32);
    let cases: [Case; 12] = [
        // Another entry count, at the dictionary's own node.
        (&[(-1, &[2, 10]), (5, pair)], 3),
        (&[], 3),
        (&[(-1, &[2, 10]), (5, pair), (7, &TRUE), (8, &TRUE)], 3),
        (&[(9, &[2, 10])], 3),
        // Another key.
        (&[(-2, &[2, 10]), (5, pair), (7, &TRUE)], 4),
        (&[(-1, &[2, 10]), (6, pair), (7, &TRUE)], 6),
        (&[(-1, &[2, 10]), (5, pair), (8, &TRUE)], 10),
        // Another value.
        (&[(-1, &[2, 11]), (5, pair), (7, &TRUE)], 5),
        (&[(-1, &[2, 10]), (5, &[2, 8]), (7, &TRUE)], 7),
        (&[(-1, &[2, 10]), (5, &[10, 4, 2, 9, 5, 0]), (7, &TRUE)], 8),
        (
            &[
                (-1, &[2, 10]),
                (5, &[10, 4, 2, 8, 5, 1, 2, 1, 2, 1]),
                (7, &TRUE),
            ],
            9,
        ),
        (&[(-1, &[2, 10]), (5, pair), (7, &FALSE)], 11),
    ];
    for (entries, compared) in cases {
        assert_match(&left(&map), &at(&dictionary(entries)), differs(compared));
    }
    // Another kind of node, and a symbol of as many children.
    assert_match(&left(&map), &at(&[2, 3]), differs(3));
    assert_match(
        &left(&[5, 1, 2, 0, 2, 0]),
        &at(&[10, 1, 2, 0, 2, 0]),
        differs(3),
    );
    // Behind the dictionary, and one that a variable takes.
    let behind = [&[11, 6, 2, 3], &map[..], &[2, 4]].concat();
    assert_match(&left(&map), &behind, differs(12));
    let twice = [10, 4, 3, 0, 3, 0];
    let other = dictionary(&[(-1, &[2, 10]), (5, pair), (7, &FALSE)]);
    assert_match(&twice, &[&[10, 4], &map[..], &map].concat(), matches(3));
    assert_match(&twice, &[&[10, 4], &map[..], &other].concat(), differs(3));
}

#[test]
fn conditions_play_no_part_in_a_match() {
    // spin[X] to X if true is false; spin[X] to X if X is error, and eight times.
    for conditions in [
        [&TRUE[..], &FALSE].concat(),
        [&[3, 0][..], &ERROR].concat(),
        [&[3, 0][..], &ERROR].concat().repeat(8),
    ] {
        let count = conditions.len() as i64 / 4;
        let table = [&[1, 0, count, 9, 1, 3, 0, 3, 0], &conditions[..]].concat();
        for routines in BOTH {
            let step = routines.step(&table, &SPIN_2, &mut [0; 4]);
            assert_eq!(step, Step::Stuck);
            let answer = |configuration: &[i64]| routines.match_rule(&table, configuration, 0);
            assert_eq!(answer(&SPIN_2), matches(2));
            assert_eq!(answer(&[9, 3, 2, 2]), differs(1));
        }
    }
}

#[test]
fn a_match_of_a_number_that_names_no_rule() {
    for routines in BOTH {
        for rule in [3, 4, 255, 256, 1 << 32, usize::MAX] {
            let answer = routines.match_rule(&TABLE, &SPIN_2, rule);
            assert_eq!(answer, differs(0));
        }
        assert_eq!(routines.match_rule(&TABLE, &SPIN_2, 2), differs(1));
        assert_eq!(routines.match_rule(&[0], &SPIN_2, 0), differs(0));
        // 255 is the last number there may be.
        let most = [vec![256], [0, 0, 9, 1, 3, 0, 3, 0].repeat(256)].concat();
        assert_eq!(routines.match_rule(&most, &SPIN_2, 255), matches(2));
        assert_eq!(routines.match_rule(&most, &SPIN_2, 256), differs(0));
    }
}

#[test]
fn refusals_of_a_match() {
    let refused = Match::Refused;
    for routines in BOTH {
        for rule in [0, 3, usize::MAX] {
            let answer = |table: &[i64], words: &[i64]| routines.match_rule(table, words, rule);
            assert_eq!(answer(&TABLE[..46], &SPIN_2), refused(Refusal::BadTable));
            assert_eq!(answer(&[], &[]), refused(Refusal::BadTable));
            let bad = refused(Refusal::BadConfiguration);
            for words in [&[][..], &[9, 1], &[9, 1, 3, 0], &[5, 1, 2, 0, 4, 15]] {
                assert_eq!(answer(&TABLE, words), bad);
                assert_eq!(answer(&TABLE[..46], words), refused(Refusal::BadTable));
            }
        }
    }
}

/// Asserts the answer of the reasons, and the words that they write; two words behind them keep.
fn assert_reasons(table: &[i64], configuration: &[i64], answer: Reasons, words: &[i64]) {
    let len = 2 * table[0] as usize + 2;
    let mut expected = vec![-7; len];
    expected[..words.len()].copy_from_slice(words);
    for routines in BOTH {
        let mut list = vec![-7; len];
        let given = routines.reasons(table, configuration, &mut list);
        let name = routines.name();
        assert_eq!((given, &list), (answer, &expected), "{name}");
        // A list of just two words a rule.
        let mut list = vec![-7; len - 2];
        let given = routines.reasons(table, configuration, &mut list);
        assert_eq!((given, &list[..]), (answer, &expected[..len - 2]), "{name}");
    }
}

fn assert_listed(table: &[i64], configuration: &[i64], words: &[i64]) {
    assert_eq!(words.len() as i64, 2 * table[0]);
    assert_reasons(table, configuration, Reasons::Listed, words);
}

fn assert_not_stuck(table: &[i64], configuration: &[i64], rule: u8) {
    assert_reasons(table, configuration, Reasons::NotStuck { rule }, &[]);
}

#[test]
fn reasons_on_the_sample_table() {
    // P5, P6 and a bonus round: the step's rule.
    assert_not_stuck(&TABLE, &SPIN_2, 0);
    assert_not_stuck(&TABLE, &SPIN_0, 1);
    assert_not_stuck(&TABLE, &[10, 2, 2, 2, 9, 1, 2, 2], 2);
    // P7, and roots of other kinds.
    for stuck in [&[9, 3, 9, 1, 2, 2][..], &[2, 1], &[0, 0], &[5, 0], &[8, 1]] {
        assert_listed(&TABLE, stuck, &[0, 0, 0, 0, 0, 0]);
    }
    // Rule 0 alone: spin[X] if 0 < X.
    let counted = [&[1], &TABLE[1..23]].concat();
    assert_not_stuck(&counted, &SPIN_1, 0);
    assert_listed(&counted, &SPIN_0, &[1, 0]);
    assert_listed(&counted, &[9, 1, 1, 1], &[1, 0]);
    assert_listed(&counted, &[9, 2, 2, 0], &[0, 0]);
}

#[test]
fn a_reason_in_the_left_is_its_first_node_that_disagrees() {
    // P3, and three places of one variable: f[X, X, X].
    let twice = [1, 0, 0, 10, 4, 3, 0, 3, 0, 3, 0];
    assert_not_stuck(&twice, &[10, 4, 2, 3, 2, 3], 0);
    assert_listed(&twice, &[10, 4, 2, 3, 2, 4], &[0, 2]);
    let thrice = [1, 0, 0, 11, 1, 3, 0, 3, 0, 3, 0, 3, 0];
    for (numbers, place) in [([3, 3, 4], 3), ([3, 4, 4], 2), ([3, 4, 3], 2)] {
        let [one, two, three] = numbers;
        let children = [11, 1, 2, one, 2, two, 2, three];
        assert_listed(&thrice, &children, &[0, place]);
    }
    // f[g[1, X], X, h[]], a table with it twice and f[Y, Z, W] if Y is Z behind it.
    let left = [11, 1, 10, 2, 2, 1, 3, 0, 3, 0, 8, 3];
    let once = [&[0, 0], &left[..], &[2, 1]].concat();
    let other = [0, 1, 11, 1, 3, 1, 3, 2, 3, 3, 3, 1, 3, 1, 3, 2];
    let table = [&[3], &once[..], &once, &other].concat();
    let whole = [11, 1, 10, 2, 2, 1, 9, 5, 2, 7, 9, 5, 2, 7, 8, 3];
    assert_not_stuck(&table, &whole, 0);
    // The configuration's node that is changed, what it becomes, and the left's that disagrees. X
    // takes two nodes.
    for (node, words, place) in [
        (1, [10, 3], 1),
        (2, [2, 2], 2),
        (2, [1, 1], 2),
        (4, [2, 8], 4),
        (5, [9, 6], 4),
        (6, [2, 8], 4),
        (7, [8, 4], 5),
    ] {
        let mut changed = whole;
        changed[2 * node..2 * node + 2].copy_from_slice(&words);
        assert_listed(&table, &changed, &[0, place, 0, place, 1, 0]);
    }
    // Another child count: g[1], and h[1].
    let less = [11, 1, 9, 2, 2, 1, 9, 5, 2, 7, 8, 3];
    assert_listed(&table, &less, &[0, 1, 0, 1, 1, 0]);
    let more = [11, 1, 10, 2, 2, 1, 2, 7, 2, 7, 9, 3, 2, 1];
    assert_listed(&table, &more, &[0, 5, 0, 5, 1, 0]);
}

#[test]
fn reasons_at_dictionaries() {
    // f[dictionary of 1 at -1 and X's place behind it]
    let map = dictionary(&[(-1, &[2, 10]), (5, &TRUE)]);
    let table = [&[1, 0, 0, 10, 6], &map[..], &[3, 0, 3, 0]].concat();
    let at = |map: &[i64]| [&[10, 6], map, &[2, 3]].concat();
    assert_not_stuck(&table, &at(&map), 0);
    /// Keys and values, and the place that disagrees with their dictionary.
    type Case<'a> = (&'a [(i64, &'a [i64])], i64);
    let cases: [Case; 6] = [
        (&[(-1, &[2, 10])], 1),
        (&[(-1, &[2, 10]), (5, &TRUE), (6, &TRUE)], 1),
        (&[(0, &[2, 10]), (5, &TRUE)], 2),
        (&[(-1, &[2, 11]), (5, &TRUE)], 3),
        (&[(-1, &[2, 10]), (6, &TRUE)], 4),
        (&[(-1, &[2, 10]), (5, &FALSE)], 5),
    ];
    for (entries, place) in cases {
        assert_listed(&table, &at(&dictionary(entries)), &[0, place]);
    }
    // A condition that looks a meter up: there, of another value, and absent.
    let guarded = [&[1, 0, 1, 3, 0, 3, 0], &[4, 16, 3, 0, 2, 5, 1, 1][..]].concat();
    assert_not_stuck(&guarded, &map, 0);
    assert_listed(&guarded, &dictionary(&[(5, &FALSE)]), &[1, 0]);
    assert_listed(&guarded, &dictionary(&[(4, &TRUE)]), &[1, 0]);
}

/// spin[X] to X with so many conditions X < n, for an X of 4 or less: n is 5, but 4 in the condition
/// of this number, and another number in those behind it.
fn counted(count: i64, failing: i64, behind: i64) -> Vec<i64> {
    let sides = (0..count).flat_map(|number| {
        let bound = match number {
            _ if number < failing => 5,
            _ if number > failing => behind,
            _ => 4,
        };
        [4, 12, 3, 0, 2, bound, 1, 1]
    });
    let rule = [1, 0, count, 9, 1, 3, 0, 3, 0];
    rule.into_iter().chain(sides).collect()
}

#[test]
fn a_reason_in_a_condition_is_the_lowest_that_fails() {
    let failing = (1..=8).flat_map(|count| (0..count).map(move |failing| (count, failing)));
    for (count, failing) in failing {
        for behind in [5, 4] {
            let table = counted(count, failing, behind);
            assert_listed(&table, &[9, 1, 2, 4], &[1, failing]);
            assert_not_stuck(&table, &[9, 1, 2, 3], 0);
            // Conditions are not looked at where the left disagrees.
            assert_listed(&table, &[9, 2, 2, 4], &[0, 0]);
        }
    }
}

#[test]
fn a_condition_on_errors() {
    // X to X if bool.neg(X) is the same on both sides, or the error, or true.
    let neg = [4, 2, 3, 0];
    let table = |other: &[i64]| [&[1, 0, 1, 3, 0, 3, 0], &neg[..], other].concat();
    for other in [&neg[..], &ERROR] {
        assert_not_stuck(&table(other), &[2, 1], 0);
    }
    assert_listed(&table(&TRUE), &[2, 1], &[1, 0]);
    assert_listed(&table(&ERROR), &FALSE, &[1, 0]);
    assert_not_stuck(&table(&TRUE), &FALSE, 0);
}

#[test]
fn a_successor_above_every_limit_is_no_reason() {
    // X to f[X, X]; and before it a rule that does not apply.
    let double = [0, 0, 3, 0, 10, 1, 3, 0, 3, 0];
    let table = [&[2, 0, 0, 2, 5, 2, 5], &double[..]].concat();
    let largest = [[9, 6].repeat(32_767), vec![8, 6]].concat();
    assert_not_stuck(&table, &largest, 1);
    assert_not_stuck(&[&[1], &double[..]].concat(), &largest, 0);
    for routines in BOTH {
        let step = routines.step(&table, &largest, &mut vec![0; 65_536]);
        assert_eq!(step, Step::OverLimit);
    }
}

#[test]
fn reasons_of_no_rules_and_of_256() {
    assert_listed(&[0], &SPIN_2, &[]);
    let rule = |number: i64| [0, 0, 9, 1, 2, number, 2, 0];
    let all: Vec<i64> = (0..256).flat_map(rule).collect();
    let table = [&[256], &all[..]].concat();
    assert_listed(&table, &[9, 1, 2, 256], &[0, 1].repeat(256));
    assert_listed(&table, &[9, 2, 2, 0], &[0, 0].repeat(256));
    for number in [0, 100, 255] {
        assert_not_stuck(&table, &[9, 1, 2, number], number as u8);
    }
}

#[test]
fn refusals_of_reasons() {
    let bad: [&[i64]; 4] = [&[], &[9, 1], &[9, 1, 3, 0], &[5, 1, 2, 0, 4, 15]];
    for routines in BOTH {
        let answer = |table: &[i64], words: &[i64], len: usize| {
            let mut list = vec![-7; len];
            let answer = routines.reasons(table, words, &mut list);
            assert_eq!(list, vec![-7; len]);
            answer
        };
        // The lowest of them, and 5 whether the configuration is stuck or not.
        for len in [0, 5, 6] {
            for words in bad.into_iter().chain([&SPIN_2[..], &[9, 3, 2, 2]]) {
                let refused = Reasons::Refused(Refusal::BadTable);
                assert_eq!(answer(&TABLE[..46], words, len), refused);
            }
            for words in bad {
                let refused = Reasons::Refused(Refusal::BadConfiguration);
                assert_eq!(answer(&TABLE, words, len), refused);
            }
        }
        for len in [0, 1, 5] {
            for words in [&SPIN_2, &[9, 3, 2, 2]] {
                let refused = Reasons::Refused(Refusal::ShortBuffer);
                assert_eq!(answer(&TABLE, words, len), refused);
            }
        }
        assert_eq!(answer(&TABLE, &SPIN_2, 6), Reasons::NotStuck { rule: 0 });
        assert_eq!(answer(&[0], &SPIN_2, 0), Reasons::Listed);
    }
}
