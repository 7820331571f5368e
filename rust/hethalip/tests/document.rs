//! The sample table, through the linked library.

use hethalip::*;

#[rustfmt::skip]
const TABLE: [i64; 47] = [
    3,
    10, 1, 9, 1, 3, 0, 9, 1, 4, 9, 3, 0, 2, 1, 4, 12, 2, 0, 3, 0, 1, 1,
    10, 0, 9, 1, 3, 0, 10, 2, 3, 0, 9, 1, 3, 0,
    20, 0, 10, 2, 3, 0, 3, 1, 3, 1,
];
const SPIN_2: [i64; 4] = [9, 1, 2, 2];

fn replay_of(log: &[u16], limit: u64) -> (Replay, Vec<u16>, Vec<i64>) {
    let mut out = vec![-1; 2 * limit as usize];
    let mut choices = vec![77; log.len()];
    let mut work = vec![-1; work_len(log.len(), limit).unwrap()];
    let answer = replay(
        &TABLE,
        &SPIN_2,
        log,
        limit,
        &mut out,
        &mut choices,
        &mut work,
    );
    assert!(work.iter().all(|&word| word == 0));
    (answer, choices, out)
}

#[test]
fn checks() {
    assert_eq!(check_table(&TABLE), Check::Good);
    assert_eq!(check_table(&TABLE[..46]), Check::Refused(Refusal::BadTable));
    assert_eq!(check_table(&[]), Check::Refused(Refusal::BadTable));
    assert_eq!(check_configuration(&SPIN_2), Check::Good);
    assert_eq!(
        check_configuration(&[]),
        Check::Refused(Refusal::BadConfiguration)
    );
}

#[test]
fn steps() {
    let mut out = [7; 6];
    let answer = step(&TABLE, &SPIN_2, &mut out);
    assert_eq!(
        answer,
        Step::Stepped {
            rule: 0,
            action: 10,
            nodes: 2
        }
    );
    assert_eq!(out, [9, 1, 2, 1, 7, 7]);
    assert_eq!(step(&TABLE, &[2, 2], &mut out), Step::Stuck);
    assert_eq!(step(&TABLE, &SPIN_2, &mut out[..3]), Step::OverLimit);
    assert_eq!(step_by_rule(&TABLE, &SPIN_2, 1, &mut out), Step::OverLimit);
    assert_eq!(step_by_rule(&TABLE, &SPIN_2, 3, &mut out), Step::Stuck);
    assert_eq!(
        step_by_rule(&TABLE, &SPIN_2, usize::MAX, &mut out),
        Step::Stuck
    );
    assert_eq!(out, [9, 1, 2, 1, 7, 7]);
}

#[test]
fn matches() {
    // Rule 0 is spin[X] if 0 < X, and rule 2 is bonus[X, Y].
    let left = |configuration: &[i64], rule| match_rule(&TABLE, configuration, rule);
    assert_eq!(left(&SPIN_2, 0), Match::Matches { compared: 2 });
    assert_eq!(left(&[9, 1, 2, 0], 0), Match::Matches { compared: 2 });
    assert_eq!(left(&SPIN_2, 2), Match::Differs { compared: 1 });
    assert_eq!(
        left(&[10, 2, 2, 2, 2, 2], 2),
        Match::Matches { compared: 3 }
    );
    for rule in [3, 256, usize::MAX] {
        assert_eq!(left(&SPIN_2, rule), Match::Differs { compared: 0 });
        assert_eq!(left(&[9, 1], rule).refusal_number(), Some(2));
    }
    let answer = match_rule(&TABLE[..46], &[9, 1], 3);
    assert_eq!(answer, Match::Refused(Refusal::BadTable));
    // pair[X, X]
    let twice = [1, 0, 0, 10, 4, 3, 0, 3, 0, 3, 0];
    let pair = |one, two| match_rule(&twice, &[10, 4, 2, one, 2, two], 0);
    assert_eq!(pair(3, 3), Match::Matches { compared: 3 });
    assert_eq!(pair(3, 4), Match::Differs { compared: 3 });
}

#[test]
fn reasons_of_a_stuck_configuration() {
    let mut list = [7; 8];
    // hold[spin[2]]: no left has that root.
    let hold = [9, 3, 9, 1, 2, 2];
    assert_eq!(reasons(&TABLE, &hold, &mut list), Reasons::Listed);
    assert_eq!(list, [0, 0, 0, 0, 0, 0, 7, 7]);
    // Rule 0 alone is spin[X] if 0 < X, and pair[X, X] takes two equal terms.
    let rules = [&[2], &TABLE[1..23], &[0, 0, 10, 4, 3, 0, 3, 0, 3, 0]].concat();
    let mut list = [7; 5];
    assert_eq!(reasons(&rules, &[9, 1, 2, 0], &mut list), Reasons::Listed);
    assert_eq!(list, [1, 0, 0, 0, 7]);
    let (condition, left) = (Reason::Condition { number: 0 }, Reason::Left { place: 0 });
    let read: Vec<Reason> = listed(&rules, &list).collect();
    assert_eq!(read, [condition, left]);
    let why = why_stuck(&rules, &[9, 1, 2, 0]);
    assert_eq!(why, Ok(Why::Stuck(read)));
    let why = why_stuck(&rules, &[10, 4, 2, 3, 2, 4]);
    assert_eq!(why, Ok(Why::Stuck(vec![left, Reason::Left { place: 2 }])));
}

#[test]
fn reasons_of_others() {
    let mut list = [7; 7];
    let not_stuck = |rule| Reasons::NotStuck { rule };
    assert_eq!(reasons(&TABLE, &SPIN_2, &mut list), not_stuck(0));
    assert_eq!(reasons(&TABLE, &[9, 1, 2, 0], &mut list), not_stuck(1));
    let why = why_stuck(&TABLE, &[10, 2, 0, 0, 0, 0]);
    assert_eq!(why, Ok(Why::NotStuck { rule: 2 }));
    // No rules at all.
    assert_eq!(reasons(&[0], &SPIN_2, &mut list), Reasons::Listed);
    assert_eq!(reasons(&[0], &SPIN_2, &mut []), Reasons::Listed);
    assert_eq!(why_stuck(&[0], &SPIN_2), Ok(Why::Stuck(Vec::new())));
    assert_eq!(list, [7; 7]);
}

#[test]
fn refused_reasons() {
    let mut list = [7; 5];
    let (bad_table, bad) = (&TABLE[..46], &SPIN_2[..2]);
    let mut number = |table: &[i64], configuration: &[i64]| {
        let answer = reasons(table, configuration, &mut list);
        assert_eq!(list, [7; 5]);
        answer.refusal_number()
    };
    assert_eq!(number(bad_table, bad), Some(1));
    assert_eq!(number(&TABLE, bad), Some(2));
    assert_eq!(number(&TABLE, &SPIN_2), Some(5));
    assert_eq!(number(&TABLE, &[9, 3, 2, 2]), Some(5));
    assert_eq!(why_stuck(bad_table, bad), Err(Refusal::BadTable));
    assert_eq!(why_stuck(&TABLE, bad), Err(Refusal::BadConfiguration));
}

#[test]
fn runs() {
    let (mut out, mut spare) = ([7; 9], [7; 9]);
    let answer = run(&TABLE, &SPIN_2, 2, 4, &mut out, &mut spare);
    assert_eq!(answer, Run::Spent { steps: 2 });
    assert_eq!(out, [9, 1, 2, 0, 0, 0, 0, 0, 7]);
    assert_eq!(spare, [0, 0, 0, 0, 0, 0, 0, 0, 7]);
    let answer = run(&TABLE, &SPIN_2, 3, 3, &mut out, &mut spare);
    assert_eq!(answer, Run::OverLimit { steps: 2 });
    assert_eq!(answer.refusal_number(), Some(6));
}

#[test]
fn replays() {
    let (answer, choices, out) = replay_of(&[10, 20], 4);
    assert_eq!(answer, Replay::Reproduced);
    assert_eq!(choices, [1, 2]);
    assert_eq!(out, [9, 1, 2, 2, -1, -1, -1, -1]);
    let (answer, choices, out) = replay_of(&[10, 20], 3);
    assert_eq!(answer, Replay::OverLimit);
    assert_eq!((choices, out), (vec![77; 2], vec![-1; 6]));
    assert_eq!(replay_of(&[20], 4).0, Replay::NotReproduced);
    assert_eq!(replay_of(&[], 4).0, Replay::Reproduced);
    assert_eq!(replay_of(&[10, 10, 20], 4).1, [0, 1, 2]);
}
