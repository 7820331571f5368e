//! A game with bonus rounds: two rules share an action, and a replay finds which of them was
//! taken.
//!
//! Spin is symbol 1 and bonus is symbol 2.
//!
//! - rule 0, action 10: spin[X] becomes spin[X - 1] if 0 < X
//! - rule 1, action 10: spin[X] becomes bonus[X, spin[X]]
//! - rule 2, action 20: bonus[X, Y] becomes Y

use hethalip::{Replay, replay, work_len};

#[rustfmt::skip]
const TABLE: [i64; 47] = [
    3,
    // rule 0: action, condition count, left, right, both sides of the condition
    10, 1,
    9, 1, 3, 0,
    9, 1, 4, 9, 3, 0, 2, 1,
    4, 12, 2, 0, 3, 0, 1, 1,
    // rule 1
    10, 0,
    9, 1, 3, 0,
    10, 2, 3, 0, 9, 1, 3, 0,
    // rule 2
    20, 0,
    10, 2, 3, 0, 3, 1,
    3, 1,
];

/// spin[2]
const INITIAL: [i64; 4] = [9, 1, 2, 2];

fn main() {
    let log = [10, 20];
    for limit in [4, 3] {
        show(&log, limit);
    }
    show(&[20], 4);
    show(&[10, 10, 20], 4);
}

fn show(log: &[u16], limit: u64) {
    let mut out = vec![0; 2 * limit as usize];
    let mut choices = vec![0; log.len()];
    let mut work = vec![0; work_len(log.len(), limit).expect("a small replay")];
    let answer = replay(
        &TABLE,
        &INITIAL,
        log,
        limit,
        &mut out,
        &mut choices,
        &mut work,
    );
    print!("log {log:?}, limit {limit}: {answer:?}");
    if answer == Replay::Reproduced {
        print!(", rules {choices:?}, out {out:?}");
    }
    println!();
}
