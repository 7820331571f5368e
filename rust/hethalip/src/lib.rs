//! A proved interpreter and replay checker for conditional rewrite rules, from Rust.
//!
//! A table of rules, a configuration and the buffers that a routine writes to are slices of words
//! (`i64`); a log of actions and the list of chosen rules are slices of `u16`. The caller lends
//! every slice and the library allocates nothing. What is malformed, or out of range, or does not
//! fit is refused by its number ([`Refusal`]); no input is undefined. `docs/FORMAT.md` of the
//! repository says what the words mean.
//!
//! | routine | says |
//! |---|---|
//! | `check_table`, `check_configuration` | whether the words are well formed |
//! | `step` | the successor by the lowest rule that applies |
//! | `step_by_rule` | the successor by one given rule |
//! | `match_rule` | whether one given rule's left matches, and how many of its nodes were compared |
//! | `reasons`, `why_stuck` | why no rule applies to a stuck configuration, for each rule |
//! | `run` | that step repeated, up to a budget |
//! | `replay` | whether some choice of rules yields a log of actions, and the first such choice |
//!
#![cfg_attr(
    feature = "proved",
    doc = r"
```
use hethalip::{Match, Reason, Step, Why, match_rule, step, why_stuck};

// One rule, action 10: spin[X] becomes spin[X - 1] if 0 < X. Symbol 1 is spin.
let table = [
    1, 10, 1, 9, 1, 3, 0, 9, 1, 4, 9, 3, 0, 2, 1, 4, 12, 2, 0, 3, 0, 1, 1,
];
let mut out = [0; 4];
let answer = step(&table, &[9, 1, 2, 2], &mut out);
assert_eq!(answer, Step::Stepped { rule: 0, action: 10, nodes: 2 });
assert_eq!(out, [9, 1, 2, 1]);

// The left is spin[X], two nodes. Another symbol disagrees at the first of them.
let answer = match_rule(&table, &[9, 1, 2, 2], 0);
assert_eq!(answer, Match::Matches { compared: 2 });
let answer = match_rule(&table, &[9, 3, 2, 2], 0);
assert_eq!(answer, Match::Differs { compared: 1 });

// Why the rule does not apply: another symbol, or a condition that fails.
let why = why_stuck(&table, &[9, 3, 2, 2]);
assert_eq!(why, Ok(Why::Stuck(vec![Reason::Left { place: 0 }])));
let why = why_stuck(&table, &[9, 1, 2, 0]);
assert_eq!(why, Ok(Why::Stuck(vec![Reason::Condition { number: 0 }])));
let why = why_stuck(&table, &[9, 1, 2, 2]);
assert_eq!(why, Ok(Why::NotStuck { rule: 0 }));
```
"
)]
#![deny(unsafe_code)]

mod answer;
mod display;
#[cfg(feature = "proved")]
mod routines;

pub use answer::{Check, Match, OVER_LIMIT, Reason, Reasons, Refusal, Replay, Run, Step, Why};
#[cfg(feature = "proved")]
pub use routines::{check_configuration, check_table, match_rule, reasons};
#[cfg(feature = "proved")]
pub use routines::{replay, run, step, step_by_rule, why_stuck};

/// The most nodes that a configuration has, and the highest limit.
pub const MAX_NODES: usize = 32_768;

/// The words of a list that is long enough for the reasons of any table: two for each of 256 rules.
pub const MAX_LIST_WORDS: usize = 512;

/// The words of a work area that a replay of `log_len` actions within `limit` nodes needs.
///
/// The answer is `None` where that number is no `usize`; such a replay is refused in any case.
pub fn work_len(log_len: usize, limit: u64) -> Option<usize> {
    let frame = usize::try_from(limit)
        .ok()?
        .checked_mul(2)?
        .checked_add(2)?;
    log_len.checked_add(1)?.checked_mul(frame)
}

/// The reasons of a list, one for each of the table's rules, by number.
///
/// The table and the list are those of a call of `reasons` whose answer was [`Reasons::Listed`].
/// Of other words there may be fewer: it ends at the first two that are no [`Reason`].
pub fn listed<'a>(table: &[i64], list: &'a [i64]) -> impl Iterator<Item = Reason> + use<'a> {
    let rules = table.first().map_or(0, |&count| count.max(0) as usize);
    let (entries, _) = list.as_chunks();
    entries
        .iter()
        .take(rules)
        .map_while(|&words| Reason::from_words(words))
}

#[cfg(test)]
mod tests {
    use super::*;

    #[test]
    fn a_list_has_a_reason_for_each_rule() {
        let list = [0, 4, 1, 7, 0, 0, 9];
        let of = |table: &[i64], list: &[i64]| listed(table, list).collect::<Vec<_>>();
        let all = [
            Reason::Left { place: 4 },
            Reason::Condition { number: 7 },
            Reason::Left { place: 0 },
        ];
        assert_eq!(of(&[3], &list), all);
        // The words behind the last rule's are not read, and no half of an entry.
        assert_eq!(of(&[2], &list), all[..2]);
        assert_eq!(of(&[9], &list), all);
        assert_eq!(of(&[3], &list[..5]), all[..2]);
        // Words that are no list of the table.
        assert_eq!(of(&[3], &[0, 4, 2, 0, 0, 0]), all[..1]);
        for table in [&[][..], &[0], &[-1], &[i64::MIN]] {
            assert_eq!(of(table, &list), []);
        }
    }
}
