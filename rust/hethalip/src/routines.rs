//! The library's functions over slices. All unsafe code of the workspace is in this file.

#![allow(unsafe_code)]

use crate::answer::{Check, Match, Reasons, Refusal, Replay, Run, Step, Why, unpack};
use crate::{MAX_LIST_WORDS, listed};

/// The C interface. A slice passes as a pointer and then its length in elements.
mod c {
    unsafe extern "C" {
        pub fn hethalip_check_table(table: *const i64, table_len: usize) -> u64;
        pub fn hethalip_check_configuration(
            configuration: *const i64,
            configuration_len: usize,
        ) -> u64;
        pub fn hethalip_step(
            table: *const i64,
            table_len: usize,
            configuration: *const i64,
            configuration_len: usize,
            out: *mut i64,
            out_len: usize,
        ) -> u64;
        pub fn hethalip_step_by_rule(
            table: *const i64,
            table_len: usize,
            configuration: *const i64,
            configuration_len: usize,
            rule: usize,
            out: *mut i64,
            out_len: usize,
        ) -> u64;
        pub fn hethalip_match(
            table: *const i64,
            table_len: usize,
            configuration: *const i64,
            configuration_len: usize,
            rule: usize,
        ) -> u64;
        pub fn hethalip_reasons(
            table: *const i64,
            table_len: usize,
            configuration: *const i64,
            configuration_len: usize,
            list: *mut i64,
            list_len: usize,
        ) -> u64;
        pub fn hethalip_run(
            table: *const i64,
            table_len: usize,
            configuration: *const i64,
            configuration_len: usize,
            budget: u64,
            limit: u64,
            out: *mut i64,
            out_len: usize,
            spare: *mut i64,
            spare_len: usize,
        ) -> u64;
        pub fn hethalip_replay(
            table: *const i64,
            table_len: usize,
            configuration: *const i64,
            configuration_len: usize,
            log: *const u16,
            log_len: usize,
            limit: u64,
            out: *mut i64,
            out_len: usize,
            choices: *mut u16,
            choices_len: usize,
            work: *mut i64,
            work_len: usize,
        ) -> u64;
    }
}

/// What is said if the library answers a number that its interface does not define.
const UNDEFINED: &str = "the library's answer is none of its interface";

// Each call below is safe for one reason: the library's functions take any words whatever, read
// and write only within the slices that they are lent, and keep none of them. A slice's pointer
// is never null, and a `&mut` slice overlaps no other.

/// Checks that the words are a well formed table.
pub fn check_table(table: &[i64]) -> Check {
    // SAFETY: as said above.
    let packed = unsafe { c::hethalip_check_table(table.as_ptr(), table.len()) };
    unpack::check(packed).expect(UNDEFINED)
}

/// Checks that the words are a well formed configuration.
pub fn check_configuration(configuration: &[i64]) -> Check {
    // SAFETY: as said above.
    let packed =
        unsafe { c::hethalip_check_configuration(configuration.as_ptr(), configuration.len()) };
    unpack::check(packed).expect(UNDEFINED)
}

/// Takes one step, by the rule of lowest number that applies.
///
/// The successor's limit is half of `out`'s words, rounded down, at most 32,768 nodes. A rule that
/// applies and whose successor does not fit is not passed over: the answer is [`Step::OverLimit`].
pub fn step(table: &[i64], configuration: &[i64], out: &mut [i64]) -> Step {
    // SAFETY: as said above.
    let packed = unsafe {
        c::hethalip_step(
            table.as_ptr(),
            table.len(),
            configuration.as_ptr(),
            configuration.len(),
            out.as_mut_ptr(),
            out.len(),
        )
    };
    unpack::step(packed).expect(UNDEFINED)
}

/// Takes one step by the rule of the given number, if that applies.
///
/// A number that names no rule does not apply: [`Step::Stuck`].
pub fn step_by_rule(table: &[i64], configuration: &[i64], rule: usize, out: &mut [i64]) -> Step {
    // SAFETY: as said above.
    let packed = unsafe {
        c::hethalip_step_by_rule(
            table.as_ptr(),
            table.len(),
            configuration.as_ptr(),
            configuration.len(),
            rule,
            out.as_mut_ptr(),
            out.len(),
        )
    };
    unpack::step(packed).expect(UNDEFINED)
}

/// Compares the left of the rule of the given number with the configuration, up to the first node
/// that disagrees, and counts the left's nodes that were compared. Conditions play no part.
///
/// A node disagrees by another tag, datum or child count; a variable that occurs again, at its
/// later place, if the term there is not the one at its first place. A number that names no rule
/// differs, with no node compared.
pub fn match_rule(table: &[i64], configuration: &[i64], rule: usize) -> Match {
    // SAFETY: as said above.
    let packed = unsafe {
        c::hethalip_match(
            table.as_ptr(),
            table.len(),
            configuration.as_ptr(),
            configuration.len(),
            rule,
        )
    };
    unpack::match_rule(packed).expect(UNDEFINED)
}

/// Says of a stuck configuration why each rule does not apply: two words in `list` for each rule,
/// which [`listed`] reads. `list` needs two words a rule.
///
/// Of a configuration that is not stuck it says the rule that a step takes, and `list` keeps. A rule
/// applies even if its successor has more nodes than any limit. No rules at all: stuck, and no word
/// is written.
///
/// ```
/// use hethalip::{Reason, Reasons, listed, reasons};
///
/// // pair[X, X] becomes X; pair[X, Y] becomes X if X is Y. Symbol 4 is pair.
/// let table = [
///     2, 10, 0, 10, 4, 3, 0, 3, 0, 3, 0, 20, 1, 10, 4, 3, 0, 3, 1, 3, 0, 3, 0, 3, 1,
/// ];
/// let mut list = [7; 5];
/// let answer = reasons(&table, &[10, 4, 2, 3, 2, 5], &mut list);
/// assert_eq!(answer, Reasons::Listed);
/// assert_eq!(list, [0, 2, 1, 0, 7]);
/// let read: Vec<Reason> = listed(&table, &list).collect();
/// assert_eq!(read, [Reason::Left { place: 2 }, Reason::Condition { number: 0 }]);
/// ```
pub fn reasons(table: &[i64], configuration: &[i64], list: &mut [i64]) -> Reasons {
    // SAFETY: as said above.
    let packed = unsafe {
        c::hethalip_reasons(
            table.as_ptr(),
            table.len(),
            configuration.as_ptr(),
            configuration.len(),
            list.as_mut_ptr(),
            list.len(),
        )
    };
    unpack::reasons(packed).expect(UNDEFINED)
}

/// The same as [`reasons`], without a list to lend: it lies on the stack, long enough for every
/// table. Of a stuck configuration the reasons come in a vector, and nothing else is allocated.
pub fn why_stuck(table: &[i64], configuration: &[i64]) -> Result<Why, Refusal> {
    let mut list = [0; MAX_LIST_WORDS];
    match reasons(table, configuration, &mut list) {
        Reasons::Listed => Ok(Why::Stuck(listed(table, &list).collect())),
        Reasons::NotStuck { rule } => Ok(Why::NotStuck { rule }),
        Reasons::Refused(refusal) => Err(refusal),
    }
}

/// Repeats the step, at most `budget` times (0 to 1,000,000), within `limit` nodes.
///
/// `out` and `spare` need twice `limit` words each.
pub fn run(
    table: &[i64],
    configuration: &[i64],
    budget: u64,
    limit: u64,
    out: &mut [i64],
    spare: &mut [i64],
) -> Run {
    // SAFETY: as said above.
    let packed = unsafe {
        c::hethalip_run(
            table.as_ptr(),
            table.len(),
            configuration.as_ptr(),
            configuration.len(),
            budget,
            limit,
            out.as_mut_ptr(),
            out.len(),
            spare.as_mut_ptr(),
            spare.len(),
        )
    };
    unpack::run(packed).expect(UNDEFINED)
}

/// Searches for a list of rules that yields the log (at most 4,096 actions) within `limit` nodes.
///
/// `out` needs twice `limit` words, `choices` as many elements as the log, and `work`
/// [`work_len`](crate::work_len) words.
pub fn replay(
    table: &[i64],
    configuration: &[i64],
    log: &[u16],
    limit: u64,
    out: &mut [i64],
    choices: &mut [u16],
    work: &mut [i64],
) -> Replay {
    // SAFETY: as said above.
    let packed = unsafe {
        c::hethalip_replay(
            table.as_ptr(),
            table.len(),
            configuration.as_ptr(),
            configuration.len(),
            log.as_ptr(),
            log.len(),
            limit,
            out.as_mut_ptr(),
            out.len(),
            choices.as_mut_ptr(),
            choices.len(),
            work.as_mut_ptr(),
            work.len(),
        )
    };
    unpack::replay(packed).expect(UNDEFINED)
}
