//! An interpreter and replay checker for conditional rewrite rules, written from the papers alone:
//! the words and ranges of the scope paper, the relations of Minuska's appendix A.
//!
//! It is here to be compared with the proved library, in two forms with the same routines:
//!
//! - [`tree`] is the clear one. It reads words into trees and follows the definitions.
//! - [`tuned`] is the fast one. It works on the words.
//!
//! Both take the slices that the C interface takes, give the same answers, and leave every slice
//! as the papers say. [`cli_answer`] is the text of the command line program.

#![forbid(unsafe_code)]

mod answer;
mod cli;
pub mod limits;
pub mod tree;
pub mod tuned;

pub use answer::{Check, Match, Reasons, Refusal, Replay, Run, Step};
pub use cli::cli_answer;

/// The routines, for whoever compares several interpreters.
pub trait Routines {
    /// A name to print.
    fn name(&self) -> &'static str;

    /// Whether the words are a well formed table.
    fn check_table(&self, table: &[i64]) -> Check;

    /// Whether the words are a well formed configuration.
    fn check_configuration(&self, configuration: &[i64]) -> Check;

    /// One step, by the lowest rule that applies.
    fn step(&self, table: &[i64], configuration: &[i64], out: &mut [i64]) -> Step;

    /// One step by the rule of that number.
    fn step_by_rule(
        &self,
        table: &[i64],
        configuration: &[i64],
        rule: usize,
        out: &mut [i64],
    ) -> Step;

    /// How far the left of the rule of that number and the configuration agree.
    fn match_rule(&self, table: &[i64], configuration: &[i64], rule: usize) -> Match;

    /// Why no rule applies, for each one: two words in the list.
    fn reasons(&self, table: &[i64], configuration: &[i64], list: &mut [i64]) -> Reasons;

    /// The step repeated, at most `budget` times, within `limit` nodes.
    fn run(
        &self,
        table: &[i64],
        configuration: &[i64],
        budget: u64,
        limit: u64,
        out: &mut [i64],
        spare: &mut [i64],
    ) -> Run;

    /// The search for the first list of rules that yields the log within `limit` nodes.
    #[allow(clippy::too_many_arguments)]
    fn replay(
        &self,
        table: &[i64],
        configuration: &[i64],
        log: &[u16],
        limit: u64,
        out: &mut [i64],
        choices: &mut [u16],
        work: &mut [i64],
    ) -> Replay;
}

/// Says the routines of a module as [`Routines`] of a type.
macro_rules! routines_of {
    ($(#[$doc:meta])* $type:ident, $name:literal, $module:ident) => {
        $(#[$doc])*
        #[derive(Clone, Copy, Debug)]
        pub struct $type;

        impl Routines for $type {
            fn name(&self) -> &'static str {
                $name
            }

            fn check_table(&self, table: &[i64]) -> Check {
                $module::check_table(table)
            }

            fn check_configuration(&self, configuration: &[i64]) -> Check {
                $module::check_configuration(configuration)
            }

            fn step(&self, table: &[i64], configuration: &[i64], out: &mut [i64]) -> Step {
                $module::step(table, configuration, out)
            }

            fn step_by_rule(
                &self,
                table: &[i64],
                configuration: &[i64],
                rule: usize,
                out: &mut [i64],
            ) -> Step {
                $module::step_by_rule(table, configuration, rule, out)
            }

            fn match_rule(&self, table: &[i64], configuration: &[i64], rule: usize) -> Match {
                $module::match_rule(table, configuration, rule)
            }

            fn reasons(&self, table: &[i64], configuration: &[i64], list: &mut [i64]) -> Reasons {
                $module::reasons(table, configuration, list)
            }

            fn run(
                &self,
                table: &[i64],
                configuration: &[i64],
                budget: u64,
                limit: u64,
                out: &mut [i64],
                spare: &mut [i64],
            ) -> Run {
                $module::run(table, configuration, budget, limit, out, spare)
            }

            fn replay(
                &self,
                table: &[i64],
                configuration: &[i64],
                log: &[u16],
                limit: u64,
                out: &mut [i64],
                choices: &mut [u16],
                work: &mut [i64],
            ) -> Replay {
                $module::replay(table, configuration, log, limit, out, choices, work)
            }
        }
    };
}

routines_of!(
    /// The clear interpreter, [`tree`].
    Tree,
    "tree",
    tree
);
routines_of!(
    /// The fast interpreter, [`tuned`].
    Tuned,
    "tuned",
    tuned
);
