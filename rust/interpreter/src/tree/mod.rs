//! The clear form: words are read into trees, and each routine follows its definition.
//!
//! A configuration may be a chain of 32,768 nodes, so no function here calls itself along one:
//! reading, writing, comparing and freeing a term keep their own stacks. Only what goes down a
//! term of a rule, at most 512 nodes, recurses.

mod dictionary;
mod function;
mod relation;
mod routines;
mod rules;
mod search;
mod term;

pub use function::Function;
pub use relation::{Obstacle, Valuation, compare, instantiate, matches, value};
pub(crate) use routines::first_term;
pub use routines::{check_configuration, check_table, match_rule, reasons};
pub use routines::{replay, run, step, step_by_rule};
pub use rules::{Rule, Table};
pub use search::{Found, search};
pub use term::{Label, Term};
