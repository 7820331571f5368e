//! The ranges of the scope paper that are no node's own.

/// Nodes of a configuration; no limit is higher.
pub const CONFIGURATION_NODES: usize = 32_768;
/// Words of a table.
pub const TABLE_WORDS: usize = 65_536;
/// Rules of a table.
pub const RULES: usize = 256;
/// Conditions of a rule.
pub const CONDITIONS: usize = 8;
/// Nodes of a left, a right or a side of a condition.
pub const TERM_NODES: usize = 512;
/// Different variables: their numbers are below this.
pub const VARIABLES: usize = 16;
/// Symbols: their numbers are below this.
pub const SYMBOLS: usize = 4_096;
/// Entries of a dictionary.
pub const ENTRIES: usize = 64;
/// Actions: their numbers are below this.
pub const ACTIONS: usize = 65_536;
/// Actions of a log.
pub const LOG: usize = 4_096;
/// Steps of a run's budget.
pub const BUDGET: u64 = 1_000_000;
/// The number from which a factor of `z.share` is too large, either way.
pub const SHARE: i64 = 2_147_483_648;
