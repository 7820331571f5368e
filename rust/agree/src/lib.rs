//! Calls for the routines, generated so that the interesting cases come up often, and their
//! comparison: every answer, and every word of every slice afterwards.
//!
//! - [`call`] is a call as data, with a text form that can be read back.
//! - [`compare`] performs a call by several interpreters and says where they differ.
//! - [`engines`] lists the interpreters: the proved library (feature `proved`), the tree
//!   interpreter and the tuned one.
//! - [`limits`] has the calls at every limit of the scope paper and one beyond.
//! - [`generate`] has the random ones: tables, configurations, logs, limits and buffers.
//! - [`progress`] says on a terminal how far it is.
//! - [`search`] counts what a replay has to do.
//! - [`text`] has inputs for the command line program.

#![forbid(unsafe_code)]

pub mod call;
pub mod compare;
pub mod engines;
pub mod generate;
pub mod limits;
pub mod progress;
pub mod rng;
pub mod search;
pub mod text;
pub mod words;
