//! Random calls.

mod calls;
mod damage;
mod expressions;
mod faults;
mod games;
mod matching;
mod meters;
mod stuck;
mod terms;
mod walk;

pub use calls::Calls;
pub use games::{Game, game};
