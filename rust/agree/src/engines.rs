//! The interpreters to compare.

use interpreter::{Routines, Tree, Tuned};

/// All of them. The first is what the others are compared with.
pub const ALL: &[&dyn Routines] = &[
    &Tree,
    &Tuned,
    #[cfg(feature = "proved")]
    &Proved,
];

/// The proved library.
#[cfg(feature = "proved")]
pub struct Proved;

#[cfg(feature = "proved")]
mod proved {
    use super::Proved;
    use interpreter::{Check, Match, Reasons, Refusal, Replay, Routines, Run, Step};

    fn refusal(refusal: hethalip::Refusal) -> Refusal {
        match refusal {
            hethalip::Refusal::BadTable => Refusal::BadTable,
            hethalip::Refusal::BadConfiguration => Refusal::BadConfiguration,
            hethalip::Refusal::TooLong => Refusal::TooLong,
            hethalip::Refusal::BadLimit => Refusal::BadLimit,
            hethalip::Refusal::ShortBuffer => Refusal::ShortBuffer,
        }
    }

    fn check(answer: hethalip::Check) -> Check {
        match answer {
            hethalip::Check::Good => Check::Good,
            hethalip::Check::Refused(why) => Check::Refused(refusal(why)),
        }
    }

    fn step(answer: hethalip::Step) -> Step {
        match answer {
            hethalip::Step::Stepped {
                rule,
                action,
                nodes,
            } => Step::Stepped {
                rule,
                action,
                nodes,
            },
            hethalip::Step::Stuck => Step::Stuck,
            hethalip::Step::OverLimit => Step::OverLimit,
            hethalip::Step::Refused(why) => Step::Refused(refusal(why)),
        }
    }

    fn match_rule(answer: hethalip::Match) -> Match {
        match answer {
            hethalip::Match::Matches { compared } => Match::Matches { compared },
            hethalip::Match::Differs { compared } => Match::Differs { compared },
            hethalip::Match::Refused(why) => Match::Refused(refusal(why)),
        }
    }

    fn reasons(answer: hethalip::Reasons) -> Reasons {
        match answer {
            hethalip::Reasons::Listed => Reasons::Listed,
            hethalip::Reasons::NotStuck { rule } => Reasons::NotStuck { rule },
            hethalip::Reasons::Refused(why) => Reasons::Refused(refusal(why)),
        }
    }

    fn run(answer: hethalip::Run) -> Run {
        match answer {
            hethalip::Run::Stuck { steps } => Run::Stuck { steps },
            hethalip::Run::Spent { steps } => Run::Spent { steps },
            hethalip::Run::OverLimit { steps } => Run::OverLimit { steps },
            hethalip::Run::Refused(why) => Run::Refused(refusal(why)),
        }
    }

    fn replay(answer: hethalip::Replay) -> Replay {
        match answer {
            hethalip::Replay::Reproduced => Replay::Reproduced,
            hethalip::Replay::NotReproduced => Replay::NotReproduced,
            hethalip::Replay::OverLimit => Replay::OverLimit,
            hethalip::Replay::Refused(why) => Replay::Refused(refusal(why)),
        }
    }

    impl Routines for Proved {
        fn name(&self) -> &'static str {
            "proved"
        }

        fn check_table(&self, table: &[i64]) -> Check {
            check(hethalip::check_table(table))
        }

        fn check_configuration(&self, configuration: &[i64]) -> Check {
            check(hethalip::check_configuration(configuration))
        }

        fn step(&self, table: &[i64], configuration: &[i64], out: &mut [i64]) -> Step {
            step(hethalip::step(table, configuration, out))
        }

        fn step_by_rule(
            &self,
            table: &[i64],
            configuration: &[i64],
            rule: usize,
            out: &mut [i64],
        ) -> Step {
            step(hethalip::step_by_rule(table, configuration, rule, out))
        }

        fn match_rule(&self, table: &[i64], configuration: &[i64], rule: usize) -> Match {
            match_rule(hethalip::match_rule(table, configuration, rule))
        }

        fn reasons(&self, table: &[i64], configuration: &[i64], list: &mut [i64]) -> Reasons {
            reasons(hethalip::reasons(table, configuration, list))
        }

        fn run(
            &self,
            table: &[i64],
            configuration: &[i64],
            budget: u64,
            limit: u64,
            out: &mut [i64],
            spare: &mut [i64],
        ) -> Run {
            run(hethalip::run(
                table,
                configuration,
                budget,
                limit,
                out,
                spare,
            ))
        }

        fn replay(
            &self,
            table: &[i64],
            configuration: &[i64],
            log: &[u16],
            limit: u64,
            out: &mut [i64],
            choices: &mut [u16],
            work: &mut [i64],
        ) -> Replay {
            replay(hethalip::replay(
                table,
                configuration,
                log,
                limit,
                out,
                choices,
                work,
            ))
        }
    }
}
