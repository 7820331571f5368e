//! Performs calls and compares what they leave.

use crate::call::{Buffer, Call};
use interpreter::{Check, Match, Reasons, Replay, Routines, Run, Step};
use std::fmt::Write;
use std::panic::{AssertUnwindSafe, catch_unwind};

/// The answer of any routine.
#[derive(Clone, Copy, Debug, PartialEq, Eq)]
#[allow(missing_docs)]
pub enum Answer {
    Check(Check),
    Step(Step),
    Match(Match),
    Reasons(Reasons),
    Run(Run),
    Replay(Replay),
}

impl Answer {
    /// What kind of answer it is, without its numbers.
    pub fn kind(&self) -> String {
        match self {
            Answer::Check(Check::Good) => "good".to_string(),
            Answer::Step(Step::Stepped { .. }) => "stepped".to_string(),
            Answer::Step(Step::Stuck)
            | Answer::Reasons(Reasons::Listed)
            | Answer::Run(Run::Stuck { .. }) => "stuck".to_string(),
            Answer::Reasons(Reasons::NotStuck { .. }) => "not stuck".to_string(),
            Answer::Match(Match::Matches { .. }) => "matches".to_string(),
            Answer::Match(Match::Differs { compared: 0 }) => "names no rule".to_string(),
            Answer::Match(Match::Differs { .. }) => "differs".to_string(),
            Answer::Run(Run::Spent { .. }) => "spent".to_string(),
            Answer::Replay(Replay::Reproduced) => "reproduced".to_string(),
            Answer::Replay(Replay::NotReproduced) => "not reproduced".to_string(),
            Answer::Check(Check::Refused(refusal))
            | Answer::Step(Step::Refused(refusal))
            | Answer::Match(Match::Refused(refusal))
            | Answer::Reasons(Reasons::Refused(refusal))
            | Answer::Run(Run::Refused(refusal))
            | Answer::Replay(Replay::Refused(refusal)) => format!("refused {}", *refusal as u8),
            Answer::Step(Step::OverLimit)
            | Answer::Run(Run::OverLimit { .. })
            | Answer::Replay(Replay::OverLimit) => "refused 6".to_string(),
        }
    }
}

/// What a call leaves: its answer and every word of every slice. A slice that the routine does not
/// have is empty.
#[derive(Clone, Debug, PartialEq, Eq)]
pub struct Outcome {
    /// The answer.
    pub answer: Answer,
    /// The out slice.
    pub out: Vec<i64>,
    /// The spare slice.
    pub spare: Vec<i64>,
    /// The list of chosen rules.
    pub choices: Vec<u16>,
    /// The work area.
    pub work: Vec<i64>,
    /// The list of reasons.
    pub list: Vec<i64>,
    /// Whether the slices to read from, and the words on both sides of every slice, kept.
    pub outside_kept: bool,
}

/// A slice with words on both sides that nobody may touch.
struct Lent<T> {
    whole: Vec<T>,
}

/// The words on each side.
const GUARD: usize = 3;

impl<T: Copy + PartialEq + From<u8>> Lent<T> {
    fn new(inside: &[T]) -> Lent<T> {
        let guard = [T::from(0x5a); GUARD];
        Lent {
            whole: [&guard, inside, &guard].concat(),
        }
    }

    fn inside(&self) -> &[T] {
        &self.whole[GUARD..self.whole.len() - GUARD]
    }

    fn inside_mut(&mut self) -> &mut [T] {
        let end = self.whole.len() - GUARD;
        &mut self.whole[GUARD..end]
    }

    fn guards_kept(&self) -> bool {
        let guard = [T::from(0x5a); GUARD];
        self.whole.starts_with(&guard) && self.whole.ends_with(&guard)
    }

    fn kept(&self, inside: &[T]) -> bool {
        self.guards_kept() && self.inside() == inside
    }
}

/// The buffers of a call. Those that it does not have are empty.
fn buffers(call: &Call) -> [Buffer; 5] {
    let none = Buffer { len: 0, fill: 0 };
    match call {
        Call::CheckTable { .. } | Call::CheckConfiguration { .. } | Call::MatchRule { .. } => {
            [none; 5]
        }
        Call::Step { out, .. } | Call::StepByRule { out, .. } => [*out, none, none, none, none],
        Call::Reasons { list, .. } => [none, none, none, none, *list],
        Call::Run { out, spare, .. } => [*out, *spare, none, none, none],
        Call::Replay {
            out, choices, work, ..
        } => [*out, none, *choices, *work, none],
    }
}

/// The log of a call. All but a replay have none.
fn log_of(call: &Call) -> &[u16] {
    match call {
        Call::Replay { log, .. } => log,
        _ => &[],
    }
}

/// All slices that a call lends.
struct Slices {
    table: Lent<i64>,
    configuration: Lent<i64>,
    log: Lent<u16>,
    out: Lent<i64>,
    spare: Lent<i64>,
    choices: Lent<u16>,
    work: Lent<i64>,
    list: Lent<i64>,
}

impl Slices {
    fn new(call: &Call) -> Slices {
        let [out, spare, choices, work, list] = buffers(call);
        Slices {
            table: Lent::new(call.table()),
            configuration: Lent::new(call.configuration()),
            log: Lent::new(log_of(call)),
            out: Lent::new(&out.words()),
            spare: Lent::new(&spare.words()),
            choices: Lent::new(&choices.halves()),
            work: Lent::new(&work.words()),
            list: Lent::new(&list.words()),
        }
    }

    /// The answer of the call's routine on these slices.
    fn lend(&mut self, call: &Call, routines: &dyn Routines) -> Answer {
        let (table, configuration) = (self.table.inside(), self.configuration.inside());
        let out = self.out.inside_mut();
        match *call {
            Call::CheckTable { .. } => Answer::Check(routines.check_table(table)),
            Call::CheckConfiguration { .. } => {
                Answer::Check(routines.check_configuration(configuration))
            }
            Call::Step { .. } => Answer::Step(routines.step(table, configuration, out)),
            Call::StepByRule { rule, .. } => {
                Answer::Step(routines.step_by_rule(table, configuration, rule, out))
            }
            Call::MatchRule { rule, .. } => {
                Answer::Match(routines.match_rule(table, configuration, rule))
            }
            Call::Reasons { .. } => {
                let list = self.list.inside_mut();
                Answer::Reasons(routines.reasons(table, configuration, list))
            }
            Call::Run { budget, limit, .. } => {
                let spare = self.spare.inside_mut();
                Answer::Run(routines.run(table, configuration, budget, limit, out, spare))
            }
            Call::Replay { limit, .. } => Answer::Replay(routines.replay(
                table,
                configuration,
                self.log.inside(),
                limit,
                out,
                self.choices.inside_mut(),
                self.work.inside_mut(),
            )),
        }
    }

    /// Whether the slices to read from, and the words on both sides of every slice, kept.
    fn outside_kept(&self, call: &Call) -> bool {
        self.table.kept(call.table())
            && self.configuration.kept(call.configuration())
            && self.log.kept(log_of(call))
            && self.out.guards_kept()
            && self.spare.guards_kept()
            && self.choices.guards_kept()
            && self.work.guards_kept()
            && self.list.guards_kept()
    }
}

/// Performs a call.
pub fn perform(call: &Call, routines: &dyn Routines) -> Outcome {
    let mut slices = Slices::new(call);
    let answer = slices.lend(call, routines);
    Outcome {
        answer,
        out: slices.out.inside().to_vec(),
        spare: slices.spare.inside().to_vec(),
        choices: slices.choices.inside().to_vec(),
        work: slices.work.inside().to_vec(),
        list: slices.list.inside().to_vec(),
        outside_kept: slices.outside_kept(call),
    }
}

/// Performs a call by all of them. Gives the answer, or in words where one differs from the first.
pub fn compare(call: &Call, engines: &[&dyn Routines]) -> Result<Answer, String> {
    let (first, others) = engines.split_first().expect("an interpreter");
    let expected = perform_caught(call, *first)?;
    if !expected.outside_kept {
        return Err(report(call, &format!("{} wrote outside", first.name())));
    }
    for other in others {
        let outcome = perform_caught(call, *other)?;
        if outcome != expected {
            let names = [first.name(), other.name()];
            return Err(report(call, &difference(names, &expected, &outcome)));
        }
    }
    Ok(expected.answer)
}

fn perform_caught(call: &Call, routines: &dyn Routines) -> Result<Outcome, String> {
    catch_unwind(AssertUnwindSafe(|| perform(call, routines)))
        .map_err(|_| report(call, &format!("{} panicked", routines.name())))
}

fn report(call: &Call, difference: &str) -> String {
    format!("{difference}\n\n{call}")
}

/// Where two outcomes differ.
fn difference(names: [&str; 2], one: &Outcome, two: &Outcome) -> String {
    let mut text = String::new();
    let [first, second] = names;
    if one.answer != two.answer {
        let (one, two) = (one.answer, two.answer);
        write!(text, "answer: {first} {one:?}, {second} {two:?}. ").expect("a string");
    }
    if !two.outside_kept {
        write!(text, "{second} wrote outside. ").expect("a string");
    }
    text += &word_difference("out", names, &one.out, &two.out);
    text += &word_difference("spare", names, &one.spare, &two.spare);
    text += &word_difference("choices", names, &one.choices, &two.choices);
    text += &word_difference("work", names, &one.work, &two.work);
    text += &word_difference("list", names, &one.list, &two.list);
    text
}

/// The first word in which two slices differ.
fn word_difference<T: PartialEq + ToString>(
    slice: &str,
    [first, second]: [&str; 2],
    one: &[T],
    two: &[T],
) -> String {
    match one.iter().zip(two).position(|(one, two)| one != two) {
        Some(at) => format!(
            "{slice}[{at}]: {first} {}, {second} {}. ",
            one[at].to_string(),
            two[at].to_string()
        ),
        None => String::new(),
    }
}
