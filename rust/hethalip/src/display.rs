//! The answers in plain English. A refusal's text also says what to do about it.

use crate::answer::{Check, Match, Reason, Reasons, Refusal, Replay, Run, Step, Why};
use std::error::Error;
use std::fmt::{self, Display, Formatter};

impl Display for Refusal {
    fn fmt(&self, f: &mut Formatter) -> fmt::Result {
        let text = match self {
            Refusal::BadTable => {
                "the table is malformed; compare its words with the rules for tables"
            }
            Refusal::BadConfiguration => {
                "the configuration is malformed, empty or above 32,768 nodes; give one whole term without variables and calls"
            }
            Refusal::TooLong => {
                "the log has more than 4,096 actions, or the budget is above 1,000,000; end the log sooner, or lower the budget"
            }
            Refusal::BadLimit => {
                "the limit is 0, above 32,768, or below the configuration's node count; choose one from that count to 32,768"
            }
            Refusal::ShortBuffer => {
                "a lent buffer is too short; lend out and spare twice the limit, choices the log's length, work what work_len says"
            }
        };
        write!(f, "refused {}: {text}", self.number())
    }
}

impl Error for Refusal {}

impl Display for Check {
    fn fmt(&self, f: &mut Formatter) -> fmt::Result {
        match self {
            Check::Good => f.write_str("good"),
            Check::Refused(refusal) => refusal.fmt(f),
        }
    }
}

impl Display for Step {
    fn fmt(&self, f: &mut Formatter) -> fmt::Result {
        match self {
            Step::Stepped {
                rule,
                action,
                nodes,
            } => write!(
                f,
                "stepped by rule {rule}, action {action}, to {}",
                counted(*nodes, "node")
            ),
            Step::Stuck => f.write_str("stuck"),
            Step::OverLimit => f.write_str(
                "refused 6: the successor does not fit; lend an out of more words (65,536 at most are used)",
            ),
            Step::Refused(refusal) => refusal.fmt(f),
        }
    }
}

impl Display for Match {
    fn fmt(&self, f: &mut Formatter) -> fmt::Result {
        match self {
            Match::Matches { compared } => {
                write!(f, "matches, {} compared", counted(*compared, "node"))
            }
            Match::Differs { compared: 0 } => {
                f.write_str("differs, 0 nodes compared: the number names no rule")
            }
            Match::Differs { compared } => write!(
                f,
                "differs, {} compared: the last one disagrees",
                counted(*compared, "node")
            ),
            Match::Refused(refusal) => refusal.fmt(f),
        }
    }
}

impl Display for Reasons {
    fn fmt(&self, f: &mut Formatter) -> fmt::Result {
        match self {
            Reasons::Listed => f.write_str("stuck: a reason for each rule is listed"),
            Reasons::NotStuck { rule } => write!(f, "not stuck: a step takes rule {rule}"),
            Reasons::Refused(refusal) => refusal.fmt(f),
        }
    }
}

/// Nodes and conditions are counted from 0.
impl Display for Reason {
    fn fmt(&self, f: &mut Formatter) -> fmt::Result {
        match self {
            Reason::Left { place } => write!(f, "the left differs at node {place}"),
            Reason::Condition { number } => write!(f, "condition {number} fails"),
        }
    }
}

impl Display for Why {
    fn fmt(&self, f: &mut Formatter) -> fmt::Result {
        let reasons = match self {
            Why::NotStuck { rule } => return Reasons::NotStuck { rule: *rule }.fmt(f),
            Why::Stuck(reasons) if reasons.is_empty() => {
                return f.write_str("stuck: there is no rule");
            }
            Why::Stuck(reasons) => reasons,
        };
        f.write_str("stuck")?;
        for (rule, reason) in reasons.iter().enumerate() {
            let between = if rule == 0 { ": " } else { "; " };
            write!(f, "{between}rule {rule}: {reason}")?;
        }
        Ok(())
    }
}

impl Display for Run {
    fn fmt(&self, f: &mut Formatter) -> fmt::Result {
        match self {
            Run::Stuck { steps } => write!(f, "stuck after {}", counted(*steps, "step")),
            Run::Spent { steps } => write!(
                f,
                "spent after {}: some rule still applies",
                counted(*steps, "step")
            ),
            Run::OverLimit { steps } => write!(
                f,
                "refused 6: after {} the next successor is above the limit; raise the limit (32,768 at most)",
                counted(*steps, "step")
            ),
            Run::Refused(refusal) => refusal.fmt(f),
        }
    }
}

impl Display for Replay {
    fn fmt(&self, f: &mut Formatter) -> fmt::Result {
        match self {
            Replay::Reproduced => f.write_str("reproduced"),
            Replay::NotReproduced => f.write_str("not reproduced"),
            Replay::OverLimit => f.write_str(
                "refused 6: no list of rules within the limit yields the log, but a successor was above it; raise the limit (32,768 at most)",
            ),
            Replay::Refused(refusal) => refusal.fmt(f),
        }
    }
}

/// `1 step`, `2 steps`.
fn counted(count: impl Into<u64>, thing: &str) -> String {
    match count.into() {
        1 => format!("1 {thing}"),
        count => format!("{count} {thing}s"),
    }
}

#[cfg(test)]
mod tests {
    use super::*;
    use crate::OVER_LIMIT;

    const REFUSALS: [Refusal; 5] = [
        Refusal::BadTable,
        Refusal::BadConfiguration,
        Refusal::TooLong,
        Refusal::BadLimit,
        Refusal::ShortBuffer,
    ];

    #[test]
    fn a_refusal_begins_with_its_number_and_says_what_to_do() {
        for refusal in REFUSALS {
            let text = refusal.to_string();
            assert!(text.starts_with(&format!("refused {}: ", refusal.number())));
            assert!(text.contains("; "));
            assert_eq!(Check::Refused(refusal).to_string(), text);
            assert_eq!(Step::Refused(refusal).to_string(), text);
            assert_eq!(Match::Refused(refusal).to_string(), text);
            assert_eq!(Reasons::Refused(refusal).to_string(), text);
            assert_eq!(Run::Refused(refusal).to_string(), text);
            assert_eq!(Replay::Refused(refusal).to_string(), text);
        }
    }

    #[test]
    fn over_the_limit_begins_with_its_number_too() {
        let over = [
            Step::OverLimit.to_string(),
            Run::OverLimit { steps: 1 }.to_string(),
            Replay::OverLimit.to_string(),
        ];
        for text in over {
            assert!(text.starts_with(&format!("refused {OVER_LIMIT}: ")));
        }
        let text = Run::OverLimit { steps: 1 }.to_string();
        assert!(text.contains("after 1 step the"));
    }

    #[test]
    fn good_answers() {
        let stepped = Step::Stepped {
            rule: 0,
            action: 10,
            nodes: 2,
        };
        assert_eq!(
            stepped.to_string(),
            "stepped by rule 0, action 10, to 2 nodes"
        );
        assert_eq!(Check::Good.to_string(), "good");
        assert_eq!(Step::Stuck.to_string(), "stuck");
        assert_eq!(Run::Stuck { steps: 0 }.to_string(), "stuck after 0 steps");
        assert_eq!(
            Run::Spent { steps: 2 }.to_string(),
            "spent after 2 steps: some rule still applies"
        );
        assert_eq!(Replay::Reproduced.to_string(), "reproduced");
        assert_eq!(Replay::NotReproduced.to_string(), "not reproduced");
    }

    #[test]
    fn how_far_a_left_agrees() {
        let text = |answer: Match| answer.to_string();
        assert_eq!(
            text(Match::Matches { compared: 1 }),
            "matches, 1 node compared"
        );
        assert_eq!(
            text(Match::Matches { compared: 57 }),
            "matches, 57 nodes compared"
        );
        assert_eq!(
            text(Match::Differs { compared: 3 }),
            "differs, 3 nodes compared: the last one disagrees"
        );
        assert_eq!(
            text(Match::Differs { compared: 0 }),
            "differs, 0 nodes compared: the number names no rule"
        );
    }

    #[test]
    fn why_no_rule_applies() {
        let listed = Reasons::Listed.to_string();
        assert_eq!(listed, "stuck: a reason for each rule is listed");
        let not_stuck = Reasons::NotStuck { rule: 3 }.to_string();
        assert_eq!(not_stuck, "not stuck: a step takes rule 3");
        let left = Reason::Left { place: 4 }.to_string();
        assert_eq!(left, "the left differs at node 4");
        let condition = Reason::Condition { number: 1 }.to_string();
        assert_eq!(condition, "condition 1 fails");
    }

    #[test]
    fn why_a_configuration_is_stuck() {
        let (left, condition) = (Reason::Left { place: 4 }, Reason::Condition { number: 1 });
        assert_eq!(
            Why::Stuck(vec![left, condition]).to_string(),
            "stuck: rule 0: the left differs at node 4; rule 1: condition 1 fails"
        );
        assert_eq!(
            Why::Stuck(Vec::new()).to_string(),
            "stuck: there is no rule"
        );
        assert_eq!(
            Why::NotStuck { rule: 3 }.to_string(),
            Reasons::NotStuck { rule: 3 }.to_string()
        );
    }

    #[test]
    fn a_refusal_passes_as_an_error() {
        fn checked(check: Check) -> Result<(), Box<dyn Error>> {
            match check {
                Check::Good => Ok(()),
                Check::Refused(refusal) => Err(refusal.into()),
            }
        }
        assert!(checked(Check::Good).is_ok());
        let error = checked(Check::Refused(Refusal::BadTable)).unwrap_err();
        assert_eq!(error.to_string(), Refusal::BadTable.to_string());
    }
}
