//! What the routines answer, and how the C interface packs it into one number.

/// Why a call was turned away before anything was done. Every slice keeps its words.
///
/// Where several hold, the lowest number is given.
#[derive(Clone, Copy, Debug, PartialEq, Eq, Hash)]
#[repr(u8)]
pub enum Refusal {
    /// 1: the table is malformed.
    BadTable = 1,
    /// 2: the configuration is malformed, or empty, or has more than 32,768 nodes.
    BadConfiguration = 2,
    /// 3: the log has more than 4,096 actions, or the budget is above 1,000,000.
    TooLong = 3,
    /// 4: the limit is 0, or above 32,768, or below the configuration's node count.
    BadLimit = 4,
    /// 5: a lent buffer is shorter than the routine asks.
    ShortBuffer = 5,
}

/// The number of the sixth refusal: a successor has more nodes than the limit.
///
/// It is an outcome of a step, a run or a replay, so it stands as a case of their answers.
pub const OVER_LIMIT: u8 = 6;

/// The answer of a check.
#[derive(Clone, Copy, Debug, PartialEq, Eq, Hash)]
pub enum Check {
    /// The words are well formed.
    Good,
    /// They are not.
    Refused(Refusal),
}

/// The answer of a step, or of a step by one given rule.
#[derive(Clone, Copy, Debug, PartialEq, Eq, Hash)]
pub enum Step {
    /// The successor stands at the start of `out`; the words behind it keep.
    Stepped {
        /// The rule that applied.
        rule: u8,
        /// The action that it carries.
        action: u16,
        /// The successor's node count: it has twice as many words.
        nodes: u32,
    },
    /// No rule applies; of a step by one given rule, that this rule does not. `out` keeps.
    Stuck,
    /// 6: the rule applies but its successor does not fit. `out` keeps.
    OverLimit,
    /// 1 or 2.
    Refused(Refusal),
}

/// The answer of a match: how far a rule's left and the configuration agree. Conditions play no
/// part.
#[derive(Clone, Copy, Debug, PartialEq, Eq, Hash)]
pub enum Match {
    /// The left matches.
    Matches {
        /// The left's nodes that were compared: all of them.
        compared: u32,
    },
    /// The left does not match, or the number names no rule.
    Differs {
        /// The left's nodes that were compared: in preorder up to and including the first that
        /// disagrees, so 1 at least; 0 if the number names no rule.
        compared: u32,
    },
    /// 1 or 2.
    Refused(Refusal),
}

/// The answer of the reasons: why no rule applies to a stuck configuration.
#[derive(Clone, Copy, Debug, PartialEq, Eq, Hash)]
pub enum Reasons {
    /// The configuration is stuck. The list starts with two words for each rule, by number, which
    /// [`listed`](crate::listed) reads; the words behind them keep.
    Listed,
    /// Some rule applies. The list keeps.
    NotStuck {
        /// The rule that a step takes: the lowest that applies, even if its successor is too large.
        rule: u8,
    },
    /// 1, 2 or 5.
    Refused(Refusal),
}

/// Why one rule does not apply: an entry of the list, two words.
#[derive(Clone, Copy, Debug, PartialEq, Eq, Hash)]
pub enum Reason {
    /// 0: the left does not match.
    Left {
        /// The place of the left's first node that disagrees, in preorder from 0.
        place: u32,
    },
    /// 1: the left matches, and a condition fails.
    Condition {
        /// The number of the lowest condition that fails, from 0.
        number: u8,
    },
}

/// Whether a configuration is stuck, and why: what `why_stuck` finds.
#[derive(Clone, Debug, PartialEq, Eq, Hash)]
pub enum Why {
    /// It is stuck: a reason for each rule, by number.
    Stuck(Vec<Reason>),
    /// It is not.
    NotStuck {
        /// The rule that a step takes.
        rule: u8,
    },
}

/// The answer of a run.
///
/// After the first three cases the configuration after `steps` steps stands at the start of `out`.
/// Zeros follow up to twice the limit, and that many words of `spare` are zero.
#[derive(Clone, Copy, Debug, PartialEq, Eq, Hash)]
pub enum Run {
    /// No rule applies any more.
    Stuck {
        /// The steps taken.
        steps: u64,
    },
    /// The budget is used up and some rule still applies.
    Spent {
        /// The steps taken: the budget.
        steps: u64,
    },
    /// 6: the next successor has more nodes than the limit.
    OverLimit {
        /// The steps taken.
        steps: u64,
    },
    /// 1 to 5.
    Refused(Refusal),
}

/// The answer of a replay.
///
/// After the first three cases the words of the work area that the replay asks for are zero.
#[derive(Clone, Copy, Debug, PartialEq, Eq, Hash)]
pub enum Replay {
    /// Some list of rules yields the log within the limit. The first one in dictionary order
    /// stands in `choices`, its last configuration in `out`.
    Reproduced,
    /// No list of rules yields the log, at any size of configuration. `out` and `choices` keep.
    NotReproduced,
    /// 6: no list yields the log within the limit, but the search met a successor above it. `out`
    /// and `choices` keep.
    OverLimit,
    /// 1 to 5.
    Refused(Refusal),
}

impl Refusal {
    /// The number of the refusal, 1 to 5.
    pub fn number(self) -> u8 {
        self as u8
    }

    #[cfg(feature = "proved")]
    fn from_number(number: u8) -> Option<Refusal> {
        match number {
            1 => Some(Refusal::BadTable),
            2 => Some(Refusal::BadConfiguration),
            3 => Some(Refusal::TooLong),
            4 => Some(Refusal::BadLimit),
            5 => Some(Refusal::ShortBuffer),
            _ => None,
        }
    }
}

impl Check {
    /// The refusal's number, if this is one.
    pub fn refusal_number(self) -> Option<u8> {
        match self {
            Check::Refused(refusal) => Some(refusal.number()),
            Check::Good => None,
        }
    }
}

impl Step {
    /// The refusal's number, 6 included, if this is one.
    pub fn refusal_number(self) -> Option<u8> {
        match self {
            Step::Refused(refusal) => Some(refusal.number()),
            Step::OverLimit => Some(OVER_LIMIT),
            _ => None,
        }
    }
}

impl Match {
    /// The refusal's number, if this is one.
    pub fn refusal_number(self) -> Option<u8> {
        match self {
            Match::Refused(refusal) => Some(refusal.number()),
            _ => None,
        }
    }
}

impl Reasons {
    /// The refusal's number, if this is one.
    pub fn refusal_number(self) -> Option<u8> {
        match self {
            Reasons::Refused(refusal) => Some(refusal.number()),
            _ => None,
        }
    }
}

impl Reason {
    /// The reason that these two words of a list are, if they are one.
    pub fn from_words(words: [i64; 2]) -> Option<Reason> {
        match words {
            [0, place @ 0..MAX_LEFT_NODES] => Some(Reason::Left {
                place: place as u32,
            }),
            [1, number @ 0..MAX_CONDITIONS] => Some(Reason::Condition {
                number: number as u8,
            }),
            _ => None,
        }
    }
}

impl Run {
    /// The refusal's number, 6 included, if this is one.
    pub fn refusal_number(self) -> Option<u8> {
        match self {
            Run::Refused(refusal) => Some(refusal.number()),
            Run::OverLimit { .. } => Some(OVER_LIMIT),
            _ => None,
        }
    }
}

impl Replay {
    /// The refusal's number, 6 included, if this is one.
    pub fn refusal_number(self) -> Option<u8> {
        match self {
            Replay::Refused(refusal) => Some(refusal.number()),
            Replay::OverLimit => Some(OVER_LIMIT),
            _ => None,
        }
    }
}

/// The most nodes that a left has.
const MAX_LEFT_NODES: i64 = 512;
/// The most conditions that a rule has.
const MAX_CONDITIONS: i64 = 8;

/// The packed answers of the C interface: the low byte is the kind, the rest are its values.
/// Each function gives `None` for a number that the interface does not define.
#[cfg(feature = "proved")]
pub(crate) mod unpack {
    use super::{Check, Match, OVER_LIMIT, Reasons, Refusal, Replay, Run, Step};

    fn kind_and_values(packed: u64) -> (u8, u64) {
        ((packed & 0xff) as u8, packed >> 8)
    }

    pub(crate) fn check(packed: u64) -> Option<Check> {
        match kind_and_values(packed) {
            (0, 0) => Some(Check::Good),
            (number @ 1..=2, 0) => Refusal::from_number(number).map(Check::Refused),
            _ => None,
        }
    }

    pub(crate) fn step(packed: u64) -> Option<Step> {
        match kind_and_values(packed) {
            (16, 0) => Some(Step::Stuck),
            (17, _) => Some(Step::Stepped {
                rule: (packed >> 8) as u8,
                action: (packed >> 16) as u16,
                nodes: (packed >> 32) as u32,
            }),
            (OVER_LIMIT, 0) => Some(Step::OverLimit),
            (number @ 1..=2, 0) => Refusal::from_number(number).map(Step::Refused),
            _ => None,
        }
    }

    pub(crate) fn match_rule(packed: u64) -> Option<Match> {
        match kind_and_values(packed) {
            (22, count) => Some(Match::Matches {
                compared: u32::try_from(count).ok()?,
            }),
            (23, count) => Some(Match::Differs {
                compared: u32::try_from(count).ok()?,
            }),
            (number @ 1..=2, 0) => Refusal::from_number(number).map(Match::Refused),
            _ => None,
        }
    }

    pub(crate) fn reasons(packed: u64) -> Option<Reasons> {
        match kind_and_values(packed) {
            (24, 0) => Some(Reasons::Listed),
            (25, rule) => Some(Reasons::NotStuck {
                rule: u8::try_from(rule).ok()?,
            }),
            (number @ (1 | 2 | 5), 0) => Refusal::from_number(number).map(Reasons::Refused),
            _ => None,
        }
    }

    pub(crate) fn run(packed: u64) -> Option<Run> {
        match kind_and_values(packed) {
            (18, steps) => Some(Run::Stuck { steps }),
            (19, steps) => Some(Run::Spent { steps }),
            (OVER_LIMIT, steps) => Some(Run::OverLimit { steps }),
            (number, 0) => Refusal::from_number(number).map(Run::Refused),
            _ => None,
        }
    }

    pub(crate) fn replay(packed: u64) -> Option<Replay> {
        match kind_and_values(packed) {
            (20, 0) => Some(Replay::Reproduced),
            (21, 0) => Some(Replay::NotReproduced),
            (OVER_LIMIT, 0) => Some(Replay::OverLimit),
            (number, 0) => Refusal::from_number(number).map(Replay::Refused),
            _ => None,
        }
    }

    #[cfg(test)]
    mod tests {
        use super::*;

        #[test]
        fn each_kind_unpacks() {
            assert_eq!(check(0), Some(Check::Good));
            assert_eq!(check(2), Some(Check::Refused(Refusal::BadConfiguration)));
            assert_eq!(step(16), Some(Step::Stuck));
            assert_eq!(
                step(17 | 255 << 8 | 65_535 << 16 | 32_768 << 32),
                Some(Step::Stepped {
                    rule: 255,
                    action: 65_535,
                    nodes: 32_768
                })
            );
            assert_eq!(step(6), Some(Step::OverLimit));
            assert_eq!(
                match_rule(22 | 512 << 8),
                Some(Match::Matches { compared: 512 })
            );
            assert_eq!(
                match_rule(23 | 1 << 8),
                Some(Match::Differs { compared: 1 })
            );
            assert_eq!(match_rule(23), Some(Match::Differs { compared: 0 }));
            assert_eq!(match_rule(1), Some(Match::Refused(Refusal::BadTable)));
            assert_eq!(
                match_rule(2),
                Some(Match::Refused(Refusal::BadConfiguration))
            );
            assert_eq!(run(6 | 9 << 8), Some(Run::OverLimit { steps: 9 }));
            assert_eq!(run(18 | 7 << 8), Some(Run::Stuck { steps: 7 }));
            assert_eq!(
                run(19 | 1_000_000 << 8),
                Some(Run::Spent { steps: 1_000_000 })
            );
            assert_eq!(run(5), Some(Run::Refused(Refusal::ShortBuffer)));
            assert_eq!(replay(20), Some(Replay::Reproduced));
            assert_eq!(replay(21), Some(Replay::NotReproduced));
            assert_eq!(replay(6), Some(Replay::OverLimit));
            assert_eq!(replay(3), Some(Replay::Refused(Refusal::TooLong)));
        }

        #[test]
        fn each_kind_of_reasons_unpacks() {
            assert_eq!(reasons(24), Some(Reasons::Listed));
            for rule in [0, 255] {
                let packed = 25 | u64::from(rule) << 8;
                assert_eq!(reasons(packed), Some(Reasons::NotStuck { rule }));
            }
            for (number, refusal) in [
                (1, Refusal::BadTable),
                (2, Refusal::BadConfiguration),
                (5, Refusal::ShortBuffer),
            ] {
                assert_eq!(reasons(number), Some(Reasons::Refused(refusal)));
            }
            for number in [0, 3, 4, 6, 16, 22, 26, 24 | 1 << 8, 5 | 1 << 8] {
                assert_eq!(reasons(number), None);
            }
            assert_eq!(reasons(25 | 256 << 8), None);
        }

        #[test]
        fn no_other_number_unpacks() {
            assert_eq!(check(3), None);
            assert_eq!(check(256), None);
            assert_eq!(step(3), None);
            assert_eq!(step(16 | 1 << 8), None);
            for number in [0, 3, 5, 6, 16, 21, 24, 1 | 1 << 8, 2 | 1 << 8] {
                assert_eq!(match_rule(number), None);
            }
            assert_eq!(match_rule(22 | 1 << 40), None);
            assert_eq!(match_rule(23 | 1 << 40), None);
            assert_eq!(run(7), None);
            assert_eq!(run(20), None);
            assert_eq!(replay(20 | 1 << 8), None);
            assert_eq!(replay(19), None);
        }
    }
}

#[cfg(test)]
mod tests {
    use super::*;

    #[test]
    fn two_words_are_a_reason_or_none() {
        let reason = |tag, value| Reason::from_words([tag, value]);
        assert_eq!(reason(0, 0), Some(Reason::Left { place: 0 }));
        assert_eq!(reason(0, 511), Some(Reason::Left { place: 511 }));
        assert_eq!(reason(1, 0), Some(Reason::Condition { number: 0 }));
        assert_eq!(reason(1, 7), Some(Reason::Condition { number: 7 }));
        for (tag, value) in [(0, 512), (0, -1), (1, 8), (1, -1), (2, 0), (-1, 0)] {
            assert_eq!(reason(tag, value), None);
        }
        assert_eq!(reason(1 << 32, 0), None);
        assert_eq!(reason(0, 1 << 32), None);
    }
}
