//! What the routines answer. The numbers are those of the papers.

/// Why a call is refused before anything is done; of several, the lowest number.
#[derive(Clone, Copy, Debug, PartialEq, Eq, Hash)]
#[repr(u8)]
pub enum Refusal {
    /// 1, bad table.
    BadTable = 1,
    /// 2, bad opening: the initial configuration is malformed.
    BadConfiguration = 2,
    /// 3, too long: the log or the budget.
    TooLong = 3,
    /// 4, bad ceiling: the limit.
    BadLimit = 4,
    /// 5, cramped: a short buffer.
    ShortBuffer = 5,
}

/// The answer of a check.
#[derive(Clone, Copy, Debug, PartialEq, Eq, Hash)]
pub enum Check {
    /// Well formed.
    Good,
    /// 1 or 2.
    Refused(Refusal),
}

/// The answer of a step, or of a step by one given rule.
#[derive(Clone, Copy, Debug, PartialEq, Eq, Hash)]
pub enum Step {
    /// The successor stands in `out`.
    Stepped {
        /// The rule that applied.
        rule: u8,
        /// Its action.
        action: u16,
        /// The successor's nodes.
        nodes: u32,
    },
    /// No rule applies, or the given one does not.
    Stuck,
    /// 6, over ceiling: the successor does not fit.
    OverLimit,
    /// 1 or 2.
    Refused(Refusal),
}

/// The answer of a match: how far a rule's left and the configuration agree.
#[derive(Clone, Copy, Debug, PartialEq, Eq, Hash)]
pub enum Match {
    /// The left matches.
    Matches {
        /// The left's nodes.
        compared: u32,
    },
    /// It does not, or the number names no rule.
    Differs {
        /// The left's nodes in preorder up to and including the first that disagrees; 0 if there
        /// is no such rule.
        compared: u32,
    },
    /// 1 or 2.
    Refused(Refusal),
}

/// The answer of the reasons: why no rule applies to a stuck configuration.
#[derive(Clone, Copy, Debug, PartialEq, Eq, Hash)]
pub enum Reasons {
    /// The configuration is stuck. The list starts with two words for each rule: 0 and the place,
    /// from 0, of the first node of its left that disagrees; or else 1 and the number, from 0, of
    /// its lowest condition that fails.
    Listed,
    /// It is not stuck, and the list keeps.
    NotStuck {
        /// The step's rule.
        rule: u8,
    },
    /// 1, 2 or 5.
    Refused(Refusal),
}

/// The answer of a run.
#[derive(Clone, Copy, Debug, PartialEq, Eq, Hash)]
pub enum Run {
    /// After these steps no rule applies.
    Stuck {
        /// The steps taken.
        steps: u64,
    },
    /// The budget is used up, and some rule still applies.
    Spent {
        /// The steps taken.
        steps: u64,
    },
    /// 6, over ceiling: the next successor is above the limit.
    OverLimit {
        /// The steps taken.
        steps: u64,
    },
    /// 1 to 5.
    Refused(Refusal),
}

/// The answer of a replay.
#[derive(Clone, Copy, Debug, PartialEq, Eq, Hash)]
pub enum Replay {
    /// The first list of rules stands in `choices`, its last configuration in `out`.
    Reproduced,
    /// No list of rules yields the log.
    NotReproduced,
    /// 6, over ceiling: none within the limit, but the search met a successor above it.
    OverLimit,
    /// 1 to 5.
    Refused(Refusal),
}
