//! The indexed table: matching, conditions and successors.

use super::evaluate::{Expressions, Made, copy};
use super::{BOUND, CALL, LAST, LOOKUP, Node, SYMBOL, VARIABLE, term_end};
use crate::limits;
use std::ops::Range;

/// A rule of a well formed table.
pub(super) struct Rule<'a> {
    pub(super) action: u16,
    /// Where the left is in [`Rules::lefts`].
    pub(super) left: Range<usize>,
    pub(super) right: &'a [Node],
    pub(super) conditions: &'a [Node],
    /// The nodes of a successor that come from no variable's part, no lookup and no update.
    pub(super) fixed: usize,
    /// Where [`Rules::copies`] lists the variables, lookups and updates of the right that stand
    /// under no call.
    pub(super) copies: Range<usize>,
}

/// An indexed table.
pub(super) struct Rules<'a> {
    pub(super) rules: Vec<Rule<'a>>,
    /// The key of each left: most rules are passed over by it.
    keys: Vec<u32>,
    actions: Vec<u16>,
    /// All lefts, copied: the tag of a variable says whether its place is the first.
    pub(super) lefts: Vec<Node>,
    /// Numbers of variables, and from 16 on the places of lookups and updates in their rights.
    pub(super) copies: Vec<u16>,
    /// Whether there may be dictionaries.
    pub(super) has_maps: bool,
}

/// What is known of a successor before it is written.
pub(super) struct Plan<'a> {
    /// Its nodes.
    pub(super) size: usize,
    /// The value of the right's first lookup or update, and the place behind that, so that they are
    /// not worked out again. (Most rights have one at most.)
    first: Option<(Made<'a>, usize)>,
}

/// A left that begins with a variable.
const ANY: u32 = 0;

/// The first word of a reason: the second is the place of a node of the left.
const LEFT: i64 = 0;
/// The first word of a reason: the second is the number of a condition.
const CONDITION: i64 = 1;

/// A configuration matches a left only if their keys are equal or the left's is [`ANY`].
#[inline(always)]
fn key([tag, datum]: Node) -> u32 {
    match tag {
        VARIABLE | LAST => ANY,
        SYMBOL.. => (tag << 12 | datum) as u32,
        _ => tag as u32 + 1,
    }
}

/// Where each variable's part of the configuration starts and ends.
#[derive(Default)]
pub(super) struct Bindings {
    starts: [usize; limits::VARIABLES],
    ends: [usize; limits::VARIABLES],
}

impl Bindings {
    #[inline(always)]
    pub(super) fn start(&self, variable: i64) -> usize {
        self.starts[variable as usize % limits::VARIABLES]
    }

    #[inline(always)]
    fn end(&self, variable: i64) -> usize {
        self.ends[variable as usize % limits::VARIABLES]
    }

    #[inline(always)]
    pub(super) fn part<'a>(&self, variable: i64, configuration: &'a [Node]) -> &'a [Node] {
        &configuration[self.start(variable)..self.end(variable)]
    }

    #[inline(always)]
    fn set(&mut self, variable: i64, start: usize, end: usize) {
        self.starts[variable as usize % limits::VARIABLES] = start;
        self.ends[variable as usize % limits::VARIABLES] = end;
    }

    /// Matches an indexed left against the configuration.
    #[inline(always)]
    fn matches<const MAPS: bool>(&mut self, left: &[Node], configuration: &[Node]) -> bool {
        self.disagreement::<MAPS>(left, configuration).is_none()
    }

    /// The place of the first node of an indexed left that disagrees with the configuration, found
    /// in one walk. Who asks only whether there is one pays nothing for the place.
    #[inline(always)]
    fn disagreement<const MAPS: bool>(
        &mut self,
        left: &[Node],
        configuration: &[Node],
    ) -> Option<usize> {
        let mut at = 0;
        for (place, &[tag, datum]) in left.iter().enumerate() {
            match tag {
                VARIABLE => {
                    let end = term_end::<MAPS>(configuration, at);
                    self.set(datum, at, end);
                    at = end;
                }
                LAST => self.set(datum, at, configuration.len()),
                BOUND => {
                    // No term's words begin another's, so equal words are an equal term.
                    let part = self.part(datum, configuration);
                    if !configuration[at..].starts_with(part) {
                        return Some(place);
                    }
                    at += part.len();
                }
                _ => {
                    if configuration[at] != [tag, datum] {
                        return Some(place);
                    }
                    at += 1;
                }
            }
        }
        None
    }
}

impl<'a> Rules<'a> {
    #[inline(always)]
    pub(super) fn with_capacity(count: usize, has_maps: bool) -> Rules<'a> {
        Rules {
            rules: Vec::with_capacity(count),
            keys: Vec::with_capacity(count),
            actions: Vec::with_capacity(count),
            lefts: Vec::with_capacity(4 * count),
            copies: Vec::with_capacity(4 * count),
            has_maps,
        }
    }

    #[inline(always)]
    pub(super) fn push(&mut self, rule: Rule<'a>) {
        self.keys.push(key(self.lefts[rule.left.start]));
        self.actions.push(rule.action);
        self.rules.push(rule);
    }

    /// Whether a rule's left matches and its conditions hold.
    #[inline(always)]
    pub(super) fn applies<const MAPS: bool>(
        &self,
        rule: &Rule,
        configuration: &[Node],
        bindings: &mut Bindings,
    ) -> bool {
        bindings.matches::<MAPS>(&self.lefts[rule.left.clone()], configuration)
            && failing_condition::<MAPS>(rule.conditions, configuration, bindings).is_none()
    }

    /// How many nodes a rule's left has, and the place of the first that disagrees.
    pub(super) fn compare<const MAPS: bool>(
        &self,
        rule: &Rule,
        configuration: &[Node],
    ) -> (usize, Option<usize>) {
        let left = &self.lefts[rule.left.clone()];
        let place = Bindings::default().disagreement::<MAPS>(left, configuration);
        (left.len(), place)
    }

    /// Why each rule does not apply, two words for each, or the number of the first that does: one
    /// pass. A rule that is passed over by its key disagrees at the root.
    pub(super) fn obstacles<const MAPS: bool>(
        &self,
        configuration: &[Node],
    ) -> Result<Vec<Node>, usize> {
        let key = key(configuration[0]);
        let mut bindings = Bindings::default();
        let mut entries = Vec::with_capacity(self.rules.len());
        for (number, &left) in self.keys.iter().enumerate() {
            let entry = if left == key || left == ANY {
                let rule = &self.rules[number];
                self.obstacle::<MAPS>(rule, configuration, &mut bindings)
            } else {
                Some([LEFT, 0])
            };
            entries.push(entry.ok_or(number)?);
        }
        Ok(entries)
    }

    /// Why a rule does not apply, as two words.
    #[inline(always)]
    fn obstacle<const MAPS: bool>(
        &self,
        rule: &Rule,
        configuration: &[Node],
        bindings: &mut Bindings,
    ) -> Option<Node> {
        let left = &self.lefts[rule.left.clone()];
        if let Some(place) = bindings.disagreement::<MAPS>(left, configuration) {
            return Some([LEFT, place as i64]);
        }
        failing_condition::<MAPS>(rule.conditions, configuration, bindings)
            .map(|number| [CONDITION, number as i64])
    }

    /// The lowest rule that applies; `bindings` says what its variables stand for.
    #[inline(always)]
    pub(super) fn first<const MAPS: bool>(
        &self,
        configuration: &[Node],
        bindings: &mut Bindings,
    ) -> Option<usize> {
        let key = key(configuration[0]);
        for (number, &left) in self.keys.iter().enumerate() {
            if (left == key || left == ANY)
                && self.applies::<MAPS>(&self.rules[number], configuration, bindings)
            {
                return Some(number);
            }
        }
        None
    }

    /// The lowest rule from this number on that carries the action and applies.
    #[inline(always)]
    pub(super) fn first_with<const MAPS: bool>(
        &self,
        action: u16,
        from: usize,
        configuration: &[Node],
        bindings: &mut Bindings,
    ) -> Option<usize> {
        let mut number = from;
        while let Some(skipped) = self.actions[number..].iter().position(|&a| a == action) {
            number += skipped;
            if self.applies::<MAPS>(&self.rules[number], configuration, bindings) {
                return Some(number);
            }
            number += 1;
        }
        None
    }

    /// What is known of a successor before it is written, once the rule's variables are bound.
    #[inline(always)]
    pub(super) fn plan<'b, const MAPS: bool>(
        &self,
        rule: &'b Rule,
        configuration: &'b [Node],
        bindings: &'b Bindings,
    ) -> Plan<'b> {
        let mut size = rule.fixed;
        let mut first = None;
        for &copied in &self.copies[rule.copies.clone()] {
            if MAPS && copied as usize >= limits::VARIABLES {
                let right = rule.right_expressions::<MAPS>(configuration, bindings);
                let (made, end) = right.made(copied as usize - limits::VARIABLES);
                size += made.size();
                first = first.or(Some((made, end)));
            } else {
                size += bindings.end(copied as i64) - bindings.start(copied as i64);
            }
        }
        Plan { size, first }
    }
}

impl Rule<'_> {
    #[inline(always)]
    fn right_expressions<'b, const MAPS: bool>(
        &'b self,
        configuration: &'b [Node],
        bindings: &'b Bindings,
    ) -> Expressions<'b, MAPS> {
        Expressions {
            code: self.right,
            configuration,
            bindings,
        }
    }

    /// Writes the successor from the start of `out`, which has room for it. A literal dictionary's
    /// nodes are written like any other's.
    #[inline(always)]
    pub(super) fn write<const MAPS: bool>(
        &self,
        configuration: &[Node],
        bindings: &Bindings,
        plan: Plan,
        out: &mut [Node],
    ) {
        let right = self.right_expressions::<MAPS>(configuration, bindings);
        let mut known = plan.first;
        let mut from = 0;
        let mut to = 0;
        while let Some(&[tag, datum]) = self.right.get(from) {
            from += 1;
            match tag {
                VARIABLE => {
                    let part = bindings.part(datum, configuration);
                    copy(part, &mut out[to..to + part.len()]);
                    to += part.len();
                    continue;
                }
                CALL if MAPS && datum >= LOOKUP => {
                    let (made, end) = known.take().unwrap_or_else(|| right.made(from - 1));
                    to += made.write(&mut out[to..]);
                    from = end;
                    continue;
                }
                CALL => {
                    let (head, end) = right.call(datum, from);
                    out[to] = [head.0, head.1];
                    from = end;
                }
                _ => out[to] = [tag, datum],
            }
            to += 1;
        }
    }
}

/// The number of the lowest condition that fails. Who asks only whether there is one pays nothing
/// for the number.
#[inline(always)]
fn failing_condition<const MAPS: bool>(
    conditions: &[Node],
    configuration: &[Node],
    bindings: &Bindings,
) -> Option<usize> {
    let sides = Expressions::<MAPS> {
        code: conditions,
        configuration,
        bindings,
    };
    let mut at = 0;
    let mut number = 0;
    while at < conditions.len() {
        let (holds, end) = sides.condition_holds(at);
        if !holds {
            return Some(number);
        }
        at = end;
        number += 1;
    }
    None
}
