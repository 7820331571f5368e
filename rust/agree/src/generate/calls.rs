//! Calls on generated games.

use super::damage::damage;
use super::faults::{faulty_configuration, faulty_table};
use super::games::{Game, game};
use super::matching::{configuration_for, wide_rule};
use super::stuck::{guard, sheet};
use super::terms::ground;
use super::walk::{run_sizes, searchable, walk};
use crate::call::{Buffer, Call};
use crate::rng::Rng;
use crate::search::{search, search_once};
use crate::words::{RuleWords, Words, table};
use interpreter::tree::{Table, Term};

/// The most nodes of a configuration.
const MOST: usize = 32_768;

/// An endless list of calls. A game serves for several.
pub struct Calls {
    rng: Rng,
    game: Game,
    table_words: Words,
    table: Option<Table>,
    /// How many calls the game still serves for.
    left: usize,
}

impl Calls {
    /// The calls of a seed.
    pub fn new(seed: u64) -> Calls {
        let mut calls = Calls {
            rng: Rng::new(seed),
            game: Game {
                rules: Vec::new(),
                configuration: Words::new(),
            },
            table_words: Words::new(),
            table: None,
            left: 0,
        };
        calls.new_game();
        calls
    }

    fn new_game(&mut self) {
        self.game = game(&mut self.rng);
        self.table_words = self.game.table();
        self.table = Table::read(&self.table_words);
        self.left = if self.game.configuration.len() > 1_000 {
            3
        } else {
            8
        };
    }

    /// The next call, of any routine but `reasons`.
    pub fn next_call(&mut self) -> Call {
        self.take_turn();
        match self.rng.below(110) {
            0..6 => self.check_table(),
            6..11 => self.check_configuration(),
            11..30 => self.step(),
            30..46 => self.step_by_rule(),
            46..65 => self.run(),
            65..100 => self.replay(),
            _ => self.match_rule(),
        }
    }

    /// The next call of `match_rule`, for whoever wants no others.
    pub fn next_match(&mut self) -> Call {
        self.take_turn();
        self.match_rule()
    }

    /// The next call of `reasons`.
    pub fn next_reasons(&mut self) -> Call {
        self.take_turn();
        self.reasons()
    }

    /// A game serves for one call less, or there is a new one.
    fn take_turn(&mut self) {
        if self.left == 0 {
            self.new_game();
        }
        self.left -= 1;
    }

    /// The table and the configuration as trees, if both are well formed.
    fn trees(&self) -> Option<(&Table, Term)> {
        let term = Term::read(&self.game.configuration, MOST)?.0;
        Some((self.table.as_ref()?, term))
    }

    /// The table's words, now and then wrong in one place.
    fn table_words(&mut self, percent: usize) -> Words {
        let mut words = self.table_words.clone();
        if self.rng.percent(percent) {
            if self.rng.percent(50) {
                return faulty_table(&mut self.rng, &self.game.rules);
            }
            damage(&mut self.rng, &mut words);
        }
        words
    }

    /// The configuration's words, now and then wrong in one place.
    fn configuration_words(&mut self, percent: usize) -> Words {
        let mut words = self.game.configuration.clone();
        if self.rng.percent(percent) {
            if self.rng.percent(30) {
                faulty_configuration(&mut self.rng, &mut words);
            } else {
                damage(&mut self.rng, &mut words);
            }
        }
        words
    }

    /// A length at, just below or above what is needed.
    fn length(&mut self, needed: usize) -> usize {
        match self.rng.below(100) {
            0..3 => needed.saturating_sub(1),
            3 => self.rng.below(needed + 1),
            4..60 => needed,
            60..70 => needed + 1,
            70..80 => needed + 2,
            _ => needed + self.rng.below(40),
        }
    }

    fn buffer(&mut self, needed: usize) -> Buffer {
        let len = self.length(needed);
        Buffer::new(&mut self.rng, len)
    }

    fn check_table(&mut self) -> Call {
        Call::CheckTable {
            table: self.table_words(70),
        }
    }

    fn check_configuration(&mut self) -> Call {
        let mut configuration = self.configuration_words(60);
        if self.rng.percent(20) {
            configuration = ground(&mut self.rng, 40);
            if self.rng.percent(50) {
                damage(&mut self.rng, &mut configuration);
            }
        }
        Call::CheckConfiguration { configuration }
    }

    /// Goes a few steps on from the configuration, so that calls start at other places too.
    fn wander(&mut self) {
        let steps = self.rng.below(4);
        let Some((table, initial)) = self.trees() else {
            return;
        };
        let mut rng = Rng::new(initial.size() as u64 + self.left as u64);
        let last = walk(&mut rng, table, &initial, steps, MOST).last;
        self.game.configuration = last.words();
    }

    /// An out slice for a step: near the size of its successor.
    fn step_buffer(&mut self, rule: Option<usize>) -> Buffer {
        let size = self.trees().and_then(|(table, configuration)| {
            let successor = match rule {
                Some(rule) => table.rules.get(rule)?.successor(&configuration),
                None => table
                    .rules
                    .iter()
                    .find_map(|rule| rule.successor(&configuration)),
            };
            successor.map(|term| term.size())
        });
        // One node more than any out slice is good for, at most.
        let needed = 2 * size.unwrap_or(8).min(MOST + 1);
        if self.rng.percent(12) {
            let len = needed - 1 - self.rng.below(2);
            Buffer::new(&mut self.rng, len)
        } else {
            self.buffer(needed)
        }
    }

    fn step(&mut self) -> Call {
        if self.rng.percent(50) {
            self.wander();
        }
        Call::Step {
            out: self.step_buffer(None),
            table: self.table_words(5),
            configuration: self.configuration_words(5),
        }
    }

    fn step_by_rule(&mut self) -> Call {
        if self.rng.percent(50) {
            self.wander();
        }
        let rule = self.rule_number();
        Call::StepByRule {
            out: self.step_buffer(Some(rule)),
            table: self.table_words(5),
            configuration: self.configuration_words(5),
            rule,
        }
    }

    /// The number of a rule, now and then of none.
    fn rule_number(&mut self) -> usize {
        let count = self.game.rules.len();
        match self.rng.below(20) {
            0 => count,
            1 => self.rng.pick(&[255, 256, usize::MAX, 1 << 32, 1 << 8 | 1]),
            _ if count == 0 => 0,
            _ => self.rng.below(count),
        }
    }

    /// A match of a game's rule with the game's configuration; or with one made for the rule, which
    /// matches or differs at some node; or the same with a wide left in the rule's place.
    fn match_rule(&mut self) -> Call {
        let rule = self.rule_number();
        let made = match self.rng.below(10) {
            0..3 => None,
            3..6 => self.game.rules.get(rule).cloned(),
            _ => Some(wide_rule(&mut self.rng)),
        };
        match made {
            Some(made) => self.match_of(rule, made),
            None => {
                if self.rng.percent(50) {
                    self.wander();
                }
                Call::MatchRule {
                    table: self.table_words(5),
                    configuration: self.configuration_words(5),
                    rule,
                }
            }
        }
    }

    /// A match of this rule, which takes the place of the game's.
    fn match_of(&mut self, number: usize, rule: RuleWords) -> Call {
        let configuration = configuration_for(&mut self.rng, &rule.left);
        let mut rules = self.game.rules.clone();
        if let Some(place) = rules.get_mut(number) {
            *place = rule;
        }
        Call::MatchRule {
            table: self.damaged(table(&rules)),
            configuration: self.damaged(configuration),
            rule: number,
        }
    }

    /// The words, now and then wrong in one place.
    fn damaged(&mut self, mut words: Words) -> Words {
        if self.rng.percent(4) {
            damage(&mut self.rng, &mut words);
        }
        words
    }

    /// The reasons of a sheet made for a configuration; or of the game's configuration, mostly with
    /// rules that are kept from applying.
    fn reasons(&mut self) -> Call {
        let game = if self.rng.percent(70) {
            sheet(&mut self.rng)
        } else {
            self.stuck_game()
        };
        let needed = 2 * game.rules.len();
        Call::Reasons {
            table: self.damaged(game.table()),
            configuration: self.damaged(game.configuration),
            list: self.list_buffer(needed),
        }
    }

    /// The game, a few steps on, mostly with rules that do not apply.
    fn stuck_game(&mut self) -> Game {
        self.wander();
        let mut game = self.game.clone();
        if self.rng.percent(60) {
            guard(&mut self.rng, &mut game.rules, &game.configuration);
        }
        game
    }

    /// A list for so many words: rarely none, or one word too short.
    fn list_buffer(&mut self, needed: usize) -> Buffer {
        match self.rng.below(20) {
            0 => Buffer::new(&mut self.rng, 0),
            1 => Buffer::new(&mut self.rng, needed.saturating_sub(1)),
            _ => self.buffer(needed),
        }
    }

    fn budget(&mut self) -> u64 {
        match self.rng.below(100) {
            0 => 1_000_001,
            1 => self.rng.pick(&[u64::MAX, 1 << 63, 1 << 32, 2_000_000]),
            2..12 => 0,
            12..92 => self.rng.below(20) as u64,
            _ => self.rng.below(400) as u64,
        }
    }

    /// A limit near what is needed, now and then a bad one.
    fn limit(&mut self, initial: usize, needed: usize) -> u64 {
        let (initial, needed) = (initial as u64, needed as u64);
        match self.rng.below(100) {
            0 => 0,
            1 => MOST as u64 + 1,
            2 => self.rng.pick(&[u64::MAX, 1 << 63, 1 << 32, 1 << 31]),
            3..5 => initial - 1,
            5..8 => initial,
            8..30 => initial.max(needed - 1),
            30..40 => initial + self.rng.below((needed - initial) as usize + 1) as u64,
            40 => MOST as u64,
            41..70 => needed,
            _ => needed + self.rng.below(5) as u64,
        }
    }

    /// What twice the limit comes to, for limits that are no use as lengths too.
    fn twice(limit: u64) -> usize {
        2 * limit.min(MOST as u64 + 1) as usize
    }

    fn run(&mut self) -> Call {
        let budget = self.budget();
        let steps = budget.min(400) as usize;
        let sizes = self
            .trees()
            .map(|(table, initial)| run_sizes(table, &initial, steps, MOST));
        let (initial, needed) = match sizes {
            Some((sizes, next)) => {
                let most = *sizes.iter().max().expect("the initial size");
                let above = next.filter(|_| self.rng.percent(30)).unwrap_or(0);
                (sizes[0], most.max(above).min(MOST))
            }
            None => (1, 4),
        };
        let limit = self.limit(initial, needed);
        Call::Run {
            table: self.table_words(4),
            configuration: self.configuration_words(4),
            budget,
            limit,
            out: self.buffer(Self::twice(limit)),
            spare: self.buffer(Self::twice(limit)),
        }
    }

    fn log_length(&mut self) -> usize {
        match self.rng.below(200) {
            0..10 => 0,
            10..70 => 1 + self.rng.below(5),
            70..190 => 3 + self.rng.below(14),
            190..199 => self.rng.below(200),
            _ => self.rng.pick(&[4_096, 4_097]),
        }
    }

    /// Changes a log in one place: mostly it is not reproduced any more.
    fn damage_log(&mut self, log: &mut Vec<u16>) {
        let count = self.game.rules.len();
        let action = if count == 0 || self.rng.percent(10) {
            self.rng.word() as u16
        } else {
            self.game.rules[self.rng.below(count)].action as u16
        };
        let length = log.len();
        match self.rng.below(10) {
            5..9 if length > 0 => log[length - 1] = action,
            9 if length > 0 => log[self.rng.below(length)] = action,
            _ => log.push(action),
        }
    }

    /// Whether a search that looks at each configuration once has little to do, and another much.
    fn meets(&self, log: &[u16], limit: u64) -> bool {
        let Some((table, initial)) = self.trees() else {
            return false;
        };
        let limit = limit.min(MOST as u64) as usize;
        search_once(table, &initial, log, limit, 600).is_some()
            && search(table, &initial, log, limit, 1_200).is_none()
    }

    fn replay(&mut self) -> Call {
        let length = self.log_length();
        let small = self.game.configuration.len() < 400;
        let length = if small { length } else { length.min(4) };
        let cap = if small {
            40 + self.game.configuration.len()
        } else {
            MOST
        };
        let damaged = self.rng.percent(45);
        let mut walker = Rng::new(self.rng.word());
        let walked = self
            .trees()
            .map(|(table, initial)| (walk(&mut walker, table, &initial, length, cap), initial));
        let (mut log, initial, needed) = match walked {
            Some((walk, initial)) => (walk.log, initial.size(), walk.most_nodes),
            None => (vec![10; length], 1, 4),
        };
        if damaged {
            self.damage_log(&mut log);
        }
        let limit = self.limit(initial, needed);
        // Room in the frames, for what the search keeps there.
        let limit = match self.rng.below(10) {
            0..3 if limit < 200 => limit + self.rng.below(8 * limit as usize + 1) as u64,
            _ => limit,
        };
        let table = self.table_words(4);
        let configuration = self.configuration_words(4);
        // Much more where paths meet, so that there is little to do for a search that remembers.
        let most = match self.left {
            _ if self.meets(&log, limit) => 20_000,
            0 => 4_000,
            _ => 600,
        };
        log.truncate(searchable_of(&table, &configuration, &log, limit, most));
        if self.rng.percent(1) {
            // Too long, whatever the rest is.
            log.resize(4_097, 0);
        }
        let frames = log.len() + 1;
        let frame = Self::twice(limit) + 2;
        // A work area of some megabytes at most: beyond that it is too short.
        let work = if frames * frame < 400_000 {
            self.buffer(frames * frame)
        } else {
            self.buffer(1_000)
        };
        Call::Replay {
            table,
            configuration,
            out: self.buffer(Self::twice(limit)),
            choices: self.buffer(log.len()),
            log,
            limit,
            work,
        }
    }
}

/// How much of a log a search without memory gets through in so many successors. (A word that was
/// changed can make a rule apply more often, so the final words are asked.)
fn searchable_of(
    table: &[i64],
    configuration: &[i64],
    log: &[u16],
    limit: u64,
    most: usize,
) -> usize {
    let term = Term::read(configuration, MOST);
    match (Table::read(table), term) {
        (Some(table), Some((term, []))) if limit <= MOST as u64 => {
            searchable(&table, &term, log, limit as usize, most)
        }
        _ => log.len(),
    }
}
