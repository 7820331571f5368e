//! The cases: what is called, on what, and how many steps that is.

use crate::rules;
use agree::search::{search, search_once};
use agree::words::{
    RuleWords, Words, bush, chain, int, nest, nest_of_symbols, spin_rules, symbol, table,
};
use interpreter::tree::{Table, Term};
use interpreter::{Check, Match, Reasons, Replay, Routines, Run, Step, Tuned};

/// What a case calls.
enum Routine {
    CheckTable,
    CheckConfiguration,
    Step,
    Match { compared: u32 },
    Reasons { answer: Reasons },
    Run { budget: u64 },
    Replay { log: Vec<u16>, answer: Replay },
}

/// A case, with its buffers.
pub struct Case {
    /// What it is.
    pub name: String,
    routine: Routine,
    table: Words,
    configuration: Words,
    limit: usize,
    out: Words,
    spare: Words,
    choices: Vec<u16>,
    work: Words,
    list: Words,
    /// The steps of one call, or what else is counted, once they are known.
    steps: u64,
    /// The successors that a replay forms which remembers nothing; `None` if they are too many.
    all: Option<u64>,
}

/// So many successors of a replay without memory are counted.
const COUNTED: usize = 2_000_000;

impl Case {
    fn new(
        name: &str,
        rules: &[RuleWords],
        configuration: Words,
        limit: usize,
        routine: Routine,
    ) -> Case {
        let log_len = match &routine {
            Routine::Replay { log, .. } => log.len(),
            _ => 0,
        };
        let mut case = Case {
            name: name.to_string(),
            routine,
            table: table(rules),
            configuration,
            limit,
            out: vec![0; 2 * limit],
            spare: vec![0; 2 * limit],
            choices: vec![0; log_len],
            work: vec![0; (log_len + 1) * (2 * limit + 2)],
            list: vec![0; 2 * rules.len()],
            steps: 0,
            all: None,
        };
        case.count_steps();
        case
    }

    /// The case with its steps counted as rules tried, so many for each.
    fn in_rules_tried(mut self, rules: usize) -> Case {
        self.steps *= rules as u64;
        self
    }

    /// The steps of one call: those of a run, or the rules that it tries where the case counts them;
    /// the successors formed by a replay that looks at each configuration once; one of a step, of a
    /// match and of reasons; the words of a table's check, the nodes of a configuration's.
    pub fn steps(&self) -> u64 {
        self.steps
    }

    /// For a replay, the successors that it forms if it remembers nothing.
    pub fn all(&self) -> String {
        match (&self.routine, self.all) {
            (Routine::Replay { .. }, Some(all)) => all.to_string(),
            (Routine::Replay { .. }, None) => format!("above {COUNTED}"),
            _ => "-".to_string(),
        }
    }

    fn count_steps(&mut self) {
        self.steps = match &self.routine {
            Routine::CheckTable => self.table.len() as u64,
            Routine::CheckConfiguration => self.configuration.len() as u64 / 2,
            Routine::Step | Routine::Match { .. } | Routine::Reasons { .. } => 1,
            Routine::Run { .. } => 0,
            Routine::Replay { log, .. } => {
                let table = Table::read(&self.table).expect("a good table");
                let (initial, _) = Term::read(&self.configuration, self.limit).expect("a term");
                let all = search(&table, &initial, log, self.limit, COUNTED);
                self.all = all.map(|met| met.successors as u64);
                let met = search_once(&table, &initial, log, self.limit, usize::MAX);
                met.expect("it ends").successors as u64
            }
        };
        if let Routine::Run { .. } = self.routine {
            self.steps = self.perform(&Tuned);
        }
    }

    /// Performs the case once, and gives the steps of a run.
    pub fn perform(&mut self, engine: &dyn Routines) -> u64 {
        match &self.routine {
            Routine::CheckTable => {
                assert_eq!(engine.check_table(&self.table), Check::Good);
            }
            Routine::CheckConfiguration => {
                let answer = engine.check_configuration(&self.configuration);
                assert_eq!(answer, Check::Good);
            }
            Routine::Step => {
                let answer = engine.step(&self.table, &self.configuration, &mut self.out);
                assert!(matches!(answer, Step::Stepped { .. }));
            }
            Routine::Match { compared } => {
                let answer = engine.match_rule(&self.table, &self.configuration, 0);
                let compared = *compared;
                assert_eq!(answer, Match::Matches { compared });
            }
            Routine::Reasons { answer } => {
                let given = engine.reasons(&self.table, &self.configuration, &mut self.list);
                assert_eq!(given, *answer);
            }
            Routine::Run { budget } => {
                let budget = *budget;
                return self.run(engine, budget);
            }
            Routine::Replay { log, answer } => {
                let given = engine.replay(
                    &self.table,
                    &self.configuration,
                    log,
                    self.limit as u64,
                    &mut self.out,
                    &mut self.choices,
                    &mut self.work,
                );
                assert_eq!(given, *answer);
            }
        }
        self.steps
    }

    /// Performs the run, and gives its steps.
    fn run(&mut self, engine: &dyn Routines, budget: u64) -> u64 {
        let answer = engine.run(
            &self.table,
            &self.configuration,
            budget,
            self.limit as u64,
            &mut self.out,
            &mut self.spare,
        );
        steps_of(answer)
    }

    /// The last configuration of the last run.
    fn out(&self) -> &[i64] {
        &self.out
    }
}

fn steps_of(answer: Run) -> u64 {
    match answer {
        Run::Stuck { steps } | Run::Spent { steps } => steps,
        other => panic!("{other:?}"),
    }
}

/// All cases.
pub fn all() -> Vec<Case> {
    let mut cases = runs();
    cases.extend(reels());
    cases.extend(carried());
    cases.extend(meters());
    cases.extend(replays());
    cases.extend(single());
    cases.extend(reasons());
    cases.extend(nests());
    cases
}

fn runs() -> Vec<Case> {
    let run = |name: &str, rules: &[RuleWords], configuration, budget, limit| {
        Case::new(name, rules, configuration, limit, Routine::Run { budget })
    };
    let million = 1_000_000;
    let fib = run(
        "unary Fibonacci of 15",
        &rules::unary_fib(),
        rules::fib_of(15),
        million,
        4_000,
    );
    assert_eq!(rules::number_of(fib.out()), 610);
    let fact = run(
        "unary factorial of 6",
        &rules::unary_fact(),
        rules::fact_of(6),
        million,
        4_000,
    );
    assert_eq!(rules::number_of(fact.out()), 720);
    vec![
        run(
            "two counters",
            &rules::two_counters(),
            rules::counters(million as i64, 0),
            million,
            3,
        ),
        run(
            "a share a step",
            &rules::shares(),
            rules::counters(million as i64, 0),
            million,
            3,
        ),
        fib,
        fact,
        run(
            "200 rules",
            &rules::two_hundred(),
            rules::at(0, int(5)),
            100_000,
            8,
        ),
        run(
            "200 rules with conditions",
            &rules::two_hundred_guarded(),
            symbol(0, &[int(0), int(5)]),
            100_000,
            8,
        ),
    ]
}

/// Runs over a wide sheet: 200 rules that disagree at one node, then one that applies.
fn reels() -> Vec<Case> {
    let case = |(name, place)| {
        let rules = rules::reels(place);
        Case::new(
            &format!("200 reel rules that disagree at the {name} node, a rule tried"),
            &rules,
            rules::window(),
            57,
            Routine::Run { budget: 1_000 },
        )
        .in_rules_tried(rules.len())
    };
    [("first", 0), ("middle", 28), ("last", 56)]
        .map(case)
        .into()
}

/// Large configurations of which little changes.
fn carried() -> Vec<Case> {
    let mut cases = Vec::new();
    for (shape, load) in [("bush", bush(30_000)), ("chain", chain(30_000, 7))] {
        for (place, first) in [("behind", false), ("in front", true)] {
            let counter = int(300);
            let children = if first {
                [load.clone(), counter]
            } else {
                [counter, load.clone()]
            };
            cases.push(Case::new(
                &format!("{shape} of 30,000 nodes carried {place}"),
                &rules::carry(first),
                symbol(0, &children),
                30_010,
                Routine::Run { budget: 1_000 },
            ));
        }
    }
    cases
}

/// Runs with dictionaries.
fn meters() -> Vec<Case> {
    let million = 1_000_000;
    let run = |name: &str, rules: &[RuleWords], configuration| {
        let routine = Routine::Run { budget: million };
        Case::new(name, rules, configuration, 140, routine)
    };
    vec![
        run(
            "a meter of 64 entries updated",
            &rules::updated_meters(),
            rules::cabinet(rules::meters(0), int(0)),
        ),
        run(
            "a meter looked up in a condition",
            &rules::looked_up_meter(),
            rules::cabinet(rules::meters(million as i64), int(0)),
        ),
    ]
}

/// The check of the deepest nest of dictionaries, beside the same nodes without them.
fn nests() -> Vec<Case> {
    let check = |name: &str, configuration: Words| {
        let routine = Routine::CheckConfiguration;
        Case::new(name, &spin_rules(), configuration, 1, routine)
    };
    vec![
        check("check of 8,000 nested dictionaries, a node", nest(8_000)),
        check(
            "check of as many nodes without dictionaries, a node",
            nest_of_symbols(8_000),
        ),
    ]
}

fn replays() -> Vec<Case> {
    let replay = |name: &str, rules: &[RuleWords], configuration, limit, log, answer| {
        let routine = Routine::Replay { log, answer };
        Case::new(name, rules, configuration, limit, routine)
    };
    // A log that ends in an action which nothing carries.
    let failing = |name: &str, rules: &[RuleWords], configuration, limit, actions: usize| {
        let log = [vec![10; actions - 1], vec![20]].concat();
        let name = format!("replay: {name}");
        replay(
            &name,
            rules,
            configuration,
            limit,
            log,
            Replay::NotReproduced,
        )
    };
    let one = |number| symbol(1, &[int(number)]);
    let spins = [vec![10; 2], vec![20]].concat();
    vec![
        replay(
            "replay of 4,096 actions, none shared",
            &rules::two_counters(),
            rules::counters(5_000, 0),
            3,
            vec![1; 4_096],
            Replay::Reproduced,
        ),
        replay(
            "replay of 1,000 nested bonus rounds and back, none shared",
            &rules::bonus(),
            int(1),
            2_001,
            [vec![10; 1_000], vec![20; 1_000]].concat(),
            Replay::Reproduced,
        ),
        replay(
            "replay of 3,000 actions, shared",
            &spin_rules(),
            symbol(1, &[int(2_000)]),
            4,
            spins.repeat(1_000),
            Replay::Reproduced,
        ),
        failing("diamond of 17 actions", &rules::doubled(), one(0), 2, 17),
        failing("diamond of 200 actions", &rules::doubled(), one(0), 2, 200),
        failing(
            "diamond of 200 actions, N 100",
            &rules::doubled(),
            one(0),
            100,
            200,
        ),
        failing(
            "diamond of 4,096 actions",
            &rules::doubled(),
            one(0),
            2,
            4_096,
        ),
        failing("fork of 17 actions, N 2", &rules::forks(), one(1), 2, 17),
        failing(
            "fork of 17 actions, N 100",
            &rules::forks(),
            one(1),
            100,
            17,
        ),
        failing(
            "three counters, 12 actions, N 4",
            &rules::lattice(),
            symbol(1, &vec![int(0); 3]),
            4,
            12,
        ),
        failing(
            "three counters, 12 actions, N 100",
            &rules::lattice(),
            symbol(1, &vec![int(0); 3]),
            100,
            12,
        ),
        failing(
            "three counters, 30 actions, N 500",
            &rules::lattice(),
            symbol(1, &vec![int(0); 3]),
            500,
            30,
        ),
    ]
}

/// Single calls, which check their input each time.
fn single() -> Vec<Case> {
    let step = |name: &str, rules: &[RuleWords], configuration, limit| {
        Case::new(name, rules, configuration, limit, Routine::Step)
    };
    vec![
        step(
            "one step, checks included",
            &spin_rules(),
            symbol(1, &[int(2)]),
            4,
        ),
        step(
            "one step, checks included, 200 rules",
            &rules::two_hundred(),
            rules::at(199, int(5)),
            8,
        ),
        step(
            "one step, checks included, 30,000 nodes",
            &rules::carry(false),
            symbol(0, &[int(5), bush(30_000)]),
            30_010,
        ),
        Case::new(
            "match of a left of 57 nodes, checks included",
            &[RuleWords::new(1, rules::window(), int(0))],
            rules::window(),
            57,
            Routine::Match { compared: 57 },
        ),
        Case::new(
            "check of a table of 200 rules, a word",
            &rules::two_hundred_guarded(),
            int(0),
            1,
            Routine::CheckTable,
        ),
    ]
}

/// Reasons over 200 rules: of a configuration that no rule applies to, for its root and for their
/// conditions, or for the last node of their lefts; and of one that the last rule applies to.
fn reasons() -> Vec<Case> {
    let case = |name: &str, rules: &[RuleWords], configuration, answer| {
        let routine = Routine::Reasons { answer };
        Case::new(name, rules, configuration, 1, routine)
    };
    let reels = rules::reels(56);
    vec![
        case(
            "reasons of a stuck configuration, 200 rules, checks included",
            &rules::two_hundred_failing(),
            symbol(7, &[int(0), int(5)]),
            Reasons::Listed,
        ),
        case(
            "reasons of a stuck configuration, 200 reel rules that disagree at the last node, checks included",
            &reels[..200],
            rules::window(),
            Reasons::Listed,
        ),
        case(
            "reasons where the last of 200 rules applies, checks included",
            &rules::two_hundred_guarded(),
            symbol(7, &[int(0), int(5)]),
            Reasons::NotStuck { rule: 199 },
        ),
    ]
}
