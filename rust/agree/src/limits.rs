//! Calls at every limit of the scope paper and one beyond: the same list each time.

mod reasons;

use crate::call::{Buffer, Call};
use crate::words::{
    ARITIES, EMPTY, LOOKUP, RuleWords, UPDATE, Words, bush, call, chain, dictionary, error, int,
    nest, spin_rules, symbol, table, truth, variable,
};

/// What the buffers held before.
const FILL: u64 = 0x1234_5677;

fn buffer(len: usize) -> Buffer {
    Buffer { len, fill: FILL }
}

/// All these calls.
pub fn calls() -> Vec<Call> {
    let tables = [
        rule_counts(),
        heads(),
        nodes_of_rules(),
        sizes_of_terms(),
        sizes_of_tables(),
        forms(),
        dictionaries_of_rules(),
        places_of_updates(),
        parts_of(&table(&spin_rules())),
        changes_of(&table(&spin_rules())),
        parts_of(&table(&meter_rules())),
        changes_of(&table(&meter_rules())),
    ];
    let sample = symbol(2, &[truth(true), symbol(1, &[int(5)])]);
    let meters = symbol(2, &[two_meters(), int(5)]);
    let configurations = [
        nodes_of_configurations(),
        sizes_of_configurations(),
        dictionaries(),
        parts_of(&sample),
        changes_of(&sample),
        parts_of(&meters),
        changes_of(&meters),
    ];
    let mut calls = Vec::new();
    for table in tables.concat() {
        calls.extend(calls_with_table(table));
    }
    for configuration in configurations.concat() {
        calls.extend(calls_with_configuration(configuration));
    }
    calls.extend(outs_of_steps());
    calls.extend(steps_with_meters());
    calls.extend(lookups_in_both());
    calls.extend(matches_of_nodes());
    calls.extend(matches_of_wide_lefts());
    calls.extend(matches_by_number());
    calls.extend(reasons::calls());
    calls.extend(runs());
    calls.extend(replays());
    calls.extend(refusals_together());
    calls
}

/// A rule from any term to itself.
fn any_rule() -> RuleWords {
    RuleWords::new(1, variable(0), variable(0))
}

/// A table that applies to what the other calls use.
fn good_table() -> Words {
    table(&[any_rule()])
}

fn calls_with_table(table: Words) -> [Call; 5] {
    let configuration = symbol(1, &[int(2)]);
    [
        Call::CheckTable {
            table: table.clone(),
        },
        Call::Step {
            table: table.clone(),
            configuration: configuration.clone(),
            out: buffer(40),
        },
        Call::Reasons {
            table: table.clone(),
            configuration: configuration.clone(),
            list: buffer(20),
        },
        Call::Run {
            table: table.clone(),
            configuration: configuration.clone(),
            budget: 3,
            limit: 20,
            out: buffer(41),
            spare: buffer(42),
        },
        Call::Replay {
            table,
            configuration,
            log: vec![10, 20],
            limit: 20,
            out: buffer(41),
            choices: buffer(3),
            work: buffer(130),
        },
    ]
}

fn calls_with_configuration(configuration: Words) -> [Call; 5] {
    let limit = 32_768.min(configuration.len() as u64 / 2 + 1);
    let words = 2 * limit as usize;
    [
        Call::CheckConfiguration {
            configuration: configuration.clone(),
        },
        Call::Step {
            table: good_table(),
            configuration: configuration.clone(),
            out: buffer(words),
        },
        Call::Reasons {
            table: table(&spin_rules()[..1]),
            configuration: configuration.clone(),
            list: buffer(3),
        },
        Call::Run {
            table: good_table(),
            configuration: configuration.clone(),
            budget: 2,
            limit,
            out: buffer(words),
            spare: buffer(words),
        },
        Call::Replay {
            table: good_table(),
            configuration,
            log: vec![1],
            limit,
            out: buffer(words),
            choices: buffer(1),
            work: buffer(2 * (words + 2)),
        },
    ]
}

/// Rule counts, and counts that are not those of the rules.
fn rule_counts() -> Vec<Words> {
    let mut tables = vec![vec![], vec![0, 0], vec![0, 0, 0], vec![-1], vec![i64::MIN]];
    for count in [0, 1, 2, 255, 256, 257] {
        let mut words = table(&vec![any_rule(); count]);
        tables.push(words.clone());
        for said in [-1, 1, 1 << 32] {
            words[0] = count as i64 + said;
            tables.push(words.clone());
        }
    }
    tables
}

/// Actions and condition counts.
fn heads() -> Vec<Words> {
    let mut tables = Vec::new();
    for action in [-1, 0, 1, 65_535, 65_536, i64::MAX, i64::MIN] {
        tables.push(table(&[RuleWords {
            action,
            ..any_rule()
        }]));
    }
    for count in [0, 1, 7, 8, 9] {
        let mut rule = any_rule();
        rule.conditions = vec![[variable(0), variable(0)]; count];
        tables.push(table(&[rule]));
    }
    for said in [-1, i64::MIN, 1 << 32, 1] {
        let mut words = good_table();
        words[2] = said;
        tables.push(words);
    }
    tables
}

/// Nodes with every tag and datum at a limit, with as many children as they should have.
fn edge_nodes(child: &Words) -> Vec<Words> {
    const TAGS: [i64; 24] = [
        -1,
        0,
        1,
        2,
        3,
        4,
        5,
        6,
        7,
        8,
        9,
        10,
        11,
        12,
        13,
        14,
        15,
        16,
        17,
        i64::MAX,
        i64::MIN,
        1 << 32,
        8 | 1 << 32,
        256 + 2,
    ];
    const DATA: [i64; 22] = [
        -1,
        0,
        1,
        2,
        3,
        13,
        14,
        15,
        16,
        17,
        18,
        63,
        64,
        65,
        4_095,
        4_096,
        65_536,
        i64::MAX,
        i64::MIN,
        1 << 32,
        1 | 1 << 32,
        -4_096,
    ];
    let mut nodes = Vec::new();
    for tag in TAGS {
        for datum in DATA {
            let children = match tag {
                4 => child.repeat(ARITIES.get(datum as usize).copied().unwrap_or(0)),
                5 if (0..=65).contains(&datum) => map_of(datum, child)[2..].to_vec(),
                8..=15 => child.repeat((tag - 8) as usize),
                _ => Words::new(),
            };
            nodes.push([&[tag, datum], children.as_slice()].concat());
        }
    }
    nodes
}

/// A dictionary of so many entries with the same value, its keys 0, 2, 4 and so on.
fn map_of(count: i64, value: &Words) -> Words {
    let entries: Vec<(i64, Words)> = (0..count).map(|key| (2 * key, value.clone())).collect();
    dictionary(&entries)
}

/// A dictionary of so many nodes: values of one node, and the first has the rest.
fn map_of_nodes(nodes: usize) -> Words {
    let first = chain(nodes - 4, 2);
    dictionary(&[(-1, first), (1, int(1))])
}

/// Dictionaries with each count, and each fault: in the count, in a key, in what is below.
fn dictionaries() -> Vec<Words> {
    let one = || int(1);
    let (min, max) = (i64::MIN, i64::MAX);
    let mut all: Vec<Words> = [0, 1, 2, 63, 64, 65]
        .iter()
        .map(|&count| map_of(count, &one()))
        .collect();
    for count in [0, 1, 2, 63, 64] {
        for said in [-1, 1, 1 << 32, i64::MIN] {
            let mut words = map_of(count, &one());
            words[1] = count.wrapping_add(said);
            all.push(words);
        }
    }
    let keys: [&[i64]; 14] = [
        &[min, max],
        &[min, min],
        &[max, max],
        &[max, min],
        &[min, -1, 0, 1, max],
        &[0, -1],
        &[-1, 0],
        &[-2, -1],
        &[-1, -2],
        &[0, 0],
        &[1, 2, 2],
        &[1, 3, 2],
        &[2, 1, 3],
        &[0, 1 << 32],
    ];
    for keys in keys {
        let entries: Vec<(i64, Words)> = keys.iter().map(|&key| (key, one())).collect();
        all.push(dictionary(&entries));
    }
    let others = [
        one(),
        error(),
        truth(true),
        variable(0),
        call(0, &[]),
        call(EMPTY, &[]),
        call(LOOKUP, &[dictionary(&[]), one()]),
        call(UPDATE, &[dictionary(&[]), one(), one()]),
        dictionary(&[]),
        dictionary(&[(1, one())]),
        dictionary(&[(1, variable(0))]),
        dictionary(&[(1, one()), (1, one())]),
        symbol(0, &[]),
        symbol(1, &[one()]),
        symbol(1, &[variable(0)]),
        symbol(1, &[call(EMPTY, &[])]),
    ];
    for other in others {
        // As a key, first and last; as a value, first and last.
        all.push([&[5, 1], &other[..], &[2, 1]].concat());
        all.push([&[5, 2, 2, 0, 2, 1], &other[..], &[2, 1]].concat());
        all.push(dictionary(&[(0, other.clone()), (1, one())]));
        all.push(dictionary(&[(0, one()), (1, other)]));
    }
    // Each of these inside another one.
    let inside: Vec<Words> = all
        .iter()
        .map(|words| dictionary(&[(0, words.clone()), (1, one())]))
        .collect();
    all.extend(inside);
    all
}

/// Each such dictionary as a left and in one, as a right and in one, as an argument, and on both
/// sides of a condition.
fn dictionaries_of_rules() -> Vec<Words> {
    let x = || variable(0);
    let mut tables = Vec::new();
    for words in dictionaries() {
        let mut rules = vec![
            RuleWords::new(0, words.clone(), int(1)),
            RuleWords::new(0, symbol(1, &[x(), words.clone()]), x()),
            RuleWords::new(0, symbol(1, &[x()]), symbol(1, &[words.clone(), x()])),
            any_rule().when(words.clone(), x()),
            any_rule().when(x(), words.clone()),
        ];
        rules.extend(
            [
                words.clone(),
                call(LOOKUP, &[words.clone(), x()]),
                call(LOOKUP, &[words.clone(), int(0)]),
                call(UPDATE, &[words.clone(), int(0), x()]),
                call(UPDATE, &[x(), int(0), words]),
            ]
            .map(|right| RuleWords::new(0, x(), right)),
        );
        tables.extend(rules.into_iter().map(|rule| table(&[rule])));
    }
    tables
}

/// Updates and lookups in every place of a rule.
fn places_of_updates() -> Vec<Words> {
    let x = || variable(0);
    let f = |child| symbol(1, &[child]);
    let update = || call(UPDATE, &[x(), int(1), int(2)]);
    let lookup = || call(LOOKUP, &[x(), int(1)]);
    let mut terms = vec![
        call(EMPTY, &[]),
        update(),
        lookup(),
        f(update()),
        f(f(update())),
        symbol(1, &[update(), lookup(), update()]),
        call(UPDATE, &[call(EMPTY, &[]), lookup(), f(int(1))]),
        call(UPDATE, &[x(), int(1), f(x())]),
        call(UPDATE, &[f(x()), int(1), x()]),
        call(LOOKUP, &[f(x()), int(1)]),
        call(LOOKUP, &[variable(1), int(1)]),
        call(UPDATE, &[variable(1), int(1), int(1)]),
        call(7, &[f(update())]),
        dictionary(&[(1, update())]),
        dictionary(&[(1, lookup())]),
    ];
    // Each under each function, as each argument.
    for (code, &arity) in ARITIES.iter().enumerate() {
        for place in 0..arity {
            for inner in [update(), lookup(), call(EMPTY, &[]), call(7, &[update()])] {
                let mut arguments = vec![x(); arity];
                arguments[place] = inner;
                let outer = call(code as i64, &arguments);
                terms.push(f(outer.clone()));
                terms.push(outer);
            }
        }
    }
    let mut tables = Vec::new();
    for term in terms {
        tables.push(table(&[RuleWords::new(0, term.clone(), int(1))]));
        tables.push(table(&[RuleWords::new(0, f(term.clone()), int(1))]));
        tables.push(table(&[RuleWords::new(0, f(x()), term.clone())]));
        tables.push(table(&[any_rule().when(term.clone(), int(1))]));
        tables.push(table(&[any_rule().when(int(1), term)]));
    }
    tables
}

/// A rule that adds to a meter, and one that looks at another.
fn meter_rules() -> Vec<RuleWords> {
    let x = || variable(0);
    let game = |meters| symbol(1, &[meters, variable(1)]);
    let at = |key| call(LOOKUP, &[x(), int(key)]);
    let more = call(UPDATE, &[x(), int(1), call(8, &[at(1), variable(1)])]);
    let reset = RuleWords::new(20, game(x()), game(two_meters()));
    vec![
        RuleWords::new(10, game(x()), game(more)),
        reset.when(call(11, &[at(3), int(7)]), truth(true)),
    ]
}

fn two_meters() -> Words {
    dictionary(&[(1, int(4)), (3, int(7))])
}

/// A step by one rule, from X in a symbol to the right.
fn step_to(right: Words, x: Words, out: usize) -> Call {
    let left = symbol(1, &[variable(0)]);
    Call::Step {
        table: table(&[RuleWords::new(0, left, right)]),
        configuration: symbol(1, &[x]),
        out: buffer(out),
    }
}

/// Lookups in a literal and in the configuration where the other has the same keys.
fn lookups_in_both() -> Vec<Call> {
    let x = || variable(0);
    let own = dictionary(&[(1, int(4)), (3, int(7)), (4, chain(5, 0))]);
    let literal = dictionary(&[(1, truth(true)), (3, symbol(1, &[int(1)])), (4, int(0))]);
    let mut calls = Vec::new();
    for key in 0..6 {
        for map in [x(), literal.clone()] {
            let found = call(LOOKUP, &[map.clone(), int(key)]);
            let updated = call(UPDATE, &[map, int(key), found.clone()]);
            for right in [found, updated] {
                calls.push(Call::Step {
                    table: table(&[RuleWords::new(0, x(), right)]),
                    configuration: own.clone(),
                    out: buffer(40),
                });
            }
        }
    }
    calls
}

/// Lookups and updates at each place of dictionaries of each size, literal and not; their
/// successors at the limit and one above.
fn steps_with_meters() -> Vec<Call> {
    let x = || variable(0);
    let mut calls = Vec::new();
    for count in [0, 1, 2, 63, 64] {
        let meters = map_of(count, &symbol(2, &[int(7)]));
        for key in [
            -1,
            0,
            1,
            2,
            3,
            62,
            63,
            64,
            124,
            125,
            126,
            127,
            128,
            i64::MIN,
            i64::MAX,
        ] {
            for map in [x(), meters.clone()] {
                if map.len() > 2 * 500 {
                    continue;
                }
                calls.push(step_to(
                    call(LOOKUP, &[map.clone(), int(key)]),
                    meters.clone(),
                    600,
                ));
                for value in [int(5), error(), dictionary(&[(1, int(1))])] {
                    let right = call(UPDATE, &[map.clone(), int(key), value]);
                    calls.push(step_to(right, meters.clone(), 800));
                }
            }
        }
        // From three words too few to two too many, for a key that is new and for one that is not.
        let nodes = meters.len() / 2;
        for key in [0, 1] {
            for out in (2 * nodes).saturating_sub(4)..2 * nodes + 12 {
                let right = call(UPDATE, &[x(), int(key), symbol(2, &[int(9)])]);
                calls.push(step_to(right.clone(), meters.clone(), out));
                calls.push(step_to(symbol(3, &[right, int(0)]), meters.clone(), out));
            }
        }
    }
    // Arguments of every kind.
    let kinds = [
        error(),
        truth(true),
        int(1),
        symbol(1, &[int(1)]),
        dictionary(&[]),
        two_meters(),
    ];
    for one in &kinds {
        for two in &kinds {
            for map in [x(), one.clone()] {
                calls.push(step_to(
                    call(LOOKUP, &[map.clone(), two.clone()]),
                    one.clone(),
                    40,
                ));
                let right = call(UPDATE, &[map, two.clone(), one.clone()]);
                calls.push(step_to(right, one.clone(), 40));
            }
        }
        for code in [6, 7] {
            calls.push(step_to(call(code, &[x()]), one.clone(), 2));
        }
        calls.push(step_to(call(13, &[x(), one.clone()]), one.clone(), 2));
    }
    // The largest configuration by an update, and one node more.
    for nodes in [32_758, 32_759, 32_760] {
        let meters = dictionary(&[(1, chain(nodes, 3)), (2, map_of(1, &int(1)))]);
        for value in [
            int(1),
            symbol(1, &[int(1)]),
            symbol(1, &[symbol(1, &[int(1)])]),
        ] {
            let right = symbol(1, &[call(UPDATE, &[x(), int(3), value])]);
            calls.push(step_to(right, meters.clone(), 65_540));
        }
    }
    calls
}

/// Each such node as a left, in a right, and on both sides of a condition.
fn nodes_of_rules() -> Vec<Words> {
    let mut tables = Vec::new();
    for node in edge_nodes(&int(1)) {
        tables.push(table(&[RuleWords::new(0, node.clone(), int(1))]));
        let right = symbol(1, std::slice::from_ref(&node));
        let left = symbol(1, &[variable(0)]);
        tables.push(table(&[RuleWords::new(0, left, right)]));
        tables.push(table(&[any_rule().when(node.clone(), variable(0))]));
        tables.push(table(&[any_rule().when(variable(0), node)]));
    }
    tables
}

fn nodes_of_configurations() -> Vec<Words> {
    edge_nodes(&symbol(0, &[]))
}

/// Calls nested so deep that the expression has so many nodes.
fn nested_calls(nodes: usize) -> Words {
    let mut words = [4, 2].repeat(nodes - 1);
    words.extend([1, 0]);
    words
}

/// Lookups nested so deep that the expression has so many nodes, or one less: a lookup has two
/// arguments.
fn nested_lookups(nodes: usize) -> Words {
    let lookups = (nodes - 1) / 2;
    [
        [4, LOOKUP].repeat(lookups),
        vec![5, 0],
        [2, 1].repeat(lookups),
    ]
    .concat()
}

/// Terms of 511, 512 and 513 nodes in each place of a rule.
fn sizes_of_terms() -> Vec<Words> {
    let mut tables = Vec::new();
    for nodes in [511, 512, 513] {
        let terms = [
            chain(nodes, 3),
            bush(nodes),
            nested_calls(nodes),
            map_of_nodes(nodes),
            nested_lookups(nodes),
        ];
        for term in terms {
            tables.push(table(&[RuleWords::new(0, term.clone(), int(1))]));
            tables.push(table(&[RuleWords::new(0, variable(0), term.clone())]));
            tables.push(table(&[any_rule().when(term.clone(), int(1))]));
            tables.push(table(&[any_rule().when(truth(true), term)]));
        }
    }
    tables
}

/// Tables around 65,536 words. All words but the first come in pairs, so a table that breaks no
/// other rule has 65,535 words or 65,537.
fn sizes_of_tables() -> Vec<Words> {
    let mut tables = Vec::new();
    for words in [65_533, 65_535, 65_537, 65_539] {
        // A rule has 2 words and 2 for each node; these have at most 512 on each side.
        let mut rules = Vec::new();
        let mut rest = words - 1;
        while rest > 0 {
            let nodes = (rest - 2).min(2_044) / 2;
            let left = nodes / 2;
            rules.push(RuleWords::new(0, chain(left, 0), bush(nodes - left)));
            rest -= 2 + 2 * nodes;
        }
        tables.push(table(&rules));
    }
    let mut even = tables[1].clone();
    even.push(0);
    tables.push(even);
    tables
}

/// What may stand where: calls in a left, variables that the left lacks, symbols below calls.
fn forms() -> Vec<Words> {
    let f = |child| symbol(1, &[child]);
    let x = || variable(0);
    let is = |argument| call(7, &[argument]);
    let terms = [
        x(),
        variable(1),
        f(x()),
        f(variable(1)),
        f(f(x())),
        is(x()),
        is(f(int(1))),
        is(f(x())),
        is(f(f(x()))),
        is(f(is(x()))),
        is(f(call(0, &[]))),
        is(is(f(x()))),
        is(is(variable(1))),
        f(is(x())),
        f(is(f(int(1)))),
        f(is(f(x()))),
        f(call(0, &[])),
        symbol(1, &[int(1), x(), is(x())]),
        call(8, &[symbol(1, &[int(1), x()]), int(1)]),
        call(8, &[symbol(1, &[int(1), int(2)]), x()]),
        call(14, &[x(), f(int(1)), f(is(x()))]),
        call(14, &[int(1), f(int(1)), is(x())]),
    ];
    let mut tables = Vec::new();
    for term in terms {
        tables.push(table(&[RuleWords::new(0, term.clone(), int(1))]));
        tables.push(table(&[RuleWords::new(0, x(), term.clone())]));
        tables.push(table(&[any_rule().when(term.clone(), x())]));
        tables.push(table(&[any_rule().when(x(), term.clone())]));
        tables.push(table(&[any_rule().when(x(), x()).when(int(1), term)]));
    }
    tables
}

/// Each first part of the words, and the words with something behind them.
fn parts_of(words: &[i64]) -> Vec<Words> {
    let mut parts: Vec<Words> = (0..=words.len()).map(|end| words[..end].to_vec()).collect();
    parts.push([words, &[0]].concat());
    parts.push([words, &[2, 0]].concat());
    parts
}

/// The words with each one changed to each number at some limit.
fn changes_of(words: &[i64]) -> Vec<Words> {
    const NUMBERS: [i64; 24] = [
        -1,
        0,
        1,
        2,
        3,
        4,
        5,
        8,
        9,
        14,
        15,
        16,
        17,
        18,
        64,
        65,
        256,
        257,
        4_095,
        4_096,
        65_535,
        65_536,
        i64::MAX,
        i64::MIN,
    ];
    let mut all = Vec::new();
    for at in 0..words.len() {
        for number in NUMBERS {
            let mut changed = words.to_vec();
            changed[at] = number;
            all.push(changed);
        }
    }
    all
}

/// Configurations of 32,767, 32,768 and 32,769 nodes.
fn sizes_of_configurations() -> Vec<Words> {
    let mut all = Vec::new();
    for nodes in [32_767, 32_768, 32_769] {
        let long = chain(nodes, 4_095);
        all.push(long[..2 * nodes - 1].to_vec());
        all.push(long[..2 * nodes - 2].to_vec());
        all.push([long.as_slice(), &[0]].concat());
        all.push(long);
        all.push(bush(nodes));
        all.push(map_of_nodes(nodes));
        // A symbol above nested dictionaries, and a few more nodes.
        let dictionaries = (nodes - 5) / 4;
        let rest = nodes - 2 - 4 * dictionaries;
        let above = [[10, 0].to_vec(), nest(dictionaries), chain(rest, 1)].concat();
        all.push(above);
    }
    all
}

/// Out slices around what a step's successor needs.
fn outs_of_steps() -> Vec<Call> {
    let mut calls = Vec::new();
    for len in 0..12 {
        for number in [-1, 0, 2] {
            calls.push(Call::Step {
                table: table(&spin_rules()),
                configuration: symbol(1, &[int(number)]),
                out: buffer(len),
            });
        }
        for rule in [0, 1, 2, 3, 255, 256, 257, 1 << 16, 1 << 32, usize::MAX] {
            calls.push(Call::StepByRule {
                table: table(&spin_rules()),
                configuration: symbol(1, &[int(2)]),
                rule,
                out: buffer(len),
            });
        }
    }
    // One node more, from 32,767 nodes and from 32,768; out slices up to longer than any successor.
    let grow = table(&[RuleWords::new(9, variable(0), symbol(1, &[variable(0)]))]);
    for nodes in [32_767, 32_768] {
        for len in [65_534, 65_535, 65_536, 65_537, 65_538, 65_600] {
            calls.push(Call::Step {
                table: grow.clone(),
                configuration: chain(nodes, 0),
                out: buffer(len),
            });
            calls.push(Call::StepByRule {
                table: grow.clone(),
                configuration: bush(nodes),
                rule: 0,
                out: buffer(len),
            });
        }
    }
    calls.push(largest_successor());
    calls
}

/// The largest successor there is: as many copies of the largest configuration as a right holds.
fn largest_successor() -> Call {
    // 72 symbols with seven children and 433 places: 505 nodes.
    let mut right = [15, 0].repeat(72);
    right.extend([3, 0].repeat(433));
    Call::Step {
        table: table(&[RuleWords::new(9, variable(0), right)]),
        configuration: chain(32_768, 0),
        out: buffer(65_536),
    }
}

/// Terms with each kind of first node.
fn sample_nodes() -> Vec<Words> {
    let one = || int(1);
    vec![
        error(),
        truth(false),
        truth(true),
        int(0),
        one(),
        int(5),
        int(i64::MIN),
        int(i64::MAX),
        dictionary(&[]),
        dictionary(&[(0, one())]),
        dictionary(&[(1, one())]),
        dictionary(&[(1, int(2))]),
        dictionary(&[(1, one()), (2, one())]),
        symbol(0, &[]),
        symbol(1, &[]),
        symbol(4_095, &[]),
        symbol(1, &[one()]),
        symbol(1, &[symbol(1, &[])]),
        symbol(2, &[one()]),
        symbol(1, &[one(), one()]),
    ]
}

/// Matches of each node with each, as a whole left and inside one.
fn matches_of_nodes() -> Vec<Call> {
    let nodes = sample_nodes();
    let inside = |node: &Words| symbol(3, &[int(7), node.clone(), int(8)]);
    let mut calls = Vec::new();
    for left in &nodes {
        for other in &nodes {
            calls.push(match_of(left.clone(), other.clone()));
            calls.push(match_of(inside(left), inside(other)));
            // A variable's later place.
            let twice = symbol(3, &[variable(0), int(7), variable(0)]);
            let both = symbol(3, &[left.clone(), int(7), other.clone()]);
            calls.push(match_of(twice, both));
        }
    }
    calls
}

/// A match of a rule with this left.
fn match_of(left: Words, configuration: Words) -> Call {
    Call::MatchRule {
        table: table(&[RuleWords::new(0, left, int(1))]),
        configuration,
        rule: 0,
    }
}

/// Matches of lefts with as many nodes as there may be, or nearly: with themselves, and with a
/// configuration in which one node has another datum, from the first to the last.
fn matches_of_wide_lefts() -> Vec<Call> {
    let mut calls = Vec::new();
    for nodes in [511, 512] {
        for left in [chain(nodes, 3), bush(nodes), map_of_nodes(nodes)] {
            calls.push(match_of(left.clone(), left.clone()));
            for place in [0, 1, 2, nodes / 2, nodes - 3, nodes - 2, nodes - 1] {
                let mut other = left.clone();
                other[2 * place + 1] += 1;
                calls.push(match_of(left.clone(), other));
            }
        }
    }
    let (left, same) = wide_variables();
    calls.push(match_of(left.clone(), same.clone()));
    for place in [72, 73, 87, 88, 300, 503, 504] {
        let mut other = same.clone();
        other[2 * place + 1] += 1;
        calls.push(match_of(left.clone(), other));
    }
    calls
}

/// A left with each variable many times, and a configuration that it matches: 72 symbols with seven
/// children and 433 places, 505 nodes.
fn wide_variables() -> (Words, Words) {
    let symbols = || [15, 0].repeat(72);
    let places = |tag: i64| (0..433).flat_map(move |place| [tag, place % 16]);
    let left = [symbols(), places(3).collect()].concat();
    let same = [symbols(), places(2).collect()].concat();
    (left, same)
}

/// Matches of rules by their numbers, and by those that no rule has.
fn matches_by_number() -> Vec<Call> {
    let rule = |number| RuleWords::new(0, symbol(1, &[int(number)]), int(0));
    let mut calls = Vec::new();
    for count in [0, 1, 3, 255, 256] {
        let rules: Vec<RuleWords> = (0..count).map(rule).collect();
        for number in [
            0,
            1,
            2,
            3,
            254,
            255,
            256,
            257,
            1 << 16,
            1 << 32,
            usize::MAX - 255,
            usize::MAX,
        ] {
            for last in [0, count - 1] {
                calls.push(Call::MatchRule {
                    table: table(&rules),
                    configuration: symbol(1, &[int(last)]),
                    rule: number,
                });
            }
        }
    }
    calls
}

/// Budgets, limits and buffers of a run.
fn runs() -> Vec<Call> {
    let run = |budget, limit, out, spare| Call::Run {
        table: table(&spin_rules()),
        configuration: symbol(1, &[int(2)]),
        budget,
        limit,
        out: buffer(out),
        spare: buffer(spare),
    };
    let mut calls = Vec::new();
    for budget in [0, 1, 2, 3, 4, 5, 6, 999_999, 1_000_000, 1_000_001, u64::MAX] {
        for limit in [2, 3, 4, 5] {
            calls.push(run(budget, limit, 10, 10));
        }
    }
    for limit in [
        0,
        1,
        2,
        32_767,
        32_768,
        32_769,
        1 << 31,
        1 << 62,
        1 << 63,
        u64::MAX,
    ] {
        for len in [0, 65_536] {
            calls.push(run(3, limit, len, len));
        }
    }
    for out in 7..10 {
        for spare in 7..10 {
            calls.push(run(3, 4, out, spare));
        }
    }
    // The whole budget, by a rule that goes on and by one that ends at the last step.
    for end in [999_999, 1_000_000, 1_000_001] {
        calls.push(Call::Run {
            table: table(&spin_rules()[..1]),
            configuration: symbol(1, &[int(end)]),
            budget: 1_000_000,
            limit: 2,
            out: buffer(4),
            spare: buffer(4),
        });
    }
    calls
}

/// Logs, limits and buffers of a replay.
fn replays() -> Vec<Call> {
    let replay = |log: &[u16], limit, out, choices, work| Call::Replay {
        table: table(&spin_rules()),
        configuration: symbol(1, &[int(2)]),
        log: log.to_vec(),
        limit,
        out: buffer(out),
        choices: buffer(choices),
        work: buffer(work),
    };
    let mut calls = Vec::new();
    let logs: [&[u16]; 11] = [
        &[],
        &[10],
        &[20],
        &[10, 20],
        &[10, 10, 20],
        &[10, 10, 10],
        &[10, 20, 10, 20, 10, 20],
        &[10, 10, 20, 20],
        &[0],
        &[65_535],
        &[10, 65_535],
    ];
    for log in logs {
        for limit in [0, 1, 2, 3, 4, 5, 32_769, 1 << 31, 1 << 62, u64::MAX] {
            calls.push(replay(log, limit, 12, 8, 120));
        }
    }
    // Limit 4: 10 words a frame, 30 for two actions.
    for out in 7..10 {
        for choices in 1..4 {
            for work in 29..32 {
                calls.push(replay(&[10, 20], 4, out, choices, work));
            }
        }
    }
    for (work, limit) in [(65_537, 32_768), (65_538, 32_768), (65_539, 32_768)] {
        calls.push(replay(&[], limit, 65_536, 0, work));
        calls.push(replay(&[], limit, 65_535, 0, work));
    }
    for length in [4_095, 4_096, 4_097, 5_000] {
        for limit in [1, 2] {
            calls.push(Call::Replay {
                table: good_table(),
                configuration: int(5),
                log: vec![1; length],
                limit,
                out: buffer(4),
                choices: buffer(length),
                work: buffer((length + 1) * 6),
            });
        }
    }
    calls
}

/// Every choice of the refusals 1 to 5 at once: the lowest is given.
fn refusals_together() -> Vec<Call> {
    let mut calls = Vec::new();
    for choice in 0..32 {
        let has = |number: u32| choice >> (number - 1) & 1 == 1;
        let table_words = if has(1) {
            vec![1]
        } else {
            table(&spin_rules())
        };
        let configuration = if has(2) {
            vec![9, 1]
        } else {
            symbol(1, &[int(2)])
        };
        let limit = if has(4) { 1 } else { 4 };
        let words = if has(5) { 1 } else { 8 };
        calls.push(Call::Step {
            table: table_words.clone(),
            configuration: configuration.clone(),
            out: buffer(words),
        });
        calls.push(Call::StepByRule {
            table: table_words.clone(),
            configuration: configuration.clone(),
            rule: if has(3) { 7 } else { 0 },
            out: buffer(words),
        });
        calls.push(Call::MatchRule {
            table: table_words.clone(),
            configuration: configuration.clone(),
            rule: if has(3) { usize::MAX } else { 0 },
        });
        calls.push(Call::Run {
            table: table_words.clone(),
            configuration: configuration.clone(),
            budget: if has(3) { 1_000_001 } else { 5 },
            limit,
            out: buffer(words),
            spare: buffer(8),
        });
        calls.push(Call::Replay {
            table: table_words,
            configuration,
            log: vec![10; if has(3) { 4_097 } else { 1 }],
            limit,
            out: buffer(8),
            choices: buffer(4_097),
            work: buffer(if has(5) { 19 } else { 4_098 * 10 }),
        });
    }
    calls
}
