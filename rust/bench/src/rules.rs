//! The tables of the cases.

use agree::words::{
    LOOKUP, RuleWords, UPDATE, Words, call, dictionary, int, symbol, truth, variable,
};

const X: i64 = 0;
const Y: i64 = 1;
const REST: i64 = 2;

fn x() -> Words {
    variable(X)
}

fn y() -> Words {
    variable(Y)
}

/// `state[M, N]` to `state[M - 1, N + M]` if `0 < M`.
pub fn two_counters() -> Vec<RuleWords> {
    let state = |one, two| symbol(0, &[one, two]);
    let rule = RuleWords::new(
        1,
        state(x(), y()),
        state(call(9, &[x(), int(1)]), call(8, &[y(), x()])),
    );
    vec![rule.when(call(12, &[int(0), x()]), truth(true))]
}

/// `state[M, N]` of whole numbers.
pub fn counters(one: i64, two: i64) -> Words {
    symbol(0, &[int(one), int(two)])
}

/// `state[M, N]` to `state[M - 1, z.share(M, 1103, 10007)]` if `0 < M`.
pub fn shares() -> Vec<RuleWords> {
    let state = |one, two| symbol(0, &[one, two]);
    let share = call(14, &[x(), int(1_103), int(10_007)]);
    let rule = RuleWords::new(1, state(x(), y()), state(call(9, &[x(), int(1)]), share));
    vec![rule.when(call(12, &[int(0), x()]), truth(true))]
}

/// `cabinet[D, K]` to `cabinet[map.update(D, K, map.lookup(D, K) + 1), K]`, and a key further each
/// time: `K` goes through the keys `0` to `63` and back to `0`.
pub fn updated_meters() -> Vec<RuleWords> {
    let meter = call(LOOKUP, &[x(), y()]);
    let updated = call(UPDATE, &[x(), y(), call(8, &[meter, int(1)])]);
    let next = call(8, &[y(), int(1)]);
    let further = RuleWords::new(1, cabinet(x(), y()), cabinet(updated.clone(), next));
    vec![
        further.when(call(12, &[y(), int(63)]), truth(true)),
        RuleWords::new(1, cabinet(x(), y()), cabinet(updated, int(0))),
    ]
}

/// `cabinet[D, K]` to `cabinet[D, K + 1]` if the meter 32 is at least `K`.
pub fn looked_up_meter() -> Vec<RuleWords> {
    let meter = call(LOOKUP, &[x(), int(32)]);
    let next = call(8, &[y(), int(1)]);
    let rule = RuleWords::new(1, cabinet(x(), y()), cabinet(x(), next));
    vec![rule.when(call(11, &[y(), meter]), truth(true))]
}

/// Meters beside a number.
pub fn cabinet(meters: Words, number: Words) -> Words {
    symbol(0, &[meters, number])
}

/// 64 meters, of keys 0 to 63, that all stand at the same number.
pub fn meters(number: i64) -> Words {
    let entries: Vec<(i64, Words)> = (0..64).map(|key| (key, int(number))).collect();
    dictionary(&entries)
}

// A small machine for unary numbers: c[cseq[work, rest]], where what is worked on stands in front
// and holders wait in the rest until it is a number.

const C: i64 = 10;
const CSEQ: i64 = 11;
const EMPTY: i64 = 12;
const ZERO: i64 = 13;
const SUCC: i64 = 14;
const PLUS: i64 = 15;
const TIMES: i64 = 16;
const FIB: i64 = 17;
const FACT: i64 = 18;
/// Waits for the first number of a sum, and holds what gives the second.
const PLUS_FIRST: i64 = 19;
/// Waits for the second number of a sum, and holds the first.
const PLUS_SECOND: i64 = 20;
/// Waits for the second number of a product, and holds the first.
const TIMES_SECOND: i64 = 21;

fn zero() -> Words {
    symbol(ZERO, &[])
}

fn succ(term: Words) -> Words {
    symbol(SUCC, &[term])
}

fn cseq(front: Words, rest: Words) -> Words {
    symbol(CSEQ, &[front, rest])
}

fn rest() -> Words {
    variable(REST)
}

/// A rule on what stands in front.
fn front(left: Words, right: Words) -> RuleWords {
    let whole = |term| symbol(C, &[cseq(term, rest())]);
    RuleWords::new(1, whole(left), whole(right))
}

/// A rule on what stands in front and in the rest.
fn sequence(left: Words, right: Words) -> RuleWords {
    RuleWords::new(1, symbol(C, &[left]), symbol(C, &[right]))
}

/// The rule with the condition that X is a unary number.
fn if_number(rule: RuleWords) -> RuleWords {
    let is = |term| call(13, &[x(), term]);
    let either = call(4, &[is(zero()), is(succ(zero()))]);
    rule.when(either, truth(true))
}

/// Sums in as many steps as the first number has, and the holders for them.
fn sums() -> Vec<RuleWords> {
    let first = |term| symbol(PLUS_FIRST, &[term]);
    let second = |term| symbol(PLUS_SECOND, &[term]);
    let plus = |one, two| symbol(PLUS, &[one, two]);
    vec![
        front(plus(zero(), y()), y()),
        front(plus(succ(x()), y()), plus(x(), succ(y()))),
        if_number(sequence(
            cseq(x(), cseq(first(y()), rest())),
            cseq(y(), cseq(second(x()), rest())),
        )),
        if_number(sequence(
            cseq(x(), cseq(second(y()), rest())),
            cseq(plus(y(), x()), rest()),
        )),
    ]
}

/// Fibonacci numbers, naively: `fib[n + 2]` is `fib[n + 1]` plus `fib[n]`.
pub fn unary_fib() -> Vec<RuleWords> {
    let fib = |term| symbol(FIB, &[term]);
    let first = |term| symbol(PLUS_FIRST, &[term]);
    let mut rules = vec![
        front(fib(zero()), zero()),
        front(fib(succ(zero())), succ(zero())),
        sequence(
            cseq(fib(succ(succ(x()))), rest()),
            cseq(fib(succ(x())), cseq(first(fib(x())), rest())),
        ),
    ];
    rules.extend(sums());
    rules
}

/// Factorials, by repeated sums.
pub fn unary_fact() -> Vec<RuleWords> {
    let fact = |term| symbol(FACT, &[term]);
    let times = |one, two| symbol(TIMES, &[one, two]);
    let times_second = |term| symbol(TIMES_SECOND, &[term]);
    let plus_second = |term| symbol(PLUS_SECOND, &[term]);
    let mut rules = vec![
        front(fact(zero()), succ(zero())),
        sequence(
            cseq(fact(succ(x())), rest()),
            cseq(fact(x()), cseq(times_second(succ(x())), rest())),
        ),
        if_number(sequence(
            cseq(x(), cseq(times_second(y()), rest())),
            cseq(times(y(), x()), rest()),
        )),
        front(times(zero(), y()), zero()),
        sequence(
            cseq(times(succ(x()), y()), rest()),
            cseq(times(x(), y()), cseq(plus_second(y()), rest())),
        ),
    ];
    rules.extend(sums());
    rules
}

fn unary(number: usize) -> Words {
    (0..number).fold(zero(), |term, _| succ(term))
}

/// `fib[n]` to be worked out.
pub fn fib_of(number: usize) -> Words {
    start(symbol(FIB, &[unary(number)]))
}

/// `fact[n]` to be worked out.
pub fn fact_of(number: usize) -> Words {
    start(symbol(FACT, &[unary(number)]))
}

fn start(front: Words) -> Words {
    symbol(C, &[cseq(front, symbol(EMPTY, &[]))])
}

/// The number that a machine at its end holds.
pub fn number_of(configuration: &[i64]) -> usize {
    configuration
        .chunks(2)
        .filter(|node| *node == [9, SUCC])
        .count()
}

/// 200 rules for a dozen symbols, 17 for each: every rule goes from one symbol and number to
/// another, and they go round through all.
pub fn two_hundred() -> Vec<RuleWords> {
    (0..200)
        .map(|place| RuleWords::new(1, at(place, x()), at((21 * place + 7) % 200, x())))
        .collect()
}

/// A place of [`two_hundred`].
pub fn at(place: i64, load: Words) -> Words {
    symbol(place / 17, &[int(place % 17), load])
}

/// 200 rules with conditions, of which the last that has the symbol applies.
pub fn two_hundred_guarded() -> Vec<RuleWords> {
    guarded(188)
}

/// The same rules with conditions that all fail.
pub fn two_hundred_failing() -> Vec<RuleWords> {
    guarded(200)
}

/// 200 rules with conditions, which fail for so many of the first.
fn guarded(failing: i64) -> Vec<RuleWords> {
    (0..200)
        .map(|place| {
            let (here, there) = (place % 12, (place + 1) % 12);
            let rule = RuleWords::new(
                1,
                symbol(here, &[x(), y()]),
                symbol(there, &[call(8, &[x(), int(1)]), y()]),
            );
            let bound = if place < failing { -1 } else { i64::MAX };
            rule.when(call(12, &[x(), int(bound)]), truth(true))
        })
        .collect()
}

const WINDOW: i64 = 30;
const REEL: i64 = 31;

/// A window of seven reels with seven symbols each: 57 nodes.
pub fn window() -> Words {
    let reel = |reel: i64| {
        let symbols: Vec<Words> = (0..7)
            .map(|row| symbol((3 * reel + row) % 9, &[]))
            .collect();
        symbol(REEL, &symbols)
    };
    let reels: Vec<Words> = (0..7).map(reel).collect();
    symbol(WINDOW, &reels)
}

/// 200 rules whose lefts are the window with another symbol at the node of this number, counted
/// from 0, and behind them one that goes from any term to itself.
pub fn reels(place: usize) -> Vec<RuleWords> {
    let differing = |number: i64| {
        let mut left = window();
        left[2 * place + 1] = 100 + number;
        RuleWords::new(1, left, int(0))
    };
    let mut rules: Vec<RuleWords> = (0..200).map(differing).collect();
    rules.push(RuleWords::new(1, x(), x()));
    rules
}

/// Counts down beside a load that is carried along, in front of it or behind it.
pub fn carry(load_first: bool) -> Vec<RuleWords> {
    let next = call(9, &[x(), int(1)]);
    let rule = if load_first {
        RuleWords::new(1, symbol(0, &[y(), x()]), symbol(0, &[y(), next]))
    } else {
        RuleWords::new(1, symbol(0, &[x(), y()]), symbol(0, &[next, y()]))
    };
    vec![rule.when(call(12, &[int(0), x()]), truth(true))]
}

/// Into a bonus round and out of it, by an action each.
pub fn bonus() -> Vec<RuleWords> {
    let bonus = |term| symbol(2, &[int(0), term]);
    vec![
        RuleWords::new(10, x(), bonus(x())),
        RuleWords::new(20, symbol(2, &[y(), x()]), x()),
    ]
}

/// Two rules with one action and the same successor, and a third that asks for what never comes.
pub fn doubled() -> Vec<RuleWords> {
    let count = |term| symbol(1, &[term]);
    let tick = RuleWords::new(10, count(x()), count(call(8, &[x(), int(1)])));
    vec![
        tick.clone(),
        tick,
        RuleWords::new(20, count(int(-1)), int(0)),
    ]
}

/// `x` to `2x` and `2x + 1` by one action, and a rule that asks for what never comes: no
/// configuration is met twice.
pub fn forks() -> Vec<RuleWords> {
    let count = |term| symbol(1, &[term]);
    let twice = call(8, &[x(), x()]);
    let more = call(8, &[twice.clone(), int(1)]);
    vec![
        RuleWords::new(10, count(x()), count(twice)),
        RuleWords::new(10, count(x()), count(more)),
        RuleWords::new(20, count(int(-1)), int(0)),
    ]
}

/// Three counters and a rule for each, all with one action: paths that take the same steps in
/// another order meet, after two steps and after three. A fourth asks for what never comes.
pub fn lattice() -> Vec<RuleWords> {
    let z = || variable(2);
    let at = |one, two, three| symbol(1, &[one, two, three]);
    let next = |term| call(8, &[term, int(1)]);
    vec![
        RuleWords::new(10, at(x(), y(), z()), at(next(x()), y(), z())),
        RuleWords::new(10, at(x(), y(), z()), at(x(), next(y()), z())),
        RuleWords::new(10, at(x(), y(), z()), at(x(), y(), next(z()))),
        RuleWords::new(20, int(-1), int(0)),
    ]
}
