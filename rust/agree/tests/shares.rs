//! `z.share` of every interpreter, held to what its value has to be: the whole number `q` with
//! `|2·(A·B − q·C)|` at most `C`, and even where that is `C`; outside the ranges, error.

use agree::engines;
use agree::rng::Rng;
use agree::words::{RuleWords, Words, call, error, int, symbol, table, variable};
use interpreter::Step;
use std::collections::BTreeMap;

const M: i64 = 2_147_483_647;

/// `shared[A, B, C]` to `z.share(A, B, C)`.
fn sheet() -> Words {
    let arguments = [variable(0), variable(1), variable(2)];
    table(&[RuleWords::new(
        1,
        symbol(0, &arguments),
        call(14, &arguments),
    )])
}

/// The words of the value, the same by every interpreter.
fn share(sheet: &[i64], a: i64, b: i64, c: i64) -> [i64; 2] {
    let configuration = symbol(0, &[int(a), int(b), int(c)]);
    let values: Vec<[i64; 2]> = engines::ALL
        .iter()
        .map(|engine| {
            let mut out = [-1; 2];
            let answer = engine.step(sheet, &configuration, &mut out);
            assert!(matches!(answer, Step::Stepped { nodes: 1, .. }));
            out
        })
        .collect();
    assert!(
        values.iter().all(|value| *value == values[0]),
        "z.share({a}, {b}, {c}): {values:?}"
    );
    values[0]
}

/// Asserts that `q` is `product` over `c` to the nearest; says the sign, how far off it is and on
/// which side.
fn kind(product: i128, c: i128, q: i128) -> String {
    let off = 2 * (product - q * c);
    assert!(off.abs() <= c, "{product} over {c} is not {q}");
    let distance = match off.abs() {
        0 => "exact",
        off if off == c => "a half",
        _ => "less than a half",
    };
    assert!(
        distance != "a half" || q % 2 == 0,
        "{product} over {c}, an exact half, is not {q}"
    );
    let sign = match product.signum() {
        0 => "zero",
        1 => "above zero",
        _ => "below zero",
    };
    let side = match (q * c).abs().cmp(&product.abs()) {
        std::cmp::Ordering::Less => "toward zero",
        std::cmp::Ordering::Equal => "",
        std::cmp::Ordering::Greater => "away from zero",
    };
    format!("{sign}, {distance} {side}")
}

/// How often each kind came up.
#[derive(Default)]
struct Kinds(BTreeMap<String, usize>);

impl Kinds {
    fn add(&mut self, sheet: &[i64], [a, b, c]: [i64; 3]) {
        let value = share(sheet, a, b, c);
        let in_range = a.unsigned_abs() <= M as u64 && b.unsigned_abs() <= M as u64;
        let kind = if in_range && (1..=M).contains(&c) {
            assert_eq!(value[0], 2, "z.share({a}, {b}, {c})");
            kind(a as i128 * b as i128, c as i128, value[1] as i128)
        } else {
            assert_eq!(value[..], error(), "z.share({a}, {b}, {c})");
            "error".to_string()
        };
        *self.0.entry(kind).or_default() += 1;
    }

    fn assert_all(&self, least: usize) {
        println!("{:#?}", self.0);
        assert_eq!(self.0.len(), 12);
        for (kind, count) in &self.0 {
            assert!(*count >= least, "{kind}: {count}");
        }
    }
}

#[test]
fn at_every_edge() {
    const H: i64 = M / 2;
    const AMOUNTS: [i64; 20] = [
        0,
        1,
        2,
        3,
        5,
        7,
        9,
        50,
        150,
        250,
        46_340,
        46_341,
        65_537,
        H,
        H + 1,
        M - 3,
        M - 2,
        M - 1,
        M,
        M + 1,
    ];
    const DIVISORS: [i64; 22] = [
        1,
        2,
        3,
        4,
        5,
        6,
        7,
        8,
        100,
        101,
        65_536,
        H,
        H + 1,
        M - 2,
        M - 1,
        M,
        M + 1,
        0,
        -1,
        -2,
        i64::MAX,
        i64::MIN,
    ];
    let negative = AMOUNTS.iter().map(|amount| -amount);
    let factors: Vec<i64> = AMOUNTS.iter().copied().chain(negative).collect();
    let sheet = sheet();
    let mut kinds = Kinds::default();
    for &a in factors.iter().chain(&[i64::MAX, i64::MIN]) {
        for &b in &factors {
            for c in DIVISORS {
                kinds.add(&sheet, [a, b, c]);
            }
        }
    }
    kinds.assert_all(100);
}

/// A number from 0 to a power of two, at most 2^31.
fn amount(rng: &mut Rng) -> i64 {
    let bits = rng.range(0, 31);
    rng.range(0, 1 << bits)
}

#[test]
fn on_random_numbers() {
    let sheet = sheet();
    let mut rng = Rng::new(14);
    let mut kinds = Kinds::default();
    for turn in 0..60_000 {
        let [mut a, mut b, mut c] = [0; 3].map(|_| amount(&mut rng));
        if turn % 3 == 0 {
            // An odd number of halves.
            (a, b) = (a | 1, b / 2 + 1);
            c = 2 * b;
        }
        if rng.percent(50) {
            a = -a;
        }
        if rng.percent(50) {
            b = -b;
        }
        kinds.add(&sheet, [a, b, c]);
    }
    kinds.assert_all(20);
}
