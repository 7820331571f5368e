//! Words that are wrong in one place.

use crate::rng::Rng;
use crate::words::Words;

/// Words at a limit of some field, or one beyond.
const EDGES: [i64; 31] = [
    -1,
    0,
    1,
    2,
    3,
    4,
    5,
    7,
    8,
    9,
    14,
    15,
    16,
    17,
    18,
    63,
    64,
    65,
    255,
    256,
    257,
    4_095,
    4_096,
    65_535,
    65_536,
    i64::MAX,
    i64::MIN,
    1 << 32,
    -(1 << 32),
    1 << 16,
    8 + (1 << 32),
];

/// Changes, takes out or puts in one word.
pub(super) fn damage(rng: &mut Rng, words: &mut Words) {
    if words.is_empty() {
        words.push(rng.pick(&EDGES));
        return;
    }
    let at = rng.below(words.len());
    match rng.below(20) {
        0 => {
            words.remove(at);
        }
        1 => words.insert(at, rng.pick(&EDGES)),
        2 => words.truncate(at),
        3 => words.push(rng.pick(&EDGES)),
        4 => {
            words.pop();
        }
        5 => words.extend([2, 0]),
        6 => words.swap(0, at),
        7..10 => words[at] = words[at].wrapping_add(1),
        10..13 => words[at] = words[at].wrapping_sub(1),
        _ => words[at] = rng.pick(&EDGES),
    }
}
