//! A stuck game with each kind of reason.
//!
//! A cabinet has a spin or a bonus round, a line of three symbols, and meters by number.

use crate::term::Names;

/// What the symbols stand for.
pub const NAMES: Names = Names(&[(1, "spin"), (2, "bonus"), (3, "cabinet"), (4, "line")]);

/// cabinet[spin[0], line[7, 7, 3], {1: 520, 2: 2500}]
#[rustfmt::skip]
pub const CONFIGURATION: [i64; 24] = [
    11, 3,
    9, 1, 2, 0,
    11, 4, 2, 7, 2, 7, 2, 3,
    5, 2, 2, 1, 2, 520, 2, 2, 2, 2_500,
];

#[rustfmt::skip]
pub const TABLE: [i64; 195] = [
    7,
    // Rule 0: spin[X0] to bonus[X0]. It forgets the cabinet around them.
    10, 0,
    9, 1, 3, 0,
    9, 2, 3, 0,
    // Rule 1: cabinet[spin[X0], X1, X2] to cabinet[spin[X0 - 1], X1, X2] if 0 < X0.
    10, 1,
    11, 3, 9, 1, 3, 0, 3, 1, 3, 2,
    11, 3, 9, 1, 4, 9, 3, 0, 2, 1, 3, 1, 3, 2,
    4, 12, 2, 0, 3, 0, 1, 1,
    // Rule 2: cabinet[bonus[X0], X1, X2] to cabinet[spin[X0], X1, X2].
    20, 0,
    11, 3, 9, 2, 3, 0, 3, 1, 3, 2,
    11, 3, 9, 1, 3, 0, 3, 1, 3, 2,
    // Rule 3: cabinet[X0, line[X1, X1, X1], X2] to cabinet[bonus[10], line[X1, X1, X1], X2].
    30, 0,
    11, 3, 3, 0, 11, 4, 3, 1, 3, 1, 3, 1, 3, 2,
    11, 3, 9, 2, 2, 10, 11, 4, 3, 1, 3, 1, 3, 1, 3, 2,
    // Rule 4: cabinet[X0, X1, {}] to cabinet[X0, X1, {1: 0}].
    40, 0,
    11, 3, 3, 0, 3, 1, 5, 0,
    11, 3, 3, 0, 3, 1, 5, 1, 2, 1, 2, 0,
    // Rule 5: cabinet[X0, X1, X2] to cabinet[bonus[5], X1, X2] if meter 1 is a number of 1,000 at
    // least.
    50, 2,
    11, 3, 3, 0, 3, 1, 3, 2,
    11, 3, 9, 2, 2, 5, 3, 1, 3, 2,
    4, 7, 4, 16, 3, 2, 2, 1, 1, 1,
    4, 11, 2, 1_000, 4, 16, 3, 2, 2, 1, 1, 1,
    // Rule 6: cabinet[X0, line[7, X1, 7], X2] to cabinet[spin[1], line[7, X1, 7], X2].
    60, 0,
    11, 3, 3, 0, 11, 4, 2, 7, 3, 1, 2, 7, 3, 2,
    11, 3, 9, 1, 2, 1, 11, 4, 2, 7, 3, 1, 2, 7, 3, 2,
];
