//! The fixed lines.

pub const RUNS: [(&str, &str); 6] = [
    (
        "full mesh 32, r 3, loss 0.5, P 64",
        "1 32 0 3 - 3fe0000000000000 7 64 100 1000000",
    ),
    (
        "line 32, r 3, loss 0.1, P 64",
        "2 32 0 3 - 3fb999999999999a 7 64 100 1000000",
    ),
    (
        "grid 5 by 6, r 2, loss 0.3, P 64, interval 1",
        "4 5 6 2 - 3fd3333333333333 7 64 1 1000000",
    ),
    (
        "star 16, r 2, loss 0.3, P 64",
        "3 16 0 2 - 3fd3333333333333 7 64 100 1000000",
    ),
    (
        "ring 32, r 2, loss 0, P 64",
        "5 32 0 2 - 0000000000000000 7 64 100 1000000",
    ),
    (
        "line 2, r 1, round slots 1, P 64",
        "2 2 0 1 1 0000000000000000 7 64 100 1000000",
    ),
];

/// How cost grows: with the nodes, with the rounds, with the loss.
#[rustfmt::skip]
pub const GROWTH: [(&str, &str); 15] = [
    ("line 31, lossless, P 0: one round", "2 31 0 1 - 0000000000000000 7 0 100 1000000"),
    ("line 2, lossless, P 16", "2 2 0 2 - 0000000000000000 7 16 100 1000000"),
    ("line 4, lossless, P 16", "2 4 0 2 - 0000000000000000 7 16 100 1000000"),
    ("line 8, lossless, P 16", "2 8 0 2 - 0000000000000000 7 16 100 1000000"),
    ("line 16, lossless, P 16", "2 16 0 2 - 0000000000000000 7 16 100 1000000"),
    ("line 32, lossless, P 16", "2 32 0 2 - 0000000000000000 7 16 100 1000000"),
    ("grid 4 by 4, lossless, P 8", "4 4 4 2 - 0000000000000000 7 8 100 1000000"),
    ("grid 4 by 4, lossless, P 16", "4 4 4 2 - 0000000000000000 7 16 100 1000000"),
    ("grid 4 by 4, lossless, P 32", "4 4 4 2 - 0000000000000000 7 32 100 1000000"),
    ("grid 4 by 4, lossless, P 64", "4 4 4 2 - 0000000000000000 7 64 100 1000000"),
    ("grid 4 by 4, loss 0.1, P 16", "4 4 4 2 - 3fb999999999999a 7 16 100 1000000"),
    ("grid 4 by 4, loss 0.3, P 16", "4 4 4 2 - 3fd3333333333333 7 16 100 1000000"),
    ("grid 4 by 4, loss 0.5, P 16", "4 4 4 2 - 3fe0000000000000 7 16 100 1000000"),
    ("grid 4 by 4, loss 0.7, P 16", "4 4 4 2 - 3fe6666666666666 7 16 100 1000000"),
    ("grid 4 by 4, loss 0.9, P 16", "4 4 4 2 - 3feccccccccccccd 7 16 100 1000000"),
];

/// Short runs of one proposal: one round, by slot limit 1, or two, by a limit one slot past the first.
#[rustfmt::skip]
pub const SHORT: [(&str, &str); 18] = [
    ("line 2, one round", "2 2 0 1 - 0000000000000000 7 1 100 1"),
    ("line 4, one round", "2 4 0 1 - 0000000000000000 7 1 100 1"),
    ("star 8, one round", "3 8 0 1 - 0000000000000000 7 1 100 1"),
    ("line 16, one round", "2 16 0 1 - 0000000000000000 7 1 100 1"),
    ("star 16, one round", "3 16 0 1 - 0000000000000000 7 1 100 1"),
    ("ring 32, one round", "5 32 0 1 - 0000000000000000 7 1 100 1"),
    ("line 32, one round", "2 32 0 1 - 0000000000000000 7 1 100 1"),
    ("grid 4 by 8, one round", "4 4 8 1 - 0000000000000000 7 1 100 1"),
    ("full mesh 16, one round", "1 16 0 1 - 0000000000000000 7 1 100 1"),
    ("full mesh 32, one round", "1 32 0 1 - 0000000000000000 7 1 100 1"),
    ("star 16, loss 0.3, one round", "3 16 0 1 - 3fd3333333333333 7 1 100 1"),
    ("grid 4 by 8, loss 0.3, one round", "4 4 8 1 - 3fd3333333333333 7 1 100 1"),
    ("full mesh 32, loss 0.3, one round", "1 32 0 1 - 3fd3333333333333 7 1 100 1"),
    ("line 16, two rounds", "2 16 0 1 - 0000000000000000 7 1 100 17"),
    ("line 32, two rounds", "2 32 0 1 - 0000000000000000 7 1 100 33"),
    ("grid 4 by 8, two rounds", "4 4 8 1 - 0000000000000000 7 1 100 12"),
    ("ring 32, two rounds", "5 32 0 1 - 0000000000000000 7 1 100 18"),
    ("full mesh 32, two rounds", "1 32 0 1 - 0000000000000000 7 1 100 3"),
];
