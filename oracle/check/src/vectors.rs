//! The published vectors: RFC 8439, the Internet-Draft of test vectors for ChaCha
//! with 8 rounds, and the first draws of rand_chacha 0.3.1.

use shim_rand::{RngCore, SeedableRng};
use shim_rand_chacha::{block, input, quarter_round, ChaCha8Rng};

/// RFC 8439, section 2.1.1.
const QUARTER_IN: [u32; 4] = [0x11111111, 0x01020304, 0x9b8d6f43, 0x01234567];
const QUARTER_OUT: [u32; 4] = [0xea2a92f4, 0xcb1cf8ce, 0x4581472e, 0x5881c4bb];

/// RFC 8439, section 2.3.2: 20 rounds, key 00 01 .. 1f.
const RFC_WORDS_12_TO_15: [u32; 4] = [1, 0x09000000, 0x4a000000, 0];
const RFC_BLOCK: &str = "10f1e7e4d13b5915500fdd1fa32071c4c7d1f4c733c068030422aa9ac3d46c4e\
                         d2826446079faa0914c2d705d98b02a2b5129cd1de164eb9cbd083e8a2503c4e";

/// TC1, key all zero, blocks 0 and 1.
const TC1: [&str; 2] = [
    "3e00ef2f895f40d67f5bb8e81f09a5a12c840ec3ce9a7f3b181be188ef711a1e\
     984ce172b9216f419f445367456d5619314a42a3da86b001387bfdb80e0cfe42",
    "d2aefa0deaa5c151bf0adb6c01f2a5adc0fd581259f9a2aadcf20f8fd566a26b\
     5032ec38bbc5da98ee0c6f568b872a65a08abf251deb21bb4b56e5d8821e68aa",
];

/// TC2, key 01 and then 31 zero bytes, block 0.
const TC2: &str = "cf5ee9a0494aa9613e05d5ed725b804b12f4a465ee635acc3a311de8740489ea\
                   289d04f43c7518db56eb4433e498a1238cd8464d3763ddbb9222ee3bd8fae3c8";

/// The first draws of four seeds.
const SEEDS: [(u64, [u64; 10]); 4] = [
    (
        0,
        [
            13080132717333068652,
            8594738769458413623,
            12896916468484187878,
            1109962093070354556,
            16216730426637698681,
            10137062675859812541,
            15292064470292927036,
            17255573299003615418,
            14827154245325219424,
            2846171648635379208,
        ],
    ),
    (
        1,
        [
            7424550030962593201,
            1482817706323250795,
            11004592982271133285,
            4045824405258374466,
            5233167733899381733,
            13108444932406911064,
            8505575526562236951,
            2815945222763399310,
            16136862674430550035,
            13034913414084847880,
        ],
    ),
    (
        7,
        [
            2910824217569608635,
            3098856782162503994,
            12991601491111613745,
            13406010708265417443,
            11091271176959810440,
            6629102542470643238,
            1532177833826564251,
            15666632647712377470,
            6723176373152622797,
            18261768682022118775,
        ],
    ),
    (
        u64::MAX,
        [
            12619125218144107694,
            7899558952931569112,
            7024312652144319452,
            7984919490939168151,
            12145850787534979525,
            15041486170534369076,
            4597157153194323386,
            18104490367216864357,
            6047143795175342451,
            17904769633489882555,
        ],
    ),
];

/// Stops at the first vector that does not come out.
pub fn check() {
    assert_eq!(quarter_round(QUARTER_IN), QUARTER_OUT, "quarter round");
    let mut rfc = input(&rfc_key(), 0);
    rfc[12..].copy_from_slice(&RFC_WORDS_12_TO_15);
    assert_eq!(hexadecimal(block(&rfc, 20)), RFC_BLOCK, "RFC 8439's block");
    for (number, expected) in TC1.into_iter().enumerate() {
        let words = block(&input(&[0; 8], number as u64), 8);
        assert_eq!(hexadecimal(words), expected, "TC1, block {number}");
    }
    let words = block(&input(&[1, 0, 0, 0, 0, 0, 0, 0], 0), 8);
    assert_eq!(hexadecimal(words), TC2, "TC2");
    for (seed, expected) in SEEDS {
        let mut rng = ChaCha8Rng::seed_from_u64(seed);
        let draws = expected.map(|_| rng.next_u64());
        assert_eq!(draws, expected, "seed {seed}");
    }
}

fn rfc_key() -> [u32; 8] {
    [0, 1, 2, 3, 4, 5, 6, 7].map(|i: u32| 0x03020100 + 0x04040404 * i)
}

/// Each word little-endian, as the vectors are written.
fn hexadecimal(words: [u32; 16]) -> String {
    let bytes = words.into_iter().flat_map(u32::to_le_bytes);
    bytes.map(|byte| format!("{byte:02x}")).collect()
}
