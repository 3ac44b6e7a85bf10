//! Windows mapped and unmapped: `window_cases`.

use super::shown;
use crate::generator::{bytes_from_seed, digest};
use crate::gmp;

/// C, f, n, length of the groups, length of the window, and the low four bits of the groups' last byte.
pub const WINDOWS: [(u64, u64, u64, usize, usize, u8); 54] = [
    // Taken, with none, all or some of the places data, d even and odd.
    (0, 1, 2, 0, 257, 0),
    (0, 10_219, 2, 0, 257, 0),
    (1, 1, 2, 0, 257, 0),
    (10_220, 1, 2, 257, 257, 15),
    (10_220, 10_219, 2, 257, 257, 0),
    (10_220, 10_217, 4, 514, 514, 7),
    (10_216, 2_553, 4, 386, 514, 0),
    (10_216, 2_557, 2, 257, 257, 1),
    (10_216, 1, 10_220, 1_312_756, 1_313_270, 8),
    (10_217, 1, 4, 386, 514, 0),
    (5_110, 1, 8, 514, 1_028, 15),
    (3_000, 777, 40, 1_542, 5_140, 3),
    (10_220, 1, 10_220, 1_313_270, 1_313_270, 9),
    (0, 1, 10_220, 0, 1_313_270, 0),
    (10_216, 1, 2, 129, 257, 0),
    (10_216, 2_555, 2, 129, 257, 0),
    (10_216, 10_213, 8, 1_028, 1_028, 0),
    (10_217, 3_407, 2, 129, 257, 0),
    (10_217, 3_405, 6, 643, 771, 0),
    (10_217, 1, 10_220, 1_312_885, 1_313_270, 0),
    (1, 10_219, 2, 129, 257, 0),
    (5_110, 9, 2, 129, 257, 0),
    (7_001, 4_095, 128, 11_308, 16_448, 5),
    (7_001, 4_095, 124, 10_923, 15_934, 0),
    // 1: numbers outside their sets.
    (10_220, 10_219, 4, 257, 257, 0),
    (10_216, 1, 3, 257, 257, 0),
    (10_216, 1, 0, 257, 257, 0),
    (10_216, 1, 1, 257, 257, 0),
    (10_216, 0, 2, 257, 257, 0),
    (10_216, 2, 2, 257, 257, 0),
    (10_216, 10_220, 2, 257, 257, 0),
    (10_216, 10_221, 2, 257, 257, 0),
    (10_216, 1, 10_222, 257, 257, 0),
    (10_221, 1, 2, 257, 257, 0),
    (u64::MAX, 1, 2, 257, 257, 0),
    (10_216, u64::MAX, 2, 257, 257, 0),
    (10_216, u64::MAX, u64::MAX - 1, 257, 257, 0),
    (10_216, 1, u64::MAX - 1, 257, 257, 0),
    (10_216, 10_219, u64::MAX - 10_217, 257, 257, 0),
    (10_216, 3, u64::MAX - 1, 257, 257, 0),
    (u64::MAX, u64::MAX, u64::MAX, 0, 0, 0),
    // 2: lengths.
    (10_216, 1, 2, 128, 257, 0),
    (10_216, 1, 2, 130, 257, 0),
    (10_216, 1, 2, 0, 257, 0),
    (10_216, 1, 2, 129, 256, 0),
    (10_216, 1, 2, 129, 258, 0),
    (10_216, 1, 2, 129, 0, 0),
    (0, 1, 2, 1, 257, 0),
    // 2 beats 3, 1 beats both.
    (10_216, 1, 2, 129, 256, 15),
    (10_221, 1, 2, 129, 257, 15),
    // 3: spare bits, for mapping only.
    (10_216, 1, 2, 129, 257, 1),
    (10_216, 1, 2, 129, 257, 8),
    (10_217, 3_405, 6, 643, 771, 4),
    (10_217, 1, 10_220, 1_312_885, 1_313_270, 2),
];

/// The groups to be mapped in a case, counted from 1: bytes from seed 500 + case, the low four bits of the
/// last byte replaced by those of the table.
pub fn window_groups(case: u64, length: usize, low: u8) -> Vec<u8> {
    let mut groups = bytes_from_seed(500 + case, length);
    if length > 0 {
        groups[length - 1] = groups[length - 1] & 0xf0 | low;
    }
    groups
}

/// Mapping writes into a window standing full of bytes from seed 600 + case.
/// Unmapping reads a window of bytes from seed 700 + case, in which stuff is not zero, and writes into
/// groups standing full of bytes from seed 800 + case.
pub fn window_cases() -> String {
    let mut text = String::new();
    let mut case = 0;
    for (c, f, n, groups_length, window_length, low) in WINDOWS {
        case += 1;
        text += &format!(
            "case {}: C {} f {} n {} groups {} window {} low {}\n",
            case, c, f, n, groups_length, window_length, low
        );
        let groups = window_groups(case, groups_length, low);
        let mut window = bytes_from_seed(600 + case, window_length);
        let answer = gmp::map(c, f, n, &groups, &mut window);
        text += &format!("map: {} window {}\n", shown(answer), digest(&window));

        let window = bytes_from_seed(700 + case, window_length);
        let mut groups = bytes_from_seed(800 + case, groups_length);
        let answer = gmp::unmap(c, f, n, &window, &mut groups);
        text += &format!("unmap: {} groups {}\n", shown(answer), digest(&groups));
    }
    text
}
