//! What the command `zr` writes.

use crate::gmp;

/// What the command writes for its stored case, `zr map 10216 1 2 GROUPS WINDOW` with as many groups as fit: the count in words.
pub fn zr() -> String {
    match gmp::data_places(10216, 1, 2) {
        1 => "done: 1 group\n".to_string(),
        d => format!("done: {d} groups\n"),
    }
}
