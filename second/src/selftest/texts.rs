//! What the texts of the edges say about refused calls.

use crate::texts;

/// In the texts of the edges a refused call leaves each buffer as it was, and a granted one does not.
pub fn refused_lines_keep_their_buffers() {
    let mut granted = 0;
    let mut refused = 0;
    for line in (texts::edges() + &texts::capture_edges()).lines() {
        let words: Vec<&str> = line.split(' ').collect();
        for k in 0..words.len() {
            if words[k] != "before" {
                continue;
            }
            let number = words.iter().position(|word| *word == "number").unwrap() + 1;
            assert_eq!(words[k + 2], "after");
            assert_eq!(words[k + 1] == words[k + 3], words[number] != "0", "{}", line);
            if words[number] == "0" {
                granted += 1;
            } else {
                refused += 1;
            }
        }
    }
    // A granted window; and for each N coding, reading into two buffers, and an edit.
    assert_eq!(granted, 2 + 8 * 5);
    // Two windows; for each N the edit past the end; for 0 and 9 coding, reading and two edits.
    assert_eq!(refused, 4 + 8 * 2 + 2 * 7);
}
