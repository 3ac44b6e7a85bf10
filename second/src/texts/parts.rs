//! The information of an FEC block: `parts`.

use super::shown;
use crate::capture;
use crate::generator::{digest, Generator};

/// Requests for the information of an FEC block.
pub fn parts() -> String {
    let mut text = String::new();
    for n in [1, 8] {
        let information = Generator::new(100 + n).bytes(capture::information_length(n));
        for t in [0, 3, 5 * n - 1, 5 * n, u64::MAX] {
            text += &part_line(&format!("N {} t {}", n, t), n, t, &information);
        }
    }
    let mut information = Generator::new(101).bytes(capture::information_length(1));
    text += &part_line("N 0 t 0", 0, 0, &information);
    text += &part_line("N 9 t 0", 9, 0, &information);
    text += &part_line("information of N 1 as N 2", 2, 0, &information);
    text += &part_line(
        "N 1 t 5 and one byte short",
        1,
        5,
        &information[0..information.len() - 1],
    );
    text += &part_line("one byte short", 1, 4, &information[0..information.len() - 1]);
    information.push(0);
    text += &part_line("one byte long", 1, 4, &information);
    text
}

fn part_line(label: &str, n: u64, t: u64, information: &[u8]) -> String {
    let (answer, part) = capture::part(n, t, information);
    format!(
        "{}: {} bytes {} digest {}\n",
        label,
        shown(answer),
        part.len(),
        digest(part)
    )
}
