//! The edges of captures: `capture_edges`.

use super::{both_digests, change, flip, shown};
use crate::capture;
use crate::fec;
use crate::generator::{digest, digest_of_numbers, Generator};
use crate::hamming::WORD_BITS;

/// The same section: no super frame and nine, the last client block and the first past it, one flip in every word.
/// The same calls for each N from 0 to 9. For 0 and 9 the buffers are those of 1 and of 8 super frames.
pub fn capture_edges() -> String {
    let mut text = String::new();
    for n in 0..=9 {
        text += &capture_edge(n, n.clamp(1, 8));
    }
    text
}

fn capture_edge(n: u64, buffers: u64) -> String {
    let mut generator = Generator::new(100 + n);
    let information = generator.bytes(capture::information_length(buffers));
    let parity = generator.bytes(capture::parity_length(buffers));
    let mut captured = vec![0u8; capture::capture_length(buffers)];
    let m0 = 7;

    let before = digest(&captured);
    let answer = capture::code(n, m0, &information, &parity, &mut captured);
    let mut text = format!("N {} code: {}", n, shown(answer));
    text += &change(" capture", before, digest(&captured));
    text += &both_digests("", &information, &parity);

    let mut damaged = captured.clone();
    for w in 0..damaged.len() / 16 {
        flip(&mut damaged, w, (w * 37 + 11) % WORD_BITS);
    }
    let mut information = vec![0u8; information.len()];
    let mut parity = vec![0u8; parity.len()];
    let information_before = digest(&information);
    let parity_before = digest(&parity);
    let answer = capture::read(n, m0, &damaged, &mut information, &mut parity);
    text += &format!("N {} read, one flip in every word: {}", n, shown(answer));
    text += &change(" information", information_before, digest(&information));
    text += &change(" parity", parity_before, digest(&parity));
    text += "\n";

    // The last client block and the first past it. No super frame has no last block: a block far past its end.
    let first_past = 4_760 * n;
    let last = if n == 0 { 47_599 } else { first_past - 1 };
    text += &edge_edit(n, last, &mut captured);
    text += &edge_edit(n, first_past, &mut captured);
    text
}

/// 33 bytes 128, the parity all bytes 90, and a list of sevens.
fn edge_edit(n: u64, block: u64, captured: &mut [u8]) -> String {
    let mut list = [7u64; capture::LIST_LENGTH];
    let before = digest(captured);
    let list_before = digest_of_numbers(&list);
    let answer = capture::edit(n, block, &[128; 33], &[90; fec::PARITY_BYTES], captured, &mut list);
    let mut text = format!("N {} edit of block {}: {}", n, block, shown(answer));
    text += &change(" capture", before, digest(captured));
    text + &change(" list", list_before, digest_of_numbers(&list)) + "\n"
}
