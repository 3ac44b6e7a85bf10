//! The convolutional interleaver.
//! Document 01, section "One super frame"; document 001, section 10.4.

use crate::super_frame::ELEMENTS;

/// The words of a capture beyond one for each element.
pub const FILLER_WORDS: usize = 480;

/// "element e, counted from 0 over the capture, leaves in word slot e + 32·(15 − e mod 16)"
pub fn slot_of_element(e: usize) -> usize {
    e + 32 * (15 - e % 16)
}

/// The words of a capture of N super frames.
pub fn words(n: usize) -> usize {
    ELEMENTS * n + FILLER_WORDS
}

/// For each slot of a capture, the element that stands in it, or none: then the slot holds filler.
/// Found by sending every element to its slot.
pub fn slots(n: usize) -> Vec<Option<usize>> {
    let mut result = vec![None; words(n)];
    for e in 0..ELEMENTS * n {
        let slot = slot_of_element(e);
        assert!(result[slot].is_none());
        result[slot] = Some(e);
    }
    result
}
