//! The ways in which the texts damage a capture.

use crate::capture;
use crate::fec;
use crate::hamming::Matrix;
use crate::super_frame;
use crate::symbols;

/// Turns one of the 128 bits of a word and nothing else.
pub fn flip(captured: &mut [u8], w: usize, bit: usize) {
    let mut word = symbols::get_word(captured, w);
    word[bit] = !word[bit];
    symbols::put_word(captured, w, &word);
}

/// Turns a bit of a super frame and makes the check bits of its word anew, so that the word stays valid.
pub fn turn(captured: &mut [u8], frame: usize, position: usize) {
    let w = capture::slot_of_bit(frame, position);
    let mut element = symbols::get_word(captured, w)[0..super_frame::ELEMENT_BITS].to_vec();
    let bit = position % super_frame::ELEMENT_BITS;
    element[bit] = !element[bit];
    symbols::put_word(captured, w, &Matrix::new().encode(&element));
}

/// The same, for a bit of FEC block t of the capture.
pub fn turn_in_block(captured: &mut [u8], t: usize, position: usize) {
    let start = fec::BLOCK_BITS * (t % super_frame::FEC_BLOCKS);
    turn(captured, t / super_frame::FEC_BLOCKS, start + position);
}

/// Puts the word of the element that has only bit 0 set: a valid word, not zero.
pub fn put_nonzero(captured: &mut [u8], w: usize) {
    let mut element = vec![false; super_frame::ELEMENT_BITS];
    element[0] = true;
    symbols::put_word(captured, w, &Matrix::new().encode(&element));
}
