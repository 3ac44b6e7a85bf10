//! One super frame: five FEC blocks, the pad, the scrambler, and the cut into elements.
//! Document 01, section "One super frame"; document 001, sections 10.2 and 10.3.

pub const FEC_BLOCKS: usize = 5;
pub const PAD_START: usize = 1_305_430;
pub const PAD_BITS: usize = 714;
pub const BITS: usize = 1_306_144;
pub const ELEMENT_BITS: usize = 119;
pub const ELEMENTS: usize = 10_976;

/// The first `length` bits of the scrambler: sixteen ones, then
/// o(n) = o(n-1) + o(n-3) + o(n-12) + o(n-16) mod 2.
pub fn scrambler(length: usize) -> Vec<bool> {
    let mut o = Vec::new();
    for n in 0..length {
        if n < 16 {
            o.push(true);
        } else {
            o.push(o[n - 1] ^ o[n - 3] ^ o[n - 12] ^ o[n - 16]);
        }
    }
    o
}

/// Five FEC blocks, then 714 pad bits, zero before scrambling.
pub fn join(blocks: &[Vec<bool>]) -> Vec<bool> {
    assert!(blocks.len() == FEC_BLOCKS);
    let mut bits = Vec::new();
    for block in blocks {
        bits.extend_from_slice(block);
    }
    assert!(bits.len() == PAD_START);
    for _ in 0..PAD_BITS {
        bits.push(false);
    }
    assert!(bits.len() == BITS);
    bits
}

/// Adds the scrambler's bits to a super frame, the pad too. Done twice it undoes itself.
/// "started anew at each super frame"
pub fn scramble(bits: &[bool]) -> Vec<bool> {
    let o = scrambler(bits.len());
    let mut result = Vec::new();
    for n in 0..bits.len() {
        result.push(bits[n] ^ o[n]);
    }
    result
}

/// The 10,976 elements of 119 bits, in order.
pub fn elements(bits: &[bool]) -> Vec<Vec<bool>> {
    assert!(bits.len() == BITS);
    let mut result = Vec::new();
    for piece in bits.chunks(ELEMENT_BITS) {
        result.push(piece.to_vec());
    }
    assert!(result.len() == ELEMENTS);
    result
}
