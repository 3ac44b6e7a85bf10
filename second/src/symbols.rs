//! DP-16QAM symbols and where they stand in a capture.
//! Document 01, section "Code words"; document 001, section 11, Table 12 and section 11.1.

use crate::bits::{bits_of_bytes, bytes_of_bits};

/// The level of a pair of bits: 00 is -3, 01 is -1, 11 is +1, 10 is +3.
pub fn level(first: bool, second: bool) -> i8 {
    match (first, second) {
        (false, false) => -3,
        (false, true) => -1,
        (true, true) => 1,
        (true, false) => 3,
    }
}

/// The four levels of a byte: X-I, X-Q, Y-I, Y-Q.
pub fn levels(byte: u8) -> [i8; 4] {
    let bits = bits_of_bytes(&[byte]);
    [
        level(bits[0], bits[1]),
        level(bits[2], bits[3]),
        level(bits[4], bits[5]),
        level(bits[6], bits[7]),
    ]
}

/// "symbol k of word w stands at capture byte 128·floor(w/8) + 8·k + (w mod 8)"
pub fn byte_place(w: usize, k: usize) -> usize {
    128 * (w / 8) + 8 * k + w % 8
}

/// Byte k of a word is symbol k.
pub fn put_word(capture: &mut [u8], w: usize, word: &[bool]) {
    let bytes = bytes_of_bits(word);
    assert!(bytes.len() == 16);
    for k in 0..16 {
        capture[byte_place(w, k)] = bytes[k];
    }
}

pub fn get_word(capture: &[u8], w: usize) -> Vec<bool> {
    let mut bytes = Vec::new();
    for k in 0..16 {
        bytes.push(capture[byte_place(w, k)]);
    }
    bits_of_bytes(&bytes)
}
