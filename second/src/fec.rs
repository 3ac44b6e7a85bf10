//! One FEC block: information, CRC, MBAS, parity.
//! Document 01, section "One FEC block, 261,086 bits"; document 001, section 9.2; document 002, "CRC-32 and MBAS".

use crate::bits::{bits_of_number, number_of_bits};

pub const INFORMATION_BITS: usize = 244_664;
pub const CRC_START: usize = 244_664;
pub const CRC_BITS: usize = 32;
pub const MBAS_START: usize = 244_696;
pub const MBAS_BITS: usize = 6;
pub const PARITY_START: usize = 244_702;
pub const PARITY_BITS: usize = 16_384;
pub const BLOCK_BITS: usize = 261_086;

pub const INFORMATION_BYTES: usize = 30_583;
pub const PARITY_BYTES: usize = 2_048;

/// An information part is 952 client blocks of 257 bits.
pub const CLIENT_BLOCKS: usize = 952;
pub const CLIENT_BITS: usize = 257;

/// The powers of x in G(x), document 001 section 9.2 and document 002.
const GENERATOR_POWERS: [usize; 15] = [32, 26, 23, 22, 16, 12, 11, 10, 8, 7, 5, 4, 2, 1, 0];

/// The remainder of (the bits as a polynomial, first bit highest) times x^32 by G(x), x^31 first.
/// This is long division as done on paper: wherever the highest bit left is one, G is taken away there.
pub fn remainder(bits: &[bool]) -> Vec<bool> {
    let mut divisor = [false; 33];
    for power in GENERATOR_POWERS {
        divisor[32 - power] = true;
    }
    let mut left = bits.to_vec();
    for _ in 0..32 {
        left.push(false);
    }
    for i in 0..bits.len() {
        if left[i] {
            for k in 0..33 {
                left[i + k] ^= divisor[k];
            }
        }
    }
    left[bits.len()..].to_vec()
}

/// The CRC of at least 32 bits, with both complements: of the first 32 bits and of the remainder.
pub fn crc(bits: &[bool]) -> Vec<bool> {
    assert!(bits.len() >= 32);
    let mut message = bits.to_vec();
    for i in 0..32 {
        message[i] = !message[i];
    }
    let mut result = remainder(&message);
    for i in 0..32 {
        result[i] = !result[i];
    }
    result
}

/// 002, "Multi-Block Alignment Signal": "a 7-bit SC FEC Multi Block Alignment Signal (MBAS) which provides a 128 block
/// sequence".
const NUMBER_BITS: usize = 7;
pub const BLOCK_NUMBERS: u64 = 128;

/// "The six most significant bits of the 7-bit MBAS are transferred"; M-102: "block t has number (m0 + t) mod 128".
pub fn mbas_of_block(m0: u64, t: u64) -> u64 {
    let number = bits_of_number((m0 + t) % BLOCK_NUMBERS, NUMBER_BITS);
    number_of_bits(&number[0..MBAS_BITS])
}

/// The 261,086 bits of a block. `mbas` is the six-bit number, sent top bit first.
pub fn block(information: &[bool], mbas: u64, parity: &[bool]) -> Vec<bool> {
    assert!(information.len() == INFORMATION_BITS && parity.len() == PARITY_BITS && mbas < 64);
    let mut bits = Vec::new();
    bits.extend_from_slice(information);
    bits.extend(crc(information));
    bits.extend(bits_of_number(mbas, MBAS_BITS));
    bits.extend_from_slice(parity);
    assert!(bits.len() == BLOCK_BITS);
    bits
}
