//! Bytes and lists of bits.
//! Document 01: "Bits are packed first bit in the top bit of the first byte."

pub fn bits_of_bytes(bytes: &[u8]) -> Vec<bool> {
    let mut bits = Vec::new();
    for byte in bytes {
        for k in 0..8 {
            bits.push((byte >> (7 - k)) & 1 == 1);
        }
    }
    bits
}

/// The last byte is filled up with zero bits where the bits end within it.
pub fn bytes_of_bits(bits: &[bool]) -> Vec<u8> {
    let mut bytes = Vec::new();
    for eight in bits.chunks(8) {
        let mut byte = 0u8;
        for k in 0..8 {
            let bit = k < eight.len() && eight[k];
            byte = byte * 2 + if bit { 1 } else { 0 };
        }
        bytes.push(byte);
    }
    bytes
}

/// The lowest `width` bits of a number, top bit first.
pub fn bits_of_number(value: u64, width: usize) -> Vec<bool> {
    let mut bits = Vec::new();
    for k in 0..width {
        bits.push((value >> (width - 1 - k)) & 1 == 1);
    }
    bits
}

/// Top bit first. At most 64 bits.
pub fn number_of_bits(bits: &[bool]) -> u64 {
    assert!(bits.len() <= 64);
    let mut value = 0u64;
    for bit in bits {
        value = (value << 1) | if *bit { 1 } else { 0 };
    }
    value
}
