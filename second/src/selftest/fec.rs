//! The fields of an FEC block: CRC and MBAS.

use crate::bits::{bits_of_bytes, number_of_bits};
use crate::fec;
use crate::generator::bytes_from_seed;

/// CRC-32/BZIP2's published check value, and the value for a block of zeros.
pub fn crc_published_values() {
    assert_eq!(number_of_bits(&fec::crc(&bits_of_bytes(b"123456789"))), 0xfc891918);
    let zeros = vec![false; fec::INFORMATION_BITS];
    assert_eq!(number_of_bits(&fec::crc(&zeros)), 0x43665cf9);
}

/// By another road: the complemented message with the complemented CRC in place of the 32 zeros is a
/// multiple of G, so that its own remainder is zero.
pub fn crc_is_zero_over_block_and_field() {
    let mut bits = bits_of_bytes(&bytes_from_seed(11, 500));
    let field = fec::crc(&bits);
    for i in 0..32 {
        bits[i] = !bits[i];
    }
    for bit in field {
        bits.push(!bit);
    }
    assert_eq!(number_of_bits(&fec::remainder(&bits)), 0);
}

/// The table of 002, "Multi-Block Alignment Signal", row by row: the number of a block and its seven bits.
const PRINTED: [(u64, &str); 14] = [
    (0, "0000000"),
    (1, "0000001"),
    (2, "0000010"),
    (3, "0000011"),
    (4, "0000100"),
    (5, "0000101"),
    (6, "0000110"),
    (7, "0000111"),
    (125, "1111101"),
    (126, "1111110"),
    (127, "1111111"),
    (0, "0000000"),
    (1, "0000001"),
    (2, "0000010"),
];

/// The six bits under "6-bit MBAS OH", 33 to 38, are the first six of each row. The last six rows follow each other.
pub fn mbas_of_the_printed_rows() {
    for (number, row) in PRINTED {
        assert_eq!(format!("{:06b}", fec::mbas_of_block(number, 0)), row[0..6]);
    }
    for (t, (_, row)) in PRINTED[8..].iter().enumerate() {
        assert_eq!(format!("{:06b}", fec::mbas_of_block(125, t as u64)), row[0..6]);
    }
}

/// By another road: counted up block by block, the number sent rises on every second one and starts anew after 128.
pub fn mbas_counts_and_wraps() {
    for m0 in 0..128 {
        let mut number = m0;
        for t in 0..40 {
            assert_eq!(fec::mbas_of_block(m0, t), number / 2);
            number = if number == 127 { 0 } else { number + 1 };
        }
    }
}

/// Two numbers with one half differ in the next block, all others in block 0.
pub fn mbas_tells_every_m0() {
    for m0 in 0..128 {
        for m1 in (0..128).filter(|m1| *m1 != m0) {
            let first = (0..5).find(|t| fec::mbas_of_block(m0, *t) != fec::mbas_of_block(m1, *t));
            assert_eq!(first, Some(if m0 / 2 == m1 / 2 { 1 } else { 0 }));
        }
    }
}

pub fn mbas_stands_behind_the_crc() {
    let information = vec![false; fec::INFORMATION_BITS];
    let parity = vec![true; fec::PARITY_BITS];
    let bits = fec::block(&information, 0b100110, &parity);
    assert_eq!(number_of_bits(&bits[244_664..244_696]), 0x43665cf9);
    assert_eq!(bits[244_696..244_702], [true, false, false, true, true, false]);
    assert_eq!(bits[244_702..], vec![true; 16_384][..]);
}
