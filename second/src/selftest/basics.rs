//! Bits, the generator, digests and lengths.

use crate::bits::{bits_of_bytes, bytes_of_bits, number_of_bits};
use crate::capture;
use crate::fec;
use crate::generator::{bytes_from_seed, digest, Generator};
use crate::interleaver;
use crate::super_frame::{self, ELEMENTS, ELEMENT_BITS};

pub fn bits_there_and_back() {
    assert_eq!(bits_of_bytes(&[0x80, 0x01])[0], true);
    assert_eq!(bits_of_bytes(&[0x80, 0x01])[15], true);
    assert_eq!(number_of_bits(&bits_of_bytes(&[0x12, 0x34])), 0x1234);
    assert_eq!(bytes_of_bits(&[true, false, true]), vec![0xa0]);
    let bytes = bytes_from_seed(7, 1000);
    assert_eq!(bytes_of_bits(&bits_of_bytes(&bytes)), bytes);
}

/// Known values of the two public methods.
pub fn generator_and_digest() {
    assert_eq!(Generator::new(1).number(), 0x47e4ce4b896cdd1d);
    assert_eq!(Generator::new(1).byte(), 0x47);
    assert_eq!(Generator::new(1).below(1000), 0x47e4ce4b % 1000);
    assert_eq!(digest(b""), "cbf29ce484222325");
    assert_eq!(digest(b"a"), "af63dc4c8601ec8c");
    assert_eq!(digest(b"foobar"), "85944171f73967e8");
}

/// The lengths of document 01 against each other.
pub fn lengths_agree() {
    assert_eq!(fec::CLIENT_BLOCKS * fec::CLIENT_BITS, fec::INFORMATION_BITS);
    assert_eq!(fec::INFORMATION_BYTES * 8, fec::INFORMATION_BITS);
    assert_eq!(fec::CRC_START, fec::INFORMATION_BITS);
    assert_eq!(fec::MBAS_START, fec::CRC_START + fec::CRC_BITS);
    assert_eq!(fec::PARITY_START, fec::MBAS_START + fec::MBAS_BITS);
    assert_eq!(fec::BLOCK_BITS, fec::PARITY_START + fec::PARITY_BITS);
    assert_eq!(fec::BLOCK_BITS + 34, 512 * 510);
    assert_eq!(fec::BLOCK_BITS, 2_194 * ELEMENT_BITS);
    assert_eq!(fec::INFORMATION_BITS, 2_056 * ELEMENT_BITS);
    assert_eq!(super_frame::PAD_START, 5 * fec::BLOCK_BITS);
    assert_eq!(super_frame::BITS, super_frame::PAD_START + super_frame::PAD_BITS);
    assert_eq!(super_frame::BITS, ELEMENTS * ELEMENT_BITS);
    for n in 1..=8 {
        assert_eq!(capture::information_length(n), 5 * n as usize * fec::INFORMATION_BYTES);
        assert_eq!(capture::parity_length(n), 5 * n as usize * fec::PARITY_BYTES);
        assert_eq!(capture::capture_length(n), 16 * interleaver::words(n as usize));
    }
}
