//! The scrambler.

use crate::bits::bytes_of_bits;
use crate::super_frame;

/// FF FF 4E; period 65,535 and no shorter (001 section 10.3 calls it a sequence of 65535); the pad.
pub fn scrambler_values() {
    let o = super_frame::scrambler(super_frame::BITS);
    assert_eq!(bytes_of_bits(&o[0..24]), vec![0xff, 0xff, 0x4e]);
    assert_eq!(
        bytes_of_bits(&o[super_frame::PAD_START..super_frame::PAD_START + 32]),
        vec![0xd5, 0xe8, 0xe5, 0x70]
    );
    for n in 1..70_000 {
        let again = o[n..n + 16] == o[0..16];
        assert_eq!(again, n % 65_535 == 0);
    }
    assert_eq!(
        bytes_of_bits(&super_frame::scramble(&vec![true; 24])),
        vec![0x00, 0x00, 0xb1]
    );
}
