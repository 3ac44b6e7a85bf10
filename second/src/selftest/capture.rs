//! Coding and reading.

use crate::answer::Answer;
use crate::bits::bits_of_bytes;
use crate::capture;
use crate::fec;
use crate::generator::bytes_from_seed;
use crate::hamming::Matrix;
use crate::interleaver;
use crate::super_frame;
use crate::symbols;
use crate::texts;

pub fn information_parts() {
    let information = bytes_from_seed(5, capture::information_length(2));
    let mut joined = Vec::new();
    for t in 0..10 {
        let (answer, part) = capture::part(2, t, &information);
        assert_eq!(answer, Answer::done(0));
        joined.extend_from_slice(part);
    }
    assert_eq!(joined, information);
    let nothing: &[u8] = &[];
    for (n, t) in [(0, 0), (9, 0), (2, 10), (2, u64::MAX), (u64::MAX, 0)] {
        assert_eq!(capture::part(n, t, &information), (Answer::refused(1, 0), nothing));
    }
    assert_eq!(capture::part(1, 0, &information), (Answer::refused(2, 1), nothing));
    assert_eq!(capture::part(2, 0, &information[1..]), (Answer::refused(2, 1), nothing));
}

pub fn read_whole(n: u64, m0: u64, captured: &[u8]) -> (Answer, Vec<u8>, Vec<u8>) {
    let mut information = bytes_from_seed(21, capture::information_length(n));
    let mut parity = bytes_from_seed(22, capture::parity_length(n));
    let before = (information.clone(), parity.clone());
    let answer = capture::read(n, m0, captured, &mut information, &mut parity);
    if answer.number != 0 {
        assert_eq!(answer.count, 0);
        assert!((information.clone(), parity.clone()) == before);
    }
    (answer, information, parity)
}

pub fn coding_and_reading() {
    for n in [1, 2, 8] {
        let c = texts::coded_capture(n);
        let words = interleaver::words(n as usize);
        assert_eq!(c.answer, Answer::done(words as u64));
        let input = (c.information.clone(), c.parity.clone());
        let (answer, information, parity) = read_whole(n, c.m0, &c.capture);
        assert_eq!(answer, Answer::done(0));
        assert!((information, parity) == input);
        let mut damaged = c.capture.clone();
        for w in 0..words {
            texts::flip(&mut damaged, w, (w * 37 + 11) % 128);
        }
        let (answer, information, parity) = read_whole(n, c.m0, &damaged);
        assert_eq!(answer, Answer::done(words as u64));
        assert!((information, parity) == input);
        // A flip in a check bit is a repair too.
        let mut damaged = c.capture.clone();
        texts::flip(&mut damaged, 1_000, 127);
        assert_eq!(read_whole(n, c.m0, &damaged).0, Answer::done(1));
    }
}

/// By another road: each bit of each field is looked up in the capture at its own place, computed from the
/// field's place alone.
pub fn coding_bit_by_bit() {
    let n = 3;
    let c = texts::coded_capture(n);
    let o = super_frame::scrambler(super_frame::BITS);
    let sent = |t: usize, bit: usize| -> bool {
        let position = (t % 5) * 261_086 + bit;
        let e = (t / 5) * 10_976 + position / 119;
        let w = e + 480 - 32 * (e % 16);
        let b = position % 119;
        let byte = c.capture[w / 8 * 128 + b / 8 * 8 + w % 8];
        ((byte >> (7 - b % 8)) & 1 == 1) ^ o[position]
    };
    for t in 0..15 {
        let information = bits_of_bytes(&c.information[30_583 * t..30_583 * (t + 1)]);
        let parity = bits_of_bytes(&c.parity[2_048 * t..2_048 * (t + 1)]);
        for i in 0..244_664 {
            assert_eq!(sent(t, i), information[i]);
        }
        let crc = fec::crc(&information);
        for i in 0..32 {
            assert_eq!(sent(t, 244_664 + i), crc[i]);
        }
        for i in 0..6 {
            assert_eq!(sent(t, 244_696 + i), ((21 + t) % 128 >> (6 - i)) & 1 == 1);
        }
        for i in 0..16_384 {
            assert_eq!(sent(t, 244_702 + i), parity[i]);
        }
    }
    // The pad of each super frame lies behind its fifth block.
    for f in 0..3 {
        for i in 0..714 {
            assert!(!sent(5 * f + 4, 261_086 + i));
        }
    }
    let matrix = Matrix::new();
    for w in 0..interleaver::words(3) {
        assert!(matrix.passes(&symbols::get_word(&c.capture, w)));
    }
}

/// Each number of the table that reading can give, and what wins where several apply.
pub fn reading_refusals() {
    let c = texts::coded_capture(1);
    let read = |damage: &dyn Fn(&mut Vec<u8>)| -> Answer {
        let mut damaged = c.capture.clone();
        damage(&mut damaged);
        read_whole(1, c.m0, &damaged).0
    };
    let two_flips = |d: &mut Vec<u8>, w: usize| {
        texts::flip(d, w, 3);
        texts::flip(d, w, 90);
    };
    assert_eq!(read(&|d| two_flips(d, 0)), Answer::refused(4, 0));
    assert_eq!(read(&|d| two_flips(d, 11_455)), Answer::refused(4, 11_455));
    assert_eq!(read(&|d| two_flips(d, 5_000)), Answer::refused(4, 5_000));
    assert_eq!(read(&|d| texts::put_nonzero(d, 0)), Answer::refused(5, 0));
    assert_eq!(read(&|d| texts::put_nonzero(d, 11_455)), Answer::refused(5, 11_455));
    for t in 0..5 {
        let place = t as u64;
        for bit in 244_696..244_702 {
            assert_eq!(read(&|d| texts::turn_in_block(d, t, bit)), Answer::refused(6, place));
        }
        for bit in [0, 31, 32, 100_000, 244_663, 244_664, 244_695] {
            assert_eq!(read(&|d| texts::turn_in_block(d, t, bit)), Answer::refused(7, place));
        }
        for bit in [244_702, 261_085] {
            assert_eq!(read(&|d| texts::turn_in_block(d, t, bit)), Answer::done(0));
        }
    }
    assert_eq!(read(&|d| texts::turn(d, 0, 1_305_430)), Answer::refused(8, 0));
    assert_eq!(read(&|d| texts::turn(d, 0, 1_306_143)), Answer::refused(8, 0));
    let everything = |d: &mut Vec<u8>, from: u64| {
        if from <= 8 {
            texts::turn(d, 0, 1_305_430);
        }
        if from <= 7 {
            texts::turn_in_block(d, 2, 0);
            texts::turn_in_block(d, 1, 0);
        }
        if from <= 6 {
            texts::turn_in_block(d, 4, 244_701);
            texts::turn_in_block(d, 3, 244_701);
        }
        if from <= 5 {
            texts::put_nonzero(d, 11_455);
            texts::put_nonzero(d, 11_454);
        }
        if from <= 4 {
            two_flips(d, 11_455);
            two_flips(d, 11_453);
        }
    };
    assert_eq!(read(&|d| everything(d, 8)), Answer::refused(8, 0));
    assert_eq!(read(&|d| everything(d, 7)), Answer::refused(7, 1));
    assert_eq!(read(&|d| everything(d, 6)), Answer::refused(6, 3));
    assert_eq!(read(&|d| everything(d, 5)), Answer::refused(5, 11_454));
    assert_eq!(read(&|d| everything(d, 4)), Answer::refused(4, 11_453));
    assert_eq!(read_whole(1, 8, &c.capture).0, Answer::refused(6, 0));
    assert_eq!(read_whole(1, 6, &c.capture).0, Answer::refused(6, 1));
    assert_eq!(read_whole(1, 71, &c.capture).0, Answer::refused(6, 0));
    assert_eq!(read_whole(1, 127, &c.capture).0, Answer::refused(6, 0));
    assert_eq!(read_whole(1, 128, &c.capture).0, Answer::refused(1, 0));
    assert_eq!(read_whole(2, 7, &c.capture).0, Answer::refused(2, 1));
    assert_eq!(read_whole(0, 7, &c.capture).0, Answer::refused(1, 0));
    assert_eq!(read_whole(9, 7, &c.capture).0, Answer::refused(1, 0));
}
