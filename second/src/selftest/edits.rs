//! Edits.

use super::capture::read_whole;
use crate::answer::Answer;
use crate::bits::bits_of_bytes;
use crate::capture;
use crate::fec;
use crate::hamming::Matrix;
use crate::interleaver;
use crate::super_frame::{self, ELEMENTS, ELEMENT_BITS};
use crate::symbols;
use crate::texts;

/// 141 words, or 142 where the block touches four elements: 19·b mod 119 >= 101, the first being block 6.
pub fn listed_word_counts() {
    let mut first_with_142 = None;
    for b in 0..4_760 {
        let listed = capture::listed_words(b);
        let expected = if 19 * b % 119 >= 101 { 142 } else { 141 };
        assert_eq!(listed.len(), expected);
        for k in 1..listed.len() {
            assert!(listed[k - 1] < listed[k]);
        }
        if expected == 142 && first_with_142.is_none() {
            first_with_142 = Some(b);
        }
    }
    assert_eq!(first_with_142, Some(6));
    // In a later super frame the words are the same ones, 10,976 words later for each super frame.
    for b in [0, 6, 1_903, 4_759] {
        let mut moved = capture::listed_words(b);
        for w in moved.iter_mut() {
            *w += 7 * ELEMENTS as u64;
        }
        assert_eq!(capture::listed_words(b + 7 * 4_760), moved);
    }
}

pub fn edits_equal_coding_afresh() {
    let c = texts::coded_capture(2);
    for block in [0, 1, 6, 951, 952, 2_000, 4_759, 4_760, 9_519] {
        let mut captured = c.capture.clone();
        let mut list = vec![123_456_789; capture::LIST_LENGTH];
        let answer = capture::edit(
            2,
            block,
            &texts::edit_client(block),
            &texts::edit_parity(block),
            &mut captured,
            &mut list,
        );
        let listed = capture::listed_words(block);
        assert_eq!(answer, Answer::done(listed.len() as u64));
        assert_eq!(list[0..listed.len()], listed[..]);
        assert!(list[listed.len()..].iter().all(|number| *number == 123_456_789));
        let (information, parity) = texts::edited_input(&c, block);
        let mut afresh = vec![0; captured.len()];
        capture::code(2, c.m0, &information, &parity, &mut afresh);
        assert!(captured == afresh);
        // Every word that changed is listed.
        for w in 0..interleaver::words(2) {
            if symbols::get_word(&captured, w) != symbols::get_word(&c.capture, w) {
                assert!(listed.contains(&(w as u64)));
            }
        }
        let (answer, information_read, parity_read) = read_whole(2, c.m0, &captured);
        assert_eq!(answer, Answer::done(0));
        assert!((information_read, parity_read) == (information, parity));
    }
}

/// A super frame before scrambling, whatever its words.
fn frame_bits(captured: &[u8], f: usize) -> Vec<bool> {
    let mut bits = Vec::new();
    for i in 0..ELEMENTS {
        let w = interleaver::slot_of_element(ELEMENTS * f + i);
        bits.extend_from_slice(&symbols::get_word(captured, w)[0..ELEMENT_BITS]);
    }
    super_frame::scramble(&bits)
}

/// What an edit leaves of a capture that was never coded. The change of the CRC field is found by another
/// road: as the difference of the full CRCs of the information before and after.
pub fn edit_of_never_coded() {
    for block in [3, 6, 1_500, 4_760, 9_519] {
        let before = texts::never_coded(2, 31 + block);
        let mut after = before.clone();
        let client = texts::edit_client(block);
        let parity = texts::edit_parity(block);
        let mut list = vec![0; capture::LIST_LENGTH];
        let answer = capture::edit(2, block, &client, &parity, &mut after, &mut list);
        assert_eq!(answer.number, 0);

        let frame = block as usize / 4_760;
        let mut expected = frame_bits(&before, frame);
        let start = block as usize % 4_760 / 952 * 261_086;
        let old_crc = fec::crc(&expected[start..start + 244_664]);
        let place = start + block as usize % 952 * 257;
        expected[place..place + 257].copy_from_slice(&bits_of_bytes(&client)[0..257]);
        let new_crc = fec::crc(&expected[start..start + 244_664]);
        for i in 0..32 {
            expected[start + 244_664 + i] ^= old_crc[i] ^ new_crc[i];
        }
        expected[start + 244_702..start + 261_086].copy_from_slice(&bits_of_bytes(&parity));
        assert!(frame_bits(&after, frame) == expected);
        assert!(frame_bits(&after, 1 - frame) == frame_bits(&before, 1 - frame));

        let matrix = Matrix::new();
        let slots = interleaver::slots(2);
        for w in 0..slots.len() {
            let word = symbols::get_word(&after, w);
            assert!(matrix.passes(&word));
            if slots[w].is_none() {
                assert_eq!(word, symbols::get_word(&before, w));
            }
        }
    }
}

pub fn edit_refusals() {
    let c = texts::coded_capture(1);
    let client = texts::edit_client(6);
    let parity = texts::edit_parity(6);
    let try_edit = |n: u64, block: u64, client: &[u8], parity: &[u8], captured: &[u8], list: usize| -> Answer {
        let mut after = captured.to_vec();
        let mut numbers = vec![5; list];
        let answer = capture::edit(n, block, client, parity, &mut after, &mut numbers);
        if answer.number != 0 {
            assert!(after == captured && numbers.iter().all(|number| *number == 5));
        }
        answer
    };
    for (n, block) in [(0, 0), (9, 0), (1, 4_760), (1, u64::MAX), (u64::MAX, 1)] {
        assert_eq!(
            try_edit(n, block, &client, &parity, &c.capture, 145),
            Answer::refused(1, 0)
        );
    }
    // 1 beats 2.
    assert_eq!(try_edit(1, 4_760, &[], &[], &[], 0), Answer::refused(1, 0));
    assert_eq!(
        try_edit(1, 6, &client[1..], &parity, &c.capture, 145),
        Answer::refused(2, 1)
    );
    assert_eq!(
        try_edit(1, 6, &client, &parity[1..], &c.capture, 145),
        Answer::refused(2, 2)
    );
    assert_eq!(
        try_edit(1, 6, &client, &parity, &c.capture[1..], 145),
        Answer::refused(2, 3)
    );
    assert_eq!(try_edit(1, 6, &client, &parity, &c.capture, 144), Answer::refused(2, 4));
    assert_eq!(try_edit(1, 6, &client, &parity, &c.capture, 146), Answer::refused(2, 4));
    for spare in 0..7 {
        let mut wrong = client.clone();
        wrong[32] |= 1 << spare;
        assert_eq!(try_edit(1, 6, &wrong, &parity, &c.capture, 145), Answer::refused(3, 1));
        assert_eq!(try_edit(1, 6, &wrong, &parity, &c.capture, 144), Answer::refused(2, 4));
    }
    // 9 at each listed word.
    let listed = capture::listed_words(6);
    for w in &listed {
        let mut damaged = c.capture.clone();
        texts::flip(&mut damaged, *w as usize, *w as usize * 5 % 128);
        assert_eq!(try_edit(1, 6, &client, &parity, &damaged, 145), Answer::refused(9, *w));
    }
    // Every other word may be wrong, all at once.
    let mut damaged = c.capture.clone();
    for w in 0..interleaver::words(1) {
        if !listed.contains(&(w as u64)) {
            texts::flip(&mut damaged, w, w % 128);
            texts::flip(&mut damaged, w, (w + 1) % 128);
        }
    }
    assert_eq!(try_edit(1, 6, &client, &parity, &damaged, 145), Answer::done(142));
}
