//! Whole captures: the part of an FEC block, coding, reading and editing.
//! Document 01, sections "Captures" and "Numbers handed back".

use crate::answer::{wrong_length, Answer};
use crate::bits::{bits_of_bytes, bytes_of_bits, number_of_bits};
use crate::fec;
use crate::hamming::{Matrix, Repair};
use crate::interleaver;
use crate::super_frame;
use crate::symbols;

pub const LIST_LENGTH: usize = 145;

pub fn information_length(n: u64) -> usize {
    152_915 * n as usize
}

pub fn parity_length(n: u64) -> usize {
    10_240 * n as usize
}

pub fn capture_length(n: u64) -> usize {
    175_616 * n as usize + 7_680
}

fn n_is_stated(n: u64) -> bool {
    n >= 1 && n <= 8
}

/// The information of FEC block t, as the part of the lent information itself.
/// A refused request gives the empty part. The count of a granted request is 0.
pub fn part(n: u64, t: u64, information: &[u8]) -> (Answer, &[u8]) {
    if !n_is_stated(n) || t >= 5 * n {
        return (Answer::refused(1, 0), &[]);
    }
    if let Some(position) = wrong_length(&[(information.len(), information_length(n))]) {
        return (Answer::refused(2, position), &[]);
    }
    let start = fec::INFORMATION_BYTES * t as usize;
    (Answer::done(0), &information[start..start + fec::INFORMATION_BYTES])
}

/// Coding takes N, m0, information and parity, and fills the capture. The count is the number of words.
pub fn code(n: u64, m0: u64, information: &[u8], parity: &[u8], capture: &mut [u8]) -> Answer {
    if !n_is_stated(n) || m0 >= fec::BLOCK_NUMBERS {
        return Answer::refused(1, 0);
    }
    if let Some(position) = wrong_length(&[
        (information.len(), information_length(n)),
        (parity.len(), parity_length(n)),
        (capture.len(), capture_length(n)),
    ]) {
        return Answer::refused(2, position);
    }
    // All elements of the capture, super frame after super frame.
    let mut elements = Vec::new();
    for f in 0..n as usize {
        let mut blocks = Vec::new();
        for i in 0..super_frame::FEC_BLOCKS {
            let t = super_frame::FEC_BLOCKS * f + i;
            let information_start = fec::INFORMATION_BYTES * t;
            let parity_start = fec::PARITY_BYTES * t;
            blocks.push(fec::block(
                &bits_of_bytes(&information[information_start..information_start + fec::INFORMATION_BYTES]),
                fec::mbas_of_block(m0, t as u64),
                &bits_of_bytes(&parity[parity_start..parity_start + fec::PARITY_BYTES]),
            ));
        }
        let bits = super_frame::scramble(&super_frame::join(&blocks));
        elements.extend(super_frame::elements(&bits));
    }
    // One word for each slot. "The 480 slots that no element fills hold zero elements (filler)".
    let matrix = Matrix::new();
    let filler = vec![false; super_frame::ELEMENT_BITS];
    let slots = interleaver::slots(n as usize);
    for w in 0..slots.len() {
        let word = match slots[w] {
            Some(e) => matrix.encode(&elements[e]),
            None => matrix.encode(&filler),
        };
        symbols::put_word(capture, w, &word);
    }
    Answer::done(slots.len() as u64)
}

/// Reading takes N, m0 and the capture, and fills information and parity.
/// The count is the number of words whose nine checks were not zero.
/// Each number of the table is looked for over the whole capture before the next one is, so the smallest
/// number wins, and then the smallest place.
pub fn read(n: u64, m0: u64, capture: &[u8], information: &mut [u8], parity: &mut [u8]) -> Answer {
    if !n_is_stated(n) || m0 >= fec::BLOCK_NUMBERS {
        return Answer::refused(1, 0);
    }
    if let Some(position) = wrong_length(&[
        (capture.len(), capture_length(n)),
        (information.len(), information_length(n)),
        (parity.len(), parity_length(n)),
    ]) {
        return Answer::refused(2, position);
    }

    // 4: a word beyond repair. Filler words are words too.
    let matrix = Matrix::new();
    let mut words = Vec::new();
    let mut repaired_words = 0;
    for w in 0..interleaver::words(n as usize) {
        let (repair, word) = matrix.repair(&symbols::get_word(capture, w));
        match repair {
            Repair::Nothing => {}
            Repair::Turned(_) => repaired_words += 1,
            Repair::Beyond => return Answer::refused(4, w as u64),
        }
        words.push(word);
    }

    // 5: a filler word not zero after repair.
    let slots = interleaver::slots(n as usize);
    for w in 0..slots.len() {
        if slots[w].is_none() && words[w].iter().any(|bit| *bit) {
            return Answer::refused(5, w as u64);
        }
    }

    // The super frames before scrambling.
    let mut frames = Vec::new();
    for f in 0..n as usize {
        let mut bits = Vec::new();
        for i in 0..super_frame::ELEMENTS {
            let w = interleaver::slot_of_element(super_frame::ELEMENTS * f + i);
            bits.extend_from_slice(&words[w][0..super_frame::ELEMENT_BITS]);
        }
        frames.push(super_frame::scramble(&bits));
    }
    let fec_blocks = super_frame::FEC_BLOCKS * n as usize;
    let fec_block = |t: usize| -> &[bool] {
        let start = fec::BLOCK_BITS * (t % super_frame::FEC_BLOCKS);
        &frames[t / super_frame::FEC_BLOCKS][start..start + fec::BLOCK_BITS]
    };

    // 6: MBAS not the expected number.
    for t in 0..fec_blocks {
        let mbas = &fec_block(t)[fec::MBAS_START..fec::MBAS_START + fec::MBAS_BITS];
        if number_of_bits(mbas) != fec::mbas_of_block(m0, t as u64) {
            return Answer::refused(6, t as u64);
        }
    }

    // 7: CRC wrong.
    for t in 0..fec_blocks {
        let expected = fec::crc(&fec_block(t)[0..fec::INFORMATION_BITS]);
        if fec_block(t)[fec::CRC_START..fec::CRC_START + fec::CRC_BITS] != expected[..] {
            return Answer::refused(7, t as u64);
        }
    }

    // 8: pad not zero.
    for f in 0..n as usize {
        if frames[f][super_frame::PAD_START..].iter().any(|bit| *bit) {
            return Answer::refused(8, f as u64);
        }
    }

    let mut information_bits = Vec::new();
    let mut parity_bits = Vec::new();
    for t in 0..fec_blocks {
        information_bits.extend_from_slice(&fec_block(t)[0..fec::INFORMATION_BITS]);
        parity_bits.extend_from_slice(&fec_block(t)[fec::PARITY_START..]);
    }
    information.copy_from_slice(&bytes_of_bits(&information_bits));
    parity.copy_from_slice(&bytes_of_bits(&parity_bits));
    Answer::done(repaired_words)
}

/// The words that an edit lists, rising, each once: those whose element holds a bit of the client block,
/// of the CRC field or of the parity of its FEC block, changed or not. The numbers must be stated ones.
pub fn listed_words(block: u64) -> Vec<u64> {
    let t = block as usize / fec::CLIENT_BLOCKS;
    let within = block as usize % fec::CLIENT_BLOCKS;
    let frame = t / super_frame::FEC_BLOCKS;
    let start = fec::BLOCK_BITS * (t % super_frame::FEC_BLOCKS);
    let mut positions = Vec::new();
    for i in 0..fec::CLIENT_BITS {
        positions.push(start + fec::CLIENT_BITS * within + i);
    }
    for i in 0..fec::CRC_BITS {
        positions.push(start + fec::CRC_START + i);
    }
    for i in 0..fec::PARITY_BITS {
        positions.push(start + fec::PARITY_START + i);
    }
    let mut words = Vec::new();
    for position in positions {
        words.push(slot_of_bit(frame, position) as u64);
    }
    words.sort();
    words.dedup();
    words
}

/// The word that holds a bit of a super frame, both counted from 0.
pub fn slot_of_bit(frame: usize, position: usize) -> usize {
    interleaver::slot_of_element(super_frame::ELEMENTS * frame + position / super_frame::ELEMENT_BITS)
}

/// An edit takes N, a client block number, 33 bytes (257 bits and seven zero bits), the parity of the
/// block's FEC block, the capture and the list. The count is the number of words listed.
pub fn edit(n: u64, block: u64, client: &[u8], parity: &[u8], capture: &mut [u8], list: &mut [u64]) -> Answer {
    if !n_is_stated(n) || block >= 4_760 * n {
        return Answer::refused(1, 0);
    }
    if let Some(position) = wrong_length(&[
        (client.len(), 33),
        (parity.len(), fec::PARITY_BYTES),
        (capture.len(), capture_length(n)),
        (list.len(), LIST_LENGTH),
    ]) {
        return Answer::refused(2, position);
    }
    // Only the first buffer has spare bits, so its position is the place. Document 02, M-103.
    let client_bits = bits_of_bytes(client);
    for spare in fec::CLIENT_BITS..client_bits.len() {
        if client_bits[spare] {
            return Answer::refused(3, 1);
        }
    }

    // 9: a word to be listed fails a check. Nothing is repaired, and no other word is looked at.
    let matrix = Matrix::new();
    let listed = listed_words(block);
    for w in &listed {
        if !matrix.passes(&symbols::get_word(capture, *w as usize)) {
            return Answer::refused(9, *w);
        }
    }

    let t = block as usize / fec::CLIENT_BLOCKS;
    let within = block as usize % fec::CLIENT_BLOCKS;
    let frame = t / super_frame::FEC_BLOCKS;
    let start = fec::BLOCK_BITS * (t % super_frame::FEC_BLOCKS);
    let scrambler = super_frame::scrambler(super_frame::BITS);

    // "the CRC field changes by the remainder of the changed bits, at their places and times x^32,
    // without complements"
    let mut changed = vec![false; fec::INFORMATION_BITS];
    for i in 0..fec::CLIENT_BITS {
        let place = fec::CLIENT_BITS * within + i;
        let old = get_bit(capture, &scrambler, frame, start + place);
        changed[place] = old ^ client_bits[i];
    }
    let crc_change = fec::remainder(&changed);

    for i in 0..fec::CLIENT_BITS {
        let place = fec::CLIENT_BITS * within + i;
        set_bit(capture, &scrambler, frame, start + place, client_bits[i]);
    }
    for i in 0..fec::CRC_BITS {
        let position = start + fec::CRC_START + i;
        let old = get_bit(capture, &scrambler, frame, position);
        set_bit(capture, &scrambler, frame, position, old ^ crc_change[i]);
    }
    let parity_bits = bits_of_bytes(parity);
    for i in 0..fec::PARITY_BITS {
        set_bit(
            capture,
            &scrambler,
            frame,
            start + fec::PARITY_START + i,
            parity_bits[i],
        );
    }

    // "listed words' check bits are made anew"
    for i in 0..listed.len() {
        let w = listed[i] as usize;
        let word = matrix.encode(&symbols::get_word(capture, w)[0..super_frame::ELEMENT_BITS]);
        symbols::put_word(capture, w, &word);
        list[i] = listed[i];
    }
    Answer::done(listed.len() as u64)
}

/// A bit of a super frame before scrambling, taken from the capture as it stands.
fn get_bit(capture: &[u8], scrambler: &[bool], frame: usize, position: usize) -> bool {
    let word = symbols::get_word(capture, slot_of_bit(frame, position));
    word[position % super_frame::ELEMENT_BITS] ^ scrambler[position]
}

/// Writes a bit of a super frame into the capture, scrambled. The check bits of its word are left.
fn set_bit(capture: &mut [u8], scrambler: &[bool], frame: usize, position: usize, bit: bool) {
    let w = slot_of_bit(frame, position);
    let mut word = symbols::get_word(capture, w);
    word[position % super_frame::ELEMENT_BITS] = bit ^ scrambler[position];
    symbols::put_word(capture, w, &word);
}
