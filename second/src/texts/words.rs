//! Code words, Table 12 and repairs: `hamming_words`.

use super::word_in_hex;
use crate::bits::bits_of_bytes;
use crate::hamming::{Matrix, Repair, WORD_BITS};
use crate::super_frame;
use crate::symbols;

/// An element whose first n bytes are x and whose others are y, without the bits past 119.
fn striped_element(x: u8, y: u8, n: usize) -> Vec<bool> {
    let mut bytes = [y; 16];
    for byte in bytes.iter_mut().take(n) {
        *byte = x;
    }
    bits_of_bytes(&bytes)[0..super_frame::ELEMENT_BITS].to_vec()
}

/// A level with its sign.
fn signed(level: i32) -> String {
    format!("{:+}", level)
}

/// The code words of the elements with bit 0, 2 or 4 only and of all ones; Table 12; and for these words, the word
/// of zeros and two words more how many single flips are repaired and how many double flips are beyond repair.
pub fn hamming_words() -> String {
    let matrix = Matrix::new();
    let elements = [
        striped_element(0x80, 0, 1),
        striped_element(0x20, 0, 1),
        striped_element(0x08, 0, 1),
        striped_element(0xff, 0xff, 0),
        striped_element(0, 0, 0),
        striped_element(165, 60, 7),
        striped_element(1, 254, 11),
    ];
    let mut text = String::new();
    for element in &elements[0..4] {
        text += &format!("{}\n", word_in_hex(&matrix.encode(element)));
    }

    // Document 001, Table 12, in the table's order: four bits, and their levels in both polarizations.
    for row in 0..16u8 {
        let levels = symbols::levels(row * 16 + row);
        text += &format!("{:04b}", row);
        for level in levels {
            text += &format!(" {}", signed(level.into()));
        }
        text += "\n";
    }

    for element in &elements {
        let word = matrix.encode(element);
        let mut single = 0;
        let mut double = 0;
        for first in 0..WORD_BITS {
            let mut damaged = word.clone();
            damaged[first] = !damaged[first];
            if matrix.repair(&damaged) == (Repair::Turned(first), word.clone()) {
                single += 1;
            }
            for second in first + 1..WORD_BITS {
                let mut twice = damaged.clone();
                twice[second] = !twice[second];
                if matrix.repair(&twice) == (Repair::Beyond, twice.clone()) {
                    double += 1;
                }
            }
        }
        text += &format!(
            "repaired {} of 128, beyond repair {} of 8128: {}\n",
            single,
            double,
            word_in_hex(&word)
        );
    }
    text
}
