//! Published values, the starred cases, and the edges of counts and windows: `edges`.

use super::{change, kind_name, shown, word_in_hex, GROUPS_SEED};
use crate::bits::{bits_of_bytes, number_of_bits};
use crate::fec;
use crate::generator::{bytes_from_seed, digest, hex};
use crate::gmp;
use crate::hamming::{Matrix, WORD_BITS};
use crate::interleaver;
use crate::super_frame;
use crate::symbols;

/// Document 01, section "Both sides of each edge": the published values and the starred cases, then the counts and
/// windows that a program runs.
pub fn edges() -> String {
    published_numbers() + &starred_cases() + &edge_places()
}

fn published_numbers() -> String {
    let mut text = String::new();
    let nine = bits_of_bytes(b"123456789");
    text += &format!("CRC of 123456789: {}\n", hex(number_of_bits(&fec::crc(&nine))));
    let zeros = bits_of_bytes(&vec![0u8; fec::INFORMATION_BYTES]);
    text += &format!("CRC of 30583 zero bytes: {}\n", hex(number_of_bits(&fec::crc(&zeros))));
    let scrambler = super_frame::scrambler(super_frame::BITS);
    text += &format!("scrambler from bit 0 on: {}\n", word_in_hex(&scrambler[0..WORD_BITS]));
    let pad = super_frame::PAD_START;
    text += &format!(
        "scrambled pad from bit 0 on: {}\n",
        word_in_hex(&scrambler[pad..pad + WORD_BITS])
    );
    text
}

fn starred_cases() -> String {
    let mut text = String::new();
    for (c, j) in [
        (0, 1),
        (10_220, 10_220),
        (10_216, 1),
        (10_216, 2),
        (10_216, 2_556),
        (10_217, 3_407),
        (10_217, 3_408),
    ] {
        text += &edge_place(c, j);
    }
    let slots = interleaver::slots(2);
    for w in [480, 15, 496, 11_456] {
        text += &format!("word {}: element {}\n", w, slots[w].unwrap());
    }
    text += &format!("word 9 symbol 2: byte {}\n", symbols::byte_place(9, 2));
    let zeros = vec![false; super_frame::ELEMENT_BITS];
    text += &format!(
        "element of zeros: word {}\n",
        word_in_hex(&Matrix::new().encode(&zeros))
    );
    text
}

fn edge_place(c: u64, j: u64) -> String {
    let (answer, kind, last) = gmp::run_at(c, j);
    format!(
        "C {} place {}: number {} last {} {}\n",
        c,
        j,
        answer.number,
        last,
        kind_name(kind)
    )
}

/// A count that is none, the last window of all, and one that would end past the last place. The lengths are those of
/// n places that are all data.
fn edge_places() -> String {
    let mut text = edge_place(10_221, 1);
    text += &format!("C 10221 place 1 runs: {}\n", shown(gmp::count_runs(10_221, 1)));
    text += &edge_window(10_221, 1, 2, 257);
    text += &edge_window(10_220, 10_219, 2, 257);
    text += &edge_window(10_220, 10_219, 4, 514);
    text
}

/// Maps generated groups into a window of bytes 90, then unmaps that into groups of bytes 60.
fn edge_window(c: u64, f: u64, n: u64, length: usize) -> String {
    let given = bytes_from_seed(GROUPS_SEED, length);
    let mut window = vec![90u8; length];
    let before = digest(&window);
    let answer = gmp::map(c, f, n, &given, &mut window);
    let mut text = format!("C {} f {} n {} map: {}", c, f, n, shown(answer));
    text += &change(" window", before, digest(&window));
    let mut groups = vec![60u8; length];
    let before = digest(&groups);
    let answer = gmp::unmap(c, f, n, &window, &mut groups);
    text += &format!("\nC {} f {} n {} unmap: {}", c, f, n, shown(answer));
    text + &change(" groups", before, digest(&groups)) + "\n"
}
