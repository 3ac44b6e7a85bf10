//! The texts that the product's programs must print, one function for each piece of a program's text.
//! Every line is made of fixed words, decimal numbers and 16-digit hexadecimal numbers only.
//! Here stands what several of them share.

mod archives;
mod buffers;
mod capture_edges;
mod coded;
mod damage;
mod edges;
mod edits;
mod gmp;
mod parts;
mod readings;
mod vectors;
mod windows;
mod words;
mod zr;

pub use archives::{archive_reads, archive_writes};
pub use buffers::buffers;
pub use capture_edges::capture_edges;
pub use coded::{coded, coded_capture, Coded};
pub use damage::{flip, put_nonzero, turn, turn_in_block};
pub use edges::edges;
pub use edits::{edit_client, edit_parity, edited_input, edits, never_coded};
pub use gmp::{gmp_lines, places, stuff_runs, table7};
pub use parts::parts;
pub use readings::readings;
pub use vectors::vectors;
pub use windows::{window_cases, window_groups, WINDOWS};
pub use words::hamming_words;
pub use zr::zr;

use crate::answer::Answer;
use crate::bits::number_of_bits;
use crate::generator::{digest, hex, Generator};
use crate::gmp::Kind;

/// The seven counts of document 001, Table 7, in the table's order.
pub const TABLE_7_COUNTS: [u64; 7] = [10_220, 10_219, 10_218, 10_217, 10_216, 10_215, 10_214];

/// Seeds of buffers that stand full of something before a call, so that an untouched buffer shows.
const CAPTURE_SEED: u64 = 999;
const INFORMATION_SEED: u64 = 998;
const PARITY_SEED: u64 = 997;
const LIST_SEED: u64 = 996;
const GROUPS_SEED: u64 = 995;

fn shown(answer: Answer) -> String {
    format!("number {} place {} count {}", answer.number, answer.place, answer.count)
}

/// A list of numbers before a call: whole 64-bit outputs of the generator.
fn list_before(length: usize) -> Vec<u64> {
    let mut generator = Generator::new(LIST_SEED);
    let mut list = Vec::new();
    for _ in 0..length {
        list.push(generator.number());
    }
    list
}

/// Sixteen bytes as 32 hexadecimal digits: two 64-bit numbers one after the other.
pub fn word_in_hex(word: &[bool]) -> String {
    hex(number_of_bits(&word[0..64])) + &hex(number_of_bits(&word[64..128]))
}

fn kind_name(kind: Kind) -> &'static str {
    match kind {
        Kind::Data => "data",
        Kind::Stuff => "stuff",
    }
}

fn both_digests(label: &str, information: &[u8], parity: &[u8]) -> String {
    format!(
        "{} information {} parity {}\n",
        label,
        digest(information),
        digest(parity)
    )
}

/// The digests of a buffer before a call and after it.
fn change(name: &str, before: String, after: String) -> String {
    format!("{} before {} after {}", name, before, after)
}
