//! Published vectors, and captures and windows from many seeds: `vectors`.

use super::{both_digests, flip, shown, stuff_runs, TABLE_7_COUNTS};
use crate::bits::{bits_of_bytes, bytes_of_bits, number_of_bits};
use crate::capture;
use crate::fec;
use crate::generator::{digest, digest_of_numbers, hex, Generator};
use crate::gmp;
use crate::interleaver;
use crate::super_frame;
use crate::symbols;

/// The vectors that the documents publish: the CRC's check value, the scrambler's first 24 bits, 001 Tables 7 and 12, and the
/// table of 002, "Multi-Block Alignment Signal", with the rows that it leaves out.
fn published_vectors() -> String {
    let check = fec::crc(&bits_of_bytes(b"123456789"));
    let mut text = format!("CRC of 123456789: {}\n", hex(number_of_bits(&check)));
    let first = bytes_of_bits(&super_frame::scrambler(24));
    text += &format!(
        "scrambler bits 0 to 23: {:02x}{:02x}{:02x}\n",
        first[0], first[1], first[2]
    );
    for c in TABLE_7_COUNTS {
        text += &format!("Table 7: C {} stuff{}\n", c, stuff_runs(c));
    }
    for row in 0..16 {
        text += &format!("Table 12: {:04b}", row);
        for level in symbols::levels(row * 16 + row) {
            text += &format!(" {}", level);
        }
        text += "\n";
    }
    text += "MBAS of blocks 0 to 127:";
    for number in 0..128 {
        text += &format!(" {}", fec::mbas_of_block(number, 0));
    }
    text + "\n"
}

/// A capture of n super frames from one seed: coded, read with the numbers before and after m0, then twice edited, damaged
/// and read.
/// One generator gives information and parity; then each time the block, the client block and its parity, and for each
/// word whether one of its bits is turned, and which. The second time the edit meets damage, and words are beyond
/// repair. Where coding is refused the capture is the one that stood there: zeros, which pass their checks.
fn vector(n: u64, seed: u64, m0: u64) -> String {
    let mut generator = Generator::new(seed);
    let information = generator.bytes(capture::information_length(n));
    let parity = generator.bytes(capture::parity_length(n));
    let mut captured = vec![0u8; capture::capture_length(n)];
    let answer = capture::code(n, m0, &information, &parity, &mut captured);
    let mut text = format!("N {} seed {} m0 {}: {}", n, seed, m0, shown(answer));
    text += &format!(" capture {}\n", digest(&captured));
    // One of the neighbours of m0 has the same half.
    for (label, other) in [("one less", (m0 + 127) % 128), ("one more", (m0 + 1) % 128)] {
        text += &vector_read(&format!(" m0 {}", label), n, other, &captured);
    }
    for _ in 0..2 {
        text += &vector_edit(n, &mut generator, &mut captured);
        for w in 0..interleaver::words(n as usize) {
            let turned = generator.below(3) == 0;
            let bit = generator.below(128) as usize;
            if turned {
                flip(&mut captured, w, bit);
            }
        }
        text += &vector_read(" damaged", n, m0, &captured);
    }
    text
}

/// Reads into zeros.
fn vector_read(label: &str, n: u64, m0: u64, captured: &[u8]) -> String {
    let mut information = vec![0u8; capture::information_length(n)];
    let mut parity = vec![0u8; capture::parity_length(n)];
    let answer = capture::read(n, m0, captured, &mut information, &mut parity);
    both_digests(&format!("{}: {}", label, shown(answer)), &information, &parity)
}

/// An edit with a list that stands full of sevens.
fn vector_edit(n: u64, generator: &mut Generator, captured: &mut [u8]) -> String {
    let block = generator.below(4_760 * n);
    let mut client = generator.bytes(33);
    client[32] &= 0x80;
    let parity = generator.bytes(fec::PARITY_BYTES);
    let mut list = [7u64; capture::LIST_LENGTH];
    let answer = capture::edit(n, block, &client, &parity, captured, &mut list);
    let digests = format!("capture {} list {}", digest(captured), digest_of_numbers(&list));
    format!(" block {}: {} {}\n", block, shown(answer), digests)
}

/// A window from one seed: the generator gives C, f, n and the groups, whose last four bits become zero. They are mapped
/// into bytes 90 and come back into bytes 60.
fn vector_window(seed: u64) -> String {
    let mut generator = Generator::new(seed);
    let c = generator.below(gmp::PLACES + 1);
    // At most 80 places, and a first place that leaves room for them.
    let f = 2 * generator.below((gmp::PLACES - 80) / 2 + 1) + 1;
    let n = 2 * generator.below(40) + 2;
    let d = gmp::data_places(c, f, n);
    let mut groups = generator.bytes(gmp::groups_length(d) as usize);
    if let Some(last) = groups.last_mut() {
        *last &= 0xf0;
    }
    let mut window = vec![90u8; gmp::window_length(n) as usize];
    let answer = gmp::map(c, f, n, &groups, &mut window);
    let mut text = format!("seed {} C {} f {} n {} groups {}", seed, c, f, n, digest(&groups));
    text += &format!(" map: {} window {}", shown(answer), digest(&window));
    let mut back = vec![60u8; groups.len()];
    let answer = gmp::unmap(c, f, n, &window, &mut back);
    text += &format!(" unmap: {} groups {}\n", shown(answer), digest(&back));
    text
}

/// For each N from 1 to 8 the first m0, those on both sides of 64, the last two and the one past them, and N = 1 with an
/// m0 between; then windows.
pub fn vectors() -> String {
    let mut text = published_vectors();
    for n in 1..=8 {
        text += &vector(n, 1_000 + n, 0);
        text += &vector(n, 1_100 + n, 63);
        text += &vector(n, 1_200 + n, 64);
        text += &vector(1, 1_300 + n, 17 * (n % 8));
        text += &vector(n, 1_400 + n, 126);
        text += &vector(n, 1_500 + n, 127);
        text += &vector(n, 1_600 + n, 128);
    }
    for seed in 3_001..=3_040 {
        text += &vector_window(seed);
    }
    text
}
