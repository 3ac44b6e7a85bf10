//! GMP places and payload windows.
//! Document 01, section "GMP places"; document 001, section 8.8.1 and Table 7.

use crate::answer::{wrong_length, Answer};
use crate::bits::{bits_of_bytes, bytes_of_bits};

/// P: the places of a four-frame envelope.
pub const PLACES: u64 = 10_220;

/// One place holds four 257-bit blocks.
pub const PLACE_BITS: usize = 1_028;

#[derive(Clone, Copy, PartialEq, Eq, Debug)]
pub enum Kind {
    Data,
    Stuff,
}

/// "place j in 1..10,220 is data if (j·C) mod P < C, else stuff"
pub fn kind(c: u64, j: u64) -> Kind {
    assert!(c <= PLACES && j >= 1 && j <= PLACES);
    if (j * c) % PLACES < c {
        Kind::Data
    } else {
        Kind::Stuff
    }
}

/// The kind of place j and the last place of its run.
/// A refused run request gives kind stuff and last place 0.
pub fn run_at(c: u64, j: u64) -> (Answer, Kind, u64) {
    if c > PLACES || j < 1 || j > PLACES {
        return (Answer::refused(1, 0), Kind::Stuff, 0);
    }
    let mine = kind(c, j);
    let mut last = j;
    while last < PLACES && kind(c, last + 1) == mine {
        last += 1;
    }
    (Answer::done(0), mine, last)
}

/// The number of runs from place j to the last place, what is left of j's own run counting as one.
/// Counted place by place: one run, and one more wherever the kind changes.
pub fn count_runs(c: u64, j: u64) -> Answer {
    if c > PLACES || j < 1 || j > PLACES {
        return Answer::refused(1, 0);
    }
    let mut runs = 1;
    for place in j..PLACES {
        if kind(c, place) != kind(c, place + 1) {
            runs += 1;
        }
    }
    Answer::done(runs)
}

/// The listing of the run program for a count that is at most 10,220.
pub fn listing(c: u64) -> String {
    let mut text = format!("Cm {}\n", c);
    let mut first = 1;
    while first <= PLACES {
        let (_, mine, last) = run_at(c, first);
        let letter = if mine == Kind::Data { "D" } else { "S" };
        text += &format!("{} {}-{}\n", letter, first, last);
        first = last + 1;
    }
    text
}

/// The run program's whole output for an input.
/// The first line ends at a line feed or at the end of the input. Leading zeros are digits.
pub fn run_program(input: &[u8]) -> String {
    let mut line = Vec::new();
    for byte in input {
        if *byte == b'\n' {
            break;
        }
        line.push(*byte);
    }
    let mut value = 0u64;
    let mut taken = !line.is_empty();
    for byte in &line {
        if *byte >= b'0' && *byte <= b'9' {
            value = value * 10 + u64::from(*byte - b'0');
            // Any value above 10,220 is refused whatever digits follow, so it need not grow
            // further: a line of any length is read without leaving 64 bits.
            if value > PLACES {
                value = PLACES + 1;
            }
        } else {
            taken = false;
        }
    }
    if taken && value <= PLACES {
        listing(value)
    } else {
        String::from("refused 1\n")
    }
}

/// "A window is an odd first place f and an even number n >= 2 of places, ending at or before 10,220."
/// The end is computed in 128 bits, so that f or n near 2^64 cannot wrap.
fn numbers_are_stated(c: u64, f: u64, n: u64) -> bool {
    let end = u128::from(f) + u128::from(n);
    c <= PLACES && f % 2 == 1 && n % 2 == 0 && n >= 2 && end - 1 <= u128::from(PLACES)
}

/// d: the data places among f .. f+n-1, counted one by one.
pub fn data_places(c: u64, f: u64, n: u64) -> u64 {
    let mut d = 0;
    for j in f..f + n {
        if kind(c, j) == Kind::Data {
            d += 1;
        }
    }
    d
}

/// ceil(128.5 · d) bytes.
pub fn groups_length(d: u64) -> u64 {
    (257 * d + 1) / 2
}

/// 257 · n / 2 bytes.
pub fn window_length(n: u64) -> u64 {
    257 * n / 2
}

/// Puts the data groups at their places; stuff is all zero. The count is d.
pub fn map(c: u64, f: u64, n: u64, groups: &[u8], window: &mut [u8]) -> Answer {
    if !numbers_are_stated(c, f, n) {
        return Answer::refused(1, 0);
    }
    let d = data_places(c, f, n);
    if let Some(position) = wrong_length(&[
        (groups.len(), groups_length(d) as usize),
        (window.len(), window_length(n) as usize),
    ]) {
        return Answer::refused(2, position);
    }
    // Only the first buffer has spare bits, so its position is the place. Document 02, M-103.
    let group_bits = bits_of_bytes(groups);
    for spare in d as usize * PLACE_BITS..group_bits.len() {
        if group_bits[spare] {
            return Answer::refused(3, 1);
        }
    }
    let mut window_bits = Vec::new();
    let mut used = 0;
    for j in f..f + n {
        for _ in 0..PLACE_BITS {
            if kind(c, j) == Kind::Data {
                window_bits.push(group_bits[used]);
                used += 1;
            } else {
                window_bits.push(false);
            }
        }
    }
    window.copy_from_slice(&bytes_of_bits(&window_bits));
    Answer::done(d)
}

/// Gives the groups back and ignores stuff. With odd d the last four bits are zero. The count is d.
pub fn unmap(c: u64, f: u64, n: u64, window: &[u8], groups: &mut [u8]) -> Answer {
    if !numbers_are_stated(c, f, n) {
        return Answer::refused(1, 0);
    }
    let d = data_places(c, f, n);
    if let Some(position) = wrong_length(&[
        (window.len(), window_length(n) as usize),
        (groups.len(), groups_length(d) as usize),
    ]) {
        return Answer::refused(2, position);
    }
    let window_bits = bits_of_bytes(window);
    let mut group_bits = Vec::new();
    for j in f..f + n {
        if kind(c, j) == Kind::Data {
            let start = (j - f) as usize * PLACE_BITS;
            for k in 0..PLACE_BITS {
                group_bits.push(window_bits[start + k]);
            }
        }
    }
    groups.copy_from_slice(&bytes_of_bits(&group_bits));
    Answer::done(d)
}
