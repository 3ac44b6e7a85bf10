//! The capture file: one archive file for a capture and its inputs.
//! Change request M-100; the numbers of document 01, section "Numbers handed back", and 10 to 12 behind them.

use crate::answer::{wrong_length, Answer};
use std::io::Read;

/// "It begins with the exact 16 bytes `400ZR CAPTURE 1` and a line feed"
pub const FIRST_BYTES: [u8; 16] = *b"400ZR CAPTURE 1\n";

/// The table's entries stand behind the first bytes and the two-byte count.
pub const ENTRIES_START: usize = 18;

/// A kind byte, a four-byte offset and a four-byte length.
pub const ENTRY_BYTES: usize = 9;

/// "a two-byte count 1..32"
pub const MOST_ENTRIES: usize = 32;

/// The longest head. What lies behind it is bodies in any file, and reading looks at none.
pub const LONGEST_HEAD: usize = ENTRIES_START + ENTRY_BYTES * MOST_ENTRIES;

/// The most that a field of four bytes holds.
const FIELD_MOST: u64 = 0xffff_ffff;

/// The head is what stands before the bodies. Any 64-bit number may be given as a count, so this is in 128 bits.
pub fn head_length(count: u64) -> u128 {
    ENTRIES_START as u128 + ENTRY_BYTES as u128 * u128::from(count)
}

/// "Bodies stand in table order, touching each other and the table": body i, counted from 0, has the table and the
/// bodies 0 .. i-1 before it. For i = count this is where the file ends. Lengths may be any 64-bit numbers.
pub fn offset(count: u64, lengths: &[u64], i: usize) -> u128 {
    let mut place = head_length(count);
    for length in &lengths[0..i] {
        place += u128::from(*length);
    }
    place
}

fn count_is_stated(count: u64) -> bool {
    count >= 1 && count <= MOST_ENTRIES as u64
}

/// "1 information, 2 parity, 3 capture"
fn kind_is_stated(kind: u64) -> bool {
    kind >= 1 && kind <= 3
}

/// The bytes of a head, high byte first in each field. A number too large for its field leaves its low bytes there.
pub fn head_bytes(count: u64, kinds: &[u64], lengths: &[u64]) -> Vec<u8> {
    let mut bytes = FIRST_BYTES.to_vec();
    bytes.extend((count as u16).to_be_bytes());
    for i in 0..count as usize {
        bytes.push(kinds[i] as u8);
        bytes.extend((offset(count, lengths, i) as u32).to_be_bytes());
        bytes.extend((lengths[i] as u32).to_be_bytes());
    }
    bytes
}

/// Writing takes the count, the kinds and the lengths, and fills the head; the rule makes the offsets.
/// The count handed back is the number of bytes of the head.
pub fn write(count: u64, kinds: &[u64], lengths: &[u64], head: &mut [u8]) -> Answer {
    if !count_is_stated(count) {
        return Answer::refused(1, 0);
    }
    // An entry was handed in if it is below the count and both lists reach it. Only such an entry has a number that
    // could be outside its field. The end of the last body has no field: it may lie beyond four bytes.
    let handed_in = kinds.len().min(lengths.len()).min(count as usize);
    for i in 0..handed_in {
        let place = offset(count, lengths, i);
        if !kind_is_stated(kinds[i]) || lengths[i] > FIELD_MOST || place > u128::from(FIELD_MOST) {
            return Answer::refused(1, 0);
        }
    }
    if let Some(position) = wrong_length(&[
        (kinds.len(), count as usize),
        (lengths.len(), count as usize),
        (head.len(), head_length(count) as usize),
    ]) {
        return Answer::refused(2, position);
    }
    head.copy_from_slice(&head_bytes(count, kinds, lengths));
    Answer::done(head.len() as u64)
}

struct Entry {
    kind: u64,
    offset: u64,
    length: u64,
}

/// A field, high byte first.
fn number(field: &[u8]) -> u64 {
    let mut value = 0;
    for byte in field {
        value = value * 256 + u64::from(*byte);
    }
    value
}

/// The entries, `count` at most, that are not cut off.
fn whole_entries(first: &[u8], count: u64) -> Vec<Entry> {
    let mut entries = Vec::new();
    for i in 0..count as usize {
        let start = ENTRIES_START + ENTRY_BYTES * i;
        if start + ENTRY_BYTES <= first.len() {
            entries.push(Entry {
                kind: number(&first[start..start + 1]),
                offset: number(&first[start + 1..start + 5]),
                length: number(&first[start + 5..start + 9]),
            });
        }
    }
    entries
}

/// Reading takes the size of the file and its first bytes, as many as the longest head has or all, and fills the three
/// lists of 32 numbers as far as there are entries. The count handed back is the number of entries.
/// As for captures each number is looked for in the whole table before the next one is.
pub fn read(size: u64, first: &[u8], kinds: &mut [u64], offsets: &mut [u64], lengths: &mut [u64]) -> Answer {
    if let Some(position) = wrong_length(&[
        (first.len(), size.min(LONGEST_HEAD as u64) as usize),
        (kinds.len(), MOST_ENTRIES),
        (offsets.len(), MOST_ENTRIES),
        (lengths.len(), MOST_ENTRIES),
    ]) {
        return Answer::refused(2, position);
    }

    // 10: fewer than 16 bytes, or others.
    if !first.starts_with(&FIRST_BYTES) {
        return Answer::refused(10, 0);
    }

    // 11: the count missing or outside 1..32.
    if first.len() < ENTRIES_START {
        return Answer::refused(11, 0);
    }
    let count = number(&first[FIRST_BYTES.len()..ENTRIES_START]);
    if !count_is_stated(count) {
        return Answer::refused(11, 0);
    }

    // 11: a kind outside 1..3 in a whole entry, also behind an entry that is in the wrong place.
    let entries = whole_entries(first, count);
    for i in 0..entries.len() {
        if !kind_is_stated(entries[i].kind) {
            return Answer::refused(11, i as u64 + 1);
        }
    }

    // 12: an entry cut off, or an offset not where the rule puts it.
    let mut stored_lengths = Vec::new();
    for i in 0..count as usize {
        let cut_off = i >= entries.len();
        if cut_off || u128::from(entries[i].offset) != offset(count, &stored_lengths, i) {
            return Answer::refused(12, i as u64 + 1);
        }
        stored_lengths.push(entries[i].length);
    }

    // 12: only the end not where the rule puts it.
    if u128::from(size) != offset(count, &stored_lengths, count as usize) {
        return Answer::refused(12, count);
    }

    for i in 0..entries.len() {
        kinds[i] = entries[i].kind;
        offsets[i] = entries[i].offset;
        lengths[i] = entries[i].length;
    }
    Answer::done(count)
}

/// The listing program's whole output for a file. The file may be too large to hold: of what lies behind the longest
/// head only the bytes are counted.
pub fn list_program(mut file: impl Read) -> String {
    let mut first = Vec::new();
    file.by_ref()
        .take(LONGEST_HEAD as u64)
        .read_to_end(&mut first)
        .expect("the file can be read");
    let behind = std::io::copy(&mut file, &mut std::io::sink()).expect("the file can be read");
    let size = first.len() as u64 + behind;

    let mut kinds = [0; MOST_ENTRIES];
    let mut offsets = [0; MOST_ENTRIES];
    let mut lengths = [0; MOST_ENTRIES];
    let answer = read(size, &first, &mut kinds, &mut offsets, &mut lengths);
    if answer.number != 0 {
        return format!("refused {}\n", answer.number);
    }
    let mut text = String::new();
    for i in 0..answer.count as usize {
        text += &format!("{} {} {} {}\n", i + 1, kind_name(kinds[i]), offsets[i], lengths[i]);
    }
    text
}

fn kind_name(kind: u64) -> &'static str {
    match kind {
        1 => "information",
        2 => "parity",
        3 => "capture",
        _ => unreachable!("reading grants no other kind"),
    }
}
