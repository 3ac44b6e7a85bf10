//! Heads of archive files written and read: `archive_writes` and `archive_reads`.

use super::shown;
use crate::archive;
use crate::generator::{digest, digest_of_numbers};

const TWO_TO_32: u64 = 1 << 32;

/// A replaced number of a list, counted from 0, and its new value. This one replaces nothing.
const NONE_REPLACED: (usize, u64) = (99, 0);

/// A byte of a file, counted from 0, and its new value. This one sets nothing.
const NONE_SET: (usize, u8) = (999, 0);

/// Kinds number i is 1 + i mod 3.
fn list_of_kinds(many: usize, replaced: (usize, u64)) -> Vec<u64> {
    let mut list: Vec<u64> = (0..many as u64).map(|i| 1 + i % 3).collect();
    replace(&mut list, replaced);
    list
}

/// Lengths number i is 1000 · (i + 1).
fn list_of_lengths(many: usize, replaced: (usize, u64)) -> Vec<u64> {
    let mut list: Vec<u64> = (0..many as u64).map(|i| 1_000 * (i + 1)).collect();
    replace(&mut list, replaced);
    list
}

/// Only where the list reaches that number.
fn replace(list: &mut [u64], (i, value): (usize, u64)) {
    if i < list.len() {
        list[i] = value;
    }
}

/// A call of writing: the count, how many kinds, lengths and bytes of the head there are, and what is replaced.
struct Writing {
    n: u64,
    kinds: usize,
    lengths: usize,
    head: usize,
    kind: (usize, u64),
    length: (usize, u64),
}

impl Writing {
    /// All as long as the count wants it, and nothing replaced.
    fn right(n: usize) -> Writing {
        Writing {
            n: n as u64,
            kinds: n,
            lengths: n,
            head: archive::ENTRIES_START + archive::ENTRY_BYTES * n,
            kind: NONE_REPLACED,
            length: NONE_REPLACED,
        }
    }

    /// Writes into a head of bytes 90.
    fn line(self) -> String {
        let kinds = list_of_kinds(self.kinds, self.kind);
        let lengths = list_of_lengths(self.lengths, self.length);
        let mut head = vec![90u8; self.head];
        let answer = archive::write(self.n, &kinds, &lengths, &mut head);
        let mut text = format!("write {} lists {} {}", self.n, self.kinds, self.lengths);
        text += &format!(" head {} kind {} {}", self.head, self.kind.0, self.kind.1);
        text += &format!(" length {} {}", self.length.0, self.length.1);
        text + &format!(" {} head {}\n", shown(answer), digest(&head))
    }
}

pub fn archive_writes() -> String {
    written_counts() + &written_offsets() + &written_several() + &written_numbers() + &written_list_lengths()
}

/// Counts in and outside 1..32. Where the count is large the lists have 40 numbers and the head 400 bytes.
fn written_counts() -> String {
    let mut text = String::new();
    let small = [0, 1, 2, 3, 31, 32, 33, 34];
    let large = [1 << 16, (1 << 16) + 1, TWO_TO_32, TWO_TO_32 + 1, u64::MAX];
    for n in small.into_iter().chain(large) {
        let mut writing = Writing::right(n.min(40) as usize);
        writing.n = n;
        writing.head = archive::head_length(n).min(400) as usize;
        text += &writing.line();
    }
    text
}

/// A kind outside 1..3, then a length at the edges of its field, in the first entry and in the last.
/// Where there is one entry it is both, and is written twice.
fn written_numbers() -> String {
    let mut text = String::new();
    for n in [1, 2, 32] {
        for e in [0, n - 1] {
            for v in [0, 4, 255, 256, 257, u64::MAX] {
                let mut writing = Writing::right(n);
                writing.kind = (e, v);
                text += &writing.line();
            }
        }
    }
    for n in [1, 2, 32] {
        for f in [0, n - 1] {
            for w in [0, TWO_TO_32 - 1, TWO_TO_32, u64::MAX] {
                let mut writing = Writing::right(n);
                writing.length = (f, w);
                text += &writing.line();
            }
        }
    }
    text
}

/// The last offset is the most that its field holds, then one more.
fn written_offsets() -> String {
    let mut text = String::new();
    for (n, f, w) in [
        (2, 0, TWO_TO_32 - 37),
        (2, 0, TWO_TO_32 - 36),
        (32, 0, TWO_TO_32 - 495_307),
        (32, 0, TWO_TO_32 - 495_306),
        (32, 30, TWO_TO_32 - 465_307),
        (32, 30, TWO_TO_32 - 465_306),
    ] {
        let mut writing = Writing::right(n);
        writing.length = (f, w);
        text += &writing.line();
    }
    text
}

/// Lists and a head that are too short by one, right, or too long by one.
fn written_list_lengths() -> String {
    let mut text = String::new();
    for n in [1, 2, 32] {
        for kinds in [n - 1, n, n + 1] {
            for lengths in [n - 1, n, n + 1] {
                for head in [17 + 9 * n, 18 + 9 * n, 19 + 9 * n] {
                    let mut writing = Writing::right(n);
                    writing.kinds = kinds;
                    writing.lengths = lengths;
                    writing.head = head;
                    text += &writing.line();
                }
            }
        }
    }
    text
}

/// Numbers outside their fields where lists have the wrong length too: 1 for an entry that was handed in, else 2.
fn written_several() -> String {
    let none = NONE_REPLACED;
    let mut text = String::new();
    for (n, kinds, lengths, kind, length) in [
        (1, 1, 0, (0, 9), none),
        (33, 33, 33, (0, 9), none),
        (2, 1, 2, none, (1, TWO_TO_32)),
        (2, 2, 1, (1, 9), none),
        (2, 2, 1, (0, 9), none),
        (2, 3, 3, (2, 9), none),
        (2, 1, 3, none, (0, TWO_TO_32)),
        (32, 31, 32, (31, 0), none),
        (32, 31, 32, (30, 0), none),
        (0, 1, 1, (0, 9), (0, TWO_TO_32)),
    ] {
        let mut writing = Writing::right(n);
        writing.kinds = kinds;
        writing.lengths = lengths;
        writing.kind = kind;
        writing.length = length;
        text += &writing.line();
    }
    text
}

/// A call of reading. The file is a head made by the rule for n entries, one of the lengths replaced, and zero bytes
/// behind it; then up to three bytes are set. `first` is 0, 1 or 2 where the first bytes handed in are one too few,
/// right, or one too many. The lists are those of kinds, offsets and lengths.
#[derive(Clone, Copy)]
struct Reading {
    n: usize,
    length: (usize, u64),
    size: u64,
    sets: [(usize, u8); 3],
    first: usize,
    lists: [usize; 3],
}

impl Reading {
    /// A file as it was written, one of its lengths replaced, and right lists.
    fn right(n: usize, length: (usize, u64)) -> Reading {
        let size = archive::offset(n as u64, &list_of_lengths(n, length), n);
        Reading {
            n,
            length,
            size: size as u64,
            sets: [NONE_SET; 3],
            first: 1,
            lists: [archive::MOST_ENTRIES; 3],
        }
    }

    fn first_bytes(self) -> Vec<u8> {
        let kinds = list_of_kinds(self.n, NONE_REPLACED);
        let mut bytes = archive::head_bytes(self.n as u64, &kinds, &list_of_lengths(self.n, self.length));
        // Zero bytes, more than any case looks at.
        bytes.resize(400, 0);
        for (place, value) in self.sets {
            if (place, value) != NONE_SET {
                bytes[place] = value;
            }
        }
        let right = self.size.min(archive::LONGEST_HEAD as u64) as usize;
        bytes.truncate((right + self.first).saturating_sub(1));
        bytes
    }

    /// Reads into lists of sevens.
    fn line(self) -> String {
        let [k, o, l] = self.lists;
        let mut kinds = vec![7; k];
        let mut offsets = vec![7; o];
        let mut lengths = vec![7; l];
        let answer = archive::read(self.size, &self.first_bytes(), &mut kinds, &mut offsets, &mut lengths);
        let mut text = format!("read {} length {} {}", self.n, self.length.0, self.length.1);
        text += &format!(" size {} set", self.size);
        for (place, value) in self.sets {
            text += &format!(" {} {}", place, value);
        }
        text += &format!(" first {} lists {} {} {}", self.first, k, o, l);
        let all = [kinds, offsets, lengths].concat();
        text + &format!(" {} lists {}\n", shown(answer), digest_of_numbers(&all))
    }
}

pub fn archive_reads() -> String {
    read_other_counts()
        + &read_several()
        + &read_lengths_first()
        + &read_counts_and_sizes()
        + &read_first_bytes()
        + &read_entries()
        + &read_cut_off()
        + &read_large()
        + &read_list_lengths()
}

/// A file of n entries as it was written.
fn written(n: usize) -> Reading {
    Reading::right(n, NONE_REPLACED)
}

/// The same of another size.
fn sized(n: usize, size: u64) -> Reading {
    let mut reading = written(n);
    reading.size = size;
    reading
}

/// The same with one byte set.
fn changed(n: usize, place: usize, value: u8) -> Reading {
    let mut reading = written(n);
    reading.sets[0] = (place, value);
    reading
}

/// Counts in and outside 1..32, then sizes on both sides of each edge.
fn read_counts_and_sizes() -> String {
    let mut text = String::new();
    for n in 0..=33 {
        text += &written(n).line();
    }
    for n in [1, 2, 32] {
        for size in [0, 1, 15, 16, 17, 18, 19, 26, 27, 28, 35, 36] {
            text += &sized(n, size).line();
        }
        let right = written(n).size;
        for size in [right - 1, right, right + 1] {
            text += &sized(n, size).line();
        }
        for size in [TWO_TO_32 - 1, TWO_TO_32, 1 << 63, u64::MAX] {
            text += &sized(n, size).line();
        }
    }
    text
}

/// Each of the first 16 bytes wrong.
fn read_first_bytes() -> String {
    let mut text = String::new();
    for place in 0..16 {
        text += &changed(2, place, 0).line();
    }
    text
}

/// Other counts than the head was made for.
fn read_other_counts() -> String {
    let mut text = String::new();
    for (place, value) in [(16, 1), (17, 0), (17, 1), (17, 3), (17, 32), (17, 33), (17, 255)] {
        text += &changed(2, place, value).line();
    }
    text
}

/// The kind of each entry outside 1..3, then each byte of its offset and of its length set.
fn read_entries() -> String {
    let mut text = String::new();
    for n in [1, 2, 32] {
        for e in 0..n {
            for kind in [0, 4, 255] {
                text += &changed(n, 18 + 9 * e, kind).line();
            }
        }
    }
    for n in [1, 2, 32] {
        for e in 0..n {
            for j in 1..=8 {
                text += &changed(n, 18 + 9 * e + j, 165).line();
            }
        }
    }
    text
}

/// Files that end within the head or right behind it; then again with a kind 0 in the entry that is cut off there.
fn read_cut_off() -> String {
    let mut text = String::new();
    for size in 16..=306 {
        text += &sized(32, size).line();
    }
    for size in 18..=306 {
        let entry = (size as usize - 18) / 9;
        let mut reading = sized(32, size);
        // At the end of the longest head no entry is left that could be cut off.
        if entry < 32 {
            reading.sets[0] = (18 + 9 * entry, 0);
        }
        text += &reading.line();
    }
    text
}

/// Several things wrong at once. The entries stand at 18, 27 and 36, the low byte of an offset four bytes further.
fn read_several() -> String {
    let right = written(3).size;
    let none = NONE_SET;
    let mut text = String::new();
    for (size, first, second) in [
        (right, (22, 9), (36, 9)),
        (37, (36, 9), none),
        (44, (36, 9), none),
        (45, (36, 9), none),
        (right, (18, 0), (36, 0)),
        (right, (27, 0), (22, 9)),
        (right, (0, 0), (17, 0)),
        (right, (17, 0), (18, 0)),
        (right, (22, 9), (31, 9)),
        (right + 1, (31, 9), none),
        (right - 1, (40, 9), none),
        (40, (22, 9), none),
        (40, (22, 9), (27, 7)),
        (17, (0, 0), none),
        (17, (16, 9), none),
        (18, (17, 0), none),
    ] {
        let mut reading = sized(3, size);
        reading.sets = [first, second, none];
        text += &reading.line();
    }
    text
}

/// The last body is as long as its field can say, so the file ends beyond what four bytes hold; then the first one is, so
/// that the offsets behind it do not fit, and only their low 32 bits stand there.
fn read_large() -> String {
    let mut text = String::new();
    for (n, f) in [(1, 0), (2, 1), (32, 31), (2, 0), (32, 0)] {
        let right = Reading::right(n, (f, TWO_TO_32 - 1));
        for size in [
            right.size,
            right.size - 1,
            right.size + 1,
            right.size.saturating_sub(TWO_TO_32),
            right.size + TWO_TO_32,
            right.size + (1 << 63),
            u64::MAX - 1,
            u64::MAX,
        ] {
            let mut reading = right;
            reading.size = size;
            text += &reading.line();
        }
    }
    text
}

/// First bytes and lists that are too short by one, right, or too long by one.
fn read_list_lengths() -> String {
    let mut text = String::new();
    for first in 0..=2 {
        for k in [31, 32, 33] {
            for o in [31, 32, 33] {
                for l in [31, 32, 33] {
                    let mut reading = written(2);
                    reading.first = first;
                    reading.lists = [k, o, l];
                    text += &reading.line();
                }
            }
        }
    }
    text
}

/// 2 where 10 would apply too.
fn read_lengths_first() -> String {
    let mut text = String::new();
    for first in [0, 2] {
        let mut reading = sized(2, 10);
        reading.first = first;
        text += &reading.line();
    }
    for lists in [[0, 32, 32], [32, 0, 32], [32, 32, 0]] {
        let mut reading = sized(2, 10);
        reading.lists = lists;
        text += &reading.line();
    }
    text
}
