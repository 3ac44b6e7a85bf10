//! Archive files.

use crate::answer::Answer;
use crate::archive;
use crate::generator::{digest, digest_of_numbers, Generator};
use crate::texts;
use std::io::Read;

const TWO_TO_32: u64 = 1 << 32;

/// A file of three bodies, each byte as the request says it: an information of 5 bytes, an empty parity, a capture of 7.
fn three_bodies() -> Vec<u8> {
    let mut file = b"400ZR CAPTURE 1\n".to_vec();
    file.extend([0, 3]);
    file.extend([1, 0, 0, 0, 45, 0, 0, 0, 5]);
    file.extend([2, 0, 0, 0, 50, 0, 0, 0, 0]);
    file.extend([3, 0, 0, 0, 50, 0, 0, 0, 7]);
    file.extend(b"infos");
    file.extend(b"capture");
    file
}

/// Writes into a head of bytes 90. A refused call leaves them, and its count is 0. Only 2 has a place.
fn write(count: u64, kinds: &[u64], lengths: &[u64], head: usize) -> (Answer, Vec<u8>) {
    let before = vec![90u8; head];
    let mut head = before.clone();
    let answer = archive::write(count, kinds, lengths, &mut head);
    assert_eq!(answer.place != 0, answer.number == 2);
    if answer.number != 0 {
        assert_eq!((answer.count, &head), (0, &before));
    }
    (answer, head)
}

/// Reads into lists of sevens: kinds, offsets and lengths. What lies past the entries stays, all of it where the call
/// is refused.
fn read(size: u64, first: &[u8]) -> (Answer, [Vec<u64>; 3]) {
    let mut lists = [vec![7; 32], vec![7; 32], vec![7; 32]];
    let [kinds, offsets, lengths] = &mut lists;
    let answer = archive::read(size, first, kinds, offsets, lengths);
    if answer.number != 0 {
        assert_eq!(answer.count, 0);
    }
    for list in &lists {
        assert!(list[answer.count as usize..].iter().all(|number| *number == 7));
    }
    (answer, lists)
}

/// The first bytes that reading takes of a file of that size, zeros behind those given.
fn first_bytes(size: u64, given: &[u8]) -> Vec<u8> {
    let mut first = given.to_vec();
    first.resize(size.min(306) as usize, 0);
    first
}

/// The line of the request, and what else the program writes.
pub fn archive_listings() {
    let example = b"400ZR CAPTURE 1\n\x00\x01\x01\x00\x00\x00\x1b\x00\x00\x00\x00";
    assert_eq!(archive::list_program(&example[..]), "1 information 27 0\n");
    let file = three_bodies();
    let listing = "1 information 45 5\n2 parity 50 0\n3 capture 50 7\n";
    // It makes no difference in which parts the file comes.
    for cut in 0..=file.len() {
        assert_eq!(archive::list_program(file[0..cut].chain(&file[cut..])), listing);
    }
    assert_eq!(archive::list_program(&b""[..]), "refused 10\n");
    assert_eq!(archive::list_program(&file[0..17]), "refused 11\n");
    for size in 18..file.len() {
        assert_eq!(archive::list_program(&file[0..size]), "refused 12\n");
    }
    assert_eq!(archive::list_program(file.chain(&b"x"[..])), "refused 12\n");
}

/// A file above 4 GiB, which the program does not hold: its body is as long as the field can say.
pub fn archive_too_large_to_hold() {
    let head = b"400ZR CAPTURE 1\n\x00\x01\x03\x00\x00\x00\x1b\xff\xff\xff\xff";
    let file = |body: u64| head.chain(std::io::repeat(1).take(body));
    assert_eq!(archive::list_program(file(TWO_TO_32 - 1)), "1 capture 27 4294967295\n");
    assert_eq!(archive::list_program(file(TWO_TO_32)), "refused 12\n");
}

pub fn archive_write_refusals() {
    let most = TWO_TO_32 - 1;
    let outside = Answer::refused(1, 0);
    let wrong_length = |position: u64| Answer::refused(2, position);
    let file = three_bodies();
    assert_eq!(
        write(3, &[1, 2, 3], &[5, 0, 7], 45),
        (Answer::done(45), file[0..45].to_vec())
    );
    // 1: the count.
    for count in [0, 33, 256, 257, 65_537, TWO_TO_32 + 1, u64::MAX] {
        assert_eq!(write(count, &[1], &[5], 27).0, outside);
    }
    // 1: a kind, a length, an offset. The end alone may lie beyond its four bytes.
    for kind in [0, 4, 257, u64::MAX] {
        assert_eq!(write(2, &[1, kind], &[5, 5], 36).0, outside);
    }
    for length in [TWO_TO_32, TWO_TO_32 + 5, u64::MAX] {
        assert_eq!(write(2, &[1, 2], &[5, length], 36).0, outside);
        assert_eq!(write(2, &[1, 2], &[length, 5], 36).0, outside);
    }
    assert_eq!(write(2, &[1, 2], &[most, 0], 36).0, outside);
    assert_eq!(write(2, &[1, 2], &[most - 35, 0], 36).0, outside);
    assert_eq!(write(2, &[1, 2], &[most - 36, most], 36).0, Answer::done(36));
    // 2: a list or the head.
    assert_eq!(write(2, &[1], &[5, 5], 36).0, wrong_length(1));
    assert_eq!(write(2, &[1, 2], &[5, 5, 5], 36).0, wrong_length(2));
    assert_eq!(write(2, &[1, 2], &[5, 5], 35).0, wrong_length(3));
    assert_eq!(write(2, &[1, 2], &[5, 5], 37).0, wrong_length(3));
    // 1 comes before 2, but only for an entry that was handed in.
    assert_eq!(write(2, &[9], &[5, 5], 0).0, outside);
    assert_eq!(write(2, &[9], &[], 0).0, wrong_length(1));
    assert_eq!(write(2, &[1, 9], &[5], 36).0, wrong_length(2));
    assert_eq!(write(2, &[1, 2, 9], &[5, 5, u64::MAX], 36).0, wrong_length(1));
}

/// Each number that reading can give, and what wins where several apply.
pub fn archive_read_refusals() {
    let file = three_bodies();
    let whole = file.len() as u64;
    let refused = |number: u64, place: u64| Answer::refused(number, place);
    // The file cut or made longer, then some of its bytes set.
    let read_changed = |size: u64, sets: &[(usize, u8)]| -> Answer {
        let mut first = first_bytes(size, &file);
        for (place, value) in sets {
            first[*place] = *value;
        }
        read(size, &first).0
    };
    let (answer, [kinds, offsets, lengths]) = read(whole, &file);
    assert_eq!(answer, Answer::done(3));
    assert_eq!(kinds[0..3], [1, 2, 3]);
    assert_eq!(offsets[0..3], [45, 50, 50]);
    assert_eq!(lengths[0..3], [5, 0, 7]);

    // 10
    for size in 0..16 {
        assert_eq!(read_changed(size, &[]), refused(10, 0));
    }
    for place in 0..16 {
        assert_eq!(read_changed(whole, &[(place, file[place] ^ 32)]), refused(10, 0));
    }
    // 11: the count.
    for size in 16..18 {
        assert_eq!(read_changed(size, &[]), refused(11, 0));
    }
    for (place, value) in [(17, 0), (17, 33), (17, 255), (16, 1), (16, 255)] {
        assert_eq!(read_changed(whole, &[(place, value)]), refused(11, 0));
    }
    for entry in 0..3 {
        let start = 18 + 9 * entry;
        let place = entry as u64 + 1;
        // 11: a kind.
        for kind in [0, 4, 255] {
            assert_eq!(read_changed(whole, &[(start, kind)]), refused(11, place));
        }
        // 12: an offset; a length, which moves the next body, or the end.
        for field in 1..5 {
            assert_eq!(read_changed(whole, &[(start + field, 99)]), refused(12, place));
            let next = (place + 1).min(3);
            assert_eq!(read_changed(whole, &[(start + field + 4, 99)]), refused(12, next));
        }
        // 12: an entry cut off, with whatever kind.
        for cut in 0..9 {
            assert_eq!(read_changed((start + cut) as u64, &[]), refused(12, place));
        }
        for cut in 1..9 {
            assert_eq!(read_changed((start + cut) as u64, &[(start, 0)]), refused(12, place));
        }
    }
    // 12: the end.
    for size in [45, whole - 1, whole + 1, whole + TWO_TO_32, u64::MAX] {
        assert_eq!(read_changed(size, &[]), refused(12, 3));
    }

    // The smaller number, then the smaller place, wherever it stands.
    assert_eq!(read_changed(whole, &[(0, 0), (17, 0)]), refused(10, 0));
    assert_eq!(read_changed(whole, &[(17, 0), (18, 0)]), refused(11, 0));
    assert_eq!(read_changed(whole, &[(36, 0), (27, 0)]), refused(11, 2));
    assert_eq!(read_changed(whole, &[(22, 0), (36, 0)]), refused(11, 3));
    assert_eq!(read_changed(40, &[(22, 0), (27, 0)]), refused(11, 2));
    assert_eq!(read_changed(40, &[(22, 0)]), refused(12, 1));
    assert_eq!(read_changed(whole, &[(40, 0), (31, 0)]), refused(12, 2));
    assert_eq!(read_changed(whole + 1, &[(31, 0)]), refused(12, 2));
}

/// The lengths of what reading is lent, also where another number would apply.
pub fn archive_read_lengths() {
    for file in [three_bodies(), b"no such file".to_vec()] {
        let size = file.len() as u64;
        let few = file[1..].to_vec();
        let many = first_bytes(size + 1, &file);
        for first in [few, many] {
            assert_eq!(read(size, &first).0, Answer::refused(2, 1));
        }
        for (k, o, l, position) in [(31, 32, 32, 2), (32, 33, 32, 3), (32, 32, 0, 4)] {
            let mut lists = [vec![7; k], vec![7; o], vec![7; l]];
            let before = lists.clone();
            let [kinds, offsets, lengths] = &mut lists;
            assert_eq!(
                archive::read(size, &file, kinds, offsets, lengths),
                Answer::refused(2, position)
            );
            assert_eq!(lists, before);
        }
    }
    // 306 bytes of a longer file, neither fewer nor all.
    let long = first_bytes(306, &three_bodies());
    assert_eq!(read(400, &long).0, Answer::refused(12, 3));
    assert_eq!(read(400, &long[0..305]).0, Answer::refused(2, 1));
    assert_eq!(read(400, &[&long[..], &[0; 94]].concat()).0, Answer::refused(2, 1));
}

/// A length: none, short, any that four bytes hold, or close to the most that they hold.
fn some_length(generator: &mut Generator) -> u64 {
    match generator.below(4) {
        0 => 0,
        1 => generator.below(2_000),
        2 => generator.number() >> 32,
        _ => TWO_TO_32 - 1 - generator.below(400),
    }
}

/// Kinds and lengths, half of the time only short lengths: else an offset is soon beyond its field.
fn some_table(generator: &mut Generator, count: u64) -> (Vec<u64>, Vec<u64>) {
    let short = generator.below(2) == 0;
    let mut kinds = Vec::new();
    let mut lengths = Vec::new();
    for _ in 0..count {
        kinds.push(1 + generator.below(3));
        lengths.push(if short {
            generator.below(400)
        } else {
            some_length(generator)
        });
    }
    // The last length moves no offset.
    if let Some(last) = lengths.last_mut() {
        *last = some_length(generator);
    }
    (kinds, lengths)
}

/// "agrees with reading both ways": writing is granted exactly if the bytes that the rule lays, in a file that ends
/// where the rule says, are read as the very numbers that were handed in.
pub fn archive_writing_agrees_with_reading() {
    let mut generator = Generator::new(5_001);
    let (mut granted, mut refused) = (0, 0);
    for _ in 0..20_000 {
        let count = generator.below(36);
        let (mut kinds, mut lengths) = some_table(&mut generator, count);
        // Sometimes a number outside its field, whose low bytes may be inside.
        if count > 0 {
            let i = generator.below(count) as usize;
            match generator.below(6) {
                0 => kinds[i] = [0, 4, 255, 256, 257, u64::MAX][generator.below(6) as usize],
                1 => lengths[i] += TWO_TO_32 << generator.below(32),
                2 => lengths[i] = u64::MAX,
                _ => {}
            }
        }
        let laid = archive::head_bytes(count, &kinds, &lengths);
        let same = read_as_handed_in(count, &kinds, &lengths, &laid);
        let (answer, head) = write(count, &kinds, &lengths, laid.len());
        if same {
            assert_eq!((answer, head), (Answer::done(18 + 9 * count), laid));
            granted += 1;
        } else {
            assert_eq!(answer, Answer::refused(1, 0));
            refused += 1;
        }
    }
    assert!(granted > 5_000 && refused > 5_000);
}

fn read_as_handed_in(count: u64, kinds: &[u64], lengths: &[u64], laid: &[u8]) -> bool {
    let n = count as usize;
    let Ok(size) = u64::try_from(archive::offset(count, lengths, n)) else {
        return false;
    };
    let (answer, read) = read(size, &first_bytes(size, laid));
    let offset_is_same = |i: usize| u128::from(read[1][i]) == archive::offset(count, lengths, i);
    answer == Answer::done(count) && read[0][0..n] == *kinds && read[2][0..n] == *lengths && (0..n).all(offset_is_same)
}

/// A number on paper: its digits to the base 256, high digit first, more of them than any sum here needs.
type Paper = [u8; 12];

/// Adds a field digit by digit, from the last to the first, with what is carried.
fn add(number: &mut Paper, field: &[u8]) {
    let mut carried = 0;
    for k in 0..number.len() {
        let place = number.len() - 1 - k;
        let mut sum = carried + u16::from(number[place]);
        if k < field.len() {
            sum += u16::from(field[field.len() - 1 - k]);
        }
        number[place] = (sum % 256) as u8;
        carried = sum / 256;
    }
    assert_eq!(carried, 0);
}

fn on_paper(field: &[u8]) -> Paper {
    let mut number = [0; 12];
    add(&mut number, field);
    number
}

/// By another road: the file is walked once from its first byte on, the rule is added on paper, and everything that is
/// wrong is noted with its number and place. "If several apply, the smallest number, then the smallest place."
fn walked(size: u64, first: &[u8]) -> Answer {
    let mut wrong = Vec::new();
    let mut bytes = first.iter().copied();
    for letter in b"400ZR CAPTURE 1\n" {
        if bytes.next() != Some(*letter) {
            wrong.push((10, 0));
        }
    }
    let count = match (bytes.next(), bytes.next()) {
        (Some(0), Some(low)) if (1..=32).contains(&low) => low,
        _ => {
            wrong.push((11, 0));
            0
        }
    };
    let mut rule = on_paper(&[18]);
    for _ in 0..count {
        add(&mut rule, &[9]);
    }
    for place in 1..=u64::from(count) {
        let entry: Vec<u8> = bytes.by_ref().take(9).collect();
        if entry.len() < 9 {
            wrong.push((12, place));
            continue;
        }
        if ![1, 2, 3].contains(&entry[0]) {
            wrong.push((11, place));
        }
        if on_paper(&entry[1..5]) != rule {
            wrong.push((12, place));
        }
        add(&mut rule, &entry[5..9]);
    }
    if on_paper(&size.to_be_bytes()) != rule {
        wrong.push((12, u64::from(count)));
    }
    match wrong.iter().min() {
        Some((number, place)) => Answer::refused(*number, *place),
        None => Answer::done(u64::from(count)),
    }
}

/// Reads a file both ways. What was granted is written anew, and gives the same head.
fn check_both_ways(size: u64, first: &[u8]) -> Answer {
    let (answer, [kinds, offsets, lengths]) = read(size, first);
    assert_eq!(answer, walked(size, first));
    if answer.number == 0 {
        let n = answer.count as usize;
        let head = 18 + 9 * n;
        let again = write(answer.count, &kinds[0..n], &lengths[0..n], head);
        assert_eq!(again, (Answer::done(head as u64), first[0..head].to_vec()));
        // "touching each other and the table, to the end of the file"
        let mut place = head as u64;
        for i in 0..n {
            assert_eq!(offsets[i], place);
            place += lengths[i];
        }
        assert_eq!(place, size);
    }
    answer
}

/// Heads of every count with every size up to a little past the end; and with each byte set to each value.
pub fn archive_every_size_and_byte() {
    for n in 1..=32 {
        let kinds: Vec<u64> = (0..n).map(|i| 1 + i % 3).collect();
        let lengths: Vec<u64> = (0..n).map(|i| i % 5).collect();
        let head = archive::head_bytes(n, &kinds, &lengths);
        let right = archive::offset(n, &lengths, n as usize) as u64;
        for size in 0..right + 20 {
            let number = check_both_ways(size, &first_bytes(size, &head)).number;
            assert_eq!(number == 0, size == right);
        }
        if ![1, 2, 3, 32].contains(&n) {
            continue;
        }
        for place in 0..head.len() {
            for value in 0..=255 {
                let mut changed = first_bytes(right, &head);
                changed[place] = value;
                check_both_ways(right, &changed);
            }
        }
    }
}

/// Heads from any table, also with offsets beyond their field, damaged up to three times.
pub fn archive_damaged_heads() {
    let mut generator = Generator::new(5_002);
    let mut times = [0; 13];
    for _ in 0..40_000 {
        let count = 1 + generator.below(32);
        let (kinds, lengths) = some_table(&mut generator, count);
        let mut bytes = archive::head_bytes(count, &kinds, &lengths);
        let head = bytes.len() as u64;
        let mut size = archive::offset(count, &lengths, count as usize) as u64;
        // Bodies that are not zero, and for a count set higher, entries in them.
        bytes.extend((0..306).map(|_| generator.below(5) as u8));
        for _ in 0..generator.below(4) {
            match generator.below(6) {
                0 => bytes[generator.below(18) as usize] ^= 1 << generator.below(8),
                1 => bytes[generator.below(head) as usize] = generator.byte(),
                2 => bytes[18 + 9 * generator.below(count) as usize] = generator.below(5) as u8,
                3 => size = generator.below(head + 10),
                4 => size = (size + 2 * generator.below(2)).saturating_sub(1),
                _ => size = size.wrapping_add(TWO_TO_32 << generator.below(32)),
            }
        }
        bytes.truncate(size.min(306) as usize);
        times[check_both_ways(size, &bytes).number as usize] += 1;
    }
    for number in [0, 10, 11, 12] {
        assert!(times[number] > 2_000, "{:?}", times);
    }
}

/// An offset that the rule puts beyond its field is refused, whatever stands there: here its low bytes.
pub fn archive_offsets_do_not_wrap() {
    for n in 2..=32 {
        let kinds = vec![1; n];
        for large in 0..n - 1 {
            let mut lengths = vec![0; n];
            lengths[large] = TWO_TO_32 - 1;
            let head = archive::head_bytes(n as u64, &kinds, &lengths);
            let size = archive::offset(n as u64, &lengths, n) as u64;
            let place = large as u64 + 2;
            assert_eq!(
                check_both_ways(size, &first_bytes(size, &head)),
                Answer::refused(12, place)
            );
        }
    }
}

/// In the texts a refused call leaves the head and the lists as they were, and a granted one does not; and how often
/// each number stands there.
pub fn archive_texts() {
    let mut writes = [0; 13];
    for line in texts::archive_writes().lines() {
        let words: Vec<&str> = line.split(' ').collect();
        let number: usize = words[14].parse().unwrap();
        let before = digest(&vec![90; words[6].parse().unwrap()]);
        assert_eq!(words[20] == before, number != 0, "{}", line);
        writes[number] += 1;
    }
    let mut reads = [0; 13];
    for line in texts::archive_reads().lines() {
        let words: Vec<&str> = line.split(' ').collect();
        let number: usize = words[21].parse().unwrap();
        let numbers: usize = words[17..20].iter().map(|list| list.parse::<usize>().unwrap()).sum();
        let before = digest_of_numbers(&vec![7; numbers]);
        assert_eq!(words[27] == before, number != 0, "{}", line);
        reads[number] += 1;
    }
    // Written: counts, lengths, offsets and one call for each n of the list lengths are granted.
    assert_eq!(writes[0], 5 + 10 + 3 + 3);
    // Counts, kinds, lengths, offsets, several.
    assert_eq!(writes[1], 8 + 36 + 14 + 3 + 5);
    // List lengths, several.
    assert_eq!(writes[2], 78 + 5);
    // Read: counts, sizes, large ones and one call of the list lengths are granted.
    assert_eq!(reads[0], 32 + 3 + 3 + 1);
    // List lengths.
    assert_eq!(reads[2], 80 + 5);
    // Sizes, first bytes, several.
    assert_eq!(reads[10], 9 + 16 + 2);
    // Counts, sizes, other counts, kinds, the two shortest files that end in the head, several.
    assert_eq!(reads[11], 2 + 6 + 6 + 105 + 2 + 8);
    // Sizes, another count, fields, files that end in the head twice, several, large ones.
    assert_eq!(reads[12], 39 + 1 + 280 + 2 * 289 + 6 + 37);
    assert_eq!(writes.iter().sum::<u64>(), 170);
    assert_eq!(reads.iter().sum::<u64>(), 1_221);
}
