//! Which buffer a refusal names. Document 02, M-103.

use crate::answer::Answer;
use crate::archive;
use crate::capture;
use crate::generator::{bytes_from_seed, digest, digest_of_numbers, Generator};
use crate::gmp;
use crate::texts;

/// Something wrong: its number and its place.
type Wrong = (u64, u64);

const NOTHING: &[Wrong] = &[];
const OUTSIDE: &[Wrong] = &[(1, 0)];
const SPARE: &[Wrong] = &[(3, 1)];
const OUTSIDE_AND_SPARE: &[Wrong] = &[(1, 0), (3, 1)];

/// By another road than the calls: everything that is wrong is noted, the last buffer first. "If several apply, the
/// smallest number, then the smallest place." None where none of the first three numbers applies.
fn expected(others: &[Wrong], stated: &[usize], lent: &[usize]) -> Option<Answer> {
    let mut wrong = others.to_vec();
    for i in (0..stated.len()).rev() {
        if lent[i] < stated[i] || lent[i] > stated[i] {
            wrong.push((2, 1 + i as u64));
        }
    }
    wrong.sort();
    wrong.first().map(|(number, place)| Answer::refused(*number, *place))
}

/// Calls with every choice of lengths: no buffer, one too few, right, one too many.
/// `others` is what is wrong beside the lengths. Where all is right the call gives none of the first three numbers.
fn check<const K: usize>(others: &[Wrong], stated: [usize; K], call: impl Fn([usize; K]) -> Answer) {
    for choice in 0..4usize.pow(K as u32) {
        let mut lent = stated;
        let mut rest = choice;
        for length in lent.iter_mut() {
            *length = [0, length.saturating_sub(1), *length, *length + 1][rest % 4];
            rest /= 4;
        }
        let answer = call(lent);
        match expected(others, &stated, &lent) {
            Some(refusal) => assert_eq!(answer, refusal, "{:?}", lent),
            None => assert!(![1, 2, 3].contains(&answer.number), "{:?}", lent),
        }
    }
}

/// An output that stood full of 90 still does where the call was refused.
fn kept<T: PartialEq + From<u8>>(answer: Answer, output: &[T]) {
    assert!(answer.number == 0 || output.iter().all(|value| *value == T::from(90)));
}

fn code(n: u64, m0: u64, [information, parity, captured]: [usize; 3]) -> Answer {
    let mut captured = vec![90; captured];
    let answer = capture::code(n, m0, &vec![1; information], &vec![2; parity], &mut captured);
    kept(answer, &captured);
    answer
}

fn read(n: u64, m0: u64, [captured, information, parity]: [usize; 3]) -> Answer {
    let mut information = vec![90; information];
    let mut parity = vec![90; parity];
    let answer = capture::read(n, m0, &vec![0; captured], &mut information, &mut parity);
    kept(answer, &information);
    kept(answer, &parity);
    answer
}

/// The lengths of document 01. Where N is outside its set no length is stated: those of one super frame stand there.
pub fn buffers_of_coding_and_reading() {
    for (n, m0, others) in [
        (1, 7, NOTHING),
        (2, 127, NOTHING),
        (0, 7, OUTSIDE),
        (9, 7, OUTSIDE),
        (1, 128, OUTSIDE),
    ] {
        let many = if n == 2 { 2 } else { 1 };
        let information = 152_915 * many;
        let parity = 10_240 * many;
        let captured = 175_616 * many + 7_680;
        check(others, [information, parity, captured], |lent| code(n, m0, lent));
        check(others, [captured, information, parity], |lent| read(n, m0, lent));
    }
}

/// A capture of bytes 90 has words that fail their checks: 9 comes after all that is asked here.
fn edit(n: u64, block: u64, spare: u8, [client, parity, captured, list]: [usize; 4]) -> Answer {
    let mut client = vec![3; client];
    if let Some(last) = client.get_mut(32) {
        *last = 0x80 | spare;
    }
    let mut captured = vec![90; captured];
    let mut list = vec![90; list];
    let answer = capture::edit(n, block, &client, &vec![4; parity], &mut captured, &mut list);
    kept(answer, &captured);
    kept::<u64>(answer, &list);
    answer
}

pub fn buffers_of_edits() {
    let one = [33, 2_048, 183_296, 145];
    let two = [33, 2_048, 358_912, 145];
    check(NOTHING, one, |lent| edit(1, 4_759, 0, lent));
    check(NOTHING, two, |lent| edit(2, 4_760, 0, lent));
    check(SPARE, one, |lent| edit(1, 6, 0x40, lent));
    check(SPARE, two, |lent| edit(2, 6, 0x01, lent));
    check(OUTSIDE, one, |lent| edit(0, 0, 0, lent));
    check(OUTSIDE_AND_SPARE, one, |lent| edit(1, 4_760, 0x7f, lent));
}

pub fn buffers_of_parts() {
    for (n, t, others) in [(1, 4, NOTHING), (1, 5, OUTSIDE), (0, 0, OUTSIDE), (9, 0, OUTSIDE)] {
        check(others, [152_915], |[information]| {
            let lent = vec![5; information];
            let (answer, part) = capture::part(n, t, &lent);
            assert_eq!(part.is_empty(), answer.number != 0);
            answer
        });
    }
}

fn map(c: u64, spare: u8, [groups, window]: [usize; 2]) -> Answer {
    let mut groups = vec![0xf0; groups];
    if let Some(last) = groups.last_mut() {
        *last |= spare;
    }
    let mut window = vec![90; window];
    let answer = gmp::map(c, 1, 2, &groups, &mut window);
    kept(answer, &window);
    answer
}

fn unmap(c: u64, [window, groups]: [usize; 2]) -> Answer {
    let mut groups = vec![90; groups];
    let answer = gmp::unmap(c, 1, 2, &vec![0xff; window], &mut groups);
    kept(answer, &groups);
    answer
}

/// Windows of places 1 and 2: for these counts none, one or both are data. With both, and with none, no bit is spare.
pub fn buffers_of_windows() {
    for (c, groups) in [(0, 0), (10_216, 129), (10_220, 257)] {
        let spare = if groups == 129 { SPARE } else { NOTHING };
        check(NOTHING, [groups, 257], |lent| map(c, 0, lent));
        check(spare, [groups, 257], |lent| map(c, 8, lent));
        check(NOTHING, [257, groups], |lent| unmap(c, lent));
    }
    check(OUTSIDE_AND_SPARE, [129, 257], |lent| map(10_221, 1, lent));
    check(OUTSIDE, [257, 129], |lent| unmap(10_221, lent));
}

fn write(count: u64, [kinds, lengths, head]: [usize; 3]) -> Answer {
    let mut head = vec![90; head];
    let answer = archive::write(count, &vec![1; kinds], &vec![6; lengths], &mut head);
    kept(answer, &head);
    answer
}

/// The first bytes are not those of an archive file: 10 comes after all that is asked here.
fn open(size: u64, [first, kinds, offsets, lengths]: [usize; 4]) -> Answer {
    let mut lists = [kinds, offsets, lengths].map(|list| vec![90u64; list]);
    let [kinds, offsets, lengths] = &mut lists;
    let answer = archive::read(size, &vec![b'x'; first], kinds, offsets, lengths);
    kept(answer, &lists.concat());
    answer
}

/// The request names no order for these: kinds, lengths, head; first bytes, kinds, offsets, lengths.
pub fn buffers_of_archive_files() {
    for n in [1, 2, 32] {
        check(NOTHING, [n, n, 18 + 9 * n], |lent| write(n as u64, lent));
    }
    for count in [0, 33, u64::MAX] {
        check(OUTSIDE, [2, 2, 36], |lent| write(count, lent));
    }
    for (size, first) in [(0, 0), (48, 48), (306, 306), (307, 306), (u64::MAX, 306)] {
        check(NOTHING, [first, 32, 32, 32], |lent| open(size, lent));
    }
}

/// The calls of the text, and their lengths as the documents state them.
const CALLS: [(&str, &[usize]); 8] = [
    ("code", &[152_915, 10_240, 183_296]),
    ("read", &[183_296, 152_915, 10_240]),
    ("edit", &[33, 2_048, 183_296, 145]),
    ("part", &[152_915]),
    ("map", &[129, 257]),
    ("unmap", &[257, 129]),
    ("archive write", &[2, 2, 36]),
    ("archive read", &[48, 32, 32, 32]),
];

/// The digest of an output before a call. `coded` is what the capture of an edit is the first bytes of.
fn before(call: &str, output: &str, length: usize, coded: &[u8]) -> String {
    let mut generator = Generator::new(996);
    match (call, output) {
        ("edit", "capture") => digest(&coded[0..length]),
        ("edit", "list") | ("archive read", _) => {
            let list: Vec<u64> = (0..length).map(|_| generator.number()).collect();
            digest_of_numbers(&list)
        }
        ("read", "information") => digest(&bytes_from_seed(998, length)),
        ("read", "parity") => digest(&bytes_from_seed(997, length)),
        ("unmap", "groups") => digest(&bytes_from_seed(995, length)),
        ("code", "capture") | ("map", "window") | ("archive write", "head") => digest(&bytes_from_seed(999, length)),
        _ => panic!("{} has no {}", call, output),
    }
}

/// The answer in a line against the lengths in it; and a refused call leaves each output, which are the last buffers, as
/// it was, where a granted one does not. A refused part is empty.
fn check_line(line: &str, coded: &[u8]) -> usize {
    let (called, answered) = line.split_once(": ").unwrap();
    let (call, stated) = CALLS.iter().find(|(call, _)| called.starts_with(call)).unwrap();
    let words: Vec<&str> = called.split(' ').collect();
    let lengths = words[words.len() - stated.len()..].iter();
    let lent: Vec<usize> = lengths.map(|word| word.parse().unwrap()).collect();
    let others = match (called.contains(" of "), called.contains(" spare ")) {
        (true, _) => OUTSIDE,
        (_, true) => SPARE,
        _ => NOTHING,
    };
    let answer = match expected(others, stated, &lent) {
        Some(refusal) => format!("number {} place {} count 0 ", refusal.number, refusal.place),
        None => "number 0 place 0 count ".to_string(),
    };
    assert!(answered.starts_with(&answer), "{}", line);
    let words: Vec<&str> = answered.split(' ').collect();
    let number: usize = words[1].parse().unwrap();
    let outputs: Vec<&[&str]> = words[6..].chunks(2).collect();
    for (output, length) in outputs.iter().rev().zip(lent.iter().rev()) {
        let unchanged = match *call {
            "part" => "0".to_string(),
            _ => before(call, output[0], *length, coded),
        };
        assert_eq!(output[1] == unchanged, number != 0, "{}", line);
    }
    number
}

/// What the lines of the `buffers` text are meant to show.
pub fn buffer_lines() {
    let coded = [texts::coded_capture(1).capture, vec![0]].concat();
    let mut times = [0; 4];
    for line in texts::buffers().lines() {
        times[check_line(line, &coded)] += 1;
    }
    // Each call is granted once; each but the last meets a number outside its set once; two have spare bits.
    assert_eq!(times, [8, 7, 361 - 8 - 7 - 2, 2]);
}
