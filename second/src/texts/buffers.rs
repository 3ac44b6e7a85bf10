//! Every call with buffers of wrong lengths and with spare bits set: `buffers`.
//! Document 02, M-103.

use super::{coded_capture, list_before, shown};
use super::{CAPTURE_SEED, GROUPS_SEED, INFORMATION_SEED, PARITY_SEED};
use crate::answer::Answer;
use crate::archive;
use crate::capture;
use crate::generator::{bytes_from_seed, digest, digest_of_numbers, Generator};
use crate::gmp;

/// The stated lengths of the buffers of each call, in the order of their positions.
const CODE: [usize; 3] = [152_915, 10_240, 183_296];
const READ: [usize; 3] = [183_296, 152_915, 10_240];
const EDIT: [usize; 4] = [33, 2_048, 183_296, 145];
const PART: [usize; 1] = [152_915];
const MAP: [usize; 2] = [129, 257];
const UNMAP: [usize; 2] = [257, 129];
const WRITE: [usize; 3] = [2, 2, 36];
const OPEN: [usize; 4] = [48, 32, 32, 32];

const M0: u64 = 7;

/// What a call answers, and what its line says of its outputs afterwards.
type Called = (Answer, String);

/// Each call with every choice of lengths, where it has spare bits once more with one of them set; then with a number
/// outside its set and every buffer one shorter. Reading the head of an archive file takes any number.
pub fn buffers() -> String {
    // One byte more than a capture, for the captures that are one too long.
    let coded = [coded_capture(1).capture, vec![0]].concat();
    let mut text = choices("code", CODE, |lent| code(1, lent));
    text += &all_shorter("code of N 0", CODE, |lent| code(0, lent));
    text += &choices("read", READ, |lent| read(1, &coded, lent));
    text += &all_shorter("read of N 0", READ, |lent| read(0, &coded, lent));
    text += &choices("edit", EDIT, |lent| edit(1, 0, &coded, lent));
    text += &choices("edit with a spare bit set", EDIT, |lent| edit(1, 1, &coded, lent));
    text += &all_shorter("edit of N 0", EDIT, |lent| edit(0, 0, &coded, lent));
    text += &choices("part", PART, |lent| part(1, lent));
    text += &all_shorter("part of N 0", PART, |lent| part(0, lent));
    text += &choices("map", MAP, |lent| map(10_216, 0, lent));
    text += &choices("map with a spare bit set", MAP, |lent| map(10_216, 1, lent));
    text += &all_shorter("map of C 10221", MAP, |lent| map(10_221, 0, lent));
    text += &choices("unmap", UNMAP, |lent| unmap(10_216, lent));
    text += &all_shorter("unmap of C 10221", UNMAP, |lent| unmap(10_221, lent));
    text += &choices("archive write", WRITE, |lent| write(2, lent));
    text += &all_shorter("archive write of count 0", WRITE, |lent| write(0, lent));
    text + &choices("archive read", OPEN, open)
}

/// A line for each choice of lengths: as stated, one shorter, one longer. That of the first buffer changes fastest.
fn choices<const K: usize>(name: &str, stated: [usize; K], call: impl Fn([usize; K]) -> Called) -> String {
    let mut text = String::new();
    for pattern in 0..3usize.pow(K as u32) {
        let mut lent = stated;
        for i in 0..K {
            match pattern / 3usize.pow(i as u32) % 3 {
                0 => {}
                1 => lent[i] -= 1,
                _ => lent[i] += 1,
            }
        }
        text += &line(name, lent, &call);
    }
    text
}

fn all_shorter<const K: usize>(name: &str, stated: [usize; K], call: impl Fn([usize; K]) -> Called) -> String {
    line(name, stated.map(|length| length - 1), call)
}

fn line<const K: usize>(name: &str, lent: [usize; K], call: impl Fn([usize; K]) -> Called) -> String {
    let (answer, outputs) = call(lent);
    let lengths = lent.map(|length| length.to_string()).join(" ");
    format!("{} {}: {} {}\n", name, lengths, shown(answer), outputs)
}

/// Information and parity come from one generator, one behind the other.
fn code(n: u64, [information, parity, captured]: [usize; 3]) -> Called {
    let mut generator = Generator::new(101);
    let information = generator.bytes(information);
    let parity = generator.bytes(parity);
    let mut captured = bytes_from_seed(CAPTURE_SEED, captured);
    let answer = capture::code(n, M0, &information, &parity, &mut captured);
    (answer, format!("capture {}", digest(&captured)))
}

fn read(n: u64, coded: &[u8], [captured, information, parity]: [usize; 3]) -> Called {
    let mut information = bytes_from_seed(INFORMATION_SEED, information);
    let mut parity = bytes_from_seed(PARITY_SEED, parity);
    let answer = capture::read(n, M0, &coded[0..captured], &mut information, &mut parity);
    let outputs = format!("information {} parity {}", digest(&information), digest(&parity));
    (answer, outputs)
}

/// Block 6, with its client bits and parity as in `edits`.
fn edit(n: u64, spare: u8, coded: &[u8], [client, parity, captured, list]: [usize; 4]) -> Called {
    let client = with_spare_bits(bytes_from_seed(306, client), 32, 0x80, spare);
    let parity = bytes_from_seed(307, parity);
    let mut captured = coded[0..captured].to_vec();
    let mut list = list_before(list);
    let answer = capture::edit(n, 6, &client, &parity, &mut captured, &mut list);
    let outputs = format!("capture {} list {}", digest(&captured), digest_of_numbers(&list));
    (answer, outputs)
}

/// Where the byte at `place` is lent, its bits outside `meant` become those of `spare`.
fn with_spare_bits(mut bytes: Vec<u8>, place: usize, meant: u8, spare: u8) -> Vec<u8> {
    if place < bytes.len() {
        bytes[place] = bytes[place] & meant | spare;
    }
    bytes
}

fn part(n: u64, [information]: [usize; 1]) -> Called {
    let information = bytes_from_seed(101, information);
    let (answer, part) = capture::part(n, 4, &information);
    (answer, format!("bytes {}", part.len()))
}

/// The window to be filled, and below the one to be unmapped and the head, have the bytes of a capture before a call.
fn map(c: u64, spare: u8, [groups, window]: [usize; 2]) -> Called {
    let groups = with_spare_bits(bytes_from_seed(GROUPS_SEED, groups), 128, 0xf0, spare);
    let mut window = bytes_from_seed(CAPTURE_SEED, window);
    let answer = gmp::map(c, 1, 2, &groups, &mut window);
    (answer, format!("window {}", digest(&window)))
}

fn unmap(c: u64, [window, groups]: [usize; 2]) -> Called {
    let window = bytes_from_seed(CAPTURE_SEED, window);
    let mut groups = bytes_from_seed(GROUPS_SEED, groups);
    let answer = gmp::unmap(c, 1, 2, &window, &mut groups);
    (answer, format!("groups {}", digest(&groups)))
}

/// Two bodies; the third kind and the third length are for lists that are one too long.
fn write(count: u64, [kinds, lengths, head]: [usize; 3]) -> Called {
    let mut head = bytes_from_seed(CAPTURE_SEED, head);
    let answer = archive::write(count, &[1, 3, 2][0..kinds], &[5, 7, 9][0..lengths], &mut head);
    (answer, format!("head {}", digest(&head)))
}

/// A file of 48 bytes: the head of these two bodies, then zeros.
fn open([first, kinds, offsets, lengths]: [usize; 4]) -> Called {
    let mut file = archive::head_bytes(2, &[1, 3], &[5, 7]);
    file.resize(49, 0);
    let mut lists = [kinds, offsets, lengths].map(list_before);
    let [kinds, offsets, lengths] = &mut lists;
    let answer = archive::read(48, &file[0..first], kinds, offsets, lengths);
    let [kinds, offsets, lengths] = lists.map(|list| digest_of_numbers(&list));
    let outputs = format!("kinds {} offsets {} lengths {}", kinds, offsets, lengths);
    (answer, outputs)
}
