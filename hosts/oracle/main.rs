//! The second program asked for calls that a seed chooses: it prints what `hosts/c/check.c` prints for `random SEED`.
//! Built by hosts/check from the sources in second/src; hosts/c/random.h makes the same choices, number for number.
#![allow(dead_code)]

#[path = "../../second/src/answer.rs"]
mod answer;
#[path = "../../second/src/archive.rs"]
mod archive;
#[path = "../../second/src/bits.rs"]
mod bits;
#[path = "../../second/src/capture.rs"]
mod capture;
#[path = "../../second/src/fec.rs"]
mod fec;
#[path = "../../second/src/generator.rs"]
mod generator;
#[path = "../../second/src/gmp.rs"]
mod gmp;
#[path = "../../second/src/hamming.rs"]
mod hamming;
#[path = "../../second/src/interleaver.rs"]
mod interleaver;
#[path = "../../second/src/super_frame.rs"]
mod super_frame;
#[path = "../../second/src/symbols.rs"]
mod symbols;

use answer::Answer;
use generator::{digest, digest_of_numbers, Generator};

fn shown(a: Answer) -> String {
    format!("number {} place {} count {}", a.number, a.place, a.count)
}

/// A number that is often just at, or far beyond, the edge of 0..limit.
fn nasty(g: &mut Generator, limit: u64) -> u64 {
    match g.below(8) {
        0 => 0,
        1 => 1,
        2 => limit,
        3 => limit + 1,
        4 => u64::MAX,
        5 => g.number(),
        _ => g.below(limit + 1),
    }
}

fn random_place(g: &mut Generator) {
    let c = nasty(g, 10_220);
    let j = nasty(g, 10_220);
    let (a, kind, last) = gmp::run_at(c, j);
    let name = if kind == gmp::Kind::Data { "data" } else { "stuff" };
    println!("C {} place {} run: {} {} last {}", c, j, shown(a), name, last);
    println!("C {} place {} runs: {}", c, j, shown(gmp::count_runs(c, j)));
}

fn random_window(g: &mut Generator) {
    let c = nasty(g, 10_220);
    let (f, n) = if g.below(4) == 0 {
        let f = nasty(g, 10_220);
        (f, nasty(g, 10_220))
    } else {
        let f = 1 + 2 * g.below(5_000);
        (f, 2 + 2 * g.below(20))
    };
    let small = c <= 10_220 && f <= 10_220 && n <= 10_220;
    let stated = small && f % 2 == 1 && n % 2 == 0 && n >= 2 && f + n - 1 <= 10_220;
    let d = if stated { gmp::data_places(c, f, n) } else { g.below(5) };
    let mut groups_length = gmp::groups_length(d) as usize;
    let mut window_length = if stated { gmp::window_length(n) as usize } else { 257 };
    match g.below(8) {
        0 => groups_length = 0,
        1 => groups_length += 1,
        2 => window_length = 0,
        3 => window_length -= 1,
        _ => {}
    }
    let mut groups = g.bytes(groups_length);
    let mut window = g.bytes(window_length);
    if g.below(4) != 0 && groups_length > 0 {
        groups[groups_length - 1] &= 0xf0;
    }
    println!("window C {} f {} n {} groups {} window {}", c, f, n, groups_length, window_length);
    let a = gmp::map(c, f, n, &groups, &mut window);
    println!("map: {} window {}", shown(a), digest(&window));
    let window = g.bytes(window_length);
    let mut groups = g.bytes(groups_length);
    let a = gmp::unmap(c, f, n, &window, &mut groups);
    println!("unmap: {} groups {}", shown(a), digest(&groups));
}

fn random_part(g: &mut Generator) {
    let n = nasty(g, 8);
    let t = nasty(g, 39);
    let mut length = capture::information_length(if n >= 1 && n <= 8 { n } else { 1 });
    match g.below(4) {
        0 => length = 0,
        1 => length -= 1,
        _ => {}
    }
    let information = g.bytes(length);
    let (a, part) = capture::part(n, t, &information);
    println!(
        "part N {} t {} of {}: {} bytes {} digest {}",
        n,
        t,
        length,
        shown(a),
        part.len(),
        digest(part)
    );
}

fn flip(captured: &mut [u8], w: usize, bit: usize) {
    let mut word = symbols::get_word(captured, w);
    word[bit] = !word[bit];
    symbols::put_word(captured, w, &word);
}

/// Turns an element bit of a word and makes its check bits anew.
fn turn_word(captured: &mut [u8], w: usize, bit: usize) {
    flip(captured, w, bit);
    let element = symbols::get_word(captured, w)[0..super_frame::ELEMENT_BITS].to_vec();
    symbols::put_word(captured, w, &hamming::Matrix::new().encode(&element));
}

/// Damages a capture of `words` words, and gives the m0 to read it with.
fn random_damage(g: &mut Generator, captured: &mut [u8], words: u64, m0: u64) -> u64 {
    let mut m0 = m0;
    let kind = g.below(6);
    match kind {
        1 => {
            for w in 0..words {
                let bit = g.below(128);
                flip(captured, w as usize, bit as usize);
            }
        }
        2 => {
            let w = g.below(words) as usize;
            let bit = g.below(128);
            flip(captured, w, bit as usize);
            flip(captured, w, ((bit + 1 + g.below(127)) % 128) as usize);
        }
        3 | 5 => {
            for _ in 3..=kind {
                let w = if g.below(2) == 0 { g.below(480) } else { g.below(words) };
                let bit = g.below(119);
                turn_word(captured, w as usize, bit as usize);
            }
        }
        // m0 ^ 1 has the same half
        4 => m0 = if g.below(2) == 0 { m0 ^ 1 } else { (m0 % 128 + 1 + g.below(127)) % 128 },
        _ => {}
    }
    println!("damage {}, read with m0 {}", kind, m0);
    m0
}

fn random_edit(g: &mut Generator, n: u64, blocks: u64, captured: &mut [u8]) {
    let block = if g.below(4) == 0 {
        nasty(g, blocks - 1)
    } else {
        g.below(blocks)
    };
    let (mut bits_length, mut parity_length, mut list_length) = (33, 2_048, capture::LIST_LENGTH);
    match g.below(12) {
        0 => bits_length = 0,
        1 => parity_length = 0,
        2 => list_length = 0,
        3 => list_length = 146,
        _ => {}
    }
    let mut bits = g.bytes(bits_length);
    let parity = g.bytes(parity_length);
    if g.below(5) != 0 && bits_length > 0 {
        bits[32] &= 0x80;
    }
    let mut list: Vec<u64> = (0..list_length).map(|_| g.number()).collect();
    let a = capture::edit(n, block, &bits, &parity, captured, &mut list);
    println!(
        "edit N {} block {} of {} {} {}: {}",
        n,
        block,
        bits_length,
        parity_length,
        list_length,
        shown(a)
    );
    println!("edit: capture {} list {}", digest(captured), digest_of_numbers(&list));
}

fn random_capture(g: &mut Generator) {
    let n = if g.below(5) == 0 { nasty(g, 8) } else { 1 + g.below(2) };
    let m0 = if g.below(5) == 0 { nasty(g, 127) } else { g.below(128) };
    let k = if n >= 1 && n <= 8 { n } else { 1 };
    let mut information_length = capture::information_length(k);
    let mut parity_length = capture::parity_length(k);
    let mut capture_length = capture::capture_length(k);
    match g.below(12) {
        0 => information_length = 0,
        1 => parity_length = 0,
        2 => capture_length = 0,
        3 => information_length += 1,
        4 => parity_length -= 1,
        5 => capture_length += 1,
        _ => {}
    }
    let mut information = g.bytes(information_length);
    let mut parity = g.bytes(parity_length);
    let mut captured = g.bytes(capture_length);
    let a = capture::code(n, m0, &information, &parity, &mut captured);
    println!(
        "code N {} m0 {} of {} {} {}: {} capture {}",
        n,
        m0,
        information_length,
        parity_length,
        capture_length,
        shown(a),
        digest(&captured)
    );
    let mut m0 = m0;
    if capture_length == capture::capture_length(k) {
        m0 = random_damage(g, &mut captured, interleaver::words(k as usize) as u64, m0);
    }
    let a = capture::read(n, m0, &captured, &mut information, &mut parity);
    println!("read: {}", shown(a));
    println!("read: information {} parity {}", digest(&information), digest(&parity));
    random_edit(g, n, 4_760 * k, &mut captured);
}

/// Opens the file of `end` bytes that begins with `first`: as it is, with another size, or with other bytes in its head.
fn random_open(g: &mut Generator, first: &mut [u8], head: usize, end: u64) {
    let mut size = end;
    let which = g.below(6);
    match which {
        0 => size = nasty(g, end),
        1 => size = g.below(307),
        2 | 4 => {
            for _ in 2..=which {
                let at = g.below(head as u64) as usize;
                first[at] = g.below(256) as u8;
            }
        }
        _ => {}
    }
    let mut first_length = size.min(306) as usize;
    let mut lists = [32, 32, 32];
    match g.below(40) {
        0 => first_length = 0,
        1 => first_length += 1,
        which @ 2..=4 => lists[which as usize - 2] = [0, 31, 33][g.below(3) as usize],
        _ => {}
    }
    let mut numbers: Vec<u64> = (0..lists.iter().sum::<usize>()).map(|_| g.number()).collect();
    let (kinds, others) = numbers.split_at_mut(lists[0]);
    let (offsets, lengths) = others.split_at_mut(lists[1]);
    let a = archive::read(size, &first[..first_length], kinds, offsets, lengths);
    println!(
        "open {} by {} of {} {} {}: {} lists {}",
        size,
        first_length,
        lists[0],
        lists[1],
        lists[2],
        shown(a),
        digest_of_numbers(&numbers)
    );
}

/// Makes the head of a capture file, and opens one that begins with it, or with any bytes where it was refused.
fn random_archive(g: &mut Generator) {
    let n = if g.below(8) == 0 { nasty(g, 32) } else { 1 + g.below(32) };
    let k = if n >= 1 && n <= 32 { n as usize } else { 1 };
    let (mut kinds_length, mut lengths_length, mut head_length) = (k, k, 18 + 9 * k);
    match g.below(40) {
        0 => kinds_length = 0,
        1 => lengths_length = 0,
        2 => head_length = 0,
        3 => kinds_length += 1,
        4 => lengths_length -= 1,
        5 => head_length += 1,
        _ => {}
    }
    let kinds: Vec<u64> = (0..kinds_length)
        .map(|_| if g.below(200) == 0 { nasty(g, 3) } else { 1 + g.below(3) })
        .collect();
    let lengths: Vec<u64> = (0..lengths_length)
        .map(|_| if g.below(100) == 0 { nasty(g, 0xffff_ffff) } else { g.below(1 << 27) })
        .collect();
    let mut head = g.bytes(head_length);
    let mut first = g.bytes(400);
    let a = archive::write(n, &kinds, &lengths, &mut head);
    println!(
        "archive N {} of {} {} {}: {} head {}",
        n,
        kinds_length,
        lengths_length,
        head_length,
        shown(a),
        digest(&head)
    );
    let mut end = head_length as u64;
    if a.number == 0 {
        first[..head_length].copy_from_slice(&head);
        end += lengths.iter().sum::<u64>();
    }
    random_open(g, &mut first, 18 + 9 * k, end);
}

fn main() {
    let seed = std::env::args().nth(1).and_then(|word| word.parse().ok());
    let g = &mut Generator::new(seed.expect("usage: oracle SEED"));
    for _ in 0..150 {
        random_place(g);
    }
    for _ in 0..100 {
        random_window(g);
    }
    for _ in 0..20 {
        random_part(g);
    }
    for _ in 0..16 {
        random_capture(g);
    }
    for _ in 0..400 {
        random_archive(g);
    }
}
