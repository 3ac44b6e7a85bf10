//! First lines and run requests: `gmp_lines`, `table7` and `places`.

use super::{kind_name, shown, TABLE_7_COUNTS};
use crate::answer::Answer;
use crate::generator::{digest, digest_of_numbers};
use crate::gmp::{self, Kind};

/// The run listings of the seven rows of document 001, Table 7.
pub fn table7() -> String {
    let mut text = String::new();
    for c in TABLE_7_COUNTS {
        let listing = gmp::listing(c);
        let runs = gmp::count_runs(c, 1).count;
        if runs <= 64 {
            text += &listing;
        } else {
            text += &format!("Cm {}\n", c);
            text += &format!("runs {} digest {}\n", runs, digest(listing.as_bytes()));
        }
    }
    text
}

/// The number and the count of a call, behind its name.
fn brief(name: &str, answer: Answer) -> String {
    format!("{} {} {}\n", name, answer.number, answer.count)
}

/// The count on the first line of an input, or a refusal: the run program lists a count or writes `refused 1`.
fn count_of_line(input: &[u8]) -> Answer {
    let text = gmp::run_program(input);
    match text.lines().next().unwrap().strip_prefix("Cm ") {
        Some(count) => Answer::done(count.parse().unwrap()),
        None => Answer::refused(1, 0),
    }
}

/// The stuff runs of a count, each with its first and its last place.
pub fn stuff_runs(c: u64) -> String {
    let mut text = String::new();
    let mut first = 1;
    while first <= gmp::PLACES {
        let (_, kind, last) = gmp::run_at(c, first);
        if kind == Kind::Stuff {
            text += &format!(" {}-{}", first, last);
        }
        first = last + 1;
    }
    text
}

pub fn gmp_lines() -> String {
    let mut text = String::new();
    let lines: [(&str, &[u8]); 12] = [
        ("line empty", b""),
        ("line empty, then 10216", b"\n10216\n"),
        ("line 10220", b"10220\n"),
        ("line 10221", b"10221\n"),
        ("line 0", b"0\n"),
        ("line 00010216", b"00010216\n"),
        ("line 2^64", b"18446744073709551616\n"),
        ("line 10216 CR", b"10216\r\n"),
        ("line letters", b"ten\n"),
        ("line 10216 and no line feed", b"10216"),
        ("line 10216, then letters", b"10216\nten\n"),
        ("line 1 2", b"1 2\n"),
    ];
    for (name, input) in lines {
        text += &brief(name, count_of_line(input));
    }
    // The same input in four parts makes no difference.
    text += &brief("parts 00 102 16", count_of_line(b"000010216\n79\n"));

    // Document 001, Table 7, upwards: the stuff runs of each count.
    for c in 10_214..=gmp::PLACES {
        let runs = gmp::count_runs(c, 1).count;
        text += &format!("Cm {} runs {} stuff{}\n", c, runs, stuff_runs(c));
    }

    let most = u64::MAX;
    let runs = [
        ("0 1", 0, 1),
        ("10220 10220", 10_220, 10_220),
        ("10221 1", 10_221, 1),
        ("10216 0", 10_216, 0),
        ("10216 10220", 10_216, 10_220),
        ("10216 10221", 10_216, 10_221),
        ("5110 1", 5_110, 1),
        ("1 1", 1, 1),
        ("10217 3407", 10_217, 3_407),
        ("2^64-1 2^64-1", most, most),
    ];
    for (name, c, j) in runs {
        let (answer, kind, last) = gmp::run_at(c, j);
        let kind = if kind == Kind::Data { 1 } else { 0 };
        text += &format!("run {} {} {} {}", name, answer.number, kind, last);
        text += &brief(" runs", gmp::count_runs(c, j));
    }
    text
}

/// Run requests and run counts, and all of them for some counts.
pub fn places() -> String {
    let mut text = String::new();
    for (c, j) in [
        (0, 1),
        (0, 10_220),
        (1, 1),
        (1, 10_219),
        (1, 10_220),
        (5_110, 1),
        (5_110, 2),
        (7_001, 5_000),
        (10_216, 1),
        (10_216, 2),
        (10_216, 2_000),
        (10_216, 2_555),
        (10_216, 2_556),
        (10_217, 3_407),
        (10_217, 3_408),
        (10_220, 1),
        (10_220, 10_220),
        (0, 0),
        (10_216, 0),
        (10_216, 10_221),
        (10_221, 1),
        (10_221, 0),
        (u64::MAX, 1),
        (1, u64::MAX),
        (u64::MAX, u64::MAX),
    ] {
        let (answer, kind, last) = gmp::run_at(c, j);
        text += &format!(
            "C {} place {} run: {} {} last {}\n",
            c,
            j,
            shown(answer),
            kind_name(kind),
            last
        );
        text += &format!("C {} place {} runs: {}\n", c, j, shown(gmp::count_runs(c, j)));
    }
    // For each place in turn three numbers: 1 for data or 0 for stuff, the last place, the number of runs.
    for c in [0, 1, 3_000, 5_110, 7_001, 10_216, 10_217, 10_220] {
        let mut numbers = Vec::new();
        for j in 1..=gmp::PLACES {
            let (_, kind, last) = gmp::run_at(c, j);
            numbers.push(if kind == Kind::Data { 1 } else { 0 });
            numbers.push(last);
            numbers.push(gmp::count_runs(c, j).count);
        }
        text += &format!("C {} all places: {}\n", c, digest_of_numbers(&numbers));
    }
    text
}
