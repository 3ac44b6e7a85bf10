//! The independent second program of the 400ZR line coder. See README.md.

mod answer;
mod archive;
mod bits;
mod capture;
mod fec;
mod generator;
mod gmp;
mod hamming;
mod interleaver;
mod selftest;
mod super_frame;
mod symbols;
mod texts;

use std::io::{Read, Write};

type Piece = fn() -> String;

/// Each NAME and the pieces of its text, one behind the other with nothing between them.
const NAMES: &[(&str, &[Piece])] = &[
    // The product's programs.
    ("gmp_runs", &[gmp_runs]),
    ("test_gmp", &[texts::gmp_lines, texts::window_cases]),
    ("test_words", &[texts::hamming_words]),
    (
        "test_captures",
        &[texts::coded, texts::readings, texts::parts, texts::capture_edges],
    ),
    ("test_edits", &[texts::edits]),
    ("test_buffers", &[texts::buffers]),
    ("test_edges", &[texts::edges, texts::vectors]),
    ("archive_list", &[archive_list]),
    ("test_archive", &[texts::archive_writes, texts::archive_reads]),
    ("zr", &[texts::zr]),
    // Texts that no program prints.
    ("table7", &[texts::table7]),
    ("places", &[texts::places]),
    ("selftest", &[selftest::run_all]),
    // The pieces alone: they show where two texts part.
    ("gmp_lines", &[texts::gmp_lines]),
    ("window_cases", &[texts::window_cases]),
    ("hamming_words", &[texts::hamming_words]),
    ("coded", &[texts::coded]),
    ("readings", &[texts::readings]),
    ("edits", &[texts::edits]),
    ("buffers", &[texts::buffers]),
    ("parts", &[texts::parts]),
    ("edges", &[texts::edges]),
    ("capture_edges", &[texts::capture_edges]),
    ("vectors", &[texts::vectors]),
    ("archive_writes", &[texts::archive_writes]),
    ("archive_reads", &[texts::archive_reads]),
];

fn main() {
    let name = std::env::args_os().nth(1).unwrap_or_default();
    match NAMES.iter().find(|(known, _)| name == *known) {
        Some((_, pieces)) => {
            let text: String = pieces.iter().map(|piece| piece()).collect();
            std::io::stdout()
                .write_all(text.as_bytes())
                .expect("standard output can be written");
        }
        None => {
            eprint!("{}", usage());
            std::process::exit(2);
        }
    }
}

fn usage() -> String {
    let mut text = "usage: second NAME\n       second gmp_runs LINE\nNAME is one of:\n".to_string();
    for (name, _) in NAMES {
        text += &format!("  {}\n", name);
    }
    text + "gmp_runs without LINE and archive_list read standard input.\n"
}

/// The run listing for LINE or, without one, for standard input.
fn gmp_runs() -> String {
    let mut input = Vec::new();
    match std::env::args_os().nth(2) {
        Some(line) => input.extend_from_slice(line.as_encoded_bytes()),
        None => {
            std::io::stdin()
                .read_to_end(&mut input)
                .expect("standard input can be read");
        }
    }
    gmp::run_program(&input)
}

/// The listing of the archive file on standard input.
fn archive_list() -> String {
    archive::list_program(std::io::stdin().lock())
}
