//! Levels and the places of bytes.

use crate::capture;
use crate::interleaver;
use crate::symbols;

/// Document 001, Table 12, row by row as it is printed.
pub fn table_12_as_printed() {
    let printed = [
        "(0,0,0,0) -3 -3",
        "(0,0,0,1) -3 -1",
        "(0,0,1,0) -3 3",
        "(0,0,1,1) -3 1",
        "(0,1,0,0) -1 -3",
        "(0,1,0,1) -1 -1",
        "(0,1,1,0) -1 3",
        "(0,1,1,1) -1 1",
        "(1,0,0,0) 3 -3",
        "(1,0,0,1) 3 -1",
        "(1,0,1,0) 3 3",
        "(1,0,1,1) 3 1",
        "(1,1,0,0) 1 -3",
        "(1,1,0,1) 1 -1",
        "(1,1,1,0) 1 3",
        "(1,1,1,1) 1 1",
    ];
    for x in 0..16u8 {
        for y in 0..16u8 {
            let [xi, xq, yi, yq] = symbols::levels(16 * x + y);
            let row = |b: u8, i: i8, q: i8| format!("({},{},{},{}) {} {}", b / 8, b / 4 % 2, b / 2 % 2, b % 2, i, q);
            assert_eq!(row(x, xi, xq), printed[x as usize]);
            assert_eq!(row(y, yi, yq), printed[y as usize]);
        }
    }
}

/// Every byte of a capture is one symbol of one word.
pub fn byte_places() {
    assert_eq!(symbols::byte_place(9, 2), 145);
    for n in 1..=8 {
        let mut times = vec![0; capture::capture_length(n)];
        for w in 0..interleaver::words(n as usize) {
            for k in 0..16 {
                times[symbols::byte_place(w, k)] += 1;
            }
        }
        assert!(times.iter().all(|t| *t == 1));
    }
}
