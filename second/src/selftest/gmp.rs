//! Counts, runs and windows.

use crate::answer::Answer;
use crate::bits::{bits_of_bytes, bytes_of_bits};
use crate::generator::{bytes_from_seed, Generator};
use crate::gmp::{self, Kind};
use crate::texts;

/// Document 001, Table 7, row by row as it is printed.
pub fn table_7_as_printed() {
    let rows = [
        (10_220, "N/A"),
        (10_219, "1"),
        (10_218, "1, 5111"),
        (10_217, "1, 3407, 6814"),
        (10_216, "1, 2556, 5111, 7666"),
        (10_215, "1, 2045, 4089, 6133, 8177"),
        (10_214, "1, 1704, 3407, 5111, 6814, 8517"),
    ];
    for k in 0..rows.len() {
        let (c, printed) = rows[k];
        assert_eq!(texts::TABLE_7_COUNTS[k], c);
        let mut stuff = Vec::new();
        for j in 1..=gmp::PLACES {
            if gmp::kind(c, j) == Kind::Stuff {
                stuff.push(j.to_string());
            }
        }
        let joined = if stuff.is_empty() {
            "N/A".to_string()
        } else {
            stuff.join(", ")
        };
        assert_eq!(joined, printed);
        // The listing's stuff runs are the same places: each of these rows has runs of one stuff place only.
        let mut from_listing = Vec::new();
        for line in gmp::listing(c).lines() {
            if let Some(run) = line.strip_prefix("S ") {
                let (first, last) = run.split_once('-').unwrap();
                assert_eq!(first, last);
                from_listing.push(first.to_string());
            }
        }
        assert_eq!(from_listing, stuff);
    }
}

/// The listing that document 01 prints.
pub fn listing_of_10216() {
    let expected = "Cm 10216\nS 1-1\nD 2-2555\nS 2556-2556\nD 2557-5110\nS 5111-5111\n\
                    D 5112-7665\nS 7666-7666\nD 7667-10220\n";
    assert_eq!(gmp::run_program(b"10216"), expected);
    assert_eq!(gmp::run_program(b"10216\n"), expected);
    assert_eq!(gmp::run_program(b"00010216\nanything"), expected);
}

pub fn run_program_refusals() {
    let refused: [&[u8]; 12] = [
        b"",
        b"\n10216",
        b"10221",
        b"-1",
        b"+1",
        b" 1",
        b"1 ",
        b"10216\r\n",
        b"1a",
        b"18446744073709551617",
        b"99999999999999999999999999999999999999999999999999",
        b"\xff",
    ];
    for input in refused {
        assert_eq!(gmp::run_program(input), "refused 1\n");
    }
    assert_eq!(gmp::run_program(b"0"), "Cm 0\nS 1-10220\n");
    assert_eq!(gmp::run_program(b"10220"), "Cm 10220\nD 1-10220\n");
}

/// "The first j places hold floor(j·C / P) data places": for every count and every place.
pub fn data_places_up_to_j() {
    for c in 0..=gmp::PLACES {
        let mut data = 0;
        for j in 1..=gmp::PLACES {
            if gmp::kind(c, j) == Kind::Data {
                data += 1;
            }
            assert_eq!(data, j * c / gmp::PLACES);
        }
    }
}

pub fn run_requests() {
    assert_eq!(gmp::run_at(10_216, 2), (Answer::done(0), Kind::Data, 2_555));
    assert_eq!(gmp::run_at(0, 1), (Answer::done(0), Kind::Stuff, 10_220));
    assert_eq!(gmp::count_runs(10_216, 1), Answer::done(8));
    assert_eq!(gmp::count_runs(10_216, 2_000), Answer::done(7));
    assert_eq!(gmp::count_runs(10_216, 10_220), Answer::done(1));
    for (c, j) in [(10_221, 1), (1, 0), (1, 10_221), (u64::MAX, 5), (5, u64::MAX)] {
        assert_eq!(gmp::run_at(c, j), (Answer::refused(1, 0), Kind::Stuff, 0));
        assert_eq!(gmp::count_runs(c, j), Answer::refused(1, 0));
    }
    // Runs counted place by place against runs counted by walking from run to run.
    for c in [0, 1, 2, 777, 5_109, 5_110, 5_111, 9_999, 10_216, 10_219, 10_220] {
        for j in [1, 2, 3, 500, 5_110, 10_219, 10_220] {
            let mut walked = 0;
            let mut place = j;
            while place <= gmp::PLACES {
                place = gmp::run_at(c, place).2 + 1;
                walked += 1;
            }
            assert_eq!(gmp::count_runs(c, j), Answer::done(walked));
        }
    }
}

/// What the cases of the `window_cases` text are meant to show.
pub fn window_cases() {
    let mut map_answers = Vec::new();
    let mut unmap_answers = Vec::new();
    let mut case = 0;
    for (c, f, n, groups_length, window_length, low) in texts::WINDOWS {
        case += 1;
        let groups = texts::window_groups(case, groups_length, low);
        let before = bytes_from_seed(600 + case, window_length);
        let mut window = before.clone();
        let answer = gmp::map(c, f, n, &groups, &mut window);
        if answer.number != 0 {
            assert_eq!((answer.count, window), (0, before));
        }
        map_answers.push((answer.number, answer.place));
        let before = bytes_from_seed(800 + case, groups_length);
        let mut groups = before.clone();
        let answer = gmp::unmap(c, f, n, &bytes_from_seed(700 + case, window_length), &mut groups);
        if answer.number != 0 {
            assert_eq!((answer.count, groups), (0, before));
        }
        unmap_answers.push((answer.number, answer.place));
    }
    // Mapping names the groups first, unmapping the window. Spare bits stand in groups to be mapped only.
    assert_eq!(map_answers, window_answers(1, 2, (3, 1)));
    assert_eq!(unmap_answers, window_answers(2, 1, (0, 0)));
}

/// Number and place of each case, where the groups and the window have these positions.
fn window_answers(groups: u64, window: u64, spare: (u64, u64)) -> Vec<(u64, u64)> {
    let mut answers = vec![(0, 0); 24];
    answers.extend(vec![(1, 0); 17]);
    for position in [groups, groups, groups, window, window, window, groups, window] {
        answers.push((2, position));
    }
    answers.push((1, 0));
    answers.extend(vec![spare; 4]);
    answers
}

/// Unmapping gives the groups back, also from a window whose stuff is not zero.
pub fn window_round_trips() {
    let mut generator = Generator::new(4242);
    for _ in 0..200 {
        let c = generator.below(gmp::PLACES + 1);
        let n = 2 * (1 + generator.below(20));
        let f = 1 + 2 * generator.below((gmp::PLACES - n) / 2 + 1);
        // d by the count of data places up to a place, not by looking at each place.
        let d = (f + n - 1) * c / gmp::PLACES - (f - 1) * c / gmp::PLACES;
        assert_eq!(gmp::data_places(c, f, n), d);
        let mut groups = generator.bytes(gmp::groups_length(d) as usize);
        if d % 2 == 1 {
            *groups.last_mut().unwrap() &= 0xf0;
        }
        let mut window = generator.bytes(gmp::window_length(n) as usize);
        assert_eq!(gmp::map(c, f, n, &groups, &mut window), Answer::done(d));
        let mut bits = bits_of_bytes(&window);
        for j in f..f + n {
            for k in 0..gmp::PLACE_BITS {
                let position = (j - f) as usize * gmp::PLACE_BITS + k;
                if gmp::kind(c, j) == Kind::Stuff {
                    assert!(!bits[position]);
                    bits[position] = generator.below(2) == 1;
                }
            }
        }
        let mut back = generator.bytes(groups.len());
        assert_eq!(gmp::unmap(c, f, n, &bytes_of_bits(&bits), &mut back), Answer::done(d));
        assert_eq!(back, groups);
    }
}
