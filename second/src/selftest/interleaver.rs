//! The order of the words.

use crate::interleaver;
use crate::super_frame::ELEMENTS;

/// The delay lines of document 001, section 10.4, worked step by step, against the rule of document 01:
/// sixteen rows, the topmost with 30 storage elements, each lower one with two fewer, all zero at first,
/// flushed by 480 zero elements. Elements are numbered from 1 here, and 0 is the zero element.
pub fn delay_lines() {
    for n in 1..=3 {
        let mut rows = Vec::new();
        for row in 0..16 {
            rows.push(vec![0; 2 * (15 - row)]);
        }
        let mut row = 0;
        let slots = interleaver::slots(n);
        for time in 0..ELEMENTS * n + 480 {
            let entering = if time < ELEMENTS * n { time + 1 } else { 0 };
            rows[row].insert(0, entering);
            let leaving = rows[row].pop().unwrap();
            row = (row + 1) % 16;
            match slots[time] {
                Some(e) => assert_eq!(leaving, e + 1),
                None => assert_eq!(leaving, 0),
            }
        }
        for row in rows {
            assert!(row.iter().all(|element| *element == 0));
        }
    }
    assert_eq!(interleaver::slot_of_element(0), 480);
    assert_eq!(interleaver::slot_of_element(15), 15);
    assert_eq!(interleaver::slot_of_element(16), 496);
    assert_eq!(interleaver::slot_of_element(10_976), 11_456);
}

/// 240 filler slots before and 240 from the flush, where the notes on the documents say.
pub fn filler_slots() {
    for n in 1..=8 {
        let slots = interleaver::slots(n);
        let mut before = 0;
        let mut flush = 0;
        for s in 0..slots.len() {
            let mut filler = false;
            if s < 480 && s / 16 + 2 * (s % 16) < 30 {
                filler = true;
                before += 1;
            }
            if s >= ELEMENTS * n {
                let rest = s - ELEMENTS * n;
                if rest / 16 + 2 * (rest % 16) >= 30 {
                    filler = true;
                    flush += 1;
                }
            }
            assert_eq!(slots[s].is_none(), filler);
        }
        assert_eq!((before, flush), (240, 240));
    }
}

/// 450 words at each border, 225 of each super frame.
pub fn mixed_words_at_borders() {
    let slots = interleaver::slots(8);
    for f in 1..8 {
        let border = ELEMENTS * f;
        let frame_of = |s: usize| slots[s].map(|e| e / ELEMENTS);
        // From the first word of the later super frame to the last word of the earlier one.
        let first = (0..slots.len()).find(|s| frame_of(*s) == Some(f)).unwrap();
        let last = (0..slots.len()).rev().find(|s| frame_of(*s) == Some(f - 1)).unwrap();
        assert_eq!((first, last), (border + 15, border + 464));
        let mut earlier = 0;
        let mut later = 0;
        for s in first..=last {
            if frame_of(s) == Some(f - 1) {
                earlier += 1;
            }
            if frame_of(s) == Some(f) {
                later += 1;
            }
        }
        assert_eq!((earlier, later), (225, 225));
    }
}
