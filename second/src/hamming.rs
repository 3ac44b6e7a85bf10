//! The inner Hamming code.
//! Document 01, section "Code words"; document 001, section 10.5.

use crate::super_frame::ELEMENT_BITS;

pub const WORD_BITS: usize = 128;
pub const CHECKS: usize = 9;

/// g(i) of document 001, section 10.5: s0 to s6 are the bits of i, lowest first, then s7, then a one.
pub fn g(i: usize) -> [bool; CHECKS] {
    assert!(i <= 127);
    let mut s = [false; CHECKS];
    for k in 0..7 {
        s[k] = (i >> k) & 1 == 1;
    }
    let (s0, s1, s2) = (s[0], s[1], s[2]);
    s[7] = (s0 && s2) || (!s0 && !s1 && !s2) || (s0 && s1 && !s2);
    s[8] = true;
    s
}

/// The arguments of g in the order of the columns of H, as the formula for H lists them.
pub fn column_order() -> Vec<usize> {
    let mut order = Vec::new();
    order.extend(0..=62);
    order.extend(64..=94);
    order.extend(96..=110);
    order.extend(112..=118);
    order.extend([120, 122, 124]);
    order.extend([63, 95, 111, 119, 121, 123]);
    order.extend(125..=127);
    assert!(order.len() == WORD_BITS);
    order
}

#[derive(Clone, Copy, PartialEq, Eq, Debug)]
pub enum Repair {
    /// All nine checks were zero.
    Nothing,
    /// The bit at this position was turned.
    Turned(usize),
    /// The checks are not zero and equal to no column. The word is unchanged.
    Beyond,
}

/// The check matrix, column by column.
pub struct Matrix {
    pub columns: Vec<[bool; CHECKS]>,
}

impl Matrix {
    pub fn new() -> Matrix {
        let mut columns = Vec::new();
        for i in column_order() {
            columns.push(g(i));
        }
        Matrix { columns }
    }

    /// The nine checks of a word: H times the word. Row of s0 first, row of ones last.
    pub fn checks(&self, word: &[bool]) -> [bool; CHECKS] {
        assert!(word.len() == WORD_BITS);
        let mut sums = [false; CHECKS];
        for position in 0..WORD_BITS {
            if word[position] {
                for row in 0..CHECKS {
                    sums[row] ^= self.columns[position][row];
                }
            }
        }
        sums
    }

    pub fn passes(&self, word: &[bool]) -> bool {
        self.checks(word) == [false; CHECKS]
    }

    /// The 119 bits of the element, then the nine that make all nine checks come out zero.
    /// The nine are found by solving nine equations in nine unknowns anew for each element.
    pub fn encode(&self, element: &[bool]) -> Vec<bool> {
        assert!(element.len() == ELEMENT_BITS);
        let mut word = element.to_vec();
        for _ in 0..CHECKS {
            word.push(false);
        }
        // What the check bits must add up to in each row, so that the whole row is zero.
        let wanted = self.checks(&word);
        let mut rows = [[false; CHECKS + 1]; CHECKS];
        for row in 0..CHECKS {
            for unknown in 0..CHECKS {
                rows[row][unknown] = self.columns[ELEMENT_BITS + unknown][row];
            }
            rows[row][CHECKS] = wanted[row];
        }
        let solution = solve(rows);
        for unknown in 0..CHECKS {
            word[ELEMENT_BITS + unknown] = solution[unknown];
        }
        assert!(self.passes(&word));
        word
    }

    /// "checks all zero, nothing; checks equal to a column, that bit is turned; otherwise the answer
    /// is beyond repair and the word comes back unchanged." All 128 columns are searched.
    pub fn repair(&self, word: &[bool]) -> (Repair, Vec<bool>) {
        let checks = self.checks(word);
        if checks == [false; CHECKS] {
            return (Repair::Nothing, word.to_vec());
        }
        for position in 0..WORD_BITS {
            if self.columns[position] == checks {
                let mut repaired = word.to_vec();
                repaired[position] = !repaired[position];
                return (Repair::Turned(position), repaired);
            }
        }
        (Repair::Beyond, word.to_vec())
    }
}

/// Nine equations in nine unknowns modulo 2, each row its nine factors and its right-hand side.
/// There is one solution because the last nine columns of H are independent.
fn solve(mut rows: [[bool; CHECKS + 1]; CHECKS]) -> [bool; CHECKS] {
    for unknown in 0..CHECKS {
        let mut pivot = unknown;
        while !rows[pivot][unknown] {
            pivot += 1;
        }
        rows.swap(unknown, pivot);
        for other in 0..CHECKS {
            if other != unknown && rows[other][unknown] {
                for k in 0..=CHECKS {
                    let bit = rows[unknown][k];
                    rows[other][k] ^= bit;
                }
            }
        }
    }
    let mut solution = [false; CHECKS];
    for unknown in 0..CHECKS {
        solution[unknown] = rows[unknown][CHECKS];
    }
    solution
}
